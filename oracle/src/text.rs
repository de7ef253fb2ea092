//! The original's functions that a store's machine rests on, by any of its texts: with 01's powers by the archive, or by the second
//! transcription, or by the archive but without 02's L2, as stores were worked before it.
use crate::original::{native, native_before, native_steps};
use crate::pieces::Kernel;

pub trait Text {
    /// `adaptive_cauchy_decompose`: all pieces in order, and the greatest error.
    fn decompose(kernels: &[Kernel], radius: f64) -> (Vec<Kernel>, f64);
    fn kernel_volume(xyz: &[f64], faces: &[u32], c: [f64; 3], sigma: f64) -> f64;
    fn body_volume(xyz: &[f64], faces: &[u32]) -> f64;
    fn kernel_field_mass(xyz: &[f64], faces: &[u32], kernels: &[Kernel]) -> f64;
    fn densitize(kernels: &[Kernel], x: [f64; 3]) -> f64;
}

macro_rules! text {
    ($name:ident, $module:ident) => {
        pub struct $name;

        impl $name {
            fn theirs(kernels: &[Kernel]) -> Vec<$module::KernelSi> {
                kernels.iter().map(|k| $module::KernelSi { c: k.c, sigma: k.sigma, w: k.w, alpha: k.alpha }).collect()
            }

            fn mesh(xyz: &[f64], faces: &[u32]) -> $module::Mesh {
                $module::Mesh { xyz: xyz.to_vec(), faces: faces.to_vec() }
            }
        }

        impl Text for $name {
            fn decompose(kernels: &[Kernel], radius: f64) -> (Vec<Kernel>, f64) {
                let (pieces, error) = $module::decompose(&Self::theirs(kernels), radius);
                (pieces.iter().map(|k| Kernel { c: k.c, sigma: k.sigma, w: k.w, alpha: k.alpha }).collect(), error)
            }
            fn kernel_volume(xyz: &[f64], faces: &[u32], c: [f64; 3], sigma: f64) -> f64 {
                $module::kernel_volume(&Self::mesh(xyz, faces), c, sigma)
            }
            fn body_volume(xyz: &[f64], faces: &[u32]) -> f64 {
                $module::body_volume(&Self::mesh(xyz, faces))
            }
            fn kernel_field_mass(xyz: &[f64], faces: &[u32], kernels: &[Kernel]) -> f64 {
                $module::kernel_field_mass(&Self::mesh(xyz, faces), &Self::theirs(kernels))
            }
            fn densitize(kernels: &[Kernel], x: [f64; 3]) -> f64 {
                $module::densitize(&Self::theirs(kernels), &x)
            }
        }
    };
}

text!(ByArchive, native);
text!(ByTranscription, native_steps);
text!(BeforeTens, native_before);

/// `kernel_volume`'s running sum, brought on from `sum` over the faces `from` to `to`: the original's loop, which starts at 0 and at the
/// first face, written again over its own quadrature and helpers. It is asked where a store holds a volume that no such sum gave.
pub fn volume_on(xyz: &[f64], faces: &[u32], c: [f64; 3], sigma: f64, done: std::ops::Range<usize>, sum: f64) -> f64 {
    helpers::volume_on(&helpers::Mesh { xyz: xyz.to_vec(), faces: faces.to_vec() }, c, sigma, done, sum)
}

#[allow(dead_code, clippy::all)]
mod helpers {
    use crate::original::archive::{Functions, ten};
    include!(concat!(env!("OUT_DIR"), "/native.rs"));

    pub fn volume_on(mesh: &Mesh, c: [f64; 3], sigma: f64, done: std::ops::Range<usize>, mut sum: f64) -> f64 {
        for f in done {
            let [p0, p1, p2] = mesh.face(f).map(|i| mesh.vertex(i as usize));
            let n = cross(sub(p1, p0), sub(p2, p1));
            for (b, w) in DUNANT7 {
                let y = [0, 1, 2].map(|k| b[0] * p0[k] + b[1] * p1[k] + b[2] * p2[k]);
                let d = sub(y, c);
                sum += w * radial_g(sigma * norm(d)) * dot(d, n) * 0.5;
            }
        }
        sum
    }
}
