//! The original's own text, taken from its files when this package is built (build/text.rs), in these modules:
//!
//! | module | roots and powers |
//! |---|---|
//! | [`native`], [`source`] | 01's, by the archive's C functions |
//! | [`native_steps`], [`source_steps`] | 01's, by the second transcription |
//! | [`native_before`] | 01's, by the archive's C functions, and ten to a power without 02's L2 |
//! | [`native_platform`] | the platform's: the text unchanged |
//!
//! Beside the text each has doors to the functions that are private in it.

/// What the changed text calls in place of the platform's functions.
macro_rules! functions {
    ($name:ident, $root:path, $arc:path, $power:path, $log10:path, $ten:path) => {
        pub(crate) mod $name {
            pub use $ten as ten;

            pub trait Functions {
                fn root(self) -> f64;
                fn arc(self) -> f64;
                fn power(self, y: f64) -> f64;
                fn log_ten(self) -> f64;
            }

            impl Functions for f64 {
                #[inline]
                fn root(self) -> f64 {
                    $root(self)
                }
                #[inline]
                fn arc(self) -> f64 {
                    $arc(self)
                }
                #[inline]
                fn power(self, y: f64) -> f64 {
                    $power(self, y)
                }
                #[inline]
                fn log_ten(self) -> f64 {
                    $log10(self)
                }
            }
        }
    };
}

functions!(archive, crate::cauchy_root, crate::cauchy_arc, crate::cauchy_power, crate::cauchy_log10, crate::cauchy_ten);
functions!(before_tens, crate::cauchy_root, crate::cauchy_arc, crate::cauchy_power, crate::cauchy_log10, crate::ten_before);
functions!(transcribed, crate::steps::root, crate::steps::arc, crate::steps::power, crate::steps::log10, crate::steps::ten);

/// The doors to a native module's private functions.
macro_rules! native_doors {
    () => {
        /// `solve_linear_system`.
        pub fn solve(rows: &mut [Vec<f64>]) -> Option<Vec<f64>> {
            solve_linear_system(rows)
        }

        /// `adaptive_cauchy_decompose`: the pieces and the greatest error.
        pub fn decompose(kernels: &[KernelSi], radius: f64) -> (Vec<KernelSi>, f64) {
            let (pieces, report) = adaptive_cauchy_decompose(kernels, radius);
            (pieces, report.max_peak_error)
        }

        /// One file kernel in metres, as `from_toml_impl` maps it.
        pub fn carry(k: &CauchyKernel, alpha_default: f64) -> KernelSi {
            carried(k, alpha_default)
        }

        /// The same of a list, six floats each.
        pub fn load(list: &[CauchyKernel], alpha_default: f64) -> Vec<f64> {
            let floats = |k: KernelSi| [k.c[0], k.c[1], k.c[2], k.sigma, k.w, k.alpha];
            list.iter().flat_map(|k| floats(carried(k, alpha_default))).collect()
        }

        /// How many terms and samples a fit has.
        pub fn size(delta: f64) -> (usize, usize) {
            fit_size(delta)
        }

        /// The points' shares and weights of a triangle's rule.
        pub fn rule() -> [([f64; 3], f64); 7] {
            DUNANT7
        }
    };
}

#[allow(dead_code, clippy::all)]
pub mod native {
    use super::archive::{Functions, ten};
    include!(concat!(env!("OUT_DIR"), "/native.rs"));
    native_doors!();
}

#[allow(dead_code, clippy::all)]
pub mod native_steps {
    use super::transcribed::{Functions, ten};
    include!(concat!(env!("OUT_DIR"), "/native.rs"));
    native_doors!();
}

#[allow(dead_code, clippy::all)]
pub mod native_before {
    use super::before_tens::{Functions, ten};
    include!(concat!(env!("OUT_DIR"), "/native.rs"));
    native_doors!();
}

#[allow(dead_code, clippy::all)]
pub mod native_platform {
    include!(concat!(env!("OUT_DIR"), "/native_platform.rs"));
    native_doors!();
}

/// The doors to a source module's private functions. Kernels are six floats each, triangles the corners of the faces in face order.
macro_rules! source_doors {
    () => {
        /// `radial_g`.
        pub fn radial(t: f64) -> f64 {
            radial_g(t)
        }

        fn kernels_of(list: &[f64]) -> Vec<Kernel> {
            list.chunks_exact(6).map(|k| Kernel { c: [k[0], k[1], k[2]], sigma: k[3], w: k[4], alpha: k[5] }).collect()
        }

        fn floats_of(list: Vec<Kernel>) -> Vec<f64> {
            list.iter().flat_map(|k| [k.c[0], k.c[1], k.c[2], k.sigma, k.w, k.alpha]).collect()
        }

        fn triangles_of(xyz: &[f64], faces: &[u32]) -> Vec<Triangle> {
            let corner = |i: u32| [0, 1, 2].map(|k| xyz[3 * i as usize + k]);
            faces.chunks_exact(3).map(|f| Triangle { a: corner(f[0]), b: corner(f[1]), c: corner(f[2]), normal: [0.0; 3] }).collect()
        }

        /// `density_at`.
        pub fn density(kernels: &[f64], point: [f64; 3]) -> f64 {
            density_at(&kernels_of(kernels), point)
        }

        /// `kernel_volume`.
        pub fn volume(xyz: &[f64], faces: &[u32], c: [f64; 3], sigma: f64) -> f64 {
            kernel_volume(&triangles_of(xyz, faces), c, sigma)
        }

        /// `mesh_enclosed_volume`.
        pub fn enclosed(xyz: &[f64], faces: &[u32]) -> f64 {
            mesh_enclosed_volume(&triangles_of(xyz, faces))
        }

        /// `normalize_kernels`; none where it tells of an exponent.
        pub fn normalize(xyz: &[f64], faces: &[u32], kernels: &[f64], target: f64) -> Option<Vec<f64>> {
            normalize_kernels(&triangles_of(xyz, faces), &kernels_of(kernels), target).ok().map(floats_of)
        }

        /// `parse_density_text` of a file's entries and its default exponent.
        pub fn load(entries: &[CauchyKernel], alpha_default: f64) -> Vec<f64> {
            let entry = |k: &CauchyKernel| KernelEntry { c: k.c, sigma: k.sigma, w: k.w, alpha: k.alpha };
            let kernels = entries.iter().map(entry).collect();
            let file = DensityFile { alpha_default, total_mass_target: 0.0, mean_density: None, bulk_density_ref: None, kernels };
            floats_of(parsed(file).expect("no TOML is read").kernels)
        }

        /// `calibrate_kernels`; none where it tells of an exponent.
        pub fn calibrate(xyz: &[f64], faces: &[u32], kernels: &[f64], total: f64, mean: Option<f64>) -> Option<Vec<f64>> {
            let of = ParsedDensity { kernels: kernels_of(kernels), total_mass_target: total, mean_density_target: mean };
            calibrate_kernels(&triangles_of(xyz, faces), &of).ok().map(floats_of)
        }
    };
}

#[allow(dead_code, clippy::all)]
pub mod source {
    use super::archive::Functions;
    use super::native::CauchyKernel;
    include!(concat!(env!("OUT_DIR"), "/source.rs"));
    source_doors!();
}

#[allow(dead_code, clippy::all)]
pub mod source_steps {
    use super::native::CauchyKernel;
    use super::transcribed::Functions;
    include!(concat!(env!("OUT_DIR"), "/source.rs"));
    source_doors!();
}
