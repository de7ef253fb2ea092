//! Meshes for the comparison with the original's text: closed, open, degenerate, of coordinates that are no ordinary numbers; and faults
//! that a call refuses.
use crate::cases::{self, either_sign, one};
use crate::inputs::{self, Rng};

/// A run of coordinates, three to a vertex, and a run of corners, three to a face.
#[derive(Clone, Debug, Default)]
pub struct Mesh {
    pub xyz: Vec<f64>,
    pub faces: Vec<u32>,
}

/// One mesh, by a family's way.
pub type Draw = fn(&mut Rng) -> Mesh;

/// The families of meshes that are accepted.
pub const MESHES: [(&str, Draw); 11] = [
    ("tetrahedra", tetrahedron),
    ("boxes", cuboid),
    ("spheres", |r| {
        let (radius, rings) = (r.spread(-2, 12), 2 + r.below(5) as usize);
        placed(r, sphere(radius, rings))
    }),
    ("a sphere about the origin", |r| sphere(r.spread(2, 11), 2 + r.below(5) as usize)),
    ("open", |r| {
        let mut mesh = closed(r);
        for _ in 0..1 + r.below(4) {
            let f = 3 * r.below((mesh.faces.len() / 3).max(1) as u64) as usize;
            mesh.faces.drain(f..(f + 3).min(mesh.faces.len()));
        }
        mesh
    }),
    ("faces of any corners", |r| {
        let vertices = 1 + r.below(12);
        let xyz = (0..3 * vertices).map(|_| r.within(-600.0, 600.0)).collect();
        let faces = (0..3 * r.below(20)).map(|_| r.below(vertices) as u32).collect();
        Mesh { xyz, faces }
    }),
    ("degenerate", degenerate),
    ("no faces", |r| {
        let vertices = r.below(4);
        Mesh { xyz: (0..3 * vertices).map(|_| cases::value(r, 500.0)).collect(), faces: Vec::new() }
    }),
    ("seldom an odd coordinate", |r| {
        let mut mesh = closed(r);
        for _ in 0..1 + r.below(3) {
            let i = r.below(mesh.xyz.len() as u64) as usize;
            mesh.xyz[i] = cases::odd(r);
        }
        mesh
    }),
    ("coordinates of any bits", |r| {
        let mut mesh = closed(r);
        let rare = 1 + r.below(8);
        for x in &mut mesh.xyz {
            if r.below(rare) == 0 {
                *x = inputs::any(r);
            }
        }
        mesh
    }),
    ("huge and tiny", |r| {
        let mut mesh = closed(r);
        let by = if r.below(2) == 0 { r.spread(20, 1000) } else { r.spread(-1000, -20) };
        mesh.xyz.iter_mut().for_each(|x| *x *= by);
        mesh
    }),
];

/// A closed mesh of some family.
fn closed(r: &mut Rng) -> Mesh {
    let draw = MESHES[r.below(4) as usize].1;
    draw(r)
}

/// The mesh about another place, seldom turned inside out.
fn placed(r: &mut Rng, mut mesh: Mesh) -> Mesh {
    let by = [(); 3].map(|()| if r.below(3) == 0 { 0.0 } else { r.within(-300.0, 300.0) });
    mesh.xyz.iter_mut().enumerate().for_each(|(i, x)| *x += by[i % 3]);
    if r.below(4) == 0 {
        mesh.faces.chunks_mut(3).for_each(|f| f.swap(1, 2));
    }
    mesh
}

fn tetrahedron(r: &mut Rng) -> Mesh {
    let size = r.spread(-3, 11);
    let xyz = (0..12).map(|_| r.within(-size, size)).collect();
    placed(r, Mesh { xyz, faces: vec![0, 2, 1, 0, 1, 3, 1, 2, 3, 2, 0, 3] })
}

fn cuboid(r: &mut Rng) -> Mesh {
    let half = [(); 3].map(|()| r.spread(-3, 10));
    let corner = |i: usize| [0, 1, 2].map(|k| if i >> k & 1 == 0 { -half[k] } else { half[k] });
    let xyz = (0..8).flat_map(corner).collect();
    let sides = [[0, 2, 3, 1], [4, 5, 7, 6], [0, 1, 5, 4], [2, 6, 7, 3], [0, 4, 6, 2], [1, 3, 7, 5]];
    let faces = sides.into_iter().flat_map(|[a, b, c, d]| [a, b, c, a, c, d]).collect();
    placed(r, Mesh { xyz, faces })
}

/// A sphere about the origin of so many rings from pole to pole, 4·rings·(rings - 1) faces.
pub fn sphere(radius: f64, rings: usize) -> Mesh {
    globe(radius, rings, 2 * rings)
}

/// The same of so many vertices a ring, 2·around·(rings - 1) faces.
pub fn globe(radius: f64, rings: usize, around: usize) -> Mesh {
    let mut mesh = Mesh::default();
    for i in 0..=rings {
        let theta = std::f64::consts::PI * i as f64 / rings as f64;
        for j in 0..around {
            let phi = 2.0 * std::f64::consts::PI * j as f64 / around as f64;
            mesh.xyz.extend([radius * theta.sin() * phi.cos(), radius * theta.sin() * phi.sin(), radius * theta.cos()]);
        }
    }
    let at = |i: usize, j: usize| (i * around + j % around) as u32;
    for i in 0..rings {
        for j in 0..around {
            let [a, b, c, d] = [at(i, j), at(i, j + 1), at(i + 1, j + 1), at(i + 1, j)];
            if i > 0 {
                mesh.faces.extend([a, c, b]);
            }
            if i + 1 < rings {
                mesh.faces.extend([a, d, c]);
            }
        }
    }
    mesh
}

/// Faces of one point or one line, flat bodies, and bodies about as large as the limits 1e-30 and 10.
fn degenerate(r: &mut Rng) -> Mesh {
    let mut mesh = closed(r);
    match r.below(5) {
        0 => mesh.xyz.iter_mut().for_each(|x| *x = 0.0),
        1 => mesh.xyz.iter_mut().skip(2).step_by(3).for_each(|z| *z = 0.0),
        2 => mesh.faces.chunks_mut(3).for_each(|f| f[1] = f[0]),
        3 => mesh.xyz.chunks_mut(3).for_each(|p| p[1] = p[0]),
        _ => {
            // a volume of 1e-30, a reach of 10
            let size = one(r, &[1.8171205928321397e-10, 1e-10, 10.0]);
            mesh = Mesh {
                xyz: vec![0.0, 0.0, 0.0, size, 0.0, 0.0, 0.0, size, 0.0, 0.0, 0.0, size],
                faces: vec![0, 2, 1, 0, 1, 3, 1, 2, 3, 2, 0, 3],
            };
            mesh.xyz.iter_mut().for_each(|x| *x = cases::near(r, *x, 2));
        }
    }
    mesh
}

/// A mesh that a call refuses, or nearly: counts that are no multiple of 3, corners at V and above, both.
pub fn faulty(r: &mut Rng) -> Mesh {
    let draw = MESHES[r.below(MESHES.len() as u64) as usize].1;
    let mut mesh = draw(r);
    if r.below(3) == 0 {
        mesh.xyz.extend((0..1 + r.below(2)).map(|_| 1.0));
    }
    if r.below(3) == 0 {
        mesh.faces.extend((0..1 + r.below(2)).map(|_| 0));
    }
    let vertices = (mesh.xyz.len() / 3) as u32;
    for _ in 0..r.below(3) {
        if !mesh.faces.is_empty() {
            let i = r.below(mesh.faces.len() as u64) as usize;
            mesh.faces[i] = one(r, &[vertices, vertices + 1, u32::MAX, 1 << 31, vertices.saturating_sub(1)]);
        }
    }
    mesh
}

/// The number of the mesh's refusal in 01's table, or 0.
pub fn refusal(mesh: &Mesh) -> u32 {
    let (v, f) = (mesh.xyz.len() / 3, mesh.faces.len() / 3);
    match mesh {
        m if m.xyz.len() % 3 != 0 || m.faces.len() % 3 != 0 => 1,
        _ if v > 1_048_576 || f > 2_097_152 => 2,
        m if m.faces.iter().any(|i| *i as usize >= v) => 3,
        _ => 0,
    }
}

/// A list of up to five kernels about a body, six floats each; the exponents are mostly 1 or about it where `unit`.
pub fn kernels(r: &mut Rng, unit: bool) -> Vec<f64> {
    if r.below(16) == 0 {
        // the mass is the volume
        return vec![0.0, 0.0, 0.0, 0.0, 1.0, 1.0];
    }
    let ordinary = r.below(3) > 0;
    let mut list = Vec::new();
    for _ in 0..r.below(6) {
        for _ in 0..3 {
            list.push(if ordinary { r.within(-400.0, 400.0) } else { cases::value(r, 400.0) });
        }
        list.push(if ordinary { r.spread(-16, 4) } else { cases::length(r, 0.004) });
        list.push(if ordinary { r.within(-3000.0, 3000.0) } else { cases::value(r, 2000.0) });
        list.push(exponent(r, unit));
    }
    list
}

fn exponent(r: &mut Rng, unit: bool) -> f64 {
    if unit && r.below(16) > 0 {
        return match r.below(8) {
            0 => f64::NAN,
            1 | 2 => cases::near(r, 1.0, 3),
            _ => 1.0,
        };
    }
    let draw = cases::EXPONENTS[if unit { 2 } else { r.below(cases::EXPONENTS.len() as u64) as usize }].1;
    draw(r)
}

/// A target, a mean or a bulk density: ordinary, zero, negative, NaN, infinite, any bits.
pub fn target(r: &mut Rng) -> f64 {
    match r.below(12) {
        0 => one(r, &[0.0, -0.0]),
        1 => cases::odd(r),
        2 => inputs::any(r),
        3 => {
            let x = r.spread(-1022, 1024);
            either_sign(r, x)
        }
        4 => -r.spread(0, 40),
        _ => r.spread(0, 40),
    }
}
