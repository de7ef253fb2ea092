//! Closed solids by their corners alone, and changes that leave them closed or do not: for 02's check of closed meshes, which looks at no
//! coordinate.
use crate::inputs::Rng;
use crate::meshes::Mesh;

#[derive(Clone, Debug, Default)]
pub struct Solid {
    pub verts: u32,
    pub faces: Vec<[u32; 3]>,
}

/// Two faces back to back: by 02's words closed.
pub fn leaf() -> Solid {
    Solid { verts: 3, faces: vec![[0, 1, 2], [0, 2, 1]] }
}

pub fn tetrahedron() -> Solid {
    Solid { verts: 4, faces: vec![[0, 2, 1], [0, 1, 3], [1, 2, 3], [2, 0, 3]] }
}

pub fn cube() -> Solid {
    let sides = [[0, 2, 3, 1], [4, 5, 7, 6], [0, 1, 5, 4], [2, 6, 7, 3], [0, 4, 6, 2], [1, 3, 7, 5]];
    Solid { verts: 8, faces: sides.into_iter().flat_map(|[a, b, c, d]| [[a, b, c], [a, c, d]]).collect() }
}

/// Two poles over a ring of so many vertices, 3 at least: each pole is a corner of as many faces.
pub fn bipyramid(around: u32) -> Solid {
    let ring = |i: u32| 2 + i % around;
    let faces = (0..around).flat_map(|i| [[0, ring(i), ring(i + 1)], [1, ring(i + 1), ring(i)]]).collect();
    Solid { verts: 2 + around, faces }
}

/// A torus of so many rings of so many vertices, 3 at least of both: two faces a vertex, in mesh order.
pub fn torus(rings: u32, around: u32) -> Solid {
    let at = |i: u32, j: u32| i % rings * around + j % around;
    let faces = (0..rings).flat_map(|i| {
        (0..around).flat_map(move |j| {
            let [a, b, c, d] = [at(i, j), at(i, j + 1), at(i + 1, j + 1), at(i + 1, j)];
            [[a, b, c], [a, c, d]]
        })
    });
    Solid { verts: rings * around, faces: faces.collect() }
}

/// Any order of the numbers below n.
fn order(r: &mut Rng, n: u32) -> Vec<u32> {
    let mut all: Vec<u32> = (0..n).collect();
    for i in (1..n as usize).rev() {
        let other = r.below(i as u64 + 1) as usize;
        all.swap(i, other);
    }
    all
}

impl Solid {
    /// Any face's position.
    fn face(&self, r: &mut Rng) -> usize {
        r.below(self.faces.len() as u64) as usize
    }

    /// The corners by other numbers, the faces in another order, each from any of its corners.
    pub fn shuffled(self, r: &mut Rng) -> Solid {
        let names = order(r, self.verts);
        let faces = order(r, self.faces.len() as u32).into_iter().map(|i| {
            let mut face = self.faces[i as usize].map(|k| names[k as usize]);
            face.rotate_left(r.below(3) as usize);
            face
        });
        Solid { verts: self.verts, faces: faces.collect() }
    }

    /// Another shell, which has so many vertices in common with this one, the last of this and the first of the other.
    pub fn with(mut self, other: Solid, common: u32) -> Solid {
        let from = self.verts - common;
        self.faces.extend(other.faces.into_iter().map(|face| face.map(|k| k + from)));
        Solid { verts: from + other.verts, faces: self.faces }
    }

    pub fn mesh(&self, xyz: impl FnMut(usize) -> f64) -> Mesh {
        Mesh { xyz: (0..3 * self.verts as usize).map(xyz).collect(), faces: self.faces.concat() }
    }
}

/// A change of a solid that has faces.
pub type Change = fn(&mut Rng, &mut Solid);

/// By the first three a closed solid stays closed.
pub const CHANGES: [(&str, Change); 8] = [
    ("whole", |_, _| ()),
    ("inside out", |_, solid| solid.faces.iter_mut().for_each(|face| face.swap(0, 1))),
    ("vertices in no face", |r, solid| solid.verts += 1 + r.below(3) as u32),
    ("a face removed", |r, solid| {
        let i = solid.face(r);
        solid.faces.remove(i);
    }),
    ("a face doubled", |r, solid| {
        let (i, to) = (solid.face(r), r.below(solid.faces.len() as u64 + 1) as usize);
        solid.faces.insert(to, solid.faces[i]);
    }),
    ("a face turned", |r, solid| {
        let i = solid.face(r);
        solid.faces[i].swap(1, 2);
    }),
    ("a corner exchanged", |r, solid| {
        let i = solid.face(r);
        solid.faces[i][r.below(3) as usize] = r.below(solid.verts.into()) as u32;
    }),
    ("a corner twice", |r, solid| {
        let (i, k) = (solid.face(r), r.below(3) as usize);
        solid.faces[i][k] = solid.faces[i][(k + 1) % 3];
    }),
];
