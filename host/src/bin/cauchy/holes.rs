//! Where a mesh is not closed. Whether it is closed the archive tells, by its proved check; what is here only
//! shows people where to look, and is not proved.
use crate::edges::{self, sides};
use crate::figures::{count, counted, short};
use cauchy::Mesh;
use std::collections::HashMap;

/// How many of each kind are shown.
const SHOWN: usize = 4;

/// What keeps a mesh from being closed.
#[derive(Debug, PartialEq)]
pub struct Holes {
    /// How many edges do not occur once each way.
    edges: usize,
    first_edges: Vec<Edge>,
    /// How many faces name a corner twice.
    faces: usize,
    first_faces: Vec<[u32; 3]>,
}

/// Two vertices, and how many faces go from the first to the second, and back.
#[derive(Debug, PartialEq)]
struct Edge {
    ends: [u32; 2],
    there: u64,
    back: u64,
}

impl Holes {
    /// All of them, and the first in the order of the faces.
    pub fn find(mesh: Mesh<'_>) -> Holes {
        let mut uneven: HashMap<_, _> = edges::uneven(mesh)
            .into_iter()
            .map(|edge| ((edge.low, edge.high), [edge.up, edge.down]))
            .collect();
        let edges = uneven.len();
        let edge = |[from, to]: [u32; 2]| {
            let [up, down] = uneven.remove(&(from.min(to), from.max(to)))?;
            let (there, back) = if from < to { (up, down) } else { (down, up) };
            Some(Edge { ends: [from, to], there, back })
        };
        let shown = SHOWN.min(edges);
        let first_edges = mesh.faces.iter().flat_map(sides).filter_map(edge).take(shown).collect();
        let twice = edges::doubled(mesh);
        Holes {
            edges,
            first_edges,
            faces: twice.clone().count(),
            first_faces: twice.take(SHOWN).copied().collect(),
        }
    }

    /// Whether there are none: the mesh is closed.
    pub fn are_none(&self) -> bool {
        self.edges == 0 && self.faces == 0
    }

    /// In words, vertices counted from 1 as in an OBJ file.
    pub fn lines(&self, mesh: Mesh<'_>) -> Vec<String> {
        let at = |vertex: u32| {
            let [x, y, z] = mesh.vertices[vertex as usize].map(|x| short(x / 1000.0));
            format!("({x}, {y}, {z})")
        };
        let edge = |edge: &Edge| {
            let [from, to] = edge.ends.map(|end| u64::from(end) + 1);
            let [there, back] = [edge.there, edge.back].map(|n| counted(n, "face"));
            let [start, end] = edge.ends.map(at);
            format!("  {from} → {to} in {there}, {to} → {from} in {back}: {start} to {end} km")
        };
        let face = |face: &[u32; 3]| {
            let [a, b, c] = face.map(|corner| u64::from(corner) + 1);
            format!("  {a} {b} {c}: at {} km", at(face[0]))
        };
        let mut lines = Vec::new();
        if self.edges > 0 {
            lines.push(head("edges that do not occur once each way", self.edges));
            lines.extend(self.first_edges.iter().map(edge));
        }
        if self.faces > 0 {
            lines.push(head("faces that name a corner twice", self.faces));
            lines.extend(self.first_faces.iter().map(face));
        }
        lines
    }
}

fn head(what: &str, found: usize) -> String {
    let shown = if found > SHOWN { format!(", the first {SHOWN} here") } else { String::new() };
    format!("{what}: {}{shown} (vertices counted from 1)", count(found as u64))
}

#[cfg(test)]
mod tests {
    use super::*;
    use cauchy::Refusal;

    const VERTICES: [[f64; 3]; 4] = [[0.0; 3], [900.0, 0.0, 0.0], [0.0, 800.0, 0.0], [0.0, 0.0, 700.0]];
    const FACES: [[u32; 3]; 4] = [[0, 2, 1], [0, 1, 3], [0, 3, 2], [1, 2, 3]];

    fn lines(faces: &[[u32; 3]]) -> Vec<String> {
        let mesh = Mesh { vertices: &VERTICES, faces };
        Holes::find(mesh).lines(mesh)
    }

    #[test]
    fn holes_are_named_by_their_edges() {
        assert_eq!(lines(&FACES), [""; 0]);
        let hole = [
            "edges that do not occur once each way: 3 (vertices counted from 1)",
            "  1 → 3 in 1 face, 3 → 1 in 0 faces: (0, 0, 0) to (0, 0.8, 0) km",
            "  3 → 2 in 1 face, 2 → 3 in 0 faces: (0, 0.8, 0) to (0.9, 0, 0) km",
            "  2 → 1 in 1 face, 1 → 2 in 0 faces: (0.9, 0, 0) to (0, 0, 0) km",
        ];
        assert_eq!(lines(&FACES[..1]), hole);
        let [a, b, c, d] = FACES;
        let turned = lines(&[a, b, c, [d[0], d[2], d[1]]]);
        assert_eq!(turned[1], "  3 → 2 in 2 faces, 2 → 3 in 0 faces: (0, 0.8, 0) to (0.9, 0, 0) km");
        let double = lines(&[a, b, c, d, a]);
        assert_eq!(double[1], "  1 → 3 in 2 faces, 3 → 1 in 1 face: (0, 0, 0) to (0, 0.8, 0) km");
        let many = lines(&[[0, 1, 2], [0, 1, 3]]);
        assert_eq!(
            many[0],
            "edges that do not occur once each way: 5, the first 4 here (vertices counted from 1)"
        );
        assert_eq!(many.len(), 5);
    }

    #[test]
    fn faces_that_name_a_corner_twice_are_named() {
        let [a, b, c, d] = FACES;
        let twice =
            ["faces that name a corner twice: 1 (vertices counted from 1)", "  2 2 2: at (0.9, 0, 0) km"];
        assert_eq!(lines(&[a, b, c, d, [1, 1, 1]]), twice);
        assert_eq!(lines(&[[3, 0, 3]]).len(), 2);
        assert_eq!(lines(&[[3, 3, 3]; 5]).len(), 5);
    }

    /// Whether the mesh is closed, as the archive and as this file have it: they must agree.
    fn closed(faces: &[[u32; 3]]) -> bool {
        let mesh = Mesh { vertices: &VERTICES, faces };
        let told = mesh.closed();
        assert!(matches!(told, Ok(()) | Err(Refusal::NotClosed)), "{faces:?}: {told:?}");
        assert_eq!(told.is_ok(), Holes::find(mesh).lines(mesh).is_empty(), "{faces:?}");
        told.is_ok()
    }

    #[test]
    fn the_archive_finds_the_same_meshes_closed() {
        let face = |i: u32| [i % 4, i / 4 % 4, i / 16];
        let pairs = (0..64).flat_map(|i| (0..64).map(move |j| [face(i), face(j)]));
        // two faces are closed where one is the other inside out: 24 of three different corners, 3 turns each
        assert_eq!(pairs.filter(|pair| closed(pair)).count(), 72);
        // every edge twice each way is not once each way
        assert!(closed(&[]) && closed(&FACES) && !closed(&[FACES, FACES].concat()));
        for (corner, vertex) in (0..12).flat_map(|corner| (0..4).map(move |vertex| (corner, vertex))) {
            let mut faces = FACES;
            let was = std::mem::replace(&mut faces[corner / 3][corner % 3], vertex);
            assert_eq!(closed(&faces), vertex == was, "{faces:?}");
        }
    }
}
