//! Whether a mesh is closed, beside a plain way: the numbers of all directed edges in a vector on the heap, sorted, looked through for
//! pairs. The meshes are closed, so that both look at every edge.
use crate::table::{Row, Timings, Way};
use oracle::closed::closed;
use oracle::inputs::Rng;
use oracle::meshes::Mesh;
use oracle::solids::{Solid, bipyramid, torus};
use std::rc::Rc;

pub fn rows(timings: &mut Timings) {
    let large = torus(1_000, 1_000);
    row(timings, "2,000,000 faces, vertices and faces in no order", large.clone().shuffled(&mut Rng(1)), Some(3.5));
    row(timings, "2,000,000 faces in mesh order", large, Some(1.6));
    row(timings, "20,000 faces in mesh order", torus(100, 100), Some(1.5));
    row(timings, "2,000,000 faces about two hubs", bipyramid(1_000_000), None);
}

fn row(timings: &mut Timings, name: &str, solid: Solid, most: Option<f64>) {
    let mesh = Rc::new(solid.mesh(|_| 0.5));
    let of_ours = mesh.clone();
    let (turns, long) = ((20_000 / solid.faces.len()).max(1), solid.faces.len() > 100_000);
    let ours = timings.way(Way::turns(turns, 1, move || assert_eq!(closed(&of_ours), 0)).seldom(long));
    let plain = timings.way(Way::turns(turns, 1, move || assert!(sorted(&mesh))).seldom(long));
    let row = Row::new(format!("closed, {name}, against a sort"), ours).platform(plain);
    timings.row(if let Some(most) = most { row.within(most) } else { row });
}

/// Whether each edge stands beside its reverse, once; of an edge and its reverse the number of the first is even.
#[inline(never)]
fn sorted(Mesh { xyz, faces }: &Mesh) -> bool {
    if faces.iter().any(|i| *i as usize >= xyz.len() / 3) {
        return false;
    }
    let number = |from: u32, to: u32| (u64::from(from.min(to)) << 20 | u64::from(from.max(to))) << 1 | u64::from(from > to);
    let mut numbers: Vec<u64> = Vec::with_capacity(faces.len());
    for f in faces.chunks_exact(3) {
        if f[0] == f[1] || f[1] == f[2] || f[2] == f[0] {
            return false;
        }
        numbers.extend([number(f[0], f[1]), number(f[1], f[2]), number(f[2], f[0])]);
    }
    numbers.sort_unstable();
    numbers.chunks(2).all(|pair| pair[0] % 2 == 0 && pair.get(1) == Some(&(pair[0] + 1)))
}
