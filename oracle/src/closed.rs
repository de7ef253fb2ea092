//! 02's L13, whether a mesh is closed: the archive's answer, and 02's words counted edge by edge.
use crate::meshes::{Mesh, refusal};
use std::collections::HashMap;

unsafe extern "C" {
    fn cauchy_closed(xyz: *const f64, n: usize, faces: *const u32, m: usize) -> u32;
}

/// The archive's: 0, 1, 2, 3 or 22.
pub fn closed(mesh: &Mesh) -> u32 {
    let Mesh { xyz, faces } = mesh;
    // SAFETY: two runs of these lengths, which are only read.
    unsafe { cauchy_closed(xyz.as_ptr(), xyz.len(), faces.as_ptr(), faces.len()) }
}

/// What keeps a mesh from passing, the first of these that it has.
#[derive(Clone, Copy, Debug, PartialEq, Eq)]
pub enum Fault {
    CornerTwice,
    EdgeTwice,
    NoReverse,
}

/// "A mesh passes exactly when no face names a corner twice and each directed edge of a face occurs once over all faces, with its reverse
/// also once."
pub fn fault(faces: &[u32]) -> Option<Fault> {
    let edges = || faces.chunks(3).flat_map(|f| [(f[0], f[1]), (f[1], f[2]), (f[2], f[0])]);
    let mut times: HashMap<(u32, u32), u32> = HashMap::new();
    edges().for_each(|edge| *times.entry(edge).or_default() += 1);
    if edges().any(|(from, to)| from == to) {
        Some(Fault::CornerTwice)
    } else if times.values().any(|n| *n > 1) {
        Some(Fault::EdgeTwice)
    } else if edges().any(|(from, to)| !times.contains_key(&(to, from))) {
        Some(Fault::NoReverse)
    } else {
        None
    }
}

/// "1, 2 and 3 apply first; 22 when a mesh doesn't pass": the number, and what the fault is where it is 22.
pub fn number(mesh: &Mesh) -> (u32, Option<Fault>) {
    match refusal(mesh) {
        0 => fault(&mesh.faces).map_or((0, None), |fault| (22, Some(fault))),
        no => (no, None),
    }
}
