//! Corners joined to vertices: those whose coordinates have equal bits are one vertex, and vertices come in the order
//! of their first corners.
use crate::input::{MeshFile, Told};

/// Where a vertex is found: its number, and the hash of its coordinates.
#[derive(Clone, Copy)]
struct Slot {
    vertex: u32,
    hash: u32,
}

const EMPTY: Slot = Slot { vertex: u32::MAX, hash: 0 };

/// The slots for the last vertices that were found.
const RECENT: usize = 1 << 13;

/// A mesh that is made of triangles, and tables that find its vertices.
pub struct Joining {
    mesh: MeshFile,
    /// Every vertex, in the slot that the low bits of its hash tell or behind it. There are a power of two of slots,
    /// at least two for each vertex.
    slots: Vec<Slot>,
    /// The last vertices that were found. Triangles that come one after the other share vertices mostly, and these
    /// slots are few, so that they stay near the processor.
    recent: Vec<Slot>,
}

impl Joining {
    pub fn new() -> Joining {
        Joining { mesh: MeshFile::default(), slots: vec![EMPTY; RECENT], recent: vec![EMPTY; RECENT] }
    }

    pub fn add_triangle(&mut self, corners: [[f64; 3]; 3]) -> Told<()> {
        let [a, b, c] = corners;
        let triangle = [self.vertex(a)?, self.vertex(b)?, self.vertex(c)?];
        self.mesh.add_triangle(triangle)
    }

    pub fn mesh(self) -> MeshFile {
        self.mesh
    }

    /// The vertex of a corner.
    fn vertex(&mut self, corner: [f64; 3]) -> Told<u32> {
        let hash = hash(bits(corner));
        let recent = hash as usize % RECENT;
        if !self.is_at(self.recent[recent], hash, corner) {
            self.recent[recent] = self.found(hash, corner)?;
        }
        Ok(self.recent[recent].vertex)
    }

    /// The slot of a corner's vertex, which is added where it is new.
    fn found(&mut self, hash: u32, corner: [f64; 3]) -> Told<Slot> {
        if self.slots.len() <= 2 * self.mesh.vertices.len() {
            self.grow();
        }
        let slot = place(&self.slots, hash, |slot| self.is_at(slot, hash, corner));
        if self.slots[slot].vertex == EMPTY.vertex {
            self.slots[slot] = Slot { vertex: self.mesh.vertices.len() as u32, hash };
            self.mesh.add_vertex(corner)?;
        }
        Ok(self.slots[slot])
    }

    /// Whether a slot's vertex, if it has one, is at a corner.
    fn is_at(&self, slot: Slot, hash: u32, corner: [f64; 3]) -> bool {
        let vertex = self.mesh.vertices.get(slot.vertex as usize).filter(|_| slot.hash == hash);
        vertex.is_some_and(|vertex| bits(*vertex) == bits(corner))
    }

    fn grow(&mut self) {
        let mut slots = vec![EMPTY; 2 * self.slots.len()];
        for slot in self.slots.iter().filter(|slot| slot.vertex != EMPTY.vertex) {
            let place = place(&slots, slot.hash, |_| false);
            slots[place] = *slot;
        }
        self.slots = slots;
    }
}

/// The place of the slot that is meant, or of the first empty one.
fn place(slots: &[Slot], hash: u32, is_meant: impl Fn(Slot) -> bool) -> usize {
    let low = slots.len() - 1;
    let mut place = hash as usize & low;
    while slots[place].vertex != EMPTY.vertex && !is_meant(slots[place]) {
        place = (place + 1) & low;
    }
    place
}

fn bits(corner: [f64; 3]) -> [u64; 3] {
    corner.map(f64::to_bits)
}

/// A number in which every bit of the coordinates counts. A product carries differences upward, so it is turned before
/// the next one, and of the last one the upper half is taken.
fn hash(bits: [u64; 3]) -> u32 {
    const ODD: u64 = 0x9E37_79B9_7F4A_7C15;
    let mix = |hash: u64, bits: u64| (hash ^ bits).wrapping_mul(ODD).rotate_left(29);
    (bits.into_iter().fold(0, mix).wrapping_mul(ODD) >> 32) as u32
}

#[cfg(test)]
mod tests {
    use super::*;

    #[test]
    fn equal_bits_are_one_vertex() {
        let mut joining = Joining::new();
        let corners = [[1.0, 2.0, 3.0], [0.0, 0.0, 0.0], [-0.0, 0.0, 0.0]];
        joining.add_triangle(corners).unwrap();
        joining.add_triangle([corners[2], [1.0, 2.0, 4.0], corners[0]]).unwrap();
        let mesh = joining.mesh();
        assert_eq!(mesh.faces, [[0, 1, 2], [2, 3, 0]]);
        let seen: Vec<_> = mesh.vertices.into_iter().map(bits).collect();
        assert_eq!(seen, [corners[0], corners[1], corners[2], [1.0, 2.0, 4.0]].map(bits));
    }

    #[test]
    fn a_table_that_grows_loses_no_vertex() {
        let corner = |i: u32| [f64::from(i as f32 / 7.0), f64::from(i % 5), -1.0];
        let mut joining = Joining::new();
        for i in 0..50_000 {
            joining.add_triangle([i, i + 1, i / 2].map(corner)).unwrap();
        }
        let mesh = joining.mesh();
        assert_eq!(mesh.vertices.len(), 50_001);
        for (i, face) in (0..).zip(&mesh.faces) {
            let corners = face.map(|vertex| mesh.vertices[vertex as usize]);
            assert_eq!(corners, [i, i + 1, i / 2].map(corner));
        }
    }

    #[test]
    fn an_equal_hash_is_not_an_equal_corner() {
        let corner = |i: u32| [f64::from(i), 0.5, -f64::from(i)];
        let mut seen = std::collections::HashMap::new();
        let mut pairs = (0..1_000_000).filter_map(|i| Some((seen.insert(hash(bits(corner(i))), i)?, i)));
        let (one, other) = pairs.next().unwrap();
        let mut joining = Joining::new();
        joining.add_triangle([one, other, one].map(corner)).unwrap();
        joining.add_triangle([other, one, other].map(corner)).unwrap();
        let mesh = joining.mesh();
        assert_eq!(mesh.vertices, [one, other].map(corner));
        assert_eq!(mesh.faces, [[0, 1, 0], [1, 0, 1]]);
    }

    #[test]
    fn hashes_of_a_grid_are_spread() {
        // corners of single precision on a grid: at most a few share a slot of a table of two times their number
        let mut slots = vec![0; 1 << 14];
        let side = |i: u32| f64::from(i as f32 * 0.1);
        for i in 0..8000 {
            let hash = hash([side(i % 20), side(i / 20 % 20), side(i / 400)].map(f64::to_bits));
            slots[hash as usize % (1 << 14)] += 1;
        }
        assert!(slots.iter().all(|n| *n < 10), "{:?}", slots.iter().max());
    }
}
