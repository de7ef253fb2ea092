//! A part: places of a store with the work that a worker did on them, in a small file that can travel between machines.
//!
//! It has the form of a folder's head, 14,672 bytes, and begins with the eight bytes `CAUCHYP1`: numbers with their
//! lowest byte first and of eight bytes where nothing else is said; the number of the commit that the worker began
//! from; the number and the checksum of its mesh file; the bytes, the lines and the checksum of the log at that commit;
//! the worker's floats before its mesh, by their bits; its words before its mesh, four bytes each; and the checksum of
//! all bytes before it. The worker's store has the places of the part alone, all others are empty. The mesh is not in
//! it: it is that of the folder, by the checksum.
use super::head::{Fault, Head, Magic};
use crate::failure::{Failure, Result};
use crate::input;
use cauchy::{FLOATS_BEFORE_MESH, PLACES, Store, WORDS_BEFORE_MESH};
use std::path::Path;

const MAGIC: Magic =
    Magic::new(b"CAUCHYP1", "not a part of a store's work", "a part of another version of this program");

#[derive(Debug)]
pub struct Part(Head);

impl Part {
    /// What a worker has done that began from this head.
    pub fn of(head: &Head, worker: &Store) -> Part {
        let next = head.next(worker, head.log);
        Part(Head { sequence: head.sequence, ..next })
    }

    pub fn to_bytes(&self) -> Vec<u8> {
        self.0.to_form(&MAGIC)
    }

    /// The part of a file.
    pub fn read(path: &Path) -> Result<Part> {
        Part::parse(path, &input::bytes(path)?)
    }

    pub fn parse(path: &Path, bytes: &[u8]) -> Result<Part> {
        match Head::of_form(&MAGIC, bytes) {
            (Some(head), None) => Ok(Part(head)),
            (_, Some(Fault::Unreadable(what))) => Err(Failure::of_file(path, what)),
            _ => Err(Failure::of_file(path, "damaged: its checksum does not fit its bytes")),
        }
    }

    /// Whether it is of the body of this head: its radius, its counts and its mesh.
    pub fn is_of(&self, head: &Head) -> bool {
        let (own, other) = (self.0.floats[0], head.floats[0]);
        let same_radius = own.to_bits() == other.to_bits() || (own.is_nan() && other.is_nan());
        same_radius && self.0.words[..2] == head.words[..2] && self.0.mesh_sum == head.mesh_sum
    }

    /// The worker's store, with the mesh of the store of that body.
    pub fn store(&self, path: &Path, body: &Store) -> Result<Store> {
        let (floats, words) = body.runs();
        let floats = [&self.0.floats[..], &floats[FLOATS_BEFORE_MESH..]].concat();
        let words = [&self.0.words[..], &words[WORDS_BEFORE_MESH..]].concat();
        Store::from_runs(floats, words).map_err(|fault| Failure::of_file(path, fault))
    }

    /// The steps that its places have in all.
    pub fn steps(&self) -> u64 {
        (0..PLACES as usize).map(|place| self.steps_of(place)).sum()
    }

    fn steps_of(&self, place: usize) -> u64 {
        let state = &self.0.words[2 + 4 * place..][..4];
        u64::from(state[1]).saturating_mul(self.0.faces().into()).saturating_add(state[2].into())
    }
}

#[cfg(test)]
mod tests {
    use super::super::testing::{bits, made, said};
    use super::*;
    use crate::folder::Folder;
    use crate::folder::call::Call;
    use crate::folder::writer::Writer;

    /// A folder with kernels in two places, and the part of one that did so many steps.
    fn worked(path: &Path, place: u32, steps: u64) -> Part {
        let head = Head::read(path).unwrap();
        let mut worker = Folder::read(path).unwrap().store().worker(&[place]).unwrap();
        worker.advance(steps).unwrap();
        Part::of(&head, &worker)
    }

    fn filled() -> (super::super::testing::Scratch, std::path::PathBuf) {
        let (scratch, path) = made();
        let kernel = cauchy::Kernel { c: [1.0; 3], sigma: 0.01, w: 2.0, alpha: 1.5 };
        let put = |place| Call::Put { place, kernel, layer: 2 };
        Writer::open(&path, "test").unwrap().apply(&[put(4), put(9)]).unwrap();
        (scratch, path)
    }

    #[test]
    fn a_part_is_read_as_it_was_written() {
        let (_scratch, path) = filled();
        let part = worked(&path, 4, 7);
        let bytes = part.to_bytes();
        assert_eq!((bytes.len(), &bytes[..8]), (14_672, &b"CAUCHYP1"[..]));
        let read = Part::parse(Path::new("p"), &bytes).unwrap();
        assert_eq!((read.to_bytes(), read.steps()), (bytes.clone(), 7));
        assert!(read.is_of(&Head::read(&path).unwrap()));
        let head = std::fs::read(path.join("head")).unwrap();
        assert_eq!(said(Part::parse(Path::new("p"), &head)), "p: not a part of a store's work");
        assert!(Head::of(&bytes).0.is_none());
        for at in (0..bytes.len()).step_by(13) {
            let mut other = bytes.clone();
            other[at] ^= 0x20;
            assert!(Part::parse(Path::new("p"), &other).is_err(), "{at}");
            assert!(Part::parse(Path::new("p"), &bytes[..at]).is_err(), "{at}");
        }
    }

    #[test]
    fn a_store_is_made_of_a_part_and_the_mesh() {
        let (_scratch, path) = filled();
        let store = Folder::read(&path).unwrap().into_store();
        let mut worker = store.worker(&[9]).unwrap();
        worker.advance(30).unwrap();
        let made = worked(&path, 9, 30).store(Path::new("p"), &store).unwrap();
        assert!(bits(&made) == bits(&worker));
    }
}
