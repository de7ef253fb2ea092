//! The head of a folder: a file of 14,672 bytes that commits a state of the store, all of it but the mesh.
//!
//! It has, numbers with their lowest byte first and of eight bytes where nothing else is said: the eight bytes
//! `CAUCHYF1`; the number of the commit, from 1; the number and the checksum of the mesh file; the bytes, the lines and
//! the checksum of the log that belong to it; the store's floats before its mesh, by their bits; its words before its
//! mesh, four bytes each; and the checksum of all bytes before it.
use super::sum;
use crate::failure::{Failure, Result};
use cauchy::{FLOATS_BEFORE_MESH, Store, WORDS_BEFORE_MESH};
use std::fs;
use std::path::Path;

/// The eight bytes that a file of the head's form begins with. The last one, a digit, is the version.
#[derive(Debug)]
pub struct Magic {
    bytes: &'static [u8; 8],
    /// What is said of other bytes.
    other: &'static str,
    /// What is said of another version.
    later: &'static str,
}

pub const HEAD: Magic = Magic { bytes: b"CAUCHYF1", other: "not the head of a store", later: LATER };
const NUMBERS: usize = 6;
const FLOATS_AT: usize = HEAD.bytes.len() + 8 * NUMBERS;
const WORDS_AT: usize = FLOATS_AT + 8 * FLOATS_BEFORE_MESH;
const SUM_AT: usize = WORDS_AT + 4 * WORDS_BEFORE_MESH;
const SIZE: usize = SUM_AT + 8;

/// The name of its file.
pub const NAME: &str = "head";

/// The part of the log that a head commits.
#[derive(Clone, Copy, Debug, Default, PartialEq)]
pub struct Committed {
    pub bytes: u64,
    pub lines: u64,
    pub sum: u64,
}

#[derive(Clone, Debug)]
pub struct Head {
    /// The number of the commit, from 1.
    pub sequence: u64,
    /// The number of the mesh file: 1 for the one of the opening, 2 for the one that a squeeze left.
    pub generation: u64,
    pub mesh_sum: u64,
    pub log: Committed,
    pub floats: Vec<f64>,
    pub words: Vec<u32>,
}

/// What is wrong with the bytes of a head.
#[derive(Debug, PartialEq)]
pub enum Fault {
    /// They cannot be read at all.
    Unreadable(&'static str),
    /// All but the checksum is as it should be.
    Checksum,
}

impl Head {
    /// The head of a folder, whole.
    pub fn read(folder: &Path) -> Result<Head> {
        match Head::of(&bytes(folder)?) {
            (Some(head), None) => Ok(head),
            (_, Some(fault)) => Err(damaged(folder, &fault)),
            (None, None) => Err(damaged(folder, &Fault::Unreadable("no head"))),
        }
    }

    /// The head of these bytes as far as it can be read, and what is wrong with it.
    pub fn of(bytes: &[u8]) -> (Option<Head>, Option<Fault>) {
        Head::of_form(&HEAD, bytes)
    }

    /// The same of a file of this form that begins with other bytes.
    pub fn of_form(magic: &Magic, bytes: &[u8]) -> (Option<Head>, Option<Fault>) {
        if !bytes.starts_with(magic.bytes) {
            let what = if magic.begins(bytes) { magic.later } else { magic.other };
            return (None, Some(Fault::Unreadable(what)));
        }
        if bytes.len() != SIZE {
            return (None, Some(Fault::Unreadable("bytes are missing, or there are too many")));
        }
        let numbers = bytes[HEAD.bytes.len()..FLOATS_AT].as_chunks().0;
        let [sequence, generation, mesh_sum, bytes_of_log, lines, log_sum] =
            std::array::from_fn(|i| u64::from_le_bytes(numbers[i]));
        let floats = bytes[FLOATS_AT..WORDS_AT].as_chunks().0.iter();
        let words = bytes[WORDS_AT..SUM_AT].as_chunks().0.iter();
        let head = Head {
            sequence,
            generation,
            mesh_sum,
            log: Committed { bytes: bytes_of_log, lines, sum: log_sum },
            floats: floats.map(|x| f64::from_bits(u64::from_le_bytes(*x))).collect(),
            words: words.map(|w| u32::from_le_bytes(*w)).collect(),
        };
        let fits = bytes[SUM_AT..] == sum::of(&bytes[..SUM_AT]).to_le_bytes();
        (Some(head), (!fits).then_some(Fault::Checksum))
    }

    /// The head that commits this store after this one.
    pub fn next(&self, store: &Store, log: Committed) -> Head {
        let (floats, words) = store.runs();
        Head {
            sequence: self.sequence.saturating_add(1),
            log,
            floats: floats[..FLOATS_BEFORE_MESH].to_vec(),
            words: words[..WORDS_BEFORE_MESH].to_vec(),
            ..*self
        }
    }

    pub fn to_bytes(&self) -> Vec<u8> {
        self.to_form(&HEAD)
    }

    /// The bytes of a file of this form that begins with other bytes.
    pub fn to_form(&self, magic: &Magic) -> Vec<u8> {
        let mut bytes = Vec::with_capacity(SIZE);
        bytes.extend(magic.bytes);
        let numbers =
            [self.sequence, self.generation, self.mesh_sum, self.log.bytes, self.log.lines, self.log.sum];
        bytes.extend(numbers.iter().flat_map(|n| n.to_le_bytes()));
        bytes.extend(self.floats.iter().flat_map(|x| x.to_bits().to_le_bytes()));
        bytes.extend(self.words.iter().flat_map(|w| w.to_le_bytes()));
        bytes.extend(sum::of(&bytes).to_le_bytes());
        bytes
    }

    pub fn vertices(&self) -> u32 {
        self.words[0]
    }

    pub fn faces(&self) -> u32 {
        self.words[1]
    }
}

impl Magic {
    pub const fn new(bytes: &'static [u8; 8], other: &'static str, later: &'static str) -> Magic {
        Magic { bytes, other, later }
    }

    /// Whether bytes begin so, by any version.
    fn begins(&self, bytes: &[u8]) -> bool {
        bytes.starts_with(&self.bytes[..7])
    }
}

/// Whether bytes begin as a head does, of any version.
pub fn is_head(bytes: &[u8]) -> bool {
    HEAD.begins(bytes)
}

const LATER: &str = "the head of a store of another version of this program";

/// The bytes of a folder's head.
pub fn bytes(folder: &Path) -> Result<Vec<u8>> {
    let path = folder.join(NAME);
    fs::read(&path).map_err(|fault| match fault.kind() {
        std::io::ErrorKind::NotFound if folder.is_dir() => {
            Failure::of_file(folder, "no store is in it: it has no file `head`; cauchy init makes a store")
        }
        std::io::ErrorKind::NotFound => Failure::of_system(folder, &fault),
        std::io::ErrorKind::NotADirectory => Failure::of_file(folder, "is a file, and no folder of a store"),
        _ => Failure::of_system(&path, &fault),
    })
}

/// What is said of a damaged head.
pub fn damaged(folder: &Path, fault: &Fault) -> Failure {
    let what = match fault {
        Fault::Unreadable(LATER) => LATER.to_string(),
        Fault::Unreadable(what) => format!("damaged: {what}"),
        Fault::Checksum => {
            "damaged: its checksum does not fit its bytes; cauchy verify says what differs".to_string()
        }
    };
    Failure::of_file(&folder.join(NAME), what)
}

#[cfg(test)]
mod tests {
    use super::*;

    fn head() -> Head {
        let log = Committed { bytes: 4, lines: 5, sum: 6 };
        let floats = (0..FLOATS_BEFORE_MESH).map(|i| i as f64).collect();
        let words = (0..WORDS_BEFORE_MESH as u32).collect();
        Head { sequence: 1, generation: 2, mesh_sum: 3, log, floats, words }
    }

    #[test]
    fn a_head_is_read_as_it_was_written() {
        let bytes = head().to_bytes();
        assert_eq!(bytes.len(), 14_672);
        let (read, fault) = Head::of(&bytes);
        let read = read.unwrap();
        assert_eq!((read.to_bytes(), fault), (bytes, None));
        assert_eq!((read.sequence, read.generation, read.mesh_sum), (1, 2, 3));
        assert_eq!(read.log, Committed { bytes: 4, lines: 5, sum: 6 });
        assert_eq!((read.floats[1760], read.words[129], read.vertices(), read.faces()), (1760.0, 129, 0, 1));
    }

    #[test]
    fn damage_is_told() {
        let bytes = head().to_bytes();
        for cut in [0, 7, 8, 100, SIZE - 1] {
            assert!(matches!(Head::of(&bytes[..cut]), (None, Some(Fault::Unreadable(_)))), "{cut}");
        }
        assert!(matches!(Head::of(&[&bytes[..], &[0]].concat()), (None, Some(_))));
        for at in (8..SIZE).step_by(7) {
            let mut other = bytes.clone();
            other[at] ^= 0x40;
            assert_eq!(Head::of(&other).1, Some(Fault::Checksum), "{at}");
        }
        let mut later = bytes;
        later[7] = b'2';
        assert_eq!(Head::of(&later).1, Some(Fault::Unreadable(LATER)));
    }
}
