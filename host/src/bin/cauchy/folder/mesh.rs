//! The mesh of a folder: a file that is written once and never changed.
//!
//! It has, numbers with their lowest byte first: the eight bytes `CAUCHYM1`; the count of vertices and that of faces,
//! eight bytes each; the coordinates, eight bytes each, by their bits; the corners, four bytes each; and the checksum
//! of all bytes before it, eight bytes. It is read and written in parts, so that no second copy stands in memory.
use super::sum::Sum;
use crate::failure::{Failure, Result};
use cauchy::Mesh;
use std::fs::File;
use std::io::{self, Read, Write};
use std::path::{Path, PathBuf};

const MAGIC: &[u8; 8] = b"CAUCHYM1";
const HEAD: u64 = 24;
const CHECKSUM: u64 = 8;
/// The bytes that are read or written at a time: they stay in the processor's cache.
const PART: usize = 1 << 17;

/// The sizes of a mesh.
#[derive(Clone, Copy, Debug, PartialEq)]
pub struct Sizes {
    pub vertices: u32,
    pub faces: u32,
}

impl Sizes {
    /// The bytes of the coordinates and corners.
    fn bytes(self) -> u64 {
        24 * u64::from(self.vertices) + 12 * u64::from(self.faces)
    }
}

/// The path of a mesh file by its number.
pub fn path(folder: &Path, generation: u64) -> PathBuf {
    folder.join(name(generation))
}

pub fn name(generation: u64) -> String {
    format!("mesh-{generation}")
}

/// Writes a mesh to a file, has it on the disk, and answers its checksum.
pub fn write(path: &Path, mesh: Mesh<'_>) -> io::Result<u64> {
    let mut to = Summed { file: File::create(path)?, sum: Sum::new(0), part: Vec::with_capacity(PART) };
    to.add(MAGIC)?;
    to.add(&(mesh.vertices.len() as u64).to_le_bytes())?;
    to.add(&(mesh.faces.len() as u64).to_le_bytes())?;
    for part in mesh.vertices.as_flattened().chunks(PART / 8) {
        to.give(part.iter().flat_map(|x| x.to_bits().to_le_bytes()))?;
    }
    to.corners(mesh.faces.as_flattened())?;
    to.end()
}

/// A file that is written in parts, with the checksum of what went to it.
struct Summed {
    file: File,
    sum: Sum,
    part: Vec<u8>,
}

impl Summed {
    fn add(&mut self, bytes: &[u8]) -> io::Result<()> {
        self.sum.add(bytes);
        self.file.write_all(bytes)
    }

    fn give(&mut self, bytes: impl Iterator<Item = u8>) -> io::Result<()> {
        let mut part = std::mem::take(&mut self.part);
        part.clear();
        part.extend(bytes);
        self.add(&part)?;
        self.part = part;
        Ok(())
    }

    fn corners(&mut self, corners: &[u32]) -> io::Result<()> {
        for part in corners.chunks(PART / 4) {
            self.give(part.iter().flat_map(|corner| corner.to_le_bytes()))?;
        }
        Ok(())
    }

    fn end(mut self) -> io::Result<u64> {
        let sum = self.sum.end();
        self.file.write_all(&sum.to_le_bytes())?;
        self.file.sync_all()?;
        Ok(sum)
    }
}

/// Two runs and what was found of their mesh.
pub struct Meshed {
    pub floats: Vec<f64>,
    pub words: Vec<u32>,
    pub sums: Sums,
}

/// The checksums of a mesh file.
#[derive(Clone, Copy, Debug, PartialEq)]
pub struct Sums {
    /// Of the bytes as they are.
    pub found: u64,
    /// The one that stands at their end.
    pub kept: u64,
}

impl Sums {
    /// The checksum, where it fits the bytes and is the one that is due.
    pub fn check(self, path: &Path, due: u64) -> Result<()> {
        if self.found != self.kept {
            return Err(damaged(path, "its checksum does not fit its bytes"));
        }
        if self.kept != due {
            return Err(damaged(path, "it is another mesh than the one that belongs to the store"));
        }
        Ok(())
    }
}

/// The runs of a store: those before the mesh, then the mesh of a file that has these sizes.
pub fn read(path: &Path, sizes: Sizes, floats: &[f64], words: &[u32]) -> Result<Meshed> {
    let fault = |fault: io::Error| Failure::of_system(path, &fault);
    let mut from = Parts::open(path, sizes)?;
    let floats = from.floats(floats, 3 * sizes.vertices as usize).map_err(fault)?;
    let words = from.words(words, 3 * sizes.faces as usize).map_err(fault)?;
    Ok(Meshed { floats, words, sums: from.end().map_err(fault)? })
}

/// Reads a mesh file of these sizes for its checksums alone.
pub fn sums(path: &Path, sizes: Sizes) -> Result<Sums> {
    let fault = |fault: io::Error| Failure::of_system(path, &fault);
    let mut from = Parts::open(path, sizes)?;
    let mut left = sizes.bytes();
    while left > 0 {
        let count = left.min(PART as u64);
        from.part(count as usize).map_err(fault)?;
        left -= count;
    }
    from.end().map_err(fault)
}

/// What is said of a damaged mesh.
pub fn damaged(path: &Path, what: &str) -> Failure {
    Failure::of_file(path, format!("damaged: {what}"))
}

/// A file that is read in parts, with the checksum of what came.
struct Parts {
    file: File,
    sum: Sum,
    part: Vec<u8>,
}

impl Parts {
    /// A file whose length and beginning are those of a mesh of these sizes.
    fn open(path: &Path, sizes: Sizes) -> Result<Parts> {
        let fault = |fault: io::Error| Failure::of_system(path, &fault);
        let mut file = File::open(path).map_err(fault)?;
        if file.metadata().map_err(fault)?.len() != HEAD + sizes.bytes() + CHECKSUM {
            return Err(damaged(path, "bytes are missing, or there are too many"));
        }
        let mut head = [0; HEAD as usize];
        file.read_exact(&mut head).map_err(fault)?;
        let counts = [sizes.vertices, sizes.faces].map(|count| u64::from(count).to_le_bytes()).concat();
        if head[..8] != *MAGIC || head[8..] != counts {
            return Err(damaged(path, "it does not begin as the mesh that belongs to the store"));
        }
        let mut sum = Sum::new(0);
        sum.add(&head);
        Ok(Parts { file, sum, part: vec![0; PART] })
    }

    /// The next bytes.
    fn part(&mut self, count: usize) -> io::Result<&[u8]> {
        let part = &mut self.part[..count];
        self.file.read_exact(part)?;
        self.sum.add(part);
        Ok(part)
    }

    fn floats(&mut self, before: &[f64], count: usize) -> io::Result<Vec<f64>> {
        let mut run = Vec::with_capacity(before.len() + count);
        run.extend(before);
        let due = run.len() + count;
        while run.len() < due {
            let part = self.part(8 * (due - run.len()).min(PART / 8))?;
            run.extend(part.as_chunks().0.iter().map(|x| f64::from_bits(u64::from_le_bytes(*x))));
        }
        Ok(run)
    }

    fn words(&mut self, before: &[u32], count: usize) -> io::Result<Vec<u32>> {
        let mut run = Vec::with_capacity(before.len() + count);
        run.extend(before);
        let due = run.len() + count;
        while run.len() < due {
            let part = self.part(4 * (due - run.len()).min(PART / 4))?;
            run.extend(part.as_chunks().0.iter().map(|w| u32::from_le_bytes(*w)));
        }
        Ok(run)
    }

    fn end(mut self) -> io::Result<Sums> {
        let mut kept = [0; CHECKSUM as usize];
        self.file.read_exact(&mut kept)?;
        Ok(Sums { found: self.sum.end(), kept: u64::from_le_bytes(kept) })
    }
}
