//! The files that are read: meshes, kernel lists, tracks. Every fault names its file and, in text, its line and column.
mod detect;
mod kernels;
mod obj;
mod ply;
mod source;
mod stl;
mod tab;
pub mod toml;
mod track;
mod words;

use crate::failure::{Failure, Result};
use crate::figures::count;
use cauchy::{LAYERS, PLACES};
use detect::Kind;
pub use kernels::KernelFile;
pub use source::{MARK, Source};
use std::path::Path;
use words::{Read, Word};

pub const METRES_IN_KM: f64 = 1000.0;

/// The most vertices and triangles of a mesh. They are held to while a file is read, before memory is.
const MAX_VERTICES: usize = 1_048_576;
const MAX_TRIANGLES: usize = 2_097_152;

/// The most bytes that are taken of a file that is read as a whole. No snapshot and no store's lines have as many.
const MAX_BYTES: u64 = 1 << 30;

/// A triangle mesh, in metres.
#[derive(Debug, Default, PartialEq)]
pub struct MeshFile {
    pub vertices: Vec<[f64; 3]>,
    pub faces: Vec<[u32; 3]>,
}

pub type Told<T> = std::result::Result<T, String>;

/// A file's bytes.
pub fn bytes(path: &Path) -> Result<Vec<u8>> {
    Source::open(path)?.rest(MAX_BYTES)
}

/// A mesh of any kind that is known, its unit given in metres.
pub fn mesh(path: &Path, unit: f64) -> Result<MeshFile> {
    mesh_of(&mut Source::open(path)?, unit)
}

fn mesh_of(source: &mut Source<'_>, unit: f64) -> Result<MeshFile> {
    let kind = detect::kind(source)?;
    mesh_of_kind(kind, source, unit)
}

fn mesh_of_kind(kind: Kind, source: &mut Source<'_>, unit: f64) -> Result<MeshFile> {
    if kind != Kind::StlBinary {
        source.begin_text()?;
    }
    let mut mesh = match kind {
        Kind::Obj => obj::read(source),
        Kind::Ply => ply::read(source),
        Kind::StlText => stl::read_text(source),
        Kind::StlBinary => stl::read_binary(source),
        Kind::Tab => tab::read(source),
    }?;
    if mesh.faces.is_empty() {
        return Err(Failure::of_file(source.path(), "has no face"));
    }
    mesh.vertices.as_flattened_mut().iter_mut().for_each(|x| *x *= unit);
    Ok(mesh)
}

/// The points of a track, in metres.
pub fn track(path: &Path) -> Result<Vec<[f64; 3]>> {
    track::read(&mut Source::open(path)?)
}

/// The kernels of a list of numbers.
pub fn kernels_of(path: &Path, bytes: &[u8]) -> Result<KernelFile> {
    kernels::read(&mut Source::of_bytes(path, bytes))
}

// ---- What the kinds of files share ----

impl MeshFile {
    fn add_vertex(&mut self, vertex: [f64; 3]) -> Told<()> {
        if self.vertices.len() == MAX_VERTICES {
            return Err(too_many_vertices());
        }
        self.vertices.push(vertex);
        Ok(())
    }

    fn add_triangle(&mut self, corners: [u32; 3]) -> Told<()> {
        if self.faces.len() == MAX_TRIANGLES {
            return Err(too_many_triangles());
        }
        self.faces.push(corners);
        Ok(())
    }
}

/// A polygon, cut into triangles from its first corner.
#[derive(Default)]
struct Fan {
    first: u32,
    last: u32,
    corners: u64,
}

impl Fan {
    fn add(&mut self, corner: u32, mesh: &mut MeshFile) -> Told<()> {
        match self.corners {
            0 => self.first = corner,
            1 => {}
            _ => mesh.add_triangle([self.first, self.last, corner])?,
        }
        self.last = corner;
        self.corners += 1;
        Ok(())
    }

    /// Looks that it has three corners.
    fn end(&self) -> Told<()> {
        match self.corners {
            3.. => Ok(()),
            n => Err(format!("a face has at least three corners, here are {n}")),
        }
    }
}

fn too_many_vertices() -> String {
    format!("a mesh has at most {} vertices", count(MAX_VERTICES as u64))
}

fn too_many_triangles() -> String {
    format!("a mesh has at most {} triangles", count(MAX_TRIANGLES as u64))
}

/// The number of vertices that a file tells.
fn count_of_vertices(word: Word<'_>) -> Read<usize> {
    count_of(word, MAX_VERTICES, too_many_vertices)
}

/// The number of triangles, or of faces of any kind, that a file tells.
fn count_of_triangles(word: Word<'_>) -> Read<usize> {
    count_of(word, MAX_TRIANGLES, too_many_triangles)
}

fn count_of(word: Word<'_>, most: usize, too_many: fn() -> String) -> Read<usize> {
    match word.whole() {
        Some(n) if n <= most as u64 => Ok(n as usize),
        Some(_) => Err(word.fault(too_many())),
        None => Err(word.fault(format!("`{}` is not a count", word.shown()))),
    }
}

/// What is said of the first kernel that has no place.
pub fn too_many() -> String {
    format!("one kernel too many: a store has {PLACES} places")
}

/// A layer, in a file or an option.
pub fn layer_of(word: &str) -> Told<u32> {
    let is_plain = word.bytes().all(|byte| byte.is_ascii_digit());
    let layer = word.parse().ok().filter(|layer| is_plain && *layer < LAYERS);
    layer.ok_or_else(|| format!("`{word}` is not a layer: they are 0 to {}", LAYERS - 1))
}

#[cfg(test)]
pub mod tests {
    use super::*;

    /// What is said of something that is refused.
    pub fn said<T: std::fmt::Debug>(told: Result<T>) -> String {
        match told {
            Err(Failure::Work(text)) => text,
            other => panic!("{other:?}"),
        }
    }

    /// The mesh of a file in kilometres. By blocks of a few bytes it must be the same, or be refused in the same words.
    pub fn mesh_read(name: &str, bytes: impl AsRef<[u8]>) -> Result<MeshFile> {
        let (path, bytes) = (Path::new(name), bytes.as_ref());
        let whole = mesh_once(name, bytes);
        for step in [1, 7] {
            let Ok(kind) = detect::kind(&mut Source::of_bytes(path, bytes)) else { break };
            let stream = mesh_of_kind(kind, &mut Source::of_stream(path, bytes, step), METRES_IN_KM);
            match (kind, &stream, &whole) {
                // the size of a stream is not known before its end, so that another fault is found first
                (Kind::StlBinary, Err(_), Err(_)) => {}
                _ => assert_eq!(stream, whole, "{step}"),
            }
        }
        whole
    }

    /// The mesh of a file, read once.
    pub fn mesh_once(name: &str, bytes: impl AsRef<[u8]>) -> Result<MeshFile> {
        mesh_of(&mut Source::of_bytes(Path::new(name), bytes.as_ref()), METRES_IN_KM)
    }

    /// The points of a track. By blocks of a few bytes they must be the same.
    pub fn track_read(name: &str, bytes: &[u8]) -> Result<Vec<[f64; 3]>> {
        let whole = track::read(&mut Source::of_bytes(Path::new(name), bytes));
        assert_eq!(track::read(&mut Source::of_stream(Path::new(name), bytes, 5)), whole);
        whole
    }

    /// Looks that a mesh is refused, with a message that begins like this behind the file's name.
    pub fn mesh_refused(name: &str, bytes: impl AsRef<[u8]>, wanted: &str) {
        let said = said(mesh_read(name, &bytes));
        assert!(said.starts_with(&format!("{name}{wanted}")), "{said}");
    }

    #[test]
    fn a_polygon_is_cut_from_its_first_corner() {
        let mut mesh = MeshFile::default();
        let mut fan = Fan::default();
        for corner in [4, 7, 2, 9, 1] {
            fan.add(corner, &mut mesh).unwrap();
        }
        assert_eq!(mesh.faces, [[4, 7, 2], [4, 2, 9], [4, 9, 1]]);
        assert_eq!(fan.end(), Ok(()));
        assert_eq!(Fan::default().end(), Err("a face has at least three corners, here are 0".to_string()));
    }

    #[test]
    fn limits_are_held_to() {
        let mut mesh = MeshFile { vertices: vec![[0.0; 3]; MAX_VERTICES - 1], faces: vec![] };
        assert_eq!(mesh.add_vertex([0.0; 3]), Ok(()));
        assert_eq!(mesh.add_vertex([0.0; 3]), Err("a mesh has at most 1,048,576 vertices".to_string()));
        mesh.faces = vec![[0; 3]; MAX_TRIANGLES - 1];
        assert_eq!(mesh.add_triangle([0; 3]), Ok(()));
        assert_eq!(mesh.add_triangle([0; 3]), Err("a mesh has at most 2,097,152 triangles".to_string()));
        assert_eq!((mesh.vertices.len(), mesh.faces.len()), (MAX_VERTICES, MAX_TRIANGLES));
    }

    #[test]
    fn layers_are_plain_numbers() {
        assert_eq!(layer_of("15"), Ok(15));
        for word in ["16", "-1", "+1", "1.0", "", "x"] {
            assert_eq!(layer_of(word), Err(format!("`{word}` is not a layer: they are 0 to 15")));
        }
    }
}
