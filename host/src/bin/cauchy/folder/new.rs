//! A folder that is being made for a store.
use super::call::Open;
use super::commits::{Commits, Line, NEW_HEAD, sync_folder};
use super::head::{Committed, Head};
use super::lock::Lock;
use super::{head, lock, log, mesh};
use crate::failure::{Failure, Result};
use cauchy::{Mesh, Store};
use std::fs;
use std::io;
use std::path::Path;

/// A folder that is being made: it has its lock, and no head yet.
pub struct Making(Commits);

impl Making {
    /// Makes a folder, or takes an empty one.
    pub fn begin(folder: &Path, command: &str) -> Result<Making> {
        let lock = new_folder(folder, command)?;
        let log = Committed::default();
        let head = Head { sequence: 0, generation: 1, mesh_sum: 0, log, floats: vec![], words: vec![] };
        Commits::begin(folder, lock, head).map(Making)
    }

    /// Writes the mesh of the opening.
    pub fn keep_mesh(&mut self, mesh: Mesh<'_>) -> Result<()> {
        self.0.keep_mesh(mesh, 1)
    }

    /// Commits the opening of a store of this mesh, and these puts, which it has.
    pub fn commit(mut self, store: &Store, puts: &[Line]) -> Result<()> {
        let open = Open {
            radius: store.radius(),
            vertices: store.vertices(),
            faces: store.faces(),
            mesh: self.0.head().mesh_sum,
        };
        self.0.commit(store, &[&[(open.to_string(), open.answer())], puts].concat())?;
        // the folder itself stands in another one
        let _ = sync_folder(self.0.folder().parent().unwrap_or(Path::new("/")));
        Ok(())
    }
}

/// A folder without a store, and its lock. One that an `init` left which did not end is taken too.
fn new_folder(folder: &Path, command: &str) -> Result<Lock> {
    match fs::create_dir(folder) {
        Err(fault) if fault.kind() != io::ErrorKind::AlreadyExists => {
            return Err(Failure::of_system(folder, &fault));
        }
        _ => {}
    }
    check_new(folder)?;
    let lock = Lock::take(folder, command)?;
    // another one may have made a store meanwhile
    check_new(folder)?;
    for left in left_by_init() {
        let _ = fs::remove_file(folder.join(left));
    }
    Ok(lock)
}

/// The files that an `init` leaves which does not end.
fn left_by_init() -> [String; 4] {
    [log::NAME.to_string(), NEW_HEAD.to_string(), mesh::name(1), format!("{}.new", mesh::name(1))]
}

/// Looks whether a folder may become that of a store: it is not there, or has nothing but what an `init` left.
pub fn check_new(folder: &Path) -> Result<()> {
    let entries = match fs::read_dir(folder) {
        Ok(entries) => entries,
        Err(fault) if fault.kind() == io::ErrorKind::NotFound => return Ok(()),
        Err(fault) if fault.kind() == io::ErrorKind::NotADirectory => {
            return Err(Failure::of_file(folder, "is a file; a store takes a folder"));
        }
        Err(fault) => return Err(Failure::of_system(folder, &fault)),
    };
    let names: Vec<_> = entries.flatten().map(|entry| entry.file_name()).collect();
    if names.iter().any(|name| name == head::NAME) {
        return Err(Failure::of_file(folder, "has a store already"));
    }
    let left = left_by_init();
    let other =
        names.iter().find(|name| *name != lock::NAME && !left.iter().any(|left| *name == left.as_str()));
    match other {
        Some(other) => Err(Failure::of_file(folder, format!("is not empty: it has {}", other.display()))),
        None => Ok(()),
    }
}
