//! Commits of a store to its folder.
//!
//! A commit is, in this order: the lines are added to the log and brought to the disk; the new head is written beside
//! the old one, brought to the disk and moved over it; the folder is brought to the disk. Only then is an edit
//! acknowledged. The move is what commits: before it every reader finds the old state, after it the new one, and what
//! stands in the log past the bytes that the head names belongs to an edit that did not happen.
use super::head::{Committed, Head};
use super::lock::Lock;
use super::log::Entry;
use super::{head, log, mesh, user, when};
use crate::failure::{Failure, Result};
use cauchy::{Mesh, Store};
use std::fs::{self, File};
use std::io::{self, Write};
use std::path::{Path, PathBuf};

/// A call and its answer, as the log has them.
pub type Line = (String, String);

/// What commits states of a store to its folder.
pub struct Commits {
    folder: PathBuf,
    _lock: Lock,
    /// The head as it is on the disk; that of a folder without a store yet is empty.
    head: Head,
    log: File,
    who: String,
}

impl Commits {
    /// Commits to a folder whose lock is held, from this head on. What a writer that was killed left there is taken away.
    pub fn begin(folder: &Path, lock: Lock, head: Head) -> Result<Commits> {
        remove_left_over(folder, head.generation);
        let log = open_log(folder, head.log)?;
        Ok(Commits { folder: folder.to_path_buf(), _lock: lock, head, log, who: user::name() })
    }

    pub fn folder(&self) -> &Path {
        &self.folder
    }

    /// The head as it is on the disk.
    pub fn head(&self) -> &Head {
        &self.head
    }

    /// The lines that the log has.
    pub fn lines(&self) -> u64 {
        self.head.log.lines
    }

    /// Commits a store, and the calls that made it of the one before.
    pub fn commit(&mut self, store: &Store, lines: &[Line]) -> Result<()> {
        let (text, committed) = self.text(lines);
        self.add_to_log(&text)?;
        let head = self.head.next(store, committed);
        self.write_beside(&head)?;
        self.move_over()?;
        self.head = head;
        Ok(())
    }

    /// The lines of calls, and what is committed with them.
    pub fn text(&self, lines: &[Line]) -> (String, Committed) {
        let mut text = String::new();
        let mut committed = self.head.log;
        let when = when::now();
        for (call, answer) in lines {
            let (call, answer, who) = (call.clone(), answer.clone(), self.who.clone());
            let entry = Entry { number: committed.lines + 1, when, who, call, answer };
            let (line, next) = entry.line(committed);
            text += &line;
            committed = next;
        }
        (text, committed)
    }

    pub fn add_to_log(&mut self, text: &str) -> Result<()> {
        let path = self.folder.join(log::NAME);
        let written = self.log.write_all(text.as_bytes()).and_then(|()| self.log.sync_data());
        written.map_err(|fault| Failure::of_system(&path, &fault))
    }

    pub fn write_beside(&self, head: &Head) -> Result<()> {
        let path = self.folder.join(NEW_HEAD);
        let mut file = File::create(&path).map_err(|fault| Failure::of_system(&path, &fault))?;
        let written = file.write_all(&head.to_bytes()).and_then(|()| file.sync_all());
        written.map_err(|fault| Failure::of_system(&path, &fault))
    }

    pub fn move_over(&self) -> Result<()> {
        let path = self.folder.join(head::NAME);
        let moved = fs::rename(self.folder.join(NEW_HEAD), &path);
        moved.map_err(|fault| Failure::of_system(&path, &fault))?;
        sync_folder(&self.folder).map_err(|fault| {
            let what = format!("{fault}: the edit is made, but may be lost where the power fails");
            Failure::of_file(&self.folder, what)
        })
    }

    /// Writes a mesh to its own file, which the next head names.
    pub fn keep_mesh(&mut self, mesh: Mesh<'_>, generation: u64) -> Result<()> {
        let path = mesh::path(&self.folder, generation);
        let beside = new_mesh(&self.folder, generation);
        let kept = mesh::write(&beside, mesh).and_then(|sum| {
            fs::rename(&beside, &path).and_then(|()| sync_folder(&self.folder)).map(|()| sum)
        });
        self.head.mesh_sum = kept.map_err(|fault| Failure::of_system(&path, &fault))?;
        self.head.generation = generation;
        Ok(())
    }
}

pub const NEW_HEAD: &str = "head.new";

pub fn new_mesh(folder: &Path, generation: u64) -> PathBuf {
    folder.join(format!("{}.new", mesh::name(generation)))
}

/// Brings the names in a folder to the disk.
pub fn sync_folder(folder: &Path) -> io::Result<()> {
    let folder = if folder.as_os_str().is_empty() { Path::new(".") } else { folder };
    File::open(folder)?.sync_all()
}

/// The log, ready for the next line: without the lines of an edit that did not happen.
fn open_log(folder: &Path, committed: Committed) -> Result<File> {
    let path = folder.join(log::NAME);
    let opened = File::options().append(true).create(committed.lines == 0).open(&path);
    let ready = opened.and_then(|file| file.set_len(committed.bytes).map(|()| file));
    ready.map_err(|fault| Failure::of_system(&path, &fault))
}

/// Removes what a writer that was killed left beside the store.
fn remove_left_over(folder: &Path, generation: u64) {
    let next = generation.saturating_add(1);
    let paths = [folder.join(NEW_HEAD), new_mesh(folder, next), mesh::path(folder, next)];
    for path in paths.into_iter().chain(super::hands::parts(folder)) {
        // where that is not allowed, the next write says so
        let _ = fs::remove_file(path);
    }
}
