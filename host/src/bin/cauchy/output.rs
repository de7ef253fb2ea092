//! Files that are written whole or not at all, and standard output.
use crate::failure::{Failure, Result, is_standard};
use crate::folder;
use std::ffi::OsStr;
use std::fs::{self, File};
use std::io::{ErrorKind, Write};
use std::os::unix::ffi::OsStrExt;
use std::path::{Path, PathBuf};
use std::sync::atomic::{AtomicBool, Ordering};

/// A file to be written, found possible before the work begins. The path `-` is standard output.
#[derive(Debug)]
pub struct Output {
    /// The path as it was given.
    path: PathBuf,
    /// Where the file goes: behind a link, the file that it leads to.
    place: PathBuf,
}

impl Output {
    /// Checks that the file may be written: that nothing is there, unless it is a plain file that may be
    /// replaced, and that its folder takes files. From `-` on, what is said goes to standard error.
    pub fn prepare(path: &Path, replace: bool) -> Result<Output> {
        if is_standard(path) {
            IS_TAKEN.store(true, Ordering::Relaxed);
            return Ok(Output { path: path.to_path_buf(), place: PathBuf::new() });
        }
        let fault = |what| Err(Failure::of_file(path, what));
        match fs::metadata(path) {
            Ok(there) if there.is_dir() => return fault("is a folder"),
            Ok(there) if !there.is_file() => return fault("is not a plain file"),
            Ok(_) if folder::owns(&place(path)) => {
                return fault("is a file of a store, which edits alone change");
            }
            Ok(_) if !replace => return fault("is there already; --overwrite replaces it"),
            Err(_) if path.file_name().is_none() => return fault("names no file"),
            _ => {}
        }
        let output = Output { path: path.to_path_buf(), place: place(path) };
        let part = output.part();
        let tried = File::create(&part).and_then(|_| fs::remove_file(&part));
        tried.map_err(|fault| Failure::of_system(path, &fault))?;
        output.remove_left_parts();
        Ok(output)
    }

    /// Writes the file beside its place and moves it there, so that a reader sees the old or the new one.
    pub fn write(&self, bytes: &[u8]) -> Result<()> {
        if is_standard(&self.path) {
            return give(bytes);
        }
        let part = self.part();
        let written = write_all(&part, bytes).and_then(|()| fs::rename(&part, &self.place));
        written.map_err(|fault| {
            let _ = fs::remove_file(&part);
            Failure::of_system(&self.path, &fault)
        })
    }

    pub fn path(&self) -> &Path {
        &self.path
    }

    /// What it is called.
    pub fn name(&self) -> String {
        match is_standard(&self.path) {
            true => "standard output".to_string(),
            false => self.path.display().to_string(),
        }
    }

    fn part(&self) -> PathBuf {
        let mut name = self.place.file_name().unwrap_or_default().to_os_string();
        name.push(format!("{PART}{}", std::process::id()));
        self.place.with_file_name(name)
    }

    /// Removes what programs that were killed have left of this file. That one cannot be removed is no fault.
    fn remove_left_parts(&self) {
        let folder = self.place.parent().map(fs::read_dir).and_then(|entries| entries.ok());
        for entry in folder.into_iter().flatten().flatten() {
            let writer = writer(&entry.file_name(), self.place.file_name().unwrap_or_default());
            if writer.is_some_and(is_dead) && is_unlocked(&entry.path()) {
                let _ = fs::remove_file(entry.path());
            }
        }
    }
}

/// What stands between the name of a file and the number of the process that writes it.
const PART: &str = ".part-";

/// The process that writes a part of a file, by the part's name.
fn writer(part: &OsStr, file: &OsStr) -> Option<u32> {
    let number = part.as_bytes().strip_prefix(file.as_bytes())?.strip_prefix(PART.as_bytes())?;
    let digits = std::str::from_utf8(number).ok()?;
    digits.parse().ok().filter(|number: &u32| number.to_string() == digits)
}

/// Whether a process has ended, as far as this system tells.
fn is_dead(process: u32) -> bool {
    Path::new("/proc/self").exists() && !Path::new(&format!("/proc/{process}")).exists()
}

/// Whether no one writes a file: a writer that this system does not know, on another machine or in another container,
/// has it locked.
fn is_unlocked(path: &Path) -> bool {
    File::open(path).is_ok_and(|file| file.try_lock().is_ok())
}

fn write_all(path: &Path, bytes: &[u8]) -> std::io::Result<()> {
    let mut file = File::create(path)?;
    // where there are no locks, the number of the process alone tells that this is being written
    let _ = file.try_lock();
    file.write_all(bytes)?;
    file.sync_all()
}

/// Checks that no two outputs are one file, and that none is an input.
pub fn check_apart(outputs: &[&Path], inputs: &[&Path]) -> Result<()> {
    for (i, output) in outputs.iter().enumerate() {
        if outputs[..i].iter().any(|other| are_one(other, output)) {
            return Failure::usage(format!("{}: two outputs are to go there", output.display()));
        }
        if !is_standard(output) && inputs.iter().any(|input| are_one(input, output)) {
            return Failure::usage(format!("{}: it is read, and not to be replaced", output.display()));
        }
    }
    Ok(())
}

/// Whether two paths lead to one file.
pub fn are_one(a: &Path, b: &Path) -> bool {
    place(a) == place(b)
}

/// Where a path leads; that of a file which is not there yet, by its folder.
fn place(path: &Path) -> PathBuf {
    fs::canonicalize(path).unwrap_or_else(|_| {
        let folder = match path.parent() {
            Some(folder) if !folder.as_os_str().is_empty() => folder,
            _ => Path::new("."),
        };
        let folder = fs::canonicalize(folder).unwrap_or_else(|_| folder.to_path_buf());
        folder.join(path.file_name().unwrap_or_default())
    })
}

/// Whether standard output takes a file, so that nothing else may go there.
static IS_TAKEN: AtomicBool = AtomicBool::new(false);

/// Writes text for people: to standard output, or to standard error where standard output takes a file.
pub fn say(text: &str) -> Result<()> {
    if IS_TAKEN.load(Ordering::Relaxed) {
        let _ = std::io::stderr().write_all(text.as_bytes());
        return Ok(());
    }
    give(text.as_bytes())
}

/// Writes bytes to standard output. Where no one reads any more, that is no fault.
pub fn give(bytes: &[u8]) -> Result<()> {
    let mut out = std::io::stdout().lock();
    match out.write_all(bytes).and_then(|()| out.flush()) {
        Err(fault) if fault.kind() != ErrorKind::BrokenPipe => {
            Failure::work(format!("standard output: {fault}"))
        }
        _ => Ok(()),
    }
}

#[cfg(test)]
mod tests {
    use super::*;

    #[test]
    fn the_writer_of_a_part_is_known_by_its_name() {
        let of = |part: &str| writer(OsStr::new(part), OsStr::new("a.csv"));
        assert_eq!(of("a.csv.part-123"), Some(123));
        for other in
            ["a.csv", "a.csv.part-", "a.csv.part-12x", "a.csv.part-007", "b.a.csv.part-1", "a.csv2.part-1"]
        {
            assert_eq!(of(other), None, "{other}");
        }
        assert!(!is_dead(std::process::id()) && is_dead(u32::MAX));
    }
}
