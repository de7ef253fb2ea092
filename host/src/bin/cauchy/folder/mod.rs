//! A store in a folder, which lasts: no server, one writer at a time, readers without a lock, and safe at any kill.
//!
//! | file | |
//! |---|---|
//! | `mesh-1` | the mesh of the opening, written once; `mesh-2` is the one that a squeeze leaves |
//! | `head` | the state: all of the store but its mesh, which mesh it is, and how much of the log belongs to it |
//! | `log` | a line for each edit, accepted or refused: number, time, user, call, answer, checksum |
//! | `lock` | held by the writer |
//! | `work-..` | parts of workers, while an advance has some |
//!
//! An edit writes its line and a head of some 15 kB and never the mesh. The head is moved over the old one when all
//! else is on the disk, so a reader or the next writer finds the state before an edit or the one after it, and
//! nothing between (`commits` has the order of the steps). Every file has a checksum, which each reading looks at. The
//! mesh of the opening is never removed, since the log is played again from it.
//!
//! Two heads that are written in turn, in place, would take one write less. But of a head that does not fit its
//! checksum nobody could then tell a write that did not end from damage, and the older one would be taken without a
//! word.
mod adopt;
mod call;
mod commits;
mod edits;
mod fields;
mod hands;
mod head;
mod lock;
mod log;
mod making;
mod mesh;
mod new;
mod part;
mod reads;
mod replay;
mod sum;
mod telling;
#[cfg(test)]
mod testing;
mod user;
mod verify;
mod when;
mod worker;
mod writer;

pub use adopt::adopt;
pub use edits::*;
pub use log::Entry;
pub use making::*;
pub use reads::*;
pub use telling::in_words;
pub use user::name as user;
pub use verify::verify;
pub use when::{now, text as time};
pub use worker::work;

use crate::failure::{Failure, Result};
use cauchy::{FLOATS_BEFORE_MESH, Store, WORDS_BEFORE_MESH};
use head::Head;
use mesh::{Meshed, Sizes};
use replay::Replay;
use std::path::Path;

/// A committed state of a store, and the log to it.
pub struct Folder {
    store: Store,
    log: Vec<Entry>,
}

impl Folder {
    /// The state that is committed now. A writer may go on meanwhile.
    pub fn read(folder: &Path) -> Result<Folder> {
        let (head, store) = committed(folder, store)?;
        let log = log::read(folder, head.log)?;
        Ok(Folder { store, log })
    }

    /// The store as it was after a line of the log: its first lines are played again.
    pub fn at(folder: &Path, line: u64) -> Result<Folder> {
        let head = Head::read(folder)?;
        let mut log = log::read(folder, head.log)?;
        if line == 0 || line > log.len() as u64 {
            let lines = log.len();
            return Err(Failure::of_file(folder, format!("line {line}: the log has the lines 1 to {lines}")));
        }
        log.truncate(line as usize);
        let mut replay = Replay::open(folder, &log)?;
        let others = replay.play(folder, &log)?;
        if let Some(other) = others.first() {
            let what = format!("the answer is now {}; cauchy verify says more", other.now);
            return Err(Failure::of_line(&folder.join(log::NAME), other.number as usize, what));
        }
        Ok(Folder { store: replay.end()?, log })
    }

    pub fn store(&self) -> &Store {
        &self.store
    }

    pub fn into_store(self) -> Store {
        self.store
    }

    /// The lines of the log, from the opening on.
    pub fn log(&self) -> &[Entry] {
        &self.log
    }
}

/// Whether a path is that of a file of a store.
pub fn owns(path: &Path) -> bool {
    let name = path.file_name().and_then(|name| name.to_str()).unwrap_or_default();
    let is_named = [head::NAME, log::NAME, lock::NAME].contains(&name)
        || name.starts_with("mesh-")
        || hands::is_part(name);
    is_named
        && path.parent().is_some_and(|folder| head::bytes(folder).is_ok_and(|bytes| head::is_head(&bytes)))
}

/// The head and what is made of it. Where the files do not fit each other and the head has become another one
/// meanwhile, they are read once more.
fn committed<T>(folder: &Path, make: fn(&Path, &Head) -> Result<T>) -> Result<(Head, T)> {
    loop {
        let head = Head::read(folder)?;
        let fault = match make(folder, &head) {
            Ok(made) => return Ok((head, made)),
            Err(fault) => fault,
        };
        if Head::read(folder)?.sequence == head.sequence {
            return Err(fault);
        }
    }
}

/// The store of a head, with the mesh that it names.
fn store(folder: &Path, head: &Head) -> Result<Store> {
    let path = mesh::path(folder, head.generation);
    let Meshed { floats, words, sums } = mesh::read(&path, sizes(head), &head.floats, &head.words)?;
    sums.check(&path, head.mesh_sum)?;
    Store::from_runs(floats, words).map_err(|fault| Failure::of_file(folder, fault))
}

/// The store of a head with zeros for its mesh, whose file is looked at all the same. Zeros that nobody writes take no
/// memory, so this is several times as fast as the store itself.
///
/// Put, clear and reweigh do on it exactly what they do on the store: by their contracts (`put_step_lem`, `clear_step`,
/// `reweigh_step`, crates/store/specs) they read no coordinate, write none and no corner, and ask of the corners alone
/// that each be below the count of vertices, as that of the store's mesh was found at its opening.
fn places(folder: &Path, head: &Head) -> Result<Store> {
    let path = mesh::path(folder, head.generation);
    mesh::sums(&path, sizes(head))?.check(&path, head.mesh_sum)?;
    let mut floats = vec![0.0; FLOATS_BEFORE_MESH + 3 * head.vertices() as usize];
    let mut words = vec![0; WORDS_BEFORE_MESH + 3 * head.faces() as usize];
    floats[..FLOATS_BEFORE_MESH].copy_from_slice(&head.floats);
    words[..WORDS_BEFORE_MESH].copy_from_slice(&head.words);
    Store::from_runs(floats, words).map_err(|fault| Failure::of_file(folder, fault))
}

fn sizes(head: &Head) -> Sizes {
    Sizes { vertices: head.vertices(), faces: head.faces() }
}

#[cfg(test)]
mod tests {
    use super::call::Call;
    use super::testing::{Rng, files, made};
    use super::verify::Verdict;
    use super::writer::Writer;
    use super::*;
    use std::fs;

    /// What may happen to a file: `None` is that it is missing. The last ones come at random.
    fn damages(whole: &[u8], count: usize, rng: &mut Rng) -> Vec<Option<Vec<u8>>> {
        let mut damages = vec![None, Some(vec![]), Some(b"\0".repeat(whole.len()))];
        let cuts = [1, 7, 8, 9, 24, 60, whole.len() / 2, whole.len() - 1];
        damages.extend(cuts.map(|cut| Some(whole[..cut.min(whole.len() - 1)].to_vec())));
        damages.extend((0..count).map(|_| Some(damaged(whole, rng))));
        damages.retain(|damage| damage.as_deref() != Some(whole));
        damages
    }

    /// A file with a bit flipped, some bytes written over, some taken out, or some put in.
    fn damaged(whole: &[u8], rng: &mut Rng) -> Vec<u8> {
        let mut bytes = whole.to_vec();
        let at = rng.below(whole.len() as u64) as usize;
        let end = (at + 1 + rng.below(40) as usize).min(whole.len());
        match rng.below(5) {
            0 | 1 => bytes[at] ^= 1 << rng.below(8),
            2 => bytes[at..end].iter_mut().for_each(|byte| *byte = rng.below(256) as u8),
            3 => drop(bytes.drain(at..end)),
            _ => drop(bytes.splice(at..at, whole[at..end].to_vec())),
        }
        bytes
    }

    /// A folder with a kernel, some work and a refused edit; squeezed where that is asked.
    fn worked(squeeze: bool) -> (testing::Scratch, std::path::PathBuf) {
        let (scratch, path) = made();
        let kernel = cauchy::Kernel { c: [1.0; 3], sigma: 0.01, w: 2.0, alpha: 1.5 };
        let mut calls = vec![Call::Put { place: 4, kernel, layer: 2 }, Call::Advance(9), Call::Clear(3)];
        calls.extend(squeeze.then_some(Call::Squeeze));
        Writer::open(&path, "test").unwrap().apply(&calls).unwrap();
        (scratch, path)
    }

    /// Every reading and every writer says so, none changes a file, and none panics.
    fn damage_is_told(name: &str, squeeze: bool, count: usize) {
        let (_scratch, path) = worked(squeeze);
        let file = path.join(name);
        let whole = fs::read(&file).unwrap();
        for damage in damages(&whole, count, &mut Rng(count as u64)) {
            match &damage {
                None => fs::remove_file(&file).unwrap(),
                Some(bytes) => fs::write(&file, bytes).unwrap(),
            }
            // bytes behind the log's own are no part of it
            if name == "log" && damage.as_ref().is_some_and(|bytes| bytes.starts_with(&whole)) {
                continue;
            }
            let before = files(&path);
            let is_found = Verdict::of(&path).map_or(true, |verdict| !verdict.faults.is_empty());
            assert!(is_found, "{name}: {damage:?}");
            // the mesh of the opening is not read any more once a squeeze has made another
            let is_read = !(squeeze && name == "mesh-1");
            assert_eq!(Folder::read(&path).is_err(), is_read, "{name}: {damage:?}");
            assert_eq!(Folder::at(&path, 2).is_err(), name != "mesh-2", "{name}: {damage:?}");
            assert!(!is_read || Writer::open(&path, "test").is_err(), "{name}: {damage:?}");
            assert!(files(&path) == before, "{name}: {damage:?}");
        }
        fs::write(&file, whole).unwrap();
        assert!(Verdict::of(&path).unwrap().faults.is_empty());
    }

    const FILES: [(&str, bool); 7] = [
        ("head", false),
        ("log", false),
        ("mesh-1", false),
        ("head", true),
        ("log", true),
        ("mesh-1", true),
        ("mesh-2", true),
    ];

    #[test]
    fn damage_of_any_file_is_told() {
        FILES.iter().for_each(|(name, squeeze)| damage_is_told(name, *squeeze, 150));
    }

    #[test]
    #[ignore = "some minutes: host/test --long"]
    fn damage_of_any_file_is_told_ten_thousand_times() {
        FILES.iter().for_each(|(name, squeeze)| damage_is_told(name, *squeeze, 10_000));
    }

    /// Checksums that were made to fit: a reading takes a sound store or refuses it, and `verify` finds the difference.
    #[test]
    fn a_forged_head_is_no_danger() {
        let (_scratch, path) = worked(false);
        let whole = Head::read(&path).unwrap();
        let mut rng = Rng(5);
        for _ in 0..300 {
            let mut other = whole.clone();
            for _ in 0..1 + rng.below(4) {
                let at = rng.below(130) as usize;
                other.words[at] = [0, 1, 17, u32::MAX, rng.below(1 << 32) as u32][rng.below(5) as usize];
                other.floats[rng.below(1761) as usize] = f64::from_bits(rng.below(1 << 31) << 33 | 1);
            }
            if rng.below(4) == 0 {
                (other.generation, other.sequence) = (rng.below(4), u64::MAX);
            }
            fs::write(path.join("head"), other.to_bytes()).unwrap();
            let is_found = Verdict::of(&path).map_or(true, |verdict| !verdict.faults.is_empty());
            assert!(is_found || other.to_bytes() == whole.to_bytes());
            // whatever these answer, they do not panic
            let _ = (Folder::read(&path), Folder::at(&path, 3));
            let _ = Writer::open(&path, "test").map(|mut writer| writer.apply(&[Call::Clear(4)]));
            fs::write(path.join("head"), whole.to_bytes()).unwrap();
        }
    }

    #[test]
    fn the_lock_and_what_follows_the_log_are_no_part_of_the_store() {
        let (_scratch, path) = made();
        let log = fs::read(path.join("log")).unwrap();
        for tail in
            ["x", "2\t", "\n\n", "2\t2026-11-17T15:33:00Z\tada\t(clear 1)\t(clear 1)\t0000000000000000\n"]
        {
            fs::write(path.join("log"), [&log, tail.as_bytes()].concat()).unwrap();
            assert_eq!(Folder::read(&path).unwrap().log().len(), 1);
            assert!(Verdict::of(&path).unwrap().faults.is_empty());
        }
        fs::write(path.join("lock"), [0xff; 1000]).unwrap();
        Writer::open(&path, "test").unwrap().apply(&[Call::Clear(1)]).unwrap();
        fs::remove_file(path.join("lock")).unwrap();
        Writer::open(&path, "test").unwrap().apply(&[Call::Clear(1)]).unwrap();
        assert_eq!(Folder::read(&path).unwrap().log().len(), 3);
        assert!(Verdict::of(&path).unwrap().faults.is_empty());
    }

    #[test]
    fn a_line_that_the_log_does_not_have_is_refused() {
        let (_scratch, path) = made();
        assert!(Folder::at(&path, 1).is_ok());
        for line in [0, 2, u64::MAX] {
            let what = format!(": line {line}: the log has the lines 1 to 1");
            assert!(testing::said(Folder::at(&path, line)).ends_with(&what));
        }
    }
}
