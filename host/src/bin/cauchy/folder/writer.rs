//! The writer of a folder: makes calls in memory and commits them.
use super::call::{Answer, Call};
use super::commits::Commits;
use super::lock::Lock;
use super::{head, log};
use crate::failure::Result;
use crate::notes::{self, Note};
use crate::work::{self, Bar};
use cauchy::{Steps, Store};
use std::path::Path;
use std::time::{Duration, Instant};

/// A store that is written, and the folder that keeps it.
pub struct Writer {
    /// The store, or one with zeros for its mesh as long as no call needs that.
    pub(super) store: Store,
    has_mesh: bool,
    pub commits: Commits,
}

/// The time of a portion of work, which is committed as one line of the log: a kill loses no more than that.
const PORTION: Duration = Duration::from_millis(800);

impl Writer {
    /// Takes the folder's lock for a command and reads its store.
    pub fn open(folder: &Path, command: &str) -> Result<Writer> {
        // without a head there is no store, and then nothing is made in the folder either
        head::bytes(folder)?;
        let lock = Lock::take(folder, command)?;
        let (head, store) = super::committed(folder, super::places)?;
        log::check(folder, head.log)?;
        let commits = Commits::begin(folder, lock, head)?;
        Ok(Writer { store, has_mesh: false, commits })
    }

    /// The store with its mesh, whatever it had so far.
    pub(super) fn whole(&mut self) -> Result<&mut Store> {
        if !self.has_mesh {
            self.store = super::store(self.commits.folder(), self.commits.head())?;
            self.has_mesh = true;
        }
        Ok(&mut self.store)
    }

    /// What must be said of the fit of the kernel in a place.
    pub fn note(&self, place: u32) -> Option<Note> {
        notes::of_fit(place, &self.store.held(place)?, self.store.radius())
    }

    /// Makes calls and commits them in one step, refused ones too.
    pub fn apply(&mut self, calls: &[Call]) -> Result<Vec<Answer>> {
        if calls.iter().any(|call| call.needs_mesh()) {
            self.whole()?;
        }
        let answers: Vec<Answer> = calls.iter().map(|call| call.apply(&mut self.store)).collect();
        let freed = answers.iter().any(|answer| matches!(answer, Answer::Squeezed { freed } if *freed > 0));
        if freed {
            self.commits.keep_mesh(self.store.mesh(), self.commits.head().generation + 1)?;
        }
        let lines = calls.iter().zip(&answers).map(|(call, answer)| (call.to_string(), answer.to_string()));
        self.commits.commit(&self.store, &lines.collect::<Vec<_>>())?;
        Ok(answers)
    }

    /// Does the steps that are left, or the first `limit` of them, and commits them portion by portion. An interrupt
    /// ends it after what is under way. An advance of some steps and then of others makes the same machine as one of
    /// their sum, so each line has the sum of what came since the line before.
    pub fn advance(&mut self, limit: Option<u64>) -> Result<Steps> {
        self.whole()?;
        let Writer { store, commits, .. } = self;
        let left = store.left().map_err(work::refused)?;
        let asked = limit.map_or(left, |limit| limit.min(left));
        let mut bar = Bar::new();
        let (mut kept, mut since) = (0, Instant::now());
        let done = work::portions(store, asked, |store, steps| {
            bar.show(steps.done, asked);
            if since.elapsed() >= PORTION {
                commit(commits, store, steps.done - kept, steps.left)?;
                (kept, since) = (steps.done, Instant::now());
            }
            Ok(())
        });
        bar.end();
        let done = done?;
        if done > kept {
            commit(commits, store, done - kept, left - done)?;
        }
        Ok(Steps { done, left: left - done })
    }
}

/// Commits steps that are done.
fn commit(commits: &mut Commits, store: &Store, done: u64, left: u64) -> Result<()> {
    let answer = Answer::Advanced { done, left };
    commits.commit(store, &[(Call::Advance(done).to_string(), answer.to_string())])
}

#[cfg(test)]
mod tests {
    use super::super::commits::NEW_HEAD;
    use super::super::testing::{Rng, Scratch, bits, files, made, make, opened, said};
    use super::super::user;
    use super::super::verify::Verdict;
    use super::*;
    use crate::folder::Folder;
    use std::fs;

    fn kernel() -> cauchy::Kernel {
        cauchy::Kernel { c: [1.0; 3], sigma: 0.01, w: 2.0, alpha: 1.5 }
    }

    fn put(place: u32) -> Call {
        Call::Put { place, kernel: kernel(), layer: 2 }
    }

    fn state(path: &Path) -> (Vec<u64>, Vec<u32>) {
        bits(Folder::read(path).unwrap().store())
    }

    #[test]
    fn an_edit_is_there_when_it_is_acknowledged() {
        let (_scratch, path) = made();
        let mut store = opened();
        let mut rng = Rng(7);
        for _ in 0..30 {
            let call = rng.call();
            let answer = Writer::open(&path, "test").unwrap().apply(&[call]).unwrap()[0];
            assert_eq!(answer, call.apply(&mut store), "{call}");
            assert!(state(&path) == bits(&store), "{call}");
        }
        let folder = Folder::read(&path).unwrap();
        assert_eq!(folder.log().len(), 31);
        assert_eq!(folder.log()[30].who, user::name());
        assert!(Verdict::of(&path).unwrap().faults.is_empty());
    }

    #[test]
    fn work_is_committed_with_its_steps() {
        let (_scratch, path) = made();
        let mut writer = Writer::open(&path, "test").unwrap();
        writer.apply(&[put(4), put(9)]).unwrap();
        assert_eq!(writer.advance(Some(7)).unwrap(), Steps { done: 7, left: 97 });
        assert_eq!(writer.advance(None).unwrap(), Steps { done: 97, left: 0 });
        assert_eq!(writer.advance(None).unwrap(), Steps { done: 0, left: 0 });
        drop(writer);
        let folder = Folder::read(&path).unwrap();
        let said: Vec<_> =
            folder.log()[3..].iter().map(|entry| (&entry.call[..], &entry.answer[..])).collect();
        let wanted = [
            ("(advance 7)", "(advance (done 7) (left 97))"),
            ("(advance 97)", "(advance (done 97) (left 0))"),
        ];
        assert_eq!(said, wanted);
    }

    /// Wherever a writer ends, the state is the one before the edit, until the head is moved.
    #[test]
    fn a_writer_that_ends_anywhere_leaves_one_state_or_the_other() {
        for steps in 0..=5 {
            let (_scratch, path) = made();
            let mut writer = Writer::open(&path, "test").unwrap();
            writer.apply(&[put(4)]).unwrap();
            let before = state(&path);
            let answer = put(9).apply(&mut writer.store);
            let after = bits(&opened_with(&[put(4), put(9)]));
            let (text, committed) = writer.commits.text(&[(put(9).to_string(), answer.to_string())]);
            let head = writer.commits.head().next(&writer.store, committed);
            let half = &text[..text.len() / 2];
            match steps {
                0 => {}
                1 => writer.commits.add_to_log(half).unwrap(),
                _ => writer.commits.add_to_log(&text).unwrap(),
            }
            match steps {
                0..=2 => {}
                3 => fs::write(path.join(NEW_HEAD), &head.to_bytes()[..9000]).unwrap(),
                _ => writer.commits.write_beside(&head).unwrap(),
            }
            if steps == 5 {
                writer.commits.move_over().unwrap();
            }
            drop(writer);
            assert!(state(&path) == if steps < 5 { before } else { after }, "{steps}");
            assert!(Verdict::of(&path).unwrap().faults.is_empty());
            // the next writer goes on from there, and nothing is left over
            Writer::open(&path, "test").unwrap().apply(&[put(9)]).unwrap();
            assert_eq!(Folder::read(&path).unwrap().log().len(), if steps < 5 { 3 } else { 4 });
            let names: Vec<_> =
                files(&path).into_iter().map(|(path, _)| path.file_name().unwrap().to_owned()).collect();
            assert_eq!(names, ["head", "lock", "log", "mesh-1"]);
        }
    }

    fn opened_with(calls: &[Call]) -> Store {
        let mut store = opened();
        calls.iter().for_each(|call| assert!(!matches!(call.apply(&mut store), Answer::Refused(_))));
        store
    }

    #[test]
    fn a_squeeze_has_a_mesh_of_its_own() {
        let (_scratch, path) = made();
        let mut writer = Writer::open(&path, "test").unwrap();
        writer.apply(&[put(4)]).unwrap();
        writer.advance(Some(30)).unwrap();
        let opening = fs::read(path.join("mesh-1")).unwrap();
        // one that ends before its head is moved has not happened, and its mesh is removed
        writer.store.squeeze().unwrap();
        writer.commits.keep_mesh(writer.store.mesh(), 2).unwrap();
        fs::write(path.join("mesh-2.new"), b"half").unwrap();
        drop(writer);
        assert_eq!(Folder::read(&path).unwrap().store().vertices(), 5);
        let mut writer = Writer::open(&path, "test").unwrap();
        assert!(!path.join("mesh-2").exists() && !path.join("mesh-2.new").exists());
        assert_eq!(writer.apply(&[Call::Squeeze]).unwrap(), [Answer::Squeezed { freed: 3 }]);
        // from now on every vertex is used: no third mesh is ever written
        assert_eq!(writer.apply(&[Call::Squeeze, put(5)]).unwrap()[0], Answer::Squeezed { freed: 0 });
        drop(writer);
        assert!(path.join("mesh-2").exists() && !path.join("mesh-3").exists());
        assert_eq!(fs::read(path.join("mesh-1")).unwrap(), opening);
        assert_eq!(Folder::read(&path).unwrap().store().vertices(), 4);
        assert_eq!(Folder::at(&path, 3).unwrap().store().vertices(), 5);
        assert!(Verdict::of(&path).unwrap().faults.is_empty());
    }

    #[test]
    fn a_store_is_made_in_a_folder_of_its_own() {
        let scratch = Scratch::new();
        let path = scratch.store();
        fs::create_dir(&path).unwrap();
        fs::write(path.join("mine.txt"), b"mine").unwrap();
        let create = || make(&path);
        assert!(said(create()).ends_with(": is not empty: it has mine.txt"));
        assert_eq!(files(&path).len(), 1);
        fs::remove_file(path.join("mine.txt")).unwrap();
        // what an init left that did not end
        for name in ["lock", "log", "mesh-1", "mesh-1.new", "head.new"] {
            fs::write(path.join(name), b"left").unwrap();
        }
        assert!(said(Folder::read(&path)).contains(": no store is in it: it has no file `head`"));
        assert!(said(Writer::open(&path, "put").map(|_| ())).contains(": no store is in it"));
        create().unwrap();
        assert!(state(&path) == bits(&opened()));
        assert!(!path.join("mesh-1.new").exists() && !path.join("head.new").exists());
        assert!(said(create()).ends_with(": has a store already"));
        assert!(Verdict::of(&path).unwrap().faults.is_empty());
        let file = scratch.store().with_file_name("file");
        fs::write(&file, b"x").unwrap();
        assert!(said(make(&file)).ends_with(": is a file; a store takes a folder"));
        assert!(said(Folder::read(&file)).ends_with(": is a file, and no folder of a store"));
        assert!(said(Folder::read(&path.join("none"))).ends_with(": no such file or folder"));
    }

    #[test]
    fn two_do_not_write_at_once() {
        let (_scratch, path) = made();
        let first = Writer::open(&path, "advance").unwrap();
        assert!(said(Writer::open(&path, "put").map(|_| ())).contains(": busy: process "));
        assert!(state(&path) == bits(&opened()));
        drop(first);
        Writer::open(&path, "put").unwrap();
    }
}
