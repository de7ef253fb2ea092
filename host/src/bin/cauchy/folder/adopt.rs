//! Parts come into a folder: each place of a part by the proved call, under the folder's lock, one commit for a part.
use super::call::{Answer, Call, adopted};
use super::part::Part;
use super::telling::told;
use super::writer::Writer;
use crate::failure::{Failure, Result};
use crate::figures::counted;
use crate::output::say;
use crate::page::entry;
use crate::work;
use cauchy::{Held, PLACES, Store};
use std::path::{Path, PathBuf};

/// What came of a place of a part.
#[derive(Clone, Copy, Debug, PartialEq)]
pub enum Taken {
    /// It came in, with so many steps done.
    In { steps: u64, answer: Answer },
    /// The store has as many steps or more.
    NothingNew { place: u32 },
    /// The place holds something else by now, and is left alone.
    Other { place: u32 },
}

/// Takes the work of parts, in the order given. One that cannot be taken changes nothing, and is a failure in the end.
pub fn adopt(dir: &Path, parts: &[PathBuf]) -> Result<()> {
    let parts: Vec<(&PathBuf, Result<Part>)> = parts.iter().map(|path| (path, Part::read(path))).collect();
    let mut writer = Writer::open(dir, "adopt")?;
    let (mut said, mut faults) = (Vec::new(), Vec::new());
    for (path, part) in parts {
        match part.and_then(|part| writer.adopt(path, &part)) {
            Ok(taken) => said.extend(taken.into_iter().map(|taken| in_words(path, taken))),
            Err(Failure::Work(what)) => faults.push(what),
            Err(other) => return Err(other),
        }
    }
    let left = (0..PLACES).map(|place| writer.store.left_at(place)).sum();
    said.push(format!("{}, line {} of the log", left_in_words(left), writer.commits.lines()));
    say(&entry("adopt", &said))?;
    if faults.is_empty() { Ok(()) } else { Failure::work(faults.join("\ncauchy: ")) }
}

fn left_in_words(left: u64) -> String {
    if left == 0 { "no step left".to_string() } else { format!("{} left", counted(left, "step")) }
}

fn in_words(path: &Path, taken: Taken) -> String {
    let path = path.display();
    match taken {
        Taken::In { answer: Answer::Adopted { place, pieces, left }, .. } => {
            format!("{path}: place {place}: {}", told(Answer::Adopted { place, pieces, left }))
        }
        Taken::In { answer, .. } => format!("{path}: {}", told(answer)),
        Taken::NothingNew { place } => format!("{path}: place {place}: nothing new"),
        Taken::Other { place } => {
            format!("Note: {path}: place {place} is empty or holds another kernel by now, and is left alone")
        }
    }
}

impl Writer {
    /// Takes the work of a part, in one commit. One of another body changes nothing.
    pub fn adopt(&mut self, path: &Path, part: &Part) -> Result<Vec<Taken>> {
        if !part.is_of(self.commits.head()) {
            let what = "another body: its radius, counts or mesh are not those of the store";
            return Err(Failure::of_file(path, what));
        }
        let other = part.store(path, self.whole()?)?;
        let places = (0..PLACES).filter(|place| other.held(*place).is_some());
        let taken =
            places.map(|place| take(&mut self.store, place, &other)).collect::<Result<Vec<Taken>>>()?;
        let lines: Vec<_> = taken.iter().filter_map(|taken| line(*taken)).collect();
        if !lines.is_empty() {
            self.commits.commit(&self.store, &lines)?;
        }
        Ok(taken)
    }
}

/// A place of a store that has its work alone comes into the same place of another one.
fn take(store: &mut Store, place: u32, other: &Store) -> Result<Taken> {
    if !holds_the_same(store, place, other) {
        return Ok(Taken::Other { place });
    }
    if other.left_at(place) >= store.left_at(place) {
        return Ok(Taken::NothingNew { place });
    }
    let answer = adopted(store, place, other).map_err(work::refused)?;
    Ok(Taken::In { steps: steps(store, place), answer })
}

/// The steps done of a place.
pub fn steps(store: &Store, place: u32) -> u64 {
    super::call::due(store, place).unwrap_or(0) - store.left_at(place)
}

/// Whether a place of two stores has the same kernel, weight, layer, pieces and error, by their bits.
fn holds_the_same(store: &Store, place: u32, other: &Store) -> bool {
    let bits = |held: Held| {
        let ([x, y, z], kernel) = (held.kernel.c, held.kernel);
        let floats = [x, y, z, kernel.sigma, kernel.w, kernel.alpha, held.error].map(f64::to_bits);
        (floats, held.layer, held.pieces)
    };
    store.held(place).map(bits) == other.held(place).map(bits)
}

/// The line of the log.
fn line(taken: Taken) -> Option<(String, String)> {
    match taken {
        Taken::In { steps, answer: answer @ Answer::Adopted { place, .. } } => {
            Some((Call::Adopt { place, steps }.to_string(), answer.to_string()))
        }
        _ => None,
    }
}

#[cfg(test)]
mod tests {
    use super::super::head::Head;
    use super::super::testing::{Rng, Scratch, bits, made, said};
    use super::super::verify::Verdict;
    use super::*;
    use crate::folder::Folder;

    fn put(place: u32) -> Call {
        let kernel = cauchy::Kernel { c: [1.0; 3], sigma: 0.01, w: 2.0, alpha: 1.5 };
        Call::Put { place, kernel, layer: 2 }
    }

    fn filled() -> (Scratch, PathBuf) {
        let (scratch, path) = made();
        Writer::open(&path, "test").unwrap().apply(&[put(4), put(9), put(30)]).unwrap();
        (scratch, path)
    }

    fn worked(path: &Path, places: &[u32], steps: u64) -> Part {
        let mut worker = Folder::read(path).unwrap().store().worker(places).unwrap();
        worker.advance(steps).unwrap();
        Part::of(&Head::read(path).unwrap(), &worker)
    }

    fn taken(path: &Path, part: &Part) -> Vec<Taken> {
        Writer::open(path, "test").unwrap().adopt(Path::new("p"), part).unwrap()
    }

    /// In any order, twice or not at all: each time the store is the one of as many steps done here, and verifies.
    #[test]
    fn parts_come_in_any_order_twice_or_not_at_all() {
        for seed in 0..20 {
            let (_scratch, path) = filled();
            let mut rng = Rng(seed);
            let parts: Vec<Part> = (0..6)
                .map(|_| worked(&path, [&[4][..], &[9, 30], &[4, 30]][rng.below(3) as usize], rng.below(110)))
                .collect();
            for _ in 0..8 {
                taken(&path, &parts[rng.below(6) as usize]);
            }
            assert!(Verdict::of(&path).unwrap().faults.is_empty(), "seed {seed}");
            let mut wanted = made_with(&[put(4), put(9), put(30)]);
            let folder = Folder::read(&path).unwrap();
            for place in [4, 9, 30] {
                let steps = steps(folder.store(), place);
                Call::Adopt { place, steps }.apply(&mut wanted);
            }
            assert!(bits(folder.store()) == bits(&wanted), "seed {seed}");
            Writer::open(&path, "test").unwrap().advance(None).unwrap();
            wanted.advance(u64::MAX).unwrap();
            assert!(bits(Folder::read(&path).unwrap().store()) == bits(&wanted), "seed {seed}");
        }
    }

    fn made_with(calls: &[Call]) -> Store {
        let mut store = super::super::testing::opened();
        calls.iter().for_each(|call| assert!(!matches!(call.apply(&mut store), Answer::Refused(_))));
        store
    }

    #[test]
    fn a_part_is_one_commit_and_says_what_came_of_each_place() {
        let (_scratch, path) = filled();
        let part = worked(&path, &[4, 9], 60);
        let mut writer = Writer::open(&path, "test").unwrap();
        writer.apply(&[Call::Reweigh(9, 3.0)]).unwrap();
        let sequence = writer.commits.head().sequence;
        let wanted = Answer::Adopted { place: 4, pieces: 13, left: 0 };
        let told = writer.adopt(Path::new("p"), &part).unwrap();
        assert_eq!(told, [Taken::In { steps: 52, answer: wanted }, Taken::Other { place: 9 }]);
        assert_eq!(writer.commits.head().sequence, sequence + 1);
        let told = writer.adopt(Path::new("p"), &part).unwrap();
        assert_eq!(told, [Taken::NothingNew { place: 4 }, Taken::Other { place: 9 }]);
        assert_eq!(writer.commits.head().sequence, sequence + 1);
        drop(writer);
        let log = Folder::read(&path).unwrap();
        let last = log.log().last().unwrap();
        assert_eq!(
            (last.call.as_str(), last.answer.as_str()),
            ("(adopt 4 (steps 52))", "(adopt 4 (pieces 13) (left 0))")
        );
    }

    #[test]
    fn another_body_changes_nothing() {
        let (_scratch, path) = filled();
        let part = worked(&path, &[4], 60);
        let mut writer = Writer::open(&path, "test").unwrap();
        writer.apply(&[Call::Squeeze]).unwrap();
        let before = bits(&writer.store);
        assert!(said(writer.adopt(Path::new("p"), &part)).starts_with("p: another body"));
        assert!(bits(&writer.store) == before);
        drop(writer);
        let part = worked(&path, &[4], 60);
        assert!(matches!(taken(&path, &part)[..], [Taken::In { steps: 52, .. }]));
    }
}
