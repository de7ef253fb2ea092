//! The log against the store: played again from the opening, it must make every word that the folder has. Each word
//! is a proved function of the calls, so any difference is damage of disk or memory.
use super::call::Open;
use super::fields::{self, difference};
use super::head::{self, Fault, Head};
use super::log::{self, Entry};
use super::mesh::{self, Meshed, Sizes};
use super::replay::Replay;
use crate::failure::{Failure, Result};
use crate::figures::{count, counted};
use crate::json::{Value, object};
use crate::output::say;
use crate::page::entry;
use cauchy::{FLOATS_BEFORE_MESH, Store, WORDS_BEFORE_MESH};
use std::fs;
use std::path::Path;

/// The differences that are printed.
const SHOWN: usize = 20;

/// What was found.
#[derive(Debug)]
pub struct Verdict {
    /// The lines that were played.
    pub lines: u64,
    /// The steps that were done for it.
    pub steps: u64,
    /// The words of both runs, each of which was compared.
    pub words: u64,
    /// The differences, each as a line.
    pub faults: Vec<String>,
}

/// Plays the log of a folder and prints what came of it; a difference is a failure.
pub fn verify(folder: &Path, json: bool) -> Result<()> {
    let verdict = Verdict::of(folder)?;
    say(&if json { format!("{:#}\n", verdict.value(folder)) } else { verdict.text() })?;
    match verdict.faults.len() as u64 {
        0 => Ok(()),
        count => {
            let what = format!("{} found: disk or memory is damaged", counted(count, "difference"));
            Err(Failure::of_file(folder, what))
        }
    }
}

impl Verdict {
    /// Plays the log and compares. What cannot even be played is a failure.
    pub fn of(folder: &Path) -> Result<Verdict> {
        let mut faults = Vec::new();
        let (head, log) = read(folder, &mut faults)?;
        let mut replay = Replay::open(folder, &log)?;
        for other in replay.play(folder, &log)? {
            let kept = &log[other.number as usize - 1].answer;
            faults.push(difference(&format!("line {}, answer", other.number), kept, &other.now));
        }
        let (steps, squeezed) = (replay.work(), replay.squeezed);
        let store = replay.end()?;
        let (floats, words) = store.runs();
        let made = (&floats[..FLOATS_BEFORE_MESH], &words[..WORDS_BEFORE_MESH]);
        faults.extend(fields::differences((&head.floats, &head.words), made));
        faults.extend(mesh_faults(folder, &head, &log, &store, squeezed)?);
        let count = FLOATS_BEFORE_MESH + 3 * store.vertices() as usize + words.len();
        Ok(Verdict { lines: log.len() as u64, steps, words: count as u64, faults })
    }

    fn value(&self, folder: &Path) -> Value {
        object([
            ("reading", "verify".into()),
            ("from", folder.into()),
            ("verified", self.faults.is_empty().into()),
            ("lines", self.lines.into()),
            ("steps", self.steps.into()),
            ("words", self.words.into()),
            ("differences", self.faults.clone().into()),
        ])
    }

    fn text(&self) -> String {
        let (lines, steps) = (counted(self.lines, "line"), counted(self.steps, "step"));
        let mut said = vec![format!("{lines} played from the opening on, with {steps}")];
        if self.faults.is_empty() {
            let words = count(self.words);
            said.push(format!(
                "every answer is the one in the log, and each of {words} words the one of the folder"
            ));
            return entry("verified", &said);
        }
        said.extend(self.faults.iter().take(SHOWN).cloned());
        let others = self.faults.len().saturating_sub(SHOWN) as u64;
        said.extend((others > 0).then(|| format!("and {} more", count(others))));
        entry("DIFFERS", &said)
    }
}

/// The head and the log that it commits. A head that does not fit its checksum is a fault, and is read all the same.
fn read(folder: &Path, faults: &mut Vec<String>) -> Result<(Head, Vec<Entry>)> {
    let bytes = head::bytes(folder)?;
    let (head, fault) = Head::of(&bytes);
    match (head, fault) {
        (Some(head), None) => {
            let log = log::read(folder, head.log)?;
            Ok((head, log))
        }
        (Some(head), Some(_)) => {
            faults.push("head: its checksum does not fit its bytes".to_string());
            let log = log_without_head(folder, &head, faults)?;
            Ok((head, log))
        }
        (None, fault) => Err(head::damaged(folder, &fault.unwrap_or(Fault::Checksum))),
    }
}

/// The log beside a damaged head: the lines that it names where they fit what it says of them, else all.
fn log_without_head(folder: &Path, head: &Head, faults: &mut Vec<String>) -> Result<Vec<Entry>> {
    if let Ok(log) = log::read(folder, head.log) {
        return Ok(log);
    }
    let path = folder.join(log::NAME);
    let bytes = fs::read(&path).map_err(|fault| Failure::of_system(&path, &fault))?;
    let (log, found) = log::entries(folder, &bytes)?;
    let sums = [head.log.sum, found.sum].map(|sum| format!("{sum:016X}"));
    let pairs = [
        ("head, bytes of the log", head.log.bytes.to_string(), found.bytes.to_string()),
        ("head, lines of the log", head.log.lines.to_string(), found.lines.to_string()),
        ("head, checksum of the log", sums[0].clone(), sums[1].clone()),
    ];
    let others = pairs.into_iter().filter(|(_, kept, made)| kept != made);
    faults.extend(others.map(|(field, kept, made)| difference(field, &kept, &made)));
    Ok(log)
}

/// What is wrong with the mesh that the head names, or with what the head says of it.
fn mesh_faults(
    folder: &Path,
    head: &Head,
    log: &[Entry],
    made: &Store,
    squeezed: bool,
) -> Result<Vec<String>> {
    let generation = 1 + u64::from(squeezed);
    let mut faults = Vec::new();
    if head.generation != generation {
        let [kept, made] = [head.generation, generation].map(mesh::name);
        faults.push(difference("head, mesh", &kept, &made));
    }
    let opening = log.first().and_then(|first| Open::parse(&first.call)).map(|open| open.mesh);
    let sum = if squeezed {
        squeezed_faults(folder, made, &mut faults)?
    } else {
        // that mesh was read for the replay, and its checksum looked at
        opening
    };
    if let Some(sum) = sum.filter(|sum| *sum != head.mesh_sum) {
        let [kept, made] = [head.mesh_sum, sum].map(|sum| format!("{sum:016X}"));
        faults.push(difference("head, checksum of the mesh", &kept, &made));
    }
    Ok(faults)
}

/// Compares the mesh that a squeeze left, word by word, and answers its checksum.
fn squeezed_faults(folder: &Path, made: &Store, faults: &mut Vec<String>) -> Result<Option<u64>> {
    let path = mesh::path(folder, 2);
    let sizes = Sizes { vertices: made.vertices(), faces: made.faces() };
    let (floats, words) = made.runs();
    let before = (&floats[..FLOATS_BEFORE_MESH], &words[..WORDS_BEFORE_MESH]);
    let Meshed { floats: kept_floats, words: kept_words, sums } =
        mesh::read(&path, sizes, before.0, before.1)?;
    if sums.found != sums.kept {
        faults.push(format!("{}: its checksum does not fit its bytes", mesh::name(2)));
    }
    faults.extend(fields::differences((&kept_floats, &kept_words), (floats, words)));
    Ok(Some(sums.kept))
}

#[cfg(test)]
mod tests {
    use super::super::call::Call;
    use super::super::testing::{made, said};
    use super::super::writer::Writer;
    use super::*;
    use std::path::PathBuf;

    /// A folder with two kernels, partly worked; squeezed where that is asked.
    fn worked(squeeze: bool) -> (super::super::testing::Scratch, PathBuf) {
        let (scratch, path) = made();
        let kernel = |alpha| cauchy::Kernel { c: [1.0, 2.0, 3.0], sigma: 0.01, w: 2.0, alpha };
        let put = |place, alpha| Call::Put { place, kernel: kernel(alpha), layer: 2 };
        let mut writer = Writer::open(&path, "test").unwrap();
        writer.apply(&[put(4, 1.5), put(30, 1.0), Call::Advance(53)]).unwrap();
        if squeeze {
            writer.apply(&[Call::Squeeze]).unwrap();
        }
        (scratch, path)
    }

    fn head(path: &Path) -> Head {
        Head::read(path).unwrap()
    }

    /// The fields that differ after the folder's head was given this one, with a checksum that fits it or not.
    fn found(path: &Path, head: &Head, fits: bool) -> Vec<String> {
        let mut bytes = head.to_bytes();
        if !fits {
            *bytes.last_mut().unwrap() ^= 1;
        }
        fs::write(path.join(head::NAME), bytes).unwrap();
        let told = Verdict::of(path).unwrap().faults;
        told.iter().filter_map(|line| line.split(':').next()).map(str::to_string).collect()
    }

    #[test]
    fn every_word_of_the_head_that_is_another_one_is_named() {
        let (_scratch, path) = worked(false);
        let whole = head(&path);
        assert!(found(&path, &whole, true).is_empty());
        for at in 0..FLOATS_BEFORE_MESH {
            let mut other = whole.clone();
            other.floats[at] = f64::from_bits(other.floats[at].to_bits() ^ 1 << (at % 63));
            assert_eq!(found(&path, &other, true), [fields::float(at)]);
        }
        for at in 0..WORDS_BEFORE_MESH {
            let mut other = whole.clone();
            other.words[at] ^= 1 << (at % 32);
            assert_eq!(found(&path, &other, true), [fields::word(at)]);
        }
    }

    #[test]
    fn a_head_that_does_not_fit_its_checksum_is_looked_at_all_the_same() {
        let (_scratch, path) = worked(false);
        let whole = head(&path);
        assert_eq!(found(&path, &whole, false), ["head"]);
        let mut other = whole.clone();
        other.words[2 + 4 * 30 + 2] ^= 1;
        assert_eq!(found(&path, &other, false), ["head", "place 30, faces done"]);
        for (change, field) in [
            ((|log| log.bytes += 1) as fn(&mut head::Committed), "head, bytes of the log"),
            (|log| log.lines += 1, "head, lines of the log"),
            (|log| log.sum += 1, "head, checksum of the log"),
        ] {
            let mut other = whole.clone();
            change(&mut other.log);
            assert_eq!(found(&path, &other, false), ["head", field]);
            // where its checksum fits, the log is not the one that it names
            fs::write(path.join(head::NAME), other.to_bytes()).unwrap();
            assert!(said(Verdict::of(&path)).contains("/log: damaged: "));
        }
        let mut other = whole.clone();
        (other.generation, other.mesh_sum) = (2, other.mesh_sum ^ 1);
        assert_eq!(found(&path, &other, true), ["head, mesh", "head, checksum of the mesh"]);
    }

    #[test]
    fn a_word_of_the_squeezed_mesh_is_named() {
        let (_scratch, path) = worked(true);
        assert!(found(&path, &head(&path), true).is_empty());
        let bytes = fs::read(path.join("mesh-2")).unwrap();
        for (at, field) in [(24 + 8 * 5, "vertex 1, z"), (24 + 8 * 12 + 4 * 3, "face 1, corner 1")] {
            let mut other = bytes.clone();
            other[at] ^= 1;
            fs::write(path.join("mesh-2"), other).unwrap();
            let faults = Verdict::of(&path).unwrap().faults;
            assert_eq!(faults[0], "mesh-2: its checksum does not fit its bytes");
            assert!(faults[1].starts_with(field) && faults.len() == 2, "{faults:?}");
        }
    }

    #[test]
    fn what_was_found_is_printed() {
        let verdict = Verdict { lines: 3, steps: 1, words: 1918, faults: vec![] };
        let wanted = "verified  3 lines played from the opening on, with 1 step\n          \
                      every answer is the one in the log, and each of 1,918 words the one of the folder\n";
        assert_eq!(verdict.text(), wanted);
        let value = r#"{"reading": "verify", "from": "s", "verified": true, "lines": 3, "steps": 1, "#;
        let value = value.to_string() + r#""words": 1918, "differences": []}"#;
        assert_eq!(verdict.value(Path::new("s")).to_string(), value);
        let faults = (0..23).map(|i| format!("place {i}, layer: x")).collect();
        let text = Verdict { faults, ..verdict }.text();
        assert!(
            text.starts_with("DIFFERS   3 lines")
                && text.ends_with("place 19, layer: x\n          and 3 more\n")
        );
    }
}
