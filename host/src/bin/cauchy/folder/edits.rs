//! The commands that edit a folder.
use super::call::{Answer, Call, FORMS};
use super::hands;
use super::telling::told;
use super::writer::Writer;
use crate::failure::{Failure, Result};
use crate::figures::{counted, short};
use crate::kernels::{self, Loading};
use crate::notes::Note;
use crate::output::say;
use crate::page::{self, entry};
use crate::{input, interrupt};
use cauchy::{FileKernel, Refusal};
use std::path::Path;

/// One kernel into a place; `alpha` where the kernel has no exponent of its own.
pub fn put(dir: &Path, place: u32, kernel: FileKernel, alpha: f64, layer: u32) -> Result<()> {
    let call = Call::Put { place, kernel: kernel.to_metres(alpha), layer };
    let said =
        kernel.alpha.filter(|given| *given <= 0.0).map(|given| kernels::replaced(place as usize, given));
    edit(dir, "put", &[call], said.into_iter().collect())
}

/// A kernel list into places 0, 1, 2 .., in one step.
pub fn put_list(dir: &Path, list: &Path, loading: Loading) -> Result<()> {
    let list = kernels::read(list, loading)?;
    let places = (0..).zip(list.kernels).zip(list.layers);
    let calls: Vec<Call> =
        places.map(|((place, kernel), layer)| Call::Put { place, kernel, layer }).collect();
    edit(dir, "put", &calls, list.said)
}

pub fn clear(dir: &Path, place: u32) -> Result<()> {
    edit(dir, "clear", &[Call::Clear(place)], vec![])
}

pub fn reweigh(dir: &Path, place: u32, weight: f64) -> Result<()> {
    edit(dir, "reweigh", &[Call::Reweigh(place, weight)], vec![])
}

pub fn squeeze(dir: &Path) -> Result<()> {
    edit(dir, "squeeze", &[Call::Squeeze], vec![])
}

/// Makes calls in one step and tells their answers. One that is refused is in the log, and a failure.
fn edit(dir: &Path, command: &str, calls: &[Call], mut said: Vec<String>) -> Result<()> {
    let mut writer = Writer::open(dir, command)?;
    let answers = writer.apply(calls)?;
    if let Some(refusal) = answers.iter().find_map(|answer| refusal(*answer)) {
        let line = writer.commits.lines();
        return Err(Failure::of_file(dir, format!("{command}: {refusal}; line {line} of the log")));
    }
    said.extend(calls.iter().zip(&answers).map(|(call, answer)| edited(*call, *answer)));
    said.extend(
        answers.iter().filter_map(|answer| note(*answer, &writer)).map(|note| format!("Note: {note}")),
    );
    said.push(format!("line {} of the log", writer.commits.lines()));
    say(&entry(command, &said))
}

fn refusal(answer: Answer) -> Option<Refusal> {
    match answer {
        Answer::Refused(refusal) => Some(refusal),
        _ => None,
    }
}

/// What must be said of the fit of a kernel that was put.
fn note(answer: Answer, writer: &Writer) -> Option<Note> {
    match answer {
        Answer::Placed { place, .. } => writer.note(place),
        _ => None,
    }
}

/// What an edit did, in words.
fn edited(call: Call, answer: Answer) -> String {
    match (call, answer) {
        (_, Answer::Placed { place, .. }) => format!("place {place}: {}", told(answer)),
        (_, Answer::Cleared(place)) => format!("place {place} is empty"),
        (_, Answer::Adopted { place, .. }) => format!("place {place}: {}", told(answer)),
        (Call::Reweigh(place, weight), _) => {
            format!("place {place}: weight {} kg/m³, {}", short(weight), told(answer))
        }
        _ => told(answer),
    }
}

/// The steps that are left, or the first so many of them, by so many processes.
pub fn advance(dir: &Path, steps: Option<u64>, jobs: Option<usize>) -> Result<()> {
    let mut writer = Writer::open(dir, "advance")?;
    interrupt::watch();
    let shares = if steps.is_some() { vec![] } else { hands::shares(&writer.store, jobs) };
    let steps = match shares.len() {
        0 | 1 => writer.advance(steps)?,
        _ => hands::advance(&mut writer, &shares)?,
    };
    say(&entry("work", &[page::steps(steps.done, steps.left)]))?;
    if steps.left > 0 {
        say(&format!("The rest: cauchy advance {}\n", dir.display()))?;
    }
    if interrupt::asked() && steps.left > 0 { Err(Failure::Interrupted) } else { Ok(()) }
}

/// Plays a file of bracket lines, each line an edit of its own, and prints each answer when its edit is on the disk.
pub fn play(dir: &Path, file: &Path) -> Result<()> {
    let calls = calls(file, &input::bytes(file)?)?;
    let mut writer = Writer::open(dir, "edit")?;
    interrupt::watch();
    let mut refused = 0;
    for call in &calls {
        let answer = match call {
            Call::Advance(steps) => {
                let steps = writer.advance(Some(*steps))?;
                Answer::Advanced { done: steps.done, left: steps.left }
            }
            _ => writer.apply(&[*call])?[0],
        };
        refused += u64::from(refusal(answer).is_some());
        say(&format!("{answer}\n"))?;
        if interrupt::asked() {
            return Err(Failure::Interrupted);
        }
    }
    match refused {
        0 => Ok(()),
        _ => Err(Failure::of_file(file, format!("{} refused", counted(refused, "edit")))),
    }
}

/// The calls of a file of lines. Empty lines and those that begin with `#` are passed over.
fn calls(path: &Path, bytes: &[u8]) -> Result<Vec<Call>> {
    let mut calls = Vec::new();
    for (number, line) in (1..).zip(bytes.split(|byte| *byte == b'\n')) {
        let text = String::from_utf8_lossy(line);
        let text = text.trim_end_matches('\r');
        if text.is_empty() || text.starts_with('#') {
            continue;
        }
        let what = || Failure::of_text(path, number, line, 0, format!("no edit: they are {FORMS}"));
        calls.push(Call::parse(text).ok_or_else(what)?);
    }
    Ok(calls)
}
