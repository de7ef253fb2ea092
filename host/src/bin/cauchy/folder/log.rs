//! The log of a folder: a text file to which each edit adds a line, and of which nothing is ever changed.
//!
//! A line has six fields with a tab between: its number, from 1; the time in UTC; the user's name; the bracket line of
//! the call; the answer; and the checksum of the five before it, which goes on from that of the line above. So the last
//! checksum, which the head has too, is one of the whole log, and a damaged line is found by itself.
use super::head::Committed;
use super::{sum, when};
use crate::failure::{Failure, Result};
use std::fs::File;
use std::io::{self, Read};
use std::path::Path;

/// The name of its file.
pub const NAME: &str = "log";

/// A line of the log.
#[derive(Clone, Debug, PartialEq)]
pub struct Entry {
    /// From 1, which is the opening.
    pub number: u64,
    /// Seconds since 1970, UTC.
    pub when: u64,
    /// The user's name.
    pub who: String,
    /// The bracket line of the call.
    pub call: String,
    /// A refusal is its number and its words.
    pub answer: String,
}

impl Entry {
    /// The line, with its newline, and what is committed with it, where so much was before.
    pub fn line(&self, before: Committed) -> (String, Committed) {
        let Entry { number, who, call, answer, .. } = self;
        let fields = format!("{number}\t{}\t{who}\t{call}\t{answer}", when::text(self.when));
        let sum = sum::chained(before.sum, fields.as_bytes());
        let line = format!("{fields}\t{sum:016X}\n");
        let bytes = before.bytes + line.len() as u64;
        (line, Committed { bytes, lines: before.lines + 1, sum })
    }

    /// The entry of these fields.
    fn parse(fields: &[u8]) -> Option<Entry> {
        let mut parts = std::str::from_utf8(fields).ok()?.split('\t');
        let [number, time, who, call, answer] = std::array::from_fn(|_| parts.next());
        let entry = Entry {
            number: number?.parse().ok()?,
            when: when::parse(time?)?,
            who: who?.to_string(),
            call: call?.to_string(),
            answer: answer?.to_string(),
        };
        parts.next().is_none().then_some(entry)
    }
}

/// The fields of a line and the checksum with it, where that of the lines before it was this.
fn fields(line: &[u8], before: u64) -> Option<(&[u8], u64)> {
    let (fields, end) = line.split_at(line.len().checked_sub(CHECKSUM)?);
    let sum = sum::chained(before, fields);
    (end == format!("\t{sum:016X}\n").as_bytes()).then_some((fields, sum))
}

/// The bytes behind the fields of a line: a tab, sixteen digits, a newline.
const CHECKSUM: usize = 18;

/// The bytes of the log that a head commits; what stands behind them belongs to an edit that did not happen.
pub fn bytes(folder: &Path, committed: Committed) -> Result<Vec<u8>> {
    let path = folder.join(NAME);
    let fault = |fault: io::Error| Failure::of_system(&path, &fault);
    let file = File::open(&path).map_err(fault)?;
    if file.metadata().map_err(fault)?.len() < committed.bytes {
        return Err(Failure::of_file(&path, "damaged: bytes are missing that the head names"));
    }
    let mut bytes = Vec::new();
    file.take(committed.bytes).read_to_end(&mut bytes).map_err(fault)?;
    Ok(bytes)
}

/// The entries of a log: the first line that is damaged is named.
pub fn entries(folder: &Path, bytes: &[u8]) -> Result<(Vec<Entry>, Committed)> {
    let mut entries: Vec<Entry> = Vec::new();
    let committed = each(folder, bytes, |number, fields| {
        let entry = Entry::parse(fields).filter(|entry| entry.number == number);
        entry.map(|entry| entries.push(entry)).is_some()
    })?;
    Ok((entries, committed))
}

/// Takes the fields of every line, by its number, where its checksum fits.
fn each(folder: &Path, bytes: &[u8], mut take: impl FnMut(u64, &[u8]) -> bool) -> Result<Committed> {
    let mut found = Committed { bytes: bytes.len() as u64, ..Committed::default() };
    for line in bytes.split_inclusive(|byte| *byte == b'\n') {
        found.lines += 1;
        match fields(line, found.sum).filter(|(fields, _)| take(found.lines, fields)) {
            Some((_, sum)) => found.sum = sum,
            None => {
                let what = "damaged: its checksum does not fit it";
                return Err(Failure::of_line(&folder.join(NAME), found.lines as usize, what));
            }
        }
    }
    Ok(found)
}

/// The entries that a head commits, and no others.
pub fn read(folder: &Path, committed: Committed) -> Result<Vec<Entry>> {
    let (entries, found) = entries(folder, &bytes(folder, committed)?)?;
    same(folder, found, committed).map(|()| entries)
}

/// Looks whether the log is whole that a head commits.
pub fn check(folder: &Path, committed: Committed) -> Result<()> {
    let found = each(folder, &bytes(folder, committed)?, |_, _| true)?;
    same(folder, found, committed)
}

fn same(folder: &Path, found: Committed, committed: Committed) -> Result<()> {
    match found == committed {
        true => Ok(()),
        false => Err(Failure::of_file(&folder.join(NAME), "damaged: it is not the log that the head names")),
    }
}

#[cfg(test)]
mod tests {
    use super::*;

    fn entry(number: u64, call: &str) -> Entry {
        let who = "ada".to_string();
        Entry { number, when: 1_794_929_580, who, call: call.to_string(), answer: "(clear 1)".to_string() }
    }

    fn text() -> (String, Committed) {
        let (first, committed) = entry(1, "(clear 1)").line(Committed::default());
        let (second, committed) = entry(2, "(clear 2)").line(committed);
        (first + &second, committed)
    }

    #[test]
    fn lines_are_read_as_they_were_written() {
        let (text, committed) = text();
        assert!(text.starts_with("1\t2026-11-17T15:33:00Z\tada\t(clear 1)\t(clear 1)\t"), "{text}");
        let (entries, found) = entries(Path::new("d"), text.as_bytes()).unwrap();
        assert_eq!(entries, [entry(1, "(clear 1)"), entry(2, "(clear 2)")]);
        assert_eq!(found, committed);
        assert_eq!((committed.lines, committed.bytes), (2, text.len() as u64));
    }

    #[test]
    fn the_damaged_line_is_named() {
        let (text, _) = text();
        let second = text.find('\n').unwrap() + 1;
        for at in 0..text.len() {
            let mut bytes = text.clone().into_bytes();
            bytes[at] ^= 1;
            let line = if at < second { 1 } else { 2 };
            let said = entries(Path::new("d"), &bytes).unwrap_err();
            let wanted = format!("d/log, line {line}: damaged: its checksum does not fit it");
            assert_eq!(said, Failure::Work(wanted), "byte {at}");
        }
        // whole lines that are missing in front are found by the line that is then the first
        assert!(entries(Path::new("d"), &text.as_bytes()[second..]).is_err());
        assert!(entries(Path::new("d"), &text.as_bytes()[..text.len() - 1]).is_err());
        // those at the end are missing in what the head has
        let (kept, found) = entries(Path::new("d"), &text.as_bytes()[..second]).unwrap();
        assert_eq!((kept.len(), found.lines), (1, 1));
    }
}
