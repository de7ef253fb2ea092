//! The commands that read a folder: its log, and its store by any reading.
use super::log as lines_of_log;
use super::telling::{self, HEADING};
use super::{Folder, time};
use crate::failure::Result;
use crate::figures::counted;
use crate::json::object;
use crate::options::Reading;
use crate::output::say;
use crate::readings;
use std::path::Path;

/// Prints the log. The mesh is not read for it.
pub fn log(dir: &Path, json: bool) -> Result<()> {
    let (_, log) = super::committed(dir, |dir, head| lines_of_log::read(dir, head.log))?;
    if json {
        let lines = log.iter().map(telling::value).collect();
        let log = object([("reading", "log".into()), ("from", dir.into()), ("lines", lines)]);
        return say(&format!("{log:#}\n"));
    }
    say(&(HEADING.to_string() + &log.iter().map(telling::line).collect::<String>()))
}

/// A reading of the store of a folder, or as it was after a line of its log.
pub fn read(dir: &Path, at: Option<u64>, reading: &Reading, json: bool) -> Result<()> {
    let folder = match at {
        None => Folder::read(dir)?,
        Some(line) => Folder::at(dir, line)?,
    };
    match reading {
        Reading::Status => status(dir, &folder, json),
        _ => readings::print(folder.store(), dir, at, reading, json),
    }
}

/// How the store stands, and its log.
fn status(dir: &Path, folder: &Folder, json: bool) -> Result<()> {
    let lines = counted(folder.log().len() as u64, "line");
    let last = folder.log().last();
    let said = last.map(|last| format!("{lines}, the last at {} by {}", time(last.when), last.who));
    let value = object([
        ("lines", (folder.log().len() as u64).into()),
        ("last_time", last.map(|last| time(last.when)).into()),
        ("last_user", last.map(|last| last.who.as_str()).into()),
    ]);
    let told = readings::status(folder.store(), format!("of the store {}", dir.display()));
    readings::tell(&told.with("log", said.unwrap_or(lines), value), dir, json)
}
