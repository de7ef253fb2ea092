//! The command line. One table (`table.rs`, of the rows in `rows.rs`) has every command and option; what the words ask
//! for, the help, the man page and the completions of shells all come of it.
mod build;
mod command;
mod completions;
mod given;
mod help;
mod man;
mod nearest;
mod row;
mod rows;
mod table;
#[cfg(test)]
mod tests;
mod text;
mod topics;
mod values;

pub use command::{Command, Files, Options, Origin, Reading};
pub use completions::{Shell, completions};
pub use help::help;
pub use man::man;

use crate::failure::{Failure, Result};
use given::Words;
use row::CommandRow;
use std::ffi::OsString;

/// What the words ask for.
pub fn parse(words: impl IntoIterator<Item = OsString>) -> Result<Command> {
    let words: Vec<OsString> = words.into_iter().collect();
    let Some((first, rest)) = words.split_first() else {
        return Failure::usage("nothing asked");
    };
    match first.to_str() {
        Some("--help" | "-h") => return Ok(Command::Help(None)),
        Some("--version" | "-V") => return Ok(Command::Version),
        _ => {}
    }
    let command = command_of(first)?;
    let is_help = |word: &&OsString| *word == "--help" || *word == "-h";
    if rest.iter().take_while(|word| *word != "--").any(|word| is_help(&word)) {
        return Ok(Command::Help(Some(command.name)));
    }
    match command.name {
        "at" => at(command, rest),
        _ => build(command, Words::of(command, rest)?),
    }
}

/// Where more is told, for words that were not understood.
pub fn hint(first: Option<OsString>) -> String {
    let command = first.and_then(|word| table::command(word.to_str()?));
    match command {
        Some(command) => format!("`cauchy help {}` tells more", command.name),
        None => "`cauchy help` tells more".to_string(),
    }
}

fn command_of(word: &OsString) -> Result<&'static CommandRow> {
    let name = word.display().to_string();
    if let Some(command) = table::command(&name) {
        return Ok(command);
    }
    if given::is_option(word) {
        return Failure::usage(format!("{name}: the command comes first, and then its options"));
    }
    let near = nearest::of(&name, table::COMMANDS.iter().map(|command| command.name));
    let near = near.map_or(String::new(), |near| format!("; the nearest one is {near}"));
    Failure::usage(format!("{name} is no command{near}"))
}

fn build(command: &'static CommandRow, words: Words) -> Result<Command> {
    let (form, mut given) = words.form(command)?;
    let asked = (form.build)(&mut given)?;
    // an option in the table that its form does not take would otherwise be passed over
    match given.is_empty() {
        true => Ok(asked),
        false => Failure::usage(format!("{}: not every word is understood", command.name)),
    }
}

/// A reading of an earlier store: DIR and N, and then the reading's words as elsewhere, but without DIR.
fn at(command: &'static CommandRow, words: &[OsString]) -> Result<Command> {
    let [dir, line, reading, rest @ ..] = words else {
        return build(command, Words::of(command, words)?);
    };
    if given::is_option(dir) || given::is_option(line) || given::is_option(reading) {
        return build(command, Words::of(command, words)?);
    }
    let reading = match table::READINGS
        .iter()
        .find(|name| reading == **name)
        .and_then(|name| table::command(name))
    {
        Some(reading) => reading,
        None => {
            let readings = given::listed(table::READINGS, "and");
            return Failure::usage(format!("at: {} is no reading: they are {readings}", reading.display()));
        }
    };
    let mut words = Words::of(reading, rest)?;
    words.operands.push_front(dir.clone());
    let told = |name: &str, what: String| Failure::Usage(format!("{name}: {what}"));
    values::folder(dir).map_err(|what| told("DIR", what))?;
    let line = values::whole(line).map_err(|what| told("N", what))?;
    match build(reading, words)? {
        Command::Read { from, reading, json, .. } => {
            Ok(Command::Read { from, at: Some(line), reading, json })
        }
        _ => Failure::usage("at reads a store's folder: give no mesh"),
    }
}
