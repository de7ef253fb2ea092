//! The words of one command as they were given: its operands in order, its options each at most once.
use super::nearest;
use super::row::{CommandRow, Form, OptionRow};
use super::table;
use crate::failure::{Failure, Result};
use crate::input::Told;
use std::collections::VecDeque;
use std::ffi::{OsStr, OsString};
use std::os::unix::ffi::OsStrExt;
use std::path::PathBuf;

/// What was given to a command, before it is known which of its forms that is.
#[derive(Default)]
pub struct Words {
    pub operands: VecDeque<OsString>,
    options: Vec<(&'static OptionRow, OsString)>,
}

/// What was given to a form of a command, and not yet taken from it.
pub struct Given {
    operands: VecDeque<(&'static str, OsString)>,
    options: Vec<(&'static OptionRow, OsString)>,
}

impl Words {
    /// The operands and options of a command. `--` ends the options.
    pub fn of(command: &'static CommandRow, words: &[OsString]) -> Result<Words> {
        let mut given = Words::default();
        let mut words = words.iter();
        while let Some(word) = words.next() {
            if word == "--" {
                given.operands.extend(words.by_ref().cloned());
            } else if is_option(word) {
                let (name, value) = split(word);
                let option = known(command, &name)?;
                let value = match (option.value, value) {
                    (None, None) => OsString::new(),
                    (None, Some(_)) => return Failure::usage(format!("{name} takes no value")),
                    (Some(_), Some(value)) => value,
                    (Some(_), None) => next(option, words.next())?,
                };
                given.add(option, value)?;
            } else {
                given.operands.push_back(word.clone());
            }
        }
        Ok(given)
    }

    fn add(&mut self, option: &'static OptionRow, value: OsString) -> Result<()> {
        if self.options.iter().any(|(other, _)| other.name == option.name) {
            return Failure::usage(format!("{} is given twice", option.name));
        }
        self.options.push((option, value));
        Ok(())
    }

    /// The form that so many operands make, where every option goes with it and none that it needs is missing.
    pub fn form(self, command: &'static CommandRow) -> Result<(&'static Form, Given)> {
        let form = form_of(command, &self.operands)?;
        let is_taken = |option: &OptionRow| form.all_options().any(|taken| taken.name == option.name);
        if let Some((option, _)) = self.options.iter().find(|(option, _)| !is_taken(option)) {
            return Failure::usage(not_with(command, Some(form), option.name));
        }
        let is_given = |option: &OptionRow| self.options.iter().any(|(given, _)| given.name == option.name);
        if let Some(missing) = form.needs.iter().find(|option| !is_given(option)) {
            return Failure::usage(format!("give {} too: {}", missing.usage(), usage(command)));
        }
        // further operands of an open form are as its last one
        let last = form.operands.last().filter(|_| form.is_open()).into_iter().cycle();
        let names = form.operands.iter().chain(last).map(|operand| operand.name);
        Ok((form, Given { operands: names.zip(self.operands).collect(), options: self.options }))
    }
}

impl Given {
    /// The next operand, read as this.
    pub fn operand<T>(&mut self, read: impl Fn(&OsStr) -> Told<T>) -> Result<T> {
        match self.operands.pop_front() {
            Some((name, word)) => read(&word).map_err(|what| Failure::Usage(format!("{name}: {what}"))),
            None => Failure::usage("an operand is missing"),
        }
    }

    /// The next operand, where there is one.
    pub fn optional<T>(&mut self, read: impl Fn(&OsStr) -> Told<T>) -> Result<Option<T>> {
        if self.operands.is_empty() { Ok(None) } else { self.operand(read).map(Some) }
    }

    /// Whether an option without a value is given.
    pub fn flag(&mut self, option: &OptionRow) -> bool {
        self.take(option).is_some()
    }

    /// Whether an option is given and not yet taken.
    pub fn has(&self, option: &OptionRow) -> bool {
        self.options.iter().any(|(given, _)| given.name == option.name)
    }

    /// The value of an option, where it is given, read as this.
    pub fn value<T>(&mut self, option: &OptionRow, read: impl Fn(&OsStr) -> Told<T>) -> Result<Option<T>> {
        let read =
            |word: OsString| read(&word).map_err(|what| Failure::Usage(format!("{}: {what}", option.name)));
        self.take(option).map(read).transpose()
    }

    /// The file that an option names, where it is given.
    pub fn file(&mut self, option: &OptionRow) -> Result<Option<PathBuf>> {
        self.value(option, super::values::file)
    }

    fn take(&mut self, option: &OptionRow) -> Option<OsString> {
        let found = self.options.iter().position(|(given, _)| given.name == option.name)?;
        Some(self.options.remove(found).1)
    }

    /// Whether all has been taken.
    pub fn is_empty(&self) -> bool {
        self.operands.is_empty() && self.options.is_empty()
    }
}

/// Whether a word is an option: it begins with `-`, and is neither a number nor `-` alone.
pub fn is_option(word: &OsStr) -> bool {
    let bytes = word.as_bytes();
    let is_number = match bytes {
        [b'-', b'.', digit, ..] | [b'-', digit, ..] => digit.is_ascii_digit(),
        _ => false,
    };
    bytes.starts_with(b"-") && bytes.len() > 1 && !is_number
}

/// The name of an option, and its value where that is in the same word.
fn split(word: &OsStr) -> (String, Option<OsString>) {
    let bytes = word.as_bytes();
    match bytes.iter().position(|byte| *byte == b'=') {
        None => (word.display().to_string(), None),
        Some(at) => {
            let name = String::from_utf8_lossy(&bytes[..at]).into_owned();
            (name, Some(OsStr::from_bytes(&bytes[at + 1..]).to_os_string()))
        }
    }
}

/// The value that stands in the word after its option. The name of an option is none: it is more likely that the value
/// was forgotten.
fn next(option: &OptionRow, word: Option<&OsString>) -> Result<OsString> {
    let name = option.name;
    match word {
        Some(word) if table::options().any(|option| word == option.name) => {
            let word = word.display();
            Failure::usage(format!(
                "{name}: its value is missing before {word}; {name}={word} would be that word"
            ))
        }
        Some(word) => Ok(word.clone()),
        None => Failure::usage(format!("{name}: its value is missing")),
    }
}

/// The option of this name, where the command has it.
fn known(command: &'static CommandRow, name: &str) -> Result<&'static OptionRow> {
    let options = command.all_options();
    if let Some(option) = options.iter().find(|option| option.name == name) {
        return Ok(option);
    }
    if table::options().any(|option| option.name == name) {
        return Failure::usage(not_with(command, None, name));
    }
    let near = nearest::of(name, options.iter().map(|option| option.name));
    let near = near.map_or(String::new(), |near| format!("; the nearest one of {} is {near}", command.name));
    let file = if name.starts_with("--") { "" } else { "; behind -- it would be an operand" };
    Failure::usage(format!("{name} is no option{near}{file}"))
}

/// Why an option does not go with a command, or with one of its forms.
fn not_with(command: &CommandRow, form: Option<&Form>, name: &str) -> String {
    let reasons = form.map_or(command.reasons, |form| form.reasons);
    if let Some(reason) = reasons.iter().find(|reason| reason.options.contains(&name)) {
        return reason.why.to_string();
    }
    let (with, options) = match form {
        Some(form) => (format!("{} {}", command.name, operands(form)), form.all_options().collect()),
        None => (command.name.to_string(), command.all_options()),
    };
    let names: Vec<&str> = options.iter().map(|option| option.name).collect();
    match names.len() {
        0 => format!("{name}: {with} takes no option"),
        1..=8 => format!("{name}: {with} takes no option but {}", listed(&names, "and")),
        _ => format!("{name} does not go with {with}; it goes with {}", listed(&table::with(name), "and")),
    }
}

/// The operands of a form in words.
fn operands(form: &Form) -> String {
    form.operands.iter().map(|operand| operand.name).collect::<Vec<_>>().join(" ")
}

/// Words with commas, and one word before the last.
pub fn listed(words: &[&str], last: &str) -> String {
    match words {
        [] => String::new(),
        [one] => one.to_string(),
        [first @ .., end] => format!("{} {last} {end}", first.join(", ")),
    }
}

/// The forms of a command in words.
fn usage(command: &CommandRow) -> String {
    let forms = command.forms.iter().map(|form| format!("cauchy {} {}", command.name, form.usage()));
    forms.map(|form| form.trim_end().to_string()).collect::<Vec<_>>().join(", or ")
}

/// The form of a command that so many operands make.
fn form_of(command: &'static CommandRow, given: &VecDeque<OsString>) -> Result<&'static Form> {
    let count = given.len();
    let is_it = |form: &&Form| (form.counts().0..=form.counts().1).contains(&count);
    if let Some(form) = command.forms.iter().find(is_it) {
        return Ok(form);
    }
    let usage = usage(command);
    // the form that lacks least; where all have enough, there is one too many
    let longer = command.forms.iter().filter(|form| form.counts().0 > count);
    match (longer.min_by_key(|form| form.counts().0), given.back()) {
        (Some(form), _) => {
            let missing = form.operands[count..].iter().filter(|operand| !operand.is_optional);
            let missing: Vec<&str> = missing.map(|operand| operand.name).collect();
            let are = if missing.len() == 1 { "is" } else { "are" };
            let name = command.name;
            Failure::usage(format!("{name}: {} {are} missing: {usage}", listed(&missing, "and")))
        }
        (None, Some(last)) => {
            Failure::usage(format!("{}: {} is one word too many: {usage}", command.name, last.display()))
        }
        (None, None) => Failure::usage(format!("{}: {usage}", command.name)),
    }
}
