//! The help: the commands by group, one command, or a topic.
use super::nearest;
use super::row::{CommandRow, Conventions, Form, Group, Operand, OptionRow};
use super::rows::CONVENTIONS;
use super::table::{self, COMMANDS};
use super::text::{self, printed, rows};
use super::topics::{TOPICS, Topic, topic};
use crate::input::Told;
use std::ffi::OsStr;

/// What the program is, in one sentence.
pub const PURPOSE: &str = "density, mass and rescaled weights of kernels inside a shape model";

/// The help on a command or a topic, or on all.
pub fn help(subject: Option<&str>) -> String {
    let subject = subject.unwrap_or_default();
    match (table::command(subject), topic(subject)) {
        (Some(command), _) => of_command(command),
        (None, Some(topic)) => of_topic(topic),
        (None, None) => of_all(),
    }
}

/// The name of a command or a topic.
pub fn subject(word: &OsStr) -> Told<&'static str> {
    let names = || COMMANDS.iter().map(|command| command.name).chain(TOPICS.iter().map(|topic| topic.name));
    let name = word.display().to_string();
    let near =
        nearest::of(&name, names()).map_or(String::new(), |near| format!("; the nearest one is {near}"));
    names().find(|known| *known == name).ok_or_else(|| format!("{name} is no command and no topic{near}"))
}

fn of_all() -> String {
    let group = |group: Group| {
        let commands = COMMANDS.iter().filter(|command| command.group == group);
        let commands: Vec<_> =
            commands.map(|command| (command.name.into(), command.purpose.into())).collect();
        format!("{}\n{}\n", group.title(), rows(&commands))
    };
    let groups = Group::ALL.map(group).concat();
    let topics: Vec<_> = TOPICS.iter().map(|topic| (topic.name.into(), topic.purpose.into())).collect();
    let topics = rows(&topics);
    let more = "`cauchy help COMMAND`, or `cauchy COMMAND --help`, tells the words of a command, and `cauchy help \
                TOPIC` a topic. `cauchy --version` tells the version. Exit status: 0 done, 1 refused or failed, 2 not \
                understood, 130 interrupted.";
    format!("cauchy: {PURPOSE}\n\n{groups}Topics\n{topics}\n{}", printed(more))
}

fn of_topic(topic: &Topic) -> String {
    format!("cauchy help {}: {}\n\n{}", topic.name, lower(topic.purpose), printed(topic.text))
}

fn of_command(command: &CommandRow) -> String {
    let usages = usages(command).into_iter().map(|usage| format!("  {usage}\n")).collect::<String>();
    let text = if command.text.is_empty() { String::new() } else { format!("\n{}", printed(command.text)) };
    let sections =
        sections(command).into_iter().map(|(title, rows)| format!("\n{title}\n{}", text::rows(&rows)));
    format!(
        "cauchy {}: {}\n\n{usages}{text}{}",
        command.name,
        lower(command.purpose),
        sections.collect::<String>()
    )
}

/// A sentence as it stands behind a colon.
fn lower(sentence: &str) -> String {
    let mut letters = sentence.chars();
    letters.next().map_or(String::new(), |first| first.to_lowercase().chain(letters).collect())
}

/// How a command may be given.
pub fn usages(command: &CommandRow) -> Vec<String> {
    let usage = |form: &Form| format!("cauchy {} {}", command.name, form.usage()).trim_end().to_string();
    command.forms.iter().map(usage).collect()
}

/// The operands, conventions and options of a command, each with its meaning.
pub fn sections(command: &CommandRow) -> Vec<(String, Vec<(String, String)>)> {
    let conventions = match command.forms.iter().map(|form| form.conventions).max() {
        Some(Conventions::One) => "Conventions, of which one is named",
        Some(Conventions::Several) => "Conventions, of which one or more are named",
        _ => "",
    };
    let named = if conventions.is_empty() { &[] } else { CONVENTIONS };
    let is_other = |option: &&&OptionRow| named.iter().all(|convention| convention.name != option.name);
    let options = command.all_options();
    let options = options.iter().filter(is_other).map(|option| option_row(option, command)).collect();
    let all = [
        ("Operands", operands(command)),
        (conventions, named.iter().map(|option| option_row(option, command)).collect()),
        ("Options", options),
    ];
    all.into_iter().filter(|(_, rows)| !rows.is_empty()).map(|(title, rows)| (title.into(), rows)).collect()
}

/// An option with its meaning, and with the form that it goes with where that is not every one.
fn option_row(option: &OptionRow, command: &CommandRow) -> (String, String) {
    let has = |form: &&Form| form.all_options().any(|other| other.name == option.name);
    let (of, others): (Vec<&Form>, Vec<&Form>) = command.forms.iter().partition(has);
    let names =
        |forms: &[&Form]| forms.iter().map(|form| operand_names(form)).collect::<Vec<_>>().join(" or ");
    let (with, without) = (names(&of), names(&others));
    let only = match others.is_empty() {
        true => String::new(),
        // LINES alone would not tell itself from LINES DIR
        false if without.starts_with(&with) => format!(" (not with {without})"),
        false => format!(" (with {with})"),
    };
    (option.usage(), format!("{}{only}", option.meaning))
}

fn operand_names(form: &Form) -> String {
    form.operands.iter().map(|operand| operand.name).collect::<Vec<_>>().join(" ")
}

/// The operands of all forms, each once.
fn operands(command: &CommandRow) -> Vec<(String, String)> {
    let mut found: Vec<&Operand> = Vec::new();
    for operand in command.forms.iter().flat_map(|form| form.operands) {
        if found.iter().all(|other| other.name != operand.name) {
            found.push(operand);
        }
    }
    found.into_iter().map(|operand| (operand.name.to_string(), operand.meaning.to_string())).collect()
}
