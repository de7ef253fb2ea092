//! Completions for fish.
use super::{Choice, brief, operands};
use crate::options::row::{CommandRow, OptionRow};
use crate::options::table::COMMANDS;

/// What does not depend on the table.
const FRAME: &str = include_str!("frame.fish");

pub fn script() -> String {
    let commands = COMMANDS.iter().map(named).collect::<String>();
    let words = COMMANDS.iter().map(words).collect::<String>();
    format!("{FRAME}{commands}{words}")
}

fn named(command: &CommandRow) -> String {
    let purpose = quoted(brief(command.purpose));
    format!("complete -c cauchy -n __cauchy_at_begin -a {} -d {purpose}\n", command.name)
}

/// The options and operands of a command.
fn words(command: &CommandRow) -> String {
    let begin = format!("complete -c cauchy -n '__cauchy_is {}'", command.name);
    let mut choices = operands(command);
    // which operand it is is not asked: what any of them takes is offered, once
    let has_files = choices.contains(&Choice::Files);
    choices.retain(|choice| *choice != Choice::Nothing && !(has_files && *choice == Choice::Folders));
    choices.dedup();
    let operands =
        choices.iter().filter_map(offered).map(|offer| format!("{begin} {offer}\n")).collect::<String>();
    let options = command.all_options().into_iter().map(|each| format!("{begin} {}\n", option(each)));
    operands + &options.collect::<String>()
}

fn offered(choice: &Choice) -> Option<String> {
    match choice {
        Choice::Nothing => None,
        Choice::Files => Some("-F".to_string()),
        Choice::Folders => Some("-a '(__fish_complete_directories)'".to_string()),
        Choice::Words(words) => Some(format!("-a {}", quoted(&words.join(" ")))),
    }
}

fn option(option: &'static OptionRow) -> String {
    let name = option.name.trim_start_matches('-');
    let value = match option.value.map(|(_, kind)| Choice::of(kind)) {
        None => String::new(),
        Some(Choice::Nothing) => " -x".to_string(),
        Some(Choice::Files) => " -r -F".to_string(),
        Some(Choice::Folders) => " -x -a '(__fish_complete_directories)'".to_string(),
        Some(Choice::Words(words)) => format!(" -x -a {}", quoted(&words.join(" "))),
    };
    format!("-l {name}{value} -d {}", quoted(brief(option.meaning)))
}

fn quoted(word: &str) -> String {
    format!("'{}'", word.replace('\\', "\\\\").replace('\'', "\\'"))
}
