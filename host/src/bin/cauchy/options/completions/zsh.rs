//! Completions for zsh, by its `_arguments`.
use super::{Choice, brief, operands};
use crate::options::row::{CommandRow, OptionRow};
use crate::options::table::COMMANDS;

/// What does not depend on the table.
const FRAME: &str = include_str!("frame.zsh");

pub fn script() -> String {
    let commands = COMMANDS.iter().map(described).collect::<String>();
    let cases = COMMANDS.iter().map(case).collect::<String>();
    format!(
        "{FRAME}_cauchy_commands() {{\n  local -a commands\n  commands=(\n{commands}  )\n  \
         _describe -t commands command commands\n}}\n\
         _cauchy_words_of() {{\n  case $1 in\n{cases}  esac\n}}\n_cauchy \"$@\"\n"
    )
}

fn described(command: &CommandRow) -> String {
    format!("    {}\n", quoted(&format!("{}:{}", command.name, escaped(brief(command.purpose)))))
}

/// The words of a command.
fn case(command: &CommandRow) -> String {
    let options = command.all_options().into_iter().map(option);
    let choices = operands(command).into_iter().enumerate();
    let open = command.forms.iter().find(|form| form.is_open()).map(|form| form.operands.len());
    let position = |i: usize| if open == Some(i + 1) { "*".to_string() } else { (i + 1).to_string() };
    let operands =
        choices.map(|(i, choice)| format!("{}:{}:{}", position(i), name(command, i), action(&choice)));
    let specs =
        options.chain(operands).map(|spec| format!(" \\\n      {}", quoted(&spec))).collect::<String>();
    format!(
        "    ({})\n      _arguments -S '--help[tells the words of the command]'{specs}\n      ;;\n",
        command.name
    )
}

/// What an operand is called, in each form that has one there.
fn name(command: &CommandRow, i: usize) -> String {
    let mut names: Vec<&str> =
        command.forms.iter().filter_map(|form| form.operands.get(i)).map(|operand| operand.name).collect();
    names.dedup();
    names.join(" or ")
}

fn option(option: &'static OptionRow) -> String {
    let meaning = escaped(brief(option.meaning));
    match option.value {
        None => format!("{}[{meaning}]", option.name),
        Some((value, kind)) => {
            format!("{}=[{meaning}]:{}:{}", option.name, escaped(value), action(&Choice::of(kind)))
        }
    }
}

fn action(choice: &Choice) -> String {
    match choice {
        Choice::Nothing => " ".to_string(),
        Choice::Files => "_files".to_string(),
        Choice::Folders => "_files -/".to_string(),
        Choice::Words(words) => format!("({})", words.join(" ")),
    }
}

/// Text in which no character is one of a specification.
fn escaped(text: &str) -> String {
    text.chars().filter(|letter| *letter != '`').fold(String::new(), |mut text, letter| {
        if "[]:\\".contains(letter) {
            text.push('\\');
        }
        text.push(letter);
        text
    })
}

fn quoted(word: &str) -> String {
    format!("'{}'", word.replace('\'', "'\\''"))
}
