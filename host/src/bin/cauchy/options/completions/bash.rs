//! Completions for bash.
use super::{Choice, operands, valued};
use crate::options::row::CommandRow;
use crate::options::table::COMMANDS;

/// What does not depend on the table.
const FRAME: &str = include_str!("frame.bash");

pub fn script() -> String {
    let names: Vec<&str> = COMMANDS.iter().map(|command| command.name).collect();
    let options = COMMANDS.iter().map(options).collect::<String>();
    let with_value: Vec<&str> = valued().iter().map(|(name, _)| *name).collect();
    let values = valued().iter().map(|(name, choice)| case(name, choice)).collect::<String>();
    let operands = COMMANDS.iter().map(operand_cases).collect::<String>();
    let function = |name: &str, cases: &str| format!("{name}() {{\n    case $1 in\n{cases}    esac\n}}\n");
    let lists = [
        format!("_cauchy_commands='{}'\n", names.join(" ")),
        format!("_cauchy_valued=' {} '\n", with_value.join(" ")),
        function("_cauchy_options", &options),
        function("_cauchy_value", &values),
        function("_cauchy_operand", &operands),
    ];
    format!("{FRAME}{}complete -F _cauchy cauchy\n", lists.concat())
}

fn options(command: &CommandRow) -> String {
    let names: Vec<&str> = command.all_options().iter().map(|option| option.name).collect();
    match names.is_empty() {
        true => String::new(),
        false => format!("        {}) echo '{}' ;;\n", command.name, names.join(" ")),
    }
}

/// By what each operand of a command is completed.
fn operand_cases(command: &CommandRow) -> String {
    let name = command.name;
    let choices = operands(command);
    let last = choices.len();
    // the last operand of an open form may come at any later position
    let pattern = |i: usize| match i == last && command.forms.iter().any(|form| form.is_open()) {
        true => format!("'{name} '*"),
        false => format!("'{name} {i}'"),
    };
    (1..).zip(&choices).map(|(i, choice)| case(&pattern(i), choice)).collect()
}

fn case(pattern: &str, choice: &Choice) -> String {
    let action = match choice {
        Choice::Nothing => return String::new(),
        Choice::Files => "_cauchy_files".to_string(),
        Choice::Folders => "_cauchy_folders".to_string(),
        Choice::Words(words) => format!("_cauchy_words '{}'", words.join(" ")),
    };
    format!("        {pattern}) {action} ;;\n")
}
