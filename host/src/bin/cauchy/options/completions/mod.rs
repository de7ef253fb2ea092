//! What completes the program's words in a shell: commands, the options of each and what their values and operands are.
mod bash;
mod fish;
mod zsh;

use super::row::{CommandRow, Form, Kind};
use super::table::{self, COMMANDS};
use super::topics::TOPICS;
use crate::input::Told;
use std::ffi::OsStr;

/// A shell.
#[derive(Clone, Copy, Debug, PartialEq)]
pub enum Shell {
    Bash,
    Zsh,
    Fish,
}

impl Shell {
    pub fn named(word: &OsStr) -> Told<Shell> {
        match word.to_str() {
            Some("bash") => Ok(Shell::Bash),
            Some("zsh") => Ok(Shell::Zsh),
            Some("fish") => Ok(Shell::Fish),
            _ => Err(format!("{} is none of bash, zsh and fish", word.display())),
        }
    }
}

/// The shell's file of completions.
pub fn completions(shell: Shell) -> String {
    match shell {
        Shell::Bash => bash::script(),
        Shell::Zsh => zsh::script(),
        Shell::Fish => fish::script(),
    }
}

/// What a word is completed by.
#[derive(Clone, Debug, PartialEq)]
enum Choice {
    Nothing,
    Files,
    Folders,
    Words(Vec<&'static str>),
}

impl Choice {
    fn of(kind: Kind) -> Choice {
        match kind {
            Kind::File | Kind::Path => Choice::Files,
            Kind::Folder => Choice::Folders,
            Kind::Number => Choice::Nothing,
            Kind::Words(words) => Choice::Words(words.to_vec()),
            Kind::Reading => Choice::Words(table::READINGS.to_vec()),
            Kind::Subject => Choice::Words(subjects()),
        }
    }

    /// One that completes what either does.
    fn or(self, other: Choice) -> Choice {
        match (self, other) {
            (Choice::Nothing, other) => other,
            (some, Choice::Nothing) => some,
            (Choice::Folders, Choice::Folders) => Choice::Folders,
            (Choice::Words(words), _) | (_, Choice::Words(words)) => Choice::Words(words),
            _ => Choice::Files,
        }
    }
}

fn subjects() -> Vec<&'static str> {
    COMMANDS.iter().map(|command| command.name).chain(TOPICS.iter().map(|topic| topic.name)).collect()
}

/// What completes each operand of a command, whichever of its forms it is.
fn operands(command: &CommandRow) -> Vec<Choice> {
    let most = command.forms.iter().map(|form| form.operands.len()).max().unwrap_or(0);
    let of = |form: &Form, i: usize| {
        form.operands.get(i).map_or(Choice::Nothing, |operand| Choice::of(operand.kind))
    };
    let at = |i: usize| command.forms.iter().map(|form| of(form, i)).fold(Choice::Nothing, Choice::or);
    (0..most).map(at).collect()
}

/// The options with values, each name once.
fn valued() -> Vec<(&'static str, Choice)> {
    let mut found: Vec<(&'static str, Choice)> = Vec::new();
    for option in table::options() {
        if let Some((_, kind)) = option.value
            && found.iter().all(|(name, _)| *name != option.name)
        {
            found.push((option.name, Choice::of(kind)));
        }
    }
    found
}

/// The beginning of a meaning, up to its first pause.
fn brief(meaning: &str) -> &str {
    let pauses = ["; ", ". ", ": ", ", so that "];
    let end = pauses.iter().filter_map(|pause| meaning.find(pause)).min();
    &meaning[..end.unwrap_or(meaning.len())]
}

#[cfg(test)]
mod tests {
    use super::*;

    #[test]
    fn operands_are_completed_whatever_the_form() {
        let of = |name| operands(table::command(name).unwrap());
        assert_eq!(of("import"), [Choice::Files, Choice::Folders]);
        assert_eq!(of("bill"), [Choice::Files, Choice::Files]);
        assert_eq!(of("put")[..3], [Choice::Folders, Choice::Files, Choice::Nothing]);
        assert_eq!(of("completions"), [Choice::Words(vec!["bash", "zsh", "fish"])]);
        assert_eq!(of("man"), []);
        assert_eq!(of("adopt"), [Choice::Folders, Choice::Files]);
    }

    /// Every further word of an adoption is a file too.
    #[test]
    fn an_operand_that_may_come_several_times_is_completed_each_time() {
        let bash = completions(Shell::Bash);
        assert!(bash.contains("'adopt 1') _cauchy_folders") && bash.contains("'adopt '*) _cauchy_files"));
        assert!(completions(Shell::Zsh).contains("'*:PART:_files'"));
    }

    #[test]
    fn an_option_has_one_kind_of_value_in_all_commands() {
        let known = valued();
        for option in table::options() {
            let of_name =
                known.iter().find(|(name, _)| *name == option.name).map(|(_, choice)| choice.clone());
            assert_eq!(of_name, option.value.map(|(_, kind)| Choice::of(kind)), "{}", option.name);
        }
    }

    #[test]
    fn a_meaning_is_cut_at_its_first_pause() {
        assert_eq!(brief("do at most N steps now; otherwise all"), "do at most N steps now");
        assert_eq!(brief("weights as entered"), "weights as entered");
    }
}
