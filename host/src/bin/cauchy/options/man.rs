//! The manual page, in the language of `man` (roff).
use super::help::{PURPOSE, sections, usages};
use super::row::{CommandRow, Group};
use super::table::COMMANDS;
use super::text::{Part, parts};
use super::topics::{TOPICS, Topic};

/// The manual page, for `man`.
pub fn man() -> String {
    let head = format!(
        ".TH CAUCHY 1 \"\" \"cauchy {}\" \"User Commands\"\n.SH NAME\ncauchy \\- {}\n",
        env!("CARGO_PKG_VERSION"),
        escaped(PURPOSE)
    );
    head + &synopsis() + &Group::ALL.map(group).concat() + &TOPICS.iter().map(topic).collect::<String>()
}

fn synopsis() -> String {
    let usages: Vec<String> = COMMANDS.iter().flat_map(usages).collect();
    format!(".SH SYNOPSIS\n{}", lines(&usages))
}

fn group(group: Group) -> String {
    let commands = COMMANDS.iter().filter(|command| command.group == group).map(command).collect::<String>();
    format!(".SH {}\n{commands}", quoted(&group.title().to_uppercase()))
}

fn command(command: &CommandRow) -> String {
    let purpose = format!("{}.", escaped(command.purpose));
    let sections = sections(command).into_iter().map(|(title, rows)| {
        let rows = rows.iter().map(row).collect::<String>();
        format!(".PP\n{}:\n{rows}", escaped(&title))
    });
    let usages = lines(&usages(command));
    let text = text(command.text);
    format!(".SS {}\n{usages}.PP\n{purpose}\n{text}{}", quoted(command.name), sections.collect::<String>())
}

fn topic(topic: &Topic) -> String {
    // the name that readers of manual pages look for
    let title = if topic.name == "exit" { "EXIT STATUS".to_string() } else { topic.name.to_uppercase() };
    format!(".SH {}\n{}", quoted(&title), text(topic.text))
}

/// A name and its meaning.
fn row((name, meaning): &(String, String)) -> String {
    format!(".TP\n.B {}\n{}\n", quoted(name), begun(&escaped(meaning)))
}

fn text(text: &str) -> String {
    let part = |part: Part| match part {
        Part::Paragraph(words) => format!(".PP\n{}\n", begun(&escaped(&words))),
        Part::Lines(rows) => lines(&rows),
    };
    parts(text).into_iter().map(part).collect()
}

/// Lines that stand as they are, indented by what they have over the least indented one.
fn lines(rows: &[String]) -> String {
    let blanks = |line: &String| line.len() - line.trim_start().len();
    let least = rows.iter().map(blanks).min().unwrap_or(0);
    let line = |line: &String| format!("{}\n", begun(&plain(&line[least..])));
    format!(".PP\n.RS 4\n.nf\n{}.fi\n.RE\n", rows.iter().map(line).collect::<String>())
}

/// An argument of a request.
fn quoted(words: &str) -> String {
    format!("\"{}\"", plain(words).replace('"', "\\(dq"))
}

/// A line of text, which must not begin as a request does.
fn begun(line: &str) -> String {
    if line.starts_with(['.', '\'']) { format!("\\&{line}") } else { line.to_string() }
}

/// Words, those between backticks in bold.
fn escaped(words: &str) -> String {
    let part = |(i, words): (usize, &str)| match i % 2 {
        0 => plain(words),
        _ => format!("\\fB{}\\fP", plain(words)),
    };
    words.split('`').enumerate().map(part).collect()
}

/// Characters as roff has them.
fn plain(words: &str) -> String {
    let character = |character: char| match character {
        '\\' => "\\e".to_string(),
        '-' => "\\-".to_string(),
        '\'' => "\\(aq".to_string(),
        '`' => "\\(ga".to_string(),
        '^' => "\\(ha".to_string(),
        '~' => "\\(ti".to_string(),
        // a terminal that has ASCII alone would leave these out, and a unit would become another one
        '²' => "\\(ha2".to_string(),
        '³' => "\\(ha3".to_string(),
        '·' => "*".to_string(),
        '×' => "x".to_string(),
        ' '..='~' => character.to_string(),
        _ => format!("\\[u{:04X}]", u32::from(character)),
    };
    words.chars().map(character).collect()
}

#[cfg(test)]
mod tests {
    use super::*;

    #[test]
    fn what_roff_would_take_for_its_own_is_escaped() {
        assert_eq!(
            escaped("a-b \\ `--raw` it's 1^2 kg/m³"),
            "a\\-b \\e \\fB\\-\\-raw\\fP it\\(aqs 1\\(ha2 kg/m\\(ha3"
        );
        assert_eq!(begun(".. and"), "\\&.. and");
        assert_eq!(quoted("say \"it\""), "\"say \\(dqit\\(dq\"");
        assert_eq!(plain("é→"), "\\[u00E9]\\[u2192]");
        let rows = ["    a".to_string(), "      .b".to_string()];
        assert_eq!(lines(&rows), ".PP\n.RS 4\n.nf\na\n  .b\n.fi\n.RE\n");
    }

    #[test]
    fn every_command_option_and_topic_is_in_the_page() {
        let page = man();
        for command in COMMANDS {
            assert!(page.contains(&format!(".SS \"{}\"\n", command.name)), "{}", command.name);
            for option in command.all_options() {
                assert!(page.contains(&format!(".B {}\n", quoted(&option.usage()))), "{}", option.name);
            }
        }
        assert!(TOPICS.iter().all(|each| page.contains(&topic(each))));
        assert!(page.is_ascii() && page.lines().all(|line| !line.trim_end().is_empty()));
    }
}
