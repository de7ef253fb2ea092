//! The log of a store: who did what and when, and what was answered.
use super::html::{Html, Table, cell, element, paragraph};
use crate::figures::{count, counted};
use crate::folder::{self, Entry};

/// The most lines that are shown, and the most characters of each part of a line: a page is to be read, and has an end.
const LINES: usize = 500;
const CHARACTERS: usize = 300;

pub fn log(log: &[Entry]) -> Html {
    let shown = &log[log.len().saturating_sub(LINES)..];
    let lines = match log.len() - shown.len() {
        0 => format!("{}, oldest first.", counted(log.len() as u64, "line")),
        before => format!(
            "{}; the last {} are here, oldest first, and {} before them are not.",
            counted(log.len() as u64, "line"),
            count(LINES as u64),
            count(before as u64)
        ),
    };
    if log.is_empty() {
        return paragraph("No line: this store has no log.");
    }
    let heads = ["line", "when", "who", "call", "answer", "the call as it is kept, lengths in m"];
    let mut table = Table::new("log-table", "The log", heads);
    for entry in shown {
        let [call, answer] = folder::in_words(entry).map(|words| Html::from(cut(&words)));
        let is_refused = entry.answer.starts_with("(no ");
        let answer = if is_refused { element("strong", &[("class", "mark")], answer) } else { answer };
        let (when, who) =
            (element("td", &[("class", "when")], folder::time(entry.when)), cell(cut(&entry.who)));
        table.row(
            entry.number.to_string(),
            [when, who, long(call), cell(answer), long(element("code", &[], cut(&entry.call)))],
        );
    }
    Html::from([paragraph(lines), table.html()])
}

fn long(content: Html) -> Html {
    element("td", &[("class", "long")], content)
}

/// The first characters of a text.
fn cut(text: &str) -> String {
    match text.char_indices().nth(CHARACTERS) {
        Some((at, _)) => format!("{}…", &text[..at]),
        None => text.to_string(),
    }
}

#[cfg(test)]
mod tests {
    use super::*;

    #[test]
    fn lines_are_told_in_words_and_refusals_marked() {
        let entry = |call: &str, answer: &str| Entry {
            number: 7,
            when: 0,
            who: "ada".into(),
            call: call.into(),
            answer: answer.into(),
        };
        let page = log(&[entry("(clear 7)", "(clear 7)"), entry("(clear 8)", "(no 7) vacant")]).into_string();
        assert!(
            page.contains("1970-01-01T00:00:00Z</td><td>ada</td>")
                && page.contains(">clear 7</td><td>empty</td>")
        );
        assert!(
            page.contains("<strong class=\"mark\">REFUSED, vacant: the place is empty (no 7)</strong>"),
            "{page}"
        );
        assert!(page.contains("<code>(clear 8)</code>"));
    }

    #[test]
    fn a_long_log_is_cut_and_says_so() {
        let entry = |number| Entry {
            number,
            when: 0,
            who: "ö".repeat(400),
            call: "(clear 1)".into(),
            answer: "x".into(),
        };
        let entries: Vec<Entry> = (1..=503).map(entry).collect();
        let page = log(&entries).into_string();
        assert!(page.contains("503 lines; the last 500 are here, oldest first, and 3 before them are not."));
        assert!(!page.contains("<th scope=\"row\">3</th>") && page.contains("<th scope=\"row\">4</th>"));
        assert!(page.contains(&format!("<td>{}…</td>", "ö".repeat(300))));
        assert!(log(&entries[..2]).into_string().contains("2 lines, oldest first."));
    }
}
