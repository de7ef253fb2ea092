//! Texts of the table, filled into lines. Paragraphs have an empty line between them; a line that begins with a blank
//! stands as it is.

/// The width of what is printed.
pub const WIDTH: usize = 100;

/// A part of a text.
#[derive(Debug, PartialEq)]
pub enum Part {
    /// Words to be filled into lines.
    Paragraph(String),
    /// Lines that stand as they are.
    Lines(Vec<String>),
}

/// The parts of a text, in order.
pub fn parts(text: &str) -> Vec<Part> {
    let mut parts: Vec<Part> = Vec::new();
    let mut is_apart = true;
    for line in text.lines() {
        match (parts.last_mut(), line.starts_with(' ')) {
            _ if line.trim().is_empty() => is_apart = true,
            (Some(Part::Lines(lines)), true) if !is_apart => lines.push(line.to_string()),
            (Some(Part::Paragraph(words)), false) if !is_apart => *words += &format!(" {line}"),
            (_, true) => parts.push(Part::Lines(vec![line.to_string()])),
            (_, false) => parts.push(Part::Paragraph(line.to_string())),
        }
        is_apart = is_apart && line.trim().is_empty();
    }
    parts
}

/// A text as it is printed, its parts with an empty line between them.
pub fn printed(text: &str) -> String {
    let part = |part: Part| match part {
        Part::Paragraph(words) => filled(&words, WIDTH).join("\n") + "\n",
        Part::Lines(lines) => lines.join("\n") + "\n",
    };
    parts(text).into_iter().map(part).collect::<Vec<_>>().join("\n")
}

/// Words in lines of at most so many characters; a longer word has a line of its own.
pub fn filled(words: &str, width: usize) -> Vec<String> {
    let mut lines: Vec<String> = Vec::new();
    for word in words.split_whitespace() {
        match lines.last_mut() {
            Some(line) if line.chars().count() + 1 + word.chars().count() <= width => {
                *line += &format!(" {word}")
            }
            _ => lines.push(word.to_string()),
        }
    }
    lines
}

/// Rows of a name and a meaning, the meanings in a column of their own.
pub fn rows(rows: &[(String, String)]) -> String {
    let widest = rows.iter().map(|(name, _)| name.chars().count()).max().unwrap_or(0);
    let margin = widest.min(24) + 4;
    let row = |(name, meaning): &(String, String)| {
        let mut lines = filled(meaning, WIDTH - margin).into_iter();
        // a name that is too wide has a line of its own
        let head = match name.chars().count() + 4 > margin {
            true => format!("  {name}"),
            false => format!("  {name:<0$}{1}", margin - 2, lines.next().unwrap_or_default()),
        };
        let rest = lines.map(|line| format!("{:margin$}{line}", ""));
        std::iter::once(head.trim_end().to_string()).chain(rest).map(|line| line + "\n").collect::<String>()
    };
    rows.iter().map(row).collect()
}

#[cfg(test)]
mod tests {
    use super::*;

    #[test]
    fn paragraphs_are_filled_and_lines_stand() {
        let parts = parts("one\ntwo\n  as it\n   is\n\n\n  apart\n\nthree\n");
        let lines = |lines: &[&str]| Part::Lines(lines.iter().map(|line| line.to_string()).collect());
        let wanted = [
            Part::Paragraph("one two".to_string()),
            lines(&["  as it", "   is"]),
            lines(&["  apart"]),
            Part::Paragraph("three".to_string()),
        ];
        assert_eq!(parts, wanted);
        assert_eq!(filled("a bb ccc dddddddd e", 6), ["a bb", "ccc", "dddddddd", "e"]);
        assert_eq!(printed("a\nb\n\n  c"), "a b\n\n  c\n");
    }

    #[test]
    fn rows_have_two_columns() {
        let row = |name: &str, meaning: &str| (name.to_string(), meaning.to_string());
        let wide = "x".repeat(30);
        let told = rows(&[row("--raw", "as entered"), row(&wide, "long"), row("none", "")]);
        let margin = " ".repeat(28);
        assert_eq!(told, format!("  --raw{}as entered\n  {wide}\n{margin}long\n  none\n", " ".repeat(21)));
    }
}
