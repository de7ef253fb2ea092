//! Text of a file as a message shows it: escaped, on one row, and cut.

/// The most characters of a line that are shown.
const ROW: usize = 60;

/// The most of them that stand before the place that is meant.
const BEFORE: usize = 40;

/// The most characters of a word that are shown.
const WORD: usize = 40;

/// Stands where something was cut off.
const CUT: &str = "..";

/// The column of a byte of a line, from 1. Characters count, and bytes that belong to none.
pub fn column(line: &[u8], at: usize) -> usize {
    let before = &line[..at.min(line.len())];
    1 + before.utf8_chunks().map(|chunk| chunk.valid().chars().count() + chunk.invalid().len()).sum::<usize>()
}

/// A word, escaped and cut.
pub fn word(text: &[u8]) -> String {
    let (shown, is_cut) = fitting(glyphs(text), WORD);
    shown.concat() + if is_cut { CUT } else { "" }
}

/// A line cut around one of its bytes, and a row below it with a mark under that byte.
pub fn rows(line: &[u8], at: usize) -> String {
    let (before, after) = line.split_at(at.min(line.len()));
    // no character has more than four bytes; one that is split here lies outside what is shown
    let near: Vec<String> = glyphs(&before[before.len().saturating_sub(4 * ROW)..]).collect();
    let (mut left, left_cut) = fitting(near.into_iter().rev(), BEFORE);
    left.reverse();
    let left = if left_cut { CUT } else { "" }.to_string() + &left.concat();
    let width = left.chars().count();
    let (right, right_cut) = fitting(glyphs(after), ROW - BEFORE.min(width));
    let end = if right_cut { CUT } else { "" };
    format!("  {left}{}{end}\n  {:width$}^", right.concat(), "")
}

/// The first pieces of a text that go into so many characters, and whether some did not.
fn fitting(glyphs: impl Iterator<Item = String>, mut room: usize) -> (Vec<String>, bool) {
    let mut fitting = Vec::new();
    for glyph in glyphs {
        let width = glyph.chars().count();
        if width > room {
            return (fitting, true);
        }
        room -= width;
        fitting.push(glyph);
    }
    (fitting, false)
}

/// The characters of a text, each as it is shown.
fn glyphs(text: &[u8]) -> impl Iterator<Item = String> {
    text.utf8_chunks().flat_map(|chunk| {
        let invalid = chunk.invalid().iter().map(|byte| format!("\\x{byte:02X}"));
        chunk.valid().chars().map(glyph).chain(invalid)
    })
}

fn glyph(c: char) -> String {
    match c {
        '\'' | '"' => c.to_string(),
        c => c.escape_debug().to_string(),
    }
}

#[cfg(test)]
mod tests {
    use super::*;

    #[test]
    fn columns_count_characters() {
        let line = "a\u{b3}\tb".as_bytes();
        assert_eq!([0, 1, 3, 4, 5, 99].map(|at| column(line, at)), [1, 2, 3, 4, 5, 5]);
        // two bytes that begin a character of three, and one that begins none
        assert_eq!(column(b"\xE2\x82x\xFFy", 4), 5);
    }

    #[test]
    fn a_word_is_escaped_and_cut() {
        assert_eq!(word(b"1.5"), "1.5");
        assert_eq!(word("it's \"\u{b3}\" \u{202e}\\".as_bytes()), "it's \"\u{b3}\" \\u{202e}\\\\");
        assert_eq!(word(b"a\0\x1b[31m\r\n\xFF"), "a\\0\\u{1b}[31m\\r\\n\\xFF");
        assert_eq!(word(&[b'7'; 40]), "7".repeat(40));
        assert_eq!(word(&[b'7'; 41]), "7".repeat(40) + "..");
        assert_eq!(word(&[0xFF; 41]), "\\xFF".repeat(10) + "..");
    }

    #[test]
    fn a_line_is_cut_around_a_place() {
        assert_eq!(rows(b"f 1 2 x", 6), "  f 1 2 x\n        ^");
        assert_eq!(rows(b"f\t1\xFF2 x", 4), "  f\\t1\\xFF2 x\n          ^");
        assert_eq!(rows(b"", 0), "  \n  ^");
        assert_eq!(rows(b"ab", 9), "  ab\n    ^");
        let long = "0123456789".repeat(30);
        let cut = rows(long.as_bytes(), 150);
        let (line, mark) = cut.split_once('\n').unwrap();
        assert_eq!(line, format!("  ..{}..", "0123456789".repeat(6)));
        assert_eq!(mark, format!("  {}^", " ".repeat(42)));
        let start = rows(long.as_bytes(), 3);
        assert_eq!(start, format!("  {}..\n     ^", "0123456789".repeat(6)));
        let end = rows(long.as_bytes(), 300);
        assert_eq!(end, format!("  ..{}\n  {}^", "0123456789".repeat(4), " ".repeat(42)));
    }

    #[test]
    fn a_cut_shows_no_part_of_a_character() {
        // the bytes before the place that are looked at begin within a character
        let line = "\u{20ac}".repeat(200);
        let cut = rows(line.as_bytes(), 300);
        assert_eq!(cut.lines().next().unwrap(), format!("  ..{}..", "\u{20ac}".repeat(60)));
    }
}
