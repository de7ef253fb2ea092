//! The words of a line and the numbers that they stand for, each with its place in the line.
use super::Told;
use crate::excerpt;

/// What is wrong in a line, and at which of its bytes.
#[derive(Debug, PartialEq)]
pub struct Fault {
    pub at: usize,
    pub what: String,
}

/// What is read of a line.
pub type Read<T> = std::result::Result<T, Fault>;

/// A word of a line.
#[derive(Clone, Copy, Debug, Default)]
pub struct Word<'a> {
    /// Its first byte in the line.
    pub at: usize,
    pub text: &'a [u8],
}

/// The words of a line, one after the other.
#[derive(Clone, Copy)]
pub struct Words<'a> {
    line: &'a [u8],
    /// The byte behind the word that was given last.
    at: usize,
    has_comments: bool,
}

impl<'a> Words<'a> {
    /// The words of a line up to the first that begins with `#`.
    pub fn of(line: &'a [u8]) -> Words<'a> {
        Words { line, at: 0, has_comments: true }
    }

    /// The words of a line from a byte of it on, where `#` is like any other character.
    pub fn from(line: &'a [u8], at: usize) -> Words<'a> {
        Words { line, at, has_comments: false }
    }

    /// Whether a word comes.
    pub fn is_content(&self) -> bool {
        self.start().is_some()
    }

    /// Where the next word begins.
    #[inline]
    fn start(&self) -> Option<usize> {
        let rest = &self.line[self.at..];
        let start = rest.iter().position(|byte| !byte.is_ascii_whitespace())?;
        let is_comment = self.has_comments && rest[start] == b'#';
        (!is_comment).then_some(self.at + start)
    }

    /// The byte behind the word that was given last.
    pub fn at(&self) -> usize {
        self.at
    }

    /// The words that come next, as many as there is room for, and how many come in all.
    pub fn ahead<const N: usize>(self) -> ([Word<'a>; N], usize) {
        let mut words = [Word::default(); N];
        let mut n = 0;
        for word in self {
            if let Some(slot) = words.get_mut(n) {
                *slot = word;
            }
            n += 1;
        }
        (words, n)
    }

    /// A fault for the number of words that come: at the first beyond so many, or behind the last.
    pub fn miscounted(mut self, most: usize, what: String) -> Fault {
        let all = self;
        let extra = self.nth(most).map(|word| word.at);
        let end = all.last().map_or(all.at, |word| word.at + word.text.len());
        Fault { at: extra.unwrap_or(end), what }
    }
}

impl<'a> Iterator for Words<'a> {
    type Item = Word<'a>;

    #[inline]
    fn next(&mut self) -> Option<Word<'a>> {
        let at = self.start()?;
        let rest = &self.line[at..];
        let end = rest.iter().position(u8::is_ascii_whitespace).unwrap_or(rest.len());
        self.at = at + end;
        let word = Word { at, text: &rest[..end] };
        Some(word)
    }
}

impl<'a> Word<'a> {
    pub fn is(&self, text: &str) -> bool {
        self.text == text.as_bytes()
    }

    /// The word as a message shows it.
    pub fn shown(&self) -> String {
        excerpt::word(self.text)
    }

    /// A fault of this word.
    pub fn fault(&self, what: impl Into<String>) -> Fault {
        Fault { at: self.at, what: what.into() }
    }

    /// What is told of this word, as a fault of it.
    pub fn told<T>(&self, told: Told<T>) -> Read<T> {
        told.map_err(|what| self.fault(what))
    }

    /// A number that stays finite in metres and squared.
    pub fn number(&self) -> Read<f64> {
        let number = std::str::from_utf8(self.text).ok().and_then(|text| text.parse().ok());
        match number {
            Some(x) if in_range(x) => Ok(x),
            _ => Err(self.fault(format!("`{}` {NO_NUMBER}", self.shown()))),
        }
    }

    /// A whole number in decimal digits.
    pub fn whole(&self) -> Option<u64> {
        whole(self.text)
    }
}

/// What is said of a number that is not taken.
pub const NO_NUMBER: &str = "is not a number from -1e100 to 1e100";

/// Whether a number is taken; a NaN is not.
pub fn in_range(x: f64) -> bool {
    x.abs() <= 1e100
}

/// Three numbers.
pub fn point(words: &[Word<'_>; 3]) -> Read<[f64; 3]> {
    Ok([words[0].number()?, words[1].number()?, words[2].number()?])
}

/// A whole number in decimal digits, of at most nineteen, which always go into 64 bits.
pub fn whole(text: &[u8]) -> Option<u64> {
    if text.is_empty() || text.len() > 19 {
        return None;
    }
    let digit = |byte: &u8| byte.is_ascii_digit().then(|| u64::from(byte - b'0'));
    text.iter().try_fold(0, |n, byte| Some(10 * n + digit(byte)?))
}

#[cfg(test)]
mod tests {
    use super::*;

    fn texts(words: Words<'_>) -> Vec<(usize, String)> {
        words.map(|word| (word.at, word.shown())).collect()
    }

    #[test]
    fn words_have_places_and_comments_end_them() {
        let line = b" v\t1  #2 3\r";
        assert_eq!(texts(Words::of(line)), [(1, "v".into()), (3, "1".into())]);
        assert_eq!(texts(Words::from(line, 3)), [(3, "1".into()), (6, "#2".into()), (9, "3".into())]);
        assert_eq!(texts(Words::of(b"a#b")), [(0, "a#b".into())]);
        assert!(texts(Words::of(b"")).is_empty() && texts(Words::of(b" \r")).is_empty());
    }

    #[test]
    fn a_wrong_number_of_words_is_placed() {
        let words = Words::of(b"a bb  c ");
        let ([first, second], n) = words.ahead::<2>();
        assert_eq!((first.text, second.text, n), (&b"a"[..], &b"bb"[..], 3));
        assert_eq!([0, 1, 2, 3, 4].map(|most| words.miscounted(most, String::new()).at), [0, 2, 6, 7, 7]);
        assert_eq!(Words::of(b"  ").miscounted(3, String::new()).at, 0);
    }

    #[test]
    fn numbers_are_bounded() {
        let number = |text: &str| Word { at: 2, text: text.as_bytes() }.number();
        for (text, x) in [("1", 1.0), ("-1e100", -1e100), ("+.5", 0.5), ("5.", 5.0), ("1E2", 100.0)] {
            assert_eq!(number(text), Ok(x));
        }
        for text in ["", "x", "nan", "inf", "1.1e100", "1_0", "0x1", "1,5", "1d0", "\u{661}"] {
            let what = format!("`{text}` is not a number from -1e100 to 1e100");
            assert_eq!(number(text), Err(Fault { at: 2, what }));
        }
        assert!(Word { at: 0, text: b"1\xFF" }.number().unwrap_err().what.starts_with("`1\\xFF` is not"));
    }

    #[test]
    fn whole_numbers_have_digits_alone() {
        assert_eq!(
            [&b"0"[..], b"007", b"9999999999999999999"].map(whole),
            [Some(0), Some(7), Some(9_999_999_999_999_999_999)]
        );
        assert!(
            [&b""[..], b"-1", b"+1", b"1.0", b"10000000000000000000", b"x"]
                .iter()
                .all(|t| whole(t).is_none())
        );
    }
}
