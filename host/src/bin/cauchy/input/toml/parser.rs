//! The forms of TOML that kernel files have.
use super::number::number;
use crate::excerpt;
use crate::input::words::{Fault, Read};

/// A place in a text.
pub struct Parser<'a> {
    text: &'a [u8],
    at: usize,
}

/// A key, or the name of a table.
#[derive(Debug)]
pub struct Key<'a> {
    pub at: usize,
    pub name: &'a [u8],
}

impl Key<'_> {
    pub fn shown(&self) -> String {
        excerpt::word(self.name)
    }

    pub fn fault(&self, what: impl Into<String>) -> Fault {
        Fault { at: self.at, what: what.into() }
    }

    pub fn twice(&self) -> Fault {
        self.fault(format!("`{}` is given twice", self.shown()))
    }
}

impl<'a> Parser<'a> {
    pub fn new(text: &'a [u8]) -> Parser<'a> {
        Parser { text, at: 0 }
    }

    /// The byte that comes next.
    pub fn at(&self) -> usize {
        self.at
    }

    fn rest(&self) -> &'a [u8] {
        &self.text[self.at..]
    }

    fn fault(&self, what: impl Into<String>) -> Fault {
        Fault { at: self.at, what: what.into() }
    }

    /// Passes over a text, where it comes next.
    fn eat(&mut self, text: &[u8]) -> bool {
        let is_there = self.rest().starts_with(text);
        self.at += if is_there { text.len() } else { 0 };
        is_there
    }

    /// The bytes that come next, as long as they are of a kind.
    fn while_is(&mut self, is: impl Fn(u8) -> bool) -> &'a [u8] {
        let rest = self.rest();
        let end = rest.iter().position(|byte| !is(*byte)).unwrap_or(rest.len());
        self.at += end;
        &rest[..end]
    }

    fn skip_spaces(&mut self) {
        self.while_is(|byte| matches!(byte, b' ' | b'\t'));
    }

    /// Passes over spaces and a comment.
    fn skip_comment(&mut self) {
        self.skip_spaces();
        if self.rest().starts_with(b"#") {
            let comment = self.while_is(|byte| byte != b'\n');
            // a carriage return belongs to the end of the line
            self.at -= usize::from(comment.ends_with(b"\r"));
        }
    }

    /// Passes over spaces, comments and ends of lines.
    fn skip_lines(&mut self) {
        self.skip_comment();
        while self.eat(b"\n") || self.eat(b"\r\n") {
            self.skip_comment();
        }
    }

    /// Goes to the next statement. False where the text has none.
    pub fn next_statement(&mut self) -> Read<bool> {
        self.skip_lines();
        Ok(!self.rest().is_empty())
    }

    /// Looks that nothing but a comment is left of the line.
    pub fn end_of_line(&mut self) -> Read<()> {
        self.skip_comment();
        match self.rest() {
            [] | [b'\n', ..] | [b'\r', b'\n', ..] => Ok(()),
            _ => Err(self.fault("the line should end here")),
        }
    }

    /// The name of a table of an array, `[[name]]`, where one comes next.
    pub fn table(&mut self) -> Read<Option<Key<'a>>> {
        if !self.rest().starts_with(b"[") {
            return Ok(None);
        }
        if !self.eat(b"[[") {
            return Err(self.fault("no table is read but [[kernels]]"));
        }
        let key = self.name()?;
        if !self.eat(b"]]") {
            return Err(self.fault("`]]` is due here"));
        }
        Ok(Some(key))
    }

    /// A key and its equals sign.
    pub fn key(&mut self) -> Read<Key<'a>> {
        let key = self.name()?;
        if !self.eat(b"=") {
            return Err(self.fault("`=` is due here"));
        }
        self.skip_spaces();
        Ok(key)
    }

    /// A name, plain or between quotes, and the spaces around it.
    fn name(&mut self) -> Read<Key<'a>> {
        self.skip_spaces();
        let at = self.at;
        let name = match self.rest().first() {
            Some(b'"' | b'\'') => self.string()?.1,
            _ => self.while_is(|byte| byte.is_ascii_alphanumeric() || matches!(byte, b'_' | b'-')),
        };
        if name.is_empty() {
            return Err(self.fault("a key is due here"));
        }
        self.skip_spaces();
        Ok(Key { at, name })
    }

    /// A text between quotes, and where it begins. Nothing in it is unescaped: no text that is read has an escape.
    pub fn string(&mut self) -> Read<(usize, &'a [u8])> {
        let at = self.at;
        let quote = match self.rest().first() {
            Some(quote @ (b'"' | b'\'')) => *quote,
            _ => return Err(self.fault("a text between quotes is due here")),
        };
        self.at += 1;
        let text = self.while_is(|byte| byte != quote && byte != b'\n');
        if !self.eat(&[quote]) {
            return Err(Fault { at, what: "this text does not end in its line".to_string() });
        }
        Ok((at, text))
    }

    pub fn number(&mut self) -> Read<f64> {
        let at = self.at;
        let is_part = |byte: u8| byte.is_ascii_alphanumeric() || matches!(byte, b'_' | b'+' | b'-' | b'.');
        let word = self.while_is(is_part);
        if word.is_empty() {
            return Err(self.fault("a number is due here"));
        }
        number(word).map_err(|what| Fault { at, what })
    }

    /// Three numbers in brackets, on one line or several.
    pub fn three(&mut self) -> Read<[f64; 3]> {
        const FORM: &str = "a centre has three numbers, [x, y, z]";
        if !self.eat(b"[") {
            return Err(self.fault(FORM));
        }
        let mut numbers = [0.0; 3];
        for (i, x) in numbers.iter_mut().enumerate() {
            self.skip_lines();
            *x = self.number()?;
            self.skip_lines();
            // after the last number a comma may stand
            if !self.eat(b",") && i < 2 {
                return Err(self.fault(FORM));
            }
        }
        self.skip_lines();
        if self.eat(b"]") { Ok(numbers) } else { Err(self.fault(FORM)) }
    }
}
