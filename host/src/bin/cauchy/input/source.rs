//! The bytes of an input, read by blocks: of a file, or of standard input where its name is `-`.
use super::words::{Fault, Words};
use crate::failure::{Failure, Result, is_standard};
use crate::figures::count;
use std::fs::File;
use std::io::{BufRead, ErrorKind, Read};
use std::ops::Range;
use std::path::Path;
use std::sync::atomic::{AtomicBool, Ordering};

/// The bytes that are asked for at once, and that are looked at to tell what a file is.
const BLOCK: usize = 1 << 18;

/// The most bytes of a line. A file that is no text can have lines as long as itself.
const MAX_LINE: usize = 1 << 20;

/// What UTF-8 text may begin with.
pub const MARK: &[u8] = b"\xEF\xBB\xBF";

/// What UTF-16 text begins with.
const WIDE_MARKS: [&[u8]; 2] = [b"\xFF\xFE", b"\xFE\xFF"];

/// An input that is read from its beginning to its end.
pub struct Source<'a> {
    path: &'a Path,
    reader: Box<dyn Read + 'a>,
    /// The bytes of a plain file, as the system tells them.
    size: Option<u64>,
    /// The bytes to ask for at once.
    step: usize,
    block: Vec<u8>,
    /// The bytes of the block that are filled and not yet given.
    unread: Range<usize>,
    has_ended: bool,
    /// How many bytes stand before the block.
    passed: u64,
    /// The line that was given last: its number from 1, and its bytes in the block.
    number: usize,
    line: Range<usize>,
}

/// A line that is remembered.
#[derive(Default)]
pub struct Remembered {
    number: usize,
    text: Vec<u8>,
    at: usize,
}

impl<'a> Source<'a> {
    pub fn open(path: &'a Path) -> Result<Source<'a>> {
        if is_standard(path) {
            return Ok(Source::new(path, standard_input()?, None, BLOCK));
        }
        let of_system = |fault| Failure::of_system(path, &fault);
        let file = File::open(path).map_err(of_system)?;
        let metadata = file.metadata().map_err(of_system)?;
        // some files that the system makes up have bytes and tell none
        let size = Some(metadata.len()).filter(|size| metadata.is_file() && *size > 0);
        Ok(Source::new(path, Box::new(file), size, BLOCK))
    }

    /// Bytes that are there, given by blocks of so many, as a stream that does not tell its size.
    #[cfg(test)]
    pub fn of_stream(path: &'a Path, bytes: &'a [u8], step: usize) -> Source<'a> {
        Source::new(path, Box::new(bytes), None, step)
    }

    /// Bytes that are there.
    pub fn of_bytes(path: &'a Path, bytes: &'a [u8]) -> Source<'a> {
        Source::new(path, Box::new(bytes), Some(bytes.len() as u64), BLOCK)
    }

    fn new(path: &'a Path, reader: Box<dyn Read + 'a>, size: Option<u64>, step: usize) -> Source<'a> {
        Source {
            path,
            reader,
            size,
            step,
            block: Vec::new(),
            unread: 0..0,
            has_ended: false,
            passed: 0,
            number: 0,
            line: 0..0,
        }
    }

    pub fn path(&self) -> &'a Path {
        self.path
    }

    /// The bytes that the file has, where that is known.
    pub fn size(&self) -> Option<u64> {
        let read = self.passed + self.unread.end as u64;
        if self.has_ended { Some(read) } else { self.size }
    }

    /// How many bytes were given.
    pub fn given(&self) -> u64 {
        self.passed + self.unread.start as u64
    }

    /// The first bytes that are not yet given: a block of them, or all where they are fewer.
    pub fn head(&mut self) -> Result<&[u8]> {
        while self.unread.len() < BLOCK && self.more()? {}
        Ok(&self.block[self.unread.clone()])
    }

    /// Passes over the mark that UTF-8 text may begin with. Text that begins with a mark of UTF-16 is refused.
    pub fn begin_text(&mut self) -> Result<()> {
        self.gather(MARK.len())?;
        let head = &self.block[self.unread.clone()];
        if is_wide(head) {
            return Err(Failure::of_file(self.path, "is text in UTF-16; save it as UTF-8"));
        }
        if head.starts_with(MARK) {
            self.unread.start += MARK.len();
        }
        Ok(())
    }

    /// All bytes that are not yet given, where they are not more than so many.
    pub fn rest(mut self, most: u64) -> Result<Vec<u8>> {
        let mut bytes = self.block.split_off(self.unread.start);
        bytes.truncate(self.unread.len());
        bytes.reserve(usize::try_from(self.size.unwrap_or(0).min(most)).unwrap_or(0));
        let read = self.reader.take(most + 1).read_to_end(&mut bytes);
        read.map_err(|fault| Failure::of_system(self.path, &fault))?;
        match bytes.len() as u64 > most {
            true => Err(Failure::of_file(self.path, format!("has more than {} bytes", count(most)))),
            false => Ok(bytes),
        }
    }

    /// Reads more bytes behind those that are not yet given. False where the file has ended.
    fn more(&mut self) -> Result<bool> {
        self.block.copy_within(self.unread.clone(), 0);
        self.passed += self.unread.start as u64;
        self.unread = 0..self.unread.len();
        let wanted = self.unread.end + self.step;
        if self.block.len() < wanted {
            self.block.resize(wanted.next_power_of_two(), 0);
        }
        while !self.has_ended {
            match self.reader.read(&mut self.block[self.unread.end..wanted]) {
                Ok(0) => self.has_ended = true,
                Ok(read) => {
                    self.unread.end += read;
                    return Ok(true);
                }
                Err(fault) if fault.kind() == ErrorKind::Interrupted => {}
                Err(fault) => return Err(Failure::of_system(self.path, &fault)),
            }
        }
        Ok(false)
    }

    // ---- Bytes ----

    /// The next bytes, so many of them. Nothing where the file ends before.
    #[inline]
    pub fn take(&mut self, bytes: usize) -> Result<Option<&[u8]>> {
        if self.unread.len() < bytes && !self.gather(bytes)? {
            return Ok(None);
        }
        let start = self.unread.start;
        self.unread.start += bytes;
        Ok(Some(&self.block[start..start + bytes]))
    }

    /// Whether so many bytes are there.
    #[cold]
    fn gather(&mut self, bytes: usize) -> Result<bool> {
        while self.unread.len() < bytes && self.more()? {}
        Ok(self.unread.len() >= bytes)
    }

    /// Passes over so many bytes. False where the file ends before.
    pub fn pass(&mut self, mut bytes: u64) -> Result<bool> {
        loop {
            let here = self.unread.len().min(usize::try_from(bytes).unwrap_or(usize::MAX));
            self.unread.start += here;
            bytes -= here as u64;
            if bytes == 0 {
                return Ok(true);
            }
            if !self.more()? {
                return Ok(false);
            }
        }
    }

    // ---- Lines ----

    /// The next line, without its end. Nothing where the file has ended.
    pub fn line(&mut self) -> Result<Option<&[u8]>> {
        let mut searched = 0;
        let length = loop {
            let unsearched = &self.block[self.unread.start + searched..self.unread.end];
            if let Some(newline) = newline(unsearched) {
                break searched + newline;
            }
            searched = self.unread.len();
            if searched > MAX_LINE {
                let what = format!("a line of more than {} bytes", count(MAX_LINE as u64));
                return Err(Failure::of_line(self.path, self.number + 1, what));
            }
            if !self.more()? {
                break searched;
            }
        };
        if length == 0 && self.unread.is_empty() {
            return Ok(None);
        }
        let (start, end) = (self.unread.start, self.unread.start + length);
        self.unread.start = (end + 1).min(self.unread.end);
        self.number += 1;
        let is_return = self.block[start..end].ends_with(b"\r");
        self.line = start..end - usize::from(is_return);
        Ok(Some(&self.block[self.line.clone()]))
    }

    /// Goes to the next line that has words, comments left out. False where there is none.
    pub fn content(&mut self) -> Result<bool> {
        while let Some(line) = self.line()? {
            if Words::of(line).is_content() {
                return Ok(true);
            }
        }
        Ok(false)
    }

    /// The bytes of the line that was given last.
    pub fn text(&self) -> &[u8] {
        &self.block[self.line.clone()]
    }

    /// The words of the line that was given last, comments left out.
    pub fn words(&self) -> Words<'_> {
        Words::of(self.text())
    }

    /// Remembers the line that was given last, and one of its bytes.
    pub fn remember(&self, at: usize, line: &mut Remembered) {
        line.number = self.number;
        line.at = at;
        line.text.clear();
        line.text.extend_from_slice(self.text());
    }

    // ---- Faults ----

    /// A fault in the line that was given last.
    pub fn fault(&self, fault: Fault) -> Failure {
        Failure::of_text(self.path, self.number, self.text(), fault.at, fault.what)
    }

    /// A fault in a line that was remembered.
    pub fn fault_of(&self, line: &Remembered, what: String) -> Failure {
        Failure::of_text(self.path, line.number, &line.text, line.at, what)
    }

    /// The fault that the file ends too early.
    pub fn ends(&self, what: &str) -> Failure {
        Failure::of_line(self.path, self.number + 1, format!("the file ends, and {what}"))
    }
}

/// Whether bytes begin like text in UTF-16.
pub fn is_wide(head: &[u8]) -> bool {
    WIDE_MARKS.iter().any(|mark| head.starts_with(mark))
}

/// Where a line ends.
fn newline(mut bytes: &[u8]) -> Option<usize> {
    let all = bytes;
    // the library's search for a byte, which looks at many of them at once
    let length = bytes.skip_until(b'\n').ok()?;
    all[..length].ends_with(b"\n").then(|| length - 1)
}

/// Standard input, once.
fn standard_input() -> Result<Box<dyn Read>> {
    static IS_TAKEN: AtomicBool = AtomicBool::new(false);
    if IS_TAKEN.swap(true, Ordering::Relaxed) {
        return Failure::work("standard input: two inputs are to come from there");
    }
    Ok(Box::new(std::io::stdin().lock()))
}

#[cfg(test)]
mod tests {
    use super::*;
    use crate::input::tests::said;

    fn stream(bytes: &[u8], step: usize) -> Source<'_> {
        Source::of_stream(Path::new("f"), bytes, step)
    }

    #[test]
    fn lines_are_the_same_by_blocks_of_any_size() {
        let text = b"one\r\n\n\r\ntwo\rtwo\nlast";
        for step in 1..20 {
            let mut source = stream(text, step);
            let mut lines = Vec::new();
            while let Some(line) = source.line().unwrap() {
                lines.push(line.to_vec());
            }
            assert_eq!(lines, [&b"one"[..], b"", b"", b"two\rtwo", b"last"], "{step}");
            assert_eq!((source.number, source.given(), source.size()), (5, 20, Some(20)));
        }
        assert_eq!(stream(b"", 4).line(), Ok(None));
        assert_eq!(stream(b"\n", 4).line(), Ok(Some(&b""[..])));
    }

    #[test]
    fn a_line_that_does_not_end_is_not_gathered() {
        let long = vec![b'x'; 5 << 20];
        let mut source = Source::of_bytes(Path::new("f"), &long);
        assert_eq!(said(source.line()), "f, line 1: a line of more than 1,048,576 bytes");
        assert!(source.given() == 0 && source.unread.len() < 3 << 20);
        assert_eq!(
            Source::of_bytes(Path::new("f"), &long[..MAX_LINE]).line().unwrap().map(<[u8]>::len),
            Some(MAX_LINE)
        );
    }

    #[test]
    fn bytes_are_given_and_passed_over() {
        for step in 1..9 {
            let mut source = stream(b"0123456789", step);
            assert_eq!(source.take(3), Ok(Some(&b"012"[..])));
            assert_eq!((source.pass(4), source.given()), (Ok(true), 7));
            assert_eq!(source.take(4), Ok(None));
            assert_eq!(source.take(3), Ok(Some(&b"789"[..])));
            assert_eq!((source.pass(0), source.pass(1), source.given()), (Ok(true), Ok(false), 10));
        }
    }

    #[test]
    fn a_file_is_taken_whole_up_to_a_limit() {
        assert_eq!(stream(b"0123", 2).rest(4), Ok(b"0123".to_vec()));
        assert_eq!(said(stream(b"01234", 2).rest(4)), "f: has more than 4 bytes");
        let mut begun = stream(b"01234", 3);
        begun.take(1).unwrap();
        assert_eq!(begun.rest(9), Ok(b"1234".to_vec()));
    }

    #[test]
    fn a_mark_is_passed_over_or_told() {
        let mut source = stream(b"\xEF\xBB\xBFv", 1);
        source.begin_text().unwrap();
        assert_eq!(source.line(), Ok(Some(&b"v"[..])));
        let mut short = stream(b"\xEF\xBB", 1);
        short.begin_text().unwrap();
        assert_eq!(short.given(), 0);
        for wide in [&b"\xFF\xFEv\0"[..], b"\xFE\xFF\0v"] {
            assert_eq!(said(stream(wide, 1).begin_text()), "f: is text in UTF-16; save it as UTF-8");
        }
    }

    #[test]
    fn files_and_folders_are_opened() {
        assert_eq!(said(Source::open(Path::new("none.obj")).map(|_| ())), "none.obj: no such file or folder");
        let mut folder = Source::open(Path::new(".")).unwrap();
        assert_eq!(said(folder.head().map(|_| ())), ".: is a folder");
        assert_eq!(said(Source::open(Path::new(".")).unwrap().rest(9)), ".: is a folder");
    }
}
