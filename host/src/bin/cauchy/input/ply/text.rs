//! The values of a PLY file that is text: an element a line.
use super::Values;
use super::header::{Element, Scalar};
use crate::failure::{Failure, Result};
use crate::figures::count;
use crate::input::source::Source;
use crate::input::words::{Fault, Read, Word, Words};

pub struct Text<'s, 'a> {
    source: &'s mut Source<'a>,
    /// Where the word that was given last begins in its line, and the byte behind it.
    last: usize,
    at: usize,
}

impl<'s, 'a> Text<'s, 'a> {
    pub fn new(source: &'s mut Source<'a>) -> Text<'s, 'a> {
        Text { source, last: 0, at: 0 }
    }

    /// What is read of the next word of the line.
    fn next<T>(&mut self, read: impl Fn(Word<'_>) -> Read<T>) -> Result<T> {
        let mut words = Words::from(self.source.text(), self.at);
        let told = match words.next() {
            Some(word) => {
                (self.last, self.at) = (word.at, words.at());
                read(word)
            }
            None => Err(words.miscounted(0, "a number is missing here".to_string())),
        };
        told.map_err(|fault| self.source.fault(fault))
    }

    /// Goes to the next line that has words. False where there is none.
    fn line(&mut self) -> Result<bool> {
        (self.last, self.at) = (0, 0);
        while let Some(line) = self.source.line()? {
            if Words::from(line, 0).is_content() {
                return Ok(true);
            }
        }
        Ok(false)
    }
}

impl Values for Text<'_, '_> {
    fn begin(&mut self, element: &Element, number: u64) -> Result<()> {
        if self.line()? {
            return Ok(());
        }
        let what = format!("{} {} of {} is due", element.name, count(number), count(element.count));
        Err(self.source.ends(&what))
    }

    fn number(&mut self, _: Scalar) -> Result<f64> {
        self.next(|word| word.number())
    }

    fn whole(&mut self, _: Scalar) -> Result<u64> {
        let no_whole =
            |word: Word<'_>| word.fault(format!("`{}` is not a whole number from 0", word.shown()));
        self.next(|word| word.whole().ok_or_else(|| no_whole(word)))
    }

    fn pass(&mut self, _: Scalar, values: u64) -> Result<()> {
        (0..values).try_for_each(|_| self.next(|_| Ok(())))
    }

    fn end(&mut self) -> Result<()> {
        match Words::from(self.source.text(), self.at).next() {
            None => Ok(()),
            Some(word) => {
                Err(self.source.fault(word.fault("the element has no more numbers than those before")))
            }
        }
    }

    fn end_of_file(&mut self) -> Result<()> {
        match self.line()? {
            false => Ok(()),
            true => Err(self.fault("the elements have ended, and the file has not".to_string())),
        }
    }

    fn fault(&self, what: String) -> Failure {
        self.source.fault(Fault { at: self.last, what })
    }
}
