//! What a text is made of: words, names and numbers, each with the byte that
//! ends it.

use super::super::files::{Variable, MOST_BYTES};
use super::super::outcome::{GIVEN_TWICE, NOT_OF_THE_FORMAT, OUTSIDE_LIMIT, OUT_OF_RANGE};
use shortest::Outcome;

/// What ends a number within a line, and a line.
pub const BLANK: u8 = b' ';
pub const LINE_FEED: u8 = b'\n';

/// The text being read and the offset reached.
pub struct Reader<'a> {
    text: &'a [u8],
    offset: usize,
}

impl<'a> Reader<'a> {
    pub fn new(text: &'a [u8]) -> Result<Self, Outcome> {
        if text.len() > MOST_BYTES {
            return Err(Outcome::refused(OUTSIDE_LIMIT, 0));
        }
        Ok(Reader { text, offset: 0 })
    }

    /// The byte at the offset, if there is one.
    fn next(&self) -> Option<u8> {
        self.text.get(self.offset).copied()
    }

    /// The next byte, which is to be one that the format has there.
    pub fn take(&mut self, due: impl Fn(u8) -> bool) -> Result<u8, Outcome> {
        match self.next() {
            Some(byte) if due(byte) => {
                self.offset += 1;
                Ok(byte)
            }
            _ => Err(self.not_of_the_format()),
        }
    }

    fn not_of_the_format(&self) -> Outcome {
        Outcome::refused(NOT_OF_THE_FORMAT, self.offset)
    }

    /// The end of the text.
    pub fn end(&self) -> Result<(), Outcome> {
        match self.next() {
            None => Ok(()),
            Some(_) => Err(self.not_of_the_format()),
        }
    }

    /// A line of this word.
    pub fn line(&mut self, word: &str) -> Result<(), Outcome> {
        for due in word.bytes().chain([LINE_FEED]) {
            self.take(|byte| byte == due)?;
        }
        Ok(())
    }

    /// A line of any bytes.
    pub fn name(&mut self) -> Result<(), Outcome> {
        while self.take(|_| true)? != LINE_FEED {}
        Ok(())
    }

    /// A number with its separator.
    pub fn number(&mut self, separator: u8) -> Result<Number<'a>, Outcome> {
        let place = self.offset;
        if self.take(|byte| byte.is_ascii_digit())? != b'0' {
            while self.next().is_some_and(|byte| byte.is_ascii_digit()) {
                self.offset += 1;
            }
        }
        let digits = &self.text[place..self.offset];
        self.take(|byte| byte == separator)?;
        Ok(Number { place, digits })
    }

    /// A number with its separator, or none for -1.
    pub fn number_or_none(&mut self, separator: u8) -> Result<Option<Number<'a>>, Outcome> {
        if self.next() != Some(b'-') {
            return self.number(separator).map(Some);
        }
        for due in [b'-', b'1', separator] {
            self.take(|byte| byte == due)?;
        }
        Ok(None)
    }

    /// A count in a line of its own, of at most so many.
    pub fn count(&mut self, most: usize) -> Result<usize, Outcome> {
        self.number(LINE_FEED)?.within(0, most)
    }
}

/// The digits of a number, and the offset of the first.
pub struct Number<'a> {
    place: usize,
    digits: &'a [u8],
}

impl Number<'_> {
    pub fn refused(&self, number: u32) -> Outcome {
        Outcome::refused(number, self.place)
    }

    /// The greatest number of the type for all that are not below it: more
    /// than any limit, and more than a text has bytes.
    pub fn value(&self) -> u64 {
        let digits = std::str::from_utf8(self.digits).unwrap();
        digits.parse().unwrap_or(u64::MAX)
    }

    pub fn within(&self, least: usize, most: usize) -> Result<usize, Outcome> {
        let value = self.value();
        if value < least as u64 || value > most as u64 {
            return Err(self.refused(OUTSIDE_LIMIT));
        }
        Ok(value as usize)
    }

    fn below(&self, bound: usize) -> Result<u16, Outcome> {
        let value = self.value();
        if value >= bound as u64 {
            return Err(self.refused(OUT_OF_RANGE));
        }
        Ok(value as u16)
    }

    pub fn value_of(&self, variable: &Variable) -> Result<u16, Outcome> {
        self.below(variable.size as usize)
    }

    /// A variable that is not given yet. One that is given is in range.
    pub fn variable_of(
        &self,
        variables: &[Variable],
        given: impl Fn(u16) -> bool,
    ) -> Result<u16, Outcome> {
        let variable = self.below(variables.len())?;
        if given(variable) {
            return Err(self.refused(GIVEN_TWICE));
        }
        Ok(variable)
    }
}
