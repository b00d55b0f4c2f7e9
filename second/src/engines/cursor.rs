//! A text read from left to right, field by field.

use crate::model::Refusal;

/// The number of a refusal; the line is the cursor's.
pub type Wrong = usize;

/// A position in a text, and its line.
pub struct Cursor<'a> {
    rest: &'a [u8],
    line: usize,
}

impl<'a> Cursor<'a> {
    /// Before the first byte.
    pub fn new(text: &'a [u8]) -> Self {
        Cursor {
            rest: text,
            line: 1,
        }
    }

    /// A refusal at this line.
    pub fn refuse(&self, number: Wrong) -> Refusal {
        Refusal {
            number,
            line: self.line,
        }
    }

    /// The bytes up to a tab, the line's end or the text's.
    pub fn word(&mut self) -> &'a [u8] {
        let end = self
            .rest
            .iter()
            .position(|&byte| byte == b'\t' || byte == b'\n');
        let (word, rest) = self.rest.split_at(end.unwrap_or(self.rest.len()));
        self.rest = rest;
        word
    }

    /// This word.
    pub fn keyword(&mut self, expected: &[u8]) -> Result<(), Wrong> {
        (self.word() == expected).then_some(()).ok_or(3)
    }

    /// The next field.
    fn field(&mut self) -> Result<&'a [u8], Wrong> {
        let (b'\t', rest) = self.rest.split_first().ok_or(3usize)? else {
            return Err(3);
        };
        self.rest = rest;
        Ok(self.word())
    }

    /// A number from low to high.
    pub fn number(&mut self, low: u16, high: u16) -> Result<u16, Wrong> {
        let field = self.field()?;
        in_range(field, low, high)
    }

    /// A number that can only be this one.
    pub fn running(&mut self, expected: u16) -> Result<(), Wrong> {
        let number = value(self.field()?)?;
        (number == u32::from(expected)).then_some(()).ok_or(3)
    }

    /// A number from 0 to high, or none for `?`.
    pub fn received(&mut self, high: u16) -> Result<Option<u16>, Wrong> {
        match self.field()? {
            b"?" => Ok(None),
            field => in_range(field, 0, high).map(Some),
        }
    }

    /// The end of a line.
    pub fn end_line(&mut self) -> Result<(), Wrong> {
        let (b'\n', rest) = self.rest.split_first().ok_or(3usize)? else {
            return Err(3);
        };
        self.rest = rest;
        self.line += 1;
        Ok(())
    }

    /// The end of the text.
    pub fn finish(&self) -> Result<(), Wrong> {
        self.rest.is_empty().then_some(()).ok_or(3)
    }
}

/// A number of a range: its form is tried first.
fn in_range(field: &[u8], low: u16, high: u16) -> Result<u16, Wrong> {
    let number = value(field)?;
    if number < low.into() || number > high.into() {
        return Err(4);
    }
    Ok(number as u16)
}

/// The value of 1 to 5 digits without a leading zero.
fn value(field: &[u8]) -> Result<u32, Wrong> {
    if field.is_empty() || field.len() > 5 || (field[0] == b'0' && field.len() > 1) {
        return Err(3);
    }
    field.iter().try_fold(0, |value, &byte| {
        let digit = byte.wrapping_sub(b'0');
        (digit < 10).then(|| value * 10 + u32::from(digit)).ok_or(3)
    })
}
