//! A text cut into lines at byte 10 and lines into fields at byte 9, read from the top and from left to right.

use crate::model::{refusal, Refusal, MOST_BYTES};

/// The lines of a text that are still to be read.
pub struct Lines<'a> {
    rest: &'a [u8],
    passed: usize,
}

/// A line, and how many of its fields have been read.
pub struct Line<'a> {
    number: usize,
    fields: Vec<&'a [u8]>,
    passed: usize,
    ended: bool,
}

impl<'a> Lines<'a> {
    /// The whole text, unless it is too long.
    pub fn of(text: &'a [u8]) -> Result<Self, Refusal> {
        if text.len() > MOST_BYTES {
            return Err(refusal(2));
        }
        Ok(Lines {
            rest: text,
            passed: 0,
        })
    }

    /// The next line; one that is missing is numbered one past the last.
    pub fn next_line(&mut self) -> Result<Line<'a>, Refusal> {
        self.passed += 1;
        if self.rest.is_empty() {
            return Err(Refusal {
                number: 3,
                line: self.passed,
            });
        }
        let end = self.rest.iter().position(|&byte| byte == b'\n');
        let (line, rest) = match end {
            Some(at) => (&self.rest[..at], &self.rest[at + 1..]),
            None => (self.rest, &self.rest[..0]),
        };
        self.rest = rest;
        Ok(Line {
            number: self.passed,
            fields: line.split(|&byte| byte == b'\t').collect(),
            passed: 0,
            ended: end.is_some(),
        })
    }

    /// Nothing may follow the last line.
    pub fn finish(self) -> Result<(), Refusal> {
        if self.rest.is_empty() {
            Ok(())
        } else {
            Err(Refusal {
                number: 3,
                line: self.passed + 1,
            })
        }
    }
}

impl<'a> Line<'a> {
    /// A refusal at this line.
    pub fn refuse(&self, number: usize) -> Refusal {
        Refusal {
            number,
            line: self.number,
        }
    }

    /// The next field, which must be there.
    pub fn field(&mut self) -> Result<&'a [u8], Refusal> {
        let field = self.fields.get(self.passed).copied();
        self.passed += 1;
        field.ok_or(self.refuse(3))
    }

    /// A field that can say one thing only: a word, the edition, a running number.
    pub fn exactly(&mut self, expected: &str) -> Result<(), Refusal> {
        if self.field()? == expected.as_bytes() {
            Ok(())
        } else {
            Err(self.refuse(3))
        }
    }

    /// A number from low to high.
    pub fn number(&mut self, low: usize, high: usize) -> Result<usize, Refusal> {
        let field = self.field()?;
        self.in_range(field, low, high)
    }

    /// A number from 0 to high, or `?` for one that was not received.
    pub fn received_number(&mut self, high: usize) -> Result<Option<usize>, Refusal> {
        let field = self.field()?;
        if field == b"?" {
            return Ok(None);
        }
        self.in_range(field, 0, high).map(Some)
    }

    /// The form of a number is tried before its range.
    fn in_range(&self, field: &[u8], low: usize, high: usize) -> Result<usize, Refusal> {
        let value = well_formed(field).ok_or(self.refuse(3))?;
        if low <= value && value <= high {
            Ok(value)
        } else {
            Err(self.refuse(4))
        }
    }

    /// After the last field: no field more, and byte 10.
    pub fn close(self) -> Result<(), Refusal> {
        if self.passed == self.fields.len() && self.ended {
            Ok(())
        } else {
            Err(self.refuse(3))
        }
    }
}

/// The value of 1 to 5 digits without a leading zero.
fn well_formed(field: &[u8]) -> Option<usize> {
    let digits = (1..=5).contains(&field.len()) && field.iter().all(u8::is_ascii_digit);
    if !digits || (field.len() > 1 && field[0] == b'0') {
        return None;
    }
    std::str::from_utf8(field).ok()?.parse().ok()
}

/// A line of fields, as it is written.
pub fn written(fields: &[String]) -> String {
    fields.join("\t") + "\n"
}
