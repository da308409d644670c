//! The folded record read field by field.

use crate::plain::is_pick;
use crate::{LINE_END, MOST_PICKS, MOST_SECTIONS};

/// What a record of the layout says.
#[derive(Clone, Debug, PartialEq, Eq)]
pub struct Fields<'a> {
    pub picks: usize,
    pub sections: Vec<Folded<'a>>,
}

/// A section of it: the place of its first byte, its length, and its first half of
/// letters.
#[derive(Clone, Copy, Debug, PartialEq, Eq)]
pub struct Folded<'a> {
    pub at: usize,
    pub length: usize,
    pub half: &'a [u8],
}

/// The fields of a record, or the place of number 11.
pub fn fields(record: &[u8]) -> Result<Fields<'_>, usize> {
    let mut rest = Rest { record, at: 0 };
    let picks = rest.number(MOST_PICKS)?;
    rest.byte(b',')?;
    let count = rest.number(MOST_SECTIONS)?;
    let sections = (0..count)
        .map(|_| rest.section())
        .collect::<Result<_, _>>()?;
    rest.byte(LINE_END)?;
    rest.end()?;
    Ok(Fields { picks, sections })
}

/// The bytes from a place of the record on. Each reading moves the place behind what it
/// reads, or gives the place of number 11.
struct Rest<'a> {
    record: &'a [u8],
    at: usize,
}

impl<'a> Rest<'a> {
    /// A number from 1 to the given one, without leading zeros: the whole run of digits.
    fn number(&mut self, most: usize) -> Result<usize, usize> {
        let first = self.at;
        let digits = self.run(usize::MAX, |byte| byte.is_ascii_digit());
        let text = String::from_utf8_lossy(digits);
        let number = text.parse().ok();
        number
            .filter(|number| (1..=most).contains(number) && number.to_string() == text)
            .ok_or(first)
    }

    /// A byte that must be this one.
    fn byte(&mut self, due: u8) -> Result<(), usize> {
        match self.run(1, |byte| byte == due) {
            [] => Err(self.at),
            _ => Ok(()),
        }
    }

    /// A comma, a length, a comma, and the first half of so many letters.
    fn section(&mut self) -> Result<Folded<'a>, usize> {
        self.byte(b',')?;
        let at = self.at;
        let length = self.number(MOST_PICKS)?;
        self.byte(b',')?;
        let due = length.div_ceil(2);
        let half = self.run(due, is_pick);
        if half.len() < due {
            return Err(self.at);
        }
        Ok(Folded { at, length, half })
    }

    /// The end of the record.
    fn end(&self) -> Result<(), usize> {
        if self.at < self.record.len() {
            return Err(self.at);
        }
        Ok(())
    }

    /// The next bytes of a kind, at most so many.
    fn run(&mut self, most: usize, is_of_kind: impl Fn(u8) -> bool) -> &'a [u8] {
        let rest = &self.record[self.at..];
        let bytes = rest.iter().take(most);
        let count = bytes.take_while(|&&byte| is_of_kind(byte)).count();
        self.at += count;
        &rest[..count]
    }
}
