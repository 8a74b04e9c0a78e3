//! The words of a line, read from left to right; the first fault counts.

use std::ops::RangeInclusive;

/// Why a line is bad.
pub type Reason = &'static str;

pub const UNKNOWN_STATEMENT: Reason = "unknown statement";

const MOST_DIGITS: usize = 15;

pub struct Words<'a> {
    rest: &'a [u8],
}

impl<'a> Words<'a> {
    /// The words of a line up to its `#`.
    pub fn of(line: &'a [u8]) -> Self {
        let end = line.iter().position(|&byte| byte == b'#');
        Words {
            rest: &line[..end.unwrap_or(line.len())],
        }
    }

    /// The next word, empty where the line ends.
    pub fn word(&mut self) -> &'a [u8] {
        let start = self.rest.iter().position(|&byte| byte != b' ');
        let rest = &self.rest[start.unwrap_or(self.rest.len())..];
        let end = rest.iter().position(|&byte| byte == b' ');
        let (word, after) = rest.split_at(end.unwrap_or(rest.len()));
        self.rest = after;
        word
    }

    /// One word that must be this one.
    pub fn exactly(&mut self, wanted: &[u8]) -> Result<(), Reason> {
        if self.word() == wanted {
            Ok(())
        } else {
            Err(UNKNOWN_STATEMENT)
        }
    }

    /// A number within its bounds.
    pub fn number(&mut self, allowed: RangeInclusive<i64>) -> Result<i64, Reason> {
        let word = self.word();
        if word.is_empty() {
            return Err("a number is missing");
        }
        if !word.iter().all(u8::is_ascii_digit) {
            return Err("not a number");
        }
        if word.len() > MOST_DIGITS {
            return Err("a number is too large");
        }
        let number = word
            .iter()
            .fold(0, |sum, digit| sum * 10 + i64::from(digit - b'0'));
        if number > *allowed.end() {
            Err("a number is too large")
        } else if number < *allowed.start() {
            Err("a number is too small")
        } else {
            Ok(number)
        }
    }

    /// A box's name.
    pub fn name(&mut self) -> Result<char, Reason> {
        match self.word() {
            [] => Err("a box is missing"),
            [name @ b'A'..=b'P'] => Ok(char::from(*name)),
            _ => Err("not a box"),
        }
    }

    /// No word may be left over.
    pub fn end(mut self) -> Result<(), Reason> {
        if self.word().is_empty() {
            Ok(())
        } else {
            Err("unexpected word")
        }
    }
}
