//! The words of a text, and what is wrong with one.

use std::fmt;

/// What is wrong with a text, and where: line and column, both from 1.
#[derive(Clone, Debug, Eq, PartialEq)]
pub struct Error {
    pub line: usize,
    pub column: usize,
    pub message: String,
}

impl fmt::Display for Error {
    fn fmt(&self, f: &mut fmt::Formatter) -> fmt::Result {
        write!(f, "{}:{}: {}", self.line, self.column, self.message)
    }
}

/// A word of the text and where it stands.
#[derive(Clone, Copy)]
pub struct Word<'t> {
    pub text: &'t str,
    pub line: usize,
    pub column: usize,
}

/// A line's words. "A `;` starts a comment, and a comma counts as a space."
pub fn words(line: usize, text: &str) -> impl Iterator<Item = Word<'_>> {
    let code = text.split(';').next().unwrap_or_default();
    let mut next = 1;
    code.split(|c: char| c == ',' || c.is_whitespace()).filter_map(move |text| {
        let word = Word { text, line, column: next };
        next += text.chars().count() + 1;
        (!text.is_empty()).then_some(word)
    })
}

impl Word<'_> {
    pub fn wrong(&self, message: impl Into<String>) -> Error {
        Error { line: self.line, column: self.column, message: message.into() }
    }

    /// A decimal or hexadecimal number that fits.
    pub fn number<T: TryFrom<i128>>(&self) -> Result<T, Error> {
        self.number_of(self.text)
    }

    /// The number in a part of the word.
    pub fn number_of<T: TryFrom<i128>>(&self, text: &str) -> Result<T, Error> {
        let parsed = match text.strip_prefix("0x") {
            Some(digits) => i128::from_str_radix(digits, 16),
            None => text.parse(),
        };
        let number = parsed.map_err(|_| self.wrong(format!("{text} is no number")))?;
        T::try_from(number).map_err(|_| self.wrong(format!("{text} is out of range")))
    }
}
