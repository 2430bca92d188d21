//! Files and standard input.

use crate::console::{self, Colour, Ink};
use std::fs;
use std::io::{self, IsTerminal, Read};
use std::path::Path;
use std::str;
use text::Error;

/// What was read, and its name for messages.
pub struct Input {
    pub name: String,
    pub bytes: Vec<u8>,
}

impl Input {
    pub fn file(file: &Path) -> Result<Self, String> {
        let name = file.display().to_string();
        let bytes = fs::read(file).map_err(|error| failed(file, &error))?;
        Ok(Self { name, bytes })
    }

    pub fn standard() -> Result<Self, String> {
        if io::stdin().is_terminal() {
            return Err("name a file, or pipe one in".into());
        }
        let mut bytes = Vec::new();
        let read = io::stdin().read_to_end(&mut bytes);
        read.map_err(|error| format!("standard input: {}", console::reason(&error)))?;
        Ok(Self { name: "standard input".into(), bytes })
    }

    /// The text that the bytes are, or where they are none.
    pub fn text(&self) -> Result<&str, Error> {
        let is_bad = |c: char| c.is_control() && !matches!(c, '\t' | '\r' | '\n');
        let (text, end) = match str::from_utf8(&self.bytes) {
            Ok(text) => (text, None),
            Err(error) => {
                let end = error.valid_up_to();
                (str::from_utf8(&self.bytes[..end]).unwrap_or_default(), Some(end))
            }
        };
        let Some(bad) = text.find(is_bad).or(end) else { return Ok(text) };
        let before: Vec<&str> = text[..bad].split('\n').collect();
        let column = before.last().map_or(0, |last| last.chars().count()) + 1;
        Err(Error { line: before.len(), column, message: "this is no text".into() })
    }

    /// What is wrong with the text: file, line, column and reason, and below them the line with a mark; what is no text
    /// is not shown.
    pub fn report(&self, error: &Error) {
        let Error { line, column, message } = error;
        eprintln!("{}:{line}:{column}: {}", self.name, Ink::err().paint(Colour::Red, message));
        if let Some(text) = self.text().ok().and_then(|text| text.lines().nth(line - 1)) {
            // Tabs stay, so that the mark stands below the word.
            let before = text.chars().take(column - 1);
            let before: String = before.map(|c| if c == '\t' { c } else { ' ' }).collect();
            eprintln!("  {text}\n  {before}^");
        }
    }
}

pub fn failed(path: &Path, error: &io::Error) -> String {
    format!("{}: {}", path.display(), console::reason(error))
}

/// Bytes to a file, or to standard output where none is named and no terminal would show them. Whether they went
/// anywhere.
pub fn write(file: Option<&Path>, bytes: &[u8]) -> Result<bool, String> {
    match file {
        Some(file) if file != Path::new("-") => {
            fs::write(file, bytes).map_err(|error| failed(file, &error)).map(|()| true)
        }
        None if io::stdout().is_terminal() => Ok(false),
        _ => console::print(bytes).map(|()| true),
    }
}
