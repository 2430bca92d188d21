//! What is printed, and its colours.

use std::env;
use std::io::{self, ErrorKind, IsTerminal, Write};

/// Text or bytes to standard output. Whoever stops reading them, as `head` does, wants no more.
pub fn print(text: impl AsRef<[u8]>) -> Result<(), String> {
    print_on(text).map(|_| ())
}

/// The same for a part of what there is; whether more is wanted.
pub fn print_on(text: impl AsRef<[u8]>) -> Result<bool, String> {
    match io::stdout().write_all(text.as_ref()).and_then(|()| io::stdout().flush()) {
        Ok(()) => Ok(true),
        Err(error) if error.kind() == ErrorKind::BrokenPipe => Ok(false),
        Err(error) => Err(format!("standard output: {}", reason(&error))),
    }
}

/// What the system says of a file, without its number.
pub fn reason(error: &io::Error) -> String {
    let text = error.to_string();
    text.split(" (os error").next().unwrap_or(&text).to_string()
}

#[derive(Clone, Copy)]
pub enum Colour {
    Dim = 2,
    Red = 31,
    Green = 32,
    Yellow = 33,
}

/// Whether a stream is painted: on a terminal only, and not where NO_COLOR is set.
#[derive(Clone, Copy)]
pub struct Ink(bool);

impl Ink {
    pub fn out() -> Self {
        Self::on(io::stdout().is_terminal())
    }

    pub fn err() -> Self {
        Self::on(io::stderr().is_terminal())
    }

    fn on(terminal: bool) -> Self {
        Self(terminal && env::var_os("NO_COLOR").is_none())
    }

    pub fn paint(self, colour: Colour, text: &str) -> String {
        if self.0 {
            format!("\x1b[{}m{text}\x1b[0m", colour as u8)
        } else {
            text.to_string()
        }
    }
}

/// A line that is written over, on a terminal only.
pub fn show(progress: &str, last: bool) {
    let mut terminal = io::stderr();
    if terminal.is_terminal() {
        let end = if last { "\n" } else { "" };
        // What is shown in passing may fail.
        let _ = write!(terminal, "\r{progress}{end}");
    }
}

#[cfg(test)]
mod tests {
    use super::{Colour, Ink};

    #[test]
    fn colour_is_for_terminals() {
        assert_eq!(Ink(true).paint(Colour::Red, "refused"), "\x1b[31mrefused\x1b[0m");
        assert_eq!(Ink(false).paint(Colour::Red, "refused"), "refused");
        assert!(!Ink::on(false).0);
    }
}
