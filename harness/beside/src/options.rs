//! Options: `--name value`, or `--name` alone.

use crate::USAGE;
use std::collections::BTreeMap;

#[derive(Default)]
pub struct Options {
    given: BTreeMap<String, String>,
}

impl Options {
    pub fn parse(arguments: &[String]) -> Result<Self, String> {
        let mut options = Self::default();
        let mut rest = arguments.iter().peekable();
        while let Some(name) = rest.next() {
            let name = name.strip_prefix("--").ok_or(USAGE)?;
            let value = rest.next_if(|next| !next.starts_with("--")).cloned().unwrap_or_default();
            options.given.insert(name.into(), value);
        }
        Ok(options)
    }

    /// Takes an option's text; `None` where it is not given.
    pub fn text(&mut self, name: &str) -> Option<String> {
        self.given.remove(name)
    }

    pub fn number(&mut self, name: &str, default: u64) -> Result<u64, String> {
        match self.text(name) {
            Some(text) => text.replace('_', "").parse().map_err(|_| format!("--{name} {text}: not a number")),
            None => Ok(default),
        }
    }

    /// Each option has to have been taken.
    pub fn done(self) -> Result<(), String> {
        match self.given.keys().next() {
            Some(name) => Err(format!("--{name} is no option here\n{USAGE}")),
            None => Ok(()),
        }
    }
}
