//! The words after a subcommand's name.

use crate::commands::Command;
use crate::input::Input;
use std::ffi::{OsStr, OsString};
use std::path::Path;

pub struct Arguments {
    command: &'static str,
    flags: Vec<&'static str>,
    values: Vec<(&'static str, OsString)>,
    files: Vec<OsString>,
}

impl Arguments {
    pub fn parse(command: &Command, words: &[OsString]) -> Result<Self, String> {
        let mut arguments =
            Self { command: command.name, flags: Vec::new(), values: Vec::new(), files: Vec::new() };
        let known = |options: &'static [&'static str], word: &OsStr| {
            options.iter().copied().find(|option| word == *option)
        };
        let mut words = words.iter();
        while let Some(word) = words.next() {
            if let Some(flag) = known(command.flags, word) {
                arguments.flags.push(flag);
            } else if let Some(option) = known(command.values, word) {
                let value =
                    words.next().ok_or_else(|| arguments.usage(&format!("{option} needs a value")))?;
                arguments.values.push((option, value.clone()));
            } else if looks_like_option(&word.to_string_lossy()) {
                return Err(arguments.usage(&format!("{} is no option", word.to_string_lossy())));
            } else {
                arguments.files.push(word.clone());
            }
        }
        Ok(arguments)
    }

    pub fn has(&self, flag: &str) -> bool {
        self.flags.contains(&flag)
    }

    /// The values given for an option, in their order.
    pub fn values<'a>(&'a self, option: &'a str) -> impl Iterator<Item = &'a OsStr> + 'a {
        self.values.iter().filter(move |(given, _)| *given == option).map(|(_, value)| value.as_os_str())
    }

    /// The last of them, a file's name.
    pub fn value<'a>(&'a self, option: &'a str) -> Option<&'a Path> {
        self.values(option).last().map(Path::new)
    }

    /// The one input: a file, or standard input.
    pub fn input(&self) -> Result<Input, String> {
        match self.files.as_slice() {
            [] => Input::standard().map_err(|message| self.usage(&message)),
            [file] if file == "-" => Input::standard().map_err(|message| self.usage(&message)),
            [file] => Input::file(Path::new(file)),
            _ => Err(self.usage("one file at a time")),
        }
    }

    /// The one folder.
    pub fn folder(&self) -> Result<&Path, String> {
        match self.files.as_slice() {
            [folder] => Ok(Path::new(folder)),
            _ => Err(self.usage("name one folder")),
        }
    }

    /// The words that are no options, where there are so many of them.
    pub fn words<const N: usize>(&self, missing: &str) -> Result<[String; N], String> {
        let words: Vec<String> = self.files.iter().map(|word| word.to_string_lossy().into_owned()).collect();
        words.try_into().map_err(|_| self.usage(missing))
    }

    pub fn usage(&self, message: &str) -> String {
        format!("{0}: {message}; see lampruda {0} --help", self.command)
    }
}

/// What begins with -, but for - itself and negative numbers.
fn looks_like_option(word: &str) -> bool {
    let mut letters = word.chars();
    letters.next() == Some('-') && letters.next().is_some_and(|letter| !letter.is_ascii_digit())
}
