//! `harness examples`: units and listings of the example texts.

use crate::listing::listing_of;
use std::fs;
use std::path::{Path, PathBuf};

/// At the repository's root.
const FOLDER: &str = concat!(env!("CARGO_MANIFEST_DIR"), "/../../examples");

pub fn read(file: &Path) -> Result<Vec<u8>, String> {
    fs::read(file).map_err(|error| format!("{}: {error}", file.display()))
}

fn write(file: &Path, bytes: &[u8]) -> Result<(), String> {
    fs::write(file, bytes).map_err(|error| format!("{}: {error}", file.display()))
}

/// The unit of a text file.
fn unit_of(file: &Path) -> Result<Vec<u8>, String> {
    let text = String::from_utf8(read(file)?).map_err(|_| format!("{}: no text", file.display()))?;
    text::assemble(&text).map_err(|error| format!("{}:{error}", file.display()))
}

/// Makes the unit, the listing and the cleaned listing of each text in the folder, or says which of them is
/// not what the text makes.
pub fn run(options: &[&str]) -> Result<(), String> {
    let made = made()?;
    match options {
        [] => made.iter().try_for_each(|(file, bytes)| write(file, bytes)),
        ["--check"] => match made.iter().find(|(file, bytes)| fs::read(file).ok().as_ref() != Some(bytes)) {
            Some((file, _)) => Err(format!("{} is not what its text makes", file.display())),
            None => {
                println!("{} files are what their texts make", made.len());
                Ok(())
            }
        },
        _ => Err(crate::USAGE.into()),
    }
}

/// The files that the texts make.
fn made() -> Result<Vec<(PathBuf, Vec<u8>)>, String> {
    let entries = fs::read_dir(FOLDER).map_err(|error| format!("{FOLDER}: {error}"))?;
    let mut texts: Vec<PathBuf> = entries
        .filter_map(|entry| Some(entry.ok()?.path()))
        .filter(|file| file.extension().is_some_and(|extension| extension == "lasm"))
        .collect();
    texts.sort();
    let mut made = Vec::new();
    for text in texts {
        let unit = unit_of(&text)?;
        made.push((text.with_extension("listing"), listing_of(&unit).into_bytes()));
        made.push((text.with_extension("cleaned"), reference::clean(&unit).listing().into_bytes()));
        made.push((text.with_extension("unit"), unit));
    }
    Ok(made)
}

#[cfg(test)]
mod tests {
    #[test]
    fn examples_are_what_their_texts_make() {
        super::run(&["--check"]).unwrap();
    }
}
