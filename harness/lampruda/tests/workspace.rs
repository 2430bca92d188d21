//! The library through the wrapper.

use lampruda::{needed, Answer, Workspace};
use std::fs;
use std::path::PathBuf;
use unit::{Entry, Header, Lengths, Parts};

const EXAMPLES: &str = concat!(env!("CARGO_MANIFEST_DIR"), "/../../examples");

fn examples() -> Vec<PathBuf> {
    let files = fs::read_dir(EXAMPLES).unwrap().map(|entry| entry.unwrap().path());
    files.filter(|file| file.extension().is_some_and(|extension| extension == "unit")).collect()
}

/// One workspace for all, so that each unit finds what the one before left.
#[test]
fn examples_are_as_listed() {
    let mut workspace = Workspace::default();
    assert!(!examples().is_empty());
    for file in examples() {
        let unit = fs::read(&file).unwrap();
        let listed = |extension| fs::read_to_string(file.with_extension(extension)).unwrap();
        assert_eq!(unit::Answer::from(workspace.pass(&unit)).listing(), listed("listing"));
        let cleaned = workspace.clean(&unit);
        let cleaned = unit::Cleaned { answer: cleaned.answer.into(), pass: cleaned.passes };
        assert_eq!(cleaned.listing(), listed("cleaned"));
    }
}

#[test]
fn any_bytes() {
    let mut workspace = Workspace::default();
    let (huge, _) = Header::with_counts([u32::MAX; 8], u32::MAX, 0);
    let mut bytes = Vec::new();
    huge.write(&mut bytes);
    for bytes in [&[][..], &[1; 63], &[255; 64], &bytes] {
        assert_eq!(needed(bytes), Lengths::default());
        assert_eq!(workspace.pass(bytes), Answer::Refused { number: 1, place: 0 });
        let cleaned = workspace.clean(bytes);
        assert_eq!((cleaned.answer, cleaned.passes), (Answer::Refused { number: 1, place: 0 }, 1));
    }
}

#[test]
fn what_is_not_worked_on_needs_nothing() {
    let unit = Parts::default().encode();
    assert_eq!(needed(&unit), Lengths::default());
    assert_eq!(Workspace::default().pass(&unit), Answer::Unchanged);
}
