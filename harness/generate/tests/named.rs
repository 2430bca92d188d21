//! The named examples against the reference.

use generate::named::{self, Stated};
use unit::{Answer, Rewritten};

/// What an answer says, in the terms in which the papers state it.
fn said(answer: &Answer) -> String {
    let stated = match answer {
        Answer::Unchanged => Stated::Unchanged,
        Answer::Refused { number, place } => Stated::Refused { number: *number, place: *place },
        Answer::Rewritten { bytes } => {
            let result = Rewritten::decode(bytes).expect("the result's layout");
            Stated::Rewritten(
                result.retained.iter().map(|entry| (entry.old_place, entry.instruction)).collect(),
            )
        }
    };
    format!("{stated:?}")
}

#[test]
fn answers_are_as_stated() {
    for named in named::all() {
        assert_eq!(said(&reference::pass(&named.unit)), format!("{:?}", named.pass), "{}", named.name);
        if let Some((stated, pass)) = &named.clean {
            let cleaned = reference::clean(&named.unit);
            assert_eq!(said(&cleaned.answer), format!("{stated:?}"), "{} cleaned", named.name);
            assert_eq!(cleaned.pass, *pass, "{} cleaned", named.name);
        }
    }
}

/// Document 02, L3: the lines of a result.
#[test]
fn lines_are_as_stated() {
    let lines = |answer: Answer| match answer {
        Answer::Rewritten { bytes } => Rewritten::decode(&bytes).expect("the result's layout").lines,
        _ => vec![],
    };
    for named in named::all() {
        if let Some(stated) = &named.lines {
            assert_eq!(&lines(reference::pass(&named.unit)), stated, "{}", named.name);
        }
        if let Some(stated) = &named.cleaned_lines {
            assert_eq!(&lines(reference::clean(&named.unit).answer), stated, "{} cleaned", named.name);
        }
    }
}

/// "LoopEnd on anything but a loop hint is not relocated", and the rest of the metadata travels along.
#[test]
fn metadata_travels_along() {
    let named = named::all().into_iter().find(|named| named.name == "LoopEnd of a Return is not relocated");
    let Answer::Rewritten { bytes } = reference::pass(&named.unwrap().unit) else { panic!("rewritten") };
    assert_eq!(Rewritten::decode(&bytes).unwrap().retained[0].metadata, unit::Metadata::loop_end(1));
}

/// Recorded units are small, and no two of a name.
#[test]
fn names() {
    let named = named::all();
    let mut names: Vec<_> = named.iter().map(|named| named.name).collect();
    names.sort_unstable();
    names.dedup();
    assert_eq!(names.len(), named.len());
    assert!(named.iter().all(|named| !named.recorded || named.unit.len() <= 2_048));
}
