//! The names and their values are the header's, all of them.

use pottagewing::{Answer, Arrivals, Ended, Form, Letter, Mark, Mode, NAMES, PLACE_START, VERSION};
use std::collections::BTreeMap;

const HEADER: &str = include_str!("../../include/pottagewing.h");

/// What the header defines, without `PW_`, and the value as it is written.
fn written() -> impl Iterator<Item = (&'static str, &'static str)> {
    let defined = HEADER
        .lines()
        .filter_map(|line| line.strip_prefix("#define PW_"));
    defined.map(|rest| rest.split_once(' ').expect("a name and its value"))
}

/// Those that are numbers: all but a list in braces.
fn defined() -> BTreeMap<String, u64> {
    written()
        .filter(|(_, value)| !value.starts_with('{'))
        .map(|(name, value)| (name.to_string(), value.parse().expect("a number")))
        .collect()
}

/// The enum of forms, without `PW_FORM_`, in its order.
fn forms() -> Vec<String> {
    let (_, rest) = HEADER.split_once("enum pw_form {").expect("the enum");
    let (list, _) = rest.split_once('}').expect("its end");
    let name = |word: &str| word.trim().strip_prefix("PW_FORM_").map(str::to_string);
    let names = list.split(',').map(name);
    names.collect::<Option<_>>().expect("names of forms")
}

#[test]
fn names_are_the_headers() {
    let mut ours: BTreeMap<String, u64> = BTreeMap::new();
    let limits = NAMES.iter().copied();
    let numbers = Answer::NAMES
        .iter()
        .map(|(name, value)| (*name, u64::from(*value)));
    let chosen = [
        ("UNWRAPPED", Mode::Unwrapped as u64),
        ("WRAPPING", Mode::Wrapping as u64),
        ("ARRIVALS_DECLINED", Arrivals::Declined as u64),
        ("ARRIVALS_CHOSEN", Arrivals::Chosen as u64),
        ("STOPPED", Ended::Stopped as u64),
        ("FINISHED", Ended::Finished as u64),
    ];
    let marks = Mark::ALL.map(|mark| (format!("{mark:?}").to_uppercase(), mark as u64));
    for (name, value) in limits.chain(numbers).chain(chosen) {
        ours.insert(name.to_string(), value);
    }
    ours.extend(marks);
    assert_eq!(ours, defined());
}

#[test]
fn the_first_place_is_the_headers() {
    let lists: Vec<_> = written()
        .filter(|(_, value)| value.starts_with('{'))
        .collect();
    let [a, b, c, d] = PLACE_START;
    let place = format!("{{{a}, {b}, {c}, {d}}}");
    assert_eq!(lists, [("PLACE_START", place.as_str())]);
}

#[test]
fn letters_are_read() {
    for letter in Letter::ALL {
        assert_eq!(Letter::of(letter as u8), Some(letter));
    }
    assert_eq!(Letter::of(0), None);
    assert_eq!(Letter::of(b'P'), None);
}

#[test]
fn forms_are_the_headers() {
    let ours = Form::ALL.map(|form| form.name().to_uppercase());
    assert_eq!(ours.to_vec(), forms());
    for (index, form) in Form::ALL.into_iter().enumerate() {
        assert_eq!(form as usize, index);
    }
}

#[test]
fn marks_are_read() {
    for (byte, mark) in Mark::ALL.into_iter().enumerate() {
        assert_eq!(Mark::of(byte as u8), Some(mark));
        assert_eq!(mark as usize, byte);
    }
    assert_eq!(Mark::of(5), None);
    assert_eq!(Mark::of(255), None);
}

#[test]
fn what_is_linked_belongs_to_it() {
    assert_eq!(pottagewing::version(), VERSION);
}

/// Every call that the header declares is declared here too.
#[test]
fn calls_are_the_headers() {
    let declared = include_str!("../src/declared.rs");
    let called = |text: &str, before: &str| {
        let parts = text.split(before).skip(1);
        let mut names: Vec<String> = parts
            .map(|part| part.split('(').next().unwrap_or_default().to_string())
            .collect();
        names.sort();
        names
    };
    let ours = called(declared, "pub fn pw_");
    let mut theirs = called(HEADER, "\nuint32_t pw_");
    theirs.extend(called(HEADER, "\nvoid pw_"));
    theirs.sort();
    assert_eq!(ours, theirs);
}
