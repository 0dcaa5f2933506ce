//! The names and numbers of the C header are those of the wrapper.

use std::collections::BTreeMap;

use knitcauldron::{Frames, Status, Trap, Value, FRAME_WORDS};

use crate::refusals::one_of_each;

const HEADER: &str = include_str!("../../../../include/knitcauldron.h");

/// Numbers that are neither a status nor a kind nor a refusal of the wrapper's; TOO_LONG is the runner's.
const OTHERS: [&str; 10] = [
    "ADMITTED",
    "ANSWER_WORDS",
    "DONE",
    "EVENT_ID_BYTES",
    "FRAME_FIRST_REGISTER",
    "FRAME_FUNCTION",
    "FRAME_PLACE",
    "FRAME_RETURN_REGISTER",
    "FRAME_WORDS",
    "TOO_LONG",
];

/// What the header defines, by their names without `KNIT_`; all of it is numbers.
fn defined() -> BTreeMap<&'static str, u64> {
    let define = |line: &'static str| {
        let mut words = line.strip_prefix("#define KNIT_")?.split_whitespace();
        let number = |word: &str| word.parse().ok();
        let row = words.next().zip(words.next().and_then(number));
        Some(row.unwrap_or_else(|| panic!("no name and number: {line}")))
    };
    HEADER.lines().filter_map(define).collect()
}

/// The header's names that begin so, without that beginning.
fn under(prefix: &str) -> BTreeMap<String, u64> {
    let row = |(name, number): (&str, u64)| Some((name.strip_prefix(prefix)?.to_string(), number));
    defined().into_iter().filter_map(row).collect()
}

/// What is left of the header's names is refusals, so that an added one is among them.
fn refusals() -> BTreeMap<String, u64> {
    let is_other = |name: &str| {
        name.starts_with("STATUS_") || name.starts_with("KIND_") || OTHERS.contains(&name)
    };
    let mut left = under("");
    left.retain(|name, _| !is_other(name));
    left
}

/// How the header writes a name of Rust.
fn in_capitals(name: &str) -> String {
    let mut capitals = String::new();
    for letter in name.chars() {
        if letter.is_ascii_uppercase() && !capitals.is_empty() {
            capitals.push('_');
        }
        capitals.push(letter.to_ascii_uppercase());
    }
    capitals
}

#[test]
fn refusals_have_the_header_s_names_and_numbers() {
    let ours = one_of_each()
        .into_iter()
        .map(|refusal| (in_capitals(refusal.name()), refusal.number()));
    assert_eq!(ours.collect::<BTreeMap<_, _>>(), refusals());
}

#[test]
fn statuses_have_the_header_s_names_and_numbers() {
    let trapped = Trap::ALL.map(|trap| (format!("{trap:?}"), Status::Trapped(trap)));
    let returned = ("Returned".to_string(), Status::Returned);
    let row = |(name, status): (String, Status)| (in_capitals(&name), status.number());
    let ours = trapped.into_iter().chain([returned]).map(row);
    assert_eq!(ours.collect::<BTreeMap<_, _>>(), under("STATUS_"));
}

#[test]
fn kinds_have_the_header_s_names_and_numbers() {
    let first = |kind| Value::from_parts(kind, 0).expect("0 is a payload of every kind");
    let row = |value: Value| {
        let text = value.to_string();
        let name = text.split(' ').next().unwrap_or_default();
        (name.to_ascii_uppercase(), value.kind())
    };
    let ours = (0..=8).map(first).map(row);
    assert_eq!(ours.collect::<BTreeMap<_, _>>(), under("KIND_"));
}

#[test]
fn a_record_has_the_header_s_fields() {
    let defined = defined();
    assert_eq!(defined["FRAME_WORDS"], FRAME_WORDS as u64);
    let frame = Frames::new(&[0, 1, 2, 3])
        .next()
        .expect("four words are a record");
    for (name, at) in [
        ("FRAME_FUNCTION", frame.function),
        ("FRAME_PLACE", frame.place),
        ("FRAME_RETURN_REGISTER", frame.return_register),
        ("FRAME_FIRST_REGISTER", frame.first_register),
    ] {
        assert_eq!(defined[name], at, "KNIT_{name}");
    }
}
