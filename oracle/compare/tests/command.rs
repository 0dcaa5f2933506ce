//! The built program itself: its arguments, its exit codes and what it writes
//! where.

use std::process::{Command, Output};

fn compare(arguments: &[&str]) -> Output {
    Command::new(env!("CARGO_BIN_EXE_compare"))
        .args(arguments)
        .output()
        .unwrap()
}

fn text(bytes: &[u8]) -> &str {
    std::str::from_utf8(bytes).unwrap()
}

#[test]
fn all_has_the_parts_of_the_others() {
    let all = compare(&["all", "3", "200"]);
    assert_eq!(all.status.code(), Some(0), "{}", text(&all.stdout));
    let mut parts = vec!["seed 3".to_string()];
    for command in ["validate", "run", "identify"] {
        let part = compare(&[command, "3", "200"]);
        assert_eq!(part.status.code(), Some(0));
        let mut lines = text(&part.stdout).lines().map(str::to_string);
        assert_eq!(lines.next().as_deref(), Some("seed 3"));
        parts.extend(lines);
        assert_eq!(text(&part.stderr), "");
    }
    let mut found: Vec<&str> = text(&all.stdout).lines().collect();
    assert_eq!(found[0], "seed 3");
    // The worked cases of all come first, so the order is another.
    assert!(found[1..4].iter().all(|line| line.contains(" worked ")));
    found.sort_unstable();
    parts.sort_unstable();
    assert_eq!(found, parts);
}

#[test]
fn what_never_occurred_fails_if_that_is_asked_for() {
    for command in ["all", "validate", "run"] {
        let without = compare(&[command, "3", "1"]);
        assert_eq!(without.status.code(), Some(0));
        let with = compare(&[command, "3", "1", "--complete"]);
        assert_eq!(with.status.code(), Some(1));
        assert_eq!(with.stdout, without.stdout);
        assert!(text(&with.stdout).contains("\nnever occurred: "));
    }
    let identify = compare(&["identify", "3", "1", "--complete"]);
    assert_eq!(identify.status.code(), Some(0));
}

/// What goes to standard output is for `oracle answer`.
#[test]
fn a_case_is_printed_as_a_line() {
    let case = compare(&["case", "3", "7"]);
    assert_eq!(case.status.code(), Some(0));
    assert_eq!(text(&case.stderr), "seed 3\n");
    let line = text(&case.stdout).strip_suffix('\n').unwrap();
    assert!(line.starts_with("validate "));
    assert!(oracle::answer::answer(line.as_bytes()).is_some());
    let case = compare(&["run-case", "3", "7"]);
    assert_eq!(case.status.code(), Some(0));
    assert_eq!(text(&case.stderr), "seed 3\n");
    let lines: Vec<&str> = text(&case.stdout).lines().collect();
    for pair in lines.chunks(2) {
        assert!(pair[0].starts_with("fuel "));
        assert!(oracle::answer::answer(pair[1].as_bytes()).is_some());
    }
}

#[test]
fn other_arguments_end_with_2() {
    let wrong: [&[&str]; 9] = [
        &[],
        &["all"],
        &["all", "3"],
        &["all", "3", "-1"],
        &["all", "x", "1"],
        &["all", "3", "1", "--whole"],
        &["all", "3", "1", "--complete", "more"],
        &["case", "3", "1", "--complete"],
        &["compare", "3", "1"],
    ];
    for arguments in wrong {
        let output = compare(arguments);
        assert_eq!(output.status.code(), Some(2), "{arguments:?}");
        assert!(text(&output.stderr).starts_with("usage: "));
    }
}
