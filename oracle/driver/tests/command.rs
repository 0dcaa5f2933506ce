//! The built program itself: its exit codes and what it writes where.

use std::io::Write;
use std::process::{Command, Output, Stdio};
use std::thread;

fn oracle(arguments: &[&str], input: &str) -> Output {
    let mut child = Command::new(env!("CARGO_BIN_EXE_oracle"))
        .args(arguments)
        .stdin(Stdio::piped())
        .stdout(Stdio::piped())
        .stderr(Stdio::piped())
        .spawn()
        .unwrap();
    // Written from a thread of its own: with both pipes full, program and test
    // would wait for each other. A program that ends without reading closes
    // the pipe, which is no fault here.
    let mut stdin = child.stdin.take().unwrap();
    let input = input.to_string();
    let writer = thread::spawn(move || drop(stdin.write_all(input.as_bytes())));
    let output = child.wait_with_output().unwrap();
    writer.join().unwrap();
    output
}

fn text(bytes: &[u8]) -> &str {
    std::str::from_utf8(bytes).unwrap()
}

/// A header with no functions, entry 0.
const EMPTY: &str = "010000000000000000000000180000001800000018000000";

#[test]
fn good_lines_end_with_0() {
    let input = format!("validate 1 1 1 1 1 {EMPTY}\nrun 9 1 {EMPTY}\n");
    let output = oracle(&["answer"], &input);
    assert_eq!(output.status.code(), Some(0));
    let lines: Vec<&str> = text(&output.stdout).lines().collect();
    assert_eq!(lines.len(), 2);
    assert_eq!(lines[0], "refused 11");
    assert!(lines[1].starts_with("done 8 0 0 0 "));
    assert_eq!(text(&output.stderr), "");
}

#[test]
fn bad_lines_end_with_1_and_do_not_stop_the_rest() {
    let input = format!("nonsense\nrun 1 1 -\nvalidate 1 1 1 1 1 {EMPTY}\n");
    let output = oracle(&["answer"], &input);
    assert_eq!(output.status.code(), Some(1));
    assert_eq!(text(&output.stdout), "bad line\nrefused 1 0\nrefused 11\n");
    assert_eq!(text(&output.stderr), "line 1: bad line\n");
}

/// The number that stands behind a name in the notes of `oracle list`.
fn noted(notes: &str, name: &str) -> usize {
    let start = format!("{name}: ");
    let mut counts = notes.lines().filter_map(|line| line.strip_prefix(&start));
    counts.next().unwrap().parse().unwrap()
}

#[test]
fn the_list_is_answered_line_by_line() {
    let list = oracle(&["list"], "");
    assert_eq!(list.status.code(), Some(0));
    let (cases, notes) = (text(&list.stdout), text(&list.stderr));
    assert!(cases.ends_with('\n'));
    let answers = oracle(&["answer"], cases);
    assert_eq!(answers.status.code(), Some(1));
    let answers: Vec<&str> = text(&answers.stdout).lines().collect();
    assert_eq!(answers.len(), cases.lines().count());
    // Form after form, and each form has answers of its own.
    let (operations, rest) = answers.split_at(noted(notes, "operate"));
    let (verdicts, rest) = rest.split_at(noted(notes, "validate"));
    let (runs, no_cases) = rest.split_at(noted(notes, "run"));
    assert_eq!(no_cases.len(), noted(notes, "no case"));
    let all = |answers: &[&str], words: [&str; 2]| {
        let begins = |line: &&str| words.iter().any(|word| line.starts_with(word));
        assert_eq!(answers.iter().find(|line| !begins(line)), None);
    };
    all(operations, ["value ", "trap "]);
    all(verdicts, ["admitted", "refused "]);
    all(runs, ["done ", "refused "]);
    all(no_cases, ["bad line", "bad line"]);
}

#[test]
fn other_arguments_end_with_2() {
    for arguments in [&[][..], &["operate"], &["answer", "more"]] {
        assert_eq!(oracle(arguments, "").status.code(), Some(2));
    }
}
