//! Lines that are no cases, each wrong in one way: what is answered `bad line`.

use crate::program::DOCUMENT_IMAGE;

/// Good lines of the three forms, from which the others are made.
pub fn good() -> [String; 3] {
    [
        "operate 1a 00 00000000 0000000300000007 0000000300000002".to_string(),
        format!("validate 256 256 64 8192 1000000 {DOCUMENT_IMAGE}"),
        format!("run 1000000 64 {DOCUMENT_IMAGE}"),
    ]
}

pub fn all() -> Vec<String> {
    let mut lines: Vec<String> = good().iter().flat_map(|line| of_any_form(line)).collect();
    let [operate, validate, run] = good();
    lines.extend(exchanged(&operate, &OPERATIONS));
    lines.extend(exchanged(&operate, &IMPOSSIBLE));
    lines.extend(exchanged(&validate, &LIMITS));
    lines.extend(exchanged(&run, &RUNS));
    for line in [&validate, &run] {
        lines.extend(images(line));
    }
    let others = ["", " ", "\r", "-", "# a remark", DOCUMENT_IMAGE];
    lines.extend(others.map(str::to_string));
    lines
}

/// What can be wrong with a line of any form: spaces, fields, its first word,
/// its end.
fn of_any_form(line: &str) -> Vec<String> {
    let (word, fields) = line.split_once(' ').unwrap_or((line, ""));
    let (start, last) = line.rsplit_once(' ').unwrap_or((line, ""));
    let (first, later) = fields.split_once(' ').unwrap_or((fields, ""));
    vec![
        format!(" {line}"),
        format!("{line} "),
        format!("{line}\r"),
        format!("{line}\t"),
        format!("{word}  {fields}"),
        format!("{start}  {last}"),
        format!("{word}\t{fields}"),
        format!("{line} 0"),
        format!("{word} {first} {first} {later}"),
        start.to_string(),
        format!("{word} {later}"),
        word.to_string(),
        fields.to_string(),
        format!("{word}s {fields}"),
        format!("{} {fields}", word.to_uppercase()),
        format!("{word}{fields}"),
    ]
}

/// What is put for what in an operation. Every field has its width: a digit
/// less makes a line that is too short, and no number fits that has one more.
const OPERATIONS: [(&str, &str); 13] = [
    ("1a", "1g"),
    ("1a", "1A"),
    ("1a", "a"),
    ("1a", "01a"),
    ("1a", "0x1a"),
    ("1a 00", "1a-00"),
    ("00000000", "0000000"),
    ("00000000", "000000000"),
    ("0300000007", "030000000-"),
    ("0000000300000007", "---------------7"),
    ("0000000300000007", "---------------"),
    ("0000000300000002", "000000030000000"),
    ("0000000300000002", "000000030000000\r"),
];

/// What is put for what in an operation so that no image could hold it: opcodes
/// that compute nothing or do not exist, something in a field without use,
/// values that a load does not have, words that are no value's.
const IMPOSSIBLE: [(&str, &str); 13] = [
    ("1a", "00"),
    ("1a", "02"),
    ("1a", "33"),
    ("1a", "38"),
    ("1a", "ff"),
    ("1a 00", "1a 01"),
    ("1a 00 00000000", "1a 00 00000001"),
    ("1a 00", "04 04"),
    ("1a 00", "05 02"),
    ("1a 00", "06 01"),
    ("0000000300000007", "0000000900000000"),
    ("0000000300000007", "0000000600000000"),
    ("0000000300000002", "0000000200000002"),
];

/// What is put for what in the limits: signs, zeros in front, digits that are
/// none, and for each field the first number that it does not hold.
const LIMITS: [(&str, &str); 13] = [
    ("256 256", "0256 256"),
    ("256 256", "+256 256"),
    ("256 256", "-256 256"),
    ("256 256", "0x100 256"),
    ("256 256", "2_56 256"),
    ("64", "064"),
    ("8192", "8192.0"),
    ("1000000", "f4240"),
    ("256 256", "65536 256"),
    ("256 256", "256 65536"),
    ("64", "65536"),
    ("8192", "4294967296"),
    ("1000000", "18446744073709551616"),
];

const RUNS: [(&str, &str); 8] = [
    ("1000000", "01000000"),
    ("1000000", "00"),
    ("1000000", "+1000000"),
    ("1000000", "-1"),
    ("1000000", "18446744073709551616"),
    ("1000000", "99999999999999999999999999"),
    ("64", "00064"),
    ("64", "65536"),
];

fn exchanged(line: &str, exchanges: &[(&str, &str)]) -> Vec<String> {
    let exchange = |(from, to): &(&str, &str)| line.replacen(from, to, 1);
    exchanges.iter().map(exchange).collect()
}

/// What can be wrong with an image: a digit less or more, one in upper case,
/// one that is none, and more minus signs than the one of an empty image.
fn images(line: &str) -> Vec<String> {
    let digits = DOCUMENT_IMAGE;
    let wrong = [
        digits[1..].to_string(),
        format!("{digits}0"),
        digits.replacen("ff", "fF", 1),
        digits.replacen("ff", "fg", 1),
        format!("0x{digits}"),
        "--".to_string(),
        format!("-{digits}"),
        "0".to_string(),
    ];
    wrong.map(|image| line.replacen(digits, &image, 1)).to_vec()
}
