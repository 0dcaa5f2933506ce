//! Lines in, lines out: exactly one line is written for each line read, so
//! that line N of the output always answers line N of the input.

use std::io::{self, BufRead, BufWriter, Write};

/// What is written for a line that has no answer.
pub const BAD: &str = "bad line";

/// Answers every line of the input. Says whether all of them had an answer.
///
/// A bad line does not end the work. Its number goes to `notes`, so that the
/// output keeps to its few fixed forms.
pub fn answer_all(
    mut input: impl BufRead,
    output: impl Write,
    notes: impl Write,
    mut answer: impl FnMut(&[u8]) -> Option<String>,
) -> io::Result<bool> {
    let mut output = BufWriter::new(output);
    let mut notes = BufWriter::new(notes);
    let mut all_good = true;
    let mut line = Vec::new();
    let mut number = 0u64;
    while input.read_until(b'\n', &mut line)? != 0 {
        number += 1;
        match answer(line.strip_suffix(b"\n").unwrap_or(&line)) {
            Some(text) => writeln!(output, "{text}")?,
            None => {
                all_good = false;
                writeln!(output, "{BAD}")?;
                writeln!(notes, "line {number}: {BAD}")?;
            }
        }
        line.clear();
    }
    notes.flush()?;
    output.flush()?;
    Ok(all_good)
}

#[cfg(test)]
mod tests {
    use super::*;

    fn all(input: &[u8]) -> (bool, String, String) {
        let (mut output, mut notes) = (Vec::new(), Vec::new());
        let good = answer_all(input, &mut output, &mut notes, |line| {
            (line == b"good").then(|| "fine".to_string())
        });
        let text = |bytes| String::from_utf8(bytes).unwrap();
        (good.unwrap(), text(output), text(notes))
    }

    #[test]
    fn no_lines_give_no_lines() {
        assert_eq!(all(b""), (true, String::new(), String::new()));
    }

    #[test]
    fn the_last_line_feed_may_be_missing() {
        let (good, output, _) = all(b"good\ngood");
        assert!(good);
        assert_eq!(output, "fine\nfine\n");
    }

    #[test]
    fn a_bad_line_is_answered_and_the_next_one_too() {
        let (good, output, notes) = all(b"good\n\n\xff\ngood\r\ngood\n");
        assert!(!good);
        assert_eq!(output, "fine\nbad line\nbad line\nbad line\nfine\n");
        let expected = "line 2: bad line\nline 3: bad line\nline 4: bad line\n";
        assert_eq!(notes, expected);
    }
}
