//! Cases in print.

use std::io::{self, Write};

/// A line longer than this is not printed whole.
const LONGEST: usize = 4_000;
/// A case made smaller can be made again by nothing else, so more of it is
/// printed.
const LONGEST_SHRUNK: usize = 100_000;

/// Writes the line of a generated case, and if it is too long to be printed
/// whole, the command that does so.
pub fn write_case(output: &mut impl Write, line: &str, command: &str) -> io::Result<()> {
    write_line(
        output,
        line,
        LONGEST,
        &format!("; the whole line: {command}"),
    )
}

/// Writes the line of a worked case.
pub fn write_worked(output: &mut impl Write, line: &str) -> io::Result<()> {
    write_line(output, line, LONGEST, "")
}

/// Writes the line of a case that was made smaller.
pub fn write_shrunk(output: &mut impl Write, line: &str) -> io::Result<()> {
    write_line(output, line, LONGEST_SHRUNK, "")
}

fn write_line(output: &mut impl Write, line: &str, longest: usize, more: &str) -> io::Result<()> {
    let Some(start) = line.get(..longest).filter(|start| start.len() < line.len()) else {
        return writeln!(output, "{line}");
    };
    writeln!(output, "{start}")?;
    writeln!(output, "cut, of {} characters{more}", line.len())
}

#[cfg(test)]
mod tests {
    use super::*;

    fn written(length: usize) -> String {
        let mut output = Vec::new();
        write_case(&mut output, &"x".repeat(length), "compare case 1 2").unwrap();
        String::from_utf8(output).unwrap()
    }

    #[test]
    fn a_long_line_is_cut() {
        let whole = "x".repeat(LONGEST);
        assert_eq!(written(LONGEST), format!("{whole}\n"));
        let note = "cut, of 4001 characters; the whole line: compare case 1 2";
        assert_eq!(written(LONGEST + 1), format!("{whole}\n{note}\n"));
    }
}
