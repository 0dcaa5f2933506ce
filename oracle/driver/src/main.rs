//! Asks the original Rust engine, built unchanged, for its answers.
//!
//! `oracle answer` answers lines about operations and about whole programs;
//! `oracle list` writes the fixed list of such lines. `oracle images` writes
//! images for people; the other commands say what the runner does with images.

use std::env;
use std::fs;
use std::io::{self, BufReader, Write};
use std::path::Path;
use std::process::ExitCode;

use oracle::{answer, examples, lines, list, runner};

const USAGE: &str =
    "usage: oracle answer | list | images FOLDER | runner-lines | listings | runner-cases";

fn main() -> ExitCode {
    let arguments: Vec<String> = env::args().skip(1).collect();
    let names: Vec<&str> = arguments.iter().map(String::as_str).collect();
    let done = match names.as_slice() {
        ["answer"] => answer_lines(),
        ["list"] => list::write(io::stdout().lock(), io::stderr()),
        ["images", folder] => write_images(Path::new(folder)).map(|()| true),
        ["runner-lines"] => write_text(&runner::table()),
        ["listings"] => write_text(&runner::listings()),
        ["runner-cases"] => runner::write_cases(io::stdout().lock()).map(|()| true),
        _ => {
            eprintln!("{USAGE}");
            return ExitCode::from(2);
        }
    };
    match done {
        Ok(true) => ExitCode::SUCCESS,
        Ok(false) => ExitCode::from(1),
        Err(error) => {
            eprintln!("oracle: {error}");
            ExitCode::from(2)
        }
    }
}

fn answer_lines() -> io::Result<bool> {
    let input = BufReader::with_capacity(1 << 16, io::stdin());
    lines::answer_all(input, io::stdout().lock(), io::stderr(), answer::answer)
}

fn write_images(folder: &Path) -> io::Result<()> {
    fs::create_dir_all(folder)?;
    for example in examples::all() {
        fs::write(folder.join(example.file), example.image)?;
    }
    Ok(())
}

fn write_text(text: &str) -> io::Result<bool> {
    io::stdout().lock().write_all(text.as_bytes())?;
    Ok(true)
}
