//! A publisher's night in small: `nightly IMAGE LESSON` checks the image in a file under the safe profile, runs it, and prints
//! how it ended, what it gave back, the fuel it used and the identifier of the lesson's event.
//!
//! The exit status is 0 if it ran, also if it trapped; 1 if the image was refused; 2 for wrong use.

use std::env;
use std::ffi::OsString;
use std::fs;
use std::process::ExitCode;

use knitcauldron::{enough_room, event_id, execute, validate, Limits, Profile, Refusal, Room, Run};

fn main() -> ExitCode {
    let (image, lesson) = match read_arguments() {
        Ok(arguments) => arguments,
        Err(why) => {
            eprintln!("{why}");
            return ExitCode::from(2);
        }
    };
    match run(&image) {
        Ok(run) => {
            print(lesson, &run);
            ExitCode::SUCCESS
        }
        Err(refusal) => {
            let (number, name) = (refusal.number(), refusal.name());
            eprintln!("refused {number}, {name}: {refusal}");
            ExitCode::FAILURE
        }
    }
}

fn read_arguments() -> Result<(Vec<u8>, u32), String> {
    let arguments: Vec<OsString> = env::args_os().skip(1).collect();
    let [path, lesson] = arguments.as_slice() else {
        return Err("usage: nightly IMAGE LESSON".to_string());
    };
    let number = lesson.to_str().and_then(|text| text.parse().ok());
    let lesson = number.ok_or("a lesson is a number from 0 to 4294967295")?;
    let image = fs::read(path).map_err(|why| format!("{}: {why}", path.to_string_lossy()))?;
    Ok((image, lesson))
}

fn run(image: &[u8]) -> Result<Run, Refusal> {
    let (profile, limits) = (Profile::SAFE, Limits::DEFAULT);
    validate(image, &profile)?;
    // An admitted program has no function with more registers than the profile allows, so this room is always enough.
    let needed = enough_room(limits.max_call_depth, profile.max_registers);
    let mut room = Room {
        frame_words: &mut vec![0; needed.frame_words],
        register_words: &mut vec![0; needed.register_words],
    };
    execute(image, limits, &mut room)
}

fn print(lesson: u32, run: &Run) {
    println!("status: {}", run.status);
    println!("value: {}", run.value);
    println!("fuel used: {}", run.fuel_used);
    println!("event: {}", event_id(lesson, run.digest));
}
