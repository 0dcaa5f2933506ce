//! What document 01's runner prints for an image: the fixed configuration, a
//! buffer, frames and registers of its own, one line.

mod cases;
mod page;

pub use cases::write_cases;
pub use page::{listings, table};

use semantic_core_exec::CoreConfig;

use crate::measure::Room;
use crate::reading::{self, Limits, RECORD};
use crate::run;
use crate::verdict::Answer;

/// The bytes that the runner has for an image.
const BUFFER: usize = 32_768;
/// The memory that it lends: 64 frames and 2,048 registers.
const ROOM: Room = Room {
    frames: 64 * RECORD,
    registers: 2_048,
};
const TOO_LONG: Answer = Answer {
    number: 8,
    words: [0; 5],
};

/// The runner's line: `done STATUS KIND PAYLOAD FUEL` or `refused NUMBER
/// ANSWER`. What a run answers comes from the Rust, refusals from the reading.
pub fn line(image: &[u8]) -> String {
    let answer = answer(image);
    let [first, second, third, fourth, _] = answer.words;
    match answer.number {
        0 => format!("done {first} {second} {third} {fourth}"),
        number => format!("refused {number} {first}"),
    }
}

fn answer(image: &[u8]) -> Answer {
    if image.len() > BUFFER {
        return TOO_LONG;
    }
    let limits = limits();
    let refusal = by_reading(image, limits);
    if refusal.number > 0 {
        return refusal;
    }
    run::of_image(image, limits)
}

fn by_reading(image: &[u8], limits: Limits) -> Answer {
    let mut frames = vec![0; ROOM.frames];
    let mut registers = vec![0; ROOM.registers];
    reading::answer(image, limits, &mut frames, &mut registers)
}

/// Those of the default configuration.
fn limits() -> Limits {
    let CoreConfig {
        fuel,
        max_call_depth,
        ..
    } = CoreConfig::default();
    Limits {
        fuel,
        max_call_depth,
    }
}

#[cfg(test)]
mod tests;
