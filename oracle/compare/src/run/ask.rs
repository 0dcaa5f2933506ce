//! One question to an engine: an image, limits and so much lent memory; and
//! what it answers and leaves there.

use oracle::measure::Room;
use oracle::reading::{self, Limits};
use oracle::run::{describe, line};
use oracle::verdict::Answer;

use super::Engine;
use crate::lent::{LentImage, LentSlice, LentWords};

/// What is asked. The salt chooses what lent memory holds before, and where it
/// begins.
#[derive(Debug, Clone, Copy)]
pub struct Ask<'a> {
    pub image: &'a [u8],
    pub limits: Limits,
    pub room: Room,
    pub salt: u64,
}

/// The same with an image of its own.
#[derive(Debug, Clone, PartialEq, Eq)]
pub struct Question {
    pub image: Vec<u8>,
    pub limits: Limits,
    pub room: Room,
    pub salt: u64,
}

impl Question {
    pub fn ask(&self) -> Ask<'_> {
        Ask {
            image: &self.image,
            limits: self.limits,
            room: self.room,
            salt: self.salt,
        }
    }
}

/// What an engine finds in its hands.
pub struct Asked<'a> {
    pub image: &'a mut [u8],
    pub limits: Limits,
    pub frames: &'a mut [u64],
    pub registers: &'a mut [u64],
    pub answer: &'a mut [u64; 5],
}

/// An answer, and lent memory after it.
#[derive(Debug, PartialEq, Eq)]
pub struct Outcome {
    pub answer: Answer,
    pub frames: LentSlice,
    pub registers: LentSlice,
}

impl Ask<'_> {
    pub fn question(&self) -> Question {
        Question {
            image: self.image.to_vec(),
            limits: self.limits,
            room: self.room,
            salt: self.salt,
        }
    }

    /// Lent memory as it is before, with an answer of the caller's choice.
    pub fn outcome(&self, answer: Answer) -> Outcome {
        Outcome {
            answer,
            frames: LentSlice::new(self.room.frames, self.salt),
            registers: LentSlice::new(self.room.registers, !self.salt),
        }
    }

    /// What document 01 makes of it, by the reading.
    pub fn by_reading(&self) -> Outcome {
        let mut outcome = self.outcome(Answer::new(0, &[]));
        let Outcome {
            answer,
            frames,
            registers,
        } = &mut outcome;
        *answer = reading::answer(self.image, self.limits, frames.lent(), registers.lent());
        outcome
    }

    /// What an engine makes of it, or what it did to memory that was not lent
    /// for writing.
    pub fn by_engine(&self, engine: Engine) -> Result<Outcome, String> {
        let mut outcome = self.outcome(Answer::new(0, &[]));
        let mut image = LentImage::new(self.image, self.salt);
        let mut words = LentWords::new();
        outcome.answer.number = (engine.execute)(Asked {
            image: image.image(),
            limits: self.limits,
            frames: outcome.frames.lent(),
            registers: outcome.registers.lent(),
            answer: words.words(),
        });
        outcome.answer.words = *words.words();
        if !image.is_unchanged(self.image) {
            return Err("the image, or memory around it, was changed".to_string());
        }
        if !words.is_unchanged() {
            return Err("memory around the answer was changed".to_string());
        }
        Ok(outcome)
    }

    /// The settings, for a reader.
    pub fn settings(&self) -> String {
        let Limits {
            fuel,
            max_call_depth,
        } = self.limits;
        let Room { frames, registers } = self.room;
        format!(
            "fuel {fuel}, depth {max_call_depth}, lent {frames} frame words, \
             {registers} register words"
        )
    }

    /// The line that asks `oracle answer` about this image and these limits.
    pub fn line(&self) -> String {
        line(self.image, self.limits)
    }
}

impl Outcome {
    /// Where an outcome is not the one that was expected, if it is not.
    pub fn difference(&self, whose: &str, found: &Self) -> Option<String> {
        if self.answer != found.answer {
            return Some(differing(whose, &self.answer, &found.answer));
        }
        let memory = [
            ("frame", &self.frames, &found.frames),
            ("register", &self.registers, &found.registers),
        ];
        memory.iter().find_map(|(name, expected, found)| {
            let difference = expected.difference(found)?;
            let [expected, found] = difference.words;
            let place = match difference.place {
                Some(place) => format!("{name} word {place}"),
                None => format!("a word around the {name} words"),
            };
            let both = describe(&self.answer);
            Some(format!(
                "differs in {place}\n  expected: {expected:#x}\n  {whose}: {found:#x}\n  \
                 both answer: {both}"
            ))
        })
    }
}

pub fn differing(whose: &str, expected: &Answer, found: &Answer) -> String {
    let (expected, found) = (describe(expected), describe(found));
    format!("differs\n  expected: {expected}\n  {whose}: {found}")
}
