//! Generated cases: programs to run, limits, and how much memory is lent, all
//! drawn from the seed.

use oracle::generate;
use oracle::image;
use oracle::measure::{enough, Measure, Room, Scratch};
use oracle::random::SplitMix64;
use oracle::reading::{Limits, RECORD};
use oracle::run::of_program;
use oracle::verdict::{self, Answer};
use semantic_core_exec::CoreProgram;
use semantic_core_runtime::CoreTrap;

use super::ask::{Ask, Question};
use super::laws::Known;

/// Registers times fuel is kept below this, since each Call may clear as many.
const MOST_WORDS: u64 = 1 << 22;
/// The room that document 01 calls enough is lent where it is no more.
const MOST_LENT: usize = 4_096;

/// A program, and what is asked about it.
pub struct Case {
    pub image: Vec<u8>,
    pub settings: Vec<Setting>,
    /// The Rust admits it, under the widest profile there is.
    admitted: bool,
    /// The most registers that one of its functions has.
    largest: u16,
}

/// Limits, how the run ends with enough room, and the rooms to lend.
pub struct Setting {
    pub limits: Limits,
    /// The Rust's answer, or the image's fault.
    pub rust: Answer,
    /// The reading's.
    pub measure: Measure,
    pub rooms: Vec<Room>,
}

impl Case {
    /// The case of this number. Seed and number are all it hangs on: what
    /// stands in the scratch does not matter.
    pub fn new(seed: u64, number: u64, scratch: &mut Scratch) -> Self {
        let asked = About::new(generate::image(seed, number));
        // Other numbers than those the program was made from.
        let mut random = SplitMix64::for_case(!seed, number);
        let settings = (0..2).map(|_| {
            let limits = limits(&mut random, asked.largest, |limits| asked.rust(limits));
            let (rust, measure) = asked.measured(limits, scratch);
            let rooms = rooms(&mut random, limits, asked.largest, measure.used);
            Setting {
                limits,
                rust,
                measure,
                rooms,
            }
        });
        let settings = settings.collect();
        asked.case(settings)
    }

    /// The case of one question; nothing if its run has no end of its own that
    /// is near enough. Fuel of any size may be asked for, and what ended in a
    /// larger program may go on for ever in a smaller one.
    pub fn of_question(question: &Question, scratch: &mut Scratch) -> Option<Self> {
        let asked = About::new(question.image.clone());
        let limits = question.limits;
        let most = most_fuel(asked.largest);
        let near = Limits {
            fuel: most,
            ..limits
        };
        if limits.fuel > most && out_of_fuel(&asked.rust(near)) {
            return None;
        }
        let (rust, measure) = asked.measured(limits, scratch);
        let rooms = vec![question.room];
        Some(asked.case(vec![Setting {
            limits,
            rust,
            measure,
            rooms,
        }]))
    }

    /// What is known of a run beside its answer.
    pub fn known(&self, setting: &Setting, ask: &Ask) -> Known {
        let needed = enough(ask.limits.max_call_depth, u64::MAX, self.largest);
        let Room { frames, registers } = ask.room;
        Known {
            limits: ask.limits,
            admitted: self.admitted,
            enough: frames >= needed.frames && registers >= needed.registers,
            at_length: setting.measure.at_length,
        }
    }

    /// All that is asked, in order, with the setting that each belongs to.
    pub fn asks(&self, number: u64) -> impl Iterator<Item = (&Setting, Ask<'_>)> {
        let rooms = self
            .settings
            .iter()
            .flat_map(|setting| setting.rooms.iter().map(move |room| (setting, *room)));
        rooms.zip(number..).map(|((setting, room), salt)| {
            let ask = Ask {
                image: &self.image,
                limits: setting.limits,
                room,
                salt,
            };
            (setting, ask)
        })
    }
}

/// An image, and what the Rust makes of it.
struct About {
    image: Vec<u8>,
    program: Result<CoreProgram, image::Fault>,
    largest: u16,
}

impl About {
    fn new(image: Vec<u8>) -> Self {
        let program = image::read(&image);
        let functions = program.iter().flat_map(|program| &program.functions);
        let largest = functions.map(|f| f.regs).max().unwrap_or(0);
        Self {
            image,
            program,
            largest,
        }
    }

    /// The Rust's answer, or the image's fault.
    fn rust(&self, limits: Limits) -> Answer {
        match &self.program {
            Ok(program) => of_program(program, limits.fuel, limits.max_call_depth),
            Err(fault) => (*fault).into(),
        }
    }

    /// How a run ends with enough room, by the Rust and by the reading.
    fn measured(&self, limits: Limits, scratch: &mut Scratch) -> (Answer, Measure) {
        let rust = self.rust(limits);
        let measure = scratch.measure(&self.image, limits, used(&rust));
        (rust, measure)
    }

    fn case(self, settings: Vec<Setting>) -> Case {
        let admitted = verdict::of_image(&self.image, generate::BOUNDS).number == 0;
        Case {
            image: self.image,
            settings,
            admitted,
            largest: self.largest,
        }
    }
}

impl Setting {
    /// Whether the run is lent no word that it does not use.
    pub fn is_just_enough(&self, room: Room) -> bool {
        self.measure.deepest > 0 && room == self.measure.used
    }

    /// Whether the run comes to its own end with not a unit to spare.
    pub fn fuel_is_just_enough(&self) -> bool {
        let ended = self.rust.number == 0 && !out_of_fuel(&self.rust);
        ended && used(&self.rust) == self.limits.fuel
    }
}

/// The fuel that a run used; 0 for an image that is none.
fn used(answer: &Answer) -> u64 {
    answer.words[3]
}

fn out_of_fuel(answer: &Answer) -> bool {
    let status = 1 + u64::from(CoreTrap::FuelExceeded.code());
    answer.number == 0 && answer.words[0] == status
}

fn limits(random: &mut SplitMix64, largest: u16, rust: impl Fn(Limits) -> Answer) -> Limits {
    let some = random.between(3, 12) as u16;
    let low = random.one_of([0, 1, 2, some]);
    let max_call_depth = random.one_of([low, some, 64, 64, 65_535]);
    let most = most_fuel(largest);
    let run = |fuel| {
        rust(Limits {
            fuel,
            max_call_depth,
        })
    };
    Limits {
        fuel: fuel(random, most, run),
        max_call_depth,
    }
}

/// As much as a run may have that need not come to its own end.
fn most_fuel(largest: u16) -> u64 {
    MOST_WORDS / (1 + u64::from(largest))
}

/// None, little, plenty, or by what the run uses if it has plenty: just as
/// much, one less or more, or as much as 32 or 64 bits can hold.
fn fuel(random: &mut SplitMix64, most: u64, run: impl Fn(u64) -> Answer) -> u64 {
    let plenty = match random.once_in(64) {
        true => 20_000,
        false => random.between(100, 3_000),
    };
    let plenty = plenty.min(most);
    let choice = random.below(16);
    match choice {
        0 => return 0,
        1 => return 1,
        2 | 3 => return random.between(2, 20).min(most),
        4..=7 => return plenty,
        _ => {}
    }
    let answer = run(plenty);
    let used = used(&answer);
    match choice {
        8..=10 => used,
        11 | 12 => used.saturating_sub(1),
        13 => used + 1,
        // One that has no end of its own would take as long.
        _ if out_of_fuel(&answer) => plenty,
        _ => random.one_of([u32::MAX.into(), 1 << 32, 1 << 63, u64::MAX]),
    }
}

/// One room or two.
fn rooms(random: &mut SplitMix64, limits: Limits, largest: u16, used: Room) -> Vec<Room> {
    let count = random.between(1, 2);
    (0..count)
        .map(|_| room(random, limits, largest, used))
        .collect()
}

/// Just what the run needs, more, one record or one word less, nothing, or
/// anything up to what it needs. One to three frame words more are no record.
/// A run of one frame would be refused right at its entry with less than it
/// needs, so those get less more seldom.
fn room(random: &mut SplitMix64, limits: Limits, largest: u16, used: Room) -> Room {
    let Room { frames, registers } = used;
    let left_over = random.between(1, 3) as usize;
    let some_frames = random.index(frames + RECORD);
    let some_registers = random.index(registers + 1);
    let choices = if frames > RECORD { 20 } else { 60 };
    let (frames, registers) = match random.below(choices) {
        0 => (frames.saturating_sub(RECORD), registers),
        1 => (frames.saturating_sub(RECORD) + left_over, registers + 1),
        2 | 3 => (frames, registers.saturating_sub(1)),
        4 => (0, random.one_of([0, registers])),
        5 => (frames, 0),
        6 | 7 => (some_frames, some_registers),
        8 | 9 => (some_frames, registers),
        10 | 11 => (frames + left_over, some_registers),
        12 | 13 => (frames + left_over, registers),
        14 | 15 => return by_document(limits, largest).unwrap_or(used),
        16 | 17 => (frames + random.index(24), registers + random.index(40)),
        _ => (frames, registers),
    };
    Room { frames, registers }
}

/// What document 01 calls enough for any run, where it is not too much.
fn by_document(limits: Limits, largest: u16) -> Option<Room> {
    let room = enough(limits.max_call_depth, u64::MAX, largest);
    (room.frames + room.registers <= MOST_LENT).then_some(room)
}
