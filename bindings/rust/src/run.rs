//! Running a program.

use core::fmt;

use crate::answer::Answer;
use crate::engine;
use crate::{Profile, Refusal, Room, Value};

/// What a run may use.
#[derive(Clone, Copy, Debug, PartialEq, Eq, Hash)]
pub struct Limits {
    /// How many instructions may begin.
    pub fuel: u64,
    /// How many frames there may be at a time, the entry's among them. The entry's begins at 0 as well.
    pub max_call_depth: u16,
}

impl Limits {
    /// Document 01's default configuration: those of the safe profile.
    pub const DEFAULT: Self = Self {
        fuel: Profile::SAFE.max_fuel,
        max_call_depth: Profile::SAFE.max_call_depth,
    };
}

impl Default for Limits {
    fn default() -> Self {
        Self::DEFAULT
    }
}

/// What came of a run.
#[derive(Clone, Copy, Debug, PartialEq, Eq, Hash)]
pub struct Run {
    /// How it ended.
    pub status: Status,
    /// What it gave back; [`Value::Unit`] if it trapped.
    pub value: Value,
    /// How many instructions it began.
    pub fuel_used: u64,
    /// What stands for all of this in an event's identifier.
    pub digest: u64,
}

impl Run {
    /// The value that was returned, or else the trap.
    pub const fn returned(&self) -> Result<Value, Trap> {
        match self.status {
            Status::Returned => Ok(self.value),
            Status::Trapped(trap) => Err(trap),
        }
    }
}

/// How a run ended. A trap is a result and no refusal: it has a fuel count and a digest too.
#[derive(Clone, Copy, Debug, PartialEq, Eq, Hash)]
pub enum Status {
    /// The entry function returned.
    Returned,
    /// An instruction could not act.
    Trapped(Trap),
}

impl Status {
    /// The digest's first word: 0, or 1 + the trap's code.
    pub const fn number(self) -> u64 {
        match self {
            Self::Returned => 0,
            Self::Trapped(trap) => 1 + trap.code() as u64,
        }
    }

    /// The status of a number; nothing where none has it.
    pub fn from_number(number: u64) -> Option<Self> {
        match number.checked_sub(1) {
            None => Some(Self::Returned),
            Some(code) => {
                let trap = Trap::ALL.get(usize::try_from(code).ok()?)?;
                Some(Self::Trapped(*trap))
            }
        }
    }
}

impl fmt::Display for Status {
    fn fmt(&self, f: &mut fmt::Formatter<'_>) -> fmt::Result {
        match self {
            Self::Returned => f.write_str("returned"),
            Self::Trapped(trap) => write!(f, "trapped, {trap}"),
        }
    }
}

/// Why an instruction could not act.
#[derive(Clone, Copy, Debug, PartialEq, Eq, Hash)]
#[repr(u8)]
pub enum Trap {
    /// The place is at or past the function's end. This round charges nothing.
    InvalidPc = 0,
    /// A register that its function doesn't have, an argument's too.
    InvalidRegister = 1,
    /// A register holds a value of another kind than the instruction takes.
    TypeMismatch = 2,
    /// The divisor is 0.
    DivisionByZero = 3,
    /// The result is outside its type, for [`Fx`](crate::Fx) too.
    IntegerOverflow = 4,
    /// The limit is used up and the program not at its end. Fuel used is the whole limit.
    FuelExceeded = 5,
    /// A Call with as many frames as the limit allows.
    CallDepthExceeded = 6,
    /// The entry, or a called function, doesn't exist.
    InvalidFunction = 7,
    /// The condition of an Assert is false.
    AssertFailed = 8,
    /// The instruction is a Trap.
    ExplicitTrap = 9,
}

impl Trap {
    /// All traps, each at the place of its code.
    pub const ALL: [Self; 10] = [
        Self::InvalidPc,
        Self::InvalidRegister,
        Self::TypeMismatch,
        Self::DivisionByZero,
        Self::IntegerOverflow,
        Self::FuelExceeded,
        Self::CallDepthExceeded,
        Self::InvalidFunction,
        Self::AssertFailed,
        Self::ExplicitTrap,
    ];

    /// The trap's code, 0 to 9.
    pub const fn code(self) -> u8 {
        self as u8
    }
}

impl fmt::Display for Trap {
    fn fmt(&self, f: &mut fmt::Formatter<'_>) -> fmt::Result {
        f.write_str(match self {
            Self::InvalidPc => "the place is past the function's end",
            Self::InvalidRegister => "a register that the function does not have",
            Self::TypeMismatch => "a value of another kind than the instruction takes",
            Self::DivisionByZero => "a division by zero",
            Self::IntegerOverflow => "a result outside its type",
            Self::FuelExceeded => "the fuel is used up",
            Self::CallDepthExceeded => "too many frames at a time",
            Self::InvalidFunction => "a function that does not exist",
            Self::AssertFailed => "an Assert that is false",
            Self::ExplicitTrap => "a Trap instruction",
        })
    }
}

impl core::error::Error for Trap {}

/// Runs the image's entry function in lent memory.
///
/// The program need not be admitted: one that breaks the rules traps when it comes to that. No profile is read; only the two limits
/// count.
///
/// ```
/// use knitcauldron::{execute, Frame, Limits, Refusal, Room, Status, Value};
/// # let image = [
/// #     1, 0, 0, 0, 1, 0, 0, 0, 2, 0, 0, 0, 24, 0, 0, 0, 40, 0, 0, 0, 64, 0, 0, 0, 7, 0, 0, 0, 1, 0, 0, 0,
/// #     0, 0, 0, 0, 2, 0, 0, 0, 6, 0, 0, 0, 0, 0, 0, 0, 255, 255, 255, 255, 55, 0, 0, 0, 0, 0, 0, 0, 0, 0, 0, 0,
/// # ];
///
/// // `image` loads -1 into register 0 and returns it.
/// let (mut frames, mut registers) = ([0; 4], [0; 1]);
/// let mut room = Room { frame_words: &mut frames, register_words: &mut registers };
/// let run = execute(&image, Limits::DEFAULT, &mut room)?;
/// assert_eq!(run.returned(), Ok(Value::I32(-1)));
///
/// // What it left in the memory: its frame at the place of the Ret, and its register.
/// let entry = Frame { function: 0, place: 1, return_register: 0, first_register: 0 };
/// assert_eq!(room.frames().next(), Some(entry));
/// assert_eq!(Value::from_word(room.register_words[0]), Some(Value::I32(-1)));
///
/// let mut none = Room { frame_words: &mut [], register_words: &mut [] };
/// assert_eq!(execute(&image, Limits::DEFAULT, &mut none), Err(Refusal::FrameRoom { fuel_used: 0 }));
/// # Ok::<(), Refusal>(())
/// ```
///
/// # Errors
///
/// The first fault of the image ([`Short`](Refusal::Short) to [`Instruction`](Refusal::Instruction)), and then the room is as it
/// was; or [`FrameRoom`](Refusal::FrameRoom) or [`RegisterRoom`](Refusal::RegisterRoom) if a frame would begin and the room can't
/// hold it, and then it holds the state before that. With [`enough_room`](crate::enough_room) those two never come.
pub fn execute(image: &[u8], limits: Limits, room: &mut Room<'_>) -> Result<Run, Refusal> {
    let answer = engine::execute(image, limits, room);
    match answer.number {
        0 => Ok(read_run(&answer)),
        1..=7 => Err(Refusal::read(&answer)),
        _ => answer.ruled_out(),
    }
}

fn read_run(answer: &Answer) -> Run {
    let [status, kind, payload, fuel_used, digest] = answer.words;
    match (
        Status::from_number(status),
        Value::from_parts(kind, payload),
    ) {
        (Some(status), Some(value)) if status == Status::Returned || value == Value::Unit => Run {
            status,
            value,
            fuel_used,
            digest,
        },
        _ => answer.ruled_out(),
    }
}

/// The digest of a run's words: [`Status::number`], [`Value::kind`], [`Value::payload`] and the fuel used.
///
/// A [`Run`] has its digest; this is for words that came from elsewhere, and takes any.
///
/// ```
/// use knitcauldron::{digest, Status, Value};
///
/// let (status, value) = (Status::Returned, Value::I32(-1));
/// assert_eq!(digest(status.number(), value.kind(), value.payload(), 2), 0x6ffa_4144_d88d_4a53);
/// ```
pub fn digest(status: u64, kind: u64, payload: u64, fuel_used: u64) -> u64 {
    engine::digest(status, kind, payload, fuel_used)
}

#[cfg(test)]
mod tests {
    use super::*;

    fn read(status: u64, kind: u64, payload: u64) -> Run {
        read_run(&Answer {
            call: "knit_execute",
            number: 0,
            words: [status, kind, payload, 7, 9],
        })
    }

    #[test]
    fn words_are_read_as_a_run() {
        let run = Run {
            status: Status::Returned,
            value: Value::U32(5),
            fuel_used: 7,
            digest: 9,
        };
        assert_eq!(read(0, 4, 5), run);
        assert_eq!(read(10, 0, 0).returned(), Err(Trap::ExplicitTrap));
    }

    #[test]
    #[should_panic(expected = "knit_execute answered 0 with [11, 0, 0, 7, 9]")]
    fn a_status_that_none_has_stops_the_program() {
        read(11, 0, 0);
    }

    #[test]
    #[should_panic(expected = "which its header rules out")]
    fn a_payload_that_its_kind_does_not_have_stops_the_program() {
        read(0, 2, 2);
    }

    #[test]
    #[should_panic(expected = "which its header rules out")]
    fn a_trap_with_a_value_stops_the_program() {
        read(4, 3, 1);
    }
}
