//! Admission: whether a program may run at all.

use core::fmt;

use crate::answer::{Word, ANSWER_WORDS};
use crate::engine;
use crate::Refusal;

/// Five limits that an admitted program keeps to.
///
/// Each must be at least 1 and at most its [highest value](ProfileLimit::highest); [`validate`] refuses a profile that is not so.
#[derive(Clone, Copy, Debug, PartialEq, Eq, Hash)]
pub struct Profile {
    /// Registers of a function.
    pub max_registers: u16,
    /// Functions of the program.
    pub max_functions: u16,
    /// Frames at a time. Only its range is looked at here; a run has a limit of its own.
    pub max_call_depth: u16,
    /// Instructions of a function.
    pub max_instrs_per_function: u32,
    /// Fuel of a run. Only its range is looked at here; a run has a limit of its own.
    pub max_fuel: u64,
}

impl Profile {
    /// The limits that document 01 calls safe.
    pub const SAFE: Self = Self {
        max_registers: 256,
        max_functions: 256,
        max_call_depth: 64,
        max_instrs_per_function: 8_192,
        max_fuel: 1_000_000,
    };
}

impl Default for Profile {
    fn default() -> Self {
        Self::SAFE
    }
}

/// One of a profile's limits.
#[derive(Clone, Copy, Debug, PartialEq, Eq, Hash)]
#[repr(u8)]
pub enum ProfileLimit {
    /// [`Profile::max_registers`]
    MaxRegisters = 1,
    /// [`Profile::max_functions`]
    MaxFunctions = 2,
    /// [`Profile::max_call_depth`]
    MaxCallDepth = 3,
    /// [`Profile::max_instrs_per_function`]
    MaxInstrsPerFunction = 4,
    /// [`Profile::max_fuel`]
    MaxFuel = 5,
}

impl ProfileLimit {
    /// All limits, in the order of the profile.
    pub const ALL: [Self; 5] = [
        Self::MaxRegisters,
        Self::MaxFunctions,
        Self::MaxCallDepth,
        Self::MaxInstrsPerFunction,
        Self::MaxFuel,
    ];

    /// The limit's place in the profile, 1 to 5.
    pub const fn number(self) -> u64 {
        self as u64
    }

    /// The highest value that a profile may give this limit.
    pub const fn highest(self) -> u64 {
        match self {
            Self::MaxRegisters => 16_384,
            Self::MaxFunctions => 4_096,
            Self::MaxCallDepth => 1_024,
            Self::MaxInstrsPerFunction => 1_000_000,
            Self::MaxFuel => 1_000_000_000,
        }
    }
}

impl Word for ProfileLimit {
    fn from_word(word: u64) -> Option<Self> {
        Self::ALL.into_iter().find(|limit| limit.word() == word)
    }

    fn word(self) -> u64 {
        self.number()
    }
}

/// The name of the profile's field.
impl fmt::Display for ProfileLimit {
    fn fmt(&self, f: &mut fmt::Formatter<'_>) -> fmt::Result {
        f.write_str(match self {
            Self::MaxRegisters => "max_registers",
            Self::MaxFunctions => "max_functions",
            Self::MaxCallDepth => "max_call_depth",
            Self::MaxInstrsPerFunction => "max_instrs_per_function",
            Self::MaxFuel => "max_fuel",
        })
    }
}

/// What is wrong with a limit.
#[derive(Clone, Copy, Debug, PartialEq, Eq, Hash)]
#[repr(u8)]
pub enum LimitFault {
    /// It is 0.
    Zero = 0,
    /// It is above its [highest value](ProfileLimit::highest).
    TooHigh = 1,
}

impl LimitFault {
    /// All faults, each at the place of its number.
    pub const ALL: [Self; 2] = [Self::Zero, Self::TooHigh];

    /// 0 or 1, as document 01 has it.
    pub const fn number(self) -> u64 {
        self as u64
    }
}

impl Word for LimitFault {
    fn from_word(word: u64) -> Option<Self> {
        Self::ALL.into_iter().find(|fault| fault.word() == word)
    }

    fn word(self) -> u64 {
        self.number()
    }
}

/// What the limit is, in a sentence that names it.
impl fmt::Display for LimitFault {
    fn fmt(&self, f: &mut fmt::Formatter<'_>) -> fmt::Result {
        f.write_str(match self {
            Self::Zero => "0",
            Self::TooHigh => "too high",
        })
    }
}

/// Says whether the bytes are an image and its program keeps to the profile's limits.
///
/// A program that is admitted never traps [`InvalidRegister`](crate::Trap::InvalidRegister) or
/// [`InvalidFunction`](crate::Trap::InvalidFunction), whatever it is given to run with.
///
/// ```
/// use knitcauldron::{validate, Profile, Refusal};
///
/// assert_eq!(validate(&[1, 0, 0], &Profile::SAFE), Err(Refusal::Short));
///
/// // Form 1, entry 0, no functions, no instructions, and where the tables begin and end.
/// let mut empty = [0; 24];
/// empty[0] = 1;
/// for at in [12, 16, 20] {
///     empty[at] = 24;
/// }
/// assert_eq!(validate(&empty, &Profile::SAFE), Err(Refusal::EmptyProgram));
/// ```
///
/// # Errors
///
/// The first fault of the image ([`Short`](Refusal::Short) to [`Instruction`](Refusal::Instruction)), or else of the profile or the
/// program ([`Profile`](Refusal::Profile) to [`InvalidArgWindow`](Refusal::InvalidArgWindow)).
pub fn validate(image: &[u8], profile: &Profile) -> Result<(), Refusal> {
    let answer = engine::validate(image, profile);
    match answer.number {
        0 if answer.words == [0; ANSWER_WORDS] => Ok(()),
        1..=5 | 10..=20 => Err(Refusal::read(&answer)),
        _ => answer.ruled_out(),
    }
}
