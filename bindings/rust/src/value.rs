//! Values of registers and results.

use core::fmt;

/// What a register holds or a run gives back.
///
/// ```
/// use knitcauldron::{Fx, Value};
///
/// assert_eq!(Value::from_parts(3, 0xffff_ffff), Some(Value::I32(-1)));
/// assert_eq!(Value::from_word(5 << 32 | 0x0001_8000), Some(Value::Fx(Fx::from_raw(98_304))));
/// assert_eq!(Value::from_word(5 << 32 | 0x0001_8000).unwrap().to_string(), "Fx 1.5");
/// assert_eq!(Value::from_parts(2, 2), None); // a Bool is 0 or 1
/// ```
#[derive(Clone, Copy, Debug, PartialEq, Eq, Hash)]
pub enum Value {
    /// Nothing: registers begin so, and a trap gives it.
    Unit,
    /// One of four states.
    Quad(Quad),
    /// A truth value.
    Bool(bool),
    /// A signed number.
    I32(i32),
    /// An unsigned number.
    U32(u32),
    /// A number with a fraction.
    Fx(Fx),
    /// A reference that no instruction makes.
    Tuple(u32),
    /// A reference that no instruction makes.
    Record(u32),
    /// A reference that no instruction makes.
    Adt(u32),
}

impl Value {
    /// The value of a kind and a payload, as a run's answer has them; nothing where no value has these.
    pub fn from_parts(kind: u64, payload: u64) -> Option<Self> {
        let payload = u32::try_from(payload).ok()?;
        Some(match kind {
            0 if payload == 0 => Self::Unit,
            1 => Self::Quad(Quad::from_bits(payload)?),
            2 if payload < 2 => Self::Bool(payload == 1),
            3 => Self::I32(payload as i32),
            4 => Self::U32(payload),
            5 => Self::Fx(Fx::from_raw(payload as i32)),
            6 => Self::Tuple(payload),
            7 => Self::Record(payload),
            8 => Self::Adt(payload),
            _ => return None,
        })
    }

    /// The value of a register's word; nothing where no value has it, as in words that a run never reached.
    pub fn from_word(word: u64) -> Option<Self> {
        Self::from_parts(word >> 32, word & 0xffff_ffff)
    }

    /// The kind's number: the digest's second word.
    pub const fn kind(self) -> u64 {
        match self {
            Self::Unit => 0,
            Self::Quad(_) => 1,
            Self::Bool(_) => 2,
            Self::I32(_) => 3,
            Self::U32(_) => 4,
            Self::Fx(_) => 5,
            Self::Tuple(_) => 6,
            Self::Record(_) => 7,
            Self::Adt(_) => 8,
        }
    }

    /// What the value is within its kind, in 32 bits: the digest's third word. Signed numbers are in two's complement.
    pub const fn payload(self) -> u64 {
        match self {
            Self::Unit => 0,
            Self::Quad(quad) => quad as u64,
            Self::Bool(truth) => truth as u64,
            Self::I32(number) => number as u32 as u64,
            Self::Fx(number) => number.raw() as u32 as u64,
            Self::U32(number) | Self::Tuple(number) | Self::Record(number) | Self::Adt(number) => {
                number as u64
            }
        }
    }

    /// The word of a register that holds this value.
    pub const fn word(self) -> u64 {
        self.kind() << 32 | self.payload()
    }
}

/// The kind's name, and after a space what the value is.
impl fmt::Display for Value {
    fn fmt(&self, f: &mut fmt::Formatter<'_>) -> fmt::Result {
        match self {
            Self::Unit => f.write_str("Unit"),
            Self::Quad(quad) => write!(f, "Quad {quad}"),
            Self::Bool(truth) => write!(f, "Bool {truth}"),
            Self::I32(number) => write!(f, "I32 {number}"),
            Self::U32(number) => write!(f, "U32 {number}"),
            Self::Fx(number) => write!(f, "Fx {number}"),
            Self::Tuple(number) => write!(f, "Tuple {number}"),
            Self::Record(number) => write!(f, "Record {number}"),
            Self::Adt(number) => write!(f, "Adt {number}"),
        }
    }
}

/// A state of knowledge: bit 0 says that something is held false, bit 1 that it is held true.
#[derive(Clone, Copy, Debug, PartialEq, Eq, Hash)]
#[repr(u8)]
pub enum Quad {
    /// Neither.
    N = 0,
    /// False.
    F = 1,
    /// True.
    T = 2,
    /// Both.
    S = 3,
}

impl Quad {
    /// All states, each at the place of its number.
    pub const ALL: [Self; 4] = [Self::N, Self::F, Self::T, Self::S];

    fn from_bits(bits: u32) -> Option<Self> {
        Self::ALL.get(usize::try_from(bits).ok()?).copied()
    }
}

/// The state's letter.
impl fmt::Display for Quad {
    fn fmt(&self, f: &mut fmt::Formatter<'_>) -> fmt::Result {
        fmt::Debug::fmt(self, f)
    }
}

/// A number of 65,536ths.
#[derive(Clone, Copy, Debug, PartialEq, Eq, Hash, PartialOrd, Ord)]
pub struct Fx {
    raw: i32,
}

impl Fx {
    /// The number `raw` / 65,536.
    pub const fn from_raw(raw: i32) -> Self {
        Self { raw }
    }

    /// How many 65,536ths it is.
    pub const fn raw(self) -> i32 {
        self.raw
    }
}

/// The exact decimal number, with as many digits as it needs and at least one after the point.
impl fmt::Display for Fx {
    fn fmt(&self, f: &mut fmt::Formatter<'_>) -> fmt::Result {
        // 1 / 65,536 is 5^16 / 10^16, so that sixteen digits are always enough.
        const DIGITS: usize = 16;
        const UNIT: u64 = 5u64.pow(16);
        let sign = if self.raw < 0 { "-" } else { "" };
        let whole = self.raw.unsigned_abs() >> 16;
        let mut fraction = u64::from(self.raw.unsigned_abs() & 0xffff) * UNIT;
        let mut digits = DIGITS;
        while digits > 1 && fraction % 10 == 0 {
            fraction /= 10;
            digits -= 1;
        }
        write!(f, "{sign}{whole}.{fraction:0digits$}")
    }
}
