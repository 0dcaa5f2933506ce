//! Why a call was refused.

use core::fmt;

use crate::answer::{Answer, Word, ANSWER_WORDS};
use crate::{LimitFault, ProfileLimit};

/// The values of an answer, read one after the other.
struct Values<'a> {
    answer: &'a Answer,
    at: usize,
}

impl Values<'_> {
    fn next<T: Word>(&mut self) -> T {
        self.at += 1;
        self.answer.word(self.at - 1)
    }
}

fn padded(values: &[u64]) -> [u64; ANSWER_WORDS] {
    let mut words = [0; ANSWER_WORDS];
    words[..values.len()].copy_from_slice(values);
    words
}

/// Makes [`Refusal`] of one table: number, name, fields in the answer's order, and the text, which may use fields and further
/// names.
macro_rules! refusals {
    ($(
        $(#[$meaning:meta])*
        $number:literal $name:ident $({ $($(#[$note:meta])* $field:ident: $type:ty),* })?
            => $text:literal $(, $more:ident = $value:expr)*;
    )*) => {
        /// Why a call was refused: document 01's table, with the fields that each refusal answers with.
        ///
        /// Functions and instructions are numbered from 0, an instruction by its place in the image's whole instruction table. The
        /// text, by [`Display`](fmt::Display), says in one line what is wrong and what to do.
        ///
        /// ```
        /// use knitcauldron::Refusal;
        ///
        /// let refusal = Refusal::InvalidJump { function: 2, target: 9 };
        /// assert_eq!(refusal.number(), 17);
        /// assert_eq!(refusal.to_string(), "function 2 jumps to place 9, past its end; jump to one of its instructions");
        /// ```
        #[derive(Clone, Copy, Debug, PartialEq, Eq, Hash)]
        #[non_exhaustive]
        pub enum Refusal {
            $($(#[$meaning])* $name $({ $($(#[$note])* $field: $type),* })?,)*
        }

        impl Refusal {
            /// The refusal's number in document 01.
            pub const fn number(&self) -> u64 {
                match self {
                    $(Self::$name { .. } => $number,)*
                }
            }

            /// The refusal's name in document 01.
            pub const fn name(&self) -> &'static str {
                match self {
                    $(Self::$name { .. } => stringify!($name),)*
                }
            }

            /// The words that the engine answered: the fields in their order, then zeros.
            pub fn words(&self) -> [u64; ANSWER_WORDS] {
                match *self {
                    $(Self::$name { $($($field),*)? } => padded(&[$($($field.word()),*)?]),)*
                }
            }

            /// Reads a refusal and sees that nothing else is in the answer.
            pub(crate) fn read(answer: &Answer) -> Self {
                let mut values = Values { answer, at: 0 };
                let refusal = match answer.number {
                    $($number => Self::$name { $($($field: values.next()),*)? },)*
                    _ => answer.ruled_out(),
                };
                if refusal.words() != answer.words {
                    answer.ruled_out();
                }
                refusal
            }
        }

        impl fmt::Display for Refusal {
            fn fmt(&self, f: &mut fmt::Formatter<'_>) -> fmt::Result {
                match *self {
                    $(Self::$name { $($($field),*)? } => write!(f, $text $(, $more = $value)*),)*
                }
            }
        }
    };
}

refusals! {
    /// The image has under 24 bytes.
    1 Short => "the image is shorter than its header of 24 bytes; see that the whole file was read";

    /// The image's form number is not 1.
    2 Form => "the image's form number is not 1; have the rules compiled to form 1";

    /// An offset or a length in the image's header differs from what its counts demand.
    3 Layout => "an offset or a length in the image's header differs from what its counts demand; \
        see that the file is whole and unchanged";

    /// A function record is wrong.
    4 FunctionTable {
        /// The function, or the number of functions if only the sum of their counts fails.
        function: u32
    } => "the function table is wrong at function {function}: the field that must be 0, the first instruction, or at its end the \
        sum of the counts; have the rules compiled again";

    /// An instruction record is wrong.
    5 Instruction {
        /// The instruction.
        instruction: u32
    } => "instruction {instruction} has an unknown opcode, a value out of range, or something in a field that must be 0; \
        have the rules compiled again";

    /// A frame would begin and no record is left for it.
    6 FrameRoom {
        /// Fuel used up to there, 0 for the entry's frame.
        fuel_used: u64
    } => "no record was left for a frame after {fuel_used} units of fuel; \
        lend four words for each frame, for max_call_depth frames and at least one";

    /// A frame would begin and too few words are left for its registers.
    7 RegisterRoom {
        /// Fuel used up to there, 0 for the entry's frame.
        fuel_used: u64
    } => "too few words were left for a frame's registers after {fuel_used} units of fuel; \
        lend each frame as many as the largest function has registers";

    /// Under 25 bytes were lent for an identifier.
    9 IdRoom => "fewer than 25 bytes were lent for an event identifier; lend 25";

    /// A limit of the profile is out of range.
    10 Profile {
        /// What is wrong with it.
        fault: LimitFault,
        /// Which one it is.
        limit: ProfileLimit
    } => "the profile's {limit} is {fault}; set it to a number from 1 to {highest}", highest = limit.highest();

    /// The program has no function.
    11 EmptyProgram => "the program has no function; compile at least one rule into it";

    /// The entry function does not exist.
    12 InvalidEntry {
        /// The entry.
        entry: u16
    } => "the entry function {entry} does not exist; name one of the program's functions as the entry";

    /// The program has more functions than the profile allows.
    13 TooManyFunctions {
        /// How many there are.
        functions: u32,
        /// How many the profile allows.
        limit: u16
    } => "the program has {functions} functions and the profile allows {limit}; use fewer, or raise max_functions";

    /// A function has more registers than the profile allows.
    14 TooManyRegisters {
        /// The function.
        function: u16,
        /// How many it has.
        registers: u16,
        /// How many the profile allows.
        limit: u16
    } => "function {function} has {registers} registers and the profile allows {limit}; use fewer, or raise max_registers";

    /// A function has more instructions than the profile allows.
    15 TooManyInstructions {
        /// The function.
        function: u16,
        /// How many it has.
        instructions: u32,
        /// How many the profile allows.
        limit: u32
    } => "function {function} has {instructions} instructions and the profile allows {limit}; \
        use fewer, or raise max_instrs_per_function";

    /// A function names a register that it does not have.
    16 InvalidRegister {
        /// The function.
        function: u16,
        /// The register.
        register: u16
    } => "function {function} names register {register}, which it does not have; name another one or give it more";

    /// A function jumps past its end.
    17 InvalidJump {
        /// The function.
        function: u16,
        /// The place it jumps to.
        target: u32
    } => "function {function} jumps to place {target}, past its end; jump to one of its instructions";

    /// A function calls one that does not exist.
    18 InvalidCall {
        /// The function.
        function: u16,
        /// The function that it calls.
        called: u16
    } => "function {function} calls function {called}, which does not exist; call one of the program's functions";

    /// A function has no Ret.
    19 MissingReturn {
        /// The function.
        function: u16
    } => "function {function} has no Ret; end it with one";

    /// A Call's arguments lie past the caller's registers, or are more than the called function has.
    20 InvalidArgWindow {
        /// The function that calls.
        function: u16,
        /// Its register with the first argument.
        arg_base: u16,
        /// How many arguments there are.
        arg_count: u16
    } => "function {function} passes {arg_count} arguments from register {arg_base} on, past its own registers or more than the \
        called function has; pass fewer or give the functions more registers";
}

impl core::error::Error for Refusal {}

#[cfg(test)]
mod tests {
    use super::*;

    const fn answer(number: u64, words: [u64; ANSWER_WORDS]) -> Answer {
        Answer {
            call: "knit_validate",
            number,
            words,
        }
    }

    #[test]
    fn every_number_is_read_and_gives_its_words_back() {
        for number in (1..=7).chain(9..=20) {
            let fields = match number {
                1..=3 | 9 | 11 => 0,
                4..=7 | 12 | 19 => 1,
                10 | 13 | 16..=18 => 2,
                _ => 3,
            };
            let mut words = [0; ANSWER_WORDS];
            words[..fields].fill(1);
            let refusal = Refusal::read(&answer(number, words));
            assert_eq!((refusal.number(), refusal.words()), (number, words));
        }
    }

    #[test]
    #[should_panic(expected = "knit_validate answered 8 with")]
    fn a_number_that_is_no_refusal_stops_the_program() {
        Refusal::read(&answer(8, [0; ANSWER_WORDS]));
    }

    #[test]
    #[should_panic(expected = "which its header rules out")]
    fn a_word_too_many_stops_the_program() {
        Refusal::read(&answer(19, [0, 1, 0, 0, 0]));
    }

    #[test]
    #[should_panic(expected = "which its header rules out")]
    fn a_limit_that_no_profile_has_stops_the_program() {
        Refusal::read(&answer(10, [0, 6, 0, 0, 0]));
    }

    #[test]
    #[should_panic(expected = "which its header rules out")]
    fn a_function_number_past_its_type_stops_the_program() {
        Refusal::read(&answer(19, [65_536, 0, 0, 0, 0]));
    }
}
