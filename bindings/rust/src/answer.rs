//! What a call of the engine answers, before it is read as one of this crate's types.

/// How many words an answer has.
pub const ANSWER_WORDS: usize = 5;

/// A call's number and all of its words.
#[derive(Clone, Copy, Debug)]
pub struct Answer {
    /// The function that was called.
    pub call: &'static str,
    /// 0, or the number of a refusal.
    pub number: u64,
    /// The answer's values, then zeros.
    pub words: [u64; ANSWER_WORDS],
}

impl Answer {
    /// A word as the type that the engine's header gives it.
    pub fn word<T: Word>(&self, at: usize) -> T {
        T::from_word(self.words[at]).unwrap_or_else(|| self.ruled_out())
    }

    /// Stops the program. A wrong answer would otherwise become part of an event's identifier.
    pub fn ruled_out(&self) -> ! {
        panic!(
            "{} answered {} with {:?}, which its header rules out; see that KNIT_ARCHIVE named the engine's own archive",
            self.call, self.number, self.words
        )
    }
}

/// A type that a word of an answer is read as.
pub trait Word: Copy {
    /// Nothing where no value of the type has this word.
    fn from_word(word: u64) -> Option<Self>;

    fn word(self) -> u64;
}

macro_rules! numbers_are_words {
    ($($number:ty)*) => {
        $(impl Word for $number {
            fn from_word(word: u64) -> Option<Self> {
                word.try_into().ok()
            }

            fn word(self) -> u64 {
                self.into()
            }
        })*
    };
}

numbers_are_words!(u16 u32 u64);

#[cfg(test)]
mod tests {
    use super::*;

    const ANSWER: Answer = Answer {
        call: "knit_execute",
        number: 21,
        words: [1, 2, 3, 65_536, 5],
    };

    #[test]
    fn a_word_is_read_as_its_type() {
        assert_eq!(ANSWER.word::<u16>(2), 3);
        assert_eq!(ANSWER.word::<u32>(3), 65_536);
        assert_eq!(ANSWER.word::<u64>(4), 5);
    }

    #[test]
    #[should_panic(
        expected = "knit_execute answered 21 with [1, 2, 3, 65536, 5], which its header rules out"
    )]
    fn a_word_that_its_type_does_not_have_stops_the_program() {
        ANSWER.word::<u16>(3);
    }
}
