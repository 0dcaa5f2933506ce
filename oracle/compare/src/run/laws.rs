//! The theorems of acceptance, looked for in runs: what holds of every answer,
//! whatever the program. They are proved of the engine's definitions; here they
//! are held to what the Rust, the reading and the compiled engine answer alike.

use oracle::reading::Limits;
use oracle::verdict::Answer;
use semantic_core_runtime::CoreTrap;

/// What is known of a run beside its answer.
#[derive(Debug, Clone, Copy)]
pub struct Known {
    pub limits: Limits,
    /// The Rust admits the program, under the widest profile there is.
    pub admitted: bool,
    /// At least as much is lent as document 01 calls enough.
    pub enough: bool,
    /// With enough room it ends where the place is its function's length.
    pub at_length: bool,
}

fn status(trap: CoreTrap) -> u64 {
    1 + u64::from(trap.code())
}

/// Whether a run ended with this trap.
pub fn ends_with(answer: &Answer, trap: CoreTrap) -> bool {
    answer.number == 0 && answer.words[0] == status(trap)
}

/// The law that an answer breaks, if it breaks one.
pub fn broken(known: Known, answer: &Answer) -> Option<&'static str> {
    let used = match answer.number {
        0 => answer.words[3],
        6 | 7 => answer.words[0],
        _ => return None,
    };
    let Limits { fuel, .. } = known.limits;
    let past_its_end = known.admitted && ends_with(answer, CoreTrap::InvalidPc);
    let laws = [
        (used > fuel, "more fuel was used than there was"),
        (
            ends_with(answer, CoreTrap::FuelExceeded) && used < fuel,
            "FuelExceeded, and fuel was left",
        ),
        (
            known.enough && answer.number > 0,
            "enough was lent, and it was refused for room",
        ),
        (
            known.admitted && ends_with(answer, CoreTrap::InvalidRegister),
            "an admitted program met a register that is not there",
        ),
        (
            known.admitted && ends_with(answer, CoreTrap::InvalidFunction),
            "an admitted program met a function that is not there",
        ),
        (
            past_its_end && used == 0,
            "an admitted program was past its end before it began",
        ),
        (
            past_its_end && !known.at_length,
            "an admitted program was farther than its end",
        ),
    ];
    laws.into_iter()
        .find_map(|(broken, law)| broken.then_some(law))
}

#[cfg(test)]
mod tests {
    use super::*;

    const KNOWN: Known = Known {
        limits: Limits {
            fuel: 9,
            max_call_depth: 2,
        },
        admitted: true,
        enough: true,
        at_length: true,
    };

    fn trapped(trap: CoreTrap, used: u64) -> Answer {
        Answer::new(0, &[status(trap), 0, 0, used])
    }

    #[test]
    fn each_law_is_looked_at() {
        let cases = [
            (Answer::new(0, &[0, 0, 0, 10]), "more fuel"),
            (Answer::new(6, &[10]), "more fuel"),
            (trapped(CoreTrap::FuelExceeded, 8), "FuelExceeded"),
            (Answer::new(6, &[3]), "enough was lent"),
            (Answer::new(7, &[3]), "enough was lent"),
            (
                trapped(CoreTrap::InvalidRegister, 3),
                "an admitted program met a register",
            ),
            (
                trapped(CoreTrap::InvalidFunction, 3),
                "an admitted program met a function",
            ),
            (
                trapped(CoreTrap::InvalidPc, 0),
                "an admitted program was past its end",
            ),
        ];
        for (answer, law) in cases {
            let found = broken(KNOWN, &answer);
            assert!(
                found.is_some_and(|text| text.starts_with(law)),
                "{answer}: {found:?}"
            );
        }
    }

    #[test]
    fn what_keeps_the_laws_is_let_through() {
        let kept = [
            Answer::new(0, &[0, 3, 5, 9]),
            trapped(CoreTrap::FuelExceeded, 9),
            trapped(CoreTrap::InvalidPc, 1),
            trapped(CoreTrap::CallDepthExceeded, 4),
            Answer::new(5, &[70]),
        ];
        for answer in kept {
            assert_eq!(broken(KNOWN, &answer), None, "{answer}");
        }
    }

    #[test]
    fn the_place_is_looked_at() {
        let known = Known {
            at_length: false,
            ..KNOWN
        };
        let found = broken(known, &trapped(CoreTrap::InvalidPc, 3));
        assert_eq!(found, Some("an admitted program was farther than its end"));
        assert_eq!(broken(known, &trapped(CoreTrap::AssertFailed, 3)), None);
    }

    /// Without admission or enough room the same answers are right.
    #[test]
    fn the_laws_ask_for_what_they_rest_on() {
        let known = Known {
            admitted: false,
            enough: false,
            at_length: false,
            ..KNOWN
        };
        let kept = [
            Answer::new(6, &[0]),
            Answer::new(7, &[9]),
            trapped(CoreTrap::InvalidRegister, 1),
            trapped(CoreTrap::InvalidFunction, 0),
            trapped(CoreTrap::InvalidPc, 0),
        ];
        for answer in kept {
            assert_eq!(broken(known, &answer), None, "{answer}");
        }
    }
}
