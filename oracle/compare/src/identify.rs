//! `compare identify`: event identifiers by document 01's rule and by our
//! engine, with what each call leaves in lent memory.

use std::fmt;
use std::io::{self, Write};

use oracle::random::SplitMix64;

use crate::lent::{LentBytes, LentWords};
use crate::plan::Plan;
use crate::progress::Progress;
use crate::shrink::shrink;

/// An engine to compare with: lesson, digest, bytes to write to, room for the
/// answer's words; it gives the answer's number.
pub type Engine = fn(u32, u64, &mut [u8], &mut [u64; 5]) -> u64;

/// The bytes of an identifier.
const BYTES: usize = 25;
/// Refusal 9: fewer bytes are lent.
const ID_ROOM: u64 = 9;
/// As many bytes are lent at most.
const MOST_LENT: usize = 40;

/// What is asked. The salt chooses what the lent bytes hold before, and where
/// they begin.
#[derive(Debug, Clone, Copy, PartialEq, Eq)]
pub struct Case {
    pub lesson: u32,
    pub digest: u64,
    pub length: usize,
    pub salt: u64,
}

impl fmt::Display for Case {
    fn fmt(&self, f: &mut fmt::Formatter<'_>) -> fmt::Result {
        let Self {
            lesson,
            digest,
            length,
            ..
        } = self;
        write!(f, "lesson {lesson}, digest {digest}, lent {length} bytes")
    }
}

/// A call's number, its five words, and the lent bytes after it.
struct Outcome {
    number: u64,
    words: [u64; 5],
    out: LentBytes,
}

impl fmt::Display for Outcome {
    fn fmt(&self, f: &mut fmt::Formatter<'_>) -> fmt::Result {
        let [first, second, third, fourth, fifth] = self.words;
        let out = self.out.clone().lent().escape_ascii().to_string();
        write!(
            f,
            "{}, words {first} {second} {third} {fourth} {fifth}, bytes \"{out}\"",
            self.number
        )
    }
}

/// Identifiers written out by hand, with their lesson and digest.
const WORKED: [(u32, u64, &str); 5] = [
    (0, 0, "00000000-0000000000000000"),
    (u32::MAX, u64::MAX, "ffffffff-ffffffffffffffff"),
    (7, 0x6ffa_4144_d88d_4a53, "00000007-6ffa4144d88d4a53"),
    (
        0x89ab_cdef,
        0x123_4567_89ab_cdef,
        "89abcdef-0123456789abcdef",
    ),
    (1 << 31, 1 << 63, "80000000-8000000000000000"),
];

/// Compares the worked identifiers, each with every length. Says whether all
/// were equal.
pub fn compare_worked(engine: Engine, output: &mut impl Write) -> io::Result<bool> {
    for (lesson, digest, text) in WORKED {
        for length in 0..=MOST_LENT {
            let case = Case {
                lesson,
                digest,
                length,
                salt: length as u64,
            };
            if let Some(fault) = fault(engine, case, text) {
                writeln!(output, "worked identifier: {fault}\n{case}")?;
                return Ok(false);
            }
        }
    }
    let (count, lengths) = (WORKED.len(), MOST_LENT + 1);
    writeln!(
        output,
        "compared {count} worked identifiers in {lengths} lengths each: equal"
    )?;
    Ok(true)
}

/// Compares edge numbers in every length, then drawn numbers in one length
/// each, up to the first that differs. Says whether all were equal, and if that
/// is asked for, both answers occurred.
pub fn compare_generated(
    engine: Engine,
    plan: Plan,
    output: &mut impl Write,
    progress: &mut Progress<impl Write>,
) -> io::Result<bool> {
    let mut tally = [("written", 0u64), ("IdRoom", 0)];
    let edges = edges();
    progress.begin("identify", plan.count);
    let drawn = (0..plan.count).map(|number| drawn(plan.seed, number));
    for (number, case) in (0..).zip(edges.iter().copied().chain(drawn)) {
        let done = number - (edges.len() as u64).min(number);
        progress.done(done)?;
        if let Some(fault) = by_rule_fault(engine, case) {
            writeln!(output, "case {number} of seed {}: {fault}", plan.seed)?;
            writeln!(output, "{case}")?;
            report_shrunk(output, engine, case)?;
            return Ok(false);
        }
        tally[usize::from(case.length < BYTES)].1 += 1;
    }
    for (name, count) in tally {
        writeln!(output, "  {name:<26} {count:>10}")?;
    }
    let total: u64 = tally.iter().map(|(_, count)| count).sum();
    writeln!(output, "compared {total} identifiers: equal")?;
    let missing = tally.iter().any(|(_, count)| *count == 0);
    Ok(!missing || !plan.complete)
}

/// Numbers at the ends of their ranges and of their digits.
fn edges() -> Vec<Case> {
    const NUMBERS: [u64; 12] = [
        0,
        1,
        9,
        10,
        15,
        16,
        0x0123_4567_89ab_cdef,
        0xfedc_ba98_7654_3210,
        0x8000_0000_8000_0000,
        0x7fff_ffff_7fff_ffff,
        0x0f0f_0f0f_f0f0_f0f0,
        u64::MAX,
    ];
    let mut cases = Vec::new();
    for lesson in NUMBERS {
        for digest in NUMBERS {
            cases.extend((0..=MOST_LENT).map(|length| Case {
                lesson: lesson as u32,
                digest,
                length,
                salt: lesson ^ digest ^ length as u64,
            }));
        }
    }
    cases
}

/// Any numbers, some of them with few digits, and half of the lengths near the
/// least that is enough.
fn drawn(seed: u64, number: u64) -> Case {
    let mut random = SplitMix64::for_case(seed, number);
    let bits = random.below(64);
    let digest = random.next() >> random.one_of([0, bits]);
    let bits = random.below(32);
    let lesson = random.next() as u32 >> random.one_of([0, bits]);
    let any = random.between(0, MOST_LENT as u64);
    let near = random.between(BYTES as u64 - 1, BYTES as u64 + 1);
    Case {
        lesson,
        digest,
        length: random.one_of([any, near]) as usize,
        salt: number,
    }
}

/// What is wrong by the rule as Rust writes it.
fn by_rule_fault(engine: Engine, case: Case) -> Option<String> {
    let text = format!("{:08x}-{:016x}", case.lesson, case.digest);
    fault(engine, case, &text)
}

/// What is wrong with the engine's answer, or with what it left in memory.
fn fault(engine: Engine, case: Case, text: &str) -> Option<String> {
    let expected = expected(case, text);
    let mut out = LentBytes::new(case.length, case.salt);
    let mut words = LentWords::new();
    let number = engine(case.lesson, case.digest, out.lent(), words.words());
    let ours = Outcome {
        number,
        words: *words.words(),
        out,
    };
    if !words.is_unchanged() {
        return Some("memory around the answer was changed".to_string());
    }
    if (expected.number, expected.words) != (ours.number, ours.words) {
        return Some(differing(&expected, &ours, ""));
    }
    let place = match expected.out.difference(&ours.out)? {
        Some(place) => format!(" in byte {place}"),
        None => " in a byte around those lent".to_string(),
    };
    Some(differing(&expected, &ours, &place))
}

fn expected(case: Case, text: &str) -> Outcome {
    let mut out = LentBytes::new(case.length, case.salt);
    if case.length < BYTES {
        return Outcome {
            number: ID_ROOM,
            words: [0; 5],
            out,
        };
    }
    out.lent()[..BYTES].copy_from_slice(text.as_bytes());
    Outcome {
        number: 0,
        words: [BYTES as u64, 0, 0, 0, 0],
        out,
    }
}

fn differing(expected: &Outcome, ours: &Outcome, place: &str) -> String {
    format!("differs{place}\n  expected: {expected}\n  ours: {ours}")
}

/// A smaller case that differs too.
fn report_shrunk(output: &mut impl Write, engine: Engine, case: Case) -> io::Result<()> {
    output.flush()?;
    let shrunk = shrink(case, |case| by_rule_fault(engine, *case).is_some());
    let fault = by_rule_fault(engine, shrunk.case).unwrap_or_default();
    writeln!(output, "{}: {fault}", shrunk.about())?;
    writeln!(output, "{}", shrunk.case)
}

#[cfg(test)]
mod tests;
