//! What is wrong with an answer, if anything is.

use oracle::digest::digest;
use oracle::measure::Scratch;
use oracle::random::SplitMix64;
use oracle::run::describe;
use oracle::verdict::Answer;

use super::ask::{differing, Ask, Outcome, Question};
use super::case::{Case, Setting};
use super::laws::{self, Known};
use super::Engine;

/// The answer that all sides give, or what is wrong with theirs.
pub fn answered(
    engine: Engine,
    case: &Case,
    setting: &Setting,
    ask: &Ask,
) -> Result<Answer, String> {
    let expected = ask.by_reading();
    let known = case.known(setting, ask);
    let fault = agreement_fault(setting, &expected)
        .or_else(|| engine_fault(engine, ask, &expected))
        .or_else(|| law_fault(known, &expected.answer));
    match fault {
        Some(fault) => Err(fault),
        None => Ok(expected.answer),
    }
}

/// The same for one question by itself. One whose run has no end in sight is
/// not asked, and so has no fault.
pub fn question_fault(
    engine: Engine,
    question: &Question,
    scratch: &mut Scratch,
) -> Option<String> {
    let case = Case::of_question(question, scratch)?;
    let (setting, ask) = case.asks(question.salt).next()?;
    answered(engine, &case, setting, &ask).err()
}

/// With enough room, or with less that is not refused, the reading ends as the
/// Rust does.
fn agreement_fault(setting: &Setting, expected: &Outcome) -> Option<String> {
    let Setting { rust, measure, .. } = setting;
    let refused = matches!(expected.answer.number, 6 | 7);
    let answers = [
        Some(&measure.answer),
        (!refused).then_some(&expected.answer),
    ];
    let other = answers
        .into_iter()
        .flatten()
        .find(|answer| *answer != rust)?;
    Some(differing("the reading", rust, other))
}

/// All sides answer alike; what they answer must keep the laws of every run.
fn law_fault(known: Known, answer: &Answer) -> Option<String> {
    let law = laws::broken(known, answer)?;
    Some(format!("{law}\n  all answer: {}", describe(answer)))
}

/// What is wrong with the engine's answer, or with what it left in memory.
pub fn engine_fault(engine: Engine, ask: &Ask, expected: &Outcome) -> Option<String> {
    let ours = match ask.by_engine(engine) {
        Ok(ours) => ours,
        Err(fault) => return Some(fault),
    };
    if let Some(difference) = expected.difference("ours", &ours) {
        return Some(difference);
    }
    let [status, kind, payload, used, digest] = expected.answer.words;
    match expected.answer.number {
        0 => digest_fault(engine, [status, kind, payload, used], digest),
        _ => None,
    }
}

pub fn digest_fault(engine: Engine, words: [u64; 4], expected: u64) -> Option<String> {
    let ours = (engine.digest)(words);
    if ours == expected {
        return None;
    }
    let [status, kind, payload, used] = words;
    Some(format!(
        "the digest of {status} {kind} {payload} {used} differs\n  \
         expected: {expected}\n  ours: {ours}"
    ))
}

/// The digest of any words, whether a run could give them or not.
pub fn any_digest_fault(engine: Engine, words: [u64; 4]) -> Option<String> {
    digest_fault(engine, words, digest(words))
}

/// Words of this case to ask for the digest of.
pub fn any_words(seed: u64, number: u64) -> [u64; 4] {
    let mut random = SplitMix64::for_case(seed, !number);
    [(); 4].map(|()| {
        let full = random.next();
        random.one_of([full, full, full >> 32, full >> 60, 1 << 63, u64::MAX])
    })
}
