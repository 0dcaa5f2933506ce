//! Identifiers of calendar events.

use core::fmt;
use core::str;

use crate::answer::Answer;
use crate::engine;
use crate::Refusal;

/// How many bytes an identifier has.
pub const EVENT_ID_BYTES: usize = 25;

/// An identifier: the lesson in 8 lower-case hex digits, `-`, the digest in 16.
#[derive(Clone, Copy, PartialEq, Eq, Hash, PartialOrd, Ord)]
pub struct EventId {
    bytes: [u8; EVENT_ID_BYTES],
}

impl EventId {
    /// The identifier as text.
    pub fn as_str(&self) -> &str {
        str::from_utf8(&self.bytes).expect("an identifier is made of text")
    }

    /// The identifier's bytes, all ASCII.
    pub const fn as_bytes(&self) -> &[u8; EVENT_ID_BYTES] {
        &self.bytes
    }
}

impl AsRef<str> for EventId {
    fn as_ref(&self) -> &str {
        self.as_str()
    }
}

impl fmt::Display for EventId {
    fn fmt(&self, f: &mut fmt::Formatter<'_>) -> fmt::Result {
        f.pad(self.as_str())
    }
}

impl fmt::Debug for EventId {
    fn fmt(&self, f: &mut fmt::Formatter<'_>) -> fmt::Result {
        f.debug_tuple("EventId").field(&self.as_str()).finish()
    }
}

/// The identifier of a lesson's event, with the digest of the run that it shows.
///
/// ```
/// use knitcauldron::event_id;
///
/// assert_eq!(event_id(42, 0x6ffa_4144_d88d_4a53).as_str(), "0000002a-6ffa4144d88d4a53");
/// ```
pub fn event_id(lesson: u32, digest: u64) -> EventId {
    let mut bytes = [0; EVENT_ID_BYTES];
    let answer = engine::event_id(lesson, digest, &mut bytes);
    match read(&answer, &bytes) {
        Ok(_) => EventId { bytes },
        Err(_) => answer.ruled_out(),
    }
}

/// Writes the identifier into the first 25 lent bytes, and gives it back from there; the rest of them stay as they were.
///
/// ```
/// use knitcauldron::{event_id_in, Refusal};
///
/// let mut line = *b"UID:.........................\r\n";
/// assert_eq!(event_id_in(42, 0x6ffa_4144_d88d_4a53, &mut line[4..]), Ok("0000002a-6ffa4144d88d4a53"));
/// assert_eq!(&line, b"UID:0000002a-6ffa4144d88d4a53\r\n");
///
/// assert_eq!(event_id_in(42, 0, &mut [0; 24]), Err(Refusal::IdRoom));
/// ```
///
/// # Errors
///
/// [`IdRoom`](Refusal::IdRoom) if under 25 bytes were lent; nothing is written then.
pub fn event_id_in(lesson: u32, digest: u64, out: &mut [u8]) -> Result<&str, Refusal> {
    let answer = engine::event_id(lesson, digest, out);
    read(&answer, out)
}

/// What was written, or the refusal, which comes exactly if there is no room for it.
fn read<'a>(answer: &Answer, out: &'a [u8]) -> Result<&'a str, Refusal> {
    match (answer.number, out.get(..EVENT_ID_BYTES)) {
        (0, Some(bytes)) if answer.words == [EVENT_ID_BYTES as u64, 0, 0, 0, 0] => {
            str::from_utf8(bytes).map_err(|_| answer.ruled_out())
        }
        (9, None) => Err(Refusal::read(answer)),
        _ => answer.ruled_out(),
    }
}

#[cfg(test)]
mod tests {
    use super::*;

    const fn answer(number: u64, first: u64) -> Answer {
        Answer {
            call: "knit_event_id",
            number,
            words: [first, 0, 0, 0, 0],
        }
    }

    #[test]
    fn text_is_read_out_of_the_first_bytes() {
        let text = "x".repeat(EVENT_ID_BYTES);
        let bytes = [text.as_bytes(), &[0xff; 3]].concat();
        assert_eq!(read(&answer(0, 25), &bytes), Ok(text.as_str()));
    }

    #[test]
    #[should_panic(expected = "knit_event_id answered 0 with [24, 0, 0, 0, 0]")]
    fn another_number_of_bytes_stops_the_program() {
        let _ = read(&answer(0, 24), &[b'x'; 30]);
    }

    #[test]
    #[should_panic(expected = "which its header rules out")]
    fn a_refusal_though_there_is_room_stops_the_program() {
        let _ = read(&answer(9, 0), &[b'x'; 25]);
    }

    #[test]
    #[should_panic(expected = "which its header rules out")]
    fn bytes_that_are_no_text_stop_the_program() {
        let _ = read(&answer(0, 25), &[0xff; 25]);
    }
}
