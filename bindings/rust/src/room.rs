//! Memory that a caller lends to a run.

use core::slice::ChunksExact;

/// How many words a frame's record has.
pub const FRAME_WORDS: usize = 4;

/// Words lent to a run, which it works in.
///
/// What they hold before a run doesn't matter to it. Afterwards they hold the state that the run reached, also if it trapped or was
/// refused for want of room; words that it never reached are as they were. One room may serve any number of runs.
///
/// No record and no register ever has the word `u64::MAX`. So words that are filled with it before they are lent show afterwards
/// how far the run came:
///
/// ```
/// use knitcauldron::{execute, Limits, Room};
/// # let image = [
/// #     1, 0, 0, 0, 1, 0, 0, 0, 2, 0, 0, 0, 24, 0, 0, 0, 40, 0, 0, 0, 64, 0, 0, 0, 7, 0, 0, 0, 1, 0, 0, 0,
/// #     0, 0, 0, 0, 2, 0, 0, 0, 6, 0, 0, 0, 0, 0, 0, 0, 255, 255, 255, 255, 55, 0, 0, 0, 0, 0, 0, 0, 0, 0, 0, 0,
/// # ];
/// let (mut frames, mut registers) = ([u64::MAX; 8], [u64::MAX; 2]);
/// let mut room = Room { frame_words: &mut frames, register_words: &mut registers };
/// execute(&image, Limits::DEFAULT, &mut room)?;
/// let reached = room.frames().take_while(|frame| frame.function != u64::MAX).count();
/// assert_eq!(reached, 1);
/// # Ok::<(), knitcauldron::Refusal>(())
/// ```
///
/// What is lent cannot be touched while the room has it:
///
/// ```compile_fail,E0506
/// use knitcauldron::{execute, Limits, Room};
///
/// let (mut frames, mut registers) = ([0; 4], [0; 1]);
/// let mut room = Room { frame_words: &mut frames, register_words: &mut registers };
/// frames[0] = 1;
/// let _ = execute(&[], Limits::DEFAULT, &mut room);
/// ```
#[derive(Debug)]
pub struct Room<'a> {
    /// [`FRAME_WORDS`] for each frame; fewer left over at the end are no record.
    pub frame_words: &'a mut [u64],
    /// One for each register of each frame; [`Value::from_word`](crate::Value::from_word) reads one.
    pub register_words: &'a mut [u64],
}

impl Room<'_> {
    /// The records of all frames that the room can hold, the entry's first, a called function's right after its caller's.
    ///
    /// The engine doesn't say how many of them were running at the end: a record stays when its function returns, until another
    /// call takes its place.
    pub fn frames(&self) -> Frames<'_> {
        Frames::new(self.frame_words)
    }
}

/// One frame's record.
///
/// A record that a run never reached holds the words that were lent, so that each field can be any number.
#[derive(Clone, Copy, Debug, PartialEq, Eq, Hash)]
pub struct Frame {
    /// The function's number.
    pub function: u64,
    /// The instruction to come, or the one at fault, counted from the function's first.
    pub place: u64,
    /// The caller's register that the result goes to; 0 for the entry.
    pub return_register: u64,
    /// Where the frame's registers begin in [`Room::register_words`].
    pub first_register: u64,
}

/// The records in lent words, one after the other.
///
/// ```
/// use knitcauldron::Frames;
///
/// let mut frames = Frames::new(&[0, 5, 0, 0, 1, 2, 9, 3, 77]);
/// assert_eq!(frames.len(), 2); // the word left over is no record
/// assert_eq!(frames.next_back().unwrap().return_register, 9);
/// assert_eq!(frames.next().unwrap().place, 5);
/// ```
#[derive(Clone, Debug)]
pub struct Frames<'a> {
    records: ChunksExact<'a, u64>,
}

impl<'a> Frames<'a> {
    /// The records in words that were lent to a run.
    pub fn new(words: &'a [u64]) -> Self {
        Self {
            records: words.chunks_exact(FRAME_WORDS),
        }
    }
}

/// Reads one record. Every chunk has its four words.
fn frame(record: &[u64]) -> Frame {
    Frame {
        function: record[0],
        place: record[1],
        return_register: record[2],
        first_register: record[3],
    }
}

impl Iterator for Frames<'_> {
    type Item = Frame;

    fn next(&mut self) -> Option<Frame> {
        self.records.next().map(frame)
    }

    fn size_hint(&self) -> (usize, Option<usize>) {
        self.records.size_hint()
    }

    // Without this a frame is reached by reading all before it.
    fn nth(&mut self, n: usize) -> Option<Frame> {
        self.records.nth(n).map(frame)
    }
}

impl DoubleEndedIterator for Frames<'_> {
    fn next_back(&mut self) -> Option<Frame> {
        self.records.next_back().map(frame)
    }
}

impl ExactSizeIterator for Frames<'_> {}

/// How many words to lend.
#[derive(Clone, Copy, Debug, PartialEq, Eq, Hash)]
pub struct Needed {
    /// For [`Room::frame_words`].
    pub frame_words: usize,
    /// For [`Room::register_words`].
    pub register_words: usize,
}

// The largest products below are 65,535 * 4 and 65,535 * 65,535.
const _: () = assert!(usize::BITS >= 32, "room is counted in 32 bits");

/// How many words are enough for every program, so that no run is refused for want of room.
///
/// `largest_registers` is the largest register count of any function in the image. Of an image that was admitted it is known to
/// be at most the profile's `max_registers`. A run may need far less: this is for one that uses its whole depth.
///
/// ```
/// use knitcauldron::{enough_room, Needed};
///
/// const SAFE: Needed = enough_room(64, 256);
/// assert_eq!(SAFE, Needed { frame_words: 256, register_words: 16_384 });
/// ```
pub const fn enough_room(max_call_depth: u16, largest_registers: u16) -> Needed {
    // The entry's frame begins at depth limit 0 as well.
    let frames = if max_call_depth == 0 {
        1
    } else {
        max_call_depth as usize
    };
    Needed {
        frame_words: frames * FRAME_WORDS,
        register_words: frames * largest_registers as usize,
    }
}
