//! Memory lent to an engine: set to a pattern around what is lent, so that
//! whatever the engine writes besides its answer is seen.

/// What a byte or word that must stay looks like.
const BYTE: u8 = 0xa5;
const WORD: u64 = 0xa5a5_a5a5_a5a5_a5a5;
/// Bytes that stay before and after an image.
const MARGIN: usize = 32;

/// An image lent out.
pub struct LentImage {
    bytes: Vec<u8>,
    start: usize,
    length: usize,
}

impl LentImage {
    /// Lends a copy. An image may begin at any address, so each case's begins
    /// at another one.
    pub fn new(image: &[u8], number: u64) -> Self {
        let start = MARGIN + (number % 16) as usize;
        let mut bytes = vec![BYTE; start];
        bytes.reserve_exact(image.len() + MARGIN);
        bytes.extend(image);
        bytes.resize(start + image.len() + MARGIN, BYTE);
        Self {
            bytes,
            start,
            length: image.len(),
        }
    }

    pub fn image(&mut self) -> &mut [u8] {
        &mut self.bytes[self.start..self.start + self.length]
    }

    /// Whether the image and what is around it are as they were.
    pub fn is_unchanged(&self, image: &[u8]) -> bool {
        let (before, rest) = self.bytes.split_at(self.start);
        let (lent, after) = rest.split_at(self.length);
        let kept = |bytes: &[u8]| bytes.iter().all(|byte| *byte == BYTE);
        lent == image && kept(before) && kept(after)
    }
}

/// Five words lent out for an answer, with one before and one after them; the
/// order in memory is the one written here.
#[repr(C)]
pub struct LentWords {
    before: u64,
    words: [u64; 5],
    after: u64,
}

impl LentWords {
    pub fn new() -> Self {
        Self {
            before: WORD,
            words: [WORD; 5],
            after: WORD,
        }
    }

    pub fn words(&mut self) -> &mut [u64; 5] {
        &mut self.words
    }

    /// Whether what is around the five words is as it was.
    pub fn is_unchanged(&self) -> bool {
        [self.before, self.after] == [WORD; 2]
    }
}

/// Bytes lent out to be written, with some before and after them. They follow
/// a pattern, so that one that is written where it must stay is seen.
#[derive(Debug, Clone, PartialEq, Eq)]
pub struct LentBytes {
    all: Vec<u8>,
    start: usize,
    length: usize,
}

impl LentBytes {
    /// The salt chooses the pattern, and at which of 16 addresses the bytes
    /// begin.
    pub fn new(length: usize, salt: u64) -> Self {
        let start = MARGIN + (salt % 16) as usize;
        let byte = |at: u64| ((salt ^ WORD).wrapping_add(at).wrapping_mul(STRIDE) >> 56) as u8;
        let all = (0..(start + length + MARGIN) as u64).map(byte).collect();
        Self { all, start, length }
    }

    pub fn lent(&mut self) -> &mut [u8] {
        &mut self.all[self.start..self.start + self.length]
    }

    /// Where another one that was made alike differs first. The place counts
    /// from the first byte lent: what is before or after has none.
    pub fn difference(&self, other: &Self) -> Option<Option<usize>> {
        let mut pairs = self.all.iter().zip(&other.all);
        let at = pairs.position(|(one, other)| one != other)?;
        let inside = at.checked_sub(self.start);
        Some(inside.filter(|place| *place < self.length))
    }
}

/// Words lent out for frames or registers, with some before and after them.
///
/// Each word differs from the others, so that one written to the wrong place,
/// or moved, is seen as well. Two made alike can be compared as a whole.
#[derive(Debug, Clone, PartialEq, Eq)]
pub struct LentSlice {
    all: Vec<u64>,
    start: usize,
    length: usize,
}

/// Words that stay before and after a slice.
const AROUND: usize = 8;
/// Odd, so that no two words of a pattern are the same.
const STRIDE: u64 = 0x9e37_79b9_7f4a_7c15;

impl LentSlice {
    /// The salt chooses the pattern, and whether the slice begins at an even
    /// or an odd word.
    pub fn new(length: usize, salt: u64) -> Self {
        let start = AROUND + (salt % 2) as usize;
        let word = |at| (salt ^ WORD).wrapping_add(at).wrapping_mul(STRIDE);
        let all = (0..(start + length + AROUND) as u64).map(word).collect();
        Self { all, start, length }
    }

    pub fn lent(&mut self) -> &mut [u64] {
        &mut self.all[self.start..self.start + self.length]
    }

    /// Where another one that was made alike differs first, with both words.
    /// The place counts from the first word lent: what is before has none.
    pub fn difference(&self, other: &Self) -> Option<Difference> {
        let mut pairs = self.all.iter().zip(&other.all);
        let at = pairs.position(|(one, other)| one != other)?;
        let inside = at
            .checked_sub(self.start)
            .filter(|place| *place < self.length);
        Some(Difference {
            place: inside,
            words: [self.all[at], other.all[at]],
        })
    }
}

/// Two lent slices that are not equal.
#[derive(Debug, PartialEq, Eq)]
pub struct Difference {
    /// Nothing if the word is none of those lent.
    pub place: Option<usize>,
    pub words: [u64; 2],
}

#[cfg(test)]
mod tests {
    use super::*;

    #[test]
    fn a_word_that_was_changed_is_found() {
        let one = LentSlice::new(5, 3);
        assert_eq!(one.difference(&LentSlice::new(5, 3)), None);
        let mut other = one.clone();
        other.lent()[4] = 9;
        let found = one.difference(&other).unwrap();
        assert_eq!((found.place, found.words[1]), (Some(4), 9));
        assert_ne!(one, other);
    }

    #[test]
    fn a_word_around_is_found_and_has_no_place() {
        for salt in [2, 3] {
            let one = LentSlice::new(5, salt);
            for at in [0, one.start - 1, one.start + 5, one.all.len() - 1] {
                let mut other = one.clone();
                other.all[at] ^= 1;
                assert_eq!(one.difference(&other).unwrap().place, None);
            }
        }
    }

    #[test]
    fn a_byte_that_was_changed_is_found() {
        let one = LentBytes::new(5, 3);
        assert_eq!(one.difference(&LentBytes::new(5, 3)), None);
        for (at, place) in [
            (0, None),
            (one.start - 1, None),
            (one.start, Some(0)),
            (one.start + 4, Some(4)),
            (one.start + 5, None),
            (one.all.len() - 1, None),
        ] {
            let mut other = one.clone();
            other.all[at] ^= 1;
            assert_eq!(one.difference(&other), Some(place));
        }
    }

    #[test]
    fn no_two_words_are_alike() {
        let mut words = LentSlice::new(1_000, 7).all;
        words.sort_unstable();
        assert!(words.windows(2).all(|pair| pair[0] != pair[1]));
    }
}
