//! Smaller numbers, and parts of a list to leave out.

use std::ops::Range;

/// Lists are left out by parts of at least so much of them. What is too long
/// for single items becomes shorter first.
const MOST_PARTS: usize = 2_048;

/// Numbers below this one: 0 first, then closer and closer to it.
pub fn smaller(number: u64) -> Vec<u64> {
    let mut numbers = Vec::new();
    let mut less = number;
    while less > 0 {
        numbers.push(number - less);
        less /= 2;
    }
    numbers
}

/// Numbers closer to 0, and for a negative one its opposite.
pub fn closer_to_zero(number: i32) -> Vec<i32> {
    let sizes = smaller(number.unsigned_abs().into());
    let mut numbers: Vec<i32> = sizes
        .into_iter()
        .map(|size| size as i32 * number.signum())
        .collect();
    if number < 0 {
        numbers.extend(number.checked_neg());
    }
    numbers
}

/// Parts of a list of this length: the whole, its halves, and so on.
pub fn parts(length: usize) -> Vec<Range<usize>> {
    let least = (length / MOST_PARTS).max(1);
    let mut parts = Vec::new();
    let mut size = length;
    while size >= least && size > 0 {
        let starts = (0..length).step_by(size);
        parts.extend(starts.map(|start| start..(start + size).min(length)));
        size /= 2;
    }
    parts
}

#[cfg(test)]
mod tests {
    use super::*;

    #[test]
    fn smaller_numbers_come_closer() {
        assert_eq!(smaller(0), []);
        assert_eq!(smaller(1), [0]);
        assert_eq!(smaller(10), [0, 5, 8, 9]);
        let all = smaller(u64::MAX);
        assert!(all.windows(2).all(|pair| pair[0] < pair[1]));
        assert_eq!(all.last(), Some(&(u64::MAX - 1)));
    }

    #[test]
    fn a_negative_number_has_its_opposite() {
        assert_eq!(closer_to_zero(0), []);
        assert_eq!(closer_to_zero(4), [0, 2, 3]);
        assert_eq!(closer_to_zero(-4), [0, -2, -3, 4]);
        assert_eq!(closer_to_zero(-1), [0, 1]);
        let least = closer_to_zero(i32::MIN);
        assert!(least.iter().all(|number| *number > i32::MIN));
    }

    #[test]
    fn parts_are_the_whole_then_halves_and_so_on() {
        assert_eq!(parts(0), []);
        assert_eq!(parts(2), [0..2, 0..1, 1..2]);
        assert_eq!(parts(3), [0..3, 0..1, 1..2, 2..3]);
        assert_eq!(
            parts(5),
            [0..5, 0..2, 2..4, 4..5, 0..1, 1..2, 2..3, 3..4, 4..5]
        );
    }

    #[test]
    fn a_long_list_has_parts_of_some_size_only() {
        let parts = parts(1_000_000);
        assert!(parts.len() < 8_192, "{}", parts.len());
        assert_eq!(parts[0], 0..1_000_000);
        let least = parts.iter().map(ExactSizeIterator::len).min();
        assert!(least.is_some_and(|least| least < 600), "{least:?}");
    }
}
