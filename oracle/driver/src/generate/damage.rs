//! Faults in an image's bytes: lengths, header, function table, instructions.
//!
//! Most images get none or one. Some get two, since only then does the order of
//! the checks show. Some edits leave a well-formed image of another program.

use crate::fields::{self, Field, FIELDS};
use crate::random::SplitMix64;

const HEADER: usize = 24;
/// Where the header's fields stand.
const ENTRY: usize = 2;
const FUNCTIONS: usize = 4;
const INSTRUCTIONS: usize = 8;
const FUNCTION_TABLE: usize = 12;
const INSTRUCTION_TABLE: usize = 16;
const TOTAL: usize = 20;
/// Where a function record's fields stand.
const ZERO: usize = 6;
const FIRST: usize = 8;
const COUNT: usize = 12;

/// Damages the image in no, one or two ways.
pub fn some(random: &mut SplitMix64, image: &mut Vec<u8>) {
    let shape = Shape {
        functions: get(image, FUNCTIONS) as usize,
        instructions: get(image, INSTRUCTIONS) as usize,
    };
    let count = match random.below(20) {
        0..=14 => 0,
        15..=17 => 1,
        _ => 2,
    };
    for _ in 0..count {
        one(random, shape, image);
    }
}

/// The counts of the image as it was, by which its records are found.
#[derive(Clone, Copy)]
struct Shape {
    functions: usize,
    instructions: usize,
}

impl Shape {
    fn function(self, number: usize) -> usize {
        HEADER + 16 * number
    }

    fn instruction(self, number: usize) -> usize {
        self.function(self.functions) + 12 * number
    }

    fn some_function(self, random: &mut SplitMix64) -> usize {
        self.function(random.index(self.functions.max(1)))
    }
}

fn one(random: &mut SplitMix64, shape: Shape, image: &mut Vec<u8>) {
    match random.below(24) {
        0 => shorten(random, image),
        1 => image.truncate(random.index(HEADER)),
        2 => lengthen(random, image),
        3 | 4 => flip(random, image),
        5 => put_16(image, 0, random.one_of([0, 2, 256, 257, 65_535])),
        6..=8 => header_field(random, image),
        9 => wrapped_counts(random, shape, image),
        10 => other_counts(random, shape, image),
        11 => records_of_the_other_table(random, shape, image),
        12..=14 => function_record(random, shape, image),
        15 => moved_border(random, shape, image),
        16 => wrapped_joins(shape, image),
        17 => instructions_of_no_function(shape, image),
        18..=21 => unused_field(random, shape, image),
        22 => edge_of_a_field(random, shape, image),
        _ => opcode(random, shape, image),
    }
}

/// By one byte, by a record of either table, or to any length.
fn shorten(random: &mut SplitMix64, image: &mut Vec<u8>) {
    let length = image.len();
    let any = random.index(length.max(1));
    let less = random.one_of([1, 12, 16, length - any.min(length)]);
    image.truncate(length.saturating_sub(less));
}

/// By a few bytes, or by a whole record that the header counts.
fn lengthen(random: &mut SplitMix64, image: &mut Vec<u8>) {
    let fill = random.one_of([0, 0, 1, 255]);
    if random.once_in(2) {
        let more = random.between(1, 16) as usize;
        image.resize(image.len() + more, fill);
        return;
    }
    // A Nop past the last function's instructions: only the sum is wrong.
    image.resize(image.len() + 12, 0);
    add(image, INSTRUCTIONS, 1);
    add(image, TOTAL, 12);
}

/// Changes one to three bytes anywhere, in one bit or altogether.
fn flip(random: &mut SplitMix64, image: &mut [u8]) {
    for _ in 0..random.between(1, 3) {
        let at = random.index(image.len().max(1));
        let bit = 1 << random.below(8);
        let change = random.one_of([bit, bit, 255]);
        if let Some(byte) = image.get_mut(at) {
            *byte ^= change;
        }
    }
}

fn header_field(random: &mut SplitMix64, image: &mut [u8]) {
    let field = random.one_of([
        ENTRY,
        FUNCTIONS,
        INSTRUCTIONS,
        FUNCTION_TABLE,
        INSTRUCTION_TABLE,
        TOTAL,
    ]);
    if field == ENTRY {
        let [low, high, ..] = changed(random, get(image, ENTRY)).to_le_bytes();
        put(image, ENTRY, &[low, high]);
    } else {
        put_32(image, field, changed(random, get(image, field)));
    }
}

/// Counts so much larger that every place and length stays the same in 32
/// bits: 2^28 functions, 2^30 instructions, or any number of times as many.
fn wrapped_counts(random: &mut SplitMix64, shape: Shape, image: &mut [u8]) {
    let functions = (random.between(0, 15) as u32) << 28;
    let least = u64::from(functions == 0);
    let instructions = (random.between(least, 3) as u32) << 30;
    put_32(
        image,
        FUNCTIONS,
        functions.wrapping_add(shape.functions as u32),
    );
    put_32(
        image,
        INSTRUCTIONS,
        instructions.wrapping_add(shape.instructions as u32),
    );
}

/// A header that agrees with itself, but not with the length.
fn other_counts(random: &mut SplitMix64, shape: Shape, image: &mut [u8]) {
    let functions = changed(random, shape.functions as u32);
    let instructions = changed(random, shape.instructions as u32);
    let header = crate::program::header(get(image, ENTRY) as u16, functions, instructions);
    put(image, 0, &header);
}

/// Three function records take as many bytes as four instructions: a header
/// that agrees with the length as well, and reads one as the other.
fn records_of_the_other_table(random: &mut SplitMix64, shape: Shape, image: &mut [u8]) {
    let (functions, instructions) = (shape.functions as u32, shape.instructions as u32);
    let (functions, instructions) = match random.below(2) {
        0 if instructions >= 4 => (functions + 3, instructions - 4),
        _ if functions >= 3 => (functions - 3, instructions + 4),
        _ => return,
    };
    let header = crate::program::header(get(image, ENTRY) as u16, functions, instructions);
    put(image, 0, &header);
}

fn function_record(random: &mut SplitMix64, shape: Shape, image: &mut [u8]) {
    let at = shape.some_function(random);
    match random.below(4) {
        0 => put_16(image, at + ZERO, random.one_of([1, 256, 65_535])),
        1 => put_32(image, at + FIRST, changed(random, get(image, at + FIRST))),
        2 => put_32(image, at + COUNT, changed(random, get(image, at + COUNT))),
        _ => {
            // The last one's count joins nothing: only the sum is wrong.
            let last = shape.function(shape.functions.saturating_sub(1)) + COUNT;
            put_32(image, last, changed(random, get(image, last)));
        }
    }
}

/// Gives a function the next one's first instruction, or the next one its
/// last: a well-formed image in which jumps and Rets stand elsewhere.
fn moved_border(random: &mut SplitMix64, shape: Shape, image: &mut [u8]) {
    let at = shape.some_function(random);
    let next = at + 16;
    if next >= shape.function(shape.functions) {
        return;
    }
    let more = random.one_of([1, u32::MAX]);
    add(image, at + COUNT, more);
    add(image, next + FIRST, more);
    add(image, next + COUNT, more.wrapping_neg());
}

/// Two counts of 2^31 too many: in 32 bits, all later joins and the sum hold.
fn wrapped_joins(shape: Shape, image: &mut [u8]) {
    if shape.functions < 2 {
        return;
    }
    add(image, shape.function(0) + COUNT, 1 << 31);
    add(image, shape.function(1) + FIRST, 1 << 31);
    add(image, shape.function(1) + COUNT, 1 << 31);
}

/// The image's instructions alone, under a header that agrees with them.
fn instructions_of_no_function(shape: Shape, image: &mut Vec<u8>) {
    if image.len() < shape.instruction(0) {
        return;
    }
    let header = crate::program::header(get(image, ENTRY) as u16, 0, shape.instructions as u32);
    image.drain(..shape.instruction(0));
    image.splice(..0, header);
}

/// A field that the opcode does not use is 1, or full, or has its upper half
/// alone set. The opcode may be any, each with the same chance; what it does
/// not use is made 0 first, so that the one field decides.
fn unused_field(random: &mut SplitMix64, shape: Shape, image: &mut [u8]) {
    let at = shape.instruction(random.index(shape.instructions.max(1)));
    let opcode = random.below(56) as u8;
    let used = fields::used(opcode);
    let unused: Vec<Field> = FIELDS.into_iter().filter(|f| !used.contains(f)).collect();
    put(image, at, &[opcode]);
    for (place, width) in unused.iter().copied().map(Field::place) {
        put(image, at + place, &[0; 4][..width]);
    }
    if let Some((place, width)) = random.pick(&unused).map(Field::place) {
        let upper = 1u32 << (4 * width);
        let value = random.one_of([1, upper, u32::MAX]).to_le_bytes();
        put(image, at + place, &value[..width]);
    }
}

/// The values next to the end of a field that has one.
fn edge_of_a_field(random: &mut SplitMix64, shape: Shape, image: &mut [u8]) {
    let opcode = random.one_of([4, 5, 54]);
    let Some(at) = find(random, shape, image, |found| found == opcode) else {
        return;
    };
    match opcode {
        4 => put(image, at + 1, &[random.one_of([3, 4, 255])]),
        5 => put(image, at + 1, &[random.one_of([1, 2, 255])]),
        _ => put_32(image, at + 8, random.one_of([65_535, 65_536, u32::MAX])),
    }
}

/// An opcode past the last one, or another one with fields that may not go
/// with it.
fn opcode(random: &mut SplitMix64, shape: Shape, image: &mut [u8]) {
    let Some(at) = find(random, shape, image, |_| true) else {
        return;
    };
    let unknown = random.between(56, 255) as u8;
    let known = random.below(56) as u8;
    put(image, at, &[random.one_of([56, 255, unknown, known])]);
}

/// Where an instruction with such an opcode stands: the first one from a
/// random place on. Nothing if the image has none, or lost it.
fn find(
    random: &mut SplitMix64,
    shape: Shape,
    image: &[u8],
    wanted: impl Fn(u8) -> bool,
) -> Option<usize> {
    let count = shape.instructions;
    let start = random.index(count.max(1));
    (start..count)
        .chain(0..start)
        .map(|number| shape.instruction(number))
        .find(|at| image.get(*at).is_some_and(|opcode| wanted(*opcode)))
}

/// One more, one less, 0 or as much as there can be.
fn changed(random: &mut SplitMix64, value: u32) -> u32 {
    let more = value.wrapping_add(1);
    let less = value.wrapping_sub(1);
    random.one_of([more, less, 0, u32::MAX])
}

/// The number at a place, as far as the image goes; for a field of 16 bits the
/// lower half is meant.
fn get(image: &[u8], at: usize) -> u32 {
    let byte = |at| u32::from(image.get(at).copied().unwrap_or(0));
    (0..4).fold(0, |number, place| number | byte(at + place) << (8 * place))
}

fn add(image: &mut [u8], at: usize, more: u32) {
    put_32(image, at, get(image, at).wrapping_add(more));
}

fn put_16(image: &mut [u8], at: usize, value: u16) {
    put(image, at, &value.to_le_bytes());
}

fn put_32(image: &mut [u8], at: usize, value: u32) {
    put(image, at, &value.to_le_bytes());
}

/// Writes what an earlier damage has not cut off.
fn put(image: &mut [u8], at: usize, bytes: &[u8]) {
    if let Some(place) = image.get_mut(at..at + bytes.len()) {
        place.copy_from_slice(bytes);
    }
}

#[cfg(test)]
mod tests;
