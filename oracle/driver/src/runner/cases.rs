//! Images with the runner's line for each: what `oracle runner-cases` writes.

use std::io::{self, BufWriter, Write};

use super::line;
use crate::image::Record;
use crate::program::{Function, Program, DOCUMENT_IMAGE};
use crate::records::{call, jump, jump_if, load, plain, ret, three};
use crate::text::{hex, hex_bytes};

/// Writes `IMAGEHEX LINE` for each image.
pub fn write_cases(output: impl Write) -> io::Result<()> {
    let mut output = BufWriter::new(output);
    for image in images() {
        writeln!(output, "{} {}", hex(&image), line(&image))?;
    }
    output.flush()
}

/// All of them.
pub(super) fn images() -> Vec<Vec<u8>> {
    let mut images = vec![hex_bytes(DOCUMENT_IMAGE.as_bytes()).unwrap_or_default()];
    images.extend(values());
    images.extend(traps());
    images.extend(fuel());
    images.extend(faults());
    images.extend(frames());
    images.extend(rooms());
    images
}

fn single(regs: u16, instrs: &[Record]) -> Vec<u8> {
    Program::single(regs, instrs.to_vec()).image()
}

fn program(entry: u16, functions: &[(u16, &[Record])]) -> Vec<u8> {
    let function = |(regs, instrs): &(u16, &[Record])| Function::new(*regs, instrs.to_vec());
    Program {
        entry,
        functions: functions.iter().map(function).collect(),
    }
    .image()
}

/// A value of each kind, and payloads at the ends of their ranges.
fn values() -> Vec<Vec<u8>> {
    let most = u32::MAX;
    let loads = [
        load(3, 0, 0, 0),
        load(4, 0, 0, 0),
        load(4, 0, 3, 0),
        load(5, 0, 0, 0),
        load(5, 0, 1, 0),
        load(6, 0, 0, 0),
        load(6, 0, 0, 1 << 31),
        load(7, 0, 0, most),
        load(8, 0, 0, most),
        load(8, 0, 0, 65_536),
    ];
    loads.map(|load| single(1, &[load, ret(0)])).to_vec()
}

/// Every trap but FuelExceeded and CallDepthExceeded, which come below.
fn traps() -> Vec<Vec<u8>> {
    let fails = Record { a: 0, ..plain(2) };
    let number = |w| load(6, 0, 0, w);
    vec![
        single(0, &[]),
        single(0, &[plain(0)]),
        single(0, &[jump(u32::MAX)]),
        single(1, &[ret(1)]),
        single(1, &[number(1), three(32, 0, 0, 0)]),
        single(2, &[number(7), load(6, 1, 0, 0), three(26, 0, 0, 1)]),
        single(1, &[number(1 << 30), three(23, 0, 0, 0)]),
        single(1, &[call(0, 1, 0, 0), ret(0)]),
        program(1, &[(1, &[ret(0)])]),
        program(65_535, &[]),
        single(1, &[load(5, 0, 0, 0), fails, ret(0)]),
        single(0, &[plain(0), plain(1)]),
    ]
}

/// A loop of so many rounds, with so many Nops in front: 3 steps in each round,
/// and 4 besides.
fn rounds(count: u32, nops: usize) -> Vec<u8> {
    let mut instrs = vec![plain(0); nops];
    let top = nops as u32 + 3;
    instrs.extend([
        load(7, 0, 0, 0),
        load(7, 1, 0, 1),
        load(7, 2, 0, count),
        three(32, 0, 0, 1),
        three(37, 3, 0, 2),
        jump_if(52, 3, top),
        ret(0),
    ]);
    single(4, &instrs)
}

/// A million steps, which is all the fuel there is, one more and one less; and
/// a loop that has no end.
fn fuel() -> Vec<Vec<u8>> {
    let count = 333_332;
    vec![
        rounds(count, 0),
        rounds(count, 1),
        rounds(count - 1, 2),
        single(0, &[jump(0)]),
    ]
}

/// What is no image, each by one fault.
fn faults() -> Vec<Vec<u8>> {
    let good = program(0, &[(1, &[plain(0), ret(0)]), (1, &[ret(0)])]);
    let changed = |at: usize, byte| {
        let mut image = good.clone();
        image[at] = byte;
        image
    };
    let mut longer = good.clone();
    longer.push(0);
    vec![
        Vec::new(),
        good[..1].to_vec(),
        good[..23].to_vec(),
        good[..24].to_vec(),
        good[..good.len() - 1].to_vec(),
        longer,
        changed(0, 2),
        changed(1, 1),
        changed(12, 25),
        changed(16, 57),
        changed(20, 93),
        changed(30, 1),
        changed(48, 1),
        changed(52, 2),
        changed(56, 56),
        changed(57, 1),
        changed(68, 255),
        good,
    ]
}

/// A function that calls itself with its last register as the argument: 64
/// frames of 32 registers take all the words there are, 33 are too many.
fn frames() -> Vec<Vec<u8>> {
    let calls = |regs: u16| {
        let last = regs.saturating_sub(1);
        let count = u32::from(regs > 0);
        single(regs, &[call(0, 0, last, count), ret(0)])
    };
    let sum = [
        load(7, 1, 0, 40),
        load(7, 2, 0, 2),
        call(0, 1, 1, 2),
        ret(0),
    ];
    let added = [three(32, 2, 0, 1), ret(2)];
    vec![
        program(0, &[(3, &sum), (3, &added)]),
        calls(0),
        calls(1),
        calls(31),
        calls(32),
        calls(33),
    ]
}

/// The entry's registers fit or do not; a callee's fit beside them or do not.
fn rooms() -> Vec<Vec<u8>> {
    let last = |regs: u16| [load(7, regs - 1, 0, 9), ret(regs - 1)];
    let entry = |regs| single(regs, &last(regs));
    let caller = [plain(0), call(0, 1, 0, 0), ret(0)];
    let both = |regs, callee| program(0, &[(regs, &caller), (callee, &last(callee))]);
    vec![
        entry(2_048),
        entry(2_049),
        entry(65_535),
        both(1, 2_047),
        both(1, 2_048),
        both(2_047, 1),
        both(2_048, 1),
    ]
}
