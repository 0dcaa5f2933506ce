//! Images made by hand for the tests.

/// One instruction's record.
pub type Instr = [u8; 12];

/// Registers and instructions.
pub type Function<'a> = (u16, &'a [Instr]);

pub const NOP: Instr = plain(0);
pub const TRAP: Instr = plain(1);

/// Document 01's example: load -1 into register 0, return it.
pub fn document_01() -> Vec<u8> {
    program(0, &[(1, &[load_i32(0, -1), ret(0)])])
}

/// A record with the fields that most opcodes use.
const fn record(opcode: u8, small: u8, abc: [u16; 3], w: u32) -> Instr {
    let ([a0, a1], [b0, b1], [c0, c1]) = (
        abc[0].to_le_bytes(),
        abc[1].to_le_bytes(),
        abc[2].to_le_bytes(),
    );
    let [w0, w1, w2, w3] = w.to_le_bytes();
    [opcode, small, a0, a1, b0, b1, c0, c1, w0, w1, w2, w3]
}

pub const fn plain(opcode: u8) -> Instr {
    record(opcode, 0, [0; 3], 0)
}

pub const fn assert(cond: u16) -> Instr {
    record(2, 0, [cond, 0, 0], 0)
}

pub const fn load_quad(dst: u16, bits: u8) -> Instr {
    record(4, bits, [dst, 0, 0], 0)
}

pub const fn load_bool(dst: u16, truth: bool) -> Instr {
    record(5, truth as u8, [dst, 0, 0], 0)
}

pub const fn load_i32(dst: u16, number: i32) -> Instr {
    record(6, 0, [dst, 0, 0], number as u32)
}

pub const fn load_u32(dst: u16, number: u32) -> Instr {
    record(7, 0, [dst, 0, 0], number)
}

pub const fn load_fx(dst: u16, raw: i32) -> Instr {
    record(8, 0, [dst, 0, 0], raw as u32)
}

pub const fn add_i32(dst: u16, lhs: u16, rhs: u16) -> Instr {
    record(23, 0, [dst, lhs, rhs], 0)
}

pub const fn divide_i32(dst: u16, lhs: u16, rhs: u16) -> Instr {
    record(26, 0, [dst, lhs, rhs], 0)
}

pub const fn jump(target: u32) -> Instr {
    record(51, 0, [0; 3], target)
}

pub const fn call(dst: u16, function: u16, arg_base: u16, arg_count: u32) -> Instr {
    record(54, 0, [dst, function, arg_base], arg_count)
}

pub const fn ret(src: u16) -> Instr {
    record(55, 0, [src, 0, 0], 0)
}

fn put_function(image: &mut Vec<u8>, regs: u16, first: u32, count: u32) {
    image.extend(7u32.to_le_bytes());
    image.extend(regs.to_le_bytes());
    image.extend([0, 0]);
    image.extend(first.to_le_bytes());
    image.extend(count.to_le_bytes());
}

pub fn program(entry: u16, functions: &[Function]) -> Vec<u8> {
    let instrs: u32 = functions.iter().map(|(_, code)| code.len() as u32).sum();
    let table = 24 + 16 * functions.len() as u32;
    let mut image = Vec::new();
    image.extend(1u16.to_le_bytes());
    image.extend(entry.to_le_bytes());
    for word in [
        functions.len() as u32,
        instrs,
        24,
        table,
        table + 12 * instrs,
    ] {
        image.extend(word.to_le_bytes());
    }
    let mut first = 0;
    for (regs, code) in functions {
        put_function(&mut image, *regs, first, code.len() as u32);
        first += code.len() as u32;
    }
    image.extend(functions.iter().flat_map(|(_, code)| code.as_flattened()));
    image
}

/// The image with one byte changed.
pub fn patched(mut image: Vec<u8>, at: usize, byte: u8) -> Vec<u8> {
    image[at] = byte;
    image
}
