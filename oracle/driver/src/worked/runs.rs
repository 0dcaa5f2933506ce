//! Runs with their outcomes written out by hand from document 01. They hold
//! the Rust and the reading to that document too, and not only all three to
//! each other.

mod calls;
mod rooms;
mod steps;

use semantic_core_runtime::CoreTrap;

use crate::digest::digest;
use crate::image::Record;
use crate::measure::Room;
use crate::program::{Function, Program};
use crate::reading::Limits;
use crate::verdict::Answer;
use crate::word::{word, BOOL, FX, I32, QUAD, U32};

/// Status, kind, payload and fuel used, with their digest: worked out apart
/// from this program, by document 01's rule.
pub const DIGESTS: [([u64; 4], u64); 7] = [
    ([0, 0, 0, 0], 0x4495_16d9_252b_e94f),
    ([0, 3, 4_294_967_295, 2], 0x6ffa_4144_d88d_4a53),
    ([1, 0, 0, 0], 0x79a7_b8ae_a7dc_7eec),
    ([10, 0, 0, 1], 0x31da_b482_0a46_0f7a),
    ([u64::MAX; 4], 0x9a6f_54fb_512d_9419),
    ([1 << 63, 1 << 32, 1 << 16, 1 << 40], 0x6ac9_1b82_2680_e94f),
    ([0, 5, 1 << 31, u64::MAX], 0xbc34_98a6_09e0_c3d3),
];

/// A run, what it shows, and the outcome that all sides must give.
///
/// Frames and registers are filled from the first on, and what is filled once
/// is never as it was lent again. So what a run leaves is the words written,
/// and after them the others as they were.
pub struct Worked {
    pub about: &'static str,
    pub image: Vec<u8>,
    pub limits: Limits,
    pub room: Room,
    pub answer: Answer,
    /// The frame words written, from the first on.
    pub frames: Vec<u64>,
    /// The register words written, from the first on.
    pub registers: Vec<u64>,
}

/// All of them.
pub fn all() -> Vec<Worked> {
    let mut list = List(Vec::new());
    steps::add(&mut list);
    calls::add(&mut list);
    rooms::add(&mut list);
    list.0
}

struct List(Vec<Worked>);

/// Image, fuel and depth limit.
type Asked = (Vec<u8>, u64, u16);
/// How many frame and register words are lent.
type Lent = (usize, usize);
/// Function, place, dst and first register.
type Frame = [u64; 4];

impl List {
    fn add(
        &mut self,
        about: &'static str,
        (image, fuel, max_call_depth): Asked,
        (frames, registers): Lent,
        answer: Answer,
        (frames_after, registers_after): (&[Frame], &[u64]),
    ) {
        self.0.push(Worked {
            about,
            image,
            limits: Limits {
                fuel,
                max_call_depth,
            },
            room: Room { frames, registers },
            answer,
            frames: frames_after.concat(),
            registers: registers_after.to_vec(),
        });
    }

    /// One function with fuel 100 that ends in its entry frame, at this place
    /// and with these registers. It is lent a word more than it has registers,
    /// and three frame words that are no record.
    fn single(
        &mut self,
        about: &'static str,
        instrs: &[Record],
        answer: Answer,
        place: u64,
        registers: &[u64],
    ) {
        let image = function(registers.len() as u16, instrs);
        let lent = (7, registers.len() + 1);
        let after = (&[[0, place, 0, 0]][..], registers);
        self.add(about, (image, 100, 1), lent, answer, after);
    }
}

fn returned(word: u64, used: u64) -> Answer {
    done(0, word, used)
}

fn trapped(trap: CoreTrap, used: u64) -> Answer {
    done(1 + u64::from(trap.code()), UNIT, used)
}

fn done(status: u64, word: u64, used: u64) -> Answer {
    let (kind, payload) = (word >> 32, word & 0xffff_ffff);
    let digest = digest([status, kind, payload, used]);
    Answer::new(0, &[status, kind, payload, used, digest])
}

fn refused(number: u64, answer: u64) -> Answer {
    Answer::new(number, &[answer])
}

/// A register that holds Unit.
const UNIT: u64 = 0;

fn quad(bits: u32) -> u64 {
    word(QUAD, bits)
}

fn boolean(truth: bool) -> u64 {
    word(BOOL, truth.into())
}

fn signed(number: i32) -> u64 {
    word(I32, number as u32)
}

fn unsigned(number: u32) -> u64 {
    word(U32, number)
}

fn fixed(raw: i32) -> u64 {
    word(FX, raw as u32)
}

fn program(entry: u16, functions: &[(u16, &[Record])]) -> Vec<u8> {
    let functions = functions
        .iter()
        .map(|(regs, instrs)| Function::new(*regs, instrs.to_vec()))
        .collect();
    Program { entry, functions }.image()
}

fn function(regs: u16, instrs: &[Record]) -> Vec<u8> {
    program(0, &[(regs, instrs)])
}
