//! The two engines, each ready to run one program again and again.

use std::hint::black_box;

use oracle::image;
use oracle::program::Program;
use oracle::word::kind_and_payload;
use semantic_core_exec::{
    CoreConfig, CoreExecutor, CoreProgram, CoreResult, CoreResultDigest, CoreStatus,
};

use crate::ffi;

/// Far more than any workload needs.
const FUEL: u64 = 1_000_000_000;
const MAX_CALL_DEPTH: u16 = 64;

/// Our engine. The memory it is lent is made once and not cleared between runs;
/// the image is checked in each run.
pub struct Ours {
    image: Vec<u8>,
    frames: Vec<u64>,
    registers: Vec<u64>,
}

impl Ours {
    pub fn new(program: &Program) -> Self {
        let depth = usize::from(MAX_CALL_DEPTH);
        let most = program.functions.iter().map(|f| f.regs).max().unwrap_or(0);
        Self {
            image: program.image(),
            frames: vec![0; 4 * depth],
            registers: vec![0; depth * usize::from(most)],
        }
    }

    /// The call's number and its five words.
    pub fn run(&mut self) -> (u64, [u64; 5]) {
        let mut answer = [0; 5];
        let number = ffi::execute(
            black_box(&self.image),
            FUEL,
            MAX_CALL_DEPTH,
            &mut self.frames,
            &mut self.registers,
            &mut answer,
        );
        black_box((number, answer))
    }
}

/// The original engine, its program read from the same image beforehand.
pub struct Original {
    program: CoreProgram,
    executor: CoreExecutor,
}

impl Original {
    /// Nothing where the program's image is none.
    pub fn new(program: &Program) -> Option<Self> {
        let mut config = CoreConfig::default();
        config.fuel = FUEL;
        config.max_call_depth = MAX_CALL_DEPTH;
        Some(Self {
            program: image::read(&program.image()).ok()?,
            executor: CoreExecutor::new(config),
        })
    }

    pub fn run(&self) -> CoreResult {
        black_box(self.executor.execute_outcome(black_box(&self.program)))
    }
}

/// What our engine must answer if it is right.
pub fn answer_of(result: &CoreResult) -> (u64, [u64; 5]) {
    let status = match result.status {
        CoreStatus::Returned => 0,
        CoreStatus::Trapped(trap) => 1 + u64::from(trap.code()),
    };
    let (kind, payload) = kind_and_payload(result.return_value);
    let digest = CoreResultDigest::from_result(result).0;
    let words = [status, kind, u64::from(payload), result.fuel_used, digest];
    (0, words)
}
