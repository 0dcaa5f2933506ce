//! Cases with their answers written out by hand from document 01. They hold
//! the Rust side to that document too, and not only the two sides together.

use semantic_core_runtime::CoreAdmissionProfile;

use crate::generate::{Case, BOUNDS};
use crate::image::Record;
use crate::program::{Function, Program, DOCUMENT_IMAGE};
use crate::records::{call, jump, jump_if, load, plain, ret, three, two};
use crate::text::hex_bytes;
use crate::verdict::Answer;

/// A case, what it shows, and the answer that both sides must give.
pub struct Worked {
    pub about: &'static str,
    pub case: Case,
    pub expected: Answer,
}

const SAFE: CoreAdmissionProfile = CoreAdmissionProfile::safe();
const ZERO: CoreAdmissionProfile = CoreAdmissionProfile {
    max_registers: 0,
    max_functions: 0,
    max_call_depth: 0,
    max_instrs_per_function: 0,
    max_fuel: 0,
};

/// All of them.
pub fn all() -> Vec<Worked> {
    let mut list = List(Vec::new());
    list.document();
    list.sizes_of_safe();
    list.sizes_of_the_bounds();
    list.far_instructions();
    list.zero_limits();
    list.unbounded_limits();
    list.program_as_a_whole();
    list.order_in_an_instruction();
    list.order_in_a_function();
    list.windows();
    list.lengths_and_form();
    list.layout();
    list.function_table();
    list.instruction_table();
    list.order_of_everything();
    list.0
}

struct List(Vec<Worked>);

impl List {
    fn add(
        &mut self,
        about: &'static str,
        profile: CoreAdmissionProfile,
        image: Vec<u8>,
        number: u64,
        values: &[u64],
    ) {
        self.0.push(Worked {
            about,
            case: Case { profile, image },
            expected: Answer::new(number, values),
        });
    }

    /// One function under `safe`.
    fn add_function(
        &mut self,
        about: &'static str,
        regs: u16,
        instrs: &[Record],
        number: u64,
        values: &[u64],
    ) {
        self.add(about, SAFE, function(regs, instrs), number, values);
    }

    /// The image of section "Runner", and the lines marked P.
    fn document(&mut self) {
        let image = hex_bytes(DOCUMENT_IMAGE.as_bytes()).unwrap_or_default();
        self.add("the image of document 01", SAFE, image, 0, &[]);
        self.add_function("regs 0, a lone Nop", 0, &[plain(0)], 19, &[0]);
        self.add_function("regs 0, a lone Ret", 0, &[ret(0)], 16, &[0, 0]);
        let calls = |base| [call(0, 0, base, 0), ret(0)];
        self.add_function("an empty window at 1 of 1", 1, &calls(1), 0, &[]);
        self.add_function("an empty window at 2 of 1", 1, &calls(2), 20, &[0, 2, 0]);
    }

    fn sizes_of_safe(&mut self) {
        self.add_function("256 registers", 256, &[ret(255)], 0, &[]);
        self.add_function("257 registers", 257, &[ret(0)], 14, &[0, 257, 256]);
        self.add("256 functions", SAFE, functions(256), 0, &[]);
        self.add("257 functions", SAFE, functions(257), 13, &[257, 256]);
        self.add("8192 instructions", SAFE, nops(8_192), 0, &[]);
        let values = [0, 8_193, 8_192];
        self.add("8193 instructions", SAFE, nops(8_193), 15, &values);
    }

    fn sizes_of_the_bounds(&mut self) {
        let registers = |regs| function(regs, &[ret(0)]);
        self.add("16384 registers", BOUNDS, registers(16_384), 0, &[]);
        let values = [0, 16_385, 16_384];
        self.add("16385 registers", BOUNDS, registers(16_385), 14, &values);
        self.add("4096 functions", BOUNDS, functions(4_096), 0, &[]);
        self.add(
            "4097 functions",
            BOUNDS,
            functions(4_097),
            13,
            &[4_097, 4_096],
        );
        let values = [65_537, 4_096];
        self.add("65537 functions", BOUNDS, functions(65_537), 13, &values);
        let image = patched(&functions(65_537), 24 + 16 * 65_536 + 6, &[1]);
        self.add("a fault in the last of them", BOUNDS, image, 4, &[65_536]);
        self.add("1000000 instructions", BOUNDS, nops(1_000_000), 0, &[]);
        let values = [0, 1_000_001, 1_000_000];
        self.add("1000001 instructions", BOUNDS, nops(1_000_001), 15, &values);
    }

    /// More instructions than 16 bits can number.
    fn far_instructions(&mut self) {
        let with = |at: usize, record| {
            let mut instrs = vec![plain(0); 70_000];
            (instrs[at], instrs[69_999]) = (record, ret(0));
            function(1, &instrs)
        };
        let image = with(65_536, plain(56));
        self.add("an opcode far off", BOUNDS, image, 5, &[65_536]);
        let image = with(0, jump(69_999));
        self.add("a jump far off", BOUNDS, image, 0, &[]);
        let image = with(65_537, jump(70_000));
        self.add("a jump to the length", BOUNDS, image, 17, &[0, 70_000]);
        let image = with(65_538, jump(65_536 + 70_000));
        self.add("a jump past it", BOUNDS, image, 17, &[0, 135_536]);
    }

    /// From the last field to the first, each one hiding those after it.
    fn zero_limits(&mut self) {
        let mut profile = BOUNDS;
        let image = || function(1, &[ret(0)]);
        self.add("every limit at its bound", profile, image(), 0, &[]);
        profile.max_fuel = 0;
        self.add("fuel 0", profile, image(), 10, &[0, 5]);
        profile.max_instrs_per_function = 0;
        self.add("instructions 0", profile, image(), 10, &[0, 4]);
        profile.max_call_depth = 0;
        self.add("depth 0", profile, image(), 10, &[0, 3]);
        profile.max_functions = 0;
        self.add("functions 0", profile, image(), 10, &[0, 2]);
        profile.max_registers = 0;
        self.add("registers 0", profile, image(), 10, &[0, 1]);
    }

    /// The same with limits past their bound, and then a 0 behind all of them.
    fn unbounded_limits(&mut self) {
        let mut profile = BOUNDS;
        let image = || function(1, &[ret(0)]);
        profile.max_fuel += 1;
        self.add("fuel past its bound", profile, image(), 10, &[1, 5]);
        profile.max_instrs_per_function += 1;
        self.add("instructions past it", profile, image(), 10, &[1, 4]);
        profile.max_call_depth += 1;
        self.add("depth past it", profile, image(), 10, &[1, 3]);
        profile.max_functions += 1;
        self.add("functions past it", profile, image(), 10, &[1, 2]);
        profile.max_registers += 1;
        self.add("registers past it", profile, image(), 10, &[1, 1]);
        profile.max_fuel = 0;
        self.add("zeros come first", profile, image(), 10, &[0, 5]);
    }

    fn program_as_a_whole(&mut self) {
        self.add("no functions", SAFE, program(9, &[]), 11, &[]);
        let lone = Function::new(1, vec![ret(0)]);
        let twice = [lone.clone(), lone.clone()];
        self.add("the last entry", SAFE, program(1, &twice), 0, &[]);
        self.add("an entry at the count", SAFE, program(2, &twice), 12, &[2]);
        self.add(
            "the entry 65535",
            SAFE,
            program(65_535, &twice),
            12,
            &[65_535],
        );
        let one = CoreAdmissionProfile {
            max_functions: 1,
            ..SAFE
        };
        let image = program(7, &twice);
        self.add("too many before the entry", one, image, 13, &[2, 1]);
        self.add(
            "no functions before the profile's 1",
            one,
            program(0, &[]),
            11,
            &[],
        );
    }

    fn order_in_an_instruction(&mut self) {
        let mut add = |about, record, number, values: &[u64]| {
            self.add_function(about, 2, &[record, ret(0)], number, values);
        };
        add("dst first", three(23, 4, 5, 6), 16, &[0, 4]);
        add("then lhs", three(23, 1, 5, 6), 16, &[0, 5]);
        add("then rhs", three(23, 1, 1, 6), 16, &[0, 6]);
        add("all in place", three(23, 1, 1, 1), 0, &[]);
        add("dst before src", two(50, 2, 3), 16, &[0, 2]);
        add("src", two(9, 0, 2), 16, &[0, 2]);
        add("a load's dst", load(8, 65_535, 0, 0), 16, &[0, 65_535]);
        add(
            "an Assert's condition",
            Record { a: 2, ..plain(2) },
            16,
            &[0, 2],
        );
        add("condition first", jump_if(52, 2, 9), 16, &[0, 2]);
        add("then the target", jump_if(53, 1, 2), 17, &[0, 2]);
        add("a jump to the last", jump(1), 0, &[]);
        add("a jump past any", jump(u32::MAX), 17, &[0, 4_294_967_295]);
        add("a Call's dst first", call(9, 8, 7, 6), 16, &[0, 9]);
        add("then its function", call(1, 8, 7, 6), 18, &[0, 8]);
        add("then its window", call(1, 0, 7, 6), 20, &[0, 7, 6]);
    }

    fn order_in_a_function(&mut self) {
        let tight = CoreAdmissionProfile {
            max_registers: 1,
            max_instrs_per_function: 1,
            ..SAFE
        };
        let image = function(2, &[plain(0), plain(0)]);
        self.add("registers first", tight, image, 14, &[0, 2, 1]);
        let image = function(1, &[jump(2), plain(0)]);
        self.add("then the length", tight, image, 15, &[0, 2, 1]);
        let first = [jump(2), ret(5)];
        self.add_function("then instructions in order", 1, &first, 17, &[0, 2]);
        self.add_function("then the Ret", 1, &[jump(0)], 19, &[0]);
        self.add_function("no instructions at all", 0, &[], 19, &[0]);
        let early = [ret(0), plain(0)];
        self.add_function("a Ret anywhere", 1, &early, 0, &[]);
        let good = Function::new(1, vec![ret(0)]);
        let bad = Function::new(1, vec![three(23, 0, 0, 1), ret(0)]);
        let image = program(0, &[good.clone(), bad.clone()]);
        self.add("the second function", SAFE, image, 16, &[1, 1]);
        let open = Function::new(1, vec![plain(0)]);
        let image = program(0, &[good, open, bad]);
        self.add("one function after the other", SAFE, image, 19, &[1]);
    }

    fn windows(&mut self) {
        let mut add = |about, base, count, number, values: &[u64]| {
            let caller = Function::new(4, vec![call(0, 1, base, count), ret(0)]);
            let callee = Function::new(2, vec![ret(1)]);
            self.add(about, SAFE, program(0, &[caller, callee]), number, values);
        };
        add(
            "a window that ends with the caller's registers",
            2,
            2,
            0,
            &[],
        );
        add("a window one past them", 3, 2, 20, &[0, 3, 2]);
        add(
            "as many arguments as the callee has registers",
            0,
            2,
            0,
            &[],
        );
        add("one argument more", 0, 3, 20, &[0, 0, 3]);
        add("an empty window at the end", 4, 0, 0, &[]);
        add(
            "an end that 16 bits would make 0",
            65_535,
            1,
            20,
            &[0, 65_535, 1],
        );
        let values = [0, 65_535, 65_535];
        add("the largest window", 65_535, 65_535, 20, &values);
    }

    fn lengths_and_form(&mut self) {
        self.add("no bytes", SAFE, Vec::new(), 1, &[0]);
        self.add("23 bytes", SAFE, vec![1; 23], 1, &[0]);
        self.add("24 bytes of form 0", SAFE, vec![0; 24], 2, &[0]);
        let good = function(1, &[ret(0)]);
        for form in [0u16, 2, 256, 257, 65_535] {
            let image = patched(&good, 0, &form.to_le_bytes());
            self.add("a form other than 1", SAFE, image, 2, &[0]);
        }
    }

    fn layout(&mut self) {
        let good = function(1, &[ret(0)]);
        let mut longer = good.clone();
        longer.push(0);
        self.add("one byte more", SAFE, longer, 3, &[0]);
        let shorter = good[..good.len() - 1].to_vec();
        self.add("one byte less", SAFE, shorter, 3, &[0]);
        for at in [4, 8, 12, 16, 20] {
            let image = patched(&good, at, &[good[at] + 1]);
            self.add("a header field one more", SAFE, image, 3, &[0]);
        }
        let image = patched(&good, 7, &[0x10]);
        self.add("2^28 functions more", SAFE, image, 3, &[0]);
        let image = patched(&good, 11, &[0x40]);
        self.add("2^30 instructions more", SAFE, image, 3, &[0]);
    }

    /// Two functions of one Ret each; their records stand at 24 and 40.
    fn function_table(&mut self) {
        let good = functions(2);
        let mut add = |about, at, byte, values: &[u64]| {
            self.add(about, SAFE, patched(&good, at, &[byte]), 4, values);
        };
        add("a zero field that is not 0", 30, 1, &[0]);
        add("its upper byte", 47, 1, &[1]);
        add("a first function that starts at 1", 32, 1, &[0]);
        add("a second that starts at 0", 48, 0, &[1]);
        add("a count that the next one does not join", 36, 2, &[1]);
        add("a sum that fails", 52, 2, &[2]);
        let joins = patched(&patched(&good, 39, &[0x80]), 51, &[0x80]);
        let joins = patched(&joins, 55, &[0x80]);
        self.add("a sum that 32 bits would make right", SAFE, joins, 4, &[2]);
        let mut alone = crate::program::header(0, 0, 1);
        alone.extend([0; 12]);
        self.add("an instruction of no function", SAFE, alone, 4, &[0]);
    }

    fn instruction_table(&mut self) {
        let mut add = |about, record, number, values: &[u64]| {
            self.add_function(about, 2, &[plain(0), record, ret(0)], number, values);
        };
        add("opcode 56", plain(56), 5, &[1]);
        add("opcode 255", plain(255), 5, &[1]);
        add("Quad 3", load(4, 0, 3, 0), 0, &[]);
        add("Quad 4", load(4, 0, 4, 0), 5, &[1]);
        add("Bool 1", load(5, 0, 1, 0), 0, &[]);
        add("Bool 2", load(5, 0, 2, 0), 5, &[1]);
        add("a Unit with w", load(3, 0, 0, 1), 5, &[1]);
        add("an I32 with small", load(6, 0, 1, 0), 5, &[1]);
        add("a Nop with a", Record { a: 1, ..plain(0) }, 5, &[1]);
        add("a Jump with a", Record { a: 1, ..jump(0) }, 5, &[1]);
        add("a Ret with b", Record { b: 1, ..ret(0) }, 5, &[1]);
        add("a Move with c", three(50, 0, 0, 1), 5, &[1]);
        let window = [0, 0, 65_535];
        add("65535 arguments", call(0, 0, 0, 65_535), 20, &window);
        add("65536 arguments", call(0, 0, 0, 65_536), 5, &[1]);
    }

    /// Two faults each, of which the earlier one is the answer.
    fn order_of_everything(&mut self) {
        let wrong = functions(2);
        let opcode = patched(&wrong, 56, &[56]);
        self.add("an opcode, no limits", ZERO, opcode.clone(), 5, &[0]);
        let table = patched(&opcode, 46, &[1]);
        self.add(
            "the functions before an opcode",
            SAFE,
            table.clone(),
            4,
            &[1],
        );
        let layout = patched(&table, 20, &[0]);
        self.add(
            "the layout before the functions",
            SAFE,
            layout.clone(),
            3,
            &[0],
        );
        let form = patched(&layout, 0, &[2]);
        self.add("the form before the layout", SAFE, form.clone(), 2, &[0]);
        self.add(
            "the length before the form",
            SAFE,
            form[..23].to_vec(),
            1,
            &[0],
        );
        let empty = program(0, &[]);
        self.add("the profile before the program", ZERO, empty, 10, &[0, 1]);
        let late = patched(&opcode, 68, &[56]);
        self.add("the first of two opcodes", SAFE, late, 5, &[0]);
    }
}

fn program(entry: u16, functions: &[Function]) -> Vec<u8> {
    let functions = functions.to_vec();
    Program { entry, functions }.image()
}

fn function(regs: u16, instrs: &[Record]) -> Vec<u8> {
    Program::single(regs, instrs.to_vec()).image()
}

/// So many functions of one register and one Ret.
fn functions(count: usize) -> Vec<u8> {
    program(0, &vec![Function::new(1, vec![ret(0)]); count])
}

/// One function of so many instructions, all Nop but the last.
fn nops(count: usize) -> Vec<u8> {
    let mut instrs = vec![plain(0); count - 1];
    instrs.push(ret(0));
    function(1, &instrs)
}

fn patched(image: &[u8], at: usize, bytes: &[u8]) -> Vec<u8> {
    let mut copy = image.to_vec();
    copy[at..at + bytes.len()].copy_from_slice(bytes);
    copy
}
