//! Calls and returns.

use semantic_core_runtime::CoreTrap::{
    CallDepthExceeded, ExplicitTrap, FuelExceeded, InvalidFunction, InvalidPc, InvalidRegister,
};

use super::{function, program, returned, trapped, unsigned, Answer, Frame, List, UNIT};
use crate::image::Record;
use crate::records::{call, load, plain, ret, three};

pub fn add(list: &mut List) {
    depth(list);
    order_in_a_call(list);
    windows(list);
    many_arguments(list);
    arguments_then_unit(list);
    a_dst_that_is_missing(list);
    a_dropped_frame_stays(list);
    registers_used_again(list);
    inside_a_callee(list);
    frames_as_deep_as_can_be(list);
}

/// A function without registers that calls itself for ever.
fn endless() -> Vec<u8> {
    function(0, &[call(0, 0, 0, 0)])
}

/// The limit counts frames, the entry's too, but never keeps that one out.
fn depth(list: &mut List) {
    let image = function(1, &[call(0, 9, 0, 0), ret(0)]);
    let after = (&[[0, 0, 0, 0]][..], &[UNIT][..]);
    let answer = trapped(CallDepthExceeded, 1);
    list.add(
        "depth 0, no such function",
        (image, 5, 0),
        (8, 4),
        answer,
        after,
    );
    let image = function(1, &[ret(0)]);
    let answer = returned(UNIT, 1);
    list.add("depth 0 and no Call", (image, 5, 0), (4, 1), answer, after);
    let mut of = |about, depth, used, frames: &[Frame]| {
        let answer = trapped(CallDepthExceeded, used);
        list.add(about, (endless(), 9, depth), (16, 0), answer, (frames, &[]));
    };
    of("depth 1", 1, 1, &[[0, 0, 0, 0]]);
    of("depth 2", 2, 2, &[[0, 1, 0, 0], [0, 0, 0, 0]]);
    let three = [[0, 1, 0, 0], [0, 1, 0, 0], [0, 0, 0, 0]];
    of("depth 3", 3, 3, &three);
    let image = endless();
    let after = (&[[0, 1, 0, 0], [0, 0, 0, 0]][..], &[][..]);
    let answer = trapped(FuelExceeded, 1);
    list.add("no fuel below", (image, 1, 9), (16, 0), answer, after);
}

/// Everything is wrong with the Call, the room too: what is put right from one
/// case to the next is the answer before.
fn order_in_a_call(list: &mut List) {
    let mut of = |about, record, depth, lent, answer| {
        let image = function(2, &[record, ret(0)]);
        let after = (&[[0, 0, 0, 0]][..], &[UNIT, UNIT][..]);
        list.add(about, (image, 9, depth), lent, answer, after);
    };
    let all = call(9, 9, 9, 9);
    let tight = (4, 2);
    of(
        "the depth first",
        all,
        1,
        tight,
        trapped(CallDepthExceeded, 1),
    );
    of(
        "then the function",
        all,
        2,
        tight,
        trapped(InvalidFunction, 1),
    );
    let window = call(9, 0, 9, 9);
    of(
        "then the window",
        window,
        2,
        tight,
        trapped(InvalidRegister, 1),
    );
    let empty = call(9, 0, 9, 0);
    of("then the record", empty, 2, tight, Answer::new(6, &[1]));
    of(
        "three words are none",
        empty,
        2,
        (7, 3),
        Answer::new(6, &[1]),
    );
    of("then the registers", empty, 2, (8, 3), Answer::new(7, &[1]));
}

/// A caller of three registers and a callee of two.
fn windows(list: &mut List) {
    let image = |base, count| {
        let caller = [load(7, 2, 0, 5), call(0, 1, base, count), ret(0)];
        program(0, &[(3, &caller), (2, &[ret(0)])])
    };
    let five = unsigned(5);
    let mut passes = |about, base, count, argument, result| {
        let frames = [[0, 2, 0, 0], [1, 0, 0, 3]];
        let registers = [result, UNIT, five, result, argument];
        let answer = returned(result, 4);
        let after = (&frames[..], &registers[..]);
        list.add(about, (image(base, count), 9, 2), (8, 5), answer, after);
    };
    passes("a window at the end", 1, 2, five, UNIT);
    passes("one register of it", 2, 1, UNIT, five);
    passes("an empty one far past it", 65_535, 0, UNIT, UNIT);
    let mut fails = |about, base, count| {
        let after = (&[[0, 1, 0, 0]][..], &[UNIT, UNIT, five][..]);
        let answer = trapped(InvalidRegister, 2);
        list.add(about, (image(base, count), 9, 2), (8, 5), answer, after);
    };
    fails("a window one past the caller's", 2, 2);
    fails("one more than the callee's", 0, 3);
    fails("an end that 16 bits make 0", 65_535, 1);
    fails("the largest window", 65_535, 65_535);
}

/// As many as there can be: the third frame's registers begin past 16 bits.
fn many_arguments(list: &mut List) {
    let most = 65_535usize;
    let instrs = [load(7, 65_534, 0, 9), call(0, 0, 0, 65_535), ret(65_534)];
    let mut registers = vec![UNIT; 3 * most];
    for last in [1, 2, 3] {
        registers[last * most - 1] = unsigned(9);
    }
    let frames = [[0, 2, 0, 0], [0, 2, 0, 65_535], [0, 1, 0, 131_070]];
    list.add(
        "65535 arguments, twice",
        (function(65_535, &instrs), 20, 3),
        (12, 3 * most),
        trapped(CallDepthExceeded, 6),
        (&frames, &registers),
    );
    let frames = [[0, 2, 0, 0], [0, 1, 0, 65_535]];
    list.add(
        "a word too few for the third frame",
        (function(65_535, &instrs), 20, 3),
        (12, 3 * most - 1),
        Answer::new(7, &[4]),
        (&frames, &registers[..2 * most]),
    );
}

/// The callee's other registers are Unit, whatever stood there before.
fn arguments_then_unit(list: &mut List) {
    let caller = [load(7, 0, 0, 7), load(7, 1, 0, 8), call(0, 1, 0, 2)];
    let callee = [plain(1)];
    let image = program(0, &[(2, &caller), (4, &callee)]);
    let (seven, eight) = (unsigned(7), unsigned(8));
    list.add(
        "two arguments of four registers",
        (image, 9, 2),
        (8, 6),
        trapped(ExplicitTrap, 4),
        (
            &[[0, 3, 0, 0], [1, 0, 0, 2]],
            &[seven, eight, seven, eight, UNIT, UNIT],
        ),
    );
}

/// A Call does not look at dst. The Ret does, and drops nothing then.
fn a_dst_that_is_missing(list: &mut List) {
    let caller = [call(1, 1, 0, 0), ret(0)];
    let callee = [load(7, 2, 0, 5), ret(2)];
    let image = || program(0, &[(1, &caller), (3, &callee)]);
    let after = [UNIT, UNIT, UNIT, unsigned(5)];
    let frames = [[0, 1, 0, 0], [1, 1, 1, 1]];
    let answer = trapped(InvalidRegister, 3);
    let both = (&frames[..], &after[..]);
    list.add(
        "a dst of the callee's only",
        (image(), 9, 2),
        (8, 4),
        answer,
        both,
    );
    let frames = [[0, 1, 0, 0], [1, 0, 1, 1]];
    let answer = trapped(FuelExceeded, 1);
    let both = (&frames[..], &[UNIT; 4][..]);
    list.add(
        "the Call itself passes",
        (image(), 1, 2),
        (8, 4),
        answer,
        both,
    );
    let caller = [call(65_535, 1, 0, 0)];
    let image = program(0, &[(1, &caller), (0, &[ret(0)])]);
    let frames = [[0, 1, 0, 0], [1, 0, 65_535, 1]];
    let answer = trapped(InvalidRegister, 2);
    let both = (&frames[..], &[UNIT][..]);
    list.add(
        "a Ret's src before dst",
        (image, 9, 2),
        (8, 1),
        answer,
        both,
    );
}

/// The record of a dropped frame keeps the place of its Ret, and its registers
/// their values; the caller's dst alone is written.
fn a_dropped_frame_stays(list: &mut List) {
    let caller = [call(1, 1, 0, 0), plain(0), ret(1)];
    let callee = [load(7, 0, 0, 4), load(7, 1, 0, 6), ret(1)];
    let image = || program(0, &[(2, &caller), (2, &callee)]);
    let frames = |place| [[0, place, 0, 0], [1, 2, 1, 2]];
    let registers = [UNIT, unsigned(6), unsigned(4), unsigned(6)];
    let mut of = |about, fuel, answer, place| {
        let after = (&frames(place)[..], &registers[..]);
        list.add(about, (image(), fuel, 2), (8, 4), answer, after);
    };
    of("right after the Ret", 4, trapped(FuelExceeded, 4), 1);
    of("at the end", 6, returned(unsigned(6), 6), 2);
}

/// The second callee is smaller, so one word of the first is left.
fn registers_used_again(list: &mut List) {
    let caller = [call(0, 1, 0, 0), call(0, 2, 0, 0), ret(0)];
    let first = [load(7, 0, 0, 1), load(7, 1, 0, 2), ret(1)];
    let second = [ret(0)];
    let image = program(0, &[(1, &caller), (2, &first), (1, &second)]);
    list.add(
        "registers that are used again",
        (image, 20, 2),
        (8, 3),
        returned(UNIT, 7),
        (&[[0, 2, 0, 0], [2, 0, 0, 1]], &[UNIT, UNIT, unsigned(2)]),
    );
}

/// Registers and places of the callee are its own.
fn inside_a_callee(list: &mut List) {
    let caller = [load(7, 0, 0, 3), call(0, 0, 0, 1), ret(0)];
    let mut of = |about, callee: &[Record], answer, place, registers: [u64; 3]| {
        let image = program(1, &[(2, callee), (1, &caller)]);
        let frames = [[1, 2, 0, 0], [0, place, 0, 1]];
        let after = (&frames[..], &registers[..]);
        list.add(about, (image, 9, 2), (8, 3), answer, after);
    };
    let (own, twice) = (unsigned(3), unsigned(6));
    let doubled = [three(32, 1, 0, 0), ret(1)];
    let answer = returned(twice, 5);
    of("a sum below", &doubled, answer, 1, [twice, own, twice]);
    let answer = trapped(InvalidPc, 3);
    of(
        "past the callee's last",
        &[plain(0)],
        answer,
        1,
        [own, own, UNIT],
    );
    let answer = trapped(InvalidRegister, 3);
    of(
        "a src past the callee's",
        &[ret(2)],
        answer,
        0,
        [own, own, UNIT],
    );
}

/// 65,535 frames, and one record less.
fn frames_as_deep_as_can_be(list: &mut List) {
    let frames = |count: usize| {
        let mut frames = vec![[0, 1, 0, 0]; count];
        frames[count - 1][1] = 0;
        frames
    };
    let most = 65_535;
    list.add(
        "65535 frames",
        (endless(), 70_000, most),
        (4 * 65_535, 0),
        trapped(CallDepthExceeded, 65_535),
        (&frames(65_535), &[]),
    );
    list.add(
        "a record less than 65535",
        (endless(), 70_000, most),
        (4 * 65_535 - 1, 0),
        Answer::new(6, &[65_534]),
        (&frames(65_534), &[]),
    );
}
