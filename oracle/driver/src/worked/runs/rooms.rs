//! What is refused, and what is written before it is.

use semantic_core_runtime::CoreTrap::{InvalidFunction, InvalidPc};

use super::{function, program, refused, returned, trapped, unsigned, List, UNIT};
use crate::records::{call, load, plain, ret};

pub fn add(list: &mut List) {
    the_entry(list);
    an_entry_that_is_missing(list);
    at_a_call(list);
    without_registers(list);
    image_faults(list);
}

/// Nothing is written unless there is all the room for the entry frame.
fn the_entry(list: &mut List) {
    let image = || function(2, &[ret(0)]);
    let mut of = |about, lent, number| {
        list.add(about, (image(), 9, 1), lent, refused(number, 0), (&[], &[]));
    };
    of("no room at all", (0, 0), 6);
    of("no record, registers enough", (0, 2), 6);
    of("three words are no record", (3, 2), 6);
    of("a record, no registers", (4, 0), 7);
    of("a record, a register too few", (7, 1), 7);
    of("neither", (3, 1), 6);
    let frames = [[0, 0, 0, 0]];
    let after = (&frames[..], &[UNIT, UNIT][..]);
    let answer = returned(UNIT, 1);
    list.add("just enough", (image(), 9, 1), (4, 2), answer, after);
    list.add(
        "fuel 0, no room",
        (image(), 0, 0),
        (0, 0),
        refused(6, 0),
        (&[], &[]),
    );
}

fn an_entry_that_is_missing(list: &mut List) {
    let image = || program(1, &[(2, &[ret(0)])]);
    let none = || program(0, &[]);
    let answer = || trapped(InvalidFunction, 0);
    let mut of = |about, image, fuel, lent| {
        list.add(about, (image, fuel, 1), lent, answer(), (&[], &[]));
    };
    of("an entry at the count", image(), 9, (8, 8));
    of("and no fuel", image(), 0, (8, 8));
    of("and no room", image(), 9, (0, 0));
    of("no functions", none(), 9, (8, 8));
    of("no functions and no room", none(), 9, (0, 0));
    let far = program(65_535, &[(2, &[ret(0)])]);
    of("the entry 65535", far, 9, (8, 8));
}

/// The caller's place stays at the Call, and no word of the callee is there.
fn at_a_call(list: &mut List) {
    let caller = [load(7, 0, 0, 8), call(0, 1, 0, 1), ret(0)];
    let callee = [ret(0)];
    let image = || program(0, &[(1, &caller), (3, &callee)]);
    let mut of = |about, lent, number| {
        let after = (&[[0, 1, 0, 0]][..], &[unsigned(8)][..]);
        list.add(about, (image(), 9, 9), lent, refused(number, 2), after);
    };
    of("one record", (4, 9), 6);
    of("one record and three words", (7, 9), 6);
    of("two records, a word too few", (8, 3), 7);
    of("two records, no more words", (8, 1), 7);
    of("neither, at a Call", (7, 3), 6);
    let eight = unsigned(8);
    let frames = [[0, 2, 0, 0], [1, 0, 0, 1]];
    let registers = [eight, eight, UNIT, UNIT];
    let after = (&frames[..], &registers[..]);
    let answer = returned(eight, 4);
    list.add(
        "just enough for both",
        (image(), 9, 9),
        (8, 4),
        answer,
        after,
    );
    list.add("more than enough", (image(), 9, 9), (13, 9), answer, after);
}

/// A frame without registers needs no words, but a record all the same.
fn without_registers(list: &mut List) {
    let image = || function(0, &[plain(0)]);
    let after = (&[[0, 1, 0, 0]][..], &[][..]);
    let answer = trapped(InvalidPc, 1);
    list.add("a record, no words", (image(), 9, 1), (4, 0), answer, after);
    list.add(
        "no record, no words",
        (image(), 9, 1),
        (3, 0),
        refused(6, 0),
        (&[], &[]),
    );
}

/// Faults come before everything else and leave all as it was lent.
fn image_faults(list: &mut List) {
    let good = || program(5, &[(1, &[ret(0)]), (1, &[ret(0)])]);
    let mut of = |about, at: usize, byte, number, answer| {
        let mut image = good();
        image[at] = byte;
        for lent in [(0, 0), (8, 8)] {
            let answer = refused(number, answer);
            list.add(about, (image.clone(), 0, 0), lent, answer, (&[], &[]));
        }
    };
    of("a form other than 1", 0, 2, 2, 0);
    of("a length that differs", 20, 0, 3, 0);
    of("a zero field of a function", 46, 1, 4, 1);
    of("a sum that fails", 52, 2, 4, 2);
    of("an opcode that does not exist", 68, 56, 5, 1);
    let mut short = |about, length| {
        let image = good()[..length].to_vec();
        let number = if length < 24 { 1 } else { 3 };
        list.add(about, (image, 9, 1), (8, 8), refused(number, 0), (&[], &[]));
    };
    short("no bytes", 0);
    short("23 bytes", 23);
    short("24 bytes of more", 24);
}
