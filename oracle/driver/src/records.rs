//! Instruction records put together by hand, for worked cases and tests.

use crate::image::Record;

/// A record that uses no field but its opcode.
pub fn plain(opcode: u8) -> Record {
    Record {
        opcode,
        ..Record::default()
    }
}

pub fn ret(src: u16) -> Record {
    Record {
        a: src,
        ..plain(55)
    }
}

pub fn jump(target: u32) -> Record {
    Record {
        w: target,
        ..plain(51)
    }
}

/// A jump on a condition: opcode 52 if it is true, 53 if it is false.
pub fn jump_if(opcode: u8, cond: u16, target: u32) -> Record {
    Record {
        a: cond,
        w: target,
        ..plain(opcode)
    }
}

/// A load: opcode, destination, small, w.
pub fn load(opcode: u8, dst: u16, small: u8, w: u32) -> Record {
    Record {
        a: dst,
        small,
        w,
        ..plain(opcode)
    }
}

pub fn two(opcode: u8, dst: u16, src: u16) -> Record {
    three(opcode, dst, src, 0)
}

pub fn three(opcode: u8, dst: u16, lhs: u16, rhs: u16) -> Record {
    Record {
        a: dst,
        b: lhs,
        c: rhs,
        ..plain(opcode)
    }
}

pub fn call(dst: u16, function: u16, base: u16, count: u32) -> Record {
    Record {
        a: dst,
        b: function,
        c: base,
        w: count,
        ..plain(54)
    }
}
