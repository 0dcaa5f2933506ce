//! Stand-in for the crate of this name, which is not on the machine.
//!
//! The source uses one macro of it, once: it holds the size of `Instr` to
//! twelve bytes. This one keeps that check: when the two sides differ, the
//! program does not compile.
#![no_std]

/// Refuses to compile unless both constant expressions are equal.
#[macro_export]
macro_rules! const_assert_eq {
    ($left:expr, $right:expr $(,)?) => {
        const _: () = assert!($left == $right);
    };
}
