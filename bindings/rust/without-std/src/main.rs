//! A program without the standard library that uses every call of `knitcauldron`. Its exit status is 0 if the answers are right.
//!
//! That it compiles is the point: it has a panic handler of its own, and a crate below it that took in the standard library would
//! bring a second one, which the compiler refuses. Nor does it have an allocator, so that nothing below it can allocate.

#![no_std]
#![no_main]

use core::panic::PanicInfo;

use knitcauldron::{
    digest, enough_room, event_id, event_id_in, execute, validate, Limits, Needed, Profile,
    Refusal, Room, Value, EVENT_ID_BYTES,
};

// What starts a program, and ends it, is in the C library; the standard library would have asked for it.
#[link(name = "c")]
extern "C" {
    fn abort() -> !;
}

/// Loads -1 and returns it.
#[rustfmt::skip] // sixteen bytes in each line
const IMAGE: [u8; 64] = [
    0x01, 0x00, 0x00, 0x00, 0x01, 0x00, 0x00, 0x00, 0x02, 0x00, 0x00, 0x00, 0x18, 0x00, 0x00, 0x00,
    0x28, 0x00, 0x00, 0x00, 0x40, 0x00, 0x00, 0x00, 0x07, 0x00, 0x00, 0x00, 0x01, 0x00, 0x00, 0x00,
    0x00, 0x00, 0x00, 0x00, 0x02, 0x00, 0x00, 0x00, 0x06, 0x00, 0x00, 0x00, 0x00, 0x00, 0x00, 0x00,
    0xff, 0xff, 0xff, 0xff, 0x37, 0x00, 0x00, 0x00, 0x00, 0x00, 0x00, 0x00, 0x00, 0x00, 0x00, 0x00,
];

const NEEDED: Needed = enough_room(Limits::DEFAULT.max_call_depth, 1);

fn night() -> Result<bool, Refusal> {
    let mut room = Room {
        frame_words: &mut [0; NEEDED.frame_words],
        register_words: &mut [0; NEEDED.register_words],
    };
    validate(&IMAGE, &Profile::SAFE)?;
    let run = execute(&IMAGE, Limits::DEFAULT, &mut room)?;
    let mut lent = [0; EVENT_ID_BYTES];
    let same = event_id_in(42, run.digest, &mut lent)? == event_id(42, run.digest).as_str();
    let value = run.returned() == Ok(Value::I32(-1));
    Ok(same && value && digest(0, 3, 0xffff_ffff, 2) == run.digest)
}

#[no_mangle]
extern "C" fn main() -> i32 {
    match night() {
        Ok(true) => 0,
        Ok(false) => 1,
        Err(refusal) => 100 + refusal.number() as i32,
    }
}

#[panic_handler]
fn stop(_: &PanicInfo<'_>) -> ! {
    // SAFETY: the function takes nothing and may be called at any time.
    unsafe { abort() }
}
