//! Our engine, as its archive exports it. All that is unsafe stands here.

extern "C" {
    fn knit_execute(
        image: *const u8,
        image_len: usize,
        fuel: u64,
        max_call_depth: u16,
        frames: *mut u64,
        frames_len: usize,
        registers: *mut u64,
        registers_len: usize,
        answer: *mut u64,
    ) -> u64;
}

/// Runs an image in lent memory and gives the call's number.
pub fn execute(
    image: &[u8],
    fuel: u64,
    max_call_depth: u16,
    frames: &mut [u64],
    registers: &mut [u64],
    answer: &mut [u64; 5],
) -> u64 {
    // SAFETY: each pointer goes with the length of its own slice, the answer has
    // the five words that the call writes, and borrows keep all four apart.
    unsafe {
        knit_execute(
            image.as_ptr(),
            image.len(),
            fuel,
            max_call_depth,
            frames.as_mut_ptr(),
            frames.len(),
            registers.as_mut_ptr(),
            registers.len(),
            answer.as_mut_ptr(),
        )
    }
}
