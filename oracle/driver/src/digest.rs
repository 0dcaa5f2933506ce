//! Document 01's digest, written from its section "Digest and identifier".

const OFFSET: u64 = 0xcbf2_9ce4_8422_2325;
/// FNV's own prime is 2^40+435; the Rust has this one, and it decides.
const PRIME: u64 = (1 << 44) + 435;

/// The digest of status, kind, payload and fuel used, whatever they are. The
/// fourth of its five words is always 0.
pub fn digest([status, kind, payload, used]: [u64; 4]) -> u64 {
    [status, kind, payload, 0, used]
        .iter()
        .fold(OFFSET, |sum, word| (sum ^ word).wrapping_mul(PRIME))
}
