//! Stands in for every clamp and every narrowing cast of picus: the same value, and a note that it was not exact.

use std::sync::atomic::{AtomicBool, Ordering};

static CLAMPED: AtomicBool = AtomicBool::new(false);
static CUT: AtomicBool = AtomicBool::new(false);

/// What was noted since the last call, as the end of an answer.
pub fn taken() -> &'static str {
    match (CLAMPED.swap(false, Ordering::Relaxed), CUT.swap(false, Ordering::Relaxed)) {
        (false, false) => "",
        (true, false) => " clamped",
        (false, true) => " cut",
        (true, true) => " clamped cut",
    }
}

macro_rules! clamp {
    ($name:ident, $type:ty, $checked:ident, $saturating:ident) => {
        pub fn $name(a: $type, b: $type) -> $type {
            if a.$checked(b).is_none() {
                CLAMPED.store(true, Ordering::Relaxed);
            }
            a.$saturating(b)
        }
    };
}

clamp!(add_i64, i64, checked_add, saturating_add);
clamp!(sub_i64, i64, checked_sub, saturating_sub);
clamp!(mul_i64, i64, checked_mul, saturating_mul);
clamp!(add_i128, i128, checked_add, saturating_add);
clamp!(mul_i128, i128, checked_mul, saturating_mul);
clamp!(add_u128, u128, checked_add, saturating_add);

/// `degree` of a coefficient list, cut to 32 bits.
pub fn low_u32(d: usize) -> u32 {
    if u32::try_from(d).is_err() {
        CUT.store(true, Ordering::Relaxed);
    }
    d as u32
}

/// A threshold of the masks, cut to 16 bits.
pub fn threshold(t: u32) -> u16 {
    if u16::try_from(t).is_err() {
        CUT.store(true, Ordering::Relaxed);
    }
    t.min(u16::MAX as u32) as u16
}
