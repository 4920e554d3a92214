//! The check digit of an order number.

/// The sum of the digits, weighted 1, 3, 1, 3 and so on from the right, up to tens: up to tens a quotient is its last digit, and none waits for the
/// one before. Of the ways tried this is the fastest that needs no table (bench/reasons.md).
const fn weighted(order: u32) -> u64 {
    let n = order as u64;
    let once = n + n / 100 + n / 10_000 + n / 1_000_000 + n / 100_000_000;
    let thrice = n / 10 + n / 1_000 + n / 100_000 + n / 10_000_000 + n / 1_000_000_000;
    once + 3 * thrice
}

#[inline(always)]
pub fn passes(order: u32) -> bool {
    weighted(order) % 10 == 0
}

#[inline(never)]
pub fn order_passes(order: u32) -> bool {
    passes(order)
}

/// The order number with these digits before its check digit.
pub const fn numbered(before: u32) -> u32 {
    before * 10 + ((10 - weighted(before * 10) % 10) % 10) as u32
}
