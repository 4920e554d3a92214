//! The engine's C interface (include/huztiral.h) as Rust functions on slices. The peer's structures have the same layouts.
use crate::peer::{Checked, Claimed, Ledger, Opened, Peeked, Ranked, Refusal, Stepped};

mod c {
    use super::*;

    /// An edition's bounds, their number and the total come first; a part is a pointer and a length.
    type Bounds = *const u8;

    unsafe extern "C" {
        pub fn huz_check(u: Bounds, n: usize, r: u32) -> Checked;
        pub fn huz_rank(u: Bounds, n: usize, r: u32, composition: *const u8, len: usize) -> Ranked;
        pub fn huz_unrank(u: Bounds, n: usize, r: u32, serial: u64, out: *mut u8, len: usize) -> Refusal;
        pub fn huz_successor(u: Bounds, n: usize, r: u32, composition: *const u8, len: usize) -> Stepped;
        pub fn huz_predecessor(u: Bounds, n: usize, r: u32, composition: *const u8, len: usize) -> Stepped;
        pub fn huz_batch(u: Bounds, n: usize, r: u32, serial: u64, copies: u64, out: *mut u8, len: usize) -> Refusal;
        pub fn huz_listing(u: Bounds, n: usize, r: u32, out: *mut u8, len: usize) -> Refusal;
        pub fn huz_permutation(u: Bounds, n: usize, r: u32, given: *const u8, len: usize, out: *mut u8, out_len: usize) -> Refusal;
        pub fn huz_inversions(u: Bounds, n: usize, r: u32, given: *const u8, len: usize, out: *mut u8, out_len: usize) -> Refusal;
        pub fn huz_major_permutation(u: Bounds, n: usize, r: u32, given: *const u8, len: usize, out: *mut u8, out_len: usize) -> Refusal;
        pub fn huz_major_code(u: Bounds, n: usize, r: u32, given: *const u8, len: usize, out: *mut u8, out_len: usize) -> Refusal;
        pub fn huz_order_passes(order: u32) -> bool;
        pub fn huz_open(u: Bounds, n: usize, r: u32, orders: *const u32, len: usize, items: *const u8, items_len: usize) -> Opened;
        pub fn huz_peek(ledger: Ledger, orders: *const u32, len: usize, items: *const u8, items_len: usize) -> Peeked;
        pub fn huz_claim(l: Ledger, orders: *mut u32, len: usize, items: *mut u8, items_len: usize, serial: u64, order: u32, item: u8) -> Claimed;
        pub fn huz_void(ledger: Ledger, orders: *mut u32, len: usize, items: *mut u8, items_len: usize, serial: u64) -> Claimed;
        pub fn huz_claim_all(
            ledger: Ledger,
            orders: *mut u32,
            len: usize,
            items: *mut u8,
            items_len: usize,
            serial: u64,
            bundle: *const u32,
            count: usize,
            bundle_items: *const u8,
            bundle_items_len: usize,
        ) -> Claimed;
    }
}

pub fn check(upper: &[u8], total: u32) -> Checked {
    unsafe { c::huz_check(upper.as_ptr(), upper.len(), total) }
}

pub fn rank(upper: &[u8], total: u32, g: &[u8]) -> Ranked {
    unsafe { c::huz_rank(upper.as_ptr(), upper.len(), total, g.as_ptr(), g.len()) }
}

pub fn unrank(upper: &[u8], total: u32, serial: u64, out: &mut [u8]) -> Refusal {
    unsafe { c::huz_unrank(upper.as_ptr(), upper.len(), total, serial, out.as_mut_ptr(), out.len()) }
}

pub fn successor(upper: &[u8], total: u32, g: &[u8]) -> Stepped {
    unsafe { c::huz_successor(upper.as_ptr(), upper.len(), total, g.as_ptr(), g.len()) }
}

pub fn predecessor(upper: &[u8], total: u32, g: &[u8]) -> Stepped {
    unsafe { c::huz_predecessor(upper.as_ptr(), upper.len(), total, g.as_ptr(), g.len()) }
}

pub fn batch(upper: &[u8], total: u32, serial: u64, copies: u64, out: &mut [u8]) -> Refusal {
    unsafe { c::huz_batch(upper.as_ptr(), upper.len(), total, serial, copies, out.as_mut_ptr(), out.len()) }
}

pub fn listing(upper: &[u8], total: u32, out: &mut [u8]) -> Refusal {
    unsafe { c::huz_listing(upper.as_ptr(), upper.len(), total, out.as_mut_ptr(), out.len()) }
}

pub fn permutation(upper: &[u8], total: u32, g: &[u8], out: &mut [u8]) -> Refusal {
    unsafe { c::huz_permutation(upper.as_ptr(), upper.len(), total, g.as_ptr(), g.len(), out.as_mut_ptr(), out.len()) }
}

pub fn inversions(upper: &[u8], total: u32, p: &[u8], out: &mut [u8]) -> Refusal {
    unsafe { c::huz_inversions(upper.as_ptr(), upper.len(), total, p.as_ptr(), p.len(), out.as_mut_ptr(), out.len()) }
}

pub fn major_permutation(upper: &[u8], total: u32, g: &[u8], out: &mut [u8]) -> Refusal {
    unsafe { c::huz_major_permutation(upper.as_ptr(), upper.len(), total, g.as_ptr(), g.len(), out.as_mut_ptr(), out.len()) }
}

pub fn major_code(upper: &[u8], total: u32, p: &[u8], out: &mut [u8]) -> Refusal {
    unsafe { c::huz_major_code(upper.as_ptr(), upper.len(), total, p.as_ptr(), p.len(), out.as_mut_ptr(), out.len()) }
}

pub fn order_passes(order: u32) -> bool {
    unsafe { c::huz_order_passes(order) }
}

pub fn open(upper: &[u8], total: u32, orders: &[u32], items: &[u8]) -> Opened {
    unsafe { c::huz_open(upper.as_ptr(), upper.len(), total, orders.as_ptr(), orders.len(), items.as_ptr(), items.len()) }
}

pub fn peek(ledger: Ledger, orders: &[u32], items: &[u8]) -> Peeked {
    unsafe { c::huz_peek(ledger, orders.as_ptr(), orders.len(), items.as_ptr(), items.len()) }
}

pub fn claim(ledger: Ledger, orders: &mut [u32], items: &mut [u8], serial: u64, order: u32, item: u8) -> Claimed {
    unsafe { c::huz_claim(ledger, orders.as_mut_ptr(), orders.len(), items.as_mut_ptr(), items.len(), serial, order, item) }
}

pub fn void(ledger: Ledger, orders: &mut [u32], items: &mut [u8], serial: u64) -> Claimed {
    unsafe { c::huz_void(ledger, orders.as_mut_ptr(), orders.len(), items.as_mut_ptr(), items.len(), serial) }
}

pub fn claim_all(ledger: Ledger, orders: &mut [u32], items: &mut [u8], serial: u64, (bundle, lines): (&[u32], &[u8])) -> Claimed {
    let (len, items_len) = (orders.len(), items.len());
    let (orders, items) = (orders.as_mut_ptr(), items.as_mut_ptr());
    unsafe { c::huz_claim_all(ledger, orders, len, items, items_len, serial, bundle.as_ptr(), bundle.len(), lines.as_ptr(), lines.len()) }
}
