//! Editions: 1 to 5, N, and the counting table.
use std::mem::MaybeUninit;

use super::types::*;

pub const LIMIT: u64 = i64::MAX as u64;
pub const CELLS: usize = 24 * 256 + 1;

const fn mahonian() -> [[u64; 121]; 17] {
    let mut m = [[0u64; 121]; 17];
    m[1][0] = 1;
    let mut k = 2;
    while k <= 16 {
        let mut r = 0;
        while r <= k * (k - 1) / 2 {
            let left = if r > 0 { m[k][r - 1] } else { 0 };
            let over = if r >= k { m[k - 1][r - k] } else { 0 };
            m[k][r] = left + m[k - 1][r] - over;
            r += 1;
        }
        k += 1;
    }
    m
}

static MAHONIAN: [[u64; 121]; 17] = mahonian();

pub fn is_staircase(upper: &[u8]) -> bool {
    upper.iter().rev().enumerate().all(|(i, &m)| m as usize == i + 1)
}

/// The sum of the bounds, or 1 to 4.
pub fn shape(upper: &[u8], total: u32) -> Result<usize, Refused> {
    if upper.is_empty() || upper.len() > 24 {
        return Err((1, 0));
    }
    if let Some(i) = upper.iter().position(|&m| m > 60) {
        return Err((2, i as u64 + 1));
    }
    if total > 255 {
        return Err((3, 0));
    }
    let all = upper.iter().map(|&m| m as usize).sum();
    if (all as u32) < total {
        return Err((4, 0));
    }
    Ok(all)
}

/// One row of the band from the row before it: cells for the sums from `low` on, each a window of `m + 1` cells. A window over the limit is seen
/// before anything wraps, since every cell before it is within the limit; without CAREFUL the numbers are known to be.
#[inline(always)]
fn slide<const CAREFUL: bool>(old: &[u64], old_low: usize, m: usize, low: usize, new: &mut [MaybeUninit<u64>]) -> bool {
    let old_end = old_low + old.len();
    let bottom = low.saturating_sub(m).max(old_low);
    let top = (low + 1).min(old_end);
    let (mut window, mut widest) = (0u64, 0u64);
    for &cell in &old[bottom - old_low..top - old_low] {
        window = window.wrapping_add(cell);
        widest |= if CAREFUL { window } else { 0 };
    }
    new[0].write(window);
    // then the window only grows, or moves, or stands still, or only shrinks
    let last = low + new.len() - 1;
    let grows = old_end.saturating_sub(low + 1).min(last - low);
    let holds = (old_low + m).saturating_sub(low).min(last - low);
    let (add, drop) = (&old[top - old_low..top - old_low + grows], &old[bottom - old_low..bottom - old_low + (last - low - holds)]);
    let both = grows.saturating_sub(holds);
    let (first, rest) = new[1..].split_at_mut(grows.min(holds));
    for (cell, &a) in first.iter_mut().zip(add) {
        window = window.wrapping_add(a);
        widest |= if CAREFUL { window } else { 0 };
        cell.write(window);
    }
    let (middle, end) = rest.split_at_mut(if both > 0 { both } else { holds - grows });
    if both > 0 {
        for ((cell, &a), &d) in middle.iter_mut().zip(&add[holds..]).zip(drop) {
            window = window.wrapping_add(a.wrapping_sub(d));
            widest |= if CAREFUL { window } else { 0 };
            cell.write(window);
        }
    } else {
        for cell in middle {
            cell.write(window);
        }
    }
    for (cell, &d) in end.iter_mut().zip(&drop[both..]) {
        window = window.wrapping_sub(d);
        cell.write(window);
    }
    widest <= LIMIT
}

/// The same, by the way that fits.
#[inline(always)]
fn row(within: bool, old: &[u64], old_low: usize, m: usize, low: usize, new: &mut [MaybeUninit<u64>]) -> bool {
    if old.len() <= 4 && new.len() <= 4 {
        return narrow(old, old_low, m, low, new);
    }
    if within {
        return slide::<false>(old, old_low, m, low, new);
    }
    slide::<true>(old, old_low, m, low, new)
}

/// The same for a row of few cells: each is the sum of what is in its window.
#[inline(always)]
fn narrow(old: &[u64], old_low: usize, m: usize, low: usize, new: &mut [MaybeUninit<u64>]) -> bool {
    let mut widest = 0u64;
    for (t, cell) in (low..).zip(new) {
        let mut window = 0u64;
        for (s, &c) in (old_low..).zip(old) {
            window = window.wrapping_add(if s <= t && t <= s + m { c } else { 0 });
            widest |= window;
        }
        cell.write(window);
    }
    widest <= LIMIT
}

/// The counting table: a row for each number of parts, cells for the sums from which the total can still be reached.
pub struct Table<'a> {
    pub cells: &'a [u64],
    pub start: [u16; 25],
    pub low: [u16; 25],
    pub left: [u16; 25],
}

pub fn fill<'a>(upper: &[u8], total: u32, all: usize, memory: &'a mut [MaybeUninit<u64>; CELLS]) -> Result<Table<'a>, Refused> {
    let few = few_rows(upper, total, all);
    let (mut start, mut low, mut left) = ([0u16; 25], [0u16; 25], [0u16; 25]);
    let total = total as usize;
    memory[0].write(1);
    let (mut at, mut width, mut sum) = (0, 1, 0);
    let mut old_low = 0;
    for (i, &m) in upper.iter().enumerate() {
        sum += m as usize;
        let new_low = total.saturating_sub(all - sum);
        let new_high = total.min(sum);
        let (before, new) = memory.split_at_mut(at + width);
        let size = new_high + 1 - new_low;
        // the cells before are written
        let old = unsafe { std::slice::from_raw_parts(before[at..].as_ptr().cast::<u64>(), width) };
        if !row(i < few, old, old_low, m as usize, new_low, &mut new[..size]) {
            return Err((5, 0));
        }
        at += width;
        width = size;
        old_low = new_low;
        start[i + 1] = at as u16;
        low[i + 1] = new_low as u16;
        left[i + 1] = sum as u16;
    }
    let cells = unsafe { std::slice::from_raw_parts(memory.as_ptr().cast::<u64>(), at + width) };
    Ok(Table { cells, start, low, left })
}

impl Table<'_> {
    #[inline(always)]
    pub fn count(&self, k: usize, sum: usize) -> u64 {
        self.cells[self.start[k] as usize + sum - self.low[k] as usize]
    }
}

/// N with two rows only, of which the first `few` are within the limit.
#[inline(never)]
fn rows(upper: &[u8], total: u32, all: usize, few: usize) -> Result<u64, Refused> {
    let mut rows = [[MaybeUninit::<u64>::uninit(); 256]; 2];
    let total = total as usize;
    rows[0][0].write(1);
    let (mut low, mut width, mut sum) = (0, 1, 0);
    for (i, &m) in upper.iter().enumerate() {
        sum += m as usize;
        let new_low = total.saturating_sub(all - sum);
        let size = total.min(sum) + 1 - new_low;
        let (a, b) = rows.split_at_mut(1);
        let (old, new) = if i % 2 == 0 { (&a[0], &mut b[0]) } else { (&b[0], &mut a[0]) };
        let old = unsafe { std::slice::from_raw_parts(old.as_ptr().cast::<u64>(), width) };
        if !row(i < few, old, low, m as usize, new_low, &mut new[..size]) {
            return Err((5, 0));
        }
        low = new_low;
        width = size;
    }
    Ok(unsafe { rows[upper.len() % 2][0].assume_init() })
}

/// N of a staircase that the table has; it is accepted by 1 to 5.
#[inline(always)]
fn in_table(upper: &[u8], total: u32) -> Option<u64> {
    let n = upper.len();
    if (1..=15).contains(&n) && total as usize <= n * (n + 1) / 2 && is_staircase(upper) { Some(MAHONIAN[n + 1][total as usize]) } else { None }
}

/// N, or 1 to 5.
#[inline(always)]
pub fn number(upper: &[u8], total: u32) -> Result<u64, Refused> {
    if let Some(count) = in_table(upper, total) {
        return Ok(count);
    }
    let all = shape(upper, total)?;
    rows(upper, total, all, few_rows(upper, total, all))
}

/// The largest sum, up to 255, whose compositions into n parts, without bounds, are within the limit.
const fn free() -> [u16; 25] {
    let mut most = [255u16; 25];
    // the sums' numbers of compositions, one part more each time: running sums
    let mut row = [0u64; 256];
    row[0] = 1;
    let mut n = 1;
    while n < 25 {
        let mut sum = 0u64;
        let mut q = 0;
        while q < 256 {
            sum = sum.saturating_add(row[q]);
            row[q] = sum;
            if sum > LIMIT && most[n] as usize >= q {
                most[n] = q as u16 - 1;
            }
            q += 1;
        }
        n += 1;
    }
    most
}

static FREE: [u16; 25] = free();

/// How many rows of a shape that is accepted are within the limit by a bound that costs nothing. There are as many compositions of the total as of
/// what it leaves of the bounds' sum, so the smaller of the two counts: that of its compositions into as many parts without bounds, or the product of
/// the numbers of values of all parts but the widest.
#[inline(always)]
fn few_rows(upper: &[u8], total: u32, all: usize) -> usize {
    let smaller = (total as usize).min(all - total as usize);
    if smaller <= FREE[upper.len()] as usize {
        return upper.len();
    }
    let (mut product, mut widest) = (1u64, 1u64);
    for (i, &m) in upper.iter().enumerate() {
        let values = (m as u64).min(smaller as u64) + 1;
        product = product.saturating_mul(values.min(widest));
        widest = values.max(widest);
        if product > LIMIT {
            return i;
        }
    }
    upper.len()
}

/// 5 of a shape that is accepted. Nothing is counted where a bound is enough.
#[inline(always)]
pub fn limit(upper: &[u8], total: u32, all: usize) -> Result<(), Refused> {
    let few = few_rows(upper, total, all);
    if few == upper.len() { Ok(()) } else { rows(upper, total, all, few).map(|_| ()) }
}

/// 1 to 5.
pub fn edition(upper: &[u8], total: u32) -> Result<(), Refused> {
    let all = shape(upper, total)?;
    limit(upper, total, all)
}

pub fn memory<const CLEAR: bool>() -> [MaybeUninit<u64>; CELLS] {
    if CLEAR { [MaybeUninit::new(0); CELLS] } else { [MaybeUninit::uninit(); CELLS] }
}

#[inline(never)]
pub fn check(upper: &[u8], total: u32) -> Checked {
    match number(upper, total) {
        Ok(count) => Checked { number: 0, detail: 0, bounds: Bounds { parts: upper.len(), upper: pack(upper), total }, count },
        Err((number, detail)) => Checked { number, detail, ..Checked::default() },
    }
}
