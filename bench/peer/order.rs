//! Rank, unrank, steps and batches.
use super::count::{Table, edition, fill, limit, memory, number, shape};
use super::types::*;

pub fn given(upper: &[u8], total: u32, g: &[u8]) -> Result<(), Refused> {
    if g.len() != upper.len() {
        return Err((7, 0));
    }
    let mut sum = 0u32;
    let mut fits = true;
    for (&v, &m) in g.iter().zip(upper) {
        fits &= v <= m;
        sum += v as u32;
    }
    if fits && sum == total { Ok(()) } else { Err((8, 0)) }
}

fn place(table: &Table, upper: &[u8], total: u32, g: &[u8]) -> u64 {
    let (mut rem, mut t, mut before) = (total as usize, 0usize, 0u64);
    for k in (0..upper.len()).rev() {
        let lo = rem.saturating_sub(table.left[k] as usize);
        let hi = rem.min(upper[k] as usize);
        let v = g[k] as usize;
        let row = &table.cells[table.start[k] as usize..];
        let low = table.low[k] as usize;
        // the values that stand before v leave a run of neighbouring sums
        let (first, last) = if t % 2 == 0 { (lo, v) } else { (v + 1, hi + 1) };
        if first < last {
            before += row[rem + 1 - last - low..rem + 1 - first - low].iter().sum::<u64>();
        }
        rem -= v;
        t += v;
    }
    before
}

fn rank_in<const CLEAR: bool>(upper: &[u8], total: u32, g: &[u8]) -> Result<u64, Refused> {
    let all = shape(upper, total)?;
    // what is no composition needs no table: it is refused unless 5 comes first
    if let Err(refused) = given(upper, total, g) {
        limit(upper, total, all)?;
        return Err(refused);
    }
    let mut memory = memory::<CLEAR>();
    let table = fill(upper, total, all, &mut memory)?;
    Ok(place(&table, upper, total, g) + 1)
}

#[inline(never)]
pub fn rank<const CLEAR: bool>(upper: &[u8], total: u32, g: &[u8]) -> Ranked {
    match rank_in::<CLEAR>(upper, total, g) {
        Ok(serial) => Ranked { number: 0, detail: 0, serial },
        Err((number, detail)) => Ranked { number, detail, serial: 0 },
    }
}

pub fn write(table: &Table, upper: &[u8], total: u32, rank: u64, out: &mut [u8]) {
    let (mut rem, mut t, mut rank) = (total as usize, 0usize, rank);
    for k in (0..upper.len()).rev() {
        let lo = rem.saturating_sub(table.left[k] as usize);
        let hi = rem.min(upper[k] as usize);
        let rising = t % 2 == 0;
        let mut v = if rising { lo } else { hi };
        loop {
            let block = table.count(k, rem - v);
            if rank < block {
                break;
            }
            rank -= block;
            if rising { v += 1 } else { v -= 1 }
        }
        out[k] = v as u8;
        rem -= v;
        t += v;
    }
}

fn unrank_in<const CLEAR: bool>(upper: &[u8], total: u32, serial: u64, out: &mut [u8]) -> Result<(), Refused> {
    // nor does a part of another length: it is refused unless 1 to 6 come first
    if out.len() != upper.len() {
        let count = number(upper, total)?;
        return Err(if serial == 0 || serial > count { (6, 0) } else { (13, 0) });
    }
    let all = shape(upper, total)?;
    let mut memory = memory::<CLEAR>();
    let table = fill(upper, total, all, &mut memory)?;
    if serial == 0 || serial > table.count(upper.len(), total as usize) {
        return Err((6, 0));
    }
    write(&table, upper, total, serial - 1, out);
    Ok(())
}

#[inline(never)]
pub fn unrank<const CLEAR: bool>(upper: &[u8], total: u32, serial: u64, out: &mut [u8]) -> Refusal {
    refusal(unrank_in::<CLEAR>(upper, total, serial, out))
}

/// The next composition in place and the pair of the step, or none at the last. `odd` is 1 to go backward. The first part that can move does so by
/// one; of those to its left, which start anew, just one is not at its first value already, and that one goes by one the other way.
#[inline(always)]
pub fn advance(upper: &[u8], total: usize, g: &mut [u8], odd: usize) -> Option<Pair> {
    let n = upper.len().min(g.len());
    let (upper, g) = (&upper[..n], &mut g[..n]);
    let (mut left, mut before, all) = (upper[0] as usize, g[0] as usize, total + odd);
    for i in 1..n {
        let (m, v) = (upper[i] as usize, g[i] as usize);
        let falling = (all ^ (before + v)) % 2 == 1;
        // a part that falls needs room to its left, one that rises a unit
        let moves = if falling { v > 0 && before < left } else { v < m && before > 0 };
        if moves {
            let (up, mut rem) = if falling { (255, before + 1) } else { (1, before - 1) };
            g[i] = g[i].wrapping_add(up);
            let mut j = i - 1;
            while j > 0 {
                let m = upper[j] as usize;
                left -= m;
                let first = if (all ^ rem) % 2 == 1 { m.min(rem) } else { rem.saturating_sub(left) };
                if first != g[j] as usize {
                    break;
                }
                rem -= first;
                j -= 1;
            }
            g[j] = g[j].wrapping_sub(up);
            let (mover, other) = (i as u32 + 1, j as u32 + 1);
            return Some(if falling { Pair { gain: other, loss: mover } } else { Pair { gain: mover, loss: other } });
        }
        before += v;
        left += m;
    }
    None
}

fn step(upper: &[u8], total: u32, g: &[u8], odd: usize) -> Result<([u8; 24], Pair), Refused> {
    edition(upper, total)?;
    given(upper, total, g)?;
    let mut cells = pack(g);
    let pair = advance(upper, total as usize, &mut cells[..upper.len()], odd).ok_or((9, 0))?;
    Ok((cells, pair))
}

fn stepped(result: Result<([u8; 24], Pair), Refused>) -> Stepped {
    match result {
        Ok((composition, Pair { gain, loss })) => Stepped { number: 0, detail: 0, composition, gain, loss },
        Err((number, detail)) => Stepped { number, detail, ..Stepped::default() },
    }
}

#[inline(never)]
pub fn successor(upper: &[u8], total: u32, g: &[u8]) -> Stepped {
    stepped(step(upper, total, g, 0))
}

#[inline(never)]
pub fn predecessor(upper: &[u8], total: u32, g: &[u8]) -> Stepped {
    stepped(step(upper, total, g, 1))
}

/// The places of the first two parts that are not withdrawn.
fn first_two(upper: &[u8]) -> Option<(usize, usize)> {
    let mut left = (0..upper.len()).filter(|&i| upper[i] > 0);
    Some((left.next()?, left.next()?))
}

/// These two parts, which way the second goes, and how often it can still move: most steps move these two alone.
struct Run {
    first: u8,
    second: u8,
    falling: bool,
    more: usize,
}

#[inline(always)]
fn run_of(upper: &[u8], total: usize, g: &[u8], (i, j): (usize, usize)) -> Run {
    let (first, second) = (g[i], g[j]);
    let (v, sum) = (second as usize, first as usize + second as usize);
    let falling = (total - sum) % 2 == 1;
    let (lo, hi) = (sum.saturating_sub(upper[i] as usize), (upper[j] as usize).min(sum));
    Run { first, second, falling, more: if falling { v - lo } else { hi - v } }
}

/// As many compositions as `out` has room for, from that in `cells` on: runs of the parts at places i and j, and a step of all where one ends.
fn write_runs<const WIDE: bool>(upper: &[u8], total: usize, (i, j): (usize, usize), mut cells: [u8; 24], out: &mut [u8]) {
    let n = upper.len();
    let mut run = run_of(upper, total, &cells, (i, j));
    let mut at = 0;
    while at < out.len() {
        // 24 bytes at once where there is room: what is too much is overwritten by the next
        if WIDE && at + 24 <= out.len() {
            out[at..at + 24].copy_from_slice(&cells);
        } else {
            out[at..at + n].copy_from_slice(&cells[..n]);
        }
        out[at + i] = run.first;
        out[at + j] = run.second;
        at += n;
        if run.more > 0 {
            let (up, down) = if run.falling { (1, 255) } else { (255, 1) };
            run.first = run.first.wrapping_add(up);
            run.second = run.second.wrapping_add(down);
            run.more -= 1;
        } else {
            (cells[i], cells[j]) = (run.first, run.second);
            advance(upper, total, &mut cells[..n], 0);
            run = run_of(upper, total, &cells, (i, j));
        }
    }
}

/// The first parts that are listed for each of their sums, as many as have room for their entries and have long lists: their number, the entries one
/// behind the other, and how many stand before the list of each sum.
fn prefixes(upper: &[u8], total: usize) -> Option<(usize, Vec<u8>, Vec<usize>)> {
    let (mut width, mut size, mut sums) = (0, 1, 1);
    for (i, &m) in upper.iter().take(16).enumerate() {
        let more = size * (m as usize + 1);
        if more * (i + 1) > 12_272 {
            break;
        }
        (width, size, sums) = (i + 1, more, sums + m as usize);
    }
    if size / 16 < sums || upper[..width].iter().filter(|&&m| m > 0).count() < 3 {
        return None;
    }
    let upper = &upper[..width];
    let (mut entries, mut starts) = (Vec::with_capacity(12_288), vec![0]);
    for sum in 0..=total.min(sums - 1) {
        let count = number(upper, sum as u32).ok()? as usize;
        let at = entries.len();
        entries.resize(at + count * width, 0);
        batch_in::<true>(upper, sum as u32, 1, count as u64, &mut entries[at..]).ok()?;
        starts.push(starts.last().unwrap() + count);
    }
    entries.resize(entries.len() + 16, 0);
    Some((width, entries, starts))
}

/// Copies block by block: while the parts behind the first ones stay, these run through the list of their sum, forwards or backwards.
fn write_blocks(upper: &[u8], total: usize, first: [u8; 24], out: &mut [u8]) -> Option<usize> {
    let n = upper.len();
    let (width, entries, starts) = prefixes(upper, total)?;
    let mut cells = [0u8; 40];
    cells[..24].copy_from_slice(&first);
    let end = (out.len() / n).checked_sub(40)?;
    let mut done = 0;
    let mut whole = false;
    while done < end {
        let sum: usize = cells[..width].iter().map(|&v| v as usize).sum();
        let (low, high, falling) = (starts[sum], starts[sum + 1], (total - sum) % 2 == 1);
        let mut entry = if falling { high - 1 } else { low };
        if !whole {
            entry = (low..high).find(|&e| entries[e * width..(e + 1) * width] == cells[..width])?;
            whole = true;
        }
        let ending: [u8; 24] = cells[width..width + 24].try_into().unwrap();
        let copies = (if falling { entry + 1 - low } else { high - entry }).min(end - done);
        for j in 0..copies {
            let from = (if falling { entry - j } else { entry + j }) * width;
            let at = (done + j) * n;
            out[at..at + 16].copy_from_slice(&entries[from..from + 16]);
            out[at + width..at + width + 24].copy_from_slice(&ending);
        }
        let last = (if falling { entry + 1 - copies } else { entry + copies - 1 }) * width;
        cells[..width].copy_from_slice(&entries[last..last + width]);
        advance(upper, total, &mut cells[..n], 0);
        done += copies;
    }
    Some(done)
}

fn batch_in<const WIDE: bool>(upper: &[u8], total: u32, serial: u64, copies: u64, out: &mut [u8]) -> Result<(), Refused> {
    let n = upper.len();
    let all = shape(upper, total)?;
    let mut memory = memory::<false>();
    let table = fill(upper, total, all, &mut memory)?;
    let count = table.count(n, total as usize);
    if serial == 0 || serial > count || copies > count - serial + 1 {
        return Err((6, 0));
    }
    if copies.checked_mul(n as u64) != Some(out.len() as u64) {
        return Err((13, 0));
    }
    if copies == 0 {
        return Ok(());
    }
    let mut cells = [0u8; 24];
    write(&table, upper, total, serial - 1, &mut cells[..n]);
    match first_two(upper) {
        Some(places) => write_runs::<WIDE>(upper, total as usize, places, cells, out),
        None => out.copy_from_slice(&cells[..n]), // one composition
    }
    Ok(())
}

/// The same by blocks where the lists have room, and the last copies by runs.
#[inline(never)]
pub fn batch_by_blocks(upper: &[u8], total: u32, serial: u64, copies: u64, out: &mut [u8]) -> Refusal {
    let n = upper.len();
    let mut first = [0u8; 24];
    if copies < 20_000 || copies.checked_mul(n as u64) != Some(out.len() as u64) {
        return batch::<true>(upper, total, serial, copies, out);
    }
    match number(upper, total) {
        Ok(count) if serial > 0 && serial <= count && copies <= count - serial + 1 => {}
        _ => return batch::<true>(upper, total, serial, copies, out),
    }
    unrank::<false>(upper, total, serial, &mut first[..n]);
    let done = write_blocks(upper, total as usize, first, out).unwrap_or(0);
    batch::<true>(upper, total, serial + done as u64, copies - done as u64, &mut out[done * n..])
}

#[inline(never)]
pub fn batch<const WIDE: bool>(upper: &[u8], total: u32, serial: u64, copies: u64, out: &mut [u8]) -> Refusal {
    refusal(batch_in::<WIDE>(upper, total, serial, copies, out))
}
