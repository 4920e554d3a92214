//! Permutations by major index, and their codes. After each row the sheets in front of its last stand in rising order round a ring, so the last is
//! told by its rank among those left, and that follows from the rank in the row before.
use super::order::given;
use super::permutation::stairs;
use super::types::*;

/// The sheets that are left, in rising order: the first 12 in 5 bits each, the others, less 13, in 4 bits each.
struct Left {
    low: u64,
    high: u64,
}

impl Left {
    const ALL: Left = {
        let mut all = Left { low: 0, high: 0 };
        let mut i = 13;
        while i > 0 {
            i -= 1;
            all.low = if i < 12 { all.low << 5 | (i + 1) } else { 0 };
            all.high = all.high << 4 | i;
        }
        all
    };

    /// Takes out the sheet of a rank, from 0. Behind those that are left stands anything.
    #[inline(always)]
    fn take(&mut self, rank: usize) -> u8 {
        if rank < 12 {
            let from = self.low >> (5 * rank);
            self.low = self.low & ((1 << (5 * rank)) - 1) | from >> 5 << (5 * rank) | ((self.high & 15) + 13) << 55;
            self.high >>= 4;
            (from & 31) as u8
        } else {
            let place = 4 * (rank - 12);
            let from = self.high >> place;
            self.high = self.high & ((1 << place) - 1) | from >> 4 << place;
            (from & 15) as u8 + 13
        }
    }
}

fn by_ranks(g: &[u8], out: &mut [u8]) {
    let k = out.len();
    let mut left = Left::ALL;
    let mut rank = k;
    for i in (1..k).rev() {
        let t = g[k - 1 - i] as usize;
        rank = if t < rank { rank - 1 - t } else { rank + i - t };
        out[i] = left.take(rank);
    }
    out[0] = (left.low & 31) as u8;
}

/// What the request says: from k sheets down to 2, the first ones are turned right.
fn by_turns(g: &[u8], out: &mut [u8]) {
    let k = out.len();
    for (i, cell) in out.iter_mut().enumerate() {
        *cell = i as u8 + 1;
    }
    for (j, &t) in g.iter().enumerate() {
        out[..k - j].rotate_right(t as usize);
    }
}

fn major_permutation_in<const TURNS: bool>(upper: &[u8], total: u32, g: &[u8], out: &mut [u8]) -> Result<(), Refused> {
    stairs(upper, total)?;
    given(upper, total, g)?;
    if out.len() != upper.len() + 1 {
        return Err((13, 0));
    }
    if TURNS {
        by_turns(g, out)
    } else {
        by_ranks(g, out)
    }
    Ok(())
}

#[inline(never)]
pub fn major_permutation<const TURNS: bool>(upper: &[u8], total: u32, g: &[u8], out: &mut [u8]) -> Refusal {
    refusal(major_permutation_in::<TURNS>(upper, total, g, out))
}

fn is_permutation(p: &[u8], k: usize) -> bool {
    let mut seen = [false; 26];
    p.len() == k && p.iter().all(|&v| (1..=k).contains(&(v as usize)) && !std::mem::replace(&mut seen[v as usize], true))
}

/// From k sheets down, the last one tells how far the first turn went; then the others are as they would stand without it. The index by its
/// definition.
fn code_by_turns(p: &[u8], code: &mut [u8; 25]) -> Result<u32, Refused> {
    if !is_permutation(p, p.len()) {
        return Err((11, 0));
    }
    let mut sheets = [0u8; 25];
    sheets[..p.len()].copy_from_slice(p);
    for (j, cell) in code.iter_mut().enumerate().take(p.len()) {
        let (last, front) = sheets[..p.len() - j].split_last_mut().unwrap();
        *cell = (p.len() - j) as u8 - *last;
        for x in front {
            *x = if *last < *x { *x - *last } else { *x + *cell };
        }
    }
    Ok(p.windows(2).zip(1u32..).filter(|(w, _)| w[0] > w[1]).map(|(_, i)| i).sum())
}

/// How many of the sheets that are left are at most v: 4 bits for each v below 16, 5 for the others.
struct Tally {
    low: u64,
    high: u64,
}

impl Tally {
    const ALL: Tally = Tally { low: 0xfedc_ba98_7654_3210, high: 0x3_38bd_ab49_ca30 };
    const EACH: Tally = Tally { low: 0x1111_1111_1111_1111, high: 0x2108_4210_8421 };

    /// Takes out a sheet, and says how many smaller ones are left.
    #[inline(always)]
    fn take(&mut self, v: u8) -> u32 {
        if v < 16 {
            let place = 4 * v;
            self.low -= Tally::EACH.low >> place << place;
            self.high -= Tally::EACH.high;
            (self.low >> place & 15) as u32
        } else {
            let place = 5 * (v - 16);
            self.high -= Tally::EACH.high >> place << place;
            (self.high >> place & 31) as u32
        }
    }
}

/// A bit for each sheet; one over 31 shows in the union of all.
fn has_all(p: &[u8]) -> bool {
    let (set, over) = p.iter().fold((0u32, 0), |(set, over), &v| (set | 1 << (v & 31), over | v));
    over < 32 && set == ((1u64 << (p.len() + 1)) - 2) as u32
}

/// From the last place down, the smaller ones that are left say a sheet's rank. The turns add up to the major index.
fn code_by_ranks(p: &[u8], code: &mut [u8; 25]) -> Result<u32, Refused> {
    if !has_all(p) {
        return Err((11, 0));
    }
    let n = p.len() - 1;
    let mut left = Tally::ALL;
    let (mut rank, mut sum) = (0, 0);
    for (j, &v) in p[1..].iter().rev().enumerate() {
        let smaller = left.take(v);
        let t = if smaller < rank { rank - 1 - smaller } else { rank + (n - j) as u32 - smaller };
        code[j] = t as u8;
        sum += t;
        rank = smaller;
    }
    Ok(sum)
}

fn major_code_in<const TURNS: bool>(upper: &[u8], total: u32, p: &[u8], out: &mut [u8]) -> Result<(), Refused> {
    stairs(upper, total)?;
    let n = upper.len();
    if p.len() != n + 1 {
        return Err((11, 0));
    }
    let mut code = [0u8; 25];
    if total != if TURNS { code_by_turns(p, &mut code)? } else { code_by_ranks(p, &mut code)? } {
        return Err((23, 0));
    }
    if out.len() != n {
        return Err((13, 0));
    }
    out.copy_from_slice(&code[..n]);
    Ok(())
}

#[inline(never)]
pub fn major_code<const TURNS: bool>(upper: &[u8], total: u32, p: &[u8], out: &mut [u8]) -> Refusal {
    refusal(major_code_in::<TURNS>(upper, total, p, out))
}
