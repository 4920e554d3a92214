//! Permutations and their inversion vectors.
use super::count::{edition, is_staircase};
use super::order::given;
use super::types::*;

pub fn stairs(upper: &[u8], total: u32) -> Result<(), Refused> {
    edition(upper, total)?;
    if is_staircase(upper) { Ok(()) } else { Err((10, 0)) }
}

/// The sheets that are left stand in rising order, so that the one with v smaller ones left is at place v.
fn permutation_in(upper: &[u8], total: u32, g: &[u8], out: &mut [u8]) -> Result<(), Refused> {
    stairs(upper, total)?;
    given(upper, total, g)?;
    let k = upper.len() + 1;
    if out.len() != k {
        return Err((13, 0));
    }
    let mut left = [0u8; 25];
    for (i, cell) in left.iter_mut().enumerate() {
        *cell = i as u8 + 1;
    }
    for (i, &v) in g.iter().enumerate() {
        let v = v as usize;
        out[i] = left[v];
        left.copy_within(v + 1..k - i, v);
    }
    out[k - 1] = left[0];
    Ok(())
}

#[inline(never)]
pub fn permutation(upper: &[u8], total: u32, g: &[u8], out: &mut [u8]) -> Refusal {
    refusal(permutation_in(upper, total, g, out))
}

fn inversions_in(upper: &[u8], total: u32, p: &[u8], out: &mut [u8]) -> Result<(), Refused> {
    stairs(upper, total)?;
    let n = upper.len();
    if p.len() != n + 1 {
        return Err((11, 0));
    }
    // a bit for each sheet that is left; those below a sheet's bit are the smaller ones after it
    let mut left: u32 = ((1u64 << (n + 2)) - 2) as u32;
    let mut vector = [0u8; 25];
    let mut sum = 0;
    for (cell, &v) in vector.iter_mut().zip(p) {
        if v > 25 || left >> v & 1 == 0 {
            return Err((11, 0));
        }
        let smaller = (left & ((1 << v) - 1)).count_ones();
        left &= !(1 << v);
        *cell = smaller as u8;
        sum += smaller;
    }
    if sum != total {
        return Err((12, 0));
    }
    if out.len() != n {
        return Err((13, 0));
    }
    out.copy_from_slice(&vector[..n]);
    Ok(())
}

#[inline(never)]
pub fn inversions(upper: &[u8], total: u32, p: &[u8], out: &mut [u8]) -> Refusal {
    refusal(inversions_in(upper, total, p, out))
}
