//! A whole edition by two walks, a rising and a falling one, as the engine lists it.
use super::count::number;
use super::types::*;

/// A composition that is whole but for its first part goes to the front of `out`. With TRAY that part is set there, after the copy.
fn put<const TRAY: bool>(first: usize, g: &mut [u8], out: &mut [u8]) -> usize {
    let n = g.len();
    if TRAY {
        out[..n].copy_from_slice(g);
        out[0] = first as u8;
    } else {
        g[0] = first as u8;
        out[..n].copy_from_slice(g);
    }
    n
}

/// The compositions with the parts of `g` from `parts` on, which sum to `t`, one behind the other; the bounds before these sum to `room`, and `rest` is
/// left for them. The last part before them takes each of its values in turn, and for each the shorter edition goes to the walk that the sum from that
/// part on asks for. Answers how many bytes were written.
fn rising<const TRAY: bool>(upper: &[u8], g: &mut [u8], out: &mut [u8], parts: usize, room: usize, rest: usize, t: usize) -> usize {
    if parts == 1 {
        return put::<TRAY>(rest, g, out);
    }
    let k = parts - 1;
    let bound = upper[k] as usize;
    let left = room - bound;
    let (least, most) = (rest.saturating_sub(left), bound.min(rest));
    let mut at = 0;
    for v in least..=most {
        g[k] = v as u8;
        if (t + v) % 2 == 1 {
            at += falling::<TRAY>(upper, g, &mut out[at..], k, left, rest - v, t + v);
        } else {
            at += rising::<TRAY>(upper, g, &mut out[at..], k, left, rest - v, t + v);
        }
    }
    at
}

/// The same values the other way.
fn falling<const TRAY: bool>(upper: &[u8], g: &mut [u8], out: &mut [u8], parts: usize, room: usize, rest: usize, t: usize) -> usize {
    if parts == 1 {
        return put::<TRAY>(rest, g, out);
    }
    let k = parts - 1;
    let bound = upper[k] as usize;
    let left = room - bound;
    let (least, most) = (rest.saturating_sub(left), bound.min(rest));
    let mut at = 0;
    for v in (least..=most).rev() {
        g[k] = v as u8;
        if (t + v) % 2 == 1 {
            at += falling::<TRAY>(upper, g, &mut out[at..], k, left, rest - v, t + v);
        } else {
            at += rising::<TRAY>(upper, g, &mut out[at..], k, left, rest - v, t + v);
        }
    }
    at
}

fn listing_in<const TRAY: bool>(upper: &[u8], total: u32, out: &mut [u8]) -> Result<(), Refused> {
    let n = upper.len();
    let count = number(upper, total)?;
    // N compositions of n bytes, whose number may not fit
    if out.len() % n != 0 || (out.len() / n) as u64 != count {
        return Err((13, 0));
    }
    let room = upper.iter().map(|&m| m as usize).sum();
    rising::<TRAY>(upper, &mut [0; 24][..n], out, n, room, total as usize, 0);
    Ok(())
}

#[inline(never)]
pub fn listing<const TRAY: bool>(upper: &[u8], total: u32, out: &mut [u8]) -> Refusal {
    refusal(listing_in::<TRAY>(upper, total, out))
}
