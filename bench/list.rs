//! The listing program in plain Rust, not proved: the same slip, the same lines, the same buffer of 64 KiB.
use std::io::{Read, Write};

#[allow(dead_code, unused_imports)] // a part of it is enough here
mod peer;

use peer::Pair;

const BUFFER: usize = 64 * 1024;
/// A serial of seven digits, 24 counts and two signed kinds of two, each with its space, and the line feed.
const LONGEST: usize = 7 + 24 * 3 + 2 * 4 + 1;

/// `mixes`, the ceilings, the total, or none where the slip is not of that form. A ceiling over 255 becomes 255, which is refused like it.
fn parse(slip: &[u8]) -> Option<(Vec<u8>, u32)> {
    let text = std::str::from_utf8(slip).ok()?.strip_prefix("mixes\n")?.strip_suffix('\n')?;
    let (upper, total) = text.split_once('\n')?;
    let number = |word: &str| -> Option<u32> {
        let plain = (1..=3).contains(&word.len()) && word.bytes().all(|b| b.is_ascii_digit()) && (word == "0" || !word.starts_with('0'));
        if plain { word.parse().ok() } else { None }
    };
    let upper = upper.split(' ').map(|w| number(w).map(|m| m.min(255) as u8)).collect::<Option<Vec<u8>>>()?;
    Some((upper, number(total)?))
}

/// A space and a count, in four bytes of which so many are used.
const fn pieces() -> [([u8; 4], u8); 61] {
    let mut table = [([b' ', 0, 0, 0], 2u8); 61];
    let mut v = 0;
    while v < 61 {
        if v < 10 {
            table[v].0[1] = b'0' + v as u8;
        } else {
            table[v] = ([b' ', b'0' + v as u8 / 10, b'0' + v as u8 % 10, 0], 3);
        }
        v += 1;
    }
    table
}

static PIECES: [([u8; 4], u8); 61] = pieces();

/// A serial as text of eight digits, counted up in place; the cells behind it are there so that eight bytes can always be copied.
struct Serial {
    digits: [u8; 16],
    first: usize,
}

impl Serial {
    fn next(&mut self) {
        let mut at = 7;
        while self.digits[at] == b'9' {
            self.digits[at] = b'0';
            at -= 1;
        }
        self.digits[at] += 1;
        self.first = self.first.min(at);
    }
}

/// A space, a sign and a kind.
const fn signed(sign: u8) -> [([u8; 4], u8); 25] {
    let mut table = [([b' ', sign, 0, 0], 3u8); 25];
    let mut k = 0;
    while k < 25 {
        if k < 10 {
            table[k].0[2] = b'0' + k as u8;
        } else {
            table[k] = ([b' ', sign, b'0' + k as u8 / 10, b'0' + k as u8 % 10], 4);
        }
        k += 1;
    }
    table
}

static GAINS: [([u8; 4], u8); 25] = signed(b'+');
static LOSSES: [([u8; 4], u8); 25] = signed(b'-');

/// Four bytes from `at` on; where those end that are used.
#[inline(always)]
fn put(buffer: &mut [u8; BUFFER], at: usize, (piece, used): &([u8; 4], u8)) -> usize {
    buffer[at..at + 4].copy_from_slice(piece);
    at + *used as usize
}

/// The line of a serial from `at` on; where it ends.
#[inline(always)]
fn line(buffer: &mut [u8; BUFFER], mut at: usize, serial: &Serial, parts: &[u8], pair: Pair) -> usize {
    buffer[at..at + 8].copy_from_slice(&serial.digits[serial.first..serial.first + 8]);
    at += 8 - serial.first;
    for &v in parts {
        at = put(buffer, at, &PIECES[v as usize]);
    }
    at = put(buffer, at, &GAINS[pair.gain as usize]);
    at = put(buffer, at, &LOSSES[pair.loss as usize]);
    buffer[at] = b'\n';
    at + 1
}

fn main() {
    let mut slip = Vec::new();
    std::io::stdin().take(257).read_to_end(&mut slip).unwrap();
    let mut out = std::io::stdout();
    let refuse = |number: u32| println!("refused {number}");
    let Some((upper, total)) = (if slip.len() > 256 { None } else { parse(&slip) }) else { return refuse(22) };
    let checked = peer::check(&upper, total);
    if checked.number > 0 {
        return refuse(checked.number);
    }
    if checked.count > 1_000_000 {
        return refuse(14);
    }
    let mut parts = vec![0; upper.len()];
    peer::unrank::<false>(&upper, total, 1, &mut parts);
    let mut buffer = Box::new([0; BUFFER]);
    let mut at = 0;
    let mut pair = Pair::default();
    let mut serial = Serial { digits: [b'0'; 16], first: 7 };
    for _ in 0..checked.count {
        serial.next();
        if BUFFER - at < LONGEST {
            out.write_all(&buffer[..at]).unwrap();
            at = 0;
        }
        at = line(&mut buffer, at, &serial, &parts, pair);
        pair = peer::order::advance(&upper, total as usize, &mut parts, 0).unwrap_or_default();
    }
    out.write_all(&buffer[..at]).unwrap();
}
