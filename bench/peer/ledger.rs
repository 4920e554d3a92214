//! A peek, a claim, a void and a claim of several: each checks the whole record, with one pass over the lines.
use super::count::{fill, memory, shape};
use super::digits::passes;
use super::order::{advance, write};
use super::types::*;

/// Lines of which the pass knows only whether an order stands among them.
const BLOCK: usize = 1024;

/// The most orders of a bundle.
const MOST: usize = 40;

/// The highest item line.
const LAST: u8 = 99;

/// Slots that a bundle's orders mark: an order's is its remainder.
const SLOTS: usize = 8192;

/// Lines, or the lines of a bundle: their orders and their item lines, as many of each.
#[derive(Clone, Copy)]
struct Lines<'a> {
    orders: &'a [u32],
    items: &'a [u8],
}

impl<'a> Lines<'a> {
    fn first(self, n: usize) -> Lines<'a> {
        Lines { orders: &self.orders[..n], items: &self.items[..n] }
    }

    /// The lowest place of a line.
    fn position(self, order: u32, item: u8) -> Option<usize> {
        self.orders.iter().zip(self.items).position(|(&o, &t)| o == order && t == item)
    }
}

/// How many lines are voided, or none where a line cannot be: with an item line over 99, or with a 0 in one column alone. How many orders of a block
/// are 0 is asked of `zeros`, which is handed its first place too. Each column is passed over by itself; only in a block that has a 0 are the two
/// compared.
#[inline(always)]
fn voided(lines: Lines, mut zeros: impl FnMut(usize, Lines) -> u32) -> Option<u64> {
    let (mut all, mut uneven, mut most) = (0, 0, 0);
    for (i, (orders, items)) in lines.orders.chunks(BLOCK).zip(lines.items.chunks(BLOCK)).enumerate() {
        let voided = zeros(i * BLOCK, Lines { orders, items });
        let mut least = u8::MAX;
        for &t in items {
            least = least.min(t);
            most = most.max(t);
        }
        if voided > 0 || least == 0 {
            for (&o, &t) in orders.iter().zip(items) {
                uneven |= (o == 0) as u32 ^ (t as u32 == 0) as u32;
            }
        }
        all += voided as u64;
    }
    (uneven == 0 && most <= LAST).then_some(all)
}

fn zeros(orders: &[u32]) -> u32 {
    orders.iter().map(|&o| (o == 0) as u32).sum()
}

/// How many lines are voided.
#[inline(never)]
fn voided_alone(lines: Lines) -> Option<(u64, ())> {
    voided(lines, |_, block| zeros(block.orders)).map(|all| (all, ()))
}

/// The same, and the lowest place of an order and an item line. In a block that has the order both are searched; where they stand nowhere, the number
/// of lines.
fn voided_and_place(lines: Lines, order: u32, item: u8) -> Option<(u64, usize)> {
    let none = lines.orders.len();
    let mut place = none;
    let all = voided(lines, |from, block| {
        let (mut zeros, mut hits) = (0, 0u32);
        for &o in block.orders {
            zeros += (o == 0) as u32;
            hits += (o == order) as u32;
        }
        if hits > 0 && place == none {
            place = block.position(order, item).map_or(none, |at| from + at);
        }
        zeros
    })?;
    Some((all, place))
}

/// The pass over the order column alone, as it was before there were item lines, to be timed beside the one over both.
fn voided_and_place_by_number(orders: &[u32], order: u32) -> (u64, usize) {
    let (mut zeros, mut first) = (0u32, orders.len());
    for (i, block) in orders.chunks(BLOCK).enumerate() {
        let mut hits = 0u32;
        for &o in block {
            zeros += (o == 0) as u32;
            hits += (o == order) as u32;
        }
        if hits > 0 && first == orders.len() {
            first = i * BLOCK;
        }
    }
    let rest = &orders[first..];
    (zeros as u64, first + rest.iter().position(|&o| o == order).unwrap_or(rest.len()))
}

fn slot(order: u32) -> usize {
    order as usize % SLOTS
}

/// 17, 26 and 25.
fn fault(order: u32, item: u8) -> Result<(), Refused> {
    match () {
        _ if order == 0 => Err((17, 0)),
        _ if !passes(order) => Err((26, 0)),
        _ if item == 0 || item > LAST => Err((25, 0)),
        _ => Ok(()),
    }
}

/// How many lines of a bundle stand before the first that has a fault or that the bundle has already, and why that one is refused: 20 with the place,
/// from 0, that it has already. The slots of those before it are marked.
fn mark(bundle: Lines, marks: &mut [u8; SLOTS]) -> (usize, Refused) {
    for (i, (&order, &item)) in bundle.orders.iter().zip(bundle.items).enumerate() {
        if let Err(refused) = fault(order, item) {
            return (i, refused);
        }
        let mark = &mut marks[slot(order)];
        if *mark != 0
            && let Some(at) = bundle.first(i).position(order, item)
        {
            return (i, (20, at as u64));
        }
        *mark = 1;
    }
    (bundle.orders.len(), (0, 0))
}

/// Where a bundle has a line: the way that is seldom taken.
#[cold]
#[inline(never)]
fn found(bundle: Lines, order: u32, item: u8) -> Option<usize> {
    bundle.position(order, item)
}

/// How many lines are voided; the first of the bundle's lines that stands among them, or their number, and its lowest place. Each is tested for a
/// mark, with EIGHTS eight of them at a time, and only a marked line is compared, with the bundle's before the first that was found.
fn voided_and_first<const EIGHTS: bool>(lines: Lines, bundle: Lines, marks: &[u8; SLOTS]) -> Option<(u64, (usize, usize))> {
    let (mut first, mut place) = (bundle.orders.len(), lines.orders.len());
    let mut search = |from: usize, few: &[u32]| {
        for (i, &o) in few.iter().enumerate() {
            if marks[slot(o)] != 0 {
                (first, place) = found(bundle.first(first), o, lines.items[from + i]).map_or((first, place), |at| (at, from + i));
            }
        }
    };
    let all = voided(lines, |from, block| {
        let (eights, rest) = if EIGHTS { block.orders.as_chunks::<8>() } else { (&[][..], block.orders) };
        for (j, few) in eights.iter().enumerate() {
            if few.iter().fold(0, |any, &o| any | marks[slot(o)]) != 0 {
                search(from + j * 8, few);
            }
        }
        search(from + eights.len() * 8, rest);
        zeros(block.orders)
    })?;
    Some((all, (first, place)))
}

/// The same by a pass for each line of the bundle, until one stands there.
fn voided_and_first_by_passes(lines: Lines, bundle: Lines) -> Option<(u64, (usize, usize))> {
    for (i, (&order, &item)) in bundle.orders.iter().zip(bundle.items).enumerate() {
        let (all, place) = voided_and_place(lines, order, item)?;
        if place < lines.orders.len() {
            return Some((all, (i, place)));
        }
    }
    voided_alone(lines).map(|(all, ())| (all, (bundle.orders.len(), lines.orders.len())))
}

/// N and what the pass finds besides the voided lines, or 16.
#[inline(always)]
fn register<T>(ledger: &Ledger, lines: Lines, pass: impl Fn(Lines) -> Option<(u64, T)>) -> Result<(u64, T), Refused> {
    let n = ledger.bounds.parts;
    if n > 24 {
        return Err((16, 0));
    }
    let (upper, spare) = ledger.bounds.upper.split_at(n);
    let total = ledger.bounds.total;
    let all = shape(upper, total).map_err(|_| (16, 0))?;
    let mut memory = memory::<false>();
    let table = fill(upper, total, all, &mut memory).map_err(|_| (16, 0))?;
    let count = table.count(n, total as usize);
    let room = lines.orders.len().min(lines.items.len()) as u64;
    if count > 1_000_000 || room < count || ledger.entries > count {
        return Err((16, 0));
    }
    let mut next = [0; 24];
    write(&table, upper, total, ledger.entries.min(count - 1), &mut next[..n]);
    if next != ledger.next || spare.iter().any(|&c| c != 0) {
        return Err((16, 0));
    }
    let (zeros, found) = pass(lines.first(ledger.entries as usize)).ok_or((16, 0))?;
    if ledger.voided != zeros || ledger.sold != ledger.entries - zeros {
        return Err((16, 0));
    }
    Ok((count, found))
}

/// 6, 18 and 19.
fn place(ledger: &Ledger, orders: &[u32], count: u64, serial: u64) -> Result<(), Refused> {
    if serial == 0 || serial > count {
        return Err((6, 0));
    }
    if serial <= ledger.entries {
        return Err((18, orders[serial as usize - 1] as u64));
    }
    if serial > ledger.entries + 1 {
        return Err((19, ledger.entries + 1));
    }
    Ok(())
}

/// The order and its item line in the next line, where nothing is refused.
#[inline(always)]
fn enter(placed: Result<(), Refused>, mut ledger: Ledger, orders: &mut [u32], items: &mut [u8], order: u32, item: u8) -> Claimed {
    if let Err((number, detail)) = placed {
        return Claimed { number, detail, ledger, ..Claimed::default() };
    }
    let composition = ledger.next;
    orders[ledger.entries as usize] = order;
    items[ledger.entries as usize] = item;
    ledger.entries += 1;
    *(if order == 0 { &mut ledger.voided } else { &mut ledger.sold }) += 1;
    let n = ledger.bounds.parts;
    advance(&ledger.bounds.upper[..n], ledger.bounds.total as usize, &mut ledger.next[..n], 0);
    Claimed { number: 0, detail: 0, serial: ledger.entries, composition, ledger }
}

/// The pair of the next line: that of the step back from it, exchanged; 0 and 0 for the first line, which has none before it.
#[inline(always)]
fn pair(ledger: &Ledger) -> Pair {
    let n = ledger.bounds.parts;
    let mut before = ledger.next;
    let back = advance(&ledger.bounds.upper[..n], ledger.bounds.total as usize, &mut before[..n], 1).unwrap_or_default();
    Pair { gain: back.loss, loss: back.gain }
}

#[inline(never)]
pub fn peek(ledger: Ledger, orders: &[u32], items: &[u8]) -> Peeked {
    match register(&ledger, Lines { orders, items }, voided_alone) {
        Err((number, detail)) => Peeked { number, detail, ..Peeked::default() },
        Ok((count, ())) if ledger.entries == count => Peeked { number: 21, ..Peeked::default() },
        Ok(_) => {
            let Pair { gain, loss } = pair(&ledger);
            Peeked { number: 0, detail: 0, serial: ledger.entries + 1, composition: ledger.next, gain, loss }
        }
    }
}

#[inline(always)]
fn taken(
    ledger: Ledger,
    orders: &mut [u32],
    items: &mut [u8],
    serial: u64,
    (order, item): (u32, u8),
    pass: impl Fn(Lines) -> Option<(u64, usize)>,
) -> Claimed {
    let placed = (|| {
        let (count, at) = register(&ledger, Lines { orders, items }, pass)?;
        fault(order, item)?;
        place(&ledger, orders, count, serial)?;
        if (at as u64) < ledger.entries { Err((20, at as u64 + 1)) } else { Ok(()) }
    })();
    enter(placed, ledger, orders, items, order, item)
}

#[inline(never)]
pub fn claim(ledger: Ledger, orders: &mut [u32], items: &mut [u8], serial: u64, order: u32, item: u8) -> Claimed {
    taken(ledger, orders, items, serial, (order, item), |lines| voided_and_place(lines, order, item))
}

/// A claim that looks at no item line, and refuses an order number that stands with any.
#[inline(never)]
pub fn claim_by_number(ledger: Ledger, orders: &mut [u32], items: &mut [u8], serial: u64, order: u32, item: u8) -> Claimed {
    taken(ledger, orders, items, serial, (order, item), |lines| Some(voided_and_place_by_number(lines.orders, order)))
}

#[inline(never)]
pub fn void(ledger: Ledger, orders: &mut [u32], items: &mut [u8], serial: u64) -> Claimed {
    let found = register(&ledger, Lines { orders, items }, voided_alone);
    let placed = found.and_then(|(count, ())| place(&ledger, orders, count, serial));
    enter(placed, ledger, orders, items, 0, 0)
}

/// The refusal of the first of a bundle's takes that would fail. The pass is handed the lines, and the bundle's before the first that is wrong by
/// itself, with their marks.
#[inline(always)]
fn takes(
    ledger: &Ledger,
    lines: Lines,
    serial: u64,
    bundle: Lines,
    pass: impl Fn(Lines, Lines, &[u8; SLOTS]) -> Option<(u64, (usize, usize))>,
) -> Result<(), Refused> {
    let size = bundle.orders.len();
    if size == 0 || size > MOST || bundle.items.len() != size {
        register(ledger, lines, voided_alone)?;
        return Err((24, 0));
    }
    let mut marks = [0; SLOTS];
    let (sound, own) = mark(bundle, &mut marks);
    let (count, (found, at)) = register(ledger, lines, |lines| pass(lines, bundle.first(sound), &marks))?;
    fault(bundle.orders[0], bundle.items[0])?;
    place(ledger, lines.orders, count, serial)?;
    let room = (count - ledger.entries).min(size as u64) as usize;
    if found < sound.min(room) {
        return Err((20, at as u64 + 1));
    }
    if sound < room {
        return Err(if own.0 == 20 { (20, serial + own.1) } else { own });
    }
    if room < size { fault(bundle.orders[room], bundle.items[room]).and(Err((6, 0))) } else { Ok(()) }
}

/// Each line of the bundle in the next line, where nothing is refused.
#[inline(always)]
fn enter_all(placed: Result<(), Refused>, mut ledger: Ledger, orders: &mut [u32], items: &mut [u8], serial: u64, bundle: Lines) -> Claimed {
    if let Err((number, detail)) = placed {
        return Claimed { number, detail, ledger, ..Claimed::default() };
    }
    let (composition, n, size) = (ledger.next, ledger.bounds.parts, bundle.orders.len());
    orders[ledger.entries as usize..][..size].copy_from_slice(bundle.orders);
    items[ledger.entries as usize..][..size].copy_from_slice(bundle.items);
    ledger.entries += size as u64;
    ledger.sold += size as u64;
    for _ in 0..size {
        advance(&ledger.bounds.upper[..n], ledger.bounds.total as usize, &mut ledger.next[..n], 0);
    }
    Claimed { number: 0, detail: 0, serial, composition, ledger }
}

type Bundle<'a> = (&'a [u32], &'a [u8]);

#[inline(never)]
pub fn claim_all<const EIGHTS: bool>(ledger: Ledger, orders: &mut [u32], items: &mut [u8], serial: u64, bundle: Bundle) -> Claimed {
    let bundle = Lines { orders: bundle.0, items: bundle.1 };
    let placed = takes(&ledger, Lines { orders, items }, serial, bundle, voided_and_first::<EIGHTS>);
    enter_all(placed, ledger, orders, items, serial, bundle)
}

#[inline(never)]
pub fn claim_all_by_passes(ledger: Ledger, orders: &mut [u32], items: &mut [u8], serial: u64, bundle: Bundle) -> Claimed {
    let bundle = Lines { orders: bundle.0, items: bundle.1 };
    let placed = takes(&ledger, Lines { orders, items }, serial, bundle, |lines, bundle, _| voided_and_first_by_passes(lines, bundle));
    enter_all(placed, ledger, orders, items, serial, bundle)
}
