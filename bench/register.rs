//! The rows of the register's calls: peeks, claims, voids and bundles over columns with few and with many lines, and what the second column costs.
use std::cell::RefCell;
use std::hint::black_box;

use crate::measure::{Beside, Table, shown};
use crate::{Edition, beside, engine, peer, seen};

pub fn with(call: &str, entries: u64) -> String {
    format!("{call} with {entries} {} written", if entries == 1 { "entry" } else { "entries" })
}

/// An order that stands in no line: the greatest number with a right check digit, and the digits before it.
pub const NEW: u32 = peer::numbered(LAST);
const LAST: u32 = u32::MAX / 10;

fn order(i: u32) -> u32 {
    peer::numbered(i * 3 + 7)
}

fn item(i: u32) -> u8 {
    1 + (i % 3) as u8
}

/// The orders and the item lines of a bundle.
pub struct Bundle {
    orders: Vec<u32>,
    items: Vec<u8>,
}

impl Bundle {
    /// So many orders, which stand in no line.
    fn new(size: u32) -> Bundle {
        Bundle { orders: (0..size).map(|i| peer::numbered(LAST - 100 * i)).collect(), items: (0..size).map(item).collect() }
    }

    fn lent(&self) -> (&[u32], &[u8]) {
        (&self.orders, &self.items)
    }
}

/// A ledger with so many entries and its columns. An accepted call does not change it: each starts from the same record and writes the same entries.
pub struct Opened {
    ledger: peer::Ledger,
    orders: Vec<u32>,
    items: Vec<u8>,
}

impl Opened {
    pub fn with(e: &Edition, entries: u64) -> Opened {
        let orders: Vec<u32> = (0..e.count as u32).map(order).collect();
        let items: Vec<u8> = (0..e.count as u32).map(item).collect();
        let mut ledger = engine::open(&e.upper, e.total, &orders, &items).ledger;
        ledger.entries = entries;
        ledger.sold = entries;
        assert_eq!(peer::unrank::<false>(&e.upper, e.total, entries + 1, &mut ledger.next[..e.upper.len()]).number, 0);
        Opened { ledger, orders, items }
    }

    /// The same with every so manieth line voided.
    fn voided(e: &Edition, entries: u64, every: usize) -> Opened {
        let mut opened = Opened::with(e, entries);
        for at in (0..entries as usize).step_by(every) {
            (opened.orders[at], opened.items[at]) = (0, 0);
            opened.ledger.sold -= 1;
            opened.ledger.voided += 1;
        }
        opened
    }

    fn peek(&mut self) -> peer::Peeked {
        engine::peek(black_box(self.ledger), &self.orders, &self.items)
    }

    fn peek_of_peer(&mut self) -> peer::Peeked {
        peer::peek(black_box(self.ledger), &self.orders, &self.items)
    }

    pub fn claim(&mut self, order: u32, item: u8) -> peer::Claimed {
        engine::claim(black_box(self.ledger), &mut self.orders, &mut self.items, self.ledger.entries + 1, order, item)
    }

    fn claim_of_peer(&mut self, order: u32, item: u8) -> peer::Claimed {
        peer::claim(black_box(self.ledger), &mut self.orders, &mut self.items, self.ledger.entries + 1, order, item)
    }

    fn claim_by_number(&mut self, order: u32, item: u8) -> peer::Claimed {
        peer::claim_by_number(black_box(self.ledger), &mut self.orders, &mut self.items, self.ledger.entries + 1, order, item)
    }

    fn claim_all(&mut self, bundle: &Bundle) -> peer::Claimed {
        engine::claim_all(black_box(self.ledger), &mut self.orders, &mut self.items, self.ledger.entries + 1, bundle.lent())
    }

    fn claim_all_of_peer<const EIGHTS: bool>(&mut self, bundle: &Bundle) -> peer::Claimed {
        peer::claim_all::<EIGHTS>(black_box(self.ledger), &mut self.orders, &mut self.items, self.ledger.entries + 1, bundle.lent())
    }

    fn claim_all_by_passes(&mut self, bundle: &Bundle) -> peer::Claimed {
        peer::claim_all_by_passes(black_box(self.ledger), &mut self.orders, &mut self.items, self.ledger.entries + 1, bundle.lent())
    }

    /// Single claims, one after another: the answer of the first with the record after the last.
    fn claims(&mut self, bundle: &Bundle) -> peer::Claimed {
        let first = self.claim(bundle.orders[0], bundle.items[0]);
        let mut after = first.ledger;
        for (&order, &item) in bundle.orders.iter().zip(&bundle.items).skip(1) {
            after = engine::claim(after, &mut self.orders, &mut self.items, after.entries + 1, order, item).ledger;
        }
        peer::Claimed { ledger: after, ..first }
    }

    fn void(&mut self) -> peer::Claimed {
        engine::void(black_box(self.ledger), &mut self.orders, &mut self.items, self.ledger.entries + 1)
    }

    fn void_of_peer(&mut self) -> peer::Claimed {
        peer::void(black_box(self.ledger), &mut self.orders, &mut self.items, self.ledger.entries + 1)
    }
}

fn row<T: PartialEq + std::fmt::Debug>(
    table: &mut Table,
    work: &str,
    (e, entries): (&Edition, u64),
    ours: impl Fn(&mut Opened) -> T,
    theirs: impl Fn(&mut Opened) -> T,
) {
    table.row(&format!("{}: {}", with(work, entries), e.name), timed((e, entries), ours, theirs));
}

/// The times of two calls, which answer the same and leave the same columns.
fn timed<T: PartialEq + std::fmt::Debug>(
    (e, entries): (&Edition, u64),
    ours: impl Fn(&mut Opened) -> T,
    theirs: impl Fn(&mut Opened) -> T,
) -> Beside {
    timed_on(|| Opened::with(e, entries), ours, theirs)
}

/// They take turns on one pair of columns: where a column lies in memory can cost more than what is compared.
fn timed_on<T: PartialEq + std::fmt::Debug>(
    opened: impl Fn() -> Opened,
    ours: impl Fn(&mut Opened) -> T,
    theirs: impl Fn(&mut Opened) -> T,
) -> Beside {
    let (mut a, mut b) = (opened(), opened());
    assert_eq!(ours(&mut a), theirs(&mut b));
    assert!(a.orders == b.orders && a.items == b.items);
    let a = RefCell::new(a);
    beside(|_| seen(ours(&mut a.borrow_mut())), |_| seen(theirs(&mut a.borrow_mut())))
}

pub fn claims(table: &mut Table, e: &Edition, entries: u64) {
    row(table, "claim", (e, entries), |o| o.claim(NEW, 1), |o| o.claim_of_peer(NEW, 1));
}

pub fn rows(table: &mut Table, e: &Edition, entries: &[u64]) {
    for &entries in entries {
        row(table, "peek", (e, entries), Opened::peek, Opened::peek_of_peer);
    }
    for &entries in entries {
        claims(table, e, entries);
    }
    let most = *entries.last().unwrap();
    row(table, "void", (e, most), Opened::void, Opened::void_of_peer);
    let last = most as u32 - 1;
    let stands = (order(last), item(last));
    row(table, "claim of the last line's order, refused 20,", (e, most), |o| o.claim(stands.0, stands.1), |o| o.claim_of_peer(stands.0, stands.1));
    row(table, "claim of the next copy on the last line's order", (e, most), |o| o.claim(stands.0, 99), |o| o.claim_of_peer(stands.0, 99));
    voided(table, e, most);
}

/// A block of lines in which one is voided is passed over once more.
fn voided(table: &mut Table, e: &Edition, entries: u64) {
    for every in [2_000, 20] {
        let with = |work: &str| format!("{}, every {every}th voided: {}", with(work, entries), e.name);
        let opened = || Opened::voided(e, entries, every);
        table.row(&with("peek"), timed_on(opened, Opened::peek, Opened::peek_of_peer));
        table.row(&with("claim"), timed_on(opened, |o| o.claim(NEW, 1), |o| o.claim_of_peer(NEW, 1)));
    }
}

pub fn bundles(table: &mut Table, e: &Edition, entries: u64) {
    let bundle = Bundle::new(40);
    row(table, "bundle of 40", (e, entries), |o| o.claim_all(&bundle), |o| o.claim_all_of_peer::<false>(&bundle));
    if entries > 1 {
        let times = timed((e, entries), |o| o.claim_all(&bundle), |o| o.claim_all_of_peer::<true>(&bundle));
        table.row("  the same, the peer tests eight lines at a time", times);
    }
}

/// The last line of the bundle is the last line written.
pub fn refused_bundle(table: &mut Table, e: &Edition, entries: u64) {
    let mut bundle = Bundle::new(40);
    let last = entries as u32 - 1;
    (bundle.orders[39], bundle.items[39]) = (order(last), item(last));
    row(table, "bundle of 40, refused 20 at its last order,", (e, entries), |o| o.claim_all(&bundle), |o| o.claim_all_of_peer::<false>(&bundle));
}

/// A bundle beside the same orders claimed one by one, and beside a bundle in Rust that passes over the lines once for each order.
pub fn club(e: &Edition, entries: &[u64]) {
    println!("\nA bundle of 40 of {}, beside forty claims of the engine, and beside plain Rust with a pass for each order:\n", e.name);
    println!(
        "| Entries written | Bundle | Forty claims | Factor, its quartiles | Rust, forty passes | Factor, its quartiles |\n|---|---|---|---|---|---|"
    );
    let bundle = Bundle::new(40);
    for &entries in entries {
        let claims = timed((e, entries), |o| o.claim_all(&bundle), |o| o.claims(&bundle));
        let passes = timed((e, entries), |o| o.claim_all(&bundle), |o| o.claim_all_by_passes(&bundle));
        let [ours, single, passed] = [claims.ours, claims.theirs, passes.theirs].map(|times| shown(times.median));
        println!("| {entries} | {ours} | {single} | {} | {passed} | {} |", claims.factor(), passes.factor());
    }
}

/// Claims in plain Rust that pass over the order column alone, as before there were item lines, beside those over both columns, and the engine's.
pub fn second_column(e: &Edition, entries: &[u64]) {
    println!(
        "\nWhat the second column costs a claim of {}: plain Rust over the order column alone, as before request (vi), beside both columns:\n",
        e.name
    );
    println!(
        "| Entries written | Rust, one column | Rust, both | Factor, its quartiles | Engine, both | Factor, its quartiles |\n|---|---|---|---|---|---|"
    );
    for &entries in entries {
        let alone = |o: &mut Opened| o.claim_by_number(NEW, 1);
        let (rust, ours) = (timed((e, entries), alone, |o| o.claim_of_peer(NEW, 1)), timed((e, entries), alone, |o| o.claim(NEW, 1)));
        let [one, both, engine] = [rust.ours, rust.theirs, ours.theirs].map(|times| shown(times.median));
        println!("| {entries} | {one} | {both} | {} | {engine} | {} |", rust.factor(), ours.factor());
    }
}
