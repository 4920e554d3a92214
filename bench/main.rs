//! The engine beside plain Rust (bench/peer) and SQLite, on the same inputs in the same run. Prints Markdown tables.
//! Arguments: the engine's listing program; the peer's; a folder for the slip and for SQLite's files.
mod agree;
mod clock;
mod engine;
mod measure;
mod peer;
mod register;
mod sqlite;
mod walks;

use std::fs::File;
use std::hint::black_box;
use std::process::{Command, Stdio};

use measure::{Beside, Table, run, turns};

const INPUTS: u64 = 64;

fn beside(ours: impl FnMut(usize), theirs: impl FnMut(usize)) -> Beside {
    turns(run(clock::own, ours), run(clock::own, theirs))
}

struct Edition {
    name: &'static str,
    upper: Vec<u8>,
    total: u32,
    count: u64,
}

fn edition(name: &'static str, upper: Vec<u8>, total: u32) -> Edition {
    let (a, b) = (engine::check(&upper, total), peer::check(&upper, total));
    assert_eq!(a, b);
    assert_eq!(a.number, 0, "{name}");
    Edition { name, upper, total, count: a.count }
}

fn stairs(n: u8) -> Vec<u8> {
    (1..=n).rev().collect()
}

impl Edition {
    fn serials(&self) -> Vec<u64> {
        let mut random = agree::Random::new();
        (0..INPUTS).map(|_| 1 + random.next() % self.count).collect()
    }

    fn compositions(&self) -> Vec<Vec<u8>> {
        self.serials()
            .iter()
            .map(|&s| {
                let mut g = vec![0; self.upper.len()];
                assert_eq!(peer::unrank::<false>(&self.upper, self.total, s, &mut g).number, 0);
                g
            })
            .collect()
    }
}

/// An answer where the call has left it: a copy of it could wait for its last bytes, in the one more than in the other.
#[inline(always)]
pub fn seen<T>(answer: T) {
    black_box(&answer);
}

fn at(inputs: &[Vec<u8>], i: usize) -> &[u8] {
    black_box(&inputs[i % INPUTS as usize])
}

fn counts(table: &mut Table, e: &Edition) {
    let (u, r) = (&e.upper, e.total);
    let ours = |_| seen(engine::check(black_box(u), black_box(r)));
    let theirs = |_| seen(peer::check(black_box(u), black_box(r)));
    table.row(&format!("count: {}", e.name), beside(ours, theirs));
}

/// One number a call, of those that are drawn.
fn check_digits(table: &mut Table) {
    const DRAWN: usize = 1_024;
    let mut random = agree::Random::new();
    let numbers: Vec<u32> = (0..DRAWN).map(|_| random.next() as u32).collect();
    assert!(numbers.iter().all(|&order| engine::order_passes(order) == peer::order_passes(order)));
    let number = |i: usize| black_box(numbers[i % DRAWN]);
    let ours = |i| seen(engine::order_passes(number(i)));
    let theirs = |i| seen(peer::order_passes(number(i)));
    table.row("order passes: numbers of 32 bits", beside(ours, theirs));
}

/// Of a function with a row for the same work done in another way too: whether that is printed.
#[derive(Clone, Copy, PartialEq)]
enum Rows {
    Both,
    First,
}

fn unranks(table: &mut Table, e: &Edition, rows: Rows) {
    let (u, r, n) = (&e.upper, e.total, e.upper.len());
    let serials = e.serials();
    let (mut a, mut b) = (vec![0; n], vec![0; n]);
    for (s, g) in serials.iter().zip(&e.compositions()) {
        assert_eq!((engine::unrank(u, r, *s, &mut a).number, &a), (0, g));
    }
    let serial = |i: usize| black_box(serials[i % INPUTS as usize]);
    let mut ours = |i| seen(engine::unrank(u, r, serial(i), &mut a));
    let theirs = |i| seen(peer::unrank::<false>(u, r, serial(i), &mut b));
    table.row(&format!("unrank: {}", e.name), beside(&mut ours, theirs));
    if rows == Rows::Both {
        let cleared = |i| seen(peer::unrank::<true>(u, r, serial(i), &mut b));
        table.row("  the same, the peer's table cleared first", beside(&mut ours, cleared));
    }
}

fn ranks(table: &mut Table, e: &Edition, rows: Rows) {
    let (u, r, given) = (&e.upper, e.total, e.compositions());
    for g in &given {
        assert_eq!(engine::rank(u, r, g), peer::rank::<false>(u, r, g));
    }
    let ours = |i| seen(engine::rank(u, r, at(&given, i)));
    table.row(&format!("rank: {}", e.name), beside(ours, |i| seen(peer::rank::<false>(u, r, at(&given, i)))));
    if rows == Rows::Both {
        let cleared = |i| seen(peer::rank::<true>(u, r, at(&given, i)));
        table.row("  the same, the peer's table cleared first", beside(ours, cleared));
    }
}

/// A rank of parts with another sum, and an unrank into a part of another length.
fn refusals(table: &mut Table, e: &Edition) {
    let (u, r, n) = (&e.upper, e.total, e.upper.len());
    let mut given = e.compositions();
    for g in &mut given {
        let i = g.iter().zip(u).position(|(v, m)| v < m).unwrap();
        g[i] += 1;
        assert_eq!((engine::rank(u, r, g).number, peer::rank::<false>(u, r, g).number), (8, 8));
    }
    let ours = |i| seen(engine::rank(u, r, at(&given, i)));
    let theirs = |i| seen(peer::rank::<false>(u, r, at(&given, i)));
    table.row(&format!("rank, refused 8: {}", e.name), beside(ours, theirs));
    let serials = e.serials();
    let (mut a, mut b) = (vec![0; n - 1], vec![0; n - 1]);
    assert_eq!((engine::unrank(u, r, 1, &mut a).number, peer::unrank::<false>(u, r, 1, &mut b).number), (13, 13));
    let serial = |i: usize| black_box(serials[i % INPUTS as usize]);
    let ours = |i| seen(engine::unrank(u, r, serial(i), &mut a));
    let theirs = |i| seen(peer::unrank::<false>(u, r, serial(i), &mut b));
    table.row(&format!("unrank, refused 13: {}", e.name), beside(ours, theirs));
}

fn successors(table: &mut Table, e: &Edition) {
    let (u, r, given) = (&e.upper, e.total, e.compositions());
    for g in &given {
        assert_eq!(engine::successor(u, r, g), peer::successor(u, r, g));
    }
    let ours = |i| seen(engine::successor(u, r, at(&given, i)));
    table.row(&format!("successor: {}", e.name), beside(ours, |i| seen(peer::successor(u, r, at(&given, i)))));
}

fn predecessors(table: &mut Table, e: &Edition) {
    let (u, r, given) = (&e.upper, e.total, e.compositions());
    for g in &given {
        assert_eq!(engine::predecessor(u, r, g), peer::predecessor(u, r, g));
    }
    let ours = |i| seen(engine::predecessor(u, r, at(&given, i)));
    table.row(&format!("predecessor: {}", e.name), beside(ours, |i| seen(peer::predecessor(u, r, at(&given, i)))));
}

fn batches(table: &mut Table, e: &Edition, copies: u64, name: &str, rows: Rows) {
    let (u, r, n) = (&e.upper, e.total, e.upper.len());
    let serial = 1 + (e.count - copies) / 3;
    let (mut a, mut b) = (vec![1; n * copies as usize], vec![2; n * copies as usize]);
    assert_eq!((engine::batch(u, r, serial, copies, &mut a).number, peer::batch::<true>(u, r, serial, copies, &mut b).number), (0, 0));
    assert!(a == b);
    b.fill(3);
    assert_eq!(peer::batch_by_blocks(u, r, serial, copies, &mut b).number, 0);
    assert!(a == b);
    let mut ours = |_| seen(engine::batch(u, r, serial, copies, &mut a));
    let theirs = |_| seen(peer::batch::<true>(u, r, serial, copies, &mut b));
    table.row(&format!("batch of {name}: {}", e.name), beside(&mut ours, theirs));
    if rows == Rows::Both {
        let narrow = |_| seen(peer::batch::<false>(u, r, serial, copies, &mut b));
        table.row("  the same, the peer copies no byte too many", beside(&mut ours, narrow));
    }
    if copies >= 20_000 {
        let blocks = |_| seen(peer::batch_by_blocks(u, r, serial, copies, &mut b));
        table.row("  the same, the peer by blocks too", beside(&mut ours, blocks));
    }
}

type Conversion<'a> = &'a dyn Fn(&[u8], &mut [u8]) -> peer::Refusal;

/// The orders of an edition's mixes: all functions there have to give the same, and all functions back the mix.
fn orders(e: &Edition, there: &[Conversion], back: &[Conversion]) -> Vec<Vec<u8>> {
    let converted = |f: Conversion, given: &[u8], len| {
        let mut out = vec![0; len];
        assert_eq!(f(given, &mut out).number, 0);
        out
    };
    let n = e.upper.len();
    let order = |g: &Vec<u8>| {
        let order = converted(there[0], g, n + 1);
        assert!(there.iter().all(|f| converted(f, g, n + 1) == order));
        assert!(back.iter().all(|f| converted(f, &order, n) == *g));
        order
    };
    e.compositions().iter().map(order).collect()
}

fn permutations(table: &mut Table, e: &Edition) {
    let (u, r, n) = (&e.upper, e.total, e.upper.len());
    let given = e.compositions();
    let orders = orders(
        e,
        &[&|g, out| engine::permutation(u, r, g, out), &|g, out| peer::permutation(u, r, g, out)],
        &[&|p, out| engine::inversions(u, r, p, out), &|p, out| peer::inversions(u, r, p, out)],
    );
    let (mut a, mut b) = (vec![0; n + 1], vec![0; n + 1]);
    let ours = |i| seen(engine::permutation(u, r, at(&given, i), &mut a));
    let theirs = |i| seen(peer::permutation(u, r, at(&given, i), &mut b));
    table.row(&format!("permutation: {}", e.name), beside(ours, theirs));
    let (mut a, mut b) = (vec![0; n], vec![0; n]);
    let ours = |i| seen(engine::inversions(u, r, at(&orders, i), &mut a));
    let theirs = |i| seen(peer::inversions(u, r, at(&orders, i), &mut b));
    table.row(&format!("inversions: {}", e.name), beside(ours, theirs));
}

/// The same by major index.
fn majors(table: &mut Table, e: &Edition) {
    let (u, r, n) = (&e.upper, e.total, e.upper.len());
    let given = e.compositions();
    let orders = orders(
        e,
        &[
            &|g, out| engine::major_permutation(u, r, g, out),
            &|g, out| peer::major_permutation::<false>(u, r, g, out),
            &|g, out| peer::major_permutation::<true>(u, r, g, out),
        ],
        &[
            &|p, out| engine::major_code(u, r, p, out),
            &|p, out| peer::major_code::<false>(u, r, p, out),
            &|p, out| peer::major_code::<true>(u, r, p, out),
        ],
    );
    let (mut a, mut b) = (vec![0; n + 1], vec![0; n + 1]);
    let mut ours = |i| seen(engine::major_permutation(u, r, at(&given, i), &mut a));
    let theirs = |i| seen(peer::major_permutation::<false>(u, r, at(&given, i), &mut b));
    table.row(&format!("major permutation: {}", e.name), beside(&mut ours, theirs));
    let turns = |i| seen(peer::major_permutation::<true>(u, r, at(&given, i), &mut b));
    table.row("  the same, the peer turns the sheets", beside(&mut ours, turns));
    let (mut a, mut b) = (vec![0; n], vec![0; n]);
    let mut ours = |i| seen(engine::major_code(u, r, at(&orders, i), &mut a));
    let theirs = |i| seen(peer::major_code::<false>(u, r, at(&orders, i), &mut b));
    table.row(&format!("major code: {}", e.name), beside(&mut ours, theirs));
    let turns = |i| seen(peer::major_code::<true>(u, r, at(&orders, i), &mut b));
    table.row("  the same, the peer turns the sheets back", beside(&mut ours, turns));
}

fn listing(table: &mut Table, ours: &str, theirs: &str, folder: &str, e: &Edition) {
    let words: Vec<String> = e.upper.iter().map(|m| m.to_string()).collect();
    let slip = format!("{folder}/slip.txt");
    std::fs::write(&slip, format!("mixes\n{}\n{}\n", words.join(" "), e.total)).unwrap();
    let start = |program: &str, out: Stdio| Command::new(program).stdin(File::open(&slip).unwrap()).stdout(out).spawn().unwrap();
    let text = |program: &str| start(program, Stdio::piped()).wait_with_output().unwrap().stdout;
    let (a, b) = (text(ours), text(theirs));
    assert!(a == b, "the two listings differ");
    let listed = |program: &str| _ = start(program, Stdio::null()).wait().unwrap();
    let work = format!("listing of {} lines, {} MB, to nowhere: {}", e.count, a.len() / 1_000_000, e.name);
    table.row(&work, turns(run(clock::children, |_| listed(ours)), run(clock::children, |_| listed(theirs))));
}

/// Editions of which nothing is listed and no register is kept.
fn conversions(table: &mut Table) {
    let six = edition("24 x 6, total 72", vec![6; 24], 72);
    let ten = edition("24 x 10, total 239", vec![10; 24], 239);
    let longer = edition("24 x 5, total 60", vec![5; 24], 60);
    let twenty = edition("20 x 6, total 60", vec![6; 20], 60);
    let twelve = edition("12 sheets, 33 inversions", stairs(11), 33);
    let sheets = edition("25 sheets, 57 inversions", stairs(24), 57);
    let few = edition("25 sheets, 8 inversions", stairs(24), 8);
    for e in [&six, &ten, &twelve] {
        counts(table, e);
    }
    for e in [&six, &twelve] {
        unranks(table, e, Rows::Both);
        ranks(table, e, Rows::Both);
    }
    for e in [&six, &twelve] {
        refusals(table, e);
    }
    for e in [&twelve, &longer, &twenty, &ten, &six] {
        successors(table, e);
        predecessors(table, e);
    }
    for e in [&six, &twelve] {
        batches(table, e, 1_000_000, "a million", Rows::Both);
    }
    let front = edition("12 sheets, 33 inversions, behind four withdrawn", four_zeros(&twelve.upper), 33);
    let second = edition("12 sheets, 33 inversions, one withdrawn after the first", [&[11, 0], &twelve.upper[1..]].concat(), 33);
    for e in [&front, &second] {
        batches(table, e, 1_000_000, "a million", Rows::First);
    }
    batches(table, &six, 1_000, "a thousand", Rows::Both);
    let two = edition("2 kinds, 60 and 60, total 60", vec![60, 60], 60);
    let five = edition("20 x 5, total 50", vec![5; 20], 50);
    for e in [&six, &twelve, &five] {
        batches(table, e, 1, "one", Rows::First);
        batches(table, e, 100, "a hundred", Rows::First);
    }
    batches(table, &two, 1, "one", Rows::First);
    batches(table, &two, 61, "61, all", Rows::First);
    for e in [&few, &sheets, &twelve] {
        permutations(table, e);
    }
    majors(table, &edition("25 sheets, total 8", stairs(24), 8));
    majors(table, &edition("25 sheets, total 57", stairs(24), 57));
    majors(table, &edition("12 sheets, total 33", stairs(11), 33));
}

/// The rows of an edition behind four withdrawn kinds, each after that of the edition without them.
fn withdrawn(table: &mut Table) {
    let five = edition("20 x 5, total 50", vec![5; 20], 50);
    let behind = edition("20 x 5, total 50, behind four withdrawn", four_zeros(&five.upper), 50);
    let both = [&five, &behind];
    both.iter().for_each(|e| counts(table, e));
    both.iter().for_each(|e| unranks(table, e, Rows::First));
    both.iter().for_each(|e| ranks(table, e, Rows::First));
    both.iter().for_each(|e| successors(table, e));
    both.iter().for_each(|e| batches(table, e, 1_000_000, "a million", Rows::First));
}

fn four_zeros(upper: &[u8]) -> Vec<u8> {
    [&[0; 4], upper].concat()
}

fn main() {
    let arguments: Vec<String> = std::env::args().collect();
    let [_, ours, theirs, folder] = &arguments[..] else { panic!("three arguments") };
    agree::check(20_000);
    let mut table = Table::new("Rust");
    conversions(&mut table);
    withdrawn(&mut table);
    let million = edition("8 kinds, N = 1000000", vec![5, 4, 11, 6, 13, 2, 20, 18], 29);
    let mut upper = vec![1; 12];
    upper.extend([2, 3, 3, 3, 3, 5, 60, 60, 60, 60, 60, 60]);
    let long = edition("24 kinds, N = 999476", upper, 7);
    check_digits(&mut table);
    register::rows(&mut table, &million, &[1, 1_000, 999_999]);
    register::claims(&mut table, &long, 1);
    for entries in [1, 1_000, 999_000] {
        register::bundles(&mut table, &million, entries);
    }
    register::refused_bundle(&mut table, &million, 999_000);
    register::bundles(&mut table, &long, 1);
    walks::rows(&mut table, &long);
    walks::rows(&mut table, &edition("12 sheets, 33 inversions", stairs(11), 33));
    listing(&mut table, ours, theirs, folder, &long);
    register::club(&million, &[1, 1_000, 999_000]);
    register::second_column(&million, &[1, 1_000, 999_999]);
    sqlite::compare(&million, &[1, 1_000, 999_999], folder);
    println!("\n## Over 1.05\n");
    println!("{}", if table.over.is_empty() { "No row.".into() } else { format!("- {}", table.over.join("\n- ")) });
}
