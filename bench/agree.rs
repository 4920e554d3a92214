//! The peer has to answer what the engine answers, refusals too, or its times mean nothing: both are asked the same at random before any is timed.
use crate::{engine, peer};

pub struct Random(u64);

impl Random {
    pub fn new() -> Random {
        Random(88172645463325252)
    }

    pub fn next(&mut self) -> u64 {
        self.0 ^= self.0 << 13;
        self.0 ^= self.0 >> 7;
        self.0 ^= self.0 << 17;
        self.0
    }

    fn below(&mut self, n: u64) -> u64 {
        self.next() % n
    }

    /// An order number with a right check digit, one of so many.
    fn order(&mut self, many: u64) -> u32 {
        peer::numbered(1 + self.below(many) as u32)
    }

    /// In some editions bounds of 0: before a part, from it on, or now and then.
    fn withdraw(&mut self, upper: &mut [u8]) {
        let at = self.below(upper.len() as u64 + 1) as usize;
        match self.below(9) {
            0 => upper[..at].fill(0),
            1 => upper[at..].fill(0),
            2 | 3 => upper.iter_mut().for_each(|m| *m *= (self.below(3) > 0) as u8),
            _ => {}
        }
    }

    /// Mostly an edition that is accepted or whose N is over the limit.
    fn edition(&mut self) -> (Vec<u8>, u32) {
        let n = [1, 2, 3, 11, 15, 16, 20, 24, 24, 25][self.below(10) as usize];
        let most = [1, 2, 5, 6, 10, 24, 60][self.below(7) as usize];
        let mut upper: Vec<u8> = (0..n).map(|i| if most == 24 { (n - i) as u8 } else { 1 + self.below(most) as u8 }).collect();
        if self.below(20) == 0 {
            upper[0] = [0, 61, 255][self.below(3) as usize];
        }
        self.withdraw(&mut upper);
        let all: u64 = upper.iter().map(|&m| m as u64).sum();
        let total = [self.below(all + 2), all - self.below(all + 1).min(9), self.below(60), self.below(300)][self.below(4) as usize];
        (upper, total as u32)
    }

    /// Mostly a puzzle edition that is accepted.
    fn puzzle(&mut self) -> (Vec<u8>, u32) {
        let n = 1 + self.below(24) as u8;
        let mut upper: Vec<u8> = (1..=n).rev().collect();
        if self.below(9) == 0 {
            upper[self.below(n as u64) as usize] ^= 1;
        }
        let all = upper.iter().map(|&m| m as u64).sum::<u64>().min(255);
        let total = [self.below(all + 2), self.below(all.min(57) + 1)][self.below(2) as usize];
        (upper, total as u32)
    }
}

/// Bytes as they were given, or with one changed, left out or put in.
fn damaged(random: &mut Random, mut given: Vec<u8>) -> Vec<u8> {
    match random.below(6) {
        0 => _ = given.pop(),
        1 => given.push(random.below(4) as u8),
        2 if !given.is_empty() => {
            let i = random.below(given.len() as u64) as usize;
            given[i] = given[i].wrapping_add([1, 255, 100][random.below(3) as usize]);
        }
        _ => {}
    }
    given
}

fn case(random: &mut Random) {
    let (u, r) = random.edition();
    let count = engine::check(&u, r).count;
    assert_eq!(engine::check(&u, r), peer::check(&u, r), "check {u:?} {r}");
    let serial = [0, 1, count, count.saturating_add(1), 1 + random.below(count.max(1))][random.below(5) as usize];
    let n = [u.len(), u.len(), u.len() + 1, 0][random.below(4) as usize];
    let (mut a, mut b) = (vec![9; n], vec![9; n]);
    assert_eq!((engine::unrank(&u, r, serial, &mut a), &a), (peer::unrank::<false>(&u, r, serial, &mut b), &b), "unrank {u:?} {r} {serial} {n}");
    let g = damaged(random, a);
    assert_eq!(engine::rank(&u, r, &g), peer::rank::<false>(&u, r, &g), "rank {u:?} {r} {g:?}");
    assert_eq!(engine::successor(&u, r, &g), peer::successor(&u, r, &g), "successor {u:?} {r} {g:?}");
    assert_eq!(engine::predecessor(&u, r, &g), peer::predecessor(&u, r, &g), "predecessor {u:?} {r} {g:?}");
    let copies = random.below(40).min(count + 1);
    let size = copies as usize * u.len() + (random.below(9) == 0) as usize;
    let (mut a, mut b, mut c) = (vec![9; size], vec![9; size], vec![9; size]);
    let (x, y, z) = (
        engine::batch(&u, r, serial, copies, &mut a),
        peer::batch::<true>(&u, r, serial, copies, &mut b),
        peer::batch::<false>(&u, r, serial, copies, &mut c),
    );
    assert_eq!((x, &a, x, &a), (y, &b, z, &c), "batch {u:?} {r} {serial} {copies} {size}");
    listings(random, &u, r, count);
    orders(random, &u, r, &g);
    check_digits(random);
    if 0 < count && count < 5000 {
        calls(random, &u, r, count);
    }
}

fn puzzle(random: &mut Random) {
    let (u, r) = random.puzzle();
    let mut g = vec![0; u.len()];
    engine::unrank(&u, r, 1 + random.below(engine::check(&u, r).count.max(1)), &mut g);
    let g = damaged(random, g);
    orders(random, &u, r, &g);
}

/// The whole edition where its tray is not too long, at times with a byte too many or too few; else a tray that is too short.
fn listings(random: &mut Random, u: &[u8], r: u32, count: u64) {
    let size = count.checked_mul(u.len() as u64).filter(|&size| size < 20_000).unwrap_or(random.below(99)) as usize;
    let size = [size, size, size + 1, size.saturating_sub(1)][random.below(4) as usize];
    let (mut a, mut b, mut c) = (vec![9; size], vec![9; size], vec![9; size]);
    let (x, y, z) = (engine::listing(u, r, &mut a), peer::listing::<false>(u, r, &mut b), peer::listing::<true>(u, r, &mut c));
    assert_eq!((x, &a, x, &a), (y, &b, z, &c), "listing {u:?} {r} {size}");
}

/// Both ways of making an order of a mix, and both ways back of each of them.
fn orders(random: &mut Random, u: &[u8], r: u32, g: &[u8]) {
    let k = u.len() + 1 - (random.below(9) == 0) as usize;
    let (mut a, mut b) = (vec![9; k], vec![9; k]);
    assert_eq!((engine::permutation(u, r, g, &mut a), &a), (peer::permutation(u, r, g, &mut b), &b), "permutation {u:?} {r} {g:?}");
    let (mut c, mut d, mut e) = (vec![9; k], vec![9; k], vec![9; k]);
    let (x, y, z) = (
        engine::major_permutation(u, r, g, &mut c),
        peer::major_permutation::<false>(u, r, g, &mut d),
        peer::major_permutation::<true>(u, r, g, &mut e),
    );
    assert_eq!((x, &c, x, &c), (y, &d, z, &e), "major permutation {u:?} {r} {g:?}");
    for p in [a, c] {
        let p = damaged(random, p);
        let n = u.len() + (random.below(9) == 0) as usize;
        let (mut a, mut b) = (vec![9; n], vec![9; n]);
        assert_eq!((engine::inversions(u, r, &p, &mut a), &a), (peer::inversions(u, r, &p, &mut b), &b), "inversions {u:?} {r} {p:?}");
        let (mut a, mut b) = (vec![9; n], vec![9; n]);
        assert_eq!((engine::major_code(u, r, &p, &mut a), &a), (peer::major_code::<false>(u, r, &p, &mut b), &b), "major code {u:?} {r} {p:?}");
        assert_eq!((engine::major_code(u, r, &p, &mut a), &a), (peer::major_code::<true>(u, r, &p, &mut b), &b), "major code {u:?} {r} {p:?}");
    }
}

/// Both go by quotients, so the digits themselves are asked too.
fn check_digits(random: &mut Random) {
    for order in [random.next() as u32 >> random.below(32), random.order(ORDERS)] {
        let digits = order.to_string().into_bytes();
        let sum: u32 = digits.iter().rev().zip([1, 3].iter().cycle()).map(|(d, w)| (d - b'0') as u32 * w).sum();
        assert_eq!((engine::order_passes(order), peer::order_passes(order)), (sum % 10 == 0, sum % 10 == 0), "order {order}");
    }
}

/// How many order numbers of more than one digit have a right check digit.
const ORDERS: u64 = u32::MAX as u64 / 10;

/// Another order number with a right check digit and the same slot in a bundle's marks.
fn twin(random: &mut Random, order: u32) -> u32 {
    loop {
        let other = order ^ (random.next() as u32 & !8191);
        if peer::order_passes(other) && other != order {
            return other;
        }
    }
}

/// The two columns of a register.
#[derive(Clone, PartialEq, Debug)]
struct Columns {
    orders: Vec<u32>,
    items: Vec<u8>,
}

impl Columns {
    /// Some lines spoilt; orders that now repeat and now do not, with few item lines or many; in some registers check digits of which most are wrong.
    fn of(random: &mut Random, count: u64) -> Columns {
        let (many, last) = ([50, 5_000, ORDERS][random.below(3) as usize], [2, 99][random.below(2) as usize]);
        let wrong = random.below(5) == 0;
        let drawn = |random: &mut Random| if wrong { random.below(many) as u32 } else { random.order(many) };
        let orders: Vec<u32> = (0..count).map(|_| if random.below(9) == 0 { 0 } else { drawn(random) }).collect();
        let items = orders.iter().map(|&o| if o == 0 { 0 } else { 1 + random.below(last) as u8 }).collect();
        Columns { orders, items }
    }

    /// As they were, or with an item line of the first lines changed, or the item column cut or longer by one.
    fn damaged(&self, random: &mut Random) -> Columns {
        let mut columns = self.clone();
        let at = random.below(columns.orders.len() as u64) as usize;
        match random.below(60) {
            0 => columns.items[at] = [0, 1, 99, 100, 255][random.below(5) as usize],
            1 => columns.orders[at] ^= columns.orders[at].max(1),
            2 => columns.items.truncate(at),
            3 => columns.items.push(255),
            _ => {}
        }
        columns
    }

    /// A line of the columns, or one with another item line or another order, or with a check digit that is mostly wrong.
    fn line(&self, random: &mut Random) -> (u32, u8) {
        let at = random.below(self.orders.len() as u64) as usize;
        let (order, item) = (self.orders[at], self.items.get(at).copied().unwrap_or(1));
        match random.below(6) {
            0 => (order, 1 + random.below(99) as u8),
            1 => (random.order(60), item),
            2 => (random.order(ORDERS), [1, 2, 99, 0, 100, 255][random.below(6) as usize]),
            3 => ([order ^ 1, random.next() as u32][random.below(2) as usize], [item, 0][random.below(2) as usize]),
            _ => (order, item),
        }
    }
}

/// A ledger of so many lines, and its columns.
fn lines(random: &mut Random, u: &[u8], r: u32, count: u64) -> (peer::Ledger, Columns) {
    let columns = Columns::of(random, count);
    let orders = &columns.orders;
    let mut ledger = engine::open(u, r, orders, &columns.items).ledger;
    ledger.entries = [0, random.below(count + 1), count - 1 - random.below(count.min(13))][random.below(3) as usize];
    ledger.voided = orders[..ledger.entries as usize].iter().filter(|&&o| o == 0).count() as u64;
    ledger.sold = ledger.entries - ledger.voided;
    let next = (ledger.entries + 1).min(count);
    assert_eq!(peer::unrank::<false>(u, r, next, &mut ledger.next[..u.len()]).number, 0);
    (ledger, columns)
}

/// A record as it was, or with a count or a cell changed.
fn spoilt(random: &mut Random, mut ledger: peer::Ledger) -> peer::Ledger {
    let i = random.below(24) as usize;
    match random.below(100) {
        0 => ledger.entries ^= 1,
        1 => ledger.sold ^= 1,
        2 => ledger.voided ^= 1,
        3 => ledger.next[i] ^= 1,
        4 => ledger.bounds.upper[i] ^= 1,
        5 => ledger.bounds.parts += 1,
        _ => {}
    }
    ledger
}

/// The lines of a bundle: mostly new ones, some of them with a slot or a number that another or a line has too; then one that has a fault, is of the
/// columns, or of the bundle; at times an item line too many or too few.
fn bundle(random: &mut Random, columns: &Columns) -> (Vec<u32>, Vec<u8>) {
    let size = [0, 1, 2, 39, 40, 41, 1 + random.below(40), 1 + random.below(12)][random.below(8) as usize];
    let mut bundle: Vec<(u32, u8)> = Vec::new();
    for _ in 0..size {
        let (last, item) = *bundle.last().unwrap_or(&(columns.orders[0], 1));
        let new = random.order(ORDERS);
        bundle.push([(new, item), (new, 1), (twin(random, last), item), (last, item % 99 + 1)][random.below(4) as usize]);
    }
    if size > 0 && random.below(2) == 0 {
        let at = random.below(size) as usize;
        let (order, item) = bundle[at];
        let other = bundle[random.below(size) as usize];
        bundle[at] = [(0, 1), columns.line(random), other, (order, 100), (order ^ 1, item)][random.below(5) as usize];
    }
    let (orders, mut items): (Vec<u32>, Vec<u8>) = bundle.into_iter().unzip();
    match random.below(20) {
        0 => items.push(1),
        1 => _ = items.pop(),
        _ => {}
    }
    (orders, items)
}

fn calls(random: &mut Random, u: &[u8], r: u32, count: u64) {
    let (mut ledger, mut columns) = lines(random, u, r, count);
    for _ in 0..12 {
        ledger = spoilt(random, ledger);
        let mut ours = columns.damaged(random);
        let mut theirs = ours.clone();
        assert_eq!(engine::peek(ledger, &ours.orders, &ours.items), peer::peek(ledger, &ours.orders, &ours.items), "peek {u:?} {r} {ledger:?}");
        let next = ledger.entries.wrapping_add(1);
        let serial = [next, next, next, ledger.entries, random.below(count + 2)][random.below(5) as usize];
        let (order, item) = columns.line(random);
        let (bundle, lines) = bundle(random, &columns);
        let (x, y) = ((&mut ours.orders, &mut ours.items), (&mut theirs.orders, &mut theirs.items));
        let (a, b) = match random.below(6) {
            0 => (engine::void(ledger, x.0, x.1, serial), peer::void(ledger, y.0, y.1, serial)),
            1 | 2 => {
                let several = [peer::claim_all::<false>, peer::claim_all::<true>, peer::claim_all_by_passes][random.below(3) as usize];
                (engine::claim_all(ledger, x.0, x.1, serial, (&bundle, &lines)), several(ledger, y.0, y.1, serial, (&bundle, &lines)))
            }
            _ => (engine::claim(ledger, x.0, x.1, serial, order, item), peer::claim(ledger, y.0, y.1, serial, order, item)),
        };
        assert_eq!((a, &ours), (b, &theirs), "claim, void or claim of several {u:?} {r} {ledger:?} {serial} {order} {item} {bundle:?} {lines:?}");
        if a.number == 0 {
            columns = ours;
        }
        ledger = a.ledger;
    }
}

pub fn check(cases: usize) {
    let mut random = Random::new();
    for _ in 0..cases {
        case(&mut random);
        puzzle(&mut random);
    }
}
