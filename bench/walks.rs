//! The rows of the listing of a whole edition by the two walks.
use std::cell::RefCell;

use crate::measure::{FEW, RUNS, Table, run, turns_of};
use crate::{Edition, clock, engine, peer, seen};

type Call<'a> = &'a dyn Fn(&mut [u8]) -> peer::Refusal;

/// The tray that the first call fills; the others have to fill one with the same.
fn filled(size: usize, first: Call, others: &[Call]) -> Vec<u8> {
    let (mut a, mut b) = (vec![1; size], vec![2; size]);
    assert_eq!(first(&mut a).number, 0);
    for call in others {
        b.fill(255);
        assert_eq!(call(&mut b).number, 0);
        assert!(a == b);
    }
    a
}

/// Both sides of a row take turns on one tray.
pub fn rows(table: &mut Table, e: &Edition) {
    let (u, r) = (&e.upper, e.total);
    let ours: Call = &|out| engine::listing(u, r, out);
    let plain: Call = &|out| peer::listing::<false>(u, r, out);
    let in_tray: Call = &|out| peer::listing::<true>(u, r, out);
    let batch: Call = &|out| engine::batch(u, r, 1, e.count, out);
    let tray = RefCell::new(filled(u.len() * e.count as usize, ours, &[plain, in_tray, batch]));
    let (runs, said) = if e.count < 10_000_000 { (RUNS, String::new()) } else { (FEW, format!(", {FEW} runs")) };
    let mut row = |work: &str, theirs: Call| {
        let [ours, theirs] = [ours, theirs].map(|call| run(clock::own, |_| seen(call(&mut tray.borrow_mut()))));
        table.row(work, turns_of(runs, ours, theirs));
    };
    row(&format!("listing by the two walks: {}{said}", e.name), plain);
    row("  the same, the peer sets the first part in the tray", in_tray);
    row("  beside its own batch from serial 1", batch);
}
