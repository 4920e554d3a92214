//! The functions of the engine that are measured, in plain Rust and not proved: what a careful programmer would write for speed. Same methods: a
//! counting table that keeps only reachable sums, filled by a sliding window; the Mahonian table for staircases of up to 16 sheets; no count where
//! a bound on N is enough; a step in place that ends at the second part that changes; batches by runs of the first two parts that are not
//! withdrawn, or by blocks as the engine's long ones (`batch_by_blocks`); a listing by the same two walks, the first part set before the copy unless a
//! caller sets TRAY; by major index, sheets told by their ranks among those left, unless a caller sets TURNS; one pass over a register's lines in both
//! columns, for a bundle too, line by line unless a caller sets EIGHTS (or a pass for each order, `claim_all_by_passes`); `claim_by_number` passes over
//! the order column alone; check digits by quotients. Working tables are not cleared before they are filled, unless a caller sets CLEAR. Each function
//! is a call of its own, as the engine's are. `numbered` makes inputs.
mod count;
mod digits;
mod ledger;
mod major;
pub mod order;
mod permutation;
mod types;
mod walks;

pub use count::check;
pub use digits::{numbered, order_passes};
pub use ledger::{claim, claim_all, claim_all_by_passes, claim_by_number, peek, void};
pub use major::{major_code, major_permutation};
pub use order::{batch, batch_by_blocks, predecessor, rank, successor, unrank};
pub use permutation::{inversions, permutation};
pub use types::*;
pub use walks::listing;
