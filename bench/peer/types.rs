//! The structures of include/huztiral.h.
#[derive(Clone, Copy, PartialEq, Eq, Debug, Default)]
#[repr(C)]
pub struct Refusal {
    pub number: u32,
    pub detail: u64,
}

#[derive(Clone, Copy, PartialEq, Eq, Debug, Default)]
#[repr(C)]
pub struct Bounds {
    pub parts: usize,
    pub upper: [u8; 24],
    pub total: u32,
}

#[derive(Clone, Copy, PartialEq, Eq, Debug, Default)]
#[repr(C)]
pub struct Ledger {
    pub bounds: Bounds,
    pub entries: u64,
    pub sold: u64,
    pub voided: u64,
    pub next: [u8; 24],
}

#[derive(Clone, Copy, PartialEq, Eq, Debug, Default)]
#[repr(C)]
pub struct Checked {
    pub number: u32,
    pub detail: u64,
    pub bounds: Bounds,
    pub count: u64,
}

#[derive(Clone, Copy, PartialEq, Eq, Debug, Default)]
#[repr(C)]
pub struct Ranked {
    pub number: u32,
    pub detail: u64,
    pub serial: u64,
}

#[derive(Clone, Copy, PartialEq, Eq, Debug, Default)]
#[repr(C)]
pub struct Stepped {
    pub number: u32,
    pub detail: u64,
    pub composition: [u8; 24],
    pub gain: u32,
    pub loss: u32,
}

#[derive(Clone, Copy, PartialEq, Eq, Debug, Default)]
#[repr(C)]
pub struct Peeked {
    pub number: u32,
    pub detail: u64,
    pub serial: u64,
    pub composition: [u8; 24],
    pub gain: u32,
    pub loss: u32,
}

#[derive(Clone, Copy, PartialEq, Eq, Debug, Default)]
#[repr(C)]
pub struct Opened {
    pub number: u32,
    pub detail: u64,
    pub ledger: Ledger,
}

#[derive(Clone, Copy, PartialEq, Eq, Debug, Default)]
#[repr(C)]
pub struct Claimed {
    pub number: u32,
    pub detail: u64,
    pub serial: u64,
    pub composition: [u8; 24],
    pub ledger: Ledger,
}

/// The kinds, counted from 1, that gain and lose a unit in a step.
#[derive(Clone, Copy, Default)]
pub struct Pair {
    pub gain: u32,
    pub loss: u32,
}

/// A number and a detail.
pub type Refused = (u32, u64);

pub fn refusal(result: Result<(), Refused>) -> Refusal {
    match result {
        Ok(()) => Refusal::default(),
        Err((number, detail)) => Refusal { number, detail },
    }
}

pub fn pack(values: &[u8]) -> [u8; 24] {
    let mut cells = [0; 24];
    cells[..values.len()].copy_from_slice(values);
    cells
}
