//! What is measured: one entry for each kind of set.

use crate::{ours, theirs, theirs::Done};

pub struct Set {
    pub name: &'static str,
    pub workloads: &'static [Workload],
    /// The bytes of one slot and of its wake record, ours and the crate's.
    pub bytes: [fn() -> (f64, f64); 2],
}

/// Both sides are called with a capacity and an amount, and answer a checksum. The two checksums must be equal.
pub struct Workload {
    pub name: &'static str,
    /// The capacity in the first table.
    pub capacity: u32,
    /// Whether it is also measured at the other capacities.
    pub grows: bool,
    /// The amount for a capacity: that of about a million operations.
    pub amount: fn(u32) -> u32,
    /// The operations that a capacity and an amount make.
    pub operations: fn(u32, u32) -> u64,
    pub ours: fn(u32, u32) -> u64,
    pub theirs: fn(u32, u32) -> Done,
    /// What has to be known of its numbers, if they do not compare like with like.
    pub caution: Option<&'static str>,
}

pub const SETS: &[Set] = &[Set {
    name: "bounded unordered set",
    workloads: &[
        Workload {
            name: "1 kept full, ready at the first poll",
            capacity: 256,
            grows: true,
            amount: |_| MILLION,
            operations: |_, futures| futures as u64,
            ours: ours::keep_full,
            theirs: theirs::keep_full,
            caution: None,
        },
        Workload {
            name: "2 pending, woken one at a time",
            capacity: 256,
            grows: true,
            amount: rounds,
            operations: |capacity, rounds| capacity.min(theirs::TOKENS) as u64 * rounds as u64,
            ours: ours::wake_waiting,
            theirs: theirs::wake_waiting,
            caution: None,
        },
        Workload {
            name: "3 filled and drained",
            capacity: 65_536,
            grows: false,
            amount: rounds,
            operations: |capacity, rounds| capacity as u64 * rounds as u64,
            ours: ours::fill_and_drain,
            theirs: theirs::fill_and_drain,
            caution: None,
        },
    ],
    bytes: [ours::bytes_per_slot, theirs::bytes_per_slot],
}];

const MILLION: u32 = 1_000_000;

fn rounds(capacity: u32) -> u32 {
    MILLION.div_ceil(capacity)
}
