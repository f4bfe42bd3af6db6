//! Our side: the workloads of `crates/bench`, which `rt lib` compiles. Each makes its set in memory of
//! its own and frees it.

mod c {
    extern "C" {
        pub fn bench_keep_full(capacity: u32, futures: u32) -> u64;
        pub fn bench_fill_and_drain(capacity: u32, rounds: u32) -> u64;
        pub fn bench_wake_waiting(capacity: u32, rounds: u32) -> u64;
        pub fn bench_slot_bytes() -> usize;
        pub fn bench_record_bytes() -> usize;
    }
}

// SAFETY of all: these functions take any numbers.

pub fn keep_full(capacity: u32, futures: u32) -> u64 {
    unsafe { c::bench_keep_full(capacity, futures) }
}

pub fn fill_and_drain(capacity: u32, rounds: u32) -> u64 {
    unsafe { c::bench_fill_and_drain(capacity, rounds) }
}

pub fn wake_waiting(capacity: u32, rounds: u32) -> u64 {
    unsafe { c::bench_wake_waiting(capacity, rounds) }
}

/// The bytes of one slot and of its wake record, in a set of Countdowns.
pub fn bytes_per_slot() -> (f64, f64) {
    unsafe { (c::bench_slot_bytes() as f64, c::bench_record_bytes() as f64) }
}
