//! Runs the workloads of our sets and of the crate's in turn, in one process, and prints what an operation costs.
//! A checksum that differs ends it with status 1.

mod memory;
mod ours;
mod sets;
mod theirs;

use sets::{Set, Workload, SETS};
use std::{
    env,
    hint::black_box,
    process::exit,
    time::{Duration, Instant},
};

const GOAL: f64 = 0.80;
const REPETITIONS: usize = 15;
const QUICK: usize = 3;
const CAPACITIES: [u32; 7] = [16, 64, 256, 1024, 4096, 16384, 65536];

/// Nanoseconds per operation.
struct Cost {
    best: f64,
    median: f64,
}

impl Cost {
    fn of(mut times: Vec<Duration>, operations: u64) -> Self {
        times.sort();
        let each = |time: Duration| time.as_nanos() as f64 / operations as f64;
        Cost {
            best: each(times[0]),
            median: each(times[times.len() / 2]),
        }
    }
}

struct Measured {
    operations: u64,
    ours: Cost,
    theirs: Cost,
}

impl Measured {
    fn ratio(&self) -> f64 {
        self.ours.best / self.theirs.best
    }
}

fn measure(workload: &Workload, capacity: u32, repetitions: usize) -> Measured {
    let amount = (workload.amount)(capacity);
    let operations = (workload.operations)(capacity, amount);
    let (mut ours, mut theirs) = (Vec::new(), Vec::new());
    // The first pair warms up and is not counted.
    for counted in (0..=repetitions).map(|pair| pair > 0) {
        let start = Instant::now();
        let our_sum = black_box((workload.ours)(black_box(capacity), black_box(amount)));
        let our_time = start.elapsed();

        let start = Instant::now();
        let done = black_box((workload.theirs)(black_box(capacity), black_box(amount)));
        let their_time = start.elapsed();

        if our_sum != done.sum {
            println!(
                "{}, capacity {capacity}: the checksums differ: ours {our_sum}, the crate's {}",
                workload.name, done.sum
            );
            exit(1);
        }
        drop(done.wakers_out);
        if counted {
            ours.push(our_time);
            theirs.push(their_time);
        }
    }
    Measured {
        operations,
        ours: Cost::of(ours, operations),
        theirs: Cost::of(theirs, operations),
    }
}

/// The repetitions that the arguments ask for.
fn repetitions() -> usize {
    let arguments: Vec<String> = env::args().skip(1).collect();
    let words: Vec<&str> = arguments.iter().map(String::as_str).collect();
    let asked = match words[..] {
        [] => Some(REPETITIONS),
        ["--quick"] => Some(QUICK),
        ["--repetitions", number] => number.parse().ok().filter(|&number| number > 0),
        _ => None,
    };
    asked.unwrap_or_else(|| {
        eprintln!("usage: bench/run [--quick | --repetitions N]");
        eprintln!("{REPETITIONS} repetitions of each side; --quick: {QUICK}");
        exit(2);
    })
}

/// A mark for a workload whose numbers need a caution.
fn mark(workload: &Workload) -> &'static str {
    workload.caution.map_or("", |_| "*")
}

fn print_workloads(set: &Set, repetitions: usize) {
    println!(
        "{}: nanoseconds per operation, best and median of {repetitions}",
        set.name
    );
    println!("ratio: ours / the crate's, of the best; goal: at most {GOAL:.2}");
    println!();
    println!(
        "{:<38} {:>8} {:>10} {:>7} {:>7} {:>8} {:>7} {:>6}",
        "workload", "capacity", "operations", "ours", "median", "crate's", "median", "ratio"
    );
    for workload in set.workloads {
        let m = measure(workload, workload.capacity, repetitions);
        println!(
            "{:<38} {:>8} {:>10} {:>7.2} {:>7.2} {:>8.2} {:>7.2} {:>6.2}{}",
            workload.name,
            workload.capacity,
            m.operations,
            m.ours.best,
            m.ours.median,
            m.theirs.best,
            m.theirs.median,
            m.ratio(),
            mark(workload)
        );
    }
    for workload in set.workloads {
        if let Some(caution) = workload.caution {
            println!("* {}: {caution}", workload.name);
        }
    }
}

fn print_growth(set: &Set, repetitions: usize) {
    for workload in set.workloads.iter().filter(|workload| workload.grows) {
        println!();
        println!("growth: {}{}", workload.name, mark(workload));
        println!(
            "{:>8} {:>10} {:>7} {:>7} {:>8} {:>7} {:>6}",
            "capacity", "operations", "ours", "median", "crate's", "median", "ratio"
        );
        for capacity in CAPACITIES {
            let m = measure(workload, capacity, repetitions);
            println!(
                "{:>8} {:>10} {:>7.2} {:>7.2} {:>8.2} {:>7.2} {:>6.2}",
                capacity,
                m.operations,
                m.ours.best,
                m.ours.median,
                m.theirs.best,
                m.theirs.median,
                m.ratio()
            );
        }
    }
}

fn print_bytes(set: &Set) {
    println!();
    println!("memory: bytes per slot, {} of Countdowns", set.name);
    println!(
        "{:>8} {:>7} {:>12} {:>7}",
        "", "slot", "wake record", "both"
    );
    for (side, bytes) in ["ours", "crate's"].iter().zip(set.bytes) {
        let (slot, record) = bytes();
        println!(
            "{side:>8} {slot:>7.1} {record:>12.1} {:>7.1}",
            slot + record
        );
    }
}

fn main() {
    let repetitions = repetitions();
    for set in SETS {
        print_workloads(set, repetitions);
        print_growth(set, repetitions);
        print_bytes(set);
    }
}
