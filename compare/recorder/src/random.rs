//! Random runs, fixed by a seed, and the runs at the limits.

use crate::{
    run::Run,
    tally::Tally,
    tasks::{Source, Task},
    text::{Answer, Call, Kind, Make, Polled, Pushed},
};
use std::io::{self, Write};

/// The generator splitmix64.
struct Random(u64);

impl Random {
    fn new(parts: &[u64]) -> Random {
        let mut random = Random(0);
        for part in parts {
            random.0 ^= *part;
            random.0 = random.next();
        }
        random
    }

    fn next(&mut self) -> u64 {
        self.0 = self.0.wrapping_add(0x9e37_79b9_7f4a_7c15);
        let mut z = self.0;
        z = (z ^ (z >> 30)).wrapping_mul(0xbf58_476d_1ce4_e5b9);
        z = (z ^ (z >> 27)).wrapping_mul(0x94d0_49bb_1331_11eb);
        z ^ (z >> 31)
    }

    /// A number from `low` to `high`, both included.
    fn from(&mut self, low: u64, high: u64) -> u64 {
        low + self.next() % (high - low + 1)
    }

    fn chance(&mut self, percent: u64) -> bool {
        self.next() % 100 < percent
    }

    /// The number of a choice, by the weights of the choices.
    fn weighted(&mut self, weights: &[u64]) -> usize {
        let mut left = self.next() % weights.iter().sum::<u64>().max(1);
        for (choice, &weight) in weights.iter().enumerate() {
            if left < weight {
                return choice;
            }
            left -= weight;
        }
        0
    }

    fn pick(&mut self, from: &[u64]) -> Option<u64> {
        match from.len() {
            0 => None,
            len => Some(from[(self.next() % len as u64) as usize]),
        }
    }
}

/// A run that is carried out and written down call by call.
struct Script<'a> {
    run: Run,
    out: &'a mut dyn Write,
    tally: &'a mut Tally,
}

impl<'a> Script<'a> {
    fn begin(make: Make, out: &'a mut dyn Write, tally: &'a mut Tally) -> io::Result<Script<'a>> {
        writeln!(out, "{make}")?;
        let run = Run::new(&make, tally);
        Ok(Script { run, out, tally })
    }

    fn call(&mut self, call: Call) -> io::Result<Answer> {
        let answer = self
            .run
            .call(&call, self.tally)
            .map_err(|error| io::Error::other(format!("{call}: {error}")))?;
        writeln!(self.out, "{call} => {answer}")?;
        Ok(answer)
    }
}

/// How one random run is made up.
struct Plan {
    make: Make,
    /// Whether it starts with groups that end backwards.
    backwards: bool,
    /// Pushes at the start.
    burst: u64,
    calls: u64,
    /// The weights of push, poll, hand, clone, wake, wake-ref, drop, len, capacity and may-end.
    weights: [u64; 10],
    /// In percent: tasks that wait for the post; words of the post that are not 0; tokens that are
    /// handed out just after the push; tokens that are made up; pushes at the front.
    waiting: u64,
    words: u64,
    handing: u64,
    forging: u64,
    fronts: u64,
}

impl Plan {
    fn new(kind: Kind, random: &mut Random) -> Plan {
        let r = random;
        let (length, first, burst, calls) = match kind {
            Kind::Bounded | Kind::Ordered | Kind::Merge => match r.weighted(&[7, 45, 25, 13, 10]) {
                0 => (0, 0, 0, r.from(5, 15)),
                1 => (r.from(1, 4), 0, 0, r.from(5, 60)),
                2 => (r.from(5, 12), 0, r.from(0, 6), r.from(5, 60)),
                3 => (r.from(13, 40), 0, r.from(0, 20), r.from(5, 60)),
                _ => (r.from(70, 200), 0, r.from(55, 130), r.from(20, 150)),
            },
            Kind::Growing | Kind::GrowingOrdered => match r.weighted(&[8, 52, 15, 10, 15]) {
                0 => (r.from(0, 2), r.from(0, 3), 0, r.from(5, 20)),
                1 => (r.from(3, 64), r.from(1, 4), r.from(0, 12), r.from(10, 60)),
                2 => (r.from(1, 40), 0, r.from(0, 10), r.from(5, 60)),
                3 => {
                    let length = r.from(1, 12);
                    (length, length + r.from(1, 20), 0, r.from(5, 60))
                }
                _ => (r.from(96, 400), 0, r.from(30, 130), r.from(20, 150)),
            },
            Kind::GrowingMerge => match r.weighted(&[10, 35, 15, 40]) {
                0 => (r.from(0, 3), 0, 0, r.from(5, 20)),
                1 => (r.from(4, 31), 0, r.from(0, 10), r.from(5, 60)),
                2 => (r.from(32, 95), 0, r.from(0, 35), r.from(5, 60)),
                _ => (r.from(96, 300), 0, r.from(33, 110), r.from(20, 150)),
            },
        };
        let (mut slots, mut wakes) = (length, length);
        match r.weighted(&[70, 15, 15]) {
            0 => {}
            1 => slots += r.from(1, 9),
            _ => wakes += r.from(1, 9),
        }
        let parking = match r.weighted(&[60, 15, 20, 5]) {
            0 => length,
            1 => length + r.from(1, 9),
            2 => r.from(length / 2, length),
            _ => r.from(0, 2),
        };
        let name = match r.weighted(&[90, 4, 3, 3]) {
            0 => r.from(1, 9) as u32,
            1 => r.next() as u32,
            2 => 0,
            _ => u32::MAX,
        };
        let backwards = kind == Kind::GrowingMerge && length >= 96 && r.chance(15);
        let (burst, calls) = match backwards {
            true => (0, r.from(5, 30)),
            false => (burst, calls),
        };
        let pushing = r.from(18, 40);
        let tokens = r.from(1, 3);
        let questions = !kind.is_merge();
        let capacity = matches!(kind, Kind::Bounded | Kind::Ordered);
        Plan {
            make: Make {
                kind,
                name,
                first: if kind.has_first() { first } else { 0 },
                slots,
                wakes,
                parking: if kind.is_ordered() { parking } else { 0 },
            },
            backwards,
            burst,
            calls,
            weights: [
                pushing,
                r.from(20, 40),
                4 * tokens,
                tokens,
                5 * tokens,
                3 * tokens,
                tokens,
                if questions { 3 } else { 0 },
                u64::from(capacity),
                2,
            ],
            waiting: match burst {
                55.. => [60, 90, 100, 100],
                _ if kind.is_growing() => [15, 15, 40, 80],
                _ => [15, 40, 60, 90],
            }[r.from(0, 3) as usize],
            words: [10, 40, 70, 95][r.from(0, 3) as usize],
            handing: match burst {
                30.. => [0, 5, 10, 30],
                _ if kind.is_growing() => [10, 30, 60, 90],
                _ => [0, 10, 30, 70],
            }[r.from(0, 3) as usize],
            forging: [0, 5, 10, 40][r.from(0, 3) as usize],
            fronts: [0, 10, 30, 60][r.from(0, 3) as usize],
        }
    }
}

/// One random run under way: what the caller has in hand.
struct Caller<'a> {
    script: Script<'a>,
    random: Random,
    plan: Plan,
    /// The addresses of the pushes so far, and of the tokens in hand.
    pushed: Vec<u64>,
    tokens: Vec<u64>,
    /// One more than the highest address so far.
    addresses: u64,
}

/// Writes the random run of this number.
pub fn run(
    kind: Kind,
    seed: u64,
    number: u64,
    out: &mut dyn Write,
    tally: &mut Tally,
) -> io::Result<()> {
    let mut random = Random::new(&[seed, kind as u64, number]);
    let plan = Plan::new(kind, &mut random);
    let mut caller = Caller {
        script: Script::begin(plan.make, out, tally)?,
        random,
        plan,
        pushed: Vec::new(),
        tokens: Vec::new(),
        addresses: 0,
    };
    if caller.plan.backwards {
        caller.end_backwards()?;
    }
    for _ in 0..caller.plan.burst {
        caller.push()?;
    }
    for _ in 0..caller.plan.calls {
        caller.step()?;
    }
    if caller
        .random
        .chance(if caller.plan.burst < 30 { 40 } else { 20 })
    {
        caller.close()?;
    }
    Ok(())
}

impl Caller<'_> {
    fn step(&mut self) -> io::Result<()> {
        match self.random.weighted(&self.plan.weights) {
            0 => self.push(),
            1 => {
                let post = self.post();
                self.script.call(Call::Poll(post)).map(drop)
            }
            2 => {
                let address = self.address();
                self.hand(address)
            }
            3 => match self.token() {
                None => self.hand_any(),
                Some((name, address, _)) => {
                    let answer = self.script.call(Call::Clone(name, address))?;
                    if let Answer::Token(..) = answer {
                        self.tokens.push(address);
                    }
                    Ok(())
                }
            },
            choice @ (4 | 6) => match self.token() {
                None => self.hand_any(),
                Some((name, address, place)) => {
                    let answer = self.script.call(match choice {
                        4 => Call::Wake(name, address),
                        _ => Call::Drop(name, address),
                    })?;
                    if let (Answer::Notice(_) | Answer::Dropped, Some(place)) = (answer, place) {
                        self.tokens.remove(place);
                    }
                    Ok(())
                }
            },
            5 => match self.token() {
                None => self.hand_any(),
                Some((name, address, _)) => {
                    self.script.call(Call::WakeRef(name, address)).map(drop)
                }
            },
            7 => self.script.call(Call::Len).map(drop),
            8 => self.script.call(Call::Capacity).map(drop),
            _ => self.script.call(Call::MayEnd).map(drop),
        }
    }

    fn push(&mut self) -> io::Result<()> {
        let task = self.task();
        let call = match task {
            Pushed::Future(task) if self.plan.make.kind.is_ordered() => {
                match self.random.chance(self.plan.fronts) {
                    true => Call::PushFront(task),
                    false => Call::PushBack(task),
                }
            }
            task => Call::Push(task),
        };
        if let Answer::At(address) = self.script.call(call)? {
            self.pushed.push(address);
            self.addresses = self.addresses.max(address + 1);
            if self.random.chance(self.plan.handing) {
                self.hand(address)?;
            }
        }
        Ok(())
    }

    /// A task with a ticket of its own, or a stream with an owner of its own, mostly.
    fn task(&mut self) -> Pushed {
        let serial = self.pushed.len() as u32;
        let waiting = self.random.chance(self.plan.waiting);
        let r = &mut self.random;
        let place = match r.weighted(&[85, 10, 5]) {
            0 => r.from(0, 5),
            1 => r.from(6, 9),
            _ => [u64::MAX, 1 << 32, 65_536, 1 << 63][r.from(0, 3) as usize],
        };
        if self.plan.make.kind.is_merge() {
            let owner = match r.weighted(&[94, 2, 2, 2]) {
                0 => serial + 1,
                1 => 1,
                2 => 0,
                _ => u32::MAX,
            };
            return Pushed::Stream(match waiting {
                true => Source::Mailbag {
                    owner,
                    next: match r.weighted(&[80, 10, 5, 5]) {
                        0 => 0,
                        1 => r.next() as u32,
                        2 => u32::MAX - 1,
                        _ => u32::MAX,
                    },
                    place,
                },
                false => Source::Ticker {
                    owner,
                    next: 0,
                    items: match r.weighted(&[97, 3]) {
                        0 => r.from(0, 4) as u32,
                        _ => u32::MAX,
                    },
                },
            });
        }
        let owner = match r.weighted(&[94, 3, 3]) {
            0 => r.from(1, 9) as u32,
            1 => 0,
            _ => u32::MAX,
        };
        Pushed::Future(match waiting {
            true => Task::Letter {
                owner,
                number: serial,
                place,
            },
            false => Task::Countdown {
                owner,
                number: serial,
                count: match r.weighted(&[45, 45, 7, 3]) {
                    0 => 0,
                    1 => r.from(1, 3) as u32,
                    2 => r.from(4, 80) as u32,
                    _ => u32::MAX,
                },
                wakes_itself: r.chance(50),
            },
        })
    }

    fn post(&mut self) -> Vec<u64> {
        let words = self.plan.words;
        let r = &mut self.random;
        (0..r.from(0, 6))
            .map(|_| match r.chance(words) {
                false => 0,
                true => match r.weighted(&[80, 12, 8]) {
                    0 => r.from(1, 99),
                    1 => u64::MAX,
                    _ => r.next(),
                },
            })
            .collect()
    }

    /// An address to hand out: mostly one that was pushed to.
    fn address(&mut self) -> u64 {
        match self.random.weighted(&[50, 40, 8, 2]) {
            0 => self.pushed.last().copied().unwrap_or(0),
            1 => self.random.pick(&self.pushed).unwrap_or(0),
            2 => self.random.from(0, self.addresses + 1),
            _ => self.random.next(),
        }
    }

    fn hand(&mut self, address: u64) -> io::Result<()> {
        if let Answer::Token(..) = self.script.call(Call::Hand(address))? {
            self.tokens.push(address);
        }
        Ok(())
    }

    fn hand_any(&mut self) -> io::Result<()> {
        let address = self.address();
        self.hand(address)
    }

    /// A token to bring, as its name and address, and its place in hand if it is a genuine one.
    fn token(&mut self) -> Option<(u32, u64, Option<usize>)> {
        let name = self.plan.make.name;
        let r = &mut self.random;
        if r.chance(self.plan.forging) {
            let name = match r.weighted(&[70, 15, 15]) {
                0 => name,
                1 => name.wrapping_add(1),
                _ => r.next() as u32,
            };
            let address = match r.weighted(&[80, 15, 5]) {
                0 => r.from(0, self.addresses),
                1 => r.from(0, 2 * self.addresses + 3),
                _ => r.next(),
            };
            return Some((name, address, None));
        }
        // An old token is of more interest than a new one.
        let place = match self.tokens.len() as u64 {
            0 => return None,
            _ if r.chance(40) => 0,
            len => r.from(0, len - 1) as usize,
        };
        Some((name, self.tokens[place], Some(place)))
    }

    /// Tries to get everything out: wakes what can be woken, polls with words everywhere, and drops
    /// the tokens that are left.
    fn close(&mut self) -> io::Result<()> {
        for round in 0..3 {
            self.spend_tokens(80)?;
            let last = match self.plan.make.kind.is_merge() {
                true => u64::MAX,
                false => self.random.from(1, 99),
            };
            let post: Vec<u64> = (0..6).map(|place| [last, place + 1][round % 2]).collect();
            let mut pending = 0;
            for _ in 0..40 {
                let answer = self.script.call(Call::Poll(post.clone()))?;
                match answer {
                    Answer::Poll {
                        polled: Polled::None,
                        ..
                    } => return self.script.call(Call::MayEnd).map(drop),
                    Answer::Poll {
                        polled: Polled::Pending,
                        notices: 0,
                        ..
                    } => break,
                    Answer::Poll {
                        polled: Polled::Pending,
                        ..
                    } if pending == 2 => break,
                    Answer::Poll {
                        polled: Polled::Pending,
                        ..
                    } => pending += 1,
                    _ => {}
                }
            }
            let mut addresses = self.pushed.clone();
            addresses.sort_unstable();
            addresses.dedup();
            addresses.retain(|&address| self.script.run.is_occupied(address));
            for &address in addresses.iter().take(20) {
                self.hand(address)?;
            }
        }
        self.spend_tokens(0)?;
        self.script.call(Call::MayEnd).map(drop)
    }

    /// Spends every token in hand: so many percent by a wake, the others by a drop.
    fn spend_tokens(&mut self, wakes: u64) -> io::Result<()> {
        let name = self.plan.make.name;
        for address in std::mem::take(&mut self.tokens) {
            match self.random.chance(wakes) {
                true => self.script.call(Call::Wake(name, address))?,
                false => self.script.call(Call::Drop(name, address))?,
            };
        }
        Ok(())
    }

    /// For a growing merge: two groups that end in one poll, the later one first. Tokens of the
    /// earlier one stay in hand.
    fn end_backwards(&mut self) -> io::Result<()> {
        let mut kept = Vec::new();
        for owner in 0..32 {
            let mailbag = self.random.chance(8) || owner == 31;
            let call = Call::Push(Pushed::Stream(match mailbag {
                true => Source::Mailbag {
                    owner,
                    next: 0,
                    place: self.random.from(0, 2),
                },
                false => Source::Ticker {
                    owner,
                    next: 0,
                    items: 0,
                },
            }));
            if let (Answer::At(address), true) = (self.script.call(call)?, mailbag) {
                self.hand(address)?;
                kept.push(address);
                self.script.call(Call::Hand(address))?;
            }
        }
        for owner in 32..32 + self.random.from(1, 2) as u32 {
            let items = self.random.from(1, 2) as u32;
            self.script.call(Call::Push(Pushed::Stream(Source::Ticker {
                owner,
                next: 0,
                items,
            })))?;
        }
        for _ in 0..self.random.from(1, 4) {
            self.script.call(Call::Poll(Vec::new()))?;
        }
        self.spend_tokens(100)?;
        for _ in 0..self.random.from(2, 4) {
            self.script.call(Call::Poll(vec![u64::MAX; 3]))?;
        }
        self.tokens = kept;
        Ok(())
    }
}

/// Writes the runs at the limits, the first `count` of two: tokens and slots, and groups.
pub fn limits(count: u64, out: &mut dyn Write, tally: &mut Tally) -> io::Result<()> {
    if count > 0 {
        most_tokens(out, tally)?;
        most_slots(out, tally)?;
    }
    if count > 1 {
        most_groups(out, tally)?;
    }
    Ok(())
}

fn bounded(name: u32, slots: u64, wakes: u64) -> Make {
    Make {
        kind: Kind::Bounded,
        name,
        first: 0,
        slots,
        wakes,
        parking: 0,
    }
}

fn letter(number: u32) -> Call {
    Call::Push(Pushed::Future(Task::Letter {
        owner: 1,
        number,
        place: 0,
    }))
}

/// 65,535 tokens out, and what is refused then, in the order of the checks.
fn most_tokens(out: &mut dyn Write, tally: &mut Tally) -> io::Result<()> {
    let mut script = Script::begin(bounded(1, 2, 2), out, tally)?;
    script.call(letter(0))?;
    for _ in 0..65_534 {
        script.call(Call::Hand(0))?;
    }
    for call in [
        Call::MayEnd,
        Call::Clone(1, 0),
        Call::MayEnd,
        Call::Hand(0),
        Call::Clone(1, 0),
        Call::Clone(1, 1),
        Call::Hand(1),
        Call::Hand(2),
        Call::Clone(2, 0),
        Call::Clone(1, 2),
        Call::Poll(vec![0]),
        Call::WakeRef(1, 0),
        Call::Wake(1, 0),
        Call::MayEnd,
        Call::Hand(0),
        Call::Hand(0),
        Call::Drop(1, 0),
        Call::Clone(1, 0),
        Call::MayEnd,
    ] {
        script.call(call)?;
    }
    Ok(())
}

/// More memory than the most slots.
fn most_slots(out: &mut dyn Write, tally: &mut Tally) -> io::Result<()> {
    let mut script = Script::begin(bounded(2, 65_537, 70_000), out, tally)?;
    for call in [
        Call::Capacity,
        Call::Len,
        letter(0),
        letter(1),
        Call::Hand(1),
        Call::Hand(65_535),
        Call::WakeRef(2, 65_535),
        Call::WakeRef(2, 65_536),
        Call::Poll(vec![7]),
        Call::Poll(vec![7]),
        Call::Drop(2, 1),
        Call::MayEnd,
    ] {
        script.call(call)?;
    }
    Ok(())
}

/// Sixteen groups, and the refusal of the seventeenth.
fn most_groups(out: &mut dyn Write, tally: &mut Tally) -> io::Result<()> {
    let make = Make {
        kind: Kind::Growing,
        first: 1,
        ..bounded(3, 65_536, 65_536)
    };
    let mut script = Script::begin(make, out, tally)?;
    for number in 0..65_536 {
        script.call(letter(number))?;
    }
    for call in [
        Call::Len,
        Call::Hand(65_534),
        Call::Hand(65_535),
        Call::Poll(vec![0]),
        Call::Poll(vec![7]),
        letter(65_536),
        Call::Wake(3, 65_534),
        Call::Len,
        Call::MayEnd,
    ] {
        script.call(call)?;
    }
    Ok(())
}
