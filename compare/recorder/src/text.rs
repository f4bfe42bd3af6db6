//! The text format of recordings: `make` lines, calls and answers.

use crate::tasks::{Output, Source, Task};
use std::fmt;

#[derive(Clone, Copy, Debug, Eq, PartialEq)]
pub enum Kind {
    Bounded,
    Ordered,
    Growing,
    GrowingOrdered,
    Merge,
    GrowingMerge,
}

impl Kind {
    pub const ALL: [Kind; 6] = [
        Kind::Bounded,
        Kind::Ordered,
        Kind::Growing,
        Kind::GrowingOrdered,
        Kind::Merge,
        Kind::GrowingMerge,
    ];

    pub fn word(self) -> &'static str {
        match self {
            Kind::Bounded => "bounded",
            Kind::Ordered => "ordered",
            Kind::Growing => "growing",
            Kind::GrowingOrdered => "growing-ordered",
            Kind::Merge => "merge",
            Kind::GrowingMerge => "growing-merge",
        }
    }

    pub fn parse(word: &str) -> Option<Kind> {
        Kind::ALL.into_iter().find(|kind| kind.word() == word)
    }

    pub fn is_ordered(self) -> bool {
        matches!(self, Kind::Ordered | Kind::GrowingOrdered)
    }

    pub fn is_merge(self) -> bool {
        matches!(self, Kind::Merge | Kind::GrowingMerge)
    }

    pub fn is_growing(self) -> bool {
        matches!(
            self,
            Kind::Growing | Kind::GrowingOrdered | Kind::GrowingMerge
        )
    }

    /// Whether the making states the first group's capacity.
    pub fn has_first(self) -> bool {
        matches!(self, Kind::Growing | Kind::GrowingOrdered)
    }
}

/// A `make` line. `first` and `parking` are 0 where the kind has none.
#[derive(Clone, Copy, Debug)]
pub struct Make {
    pub kind: Kind,
    pub name: u32,
    pub first: u64,
    pub slots: u64,
    pub wakes: u64,
    pub parking: u64,
}

impl Make {
    /// Reads the words behind `make`.
    pub fn parse(words: &[&str]) -> Result<Make, String> {
        let (kind, pairs) = words.split_first().ok_or("a make line names a kind")?;
        let kind = Kind::parse(kind).ok_or_else(|| format!("there is no kind {kind}"))?;
        let (mut name, mut slots, mut wakes) = (None, None, None);
        let (mut first, mut parking) = (None, None);
        for pair in pairs {
            let (key, value) = pair
                .split_once('=')
                .ok_or_else(|| format!("{pair} is no key=value"))?;
            let place = match key {
                "name" => &mut name,
                "slots" => &mut slots,
                "wakes" => &mut wakes,
                "first" if kind.has_first() => &mut first,
                "parking" if kind.is_ordered() => &mut parking,
                _ => return Err(format!("{} has no key {key}", kind.word())),
            };
            if place.replace(number(value)?).is_some() {
                return Err(format!("{key} is there twice"));
            }
        }
        let needed = |value: Option<u64>, key, wanted| match value {
            None if wanted => Err(format!("{key} is missing")),
            value => Ok(value.unwrap_or(0)),
        };
        Ok(Make {
            kind,
            name: narrow(needed(name, "name", true)?)?,
            first: needed(first, "first", kind.has_first())?,
            slots: needed(slots, "slots", true)?,
            wakes: needed(wakes, "wakes", true)?,
            parking: needed(parking, "parking", kind.is_ordered())?,
        })
    }
}

impl fmt::Display for Make {
    fn fmt(&self, f: &mut fmt::Formatter<'_>) -> fmt::Result {
        write!(f, "make {} name={}", self.kind.word(), self.name)?;
        if self.kind.has_first() {
            write!(f, " first={}", self.first)?;
        }
        write!(f, " slots={} wakes={}", self.slots, self.wakes)?;
        if self.kind.is_ordered() {
            write!(f, " parking={}", self.parking)?;
        }
        Ok(())
    }
}

/// What is pushed: a future into a set, a stream into a merge.
#[derive(Clone, Copy, Debug)]
pub enum Pushed {
    Future(Task),
    Stream(Source),
}

#[derive(Clone, Debug)]
pub enum Call {
    Push(Pushed),
    PushBack(Task),
    PushFront(Task),
    Hand(u64),
    Clone(u32, u64),
    Wake(u32, u64),
    WakeRef(u32, u64),
    Drop(u32, u64),
    Poll(Vec<u64>),
    Len,
    Capacity,
    MayEnd,
}

impl Call {
    pub fn parse(words: &[&str]) -> Result<Call, String> {
        let (&call, rest) = words.split_first().ok_or("there is no call")?;
        Ok(match call {
            "push" => Call::Push(pushed(rest)?),
            "push-back" => Call::PushBack(future(rest)?),
            "push-front" => Call::PushFront(future(rest)?),
            "hand" => {
                let [address] = exactly(rest)?;
                Call::Hand(number(address)?)
            }
            "clone" | "wake" | "wake-ref" | "drop" => {
                let [name, address] = exactly(rest)?;
                let (name, address) = (narrow(number(name)?)?, number(address)?);
                match call {
                    "clone" => Call::Clone(name, address),
                    "wake" => Call::Wake(name, address),
                    "wake-ref" => Call::WakeRef(name, address),
                    _ => Call::Drop(name, address),
                }
            }
            "poll" => Call::Poll(
                rest.iter()
                    .map(|word| number(word))
                    .collect::<Result<_, _>>()?,
            ),
            "len" | "capacity" | "may-end" => {
                let [] = exactly(rest)?;
                match call {
                    "len" => Call::Len,
                    "capacity" => Call::Capacity,
                    _ => Call::MayEnd,
                }
            }
            _ => return Err(format!("there is no call {call}")),
        })
    }
}

fn exactly<'a, const N: usize>(words: &[&'a str]) -> Result<[&'a str; N], String> {
    <[&str; N]>::try_from(words)
        .map_err(|_| format!("{N} words are expected here, not {}", words.len()))
}

/// A decimal number of 64 bits, of digits alone.
fn number(word: &str) -> Result<u64, String> {
    if word.is_empty() || !word.bytes().all(|byte| byte.is_ascii_digit()) {
        return Err(format!("{word} is no number"));
    }
    word.parse()
        .map_err(|_| format!("{word} is more than 64 bits"))
}

fn narrow(number: u64) -> Result<u32, String> {
    u32::try_from(number).map_err(|_| format!("{number} is more than 32 bits"))
}

fn pushed(words: &[&str]) -> Result<Pushed, String> {
    let (&kind, rest) = words.split_first().ok_or("a push names a task")?;
    Ok(match kind {
        "countdown" => {
            let [owner, ticket, count, itself] = exactly(rest)?;
            Pushed::Future(Task::Countdown {
                owner: narrow(number(owner)?)?,
                number: narrow(number(ticket)?)?,
                count: narrow(number(count)?)?,
                wakes_itself: match number(itself)? {
                    0 => false,
                    1 => true,
                    _ => return Err(format!("{itself} is neither 0 nor 1")),
                },
            })
        }
        "letter" => {
            let [owner, ticket, place] = exactly(rest)?;
            Pushed::Future(Task::Letter {
                owner: narrow(number(owner)?)?,
                number: narrow(number(ticket)?)?,
                place: number(place)?,
            })
        }
        "ticker" => {
            let [owner, items] = exactly(rest)?;
            Pushed::Stream(Source::Ticker {
                owner: narrow(number(owner)?)?,
                next: 0,
                items: narrow(number(items)?)?,
            })
        }
        "mailbag" => {
            let [owner, next, place] = exactly(rest)?;
            Pushed::Stream(Source::Mailbag {
                owner: narrow(number(owner)?)?,
                next: narrow(number(next)?)?,
                place: number(place)?,
            })
        }
        _ => return Err(format!("there is no task {kind}")),
    })
}

fn future(words: &[&str]) -> Result<Task, String> {
    match pushed(words)? {
        Pushed::Future(task) => Ok(task),
        Pushed::Stream(_) => Err("an ordered set holds futures".into()),
    }
}

impl fmt::Display for Pushed {
    fn fmt(&self, f: &mut fmt::Formatter<'_>) -> fmt::Result {
        match self {
            Pushed::Future(task) => task.fmt(f),
            Pushed::Stream(source) => source.fmt(f),
        }
    }
}

impl fmt::Display for Task {
    fn fmt(&self, f: &mut fmt::Formatter<'_>) -> fmt::Result {
        match self {
            Task::Countdown {
                owner,
                number,
                count,
                wakes_itself,
            } => write!(
                f,
                "countdown {owner} {number} {count} {}",
                u8::from(*wakes_itself)
            ),
            Task::Letter {
                owner,
                number,
                place,
            } => write!(f, "letter {owner} {number} {place}"),
        }
    }
}

impl fmt::Display for Source {
    fn fmt(&self, f: &mut fmt::Formatter<'_>) -> fmt::Result {
        match self {
            Source::Ticker { owner, items, .. } => write!(f, "ticker {owner} {items}"),
            Source::Mailbag { owner, next, place } => write!(f, "mailbag {owner} {next} {place}"),
        }
    }
}

impl fmt::Display for Call {
    fn fmt(&self, f: &mut fmt::Formatter<'_>) -> fmt::Result {
        match self {
            Call::Push(task) => write!(f, "push {task}"),
            Call::PushBack(task) => write!(f, "push-back {task}"),
            Call::PushFront(task) => write!(f, "push-front {task}"),
            Call::Hand(address) => write!(f, "hand {address}"),
            Call::Clone(name, address) => write!(f, "clone {name} {address}"),
            Call::Wake(name, address) => write!(f, "wake {name} {address}"),
            Call::WakeRef(name, address) => write!(f, "wake-ref {name} {address}"),
            Call::Drop(name, address) => write!(f, "drop {name} {address}"),
            Call::Poll(post) => {
                write!(f, "poll")?;
                post.iter().try_for_each(|word| write!(f, " {word}"))
            }
            Call::Len => write!(f, "len"),
            Call::Capacity => write!(f, "capacity"),
            Call::MayEnd => write!(f, "may-end"),
        }
    }
}

#[derive(Clone, Copy, Debug)]
pub enum Fault {
    NoVacantSlot { capacity: usize },
    ParkingFull { places: usize },
    NoSuchSlot { address: u64 },
    TooManyTokens { out: usize },
    OtherName { name: u32 },
    NoTokenOut,
    TokensOut { count: usize },
    NoNextGroup { group: usize, capacity: usize },
}

impl Fault {
    pub fn number(self) -> usize {
        match self {
            Fault::NoVacantSlot { .. } => 1,
            Fault::ParkingFull { .. } => 2,
            Fault::NoSuchSlot { .. } => 3,
            Fault::TooManyTokens { .. } => 4,
            Fault::OtherName { .. } => 5,
            Fault::NoTokenOut => 6,
            Fault::TokensOut { .. } => 7,
            Fault::NoNextGroup { .. } => 8,
        }
    }
}

impl fmt::Display for Fault {
    fn fmt(&self, f: &mut fmt::Formatter<'_>) -> fmt::Result {
        match self {
            Fault::NoVacantSlot { capacity } => write!(f, "fault 1 1 {capacity}"),
            Fault::ParkingFull { places } => write!(f, "fault 2 3 {places}"),
            Fault::NoSuchSlot { address } => write!(f, "fault 3 1 {address}"),
            Fault::TooManyTokens { out } => write!(f, "fault 4 2 {out}"),
            Fault::OtherName { name } => write!(f, "fault 5 2 {name}"),
            Fault::NoTokenOut => write!(f, "fault 6 2 0"),
            Fault::TokensOut { count } => write!(f, "fault 7 2 {count}"),
            Fault::NoNextGroup { group, capacity } => {
                write!(f, "fault 8 4 {group} inside 1 1 {capacity}")
            }
        }
    }
}

/// What a poll answered.
#[derive(Clone, Copy, Debug)]
pub enum Polled {
    Pending,
    None,
    Ready(Output),
}

#[derive(Clone, Copy, Debug)]
pub enum Answer {
    At(u64),
    Token(u32, u64),
    Notice(u64),
    Dropped,
    Poll {
        polled: Polled,
        notices: u64,
        turns: u64,
    },
    Number(usize),
    Yes,
    Fault(Fault),
}

impl fmt::Display for Answer {
    fn fmt(&self, f: &mut fmt::Formatter<'_>) -> fmt::Result {
        match self {
            Answer::At(address) => write!(f, "at {address}"),
            Answer::Token(name, address) => write!(f, "token {name} {address}"),
            Answer::Notice(notices) => write!(f, "notice {notices}"),
            Answer::Dropped => write!(f, "dropped"),
            Answer::Poll {
                polled,
                notices,
                turns,
            } => {
                match polled {
                    Polled::Pending => write!(f, "pending")?,
                    Polled::None => write!(f, "none")?,
                    Polled::Ready(output) => {
                        write!(f, "ready {} {} ", output.owner, output.number)?;
                        match output.word {
                            Some(word) => write!(f, "{word}")?,
                            None => write!(f, "-")?,
                        }
                    }
                }
                write!(f, " {notices} {turns}")
            }
            Answer::Number(number) => write!(f, "{number}"),
            Answer::Yes => write!(f, "yes"),
            Answer::Fault(fault) => fault.fmt(f),
        }
    }
}
