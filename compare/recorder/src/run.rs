//! One run: a set or merge of the crate, and the thin layer of what the crate has no notion of:
//! names, limits and the faults from 2 to 8.

use crate::{
    tally::Tally,
    tasks::{self, Output, Source, Task},
    text::{Answer, Call, Fault, Kind, Make, Polled, Pushed},
};
use futures_buffered::{
    FuturesOrdered, FuturesOrderedBounded, FuturesUnordered, FuturesUnorderedBounded, Group,
    Keeper, MergeBounded, MergeUnbounded,
};
use futures_core::Stream;
use std::{
    collections::{HashMap, VecDeque},
    mem::{self, ManuallyDrop},
    pin::Pin,
    task::{Context, Poll, Waker},
};

/// The most slots of a set, and the most parking places.
const MOST_SLOTS: u64 = 65_536;
/// The most tokens that can be out.
const MOST_TOKENS: usize = 65_535;
/// The most groups that a growing set ever makes.
const MOST_GROUPS: usize = 16;
/// The capacity of the first group where none is stated.
const FIRST: usize = 32;

enum Set {
    /// An ordered set of capacity 0: the crate's constructor underflows.
    OrderedNone,
    Bounded(FuturesUnorderedBounded<Task>),
    Ordered(FuturesOrderedBounded<Task>),
    Growing(FuturesUnordered<Task>),
    GrowingOrdered(FuturesOrdered<Task>),
    Merge(MergeBounded<Source>),
    GrowingMerge(MergeUnbounded<Source>),
}

impl Set {
    fn group_count(&self) -> usize {
        match self {
            Set::OrderedNone => 0,
            Set::Bounded(_) | Set::Ordered(_) | Set::Merge(_) => 1,
            Set::Growing(set) => set.group_count(),
            Set::GrowingOrdered(set) => set.group_count(),
            Set::GrowingMerge(merge) => merge.group_count(),
        }
    }

    fn group(&self, place: usize) -> Option<&dyn Group> {
        match self {
            Set::OrderedNone => None,
            Set::Bounded(set) if place == 0 => Some(set),
            Set::Ordered(set) if place == 0 => Some(set.group()),
            Set::Merge(merge) if place == 0 => Some(merge.group()),
            Set::Bounded(_) | Set::Ordered(_) | Set::Merge(_) => None,
            Set::Growing(set) => set.group(place),
            Set::GrowingOrdered(set) => set.group(place),
            Set::GrowingMerge(merge) => merge.group(place),
        }
    }

    fn groups(&self) -> impl Iterator<Item = &dyn Group> {
        (0..self.group_count()).filter_map(|place| self.group(place))
    }

    fn last_group(&self) -> Option<&dyn Group> {
        self.group(self.group_count().checked_sub(1)?)
    }

    /// The number of elements, parked outputs included.
    fn len(&self) -> usize {
        match self {
            Set::OrderedNone => 0,
            Set::Bounded(set) => set.len(),
            Set::Ordered(set) => set.len(),
            Set::Growing(set) => set.len(),
            Set::GrowingOrdered(set) => set.len(),
            Set::Merge(merge) => merge.group().len(),
            Set::GrowingMerge(merge) => merge.len(),
        }
    }

    fn parked(&self) -> usize {
        match self {
            Set::Ordered(set) => set.parked(),
            Set::GrowingOrdered(set) => set.parked(),
            _ => 0,
        }
    }

    fn poll(&mut self, cx: &mut Context<'_>) -> Poll<Option<Output>> {
        match self {
            Set::OrderedNone => Poll::Ready(None),
            Set::Bounded(set) => Pin::new(set).poll_next(cx),
            Set::Ordered(set) => Pin::new(set).poll_next(cx),
            Set::Growing(set) => Pin::new(set).poll_next(cx),
            Set::GrowingOrdered(set) => Pin::new(set).poll_next(cx),
            Set::Merge(merge) => Pin::new(merge).poll_next(cx),
            Set::GrowingMerge(merge) => Pin::new(merge).poll_next(cx),
        }
    }
}

/// A group that was made, whether or not it is still live. The keeper keeps its wake list alive.
struct Made {
    keeper: Keeper,
    start: usize,
    capacity: usize,
}

#[derive(Clone, Copy)]
enum End {
    Back,
    Front,
}

pub struct Run {
    kind: Kind,
    name: u32,
    set: Set,
    /// The length of the memory.
    length: usize,
    /// Growing kinds: the capacity of group 0; 0 if no group fits.
    first: usize,
    /// Ordered sets: the number of parking places.
    parking: usize,
    made: Vec<Made>,
    parent: Waker,
    seen: Seen,
}

/// What the tally needs to know: which task a slot holds and for which a token was handed out. Tasks
/// are numbered in the order of their pushes.
#[derive(Default)]
struct Seen {
    pushes: u64,
    occupants: HashMap<u64, u64>,
    tokens: HashMap<u64, VecDeque<u64>>,
}

impl Seen {
    fn token(&self, address: u64) -> Option<u64> {
        self.tokens.get(&address)?.front().copied()
    }

    fn hand(&mut self, address: u64, task: Option<u64>) {
        let task = task.or(self.occupants.get(&address).copied()).unwrap_or(0);
        self.tokens.entry(address).or_default().push_back(task);
    }

    fn spend(&mut self, address: u64) {
        if let Some(tokens) = self.tokens.get_mut(&address) {
            tokens.pop_front();
        }
    }
}

impl Run {
    pub fn new(make: &Make, tally: &mut Tally) -> Run {
        let cut = |number: u64| number.min(MOST_SLOTS) as usize;
        let length = cut(make.slots.min(make.wakes));
        let first = match make.first {
            0 => FIRST.min(length),
            first => cut(first).min(length),
        };
        let set = match make.kind {
            Kind::Bounded => Set::Bounded(FuturesUnorderedBounded::new(length)),
            Kind::Ordered if length == 0 => Set::OrderedNone,
            Kind::Ordered => Set::Ordered(FuturesOrderedBounded::new(length)),
            Kind::Growing if make.first == 0 => Set::Growing(FuturesUnordered::new()),
            Kind::Growing => Set::Growing(FuturesUnordered::with_capacity(first)),
            // with_capacity(0) underflows in the ordered set
            Kind::GrowingOrdered if make.first == 0 || first == 0 => {
                Set::GrowingOrdered(FuturesOrdered::new())
            }
            Kind::GrowingOrdered => Set::GrowingOrdered(FuturesOrdered::with_capacity(first)),
            Kind::Merge => Set::Merge(MergeBounded::empty(length)),
            Kind::GrowingMerge => Set::GrowingMerge(MergeUnbounded::new()),
        };
        tally.runs += 1;
        tally.capacity_0 += u64::from(length == 0);
        tally.unequal += u64::from(make.slots != make.wakes);
        let mut run = Run {
            kind: make.kind,
            name: make.name,
            set,
            length,
            first,
            parking: cut(make.parking),
            made: Vec::new(),
            parent: tasks::parent(),
            seen: Seen::default(),
        };
        run.note_groups(tally);
        run
    }

    /// Enters the groups that the crate has made since the last time.
    fn note_groups(&mut self, tally: &mut Tally) {
        for group in self.set.groups() {
            if self
                .made
                .iter()
                .any(|made| made.keeper.list() == group.list())
            {
                continue;
            }
            tally.groups += 1;
            tally.regrown += u64::from(!self.made.is_empty());
            tally.most_groups += u64::from(self.made.len() >= 3);
            self.made.push(Made {
                keeper: group.keeper(),
                start: self
                    .made
                    .last()
                    .map_or(0, |last| last.start + last.capacity),
                capacity: group.capacity(),
            });
        }
    }

    /// Carries out a call. An error is a call that this kind of set does not have.
    pub fn call(&mut self, call: &Call, tally: &mut Tally) -> Result<Answer, String> {
        let answer = match *call {
            Call::Push(_) if self.kind.is_ordered() => {
                return Err("an ordered set has push-back and push-front".into())
            }
            Call::Push(Pushed::Future(_)) if self.kind.is_merge() => {
                return Err("a merge holds streams".into())
            }
            Call::Push(Pushed::Stream(_)) if !self.kind.is_merge() => {
                return Err("a set holds futures".into())
            }
            Call::PushBack(_) | Call::PushFront(_) if !self.kind.is_ordered() => {
                return Err("only ordered sets have push-back and push-front".into())
            }
            Call::Len if self.kind.is_merge() => return Err("a merge has no len".into()),
            Call::Capacity if !matches!(self.kind, Kind::Bounded | Kind::Ordered) => {
                return Err("only bounded sets have a capacity".into())
            }
            Call::Push(pushed) => self.push(pushed, End::Back, tally),
            Call::PushBack(task) => self.push(Pushed::Future(task), End::Back, tally),
            Call::PushFront(task) => self.push(Pushed::Future(task), End::Front, tally),
            Call::Hand(address) => self.hand(address, tally),
            Call::Clone(name, address) => self.clone(name, address, tally),
            Call::Wake(name, address) => self.wake(name, address, true, tally),
            Call::WakeRef(name, address) => self.wake(name, address, false, tally),
            Call::Drop(name, address) => self.drop(name, address, tally),
            Call::Poll(ref post) => Ok(self.poll(post, tally)),
            Call::Len => Ok(Answer::Number(self.set.len())),
            Call::Capacity => Ok(Answer::Number(
                self.set.group(0).map_or(0, |g| g.capacity()),
            )),
            Call::MayEnd => match self.tokens_out() {
                0 => Ok(Answer::Yes),
                count => Err(Fault::TokensOut { count }),
            },
        };
        tally.calls += 1;
        Ok(answer.unwrap_or_else(|fault| {
            tally.faults[fault.number()] += 1;
            Answer::Fault(fault)
        }))
    }

    fn push(&mut self, pushed: Pushed, end: End, tally: &mut Tally) -> Result<Answer, Fault> {
        let (capacity, full) = match self.set.last_group() {
            Some(last) => (last.capacity(), last.len() == last.capacity()),
            None => (0, true),
        };
        // The slots are checked first. A bounded set of the crate answers by itself that it is full.
        if full && self.kind.is_growing() && !self.next_group_fits() {
            return Err(Fault::NoNextGroup {
                group: self.made.len(),
                capacity,
            });
        }
        let bounded_full = full && !self.kind.is_growing();
        if !bounded_full && self.kind.is_ordered() && self.set.len() == self.parking {
            return Err(Fault::ParkingFull {
                places: self.parking,
            });
        }

        if self.set.group_count() == 0 && self.first < FIRST {
            self.start_cut();
        }
        let before = self.set.last_group().map(|g| (g.list(), g.free_head()));
        let accepted = match (&mut self.set, pushed) {
            (Set::Bounded(set), Pushed::Future(task)) => set.try_push(task).is_ok(),
            (Set::Ordered(set), Pushed::Future(task)) => match end {
                End::Back => set.try_push_back(task).is_ok(),
                End::Front => set.try_push_front(task).is_ok(),
            },
            (Set::Growing(set), Pushed::Future(task)) => {
                set.push(task);
                true
            }
            (Set::GrowingOrdered(set), Pushed::Future(task)) => {
                match end {
                    End::Back => set.push_back(task),
                    End::Front => set.push_front(task),
                }
                true
            }
            (Set::Merge(merge), Pushed::Stream(source)) => merge.try_push(source).is_ok(),
            (Set::GrowingMerge(merge), Pushed::Stream(source)) => {
                merge.push(source);
                true
            }
            _ => false, // an ordered set of capacity 0; call has ruled out the other pairs
        };
        if !accepted {
            return Err(Fault::NoVacantSlot { capacity });
        }

        self.note_groups(tally);
        let slot = match (before, self.set.last_group()) {
            (Some((list, free_head)), Some(last)) if last.list() == list => free_head,
            (_, Some(last)) => (0..last.capacity())
                .find(|&slot| last.is_occupied(slot))
                .unwrap_or(0),
            (_, None) => 0,
        };
        let address = (self.made.last().map_or(0, |made| made.start) + slot) as u64;
        tally.pushes += 1;
        tally.fronts += u64::from(matches!(end, End::Front));
        self.seen.pushes += 1;
        let earlier = self.seen.occupants.insert(address, self.seen.pushes);
        tally.reused += u64::from(earlier.is_some());
        Ok(Answer::At(address))
    }

    /// Whether the group after the last one made fits the memory, and is not one too many.
    fn next_group_fits(&self) -> bool {
        let number = self.made.len();
        let start = self
            .made
            .last()
            .map_or(0, |last| last.start + last.capacity);
        let capacity = self
            .made
            .last()
            .map_or(self.first, |last| last.capacity * 2);
        number < MOST_GROUPS && capacity > 0 && start + capacity <= self.length
    }

    /// Makes the first group of a growing kind with the capacity that its memory allows.
    fn start_cut(&mut self) {
        match &mut self.set {
            Set::Growing(set) => *set = FuturesUnordered::with_capacity(self.first),
            Set::GrowingOrdered(set) => *set = FuturesOrdered::with_capacity(self.first),
            Set::GrowingMerge(merge) => *merge = MergeUnbounded::with_first_group(self.first),
            _ => {}
        }
    }

    /// The group that was made at this address, and the slot in it.
    fn find(&self, address: u64) -> Option<(&Made, usize)> {
        let address = usize::try_from(address).ok()?;
        let made = self
            .made
            .iter()
            .find(|made| (made.start..made.start + made.capacity).contains(&address))?;
        Some((made, address - made.start))
    }

    fn live(&self, made: &Made) -> Option<&dyn Group> {
        self.set
            .groups()
            .find(|group| group.list() == made.keeper.list())
    }

    pub fn is_occupied(&self, address: u64) -> bool {
        self.find(address).is_some_and(|(made, slot)| {
            self.live(made).is_some_and(|group| group.is_occupied(slot))
        })
    }

    /// The tokens out of one group: the owners of its list but for the keeper and the group itself.
    fn tokens_of(&self, made: &Made) -> usize {
        made.keeper.others() - usize::from(self.live(made).is_some())
    }

    fn tokens_out(&self) -> usize {
        self.made.iter().map(|made| self.tokens_of(made)).sum()
    }

    fn hand(&mut self, address: u64, tally: &mut Tally) -> Result<Answer, Fault> {
        if !self.is_occupied(address) {
            return Err(Fault::NoSuchSlot { address });
        }
        self.hand_out(address)?;
        tally.handed += 1;
        self.seen.hand(address, None);
        Ok(Answer::Token(self.name, address))
    }

    /// Counts one more token of the address, as a cloned waker that nobody drops.
    fn hand_out(&self, address: u64) -> Result<(), Fault> {
        let out = self.tokens_out();
        if out == MOST_TOKENS {
            return Err(Fault::TooManyTokens { out });
        }
        mem::forget(Waker::clone(&*self.waker(address)?));
        Ok(())
    }

    /// The waker of the address, uncounted.
    fn waker(&self, address: u64) -> Result<ManuallyDrop<Waker>, Fault> {
        self.find(address)
            .and_then(|(made, slot)| made.keeper.waker(slot))
            .ok_or(Fault::NoSuchSlot { address })
    }

    /// The checks of a token that is brought.
    fn check(&self, name: u32, address: u64, tally: &mut Tally) -> Result<(), Fault> {
        if name != self.name {
            return Err(Fault::OtherName { name });
        }
        if self.tokens_out() == 0 {
            return Err(Fault::NoTokenOut);
        }
        self.waker(address)?;
        tally.forged += u64::from(self.seen.token(address).is_none());
        Ok(())
    }

    fn clone(&mut self, name: u32, address: u64, tally: &mut Tally) -> Result<Answer, Fault> {
        self.check(name, address, tally)?;
        self.hand_out(address)?;
        tally.cloned += 1;
        self.seen.hand(address, self.seen.token(address));
        Ok(Answer::Token(name, address))
    }

    fn wake(
        &mut self,
        name: u32,
        address: u64,
        spend: bool,
        tally: &mut Tally,
    ) -> Result<Answer, Fault> {
        self.check(name, address, tally)?;
        if self.is_occupied(address) {
            let (token, occupant) = (
                self.seen.token(address),
                self.seen.occupants.get(&address).copied(),
            );
            tally.stale += u64::from(token.is_some() && token != occupant);
        } else {
            tally.vacant += 1;
        }
        let dropped_group = self
            .find(address)
            .is_some_and(|(made, _)| self.live(made).is_none());
        tally.dropped_wakes += u64::from(dropped_group);

        let before = tasks::notices();
        if spend {
            self.spend(address, Waker::wake, tally)?;
        } else {
            self.waker(address)?.wake_by_ref();
        }
        let notices = tasks::notices() - before;
        tally.woken += 1;
        tally.woken_notices += notices;
        Ok(Answer::Notice(notices))
    }

    fn drop(&mut self, name: u32, address: u64, tally: &mut Tally) -> Result<Answer, Fault> {
        self.check(name, address, tally)?;
        self.spend(address, mem::drop, tally)?;
        tally.dropped += 1;
        Ok(Answer::Dropped)
    }

    /// Uses up one counted waker of the address. The group of a forged token may have none out; then
    /// a waker is counted for it first, and one of another group is dropped in its stead.
    fn spend(&mut self, address: u64, using: fn(Waker), tally: &mut Tally) -> Result<(), Fault> {
        let waker = self.waker(address)?;
        let own = self
            .find(address)
            .map_or(0, |(made, _)| self.tokens_of(made));
        if own == 0 {
            let lender = self.made.iter().find(|made| self.tokens_of(made) > 0);
            let lent = lender
                .and_then(|made| made.keeper.waker(0))
                .ok_or(Fault::NoTokenOut)?;
            mem::forget(Waker::clone(&*waker));
            mem::drop(ManuallyDrop::into_inner(lent));
            tally.borrowed += 1;
        }
        using(ManuallyDrop::into_inner(waker));
        self.seen.spend(address);
        Ok(())
    }

    fn poll(&mut self, post: &[u64], tally: &mut Tally) -> Answer {
        tasks::set_post(post);
        let parked = self.set.parked();
        let live = self.set.group_count();
        let (notices, turns) = (tasks::notices(), cordyceps::dequeued());
        let poll = self.set.poll(&mut Context::from_waker(&self.parent));
        let (notices, turns) = (tasks::notices() - notices, cordyceps::dequeued() - turns);

        let empty = self.set.len() == 0;
        let polled = match poll {
            Poll::Ready(Some(output)) => Polled::Ready(output),
            Poll::Ready(None) => Polled::None,
            // The crate's growing merge visits each group once. It may find the last group empty
            // first and drop another one after it, and then it answers Pending with no stream left.
            Poll::Pending if empty && self.kind == Kind::GrowingMerge => {
                tally.hidden_ends += 1;
                Polled::None
            }
            Poll::Pending => {
                tally.odd_pending += u64::from(empty);
                Polled::Pending
            }
        };

        tally.polls += 1;
        tally.posts += u64::from(post.iter().any(|&word| word != 0));
        tally.turns_61 += u64::from(turns == 61);
        tally.turns_more += u64::from(turns > 61);
        tally.polled_notices += notices;
        tally.parked += self.set.parked().saturating_sub(parked) as u64;
        tally.dropped_groups += live.saturating_sub(self.set.group_count()) as u64;
        match polled {
            Polled::Ready(_) => {
                tally.yields += 1;
                tally.unparked += u64::from(turns == 0);
            }
            Polled::None => tally.nones += 1,
            Polled::Pending => {}
        }
        tally.add(&tasks::take_tally());
        Answer::Poll {
            polled,
            notices,
            turns,
        }
    }
}

impl Drop for Run {
    /// Gives back the tokens that are out, so that the wake lists are freed.
    fn drop(&mut self) {
        for made in &self.made {
            for _ in 0..self.tokens_of(made) {
                if let Some(waker) = made.keeper.waker(0) {
                    mem::drop(ManuallyDrop::into_inner(waker));
                }
            }
        }
    }
}
