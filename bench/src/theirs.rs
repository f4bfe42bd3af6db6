//! The crate's side: the workloads of `crates/bench/src/workloads.rt` on the crate's set, call for call.

use crate::memory;
use futures_buffered::FuturesUnorderedBounded;
use futures_core::Stream;
use std::{
    cell::{Cell, RefCell},
    future::Future,
    hint::black_box,
    pin::Pin,
    ptr,
    sync::atomic::{AtomicU64, Ordering::Relaxed},
    task::{Context, Poll, RawWaker, RawWakerVTable, Waker},
};

/// What a run answers: its checksum, and the wakers that are still out. Our side does not give its tokens back, so
/// these are dropped when the clock has stopped.
pub struct Done {
    pub sum: u64,
    pub wakers_out: Vec<Waker>,
}

impl From<u64> for Done {
    fn from(sum: u64) -> Self {
        let wakers_out = Vec::new();
        Done { sum, wakers_out }
    }
}

type Ticket = (u32, u32);

/// Ready after a stated number of polls. It wakes itself if it was made to.
pub struct Countdown {
    ticket: Ticket,
    count: u32,
    wakes_itself: bool,
}

impl Future for Countdown {
    type Output = Ticket;

    fn poll(mut self: Pin<&mut Self>, cx: &mut Context<'_>) -> Poll<Ticket> {
        if self.count == 0 {
            return Poll::Ready(self.ticket);
        }
        self.count -= 1;
        if self.wakes_itself {
            cx.waker().wake_by_ref();
        }
        Poll::Pending
    }
}

/// The words that letters wait for, and the wakers that they leave.
struct Desk {
    post: Vec<Cell<u64>>,
    wakers: RefCell<Vec<Waker>>,
}

/// Waits for the word at its place of the post. It leaves its waker at its first poll.
struct Letter<'a> {
    ticket: Ticket,
    place: u64,
    left_waker: bool,
    desk: &'a Desk,
}

impl Future for Letter<'_> {
    type Output = (Ticket, u64);

    fn poll(mut self: Pin<&mut Self>, cx: &mut Context<'_>) -> Poll<(Ticket, u64)> {
        let word = self.desk.post.get(self.place as usize).map_or(0, Cell::get);
        if word != 0 {
            return Poll::Ready((self.ticket, word));
        }
        if !self.left_waker {
            self.left_waker = true;
            self.desk.wakers.borrow_mut().push(cx.waker().clone());
        }
        Poll::Pending
    }
}

/// The notices that the parent got. A load and a store, not an atomic addition: there is one thread.
static NOTICES: AtomicU64 = AtomicU64::new(0);

/// The waker of whoever polls the set. It only counts.
fn parent() -> Waker {
    static COUNTS: RawWakerVTable = RawWakerVTable::new(clone, notice, notice, |_| {});

    fn clone(_: *const ()) -> RawWaker {
        RawWaker::new(ptr::null(), &COUNTS)
    }

    fn notice(_: *const ()) {
        NOTICES.store(NOTICES.load(Relaxed) + 1, Relaxed);
    }

    // SAFETY: it has no data.
    unsafe { Waker::from_raw(clone(ptr::null())) }
}

/// A future that is ready at its first poll.
fn ready(number: u32) -> Countdown {
    Countdown {
        ticket: (0, number),
        count: 0,
        wakes_itself: false,
    }
}

/// The number of the ticket that a poll yields, or 0.
fn yielded(set: &mut FuturesUnorderedBounded<Countdown>, cx: &mut Context<'_>) -> u64 {
    match Pin::new(set).poll_next(cx) {
        Poll::Ready(Some(ticket)) => ticket.1 as u64,
        Poll::Ready(None) => 0,
        Poll::Pending => 0,
    }
}

#[inline(never)]
pub fn keep_full(capacity: u32, futures: u32) -> Done {
    let parent = parent();
    let cx = &mut Context::from_waker(&parent);
    let set = &mut FuturesUnorderedBounded::new(capacity as usize);
    let mut sum: u64 = 0;
    for number in 0..futures {
        if let Err(refused) = set.try_push(ready(number)) {
            sum = sum.wrapping_add(yielded(set, cx));
            let _ = set.try_push(refused);
        }
    }
    for _ in 0..set.len() {
        sum = sum.wrapping_add(yielded(set, cx));
    }
    sum.into()
}

#[inline(never)]
pub fn fill_and_drain(capacity: u32, rounds: u32) -> Done {
    let parent = parent();
    let cx = &mut Context::from_waker(&parent);
    let set = &mut FuturesUnorderedBounded::new(capacity as usize);
    let mut sum: u64 = 0;
    for _ in 0..rounds {
        for number in 0..capacity {
            let _ = set.try_push(ready(number));
        }
        for _ in 0..capacity {
            sum = sum.wrapping_add(yielded(set, cx));
        }
    }
    sum.into()
}

/// At most so many tokens are out on our side; the crate's side wakes by as many.
pub const TOKENS: u32 = 65_535;

/// Adds up notices and turns. A poll that answers Pending is taken for one turn. The notices show that it was: a wake
/// gives one only if its slot had left the queue, which it does by a turn.
#[inline(never)]
pub fn wake_waiting(capacity: u32, rounds: u32) -> Done {
    let parent = parent();
    let cx = &mut Context::from_waker(&parent);
    let desk = Desk {
        post: vec![Cell::new(0); capacity as usize],
        wakers: RefCell::new(Vec::new()),
    };
    let desk = black_box(&desk);
    let mut set = FuturesUnorderedBounded::new(capacity as usize);
    for number in 0..capacity {
        let _ = set.try_push(Letter {
            ticket: (0, number),
            place: number as u64,
            left_waker: false,
            desk,
        });
    }
    for _ in 0..set.capacity() {
        let _ = Pin::new(&mut set).poll_next(cx);
    }
    let wakers = desk.wakers.take();
    let used = &wakers[..wakers.len().min(TOKENS as usize)];
    let before = NOTICES.load(Relaxed);
    let mut turns: u64 = 0;
    for _ in 0..rounds {
        for waker in used {
            waker.wake_by_ref();
            if Pin::new(&mut set).poll_next(cx).is_pending() {
                turns += 1;
            }
        }
    }
    Done {
        sum: turns + (NOTICES.load(Relaxed) - before),
        wakers_out: wakers,
    }
}

/// The bytes of one slot and of its wake item, in a set of Countdowns. They are private to the crate, so a set's two
/// allocations are looked at: that of its slots and that of its wake list. The difference to an empty set leaves out
/// what a set has once.
pub fn bytes_per_slot() -> (f64, f64) {
    const CAPACITY: usize = 65_536;
    let sizes =
        |capacity| memory::two_allocations(|| FuturesUnorderedBounded::<Countdown>::new(capacity));
    // A set of capacity 0 allocates no slots, so its only allocation is its wake list.
    let (list_alone, _) = sizes(0);
    let (slots, list) = sizes(CAPACITY);
    let each = |bytes: usize| bytes as f64 / CAPACITY as f64;
    (each(slots), each(list - list_alone))
}
