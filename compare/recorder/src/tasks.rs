//! The tasks that runs are made of, as futures and streams of the crate; the post that they read;
//! and the parent's waker, which counts.

use crate::tally::Tally;
use futures_core::Stream;
use std::{
    cell::{Cell, RefCell},
    future::Future,
    pin::Pin,
    ptr,
    task::{Context, Poll, RawWaker, RawWakerVTable, Waker},
};

thread_local! {
    static POST: RefCell<Vec<u64>> = const { RefCell::new(Vec::new()) };
    static NOTICES: Cell<u64> = const { Cell::new(0) };
    static TALLY: RefCell<Tally> = RefCell::default();
}

/// Sets the post of the polls to come.
pub fn set_post(words: &[u64]) {
    POST.with_borrow_mut(|post| {
        post.clear();
        post.extend_from_slice(words);
    });
}

fn word_at(place: u64) -> Option<u64> {
    let place = usize::try_from(place).ok()?;
    POST.with_borrow(|post| post.get(place).copied())
}

/// How often the parent's waker was called so far.
pub fn notices() -> u64 {
    NOTICES.get()
}

/// What the tasks counted since the last time it was taken.
pub fn take_tally() -> Tally {
    TALLY.take()
}

fn count(field: impl FnOnce(&mut Tally) -> &mut u64) {
    TALLY.with_borrow_mut(|tally| *field(tally) += 1);
}

/// The parent's waker: each call of it is a notice.
pub fn parent() -> Waker {
    static VTABLE: RawWakerVTable = RawWakerVTable::new(clone, notice, notice, drop);

    fn clone(_: *const ()) -> RawWaker {
        RawWaker::new(ptr::null(), &VTABLE)
    }
    fn notice(_: *const ()) {
        NOTICES.set(NOTICES.get() + 1);
    }
    fn drop(_: *const ()) {}

    // SAFETY: the functions do not use the pointer.
    unsafe { Waker::from_raw(clone(ptr::null())) }
}

/// What a future or a stream gives: a ticket, and a word if it is a delivery.
#[derive(Clone, Copy, Debug)]
pub struct Output {
    pub owner: u32,
    pub number: u32,
    pub word: Option<u64>,
}

#[derive(Clone, Copy, Debug)]
pub enum Task {
    Countdown {
        owner: u32,
        number: u32,
        count: u32,
        wakes_itself: bool,
    },
    Letter {
        owner: u32,
        number: u32,
        place: u64,
    },
}

impl Future for Task {
    type Output = Output;

    fn poll(self: Pin<&mut Self>, cx: &mut Context<'_>) -> Poll<Output> {
        match self.get_mut() {
            Task::Countdown {
                owner,
                number,
                count: 0,
                ..
            } => Poll::Ready(Output {
                owner: *owner,
                number: *number,
                word: None,
            }),
            Task::Countdown {
                count: left,
                wakes_itself,
                ..
            } => {
                *left -= 1;
                if *wakes_itself {
                    count(|tally| &mut tally.self_wakes);
                    cx.waker().wake_by_ref();
                }
                Poll::Pending
            }
            Task::Letter {
                owner,
                number,
                place,
            } => match word_at(*place) {
                None | Some(0) => Poll::Pending,
                word => Poll::Ready(Output {
                    owner: *owner,
                    number: *number,
                    word,
                }),
            },
        }
    }
}

#[derive(Clone, Copy, Debug)]
pub enum Source {
    Ticker { owner: u32, next: u32, items: u32 },
    Mailbag { owner: u32, next: u32, place: u64 },
}

impl Stream for Source {
    type Item = Output;

    fn poll_next(self: Pin<&mut Self>, _: &mut Context<'_>) -> Poll<Option<Output>> {
        let end = || {
            count(|tally| &mut tally.ended);
            Poll::Ready(None)
        };
        match self.get_mut() {
            Source::Ticker { next, items, .. } if *next >= *items || *next == u32::MAX => end(),
            Source::Ticker { owner, next, .. } => {
                let number = *next;
                *next += 1;
                Poll::Ready(Some(Output {
                    owner: *owner,
                    number,
                    word: None,
                }))
            }
            Source::Mailbag { next: u32::MAX, .. } => {
                count(|tally| &mut tally.last_numbers);
                end()
            }
            Source::Mailbag { owner, next, place } => match word_at(*place) {
                None => {
                    count(|tally| &mut tally.mail_missing);
                    Poll::Pending
                }
                Some(0) => {
                    count(|tally| &mut tally.mail_zero);
                    Poll::Pending
                }
                Some(u64::MAX) => {
                    count(|tally| &mut tally.mail_end);
                    end()
                }
                word => {
                    let number = *next;
                    *next += 1;
                    *place += 1; // the post is shorter than 2^64 words
                    Poll::Ready(Some(Output {
                        owner: *owner,
                        number,
                        word,
                    }))
                }
            },
        }
    }
}
