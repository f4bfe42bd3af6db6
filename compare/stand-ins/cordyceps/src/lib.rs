//! Stand-in for cordyceps, for one thread only: an intrusive first-in first-out queue. It allocates
//! nothing, and an enqueue or a dequeue is a few plain loads and stores. The stub node is not used.
#![cfg_attr(not(feature = "count"), no_std)]

use core::ptr::NonNull;

pub use mpsc_queue::MpscQueue;

/// A type with links of type `L` inside.
///
/// # Safety
/// `into_ptr` and `from_ptr` are inverse, and an element stays where it is while it is queued.
pub unsafe trait Linked<L> {
    type Handle;

    fn into_ptr(r: Self::Handle) -> NonNull<Self>;

    /// # Safety
    /// `ptr` comes from `into_ptr`.
    unsafe fn from_ptr(ptr: NonNull<Self>) -> Self::Handle;

    /// # Safety
    /// `ptr` points to a live element.
    unsafe fn links(ptr: NonNull<Self>) -> NonNull<L>;
}

/// The number of entries that this thread has taken from queues.
#[cfg(feature = "count")]
pub fn dequeued() -> u64 {
    mpsc_queue::DEQUEUED.with(|count| count.get())
}

pub mod mpsc_queue {
    use super::Linked;
    use core::{
        cell::Cell,
        marker::PhantomPinned,
        ptr::{null_mut, NonNull},
        sync::atomic::{AtomicPtr, Ordering::Relaxed},
    };

    #[cfg(feature = "count")]
    std::thread_local! {
        pub(super) static DEQUEUED: Cell<u64> = const { Cell::new(0) };
    }

    /// The link of an element to the one behind it.
    pub struct Links<T> {
        // Atomic so that an element is Send and Sync; a relaxed access is a plain one.
        next: AtomicPtr<T>,
        _pinned: PhantomPinned,
    }

    impl<T> Links<T> {
        #[inline]
        pub const fn new() -> Self {
            Self {
                next: AtomicPtr::new(null_mut()),
                _pinned: PhantomPinned,
            }
        }

        #[inline]
        pub const fn new_stub() -> Self {
            Self::new()
        }
    }

    impl<T> Default for Links<T> {
        fn default() -> Self {
            Self::new()
        }
    }

    #[derive(Debug, Eq, PartialEq)]
    pub enum TryDequeueError {
        /// Nothing is queued.
        Empty,
        /// Another thread is enqueuing: never the case here.
        Inconsistent,
        /// Another thread is dequeuing: never the case here.
        Busy,
    }

    /// The queue: its first and its last element, both null if it is empty.
    pub struct MpscQueue<T> {
        first: Cell<*mut T>,
        last: Cell<*mut T>,
    }

    impl<T: Linked<Links<T>>> MpscQueue<T> {
        #[inline]
        pub fn new_with_stub(_stub: T::Handle) -> Self {
            Self {
                first: Cell::new(null_mut()),
                last: Cell::new(null_mut()),
            }
        }

        #[inline]
        pub fn enqueue(&self, element: T::Handle) {
            let node = T::into_ptr(element);
            // SAFETY: queued elements are alive and stay where they are.
            unsafe {
                T::links(node).as_ref().next.store(null_mut(), Relaxed);
                match NonNull::new(self.last.replace(node.as_ptr())) {
                    Some(last) => T::links(last).as_ref().next.store(node.as_ptr(), Relaxed),
                    None => self.first.set(node.as_ptr()),
                }
            }
        }

        /// # Safety
        /// Nobody else dequeues at the same time.
        #[inline]
        pub unsafe fn try_dequeue_unchecked(&self) -> Result<T::Handle, TryDequeueError> {
            let Some(node) = NonNull::new(self.first.get()) else {
                return Err(TryDequeueError::Empty);
            };
            // SAFETY: queued elements are alive and stay where they are.
            unsafe {
                let next = T::links(node).as_ref().next.load(Relaxed);
                self.first.set(next);
                if next.is_null() {
                    self.last.set(null_mut());
                }
                #[cfg(feature = "count")]
                DEQUEUED.with(|count| count.set(count.get() + 1));
                Ok(T::from_ptr(node))
            }
        }
    }
}
