//! Stand-in for futures-core: the traits of streams, and the names of `core` that it re-exports.
#![no_std]

pub use core::task::ready;
pub use future::Future;
pub use stream::{FusedStream, Stream};

pub mod future {
    pub use core::future::Future;
}

pub mod task {
    pub use core::task::{Context, Poll};
}

pub mod stream {
    use core::{
        pin::Pin,
        task::{Context, Poll},
    };

    pub trait Stream {
        type Item;

        fn poll_next(self: Pin<&mut Self>, cx: &mut Context<'_>) -> Poll<Option<Self::Item>>;

        fn size_hint(&self) -> (usize, Option<usize>) {
            (0, None)
        }
    }

    pub trait FusedStream: Stream {
        fn is_terminated(&self) -> bool;
    }
}
