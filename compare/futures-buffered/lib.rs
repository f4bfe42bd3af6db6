//! The eight files of futures-buffered 0.2.13 in `src/`, unchanged. The build appends the accessors
//! to copies of them; `build.rs` says how.
#![no_std]

extern crate alloc;

include!(concat!(env!("OUT_DIR"), "/modules.rs"));

pub use futures_ordered::FuturesOrdered;
pub use futures_ordered_bounded::FuturesOrderedBounded;
pub use futures_unordered::FuturesUnordered;
pub use futures_unordered_bounded::FuturesUnorderedBounded;
#[allow(deprecated)]
pub use merge_bounded::Merge;
pub use merge_bounded::MergeBounded;
pub use merge_unbounded::MergeUnbounded;

#[doc(hidden)]
pub use futures_unordered_bounded::Group;
#[doc(hidden)]
pub use waker_list::Keeper;
