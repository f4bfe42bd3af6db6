// Accessors, appended by the build.

/// What a recorder reads of one bounded set, which is also one group of a growing set.
#[doc(hidden)]
pub trait Group {
    fn capacity(&self) -> usize;
    fn len(&self) -> usize;

    /// The slot that the next push takes; with no vacant slot, the capacity.
    fn free_head(&self) -> usize;

    /// Whether there is a slot of this number, and it is occupied.
    fn is_occupied(&self, slot: usize) -> bool;

    /// The number of wakers out, keepers included.
    fn wakers_out(&self) -> usize;

    /// The waker of a slot, uncounted; nothing if there is no such slot.
    fn waker(&self, slot: usize) -> Option<core::mem::ManuallyDrop<core::task::Waker>>;

    /// Tells the wake list of this set from any other that is alive.
    fn list(&self) -> usize;

    /// An owner that keeps the wake list alive when the set is dropped.
    fn keeper(&self) -> crate::Keeper;
}

impl<F> Group for FuturesUnorderedBounded<F> {
    fn capacity(&self) -> usize {
        self.tasks.capacity()
    }

    fn len(&self) -> usize {
        self.tasks.len()
    }

    fn free_head(&self) -> usize {
        self.tasks.free_head()
    }

    fn is_occupied(&self, slot: usize) -> bool {
        self.tasks.is_occupied(slot)
    }

    fn wakers_out(&self) -> usize {
        self.shared.wakers_out()
    }

    fn waker(&self, slot: usize) -> Option<core::mem::ManuallyDrop<core::task::Waker>> {
        self.shared.uncounted_waker(slot)
    }

    fn list(&self) -> usize {
        self.shared.identity()
    }

    fn keeper(&self) -> crate::Keeper {
        self.shared.keeper()
    }
}
