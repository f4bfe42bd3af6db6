// Accessors, appended by the build.

impl WakerList {
    /// The number of wakers out: the strong count without the list itself. A keeper counts as one.
    pub(crate) fn wakers_out(&self) -> usize {
        let meta = unsafe { &*self.ptr.as_ptr() };
        meta.strong.load(Ordering::Relaxed) - 1
    }

    /// Tells this list from any other that is alive.
    pub(crate) fn identity(&self) -> usize {
        self.ptr.as_ptr() as usize
    }

    /// The waker of a slot, uncounted; nothing if there is no such slot.
    pub(crate) fn uncounted_waker(&self, index: usize) -> Option<ManuallyDrop<Waker>> {
        let meta = unsafe { &*self.ptr.as_ptr() };
        (index < meta.len).then(|| self.get(index))
    }

    pub(crate) fn keeper(&self) -> Keeper {
        let meta = unsafe { &*self.ptr.as_ptr() };
        meta.inc_strong();
        Keeper(WakerList {
            ptr: self.ptr,
            phantom: PhantomData,
        })
    }
}

/// Keeps a wake list alive, also when its set is dropped. It is counted as one waker out.
#[doc(hidden)]
pub struct Keeper(WakerList);

impl Keeper {
    /// The number of owners of the list besides this keeper: its set, if that is alive, the wakers
    /// out, and other keepers.
    pub fn others(&self) -> usize {
        self.0.wakers_out()
    }

    /// The same number as [`Group::list`](crate::Group::list) of the list's set.
    pub fn list(&self) -> usize {
        self.0.identity()
    }

    /// The waker of a slot, uncounted; nothing if there is no such slot.
    pub fn waker(&self, slot: usize) -> Option<ManuallyDrop<Waker>> {
        self.0.uncounted_waker(slot)
    }
}
