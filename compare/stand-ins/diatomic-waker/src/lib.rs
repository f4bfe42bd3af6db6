//! Stand-in for diatomic-waker, for one thread only: one registration of a waker.
#![no_std]

pub mod primitives {
    use core::{
        cell::{Cell, UnsafeCell},
        task::Waker,
    };

    /// Holds at most one registration. A notification clears it.
    pub struct DiatomicWaker {
        registered: Cell<bool>,
        // The waker registered last. It outlasts its registration, so that registering the same one
        // again need not clone it.
        waker: UnsafeCell<Option<Waker>>,
    }

    impl DiatomicWaker {
        #[inline]
        pub const fn new() -> Self {
            Self {
                registered: Cell::new(false),
                waker: UnsafeCell::new(None),
            }
        }

        /// Registers the waker, in the place of any other.
        ///
        /// # Safety
        /// No other call of this value is under way.
        #[inline]
        pub unsafe fn register(&self, waker: &Waker) {
            // While a waker is replaced none is registered: a notification out of the clone or the
            // drop of a waker does nothing.
            self.registered.set(false);
            // SAFETY: nobody else reads or writes the waker.
            let same = match unsafe { &*self.waker.get() } {
                Some(old) => old.will_wake(waker),
                None => false,
            };
            if !same {
                let new = Some(waker.clone());
                // SAFETY: as above.
                let old = unsafe { core::mem::replace(&mut *self.waker.get(), new) };
                drop(old);
            }
            self.registered.set(true);
        }

        /// Wakes the registered waker, if there is one, and clears the registration.
        #[inline]
        pub fn notify(&self) {
            if self.registered.replace(false) {
                // SAFETY: the waker is replaced by register alone, and not while it is being woken.
                if let Some(waker) = unsafe { &*self.waker.get() } {
                    waker.wake_by_ref();
                }
            }
        }
    }

    impl Default for DiatomicWaker {
        fn default() -> Self {
            Self::new()
        }
    }
}
