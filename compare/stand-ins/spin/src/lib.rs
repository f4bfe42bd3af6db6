//! Stand-in for spin: its plain spin lock, with the same atomic operations.
#![no_std]

pub mod mutex {
    use core::{
        cell::UnsafeCell,
        hint::spin_loop,
        ops::{Deref, DerefMut},
        sync::atomic::{AtomicBool, Ordering},
    };

    pub struct SpinMutex<T> {
        lock: AtomicBool,
        data: UnsafeCell<T>,
    }

    // SAFETY: the lock gives out the data to one holder at a time.
    unsafe impl<T: Send> Send for SpinMutex<T> {}
    unsafe impl<T: Send> Sync for SpinMutex<T> {}

    impl<T> SpinMutex<T> {
        #[inline]
        pub const fn new(data: T) -> Self {
            Self {
                lock: AtomicBool::new(false),
                data: UnsafeCell::new(data),
            }
        }

        #[inline]
        pub fn lock(&self) -> SpinMutexGuard<'_, T> {
            while self
                .lock
                .compare_exchange_weak(false, true, Ordering::Acquire, Ordering::Relaxed)
                .is_err()
            {
                while self.lock.load(Ordering::Relaxed) {
                    spin_loop();
                }
            }
            SpinMutexGuard { mutex: self }
        }
    }

    /// The holder of a lock. Its drop unlocks.
    pub struct SpinMutexGuard<'a, T> {
        mutex: &'a SpinMutex<T>,
    }

    impl<T> Deref for SpinMutexGuard<'_, T> {
        type Target = T;

        #[inline]
        fn deref(&self) -> &T {
            // SAFETY: the lock is held.
            unsafe { &*self.mutex.data.get() }
        }
    }

    impl<T> DerefMut for SpinMutexGuard<'_, T> {
        #[inline]
        fn deref_mut(&mut self) -> &mut T {
            // SAFETY: the lock is held.
            unsafe { &mut *self.mutex.data.get() }
        }
    }

    impl<T> Drop for SpinMutexGuard<'_, T> {
        #[inline]
        fn drop(&mut self) {
            self.mutex.lock.store(false, Ordering::Release);
        }
    }
}
