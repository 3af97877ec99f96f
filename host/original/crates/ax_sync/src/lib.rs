//! The original's spin lock as a lock of the standard library.

use std::sync::{Mutex, MutexGuard, PoisonError};

pub struct SpinLock<T>(Mutex<T>);

impl<T> SpinLock<T> {
    pub fn new(value: T) -> Self {
        Self(Mutex::new(value))
    }

    pub fn lock(&self) -> MutexGuard<'_, T> {
        self.0.lock().unwrap_or_else(PoisonError::into_inner)
    }

    /// The original's signature: there interrupts go on.
    ///
    /// # Safety
    /// Here it is `lock`, and always safe.
    pub unsafe fn lock_raw(&self) -> MutexGuard<'_, T> {
        self.lock()
    }
}
