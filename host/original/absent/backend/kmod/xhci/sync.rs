// The lock of the completion routes. Whoever delivers events is no interrupt.
use std::sync::{Mutex, MutexGuard, PoisonError};

use super::reg::XhciRegistersShared;

pub struct IrqLock<T>(Mutex<T>);

impl<T> IrqLock<T> {
    pub fn new(value: T, _registers: XhciRegistersShared) -> Self {
        Self(Mutex::new(value))
    }

    pub fn lock(&self) -> MutexGuard<'_, T> {
        self.0.lock().unwrap_or_else(PoisonError::into_inner)
    }

    /// # Safety
    /// The original's: nobody holds the lock meanwhile.
    pub unsafe fn force_use(&self) -> &T {
        let value: *const T = &*self.lock();
        // SAFETY: it stands in the lock, and nobody writes to it meanwhile.
        unsafe { &*value }
    }
}
