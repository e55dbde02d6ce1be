//! Stands in for the crate of this name: the source uses `Mutex::new` and `Mutex::lock` alone.

use std::sync::{MutexGuard, PoisonError};

pub struct Mutex<T>(std::sync::Mutex<T>);

impl<T> Mutex<T> {
    pub fn new(value: T) -> Mutex<T> {
        Mutex(std::sync::Mutex::new(value))
    }

    /// As in the crate of this name, a panic under the lock doesn't poison it.
    #[inline]
    pub fn lock(&self) -> MutexGuard<'_, T> {
        self.0.lock().unwrap_or_else(PoisonError::into_inner)
    }
}
