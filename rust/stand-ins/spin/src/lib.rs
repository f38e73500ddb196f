//! A stand-in for `spin` 0.10, for tests where no registry is reached: its lock, as far as this repository uses it, by
//! the lock of the standard library. The names, the signatures and what each call returns are those of the crate.
#![forbid(unsafe_code)]

use std::sync::{self, PoisonError};

/// A value that one thread at a time may use. A panic of that thread leaves it usable.
#[derive(Debug, Default)]
pub struct Mutex<T>(sync::Mutex<T>);

/// The value, as long as the lock is held.
pub type MutexGuard<'a, T> = sync::MutexGuard<'a, T>;

impl<T> Mutex<T> {
    /// A lock around a value.
    pub const fn new(value: T) -> Self {
        Mutex(sync::Mutex::new(value))
    }

    /// Waits for the lock, and takes it.
    pub fn lock(&self) -> MutexGuard<'_, T> {
        self.0.lock().unwrap_or_else(PoisonError::into_inner)
    }
}
