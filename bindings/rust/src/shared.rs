//! What threads use side by side.
use crate::error::LiquidError;
use crate::ffi::{bikleinu_share, Handle, Owner};
use std::sync::{Mutex, MutexGuard, PoisonError};

/// What a handle holds, for calls in any number of threads at a time: each has a handle of its own on it.
pub(crate) struct Shared {
    first: Mutex<Owner>,
    /// Handles that no call has now.
    spare: Mutex<Vec<Owner>>,
}

impl Shared {
    pub(crate) fn new(first: Owner) -> Shared {
        Shared { first: Mutex::new(first), spare: Mutex::new(Vec::new()) }
    }

    /// A handle for a call.
    pub(crate) fn lend(&self) -> Result<Lent<'_>, LiquidError> {
        let spare = locked(&self.spare).pop();
        let owner = match spare {
            Some(owner) => owner,
            None => self.shared()?,
        };
        Ok(Lent { of: self, owner: Some(owner) })
    }

    fn shared(&self) -> Result<Owner, LiquidError> {
        let first = locked(&self.first);
        if first.is_empty() {
            return Ok(Owner::new());
        }
        let made = Owner::new();
        // SAFETY: both handles are owners', two of them, and no other call has the first as long as it is locked.
        let number = unsafe { bikleinu_share(first.at(), made.at()) };
        made.settled(number)
    }

    /// The only handle on it, so that a call can change it.
    pub(crate) fn only(&mut self) -> &Owner {
        self.spare.get_mut().unwrap_or_else(PoisonError::into_inner).clear();
        self.first.get_mut().unwrap_or_else(PoisonError::into_inner)
    }
}

/// A handle that a call has for itself.
pub(crate) struct Lent<'a> {
    of: &'a Shared,
    owner: Option<Owner>,
}

impl Lent<'_> {
    pub(crate) fn at(&self) -> *mut Handle {
        self.owner.as_ref().map_or(std::ptr::null_mut(), Owner::at)
    }

    /// Whether it holds nothing.
    pub(crate) fn is_empty(&self) -> bool {
        self.owner.as_ref().map_or(true, Owner::is_empty)
    }
}

impl Drop for Lent<'_> {
    fn drop(&mut self) {
        let mut spare = locked(&self.of.spare);
        // where there is no memory to keep the handle, it is freed
        if spare.try_reserve(1).is_ok() {
            spare.extend(self.owner.take());
        }
    }
}

/// What a lock keeps. A thread that panicked with it left it whole.
pub(crate) fn locked<T>(kept: &Mutex<T>) -> MutexGuard<'_, T> {
    kept.lock().unwrap_or_else(PoisonError::into_inner)
}
