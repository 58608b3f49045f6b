//! Values that are made once, by whichever thread needs them first.

use std::sync::OnceLock;

use crate::helgrind;

/// A value that the first call which needs it makes. Other threads then wait for it.
pub(crate) struct Once<T>(OnceLock<Box<T>>);

impl<T> Once<T> {
    pub fn new() -> Once<T> {
        Once(OnceLock::new())
    }

    #[inline]
    pub fn get(&self) -> Option<&T> {
        let value = self.0.get()?;
        helgrind::acquired(self);
        Some(value)
    }

    pub fn get_or_init(&self, make: impl FnOnce() -> T) -> &T {
        let value = self.0.get_or_init(|| self.boxed(make()));
        helgrind::acquired(self);
        value
    }

    /// Sets the value, unless there is one. Then the new value comes back.
    pub fn set(&self, value: T) -> Result<&T, T> {
        match self.0.set(self.boxed(value)) {
            Ok(()) => Ok(self.get().expect("the value was set")),
            Err(value) => Err(*value),
        }
    }

    pub fn get_mut(&mut self) -> Option<&mut T> {
        self.0.get_mut().map(Box::as_mut)
    }

    pub fn take(&mut self) -> Option<T> {
        self.0.take().map(|value| *value)
    }

    fn boxed(&self, value: T) -> Box<T> {
        let value = Box::new(value);
        helgrind::released(self);
        value
    }
}

impl<T> From<T> for Once<T> {
    fn from(value: T) -> Once<T> {
        let made = Once::new();
        // It has no value yet, so this one is taken.
        let _ = made.set(value);
        made
    }
}

impl<T: Clone> Clone for Once<T> {
    fn clone(&self) -> Once<T> {
        self.get()
            .map_or_else(Once::new, |value| Once::from(value.clone()))
    }
}
