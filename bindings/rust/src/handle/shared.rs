//! Values that several threads ask at once.
//!
//! A handle takes one call at a time. So a value has several handles, which `sm_share`
//! makes without a copy of the value, and a call takes one that no other call has.
//! Shares are closed when the value is changed or dropped, and only then: texts that
//! calls lent point into them.

use std::array;
use std::cell::Cell;
use std::sync::atomic::{AtomicBool, AtomicU64, AtomicUsize, Ordering};
use std::thread;

use super::Handle;
use crate::errors::Result;
use crate::ffi;
use crate::helgrind;
use crate::once::Once;

/// How many shares a table has room for.
const WIDTH: usize = 63;

thread_local! {
    /// Which share this thread tries first. 0 is the share that each value has; a thread
    /// gets another number the first time that it meets a call of another thread.
    static NUMBER: Cell<usize> = const { Cell::new(0) };
}

/// A value of the library, in one or more handles.
pub(super) struct Shared {
    first: Slot,
    /// Makes further shares, and answers no other call. It is empty if memory ran out
    /// when the value was changed: then calls that meet wait for one another.
    seed: Slot,
    more: Once<Table>,
    state: u64,
}

/// Further shares. `next` is needed only where more calls meet than a table has room for.
struct Table {
    slots: [Once<Slot>; WIDTH],
    next: Once<Table>,
}

/// A handle, on cache lines that it shares with no other. It is used by the thread that
/// set `is_taken`.
#[repr(align(128))]
struct Slot {
    is_taken: AtomicBool,
    handle: Handle,
}

// SAFETY: `handle` is used only by the thread that took the slot, and the header allows a
// handle to go from thread to thread.
unsafe impl Sync for Slot {}

/// A handle that is taken, until this is dropped.
pub(super) struct Taken<'a>(&'a Slot);

impl Slot {
    fn new(handle: Handle, is_taken: bool) -> Slot {
        Slot {
            is_taken: AtomicBool::new(is_taken),
            handle,
        }
    }

    #[inline]
    fn take(&self) -> Option<Taken<'_>> {
        if self.is_taken.swap(true, Ordering::Acquire) {
            return None;
        }
        helgrind::acquired(self);
        Some(Taken(self))
    }
}

impl Taken<'_> {
    #[inline]
    pub fn at(&self) -> *mut ffi::Handle {
        self.0.handle.at()
    }
}

impl Drop for Taken<'_> {
    #[inline]
    fn drop(&mut self) {
        helgrind::released(self.0);
        self.0.is_taken.store(false, Ordering::Release);
    }
}

/// A share of what a handle holds.
fn share_of(at: *mut ffi::Handle) -> Result<Handle> {
    // SAFETY: the caller has the handle. The new one is not the same.
    Handle::fill(|other, error| unsafe { ffi::sm_share(at, other, error) })
}

impl Shared {
    pub fn of(handle: Handle) -> Result<Shared> {
        let seed = share_of(handle.at())?;
        Ok(Shared {
            first: Slot::new(handle, false),
            seed: Slot::new(seed, false),
            more: Once::new(),
            state: next_state(),
        })
    }

    /// A number that no other value has, nor this one before or after a change.
    #[inline]
    pub fn state(&self) -> u64 {
        self.state
    }

    /// The value that a call fills a handle with.
    pub fn fill(
        call: impl FnOnce(*mut ffi::Handle, *mut ffi::Error) -> ffi::Code,
    ) -> Result<Shared> {
        Shared::of(Handle::fill(call)?)
    }

    /// The same value, with handles of its own.
    pub fn share(&self) -> Result<Shared> {
        Shared::of(share_of(self.take().at())?)
    }

    /// A handle that no other call has.
    #[inline]
    pub fn take(&self) -> Taken<'_> {
        self.take_first().unwrap_or_else(|| self.take_other())
    }

    /// The first handle, if no other call has it, and this thread has no number.
    #[inline]
    pub fn take_first(&self) -> Option<Taken<'_>> {
        match NUMBER.get() {
            0 => self.first.take(),
            _ => None,
        }
    }

    /// A handle for a thread that has a number, or gets one now.
    #[inline(never)]
    pub fn take_other(&self) -> Taken<'_> {
        let number = number_of_thread();
        if let Some(taken) = self.own(number) {
            return taken;
        }
        loop {
            let free = self.first.take().or_else(|| self.free());
            if let Some(taken) = free.or_else(|| self.added(number)) {
                return taken;
            }
            // Another thread is making a share, or memory ran out.
            thread::yield_now();
        }
    }

    /// The share of this number, unless another call has it. It is made if there is none: a
    /// thread that took what others left free would take their cache lines from them.
    fn own(&self, number: usize) -> Option<Taken<'_>> {
        let slot = self
            .more
            .get()
            .and_then(|table| table.slots[number - 1].get());
        match slot {
            Some(slot) => slot.take(),
            None => self.added(number),
        }
    }

    /// Any share that is free.
    fn free(&self) -> Option<Taken<'_>> {
        let mut next = self.more.get();
        while let Some(table) = next {
            if let Some(taken) = table.slots.iter().flat_map(Once::get).find_map(Slot::take) {
                return Some(taken);
            }
            next = table.next.get();
        }
        None
    }

    /// A new share, of this number if no share has it.
    fn added(&self, number: usize) -> Option<Taken<'_>> {
        let handle = share_of(self.seed.take()?.at()).ok()?;
        let mut slot = Slot::new(handle, true);
        let mut table = self.more.get_or_init(Table::new);
        loop {
            for place in (0..WIDTH).map(|at| &table.slots[(number - 1 + at) % WIDTH]) {
                match place.set(slot) {
                    Ok(slot) => return Some(Taken(slot)),
                    Err(back) => slot = back,
                }
            }
            table = table.next.get_or_init(Table::new);
        }
    }

    /// Makes a call that changes the value. All shares are closed before it, so that the
    /// library does not copy what it changes.
    pub fn change<T>(&mut self, call: impl FnOnce(*mut ffi::Handle) -> T) -> T {
        self.more = Once::new();
        self.seed = Slot::new(Handle::empty(), false);
        self.state = next_state();
        let result = call(self.first.handle.at());
        if let Ok(seed) = share_of(self.first.handle.at()) {
            self.seed = Slot::new(seed, false);
        }
        result
    }
}

/// The number of this thread, which is given if it has none. Numbers come again, so that
/// values do not get more shares with each thread that ever ran.
fn number_of_thread() -> usize {
    static GIVEN: AtomicUsize = AtomicUsize::new(0);
    if NUMBER.get() == 0 {
        NUMBER.set(1 + GIVEN.fetch_add(1, Ordering::Relaxed) % WIDTH);
    }
    NUMBER.get()
}

/// A number that this process has not had. The first is 1.
fn next_state() -> u64 {
    static LAST: AtomicU64 = AtomicU64::new(0);
    1 + LAST.fetch_add(1, Ordering::Relaxed)
}

impl Table {
    fn new() -> Table {
        Table {
            slots: array::from_fn(|_| Once::new()),
            next: Once::new(),
        }
    }
}

/// A handle of each of two values. Two threads that take the same two, one of them the other
/// way round, do not wait for each other.
pub(super) fn take_both<'a, 'b>(one: &'a Shared, other: &'b Shared) -> (Taken<'a>, Taken<'b>) {
    let is_first = (one as *const Shared as usize) < (other as *const Shared as usize);
    if is_first {
        let taken = one.take();
        (taken, other.take())
    } else {
        let taken = other.take();
        (one.take(), taken)
    }
}

#[cfg(test)]
mod tests;
