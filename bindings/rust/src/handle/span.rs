//! The last answers of a thread. A lookup that one of them answers takes no handle, and
//! meets no other thread.

use std::cell::Cell;

use crate::ffi;
use crate::types::RawToken;

/// How many spans a thread keeps: of that many maps, if they were opened one after another.
const WIDTH: usize = 8;

thread_local! {
    static SPANS: [Span; WIDTH] = const { [const { Span::empty() }; WIDTH] };
}

/// The answer to a lookup, and the positions that have the same answer: as many as
/// `length`, from the one that was looked up.
#[repr(align(64))]
pub(super) struct Span {
    /// The map, see [`Shared::state`](super::shared::Shared::state). None has state 0.
    state: Cell<u64>,
    from: Cell<u64>,
    length: Cell<u64>,
    found: Cell<ffi::Found>,
    until: Cell<ffi::Position>,
}

/// A position as a number, which is greater for a later one.
#[inline]
fn number((line, column): (u32, u32)) -> u64 {
    u64::from(line) << 32 | u64::from(column)
}

impl Span {
    const fn empty() -> Span {
        Span {
            state: Cell::new(0),
            from: Cell::new(0),
            length: Cell::new(0),
            found: Cell::new(ffi::Found::NONE),
            until: Cell::new(ffi::Position { line: 0, column: 0 }),
        }
    }

    /// Calls a function with the span that this thread keeps for maps of this state.
    #[inline]
    pub fn with<T>(state: u64, call: impl FnOnce(&Span) -> T) -> T {
        SPANS.with(|spans| call(&spans[state as usize % WIDTH]))
    }

    /// Whether the answer of the span also answers this position in a map of this state.
    #[inline]
    pub fn has(&self, state: u64, position: (u32, u32)) -> bool {
        // One comparison of positions, since which of two is the later one can't be
        // predicted where they come in no order.
        let distance = number(position).wrapping_sub(self.from.get());
        self.state.get() == state && distance < self.length.get()
    }

    /// Begins at this position. The library is to be asked for the answer and the end.
    #[inline]
    pub fn begin(&self, state: u64, position: (u32, u32)) {
        self.state.set(state);
        self.from.set(number(position));
    }

    /// Where the library writes the answer.
    #[inline]
    pub fn found(&self) -> *mut ffi::Found {
        self.found.as_ptr()
    }

    /// Where the library writes the position that ends the span.
    #[inline]
    pub fn until(&self) -> *mut ffi::Position {
        self.until.as_ptr()
    }

    /// Ends where the library wrote, if there is an answer. The span of a range token is
    /// empty, since its column is that of one position alone.
    #[inline]
    pub fn end(&self, is_found: bool) {
        self.length
            .set(if is_found && !self.found.get().token.is_range {
                let until = self.until.get();
                number((until.line, until.column)) - self.from.get()
            } else {
                0
            });
    }

    #[inline]
    pub fn token(&self) -> RawToken {
        let token = self.found.get().token;
        // By fields: a copy of the whole struct copies its padding too.
        RawToken {
            dst_line: token.dst_line,
            dst_col: token.dst_col,
            src_line: token.src_line,
            src_col: token.src_col,
            src_id: token.src_id,
            name_id: token.name_id,
            is_range: token.is_range,
        }
    }
}
