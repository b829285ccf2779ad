//! How deep a search goes, and the stack that this takes.

use crate::error::Error;
use crate::stack;

/// The greatest depth of [`Depth::new`].
const DEFAULT_DEPTH: u8 = 128;

/// The stack that a level of a search takes at most, and that which a call takes beside, in bytes.
const LEVEL: usize = 3 << 10;
const CALL: usize = 64 << 10;

/// How many levels a search may go down, as rustc's `recursion_limit`.
///
/// A level takes some 3 KiB of stack: 0.4 MiB at depth 128. A call runs on the caller's thread if so much is left there, as on each thread that
/// Rust starts, which has 2 MiB. Else it runs on another thread, with 8 MiB, of which each thread that needs it keeps one.
#[derive(Clone, Copy, Debug, PartialEq, Eq, PartialOrd, Ord, Hash)]
pub struct Depth(u8);

impl Depth {
    /// A depth from 1 to 128; none otherwise.
    pub const fn new(levels: u8) -> Option<Depth> {
        if levels <= DEFAULT_DEPTH {
            Depth::deep(levels)
        } else {
            None
        }
    }

    /// A depth from 1 to 255; none at 0.
    pub const fn deep(levels: u8) -> Option<Depth> {
        if levels == 0 {
            None
        } else {
            Some(Depth(levels))
        }
    }

    /// How many levels that are.
    pub const fn levels(self) -> u8 {
        self.0
    }

    /// Makes a call that searches to this depth, on a stack that is large enough. Where no thread can be started, the error is `Memory`.
    pub(crate) fn with_stack<T: Send + 'static>(
        self,
        call: impl FnOnce() -> Result<T, Error> + Send + 'static,
    ) -> Result<T, Error> {
        stack::with_stack(usize::from(self.0) * LEVEL + CALL, call).unwrap_or(Err(Error::Memory))
    }
}

impl Default for Depth {
    /// Depth 128, as rustc's `recursion_limit`.
    fn default() -> Depth {
        Depth(DEFAULT_DEPTH)
    }
}
