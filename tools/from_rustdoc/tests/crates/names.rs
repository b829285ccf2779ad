//! What a name of a question may stand for: own items with names of std, re-exports of `ab`, paths that are there and that are not. Its JSON is
//! kept beside it: see ../make.py.
#![allow(dead_code)]

// An own item goes before the prelude's. What no prelude has is asked back where an own item has its name.
pub struct Vec<T>(*const T);
pub struct Debug(*const u8);
pub struct Only(u8);
pub mod inner { pub struct Slot<T>(pub T); pub struct Twice; pub use crate::Only as Renamed; pub type Bytes = Slot<u8>; }
pub mod other { pub struct Twice; }
mod private { pub struct Hidden; }
pub use private::Hidden as Seen;
// Items of another crate, one by one, by a glob, and as the crate.
pub use ab::{Sb, Ta as Same};
pub mod all { pub use ab::*; }
pub extern crate ab as raw;
