//! The newer release of a small crate: what each added impl is, stands beside it. Its JSON is kept beside it: see ../make.py.
pub struct Packet(Vec<u8>);
pub struct Pool(Vec<u8>, *const u8); // not Send and not Sync any more
pub struct Fresh(u8);
pub trait Encode {}
pub trait Decode {}
pub trait Closed: private::Seal {}
mod private { pub trait Seal {} pub struct Inner; }

impl Clone for Packet { fn clone(&self) -> Self { Packet(Vec::new()) } }
impl From<Vec<u8>> for Packet { fn from(v: Vec<u8>) -> Self { Packet(v) } }
impl Encode for u8 {}
impl<T> Encode for Vec<T> {} // its clause is gone: compatible
impl Default for Packet { fn default() -> Self { Packet(Vec::new()) } } // compatible
impl Encode for u16 {} // compatible
impl Clone for Fresh { fn clone(&self) -> Self { Fresh(0) } } // compatible: a new struct
impl<T> Decode for T {} // compatible: the trait is new
impl PartialEq<&str> for Packet { fn eq(&self, _: &&str) -> bool { true } } // compatible
impl<'a, T: ?Sized> PartialEq<&'a mut T> for Packet where Packet: PartialEq<T> { fn eq(&self, _: &&'a mut T) -> bool { true } } // breaking
impl<T> Encode for Box<T> {} // breaking
impl<T> From<Option<T>> for Packet { fn from(_: Option<T>) -> Self { Packet(Vec::new()) } } // compatible: `Option<T>` is met first
impl<T> Closed for T where T: private::Seal {} // sealed
impl private::Seal for u8 {} // private
unsafe impl Send for Packet {} // compatible: it changes nothing
