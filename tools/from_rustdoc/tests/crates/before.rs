//! The older release of a small crate. Its JSON is kept beside it: see ../make.py.
pub struct Packet(Vec<u8>);
pub struct Pool(Vec<u8>);
pub struct Gone;
pub trait Encode {}
pub trait Closed: private::Seal {}
mod private { pub trait Seal {} pub struct Inner; }

impl Clone for Packet { fn clone(&self) -> Self { Packet(Vec::new()) } }
impl From<Vec<u8>> for Packet { fn from(v: Vec<u8>) -> Self { Packet(v) } }
impl Encode for u8 {}
impl Encode for Gone {}
impl<T: Clone> Encode for Vec<T> {}
