//! What is read of headers and of fields: unsafe and foreign fns, more than sixteen parameters, a last field that is an associated type. Its
//! JSON is kept beside it: see ../make.py.
#![allow(dead_code)]

pub trait Call {}
impl Call for unsafe fn(u8) {}
impl<T> Call for extern "C" fn(T) -> u8 {}
impl Call for unsafe extern "C" fn() {}

pub trait Zone { type Offset: Clone; }
pub struct Utc;
impl Zone for Utc { type Offset = u8; }
pub struct Date<Z: Zone> { day: u32, off: Z::Offset }
impl<Z: Zone> Clone for Date<Z> { fn clone(&self) -> Self { loop {} } }
// One that may be unsized, one of a parameter that may be.
pub trait Open { type Part: ?Sized; }
pub struct Ended<Z: Open> { day: u32, part: Z::Part }
impl Open for u8 { type Part = str; }
impl Open for u16 { type Part = u8; }
pub struct Inner<Z: Zone>(u8, Date<Z>);
pub struct Listed<I: IntoIterator>(I::IntoIter);

// Reasons: structs that name each other, of which one has an `Rc`; a field that holds an associated type, beside one of the type that has it.
pub struct Near { next: Option<Box<Far>>, own: u8 }
pub struct Far { all: Vec<Near>, count: std::rc::Rc<u8> }
pub trait Backend { type Conn; }
pub struct Local;
impl Backend for Local { type Conn = std::rc::Rc<u8>; }
pub struct Cache<B: Backend> { backend: B, conns: Vec<B::Conn> }
pub struct Here { next: Option<Box<There>>, count: std::rc::Rc<u8> }
pub struct There { all: Vec<Here>, own: u8 }
