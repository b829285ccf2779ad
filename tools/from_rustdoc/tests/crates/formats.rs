//! What is read of rustdoc's JSON, each field of it once: kept as rustdoc of several versions writes it. See ../make.py.
use std::fmt::Debug;

pub trait Shape<'a, T: ?Sized + 'a, const N: usize = 3, U = Self>: Clone where T: Debug + 'static, for<'b> &'b T: Copy {
    type Unit: Debug + ?Sized;
    type Lent<'x, Q: Clone> where Self: 'x;
    const SIDES: u8;
    const COLOURS: u8 = 3;
    fn draw(&self);
    fn redraw(&self) {}
}
pub unsafe trait Marker {}
pub trait Predicate<T>: for<'a> Fn(&'a T) -> bool {}
pub struct View<'a, T: Clone>(pub &'a mut T, *const u8);
pub struct Unit;
pub struct Fields<T> { pub first: Option<T>, second: [u8; 4], third: (u8, T), fourth: Box<[T]>, fifth: fn(u8) -> T, sixth: Box<dyn Debug + Send> }
pub enum Choice<T> { None, One(T), Named { inner: Vec<T> } }
pub union Either { pub left: u8, right: u16 }
pub type Pair<A, B = A> = (A, B);
pub mod inner { pub struct Deep; mod private { pub struct Hidden; } pub use self::private::Hidden; pub use self::private::*; }
pub use inner::Deep as Renamed;
pub use std::vec::Vec as List;

unsafe impl<'a, T: Clone> Send for View<'a, T> {}
unsafe impl Marker for Unit {}
impl<T, const N: usize> From<[T; N]> for Choice<T> where T: Iterator<Item = u8> { fn from(_: [T; N]) -> Self { Choice::None } }
impl<I: Iterator> Clone for Fields<I> where I::Item: Copy, <I as Iterator>::Item: Debug { fn clone(&self) -> Self { loop {} } }
impl Iterator for Unit { type Item = &'static str; fn next(&mut self) -> Option<&'static str> { None } }
