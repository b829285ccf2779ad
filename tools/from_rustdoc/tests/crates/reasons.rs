//! Types with reasons: what each question of test_reasons.py is told stands there. Its JSON is kept beside it: see ../make.py.
use std::cell::Cell;
use std::rc::Rc;
pub struct Inner { pub count: Rc<u8>, pub ptr: *const u8 }
pub struct Outer<T> { pub first: u8, pub inner: Vec<Inner>, pub t: T }
pub enum Either<T> { Left(u8), Right { outer: Outer<T> } }
pub struct Cycle { pub next: Option<Box<Cycle>>, pub count: Rc<u8> }
pub trait Show {}
impl Show for u8 {}
impl<T: Show> Show for Vec<T> {}
impl<T> Show for Option<T> where T: Show {}
pub struct All<I>(pub I);
impl<I: Iterator> Show for All<I> where I::Item: Clone {}
pub struct NoClone;
pub trait Need: Show {}
impl<T: Need> Show for Cell<T> {}
pub struct Fun<F>(pub F);
impl<F: FnOnce(u8) -> bool> Show for Fun<F> {}
