//! A crate whose name has two letters, and what questions ask of it. Its JSON is kept beside it: see ../make.py.
#![allow(dead_code)]

use std::marker::PhantomData;
use std::rc::Rc;

pub struct Sb(pub u8);
pub trait Ta {}
impl Ta for Sb {}

// Bounds that name associated types, of structs too.
pub struct Pred<F: FnMut(u8) -> bool>(pub F);
pub struct Bytes<I: Iterator<Item = u8>>(pub I);
impl<F: FnMut(u8) -> bool> Ta for Pred<F> {}
impl<I: Iterator<Item = u8>> Iterator for Bytes<I> { type Item = I::Item; fn next(&mut self) -> Option<u8> { None } }

// `dyn` types with associated types: given, fixed by a supertrait, and in a field.
pub trait Numbers: Iterator<Item = u8> {}
impl Ta for dyn Iterator<Item = u8> {}
impl Ta for dyn Iterator<Item = u8> + Send {}
impl Ta for Box<dyn Fn(u8) -> u8> {}
pub struct Fixed<T: ?Sized>(PhantomData<T>);
impl<T: ?Sized + Iterator<Item = u8>> Ta for Fixed<T> {}
pub struct Held<F: ?Sized>(PhantomData<F>, *const u8);
unsafe impl<F: ?Sized + Fn(u8) -> u8> Send for Held<F> {}
pub struct OfDyn(Held<dyn Fn(u8) -> u8>);
pub struct OfOther(Held<dyn Fn(u8) -> u16>);

// Negative impls, of std and of this crate, and what they rule out.
pub struct Shared(Rc<u8>);
pub struct Pointed(*const u8);
pub struct Around(Pointed);
unsafe impl Sync for Pointed {}
pub struct Here<T>(T);
impl<T> Here<T> { pub fn get(self) -> T { self.0 } }

// An alias, and more parameters than a struct of the text may have.
pub type Kept<T> = Result<T, Sb>;
pub struct Wide<A, B, C, D, E, F, G, H, I, J, K, L, M, N, O, P, Q>(A, B, C, D, E, F, G, H, I, J, K, L, M, N, O, P, Q);
impl Ta for Wide<u8, u8, u8, u8, u8, u8, u8, u8, u8, u8, u8, u8, u8, u8, u8, u8, u16> {}
impl<A, B, C, D, E, F, G, H, I, J, K, L, M, N, O, P, Q> Clone for Wide<A, B, C, D, E, F, G, H, I, J, K, L, M, N, O, P, Q> { fn clone(&self) -> Self { loop {} } }

// Operators, of which std has an impl that only their own crate may have.
pub struct Bits(std::num::NonZero<u8>);
impl std::ops::BitOr<u8> for Bits { type Output = u8; fn bitor(self, other: u8) -> u8 { self.0.get() | other } }
impl std::ops::BitAnd<u8> for Bits { type Output = u8; fn bitand(self, other: u8) -> u8 { self.0.get() & other } }
