//! One item for each encoding of the text, and for each loss. Its JSON is kept beside it: see ../make.py.
#![feature(negative_impls)]
#![allow(dead_code)]

use std::fmt::Debug;

// Fields of all sorts: private ones, enums, unions, references, pointers, fn pointers, floats.
pub struct Plain<'a, T: ?Sized>(u8, &'a mut str, T);
pub enum Tree<T> { Leaf(T), Node { all: Vec<Tree<T>> }, Empty }
pub union Bits { a: f32, b: [u8; 4] }
pub struct Hook(Option<Box<dyn Fn(u32) -> u32 + Send>>, unsafe extern "C" fn(u8), *const u8);
pub struct Raw<T>(*const T);
unsafe impl<T: Send> Send for Raw<T> {}
pub struct NeverSent(u8);
impl !Send for NeverSent {}

// Structs that name each other: one of them is cut.
pub struct A(Option<Box<B>>, *mut u8);
pub struct B(Vec<A>);
// A field that the text cannot say: cut, its auto traits by the fields that it can say.
pub struct Peeked<I: Iterator>(I, Option<I::Item>);

// Traits: supertraits, generic ones, associated types with their equations.
pub trait Shape: Clone { type Unit; const SIDES: usize; }
pub trait Bytes: Iterator<Item = u8> {}
pub trait Same: PartialEq<Self> {}
pub trait Draw { fn draw(&self); }

impl<T: Clone> Clone for Tree<T> { fn clone(&self) -> Self { loop {} } }
impl<T> Default for Tree<T> { fn default() -> Self { Tree::Empty } }
// An equation is said, by a companion of the trait.
impl<I> From<I> for Tree<u8> where I: Iterator<Item = u8> { fn from(_: I) -> Self { Tree::Empty } }
// A projection in a header gets a fresh parameter.
impl<S: Shape> PartialEq<S::Unit> for Raw<S> { fn eq(&self, _: &S::Unit) -> bool { true } }
// A bound of an associated type is not said.
impl<S: Shape> Debug for Raw<S> where S::Unit: Debug { fn fmt(&self, _: &mut std::fmt::Formatter<'_>) -> std::fmt::Result { Ok(()) } }
// A parameter that stands in no header.
impl<I, T> Debug for Peeked<I> where I: Iterator<Item = T>, T: Debug { fn fmt(&self, _: &mut std::fmt::Formatter<'_>) -> std::fmt::Result { Ok(()) } }
impl<I: Iterator> Iterator for Peeked<I> { type Item = I::Item; fn next(&mut self) -> Option<I::Item> { None } }
// Const parameters, and a const expression.
pub struct Grid<const W: usize, const H: usize>([[u8; W]; H]);
impl<const W: usize> Default for Grid<W, 2> { fn default() -> Self { loop {} } }
impl PartialEq<[u8; { 2 + 2 }]> for A { fn eq(&self, _: &[u8; 4]) -> bool { true } }
// Dyn types, fn pointers, long tuples.
impl Draw for dyn Debug + Send { fn draw(&self) {} }
impl Draw for Box<dyn Iterator<Item = u8>> { fn draw(&self) {} }
impl Draw for fn(u8, u8) -> bool { fn draw(&self) {} }
impl Draw for unsafe fn(u8) { fn draw(&self) {} } impl Draw for extern "system" fn(u8) { fn draw(&self) {} }
impl<T: Draw> Draw for (T, u8, u8, u8, u8, u8, u8, u8, u8, u8, u8, u8, T) { fn draw(&self) {} }
impl<C0, C1, C2, C3, C4, C5, C6, C7, C8, C9, C10, C11, C12, C13, C14, C15, C16> Draw
    for Tree<(C0, C1, C2, C3, C4, C5, C6, C7, C8, C9, C10, C11, C12, C13, C14, C15, C16)> { fn draw(&self) {} }

/// What a translator gets wrong if it says too much or too little: each comes with the form that it must not take.
pub mod counterexamples {
    // C1, C2: supertraits stay, also `Sized`.
    pub trait Sup {}
    pub trait Sub: Sup {}
    pub trait Small: Sized {}
    pub trait Show {}
    pub struct OfSub(Box<dyn Sub>);
    impl Show for dyn Sub {}
    // C3: fields stay, also where they mention a parameter.
    pub struct Tail<T: ?Sized>(u8, T);
    // C4: each impl has its own line, also where clauses are dropped.
    pub trait First { type Of; }
    pub trait Second { type Of; }
    pub trait Local {}
    pub struct One<T>(T);
    pub struct Two<T>(T);
    impl<T: First> Local for One<T> where T::Of: Show {}
    impl<T: Second> Local for Two<T> where T::Of: Show {}
    // C5: no impl of an auto trait where the crate has none.
    pub struct Free(u8);
    // C6: a clause is not turned into its supertrait.
    pub trait Rest {}
    impl<T: Sub> Rest for One<T> {}
    // C7: a header that can be said is not widened.
    impl Sup for u8 {}
    impl<T: Sup> Sub for One<T> {}
    impl<T: Sup> Sup for One<T> {}
}
