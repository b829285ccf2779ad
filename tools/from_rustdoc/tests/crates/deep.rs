//! Types that are deep by a number in them, as `typenum` and `sized-chunks` have them, and a trait for a type of `ab`. Its JSON is kept
//! beside it: see ../make.py.
#![allow(dead_code)]

use std::rc::Rc;

pub trait Length<A> { type Array; }
impl<A> Length<A> for ab::Sb { type Array = (); }
pub struct Twice<N>(N);
pub struct Pair<A, B> { first: B, second: B, own: A }
impl<A, N: Length<A>> Length<A> for Twice<N> { type Array = Pair<A, N::Array>; }

// Twenty-seven of them: more steps than there were, and deeper than what is told apart where a part of the crates is chosen.
pub type Three<N> = Twice<Twice<Twice<N>>>;
pub type Nine<N> = Three<Three<Three<N>>>;
pub struct Chunk<A>(<Nine<Nine<Nine<ab::Sb>>> as Length<A>>::Array);
pub struct Node<A> { keys: Chunk<A>, children: Chunk<Option<Rc<Node<A>>>> }
pub struct Pool<A>(Rc<Vec<Node<A>>>);
