//! Inference contexts: what a type checker tells of the types in a function, and what follows for them.

use crate::calls::{Asker, Operation};
use crate::error::Error;
use crate::workspace::{ascii, Reading, Session};
use celtisdarts_sys as sys;
use std::fmt;
use std::sync::{Arc, Mutex, MutexGuard, PoisonError};

/// A type, a constant or a lifetime of an inference context.
///
/// It is a number, and means something to the context that gave it. Another context refuses it where it has no term of that number, and else
/// takes its own. So does the same context behind a rollback that took the number. That two numbers differ does not say that the types do:
/// [`Infer::can_eq`] says whether these can be equal.
#[derive(Clone, Copy, Debug, PartialEq, Eq, PartialOrd, Ord, Hash)]
pub struct Term(u32);

/// A bound that was registered in an inference context. As a [`Term`] it is a number, which another context may have for another bound.
#[derive(Clone, Copy, Debug, PartialEq, Eq, PartialOrd, Ord, Hash)]
pub struct ObligationId(u32);

/// How a selection ends.
#[derive(Clone, Copy, Debug, PartialEq, Eq, Hash)]
pub enum Selected {
    /// Each obligation is done: at each solution that is left it has a proof by what the crate sees.
    AllDone,
    /// Some obligation is pending, and another selection fixes nothing new.
    Pending,
    /// This obligation has no solution with all that was asked beside it. Those behind it were not looked at.
    Refused(ObligationId),
}

/// How an obligation stands.
#[derive(Clone, Copy, Debug, PartialEq, Eq, Hash)]
pub enum Standing {
    /// It has a proof by what the crate sees, at each solution that is left.
    Done,
    /// It is pending: values that are not known yet may decide it, or it was not selected yet.
    Ambiguous,
    /// It is pending: the search reached a limit, as rustc's `recursion_limit`.
    TooDeep,
    /// It had no solution when it was selected.
    Refused,
}

/// Variables, equations between types, and bounds that have to hold together, asked of one crate.
///
/// A *solution* gives each variable a value, so that all that were made equal are equal, and all that was registered has a proof. No solution is
/// lost. What is done has a proof at each solution that is left. [`Error::NoSolution`], a refused obligation and `false` of [`Infer::can_eq`]
/// say that there is no solution. This is proved of the library's calls that succeed (`docs/PROMISES.md` of the repository).
///
/// In the body of a generic function its type parameters are [`Infer::param`], and its bounds are assumed by [`Infer::assume`]. What is done
/// has a proof under what was assumed before it was registered. While something was registered under assumptions, or with parameters in it,
/// nothing is promised of what says that there is no solution.
///
/// It owns what it needs, as a [`Session`] does: a reading of the text, in which the workspace's sessions find again what it found. It may move
/// to another thread. After an error it can be called again, after [`Error::Memory`] and [`Error::Full`] too, and nothing that was asked is lost: it
/// is as it was before the call, but that a selection keeps what it found.
///
/// rustc: `ObligationCtxt` with its `InferCtxt`. rust-analyzer: `InferenceTable`.
///
/// What is `v` in `let v = Str.into(); v.push(1u8);`?
///
/// ```
/// use celtisdarts::{Depth, Selected, Workspace};
///
/// let text = "crate a\n\
///             struct Str\n\
///             struct V<T>(*const T)\n\
///             trait Into<T>\n\
///             impl<T> Into<V<T>> for Str\n\
///             trait Push<T>\n\
///             impl<T> Push<T> for V<T>\n";
/// let mut infer = Workspace::parse(text, Depth::default())?.session("a")?.infer()?;
/// let (v, from, item) = (infer.fresh_ty()?, infer.ty("Str", &[])?, infer.ty("u8", &[])?);
/// infer.register("Into", &[from, v])?;
/// infer.register("Push", &[v, item])?;
/// assert_eq!(infer.select_where_possible()?, Selected::AllDone);
/// let value = infer.resolve(v)?;
/// assert_eq!(infer.display(value)?, "V<u8>");
/// # Ok::<(), celtisdarts::Error>(())
/// ```
pub struct Infer {
    /// It counts as long as the context has a reading.
    session: Session,
    /// The reading, until the context ends. A call on another thread reaches it here, so that it stays where no thread can be started.
    reading: Arc<Mutex<Option<Reading>>>,
    /// How many snapshots are open.
    open: usize,
}

/// The struct of `core` around the type that a projection is about.
const WRAPPER: &str = "::W";

fn locked(reading: &Mutex<Option<Reading>>) -> MutexGuard<'_, Option<Reading>> {
    // (What it guards is whole at any time.)
    reading.lock().unwrap_or_else(PoisonError::into_inner)
}

fn numbers(terms: &[Term]) -> Vec<u32> {
    terms.iter().map(|it| it.0).collect()
}

impl Session {
    /// Begins an inference context of the crate, without variables and bounds. There may be many at once, each with a reading of the text.
    ///
    /// rustc: `InferCtxtBuilder::build`, with `TypingMode::PostAnalysis`. rust-analyzer: `InferenceTable::new`.
    ///
    /// # Errors
    ///
    /// [`Error::Memory`] or [`Error::Full`].
    pub fn infer(&self) -> Result<Infer, Error> {
        let (session, reading) = self.lend()?;
        Ok(Infer {
            session,
            reading: Arc::new(Mutex::new(Some(reading))),
            open: 0,
        })
    }
}

impl Infer {
    /// The session of the crate that it asks in.
    pub fn session(&self) -> &Session {
        &self.session
    }

    /// Makes a call of the library, on a stack that is large enough.
    fn call<T: Send + 'static>(
        &mut self,
        call: impl FnOnce(&mut Asker) -> Result<T, Error> + Send + 'static,
    ) -> Result<T, Error> {
        let reading = Arc::clone(&self.reading);
        self.session.workspace().depth().with_stack(move || {
            let mut reading = locked(&reading);
            call(&mut reading.as_mut().expect("the context has not ended").asker)
        })
    }

    fn operate(&mut self, asked: Operation) -> Result<u32, Error> {
        self.call(move |asker| asker.infer(&asked))
    }

    /// Does an operation that takes terms.
    fn of_terms(&mut self, operation: u32, terms: &[Term]) -> Result<u32, Error> {
        self.operate(Operation {
            operation,
            terms: numbers(terms),
            ..Operation::default()
        })
    }

    /// Does an operation that takes a name and terms.
    fn of_name(&mut self, operation: u32, name: &str, terms: &[Term]) -> Result<u32, Error> {
        self.operate(Operation {
            operation,
            name: name.into(),
            terms: numbers(terms),
            ..Operation::default()
        })
    }

    /// Does an operation that takes a number.
    fn of_number(&mut self, operation: u32, number: u64) -> Result<u32, Error> {
        self.operate(Operation {
            operation,
            number,
            ..Operation::default()
        })
    }

    /// A new type variable.
    ///
    /// rustc: `InferCtxt::next_ty_var`. rust-analyzer: `InferenceTable::next_ty_var`.
    ///
    /// # Errors
    ///
    /// [`Error::Memory`] or [`Error::Full`].
    pub fn fresh_ty(&mut self) -> Result<Term, Error> {
        self.of_terms(sys::INFER_FRESH_TYPE, &[]).map(Term)
    }

    /// A new constant variable.
    ///
    /// rustc: `InferCtxt::next_const_var`. rust-analyzer: `InferenceTable::next_const_var`.
    ///
    /// # Errors
    ///
    /// [`Error::Memory`] or [`Error::Full`].
    pub fn fresh_const(&mut self) -> Result<Term, Error> {
        self.of_terms(sys::INFER_FRESH_CONST, &[]).map(Term)
    }

    /// The type parameter of this number, as the `T` in the body of `fn f<T>(..)`: a type of which nothing is known but what is assumed. Equal
    /// numbers give equal types, and different numbers types that are never equal.
    ///
    /// rustc: `Ty::new_param`, or `Ty::new_placeholder` where it stands for any type.
    ///
    /// # Errors
    ///
    /// [`Error::Memory`] or [`Error::Full`].
    pub fn param(&mut self, number: u32) -> Result<Term, Error> {
        self.of_number(sys::INFER_PARAM, number.into()).map(Term)
    }

    /// The constant parameter of this number, as the `N` in the body of `fn f<const N: usize>(..)`. It is no type parameter's, whatever its
    /// number.
    ///
    /// rustc: `Const::new_param`, or `Const::new_placeholder`.
    ///
    /// # Errors
    ///
    /// [`Error::Memory`] or [`Error::Full`].
    pub fn const_param(&mut self, number: u32) -> Result<Term, Error> {
        self.of_number(sys::INFER_CONST_PARAM, number.into())
            .map(Term)
    }

    /// A struct that the crate sees, with its arguments in their order: lifetimes, types and constants. Or a type without parts, by its word:
    /// `bool`, `char`, `str`, `!` or that of an integer type.
    ///
    /// rustc: `Ty::new_adt`, and `tcx.types.u8` and its like.
    ///
    /// # Errors
    ///
    /// [`Error::NoSuchName`], [`Error::WrongTerms`] where these are not its arguments in number and kind, [`Error::NoSuchTerm`],
    /// [`Error::Memory`] or [`Error::Full`].
    pub fn ty(&mut self, name: &str, args: &[Term]) -> Result<Term, Error> {
        self.of_name(sys::INFER_TYPE, name, args).map(Term)
    }

    /// The constant of this value, as the length of an array.
    ///
    /// rustc: `Const::from_target_usize`.
    ///
    /// # Errors
    ///
    /// [`Error::Memory`] or [`Error::Full`].
    pub fn constant(&mut self, number: u64) -> Result<Term, Error> {
        self.of_number(sys::INFER_CONSTANT, number).map(Term)
    }

    /// The lifetime `'static`, for arguments that are lifetimes. Answers hold up to lifetimes, so there is no other.
    ///
    /// rustc: `tcx.lifetimes.re_erased`, which stands for all of them behind type checking.
    ///
    /// # Errors
    ///
    /// [`Error::Memory`] or [`Error::Full`].
    pub fn lifetime(&mut self) -> Result<Term, Error> {
        self.of_terms(sys::INFER_LIFETIME, &[]).map(Term)
    }

    /// The tuple of these types.
    ///
    /// rustc: `Ty::new_tup`.
    ///
    /// # Errors
    ///
    /// [`Error::NoSuchTerm`], [`Error::WrongTerms`] where one is no type, [`Error::Memory`] or [`Error::Full`].
    pub fn tuple(&mut self, items: &[Term]) -> Result<Term, Error> {
        self.of_terms(sys::INFER_TUPLE, items).map(Term)
    }

    /// The slice `[T]`.
    ///
    /// rustc: `Ty::new_slice`.
    ///
    /// # Errors
    ///
    /// Those of [`Infer::tuple`].
    pub fn slice(&mut self, item: Term) -> Result<Term, Error> {
        self.of_terms(sys::INFER_SLICE, &[item]).map(Term)
    }

    /// The array `[T; N]`.
    ///
    /// rustc: `Ty::new_array_with_const_len`.
    ///
    /// # Errors
    ///
    /// Those of [`Infer::tuple`], and [`Error::WrongTerms`] where the length is no constant.
    pub fn array(&mut self, item: Term, length: Term) -> Result<Term, Error> {
        self.of_terms(sys::INFER_ARRAY, &[item, length]).map(Term)
    }

    /// The reference `&T`.
    ///
    /// rustc: `Ty::new_imm_ref`.
    ///
    /// # Errors
    ///
    /// Those of [`Infer::tuple`].
    pub fn reference(&mut self, of: Term) -> Result<Term, Error> {
        self.of_terms(sys::INFER_REFERENCE, &[of]).map(Term)
    }

    /// The reference `&mut T`.
    ///
    /// rustc: `Ty::new_mut_ref`.
    ///
    /// # Errors
    ///
    /// Those of [`Infer::tuple`].
    pub fn reference_mut(&mut self, of: Term) -> Result<Term, Error> {
        self.of_terms(sys::INFER_REFERENCE_MUT, &[of]).map(Term)
    }

    /// The raw pointer `*const T`.
    ///
    /// rustc: `Ty::new_imm_ptr`.
    ///
    /// # Errors
    ///
    /// Those of [`Infer::tuple`].
    pub fn pointer(&mut self, of: Term) -> Result<Term, Error> {
        self.of_terms(sys::INFER_POINTER, &[of]).map(Term)
    }

    /// The raw pointer `*mut T`.
    ///
    /// rustc: `Ty::new_mut_ptr`.
    ///
    /// # Errors
    ///
    /// Those of [`Infer::tuple`].
    pub fn pointer_mut(&mut self, of: Term) -> Result<Term, Error> {
        self.of_terms(sys::INFER_POINTER_MUT, &[of]).map(Term)
    }

    /// The type `fn(A, B) -> C` of functions with these inputs and this output.
    ///
    /// rustc: `Ty::new_fn_ptr`.
    ///
    /// # Errors
    ///
    /// Those of [`Infer::tuple`].
    pub fn function(&mut self, inputs: &[Term], output: Term) -> Result<Term, Error> {
        let parts = [inputs, &[output]].concat();
        self.of_terms(sys::INFER_FUNCTION, &parts).map(Term)
    }

    /// Makes two types, two constants or two lifetimes equal. Variables in them get the values that this takes. No obligation is selected.
    ///
    /// rustc: `ObligationCtxt::eq`. rust-analyzer: `InferenceTable::unify`.
    ///
    /// # Errors
    ///
    /// [`Error::NoSolution`] where no solution of all that was asked makes them equal, [`Error::NoSuchTerm`], [`Error::Memory`] or
    /// [`Error::Full`]. Then nothing is equated.
    pub fn eq(&mut self, left: Term, right: Term) -> Result<(), Error> {
        self.of_terms(sys::INFER_EQ, &[left, right]).map(|_| ())
    }

    /// Whether two terms can be equal: `true` if the values that are known let them be equal, which obligations may still prevent, and `false`
    /// if no solution of all that was asked makes them equal. Nothing changes.
    ///
    /// rustc: `InferCtxt::can_eq`. rust-analyzer: `InferenceTable::could_unify`.
    ///
    /// # Errors
    ///
    /// [`Error::NoSuchTerm`], [`Error::Memory`] or [`Error::Full`].
    pub fn can_eq(&mut self, left: Term, right: Term) -> Result<bool, Error> {
        let given = self.of_terms(sys::INFER_CAN_EQ, &[left, right])?;
        Ok(given == 1)
    }

    /// Registers a bound: that these terms implement the trait, the self type first. `T: Less<U>` is `register("Less", &[t, u])`. It is not
    /// evaluated before [`Infer::select_where_possible`].
    ///
    /// rustc: `ObligationCtxt::register_obligation`. rust-analyzer: `InferenceTable::register_obligation`.
    ///
    /// # Errors
    ///
    /// [`Error::NoSuchName`] where the crate sees no such trait, [`Error::WrongTerms`] where these are not its arguments in number and kind,
    /// [`Error::NoSuchTerm`], [`Error::Memory`] or [`Error::Full`]. Then nothing is registered.
    pub fn register(&mut self, trait_name: &str, args: &[Term]) -> Result<ObligationId, Error> {
        let given = self.of_name(sys::INFER_REGISTER, trait_name, args)?;
        Ok(ObligationId(given))
    }

    /// Registers that a type of a trait is this one: `T: Stream<Item = U>` is `register_projection("Stream", &[t], "Item", u)`. It holds where the
    /// bound itself holds and the value is that of the impl or of what is assumed, so that a variable takes its value from there.
    ///
    /// rustc: `register_obligation` of a `ProjectionPredicate`. rust-analyzer: `AliasEq`.
    ///
    /// ```
    /// # use celtisdarts::{Depth, Selected, Workspace};
    /// # let text = "crate a\nstruct V<T>(T)\ntrait Stream { type Item; }\nimpl<T> Stream for V<T> { type Item = T; }\n";
    /// # let mut infer = Workspace::parse(text, Depth::default())?.session("a")?.infer()?;
    /// let byte = infer.ty("u8", &[])?;
    /// let list = infer.ty("V", &[byte])?;
    /// let item = infer.fresh_ty()?;
    /// infer.register_projection("Stream", &[list], "Item", item)?;
    /// assert_eq!(infer.select_where_possible()?, Selected::AllDone);
    /// let value = infer.resolve(item)?;
    /// assert_eq!(infer.display(value)?, "u8");
    /// # Ok::<(), celtisdarts::Error>(())
    /// ```
    ///
    /// # Errors
    ///
    /// Those of [`Infer::register`], and [`Error::NoSuchName`] where the trait has no such type. Then nothing is registered.
    pub fn register_projection(
        &mut self,
        trait_name: &str,
        args: &[Term],
        item: &str,
        value: Term,
    ) -> Result<ObligationId, Error> {
        let (companion, args) = self.projection(trait_name, args, item, value)?;
        self.register(&companion, &args)
    }

    /// Assumes a bound: that these terms implement the trait, the self type first. What is registered from now on has to hold under it and under
    /// the trait's supertraits, and may take values from it. What was registered before does not get it. A rollback takes it back.
    ///
    /// `Sized` is never implicit: for the body of `fn f<T>(..)` it is assumed of `T` too, where that is asked for.
    ///
    /// rustc: a clause in the `ParamEnv` of later obligations, elaborated. There too such clauses are preferred to impls.
    ///
    /// ```
    /// # use celtisdarts::{Depth, Selected, Workspace};
    /// # let text = "crate a\nstruct V<T>(T)\ntrait Show\ntrait Num: Show\nimpl<T> Show for V<T> where T: Show\n";
    /// # let mut infer = Workspace::parse(text, Depth::default())?.session("a")?.infer()?;
    /// // fn show_all<T: Num>(items: V<T>) { items.show() }
    /// let item = infer.param(0)?;
    /// infer.assume("Num", &[item])?;
    /// let items = infer.ty("V", &[item])?;
    /// infer.register("Show", &[items])?;
    /// assert_eq!(infer.select_where_possible()?, Selected::AllDone);
    /// assert_eq!(infer.display(items)?, "V<!0t>");
    /// # Ok::<(), celtisdarts::Error>(())
    /// ```
    ///
    /// # Errors
    ///
    /// Those of [`Infer::register`]. Then nothing is assumed.
    pub fn assume(&mut self, trait_name: &str, args: &[Term]) -> Result<(), Error> {
        self.of_name(sys::INFER_ASSUME, trait_name, args)
            .map(|_| ())
    }

    /// Assumes that these terms implement the trait, and that a type of it is this one: `T: Stream<Item = U>` is
    /// `assume_projection("Stream", &[t], "Item", u)`. Otherwise as [`Infer::assume`].
    ///
    /// rustc: a `ProjectionPredicate` in the `ParamEnv`, beside the bound.
    ///
    /// # Errors
    ///
    /// Those of [`Infer::register_projection`]. Then nothing is assumed.
    pub fn assume_projection(
        &mut self,
        trait_name: &str,
        args: &[Term],
        item: &str,
        value: Term,
    ) -> Result<(), Error> {
        let (companion, with_value) = self.projection(trait_name, args, item, value)?;
        self.start_snapshot()?;
        let assumed = self
            .assume(trait_name, args)
            .and_then(|()| self.assume(&companion, &with_value));
        match assumed {
            Ok(()) => self.commit().map(|_| ()),
            Err(error) => self.roll_back().and(Err(error)),
        }
    }

    /// The trait that says of a type of this trait what it is, with its arguments.
    fn projection(
        &mut self,
        trait_name: &str,
        args: &[Term],
        item: &str,
        value: Term,
    ) -> Result<(String, Vec<Term>), Error> {
        let value = self.ty(WRAPPER, &[value])?;
        let with_value = args.iter().copied().chain([value]).collect();
        Ok((format!("{trait_name}::{item}"), with_value))
    }

    /// Evaluates the obligations that are not done, in the order in which they were registered, until that fixes no more values. What an answer
    /// fixes stays, also where the obligation stays pending.
    ///
    /// One that is refused is refused again at each later call, which ends there: there is no solution any more, but behind a rollback.
    ///
    /// rustc: `ObligationCtxt::select_where_possible`. rust-analyzer: `InferenceTable::select_obligations_where_possible`.
    ///
    /// # Errors
    ///
    /// [`Error::Memory`] or [`Error::Full`].
    pub fn select_where_possible(&mut self) -> Result<Selected, Error> {
        let selected = self.select(0)?;
        Ok(selected.expect("a selection without a bound does not stop"))
    }

    /// Selects as [`Infer::select_where_possible`] does, and stops before the next evaluation once so many nested goals were started: a bound on
    /// the time that a call takes, as an editor needs between two keys. `None` is that it stopped. What was found stays, and another call goes
    /// on.
    ///
    /// An evaluation that was begun is not cut short, so more goals may be started. At least one obligation is evaluated if one is left: 0 is
    /// taken as 1. Another call looks at the pending obligations again. Those whose results are kept start no goals; a bound below what the
    /// others start gets no further.
    ///
    /// rustc has no such bound.
    ///
    /// ```
    /// # use celtisdarts::{Depth, Selected, Workspace};
    /// # let text = "crate a\ntrait Show\nimpl Show for u8\n";
    /// # let mut infer = Workspace::parse(text, Depth::default())?.session("a")?.infer()?;
    /// # let byte = infer.ty("u8", &[])?;
    /// # infer.register("Show", &[byte])?;
    /// let selected = loop {
    ///     if let Some(selected) = infer.select_within(1000)? {
    ///         break selected;
    ///     }
    ///     // Here the caller may end the loop.
    /// };
    /// assert_eq!(selected, Selected::AllDone);
    /// # Ok::<(), celtisdarts::Error>(())
    /// ```
    ///
    /// # Errors
    ///
    /// [`Error::Memory`] or [`Error::Full`].
    pub fn select_within(&mut self, nested_goals: u64) -> Result<Option<Selected>, Error> {
        self.select(nested_goals.max(1))
    }

    /// Selects with a bound, or at 0 without one.
    fn select(&mut self, nested_goals: u64) -> Result<Option<Selected>, Error> {
        Ok(match self.of_number(sys::INFER_SELECT, nested_goals)? {
            0 => Some(Selected::AllDone),
            1 => Some(Selected::Pending),
            2 => None,
            refused => Some(Selected::Refused(ObligationId(refused - 3))),
        })
    }

    /// How an obligation stands since it was last selected.
    ///
    /// rustc: whether `ObligationCtxt::pending_obligations` has it, and else whether a selection gave an error for it.
    ///
    /// # Errors
    ///
    /// [`Error::NoSuchTerm`] where the context has no such obligation, or [`Error::Memory`].
    pub fn standing(&mut self, obligation: ObligationId) -> Result<Standing, Error> {
        let given = self.of_number(sys::INFER_STANDING, u64::from(obligation.0))?;
        Ok(match given {
            0 => Standing::Done,
            1 => Standing::Ambiguous,
            2 => Standing::TooDeep,
            3 => Standing::Refused,
            _ => unreachable!("an obligation stands in no way {given}"),
        })
    }

    /// The term with the values that are known: each variable that has one is replaced by it. Each solution makes it an instance of what is
    /// given.
    ///
    /// rustc: `InferCtxt::resolve_vars_if_possible`. rust-analyzer: `InferenceTable::resolve_completely`, where open variables stay.
    ///
    /// # Errors
    ///
    /// [`Error::NoSuchTerm`], [`Error::Memory`] or [`Error::Full`].
    pub fn resolve(&mut self, term: Term) -> Result<Term, Error> {
        self.of_terms(sys::INFER_RESOLVE, &[term]).map(Term)
    }

    /// The term as text, as a type or a constant of the language of texts. A type variable without a value is written `?0t`, and a constant
    /// variable `?0c`, with numbers of their own; a type parameter `!0t`, and a constant parameter `!0c`. Lifetimes are not written, so the text
    /// of one is empty.
    ///
    /// rustc: how `Ty` is printed. rust-analyzer: `HirDisplay`.
    ///
    /// # Errors
    ///
    /// [`Error::NoSuchTerm`] or [`Error::Memory`].
    pub fn display(&mut self, term: Term) -> Result<String, Error> {
        self.call(move |asker| {
            let mut buffer = Vec::with_capacity(64);
            asker.infer_text(term.0, &mut buffer)?;
            Ok(ascii(&buffer).to_string())
        })
    }

    /// Opens a snapshot, inside those that are open.
    ///
    /// rustc: `InferCtxt::start_snapshot`. rust-analyzer: `InferenceTable::snapshot`.
    ///
    /// # Errors
    ///
    /// [`Error::Memory`]. Then none is opened.
    pub fn start_snapshot(&mut self) -> Result<(), Error> {
        self.of_terms(sys::INFER_SNAPSHOT, &[])?;
        self.open += 1;
        Ok(())
    }

    /// Ends the snapshot that was opened last, and keeps what was done since. Gives whether one was open.
    ///
    /// rustc: `InferCtxt::commit_from`.
    ///
    /// # Errors
    ///
    /// [`Error::Memory`]. Then it is still open.
    pub fn commit(&mut self) -> Result<bool, Error> {
        self.close(sys::INFER_COMMIT)
    }

    /// Ends the snapshot that was opened last, and makes the context as it was there: variables with their values, obligations and how they
    /// stand, and what is assumed. Terms and obligations that were given since have no numbers any more, and later ones get these. What searches
    /// found is kept. Gives whether one was open.
    ///
    /// rustc: `InferCtxt::rollback_to`. rust-analyzer: `InferenceTable::rollback_to`.
    ///
    /// # Errors
    ///
    /// [`Error::Memory`]. Then it is still open.
    pub fn roll_back(&mut self) -> Result<bool, Error> {
        self.close(sys::INFER_ROLL_BACK)
    }

    /// Ends a snapshot by that operation.
    fn close(&mut self, operation: u32) -> Result<bool, Error> {
        let was_open = self.of_terms(operation, &[])? == 1;
        self.open -= usize::from(was_open);
        Ok(was_open)
    }

    /// Does something in a snapshot, and rolls back: only what that returns is left. Terms and obligations in it have no numbers any more.
    ///
    /// What is done there may open snapshots of its own, which are rolled back too, and has to end no other.
    ///
    /// rustc: `InferCtxt::probe`. rust-analyzer: `InferenceTable::run_in_snapshot`.
    ///
    /// ```
    /// # use celtisdarts::{Depth, Selected, Workspace};
    /// # let text = "crate a\nstruct V<T>(T)\ntrait Show\nimpl Show for V<u8>\n";
    /// # let mut infer = Workspace::parse(text, Depth::default())?.session("a")?.infer()?;
    /// let item = infer.fresh_ty()?;
    /// let list = infer.ty("V", &[item])?;
    /// let selected = infer.probe(|infer| {
    ///     infer.register("Show", &[list])?;
    ///     infer.select_where_possible()
    /// })??;
    /// assert_eq!(selected, Selected::AllDone);
    /// let value = infer.resolve(item)?;
    /// assert_eq!(infer.display(value)?, "?0t");
    /// # Ok::<(), celtisdarts::Error>(())
    /// ```
    ///
    /// # Errors
    ///
    /// [`Error::Memory`], either before anything is done, or behind it. Then the snapshot is still open.
    pub fn probe<T>(&mut self, f: impl FnOnce(&mut Infer) -> T) -> Result<T, Error> {
        let before = self.open;
        self.start_snapshot()?;
        let answer = f(self);
        while self.open > before {
            self.roll_back()?;
        }
        Ok(answer)
    }
}

impl Drop for Infer {
    fn drop(&mut self) {
        if let Some(reading) = locked(&self.reading).take() {
            self.session.give_back(reading);
        }
    }
}

impl fmt::Debug for Infer {
    fn fmt(&self, f: &mut fmt::Formatter<'_>) -> fmt::Result {
        f.debug_struct("Infer")
            .field("crate_name", &self.session.crate_name())
            .finish_non_exhaustive()
    }
}
