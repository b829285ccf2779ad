//! Inference contexts: each operation, each error, rollbacks, bounds that are assumed, and contexts beside sessions and threads.

use celtisdarts::{
    Depth, Error, Infer, ObligationId, ProveAnswer, Selected, Session, Standing, Term, Workspace,
};
use std::thread;

const TEXT: &str = "\
crate base
trait Show
impl Show for u8
impl Show for u16
crate a uses base
struct Str
struct V<T>(*const T)
struct R<'a, T, const N>
trait Into<T>
impl<T> Into<V<T>> for Str
trait Push<T>
impl<T> Push<T> for V<T>
impl<T> Show for V<T> where T: Show
trait One
impl One for V<u8>
trait Len
impl Len for [u8; 3]
trait Loop
impl<T> Loop for T where V<T>: Loop
";

/// What generic functions ask for.
const GENERIC: &str = "\
crate a
struct Str
struct V<T>(*const T)
trait Eq
trait Ord: Eq
trait Other
trait Into<T>
impl<T> Eq for V<T> where T: Eq
impl<T, const N> Eq for [T; N] where T: Eq
impl<T> Into<V<T>> for Str where T: Ord
impl Eq for u8
impl Into<u16> for u8
trait Loop
impl<T> Loop for T where V<T>: Loop
";

/// A trait with a type, which an impl gives and generic functions ask for.
const STREAMS: &str = "\
crate a
struct V<T>(*const T)
struct Take<I>(I)
trait Show
impl Show for u8
trait Stream { type Item; }
impl<T> Stream for V<T> { type Item = T; }
impl<T> Stream for Take<V<T>> where V<T>: Stream<Item = T> { type Item = T; }
";

/// Its search goes down to the depth limit at whatever depth, by the largest frames that were found.
const DEEPEST: &str = include_str!("texts/deepest.txt");

fn workspace(text: &str) -> Workspace {
    Workspace::parse(text, Depth::default()).unwrap()
}

fn session() -> Session {
    workspace(TEXT).session("a").unwrap()
}

fn infer() -> Infer {
    session().infer().unwrap()
}

/// A type without arguments.
fn plain(infer: &mut Infer, name: &str) -> Term {
    infer.ty(name, &[]).unwrap()
}

/// The term with the values that are known, as text.
fn shown(infer: &mut Infer, term: Term) -> String {
    let resolved = infer.resolve(term).unwrap();
    infer.display(resolved).unwrap()
}

/// Registers a bound, and selects.
fn asks(infer: &mut Infer, name: &str, args: &[Term]) -> (ObligationId, Selected) {
    let obligation = infer.register(name, args).unwrap();
    (obligation, infer.select_where_possible().unwrap())
}

/// Registers a bound that decides a variable, and selects.
fn decides(infer: &mut Infer, variable: Term) -> Selected {
    let own = infer.ty("V", &[variable]).unwrap();
    asks(infer, "One", &[own]).1
}

/// A context for the body of a generic function.
fn generic() -> Infer {
    workspace(GENERIC).session("a").unwrap().infer().unwrap()
}

/// Whether a bound that is registered now is done. Nothing of it is left.
fn holds(infer: &mut Infer, name: &str, args: &[Term]) -> bool {
    let standing = infer.probe(|infer| {
        let (asked, selected) = asks(infer, name, args);
        let standing = infer.standing(asked).unwrap();
        assert_eq!(selected == Selected::AllDone, standing == Standing::Done);
        standing
    });
    standing == Ok(Standing::Done)
}

/// Infers the type of `v` in `let v = s.into(); v.push(1u8)`, where `s` is a `Str`.
fn infers(infer: &mut Infer) -> String {
    let (v, from, item) = (
        infer.fresh_ty().unwrap(),
        plain(infer, "Str"),
        plain(infer, "u8"),
    );
    let into = infer.register("Into", &[from, v]).unwrap();
    let push = infer.register("Push", &[v, item]).unwrap();
    assert_eq!(infer.select_where_possible(), Ok(Selected::AllDone));
    for obligation in [into, push] {
        assert_eq!(infer.standing(obligation), Ok(Standing::Done));
    }
    shown(infer, v)
}

#[test]
fn variables_have_no_values_at_first() {
    let mut infer = infer();
    for number in 0..3 {
        let (ty, constant) = (infer.fresh_ty().unwrap(), infer.fresh_const().unwrap());
        assert_eq!(shown(&mut infer, ty), format!("?{number}t"));
        assert_eq!(shown(&mut infer, constant), format!("?{number}c"));
    }
}

#[test]
fn terms_are_written_as_types_and_constants() -> Result<(), Error> {
    let mut infer = infer();
    let infer = &mut infer;
    let (byte, three, lifetime) = (infer.ty("u8", &[])?, infer.constant(3)?, infer.lifetime()?);
    let never = infer.ty("!", &[])?;
    let terms = [
        (byte, "u8"),
        (never, "!"),
        (infer.ty("str", &[])?, "str"),
        (three, "3"),
        (lifetime, ""),
        (infer.constant(u64::MAX)?, "18446744073709551615"),
        (infer.ty("Str", &[])?, "Str"),
        (infer.ty("V", &[byte])?, "V<u8>"),
        (infer.ty("R", &[lifetime, byte, three])?, "R<u8, 3>"),
        (infer.ty("Box", &[byte])?, "Box<u8>"),
        (infer.tuple(&[])?, "()"),
        (infer.tuple(&[byte])?, "(u8,)"),
        (infer.tuple(&[byte, never])?, "(u8, !)"),
        (infer.slice(byte)?, "[u8]"),
        (infer.array(byte, three)?, "[u8; 3]"),
        (infer.reference(byte)?, "&u8"),
        (infer.reference_mut(byte)?, "&mut u8"),
        (infer.pointer(byte)?, "*const u8"),
        (infer.pointer_mut(byte)?, "*mut u8"),
        (infer.function(&[], byte)?, "fn() -> u8"),
        (infer.function(&[byte, never], byte)?, "fn(u8, !) -> u8"),
    ];
    for (term, wanted) in terms {
        assert_eq!(infer.display(term)?, wanted);
        assert_eq!(shown(infer, term), wanted);
    }
    Ok(())
}

#[test]
fn long_terms_are_longer_than_the_first_buffer() {
    let mut infer = infer();
    let byte = plain(&mut infer, "u8");
    let long = infer.tuple(&[byte; 500]).unwrap();
    let wanted = format!("({})", ["u8"; 500].join(", "));
    assert_eq!(infer.display(long), Ok(wanted));
}

#[test]
fn equations_give_values() {
    let mut infer = infer();
    let (t, n) = (infer.fresh_ty().unwrap(), infer.fresh_const().unwrap());
    let (byte, three) = (plain(&mut infer, "u8"), infer.constant(3).unwrap());
    let (open, closed) = (
        infer.array(t, n).unwrap(),
        infer.array(byte, three).unwrap(),
    );
    assert_eq!(infer.can_eq(open, closed), Ok(true));
    assert_eq!(shown(&mut infer, open), "[?0t; ?0c]");
    assert_eq!(infer.eq(open, closed), Ok(()));
    assert_eq!(shown(&mut infer, open), "[u8; 3]");
    let short = plain(&mut infer, "u16");
    assert_eq!(infer.can_eq(t, short), Ok(false));
    assert_eq!(infer.can_eq(t, byte), Ok(true));
    let lifetime = infer.lifetime().unwrap();
    assert_eq!(infer.eq(lifetime, lifetime), Ok(()));
}

#[test]
fn bounds_that_hold_together_give_values() {
    let mut infer = infer();
    assert_eq!(infers(&mut infer), "V<u8>");
    assert_eq!(infers(&mut infer), "V<u8>");
}

#[test]
fn an_impl_decides_an_arrays_length() {
    let mut infer = infer();
    let (t, n) = (infer.fresh_ty().unwrap(), infer.fresh_const().unwrap());
    let array = infer.array(t, n).unwrap();
    let (length, selected) = asks(&mut infer, "Len", &[array]);
    assert_eq!(selected, Selected::AllDone);
    assert_eq!(infer.standing(length), Ok(Standing::Done));
    assert_eq!(shown(&mut infer, array), "[u8; 3]");
}

#[test]
fn a_selection_says_how_obligations_stand() {
    let mut infer = infer();
    assert_eq!(infer.select_where_possible(), Ok(Selected::AllDone));
    let it = infer.fresh_ty().unwrap();
    let first = infer.register("Show", &[it]).unwrap();
    assert_eq!(infer.standing(first), Ok(Standing::Ambiguous));
    assert_eq!(infer.select_where_possible(), Ok(Selected::Pending));
    assert_eq!(infer.standing(first), Ok(Standing::Ambiguous));
    let short = plain(&mut infer, "u16");
    infer.eq(it, short).unwrap();
    assert_eq!(infer.standing(first), Ok(Standing::Ambiguous));
    assert_eq!(infer.select_where_possible(), Ok(Selected::AllDone));
    assert_eq!(infer.standing(first), Ok(Standing::Done));
    let (second, selected) = asks(&mut infer, "One", &[short]);
    assert_eq!(selected, Selected::Refused(second));
    assert_eq!(infer.standing(second), Ok(Standing::Refused));
    assert_eq!(infer.standing(first), Ok(Standing::Done));
    assert_eq!(infer.select_where_possible(), Ok(Selected::Refused(second)));
}

#[test]
fn a_search_that_goes_on_and_on_is_too_deep() {
    let mut infer = infer();
    let byte = plain(&mut infer, "u8");
    let (deep, selected) = asks(&mut infer, "Loop", &[byte]);
    assert_eq!(selected, Selected::Pending);
    assert_eq!(infer.standing(deep), Ok(Standing::TooDeep));
}

#[test]
fn terms_without_a_solution_stay_as_they_were() {
    let mut infer = infer();
    let (t, u) = (infer.fresh_ty().unwrap(), infer.fresh_ty().unwrap());
    let (byte, text) = (plain(&mut infer, "u8"), plain(&mut infer, "str"));
    let (open, closed) = (
        infer.tuple(&[t, u, t]).unwrap(),
        infer.tuple(&[byte, byte, text]).unwrap(),
    );
    assert_eq!(infer.eq(open, closed), Err(Error::NoSolution));
    assert_eq!(shown(&mut infer, open), "(?0t, ?1t, ?0t)");
    let inside = infer.slice(t).unwrap();
    assert_eq!(infer.eq(t, inside), Err(Error::NoSolution));
    assert_eq!(infer.eq(t, u), Ok(()));
    assert_eq!(infer.eq(u, byte), Ok(()));
    assert_eq!(shown(&mut infer, open), "(u8, u8, u8)");
}

#[test]
fn unknown_terms_are_refused() {
    let (mut infer, mut other) = (infer(), infer());
    let byte = plain(&mut infer, "u8");
    plain(&mut other, "u16");
    let none = other.fresh_ty().unwrap();
    let error = Err(Error::NoSuchTerm);
    assert_eq!(infer.ty("V", &[none]), error);
    assert_eq!(infer.tuple(&[byte, none]), error);
    assert_eq!(infer.slice(none), error);
    assert_eq!(infer.function(&[none], byte), error);
    assert_eq!(infer.resolve(none), error);
    assert_eq!(infer.eq(byte, none), Err(Error::NoSuchTerm));
    assert_eq!(infer.can_eq(none, byte), Err(Error::NoSuchTerm));
    assert_eq!(infer.display(none), Err(Error::NoSuchTerm));
    assert_eq!(infer.register("Show", &[none]), Err(Error::NoSuchTerm));
    // A term of another context is taken for the own one of its number.
    let own = plain(&mut infer, "bool");
    assert_eq!(own, none);
    assert_eq!(infer.display(none).unwrap(), "bool");
}

#[test]
fn unknown_obligations_are_refused() {
    let (mut infer, mut other) = (infer(), infer());
    let byte = plain(&mut other, "u8");
    let obligation = other.register("Show", &[byte]).unwrap();
    assert_eq!(infer.standing(obligation), Err(Error::NoSuchTerm));
}

#[test]
fn unknown_names_are_refused() {
    let mut infer = workspace(TEXT).session("base").unwrap().infer().unwrap();
    let byte = plain(&mut infer, "u8");
    for name in ["W", "V", "Show", "", "u8 ", "dyn Show", "\u{e9}"] {
        assert_eq!(infer.ty(name, &[]), Err(Error::NoSuchName), "{name}");
    }
    for name in ["W", "Push", "u8", "", "Show ", "Box"] {
        let registered = infer.register(name, &[byte, byte]);
        assert_eq!(registered, Err(Error::NoSuchName), "{name}");
    }
    assert_eq!(infer.select_where_possible(), Ok(Selected::AllDone));
}

#[test]
fn wrong_terms_are_refused() {
    let mut infer = infer();
    let (byte, three) = (plain(&mut infer, "u8"), infer.constant(3).unwrap());
    let lifetime = infer.lifetime().unwrap();
    let error = Err(Error::WrongTerms);
    assert_eq!(infer.ty("V", &[]), error);
    assert_eq!(infer.ty("V", &[byte, byte]), error);
    assert_eq!(infer.ty("V", &[three]), error);
    assert_eq!(infer.ty("R", &[byte, lifetime, three]), error);
    assert_eq!(infer.ty("u8", &[byte]), error);
    assert_eq!(infer.tuple(&[three]), error);
    assert_eq!(infer.slice(lifetime), error);
    assert_eq!(infer.array(byte, byte), error);
    assert_eq!(infer.array(three, three), error);
    assert_eq!(infer.reference(three), error);
    assert_eq!(infer.function(&[byte], three), error);
    for args in [&[][..], &[byte], &[three, byte], &[byte, byte, byte]] {
        assert_eq!(infer.register("Push", args), Err(Error::WrongTerms));
    }
    assert_eq!(infer.select_where_possible(), Ok(Selected::AllDone));
}

#[test]
fn errors_say_what_is_wrong() {
    let said = [
        (
            Error::NoSuchTerm,
            "the context has no such term or obligation",
        ),
        (Error::NoSolution, "no solution makes the terms equal"),
        (
            Error::NoSuchName,
            "the crate sees no struct or trait of that name",
        ),
        (
            Error::WrongTerms,
            "other terms are taken: more, fewer, or of other kinds",
        ),
    ];
    for (error, wanted) in said {
        assert_eq!(error.to_string(), wanted);
    }
}

#[test]
fn a_rollback_restores_values_obligations_and_numbers() {
    let mut infer = infer();
    assert_eq!(infer.roll_back(), Ok(false));
    assert_eq!(infer.commit(), Ok(false));
    let it = infer.fresh_ty().unwrap();
    let show = infer.register("Show", &[it]).unwrap();
    assert_eq!(infer.select_where_possible(), Ok(Selected::Pending));

    infer.start_snapshot().unwrap();
    let text = plain(&mut infer, "Str");
    infer.eq(it, text).unwrap();
    let (one, selected) = asks(&mut infer, "One", &[it]);
    assert_eq!(selected, Selected::Refused(show));
    assert_eq!(infer.roll_back(), Ok(true));

    assert_eq!(shown(&mut infer, it), "?0t");
    assert_eq!(infer.standing(show), Ok(Standing::Ambiguous));
    assert_eq!(infer.standing(one), Err(Error::NoSuchTerm));
    let byte = plain(&mut infer, "u8");
    assert_ne!(byte, it);
    infer.eq(it, byte).unwrap();
    assert_eq!(infer.select_where_possible(), Ok(Selected::AllDone));
    assert_eq!(infer.roll_back(), Ok(false));
}

#[test]
fn a_commit_keeps_what_was_done() {
    let mut infer = infer();
    let (t, u) = (infer.fresh_ty().unwrap(), infer.fresh_ty().unwrap());
    let byte = plain(&mut infer, "u8");
    infer.start_snapshot().unwrap();
    infer.eq(t, byte).unwrap();
    infer.start_snapshot().unwrap();
    infer.eq(u, byte).unwrap();
    assert_eq!(infer.commit(), Ok(true));
    assert_eq!(
        (shown(&mut infer, t), shown(&mut infer, u)),
        ("u8".into(), "u8".into())
    );
    // What was committed inside a snapshot is rolled back with that.
    assert_eq!(infer.roll_back(), Ok(true));
    assert_eq!(
        (shown(&mut infer, t), shown(&mut infer, u)),
        ("?0t".into(), "?1t".into())
    );
    assert_eq!(infer.commit(), Ok(false));
}

#[test]
fn a_probe_leaves_nothing() {
    let mut infer = infer();
    let it = infer.fresh_ty().unwrap();
    let one = |infer: &mut Infer| decides(infer, it);
    assert_eq!(infer.probe(one), Ok(Selected::AllDone));
    assert_eq!(
        infer.probe(|infer| infer.probe(one)),
        Ok(Ok(Selected::AllDone))
    );
    let opens_more = |infer: &mut Infer| {
        infer.start_snapshot().unwrap();
        infers(infer)
    };
    assert_eq!(infer.probe(opens_more), Ok("V<u8>".into()));
    assert_eq!(shown(&mut infer, it), "?0t");
    assert_eq!(infer.roll_back(), Ok(false));
    assert_eq!(infer.select_where_possible(), Ok(Selected::AllDone));
    infer.start_snapshot().unwrap();
    assert_eq!(infer.probe(one), Ok(Selected::AllDone));
    assert_eq!(infer.commit(), Ok(true));
}

#[test]
fn parameters_are_written_by_their_numbers() -> Result<(), Error> {
    let mut infer = generic();
    let infer = &mut infer;
    let (t, n) = (infer.param(0)?, infer.const_param(0)?);
    let last = infer.param(u32::MAX)?;
    let terms = [
        (t, "!0t"),
        (n, "!0c"),
        (infer.param(1)?, "!1t"),
        (last, "!4294967295t"),
        (infer.const_param(u32::MAX)?, "!4294967295c"),
        (infer.ty("V", &[t])?, "V<!0t>"),
        (infer.array(t, n)?, "[!0t; !0c]"),
        (infer.tuple(&[t, last])?, "(!0t, !4294967295t)"),
    ];
    for (term, wanted) in terms {
        assert_eq!(infer.display(term)?, wanted);
        assert_eq!(shown(infer, term), wanted);
    }
    assert_eq!(infer.slice(n), Err(Error::WrongTerms));
    assert_eq!(infer.array(t, t), Err(Error::WrongTerms));
    Ok(())
}

#[test]
fn a_parameter_is_equal_to_itself_alone() -> Result<(), Error> {
    let mut infer = generic();
    let (t, again, other) = (infer.param(3)?, infer.param(3)?, infer.param(4)?);
    let (n, m) = (infer.const_param(3)?, infer.const_param(4)?);
    assert_eq!(infer.can_eq(t, again), Ok(true));
    assert_eq!(infer.eq(t, again), Ok(()));
    let (byte, three) = (infer.ty("u8", &[])?, infer.constant(3)?);
    for (left, right) in [(t, other), (t, byte), (n, m), (n, three)] {
        assert_eq!(infer.can_eq(left, right), Ok(false));
        assert_eq!(infer.eq(left, right), Err(Error::NoSolution));
    }
    let (own, v) = (infer.ty("V", &[t])?, infer.fresh_ty()?);
    infer.eq(v, own)?;
    assert_eq!(shown(&mut infer, v), "V<!3t>");
    Ok(())
}

#[test]
fn what_is_assumed_holds_with_its_supertraits() -> Result<(), Error> {
    let mut infer = generic();
    let infer = &mut infer;
    let (t, other) = (infer.param(0)?, infer.param(1)?);
    infer.assume("Ord", &[t])?;
    let (list, other_list) = (infer.ty("V", &[t])?, infer.ty("V", &[other])?);
    let n = infer.const_param(0)?;
    let array = infer.array(list, n)?;
    for (name, term, wanted) in [
        ("Ord", t, true),
        ("Eq", t, true),
        ("Eq", list, true),
        ("Eq", array, true),
        ("Other", t, false),
        ("Ord", list, false),
        ("Ord", other, false),
        ("Eq", other, false),
        ("Eq", other_list, false),
    ] {
        let found = holds(infer, name, &[term]);
        assert_eq!(found, wanted, "{}: {name}", infer.display(term)?);
    }
    // No built-in rule gives a parameter `Sized`. Those of tuples are as ever.
    assert!(!holds(infer, "Sized", &[other]));
    infer.assume("Copy", &[other])?;
    let pair = infer.tuple(&[other, other])?;
    for (name, term) in [("Sized", other), ("Clone", other), ("Copy", pair)] {
        assert!(holds(infer, name, &[term]), "{name}");
    }
    Ok(())
}

#[test]
fn assumptions_and_impls_give_values() -> Result<(), Error> {
    let mut infer = generic();
    let (t, from) = (infer.param(0)?, infer.ty("Str", &[])?);
    let (v, item, into) = (infer.fresh_ty()?, infer.fresh_ty()?, infer.fresh_ty()?);
    let byte = infer.ty("u8", &[])?;
    infer.assume("Ord", &[t])?;
    infer.assume("Into", &[t, byte])?;
    infer.register("Into", &[from, v])?;
    let list = infer.ty("V", &[item])?;
    infer.eq(v, list)?;
    infer.eq(item, t)?;
    infer.register("Eq", &[v])?;
    infer.register("Into", &[t, into])?;
    assert_eq!(infer.select_where_possible(), Ok(Selected::AllDone));
    assert_eq!(shown(&mut infer, v), "V<!0t>");
    assert_eq!(shown(&mut infer, into), "u8");
    Ok(())
}

#[test]
fn an_impl_gives_a_value_with_a_parameter() -> Result<(), Error> {
    let mut infer = infer();
    let (t, from, v) = (infer.param(0)?, infer.ty("Str", &[])?, infer.fresh_ty()?);
    infer.assume("Show", &[t])?;
    infer.register("Into", &[from, v])?;
    infer.register("Push", &[v, t])?;
    infer.register("Show", &[v])?;
    assert_eq!(infer.select_where_possible(), Ok(Selected::AllDone));
    assert_eq!(shown(&mut infer, v), "V<!0t>");
    Ok(())
}

#[test]
fn a_projection_gives_its_value() -> Result<(), Error> {
    let mut infer = workspace(STREAMS).session("a")?.infer()?;
    let (byte, item, other) = (infer.ty("u8", &[])?, infer.fresh_ty()?, infer.fresh_ty()?);
    let list = infer.ty("V", &[other])?;
    let taken = infer.ty("Take", &[list])?;
    infer.register_projection("Stream", &[taken], "Item", item)?;
    infer.register("Show", &[item])?;
    infer.eq(other, byte)?;
    assert_eq!(infer.select_where_possible(), Ok(Selected::AllDone));
    assert_eq!(shown(&mut infer, item), "u8");
    let text = infer.ty("str", &[])?;
    let wrong = infer.register_projection("Stream", &[list], "Item", text)?;
    assert_eq!(infer.select_where_possible(), Ok(Selected::Refused(wrong)));
    Ok(())
}

#[test]
fn an_assumed_projection_gives_its_value() -> Result<(), Error> {
    let mut infer = workspace(STREAMS).session("a")?.infer()?;
    let (t, u, item) = (infer.param(0)?, infer.param(1)?, infer.fresh_ty()?);
    infer.assume_projection("Stream", &[t], "Item", u)?;
    infer.register("Stream", &[t])?;
    infer.register_projection("Stream", &[t], "Item", item)?;
    assert_eq!(infer.select_where_possible(), Ok(Selected::AllDone));
    assert_eq!(shown(&mut infer, item), "!1t");
    Ok(())
}

#[test]
fn projections_that_are_refused_leave_nothing() -> Result<(), Error> {
    let mut infer = workspace(STREAMS).session("a")?.infer()?;
    let (t, length) = (infer.param(0)?, infer.constant(3)?);
    for (name, item) in [("Stream", "Thing"), ("Show", "Item"), ("Stream", "")] {
        assert_eq!(
            infer.register_projection(name, &[t], item, t),
            Err(Error::NoSuchName)
        );
        assert_eq!(
            infer.assume_projection(name, &[t], item, t),
            Err(Error::NoSuchName)
        );
    }
    assert_eq!(
        infer.assume_projection("Stream", &[t], "Item", length),
        Err(Error::WrongTerms)
    );
    assert_eq!(infer.roll_back(), Ok(false));
    assert!(!holds(&mut infer, "Stream", &[t]));
    Ok(())
}

#[test]
fn what_was_registered_before_is_not_done_by_an_assumption() -> Result<(), Error> {
    let mut infer = generic();
    let (t, byte) = (infer.param(0)?, infer.ty("u8", &[])?);
    let first = infer.register("Eq", &[byte])?;
    let before = infer.register("Eq", &[t])?;
    infer.assume("Eq", &[t])?;
    infer.select_where_possible()?;
    assert_eq!(infer.standing(first), Ok(Standing::Done));
    assert_ne!(infer.standing(before), Ok(Standing::Done));
    Ok(())
}

#[test]
fn a_rollback_takes_assumptions_back() -> Result<(), Error> {
    let mut infer = generic();
    let (t, u) = (infer.param(0)?, infer.param(1)?);
    let stands = |infer: &mut Infer| {
        [("Eq", t), ("Ord", t), ("Eq", u)].map(|it| holds(infer, it.0, &[it.1]))
    };
    infer.assume("Eq", &[t])?;
    infer.start_snapshot()?;
    infer.assume("Ord", &[t])?;
    infer.start_snapshot()?;
    infer.assume("Eq", &[u])?;
    assert_eq!(stands(&mut infer), [true, true, true]);
    assert_eq!(infer.roll_back(), Ok(true));
    assert_eq!(stands(&mut infer), [true, true, false]);
    infer.start_snapshot()?;
    infer.assume("Eq", &[u])?;
    assert_eq!(infer.commit(), Ok(true));
    assert_eq!(stands(&mut infer), [true, true, true]);
    // What was committed inside a snapshot is rolled back with that.
    assert_eq!(infer.roll_back(), Ok(true));
    assert_eq!(stands(&mut infer), [true, false, false]);
    assert_eq!(infer.probe(|infer| infer.assume("Eq", &[u])), Ok(Ok(())));
    assert_eq!(stands(&mut infer), [true, false, false]);
    Ok(())
}

#[test]
fn a_context_begins_without_assumptions() -> Result<(), Error> {
    let session = workspace(GENERIC).session("a")?;
    for number in 0..3 {
        let mut infer = session.infer()?;
        let t = infer.param(number)?;
        assert!(!holds(&mut infer, "Eq", &[t]));
        infer.assume("Ord", &[t])?;
        assert!(holds(&mut infer, "Eq", &[t]));
        assert_eq!(session.prove("u8: Eq"), Ok(ProveAnswer::Yes(vec![])));
    }
    Ok(())
}

#[test]
fn assumptions_that_are_no_bounds_are_refused() -> Result<(), Error> {
    let mut infer = generic();
    let (t, n, v) = (infer.param(0)?, infer.const_param(0)?, infer.fresh_ty()?);
    let gone = infer.probe(|infer| infer.param(1))??;
    for (name, args, error) in [
        ("Eq", &[][..], Error::WrongTerms),
        ("Eq", &[t, t], Error::WrongTerms),
        ("Eq", &[n], Error::WrongTerms),
        ("Into", &[t], Error::WrongTerms),
        ("Into", &[t, n], Error::WrongTerms),
        ("Show", &[t], Error::NoSuchName),
        ("V", &[t], Error::NoSuchName),
        ("", &[t], Error::NoSuchName),
        ("Eq", &[gone], Error::NoSuchTerm),
        ("Into", &[t, gone], Error::NoSuchTerm),
    ] {
        assert_eq!(infer.assume(name, args), Err(error), "{name} of {args:?}");
    }
    // Nothing was assumed.
    assert!(!holds(&mut infer, "Eq", &[t]));
    assert!(!holds(&mut infer, "Into", &[t, v]));
    Ok(())
}

/// Registers some twenty bounds, and one that has no solution if it is asked for. Gives them, and the terms whose values they decide.
fn registers_many(
    infer: &mut Infer,
    refused: bool,
) -> Result<(Vec<ObligationId>, Vec<Term>), Error> {
    let (text, byte) = (infer.ty("Str", &[])?, infer.ty("u8", &[])?);
    let (mut bounds, mut terms) = (Vec::new(), Vec::new());
    for _ in 0..4 {
        let (v, item, open) = (infer.fresh_ty()?, infer.fresh_ty()?, infer.fresh_ty()?);
        let mut list = infer.ty("V", &[item])?;
        terms.extend([v, item, open]);
        bounds.push(infer.register("Show", &[list])?);
        bounds.push(infer.register("Push", &[v, byte])?);
        bounds.push(infer.register("Into", &[text, v])?);
        bounds.push(infer.register("Show", &[open])?);
        bounds.push(infer.register("One", &[list])?);
        for _ in 0..5 {
            list = infer.ty("V", &[list])?;
        }
        bounds.push(infer.register("Show", &[list])?);
    }
    bounds.push(infer.register("Loop", &[byte])?);
    if refused {
        bounds.push(infer.register("One", &[text])?);
    }
    bounds.push(infer.register("Show", &[byte])?);
    Ok((bounds, terms))
}

/// How bounds stand, and the values of terms.
fn state(
    infer: &mut Infer,
    bounds: &[ObligationId],
    terms: &[Term],
) -> (Vec<Standing>, Vec<String>) {
    let standings = bounds.iter().map(|it| infer.standing(*it).unwrap());
    let standings = standings.collect();
    (
        standings,
        terms.iter().map(|it| shown(infer, *it)).collect(),
    )
}

#[test]
fn selections_that_stop_come_to_what_one_selection_does() -> Result<(), Error> {
    for refused in [false, true] {
        let mut whole = infer();
        let (bounds, terms) = registers_many(&mut whole, refused)?;
        let selected = whole.select_where_possible()?;
        let wanted = state(&mut whole, &bounds, &terms);
        assert_eq!(matches!(selected, Selected::Refused(_)), refused);
        for nested_goals in [0, 1, 2, 7, u64::MAX] {
            let mut infer = infer();
            assert_eq!(
                registers_many(&mut infer, refused)?,
                (bounds.clone(), terms.clone())
            );
            let mut stops = 0;
            let ended = loop {
                if let Some(ended) = infer.select_within(nested_goals)? {
                    break ended;
                }
                stops += 1;
                assert!(stops < 10_000, "a bound of {nested_goals} never ends");
            };
            assert_eq!(ended, selected, "{nested_goals}");
            // (What was looked at before the refusal depends on where it stopped.)
            assert!(refused || state(&mut infer, &bounds, &terms) == wanted);
            assert!(nested_goals > 1 || stops > 0);
            assert!(nested_goals < u64::MAX || stops == 0);
        }
    }
    Ok(())
}

#[test]
fn a_selection_that_stopped_is_rolled_back() -> Result<(), Error> {
    let mut infer = infer();
    let open = infer.fresh_ty()?;
    assert_eq!(infer.select_within(1), Ok(Some(Selected::AllDone)));
    infer.start_snapshot()?;
    let (bounds, terms) = registers_many(&mut infer, false)?;
    assert_eq!(infer.select_within(1), Ok(None));
    assert_eq!(infer.roll_back(), Ok(true));
    assert_eq!(infer.select_within(1), Ok(Some(Selected::AllDone)));
    assert_eq!(registers_many(&mut infer, false)?, (bounds, terms));
    assert_eq!(infer.select_where_possible(), Ok(Selected::Pending));
    assert_eq!(shown(&mut infer, open), "?0t");
    Ok(())
}

/// Makes calls that a generator draws, and compares what each rollback restores.
fn makes_calls(seed: u64) -> Result<(), Error> {
    let mut drawn = seed;
    let mut draw = |sides: usize| {
        drawn = drawn
            .wrapping_mul(6_364_136_223_846_793_005)
            .wrapping_add(1_442_695_040_888_963_407);
        (drawn >> 33) as usize % sides
    };
    let mut infer = generic();
    let mut terms = vec![
        infer.fresh_ty()?,
        infer.ty("u8", &[])?,
        infer.ty("Str", &[])?,
    ];
    let (mut bounds, mut saved) = (Vec::new(), Vec::new());
    for _ in 0..120 {
        let pair = [terms[draw(terms.len())], terms[draw(terms.len())]];
        let name = ["Eq", "Ord", "Other", "Copy", "Sized", "Into"][draw(6)];
        let args = if name == "Into" {
            &pair[..]
        } else {
            &pair[..1]
        };
        match draw(10) {
            0 => terms.push(infer.fresh_ty()?),
            1 => terms.push(infer.param(draw(3) as u32)?),
            2 => terms.push(infer.ty("V", &pair[..1])?),
            3 => terms.push(infer.slice(pair[0])?),
            4 => {
                let could_be = infer.can_eq(pair[0], pair[1])?;
                assert!(infer.eq(pair[0], pair[1]).is_err() || could_be);
            }
            5 => infer.assume(name, args)?,
            6 => bounds.push(infer.register(name, args)?),
            7 => drop(infer.select_within(draw(4) as u64)?),
            8 => {
                saved.push((
                    terms.clone(),
                    bounds.clone(),
                    state(&mut infer, &bounds, &terms),
                ));
                infer.start_snapshot()?;
            }
            _ => {
                assert_eq!(infer.roll_back()?, !saved.is_empty());
                if let Some(before) = saved.pop() {
                    (terms, bounds) = (before.0, before.1);
                    assert_eq!(state(&mut infer, &bounds, &terms), before.2);
                }
            }
        }
    }
    Ok(())
}

#[test]
fn rollbacks_restore_what_calls_in_any_order_did() {
    for seed in 1..=100 {
        assert_eq!(makes_calls(seed), Ok(()), "{seed}");
    }
}

#[test]
fn contexts_of_a_workspace_stand_beside_each_other() {
    let workspace = workspace(TEXT);
    let (a, base) = (
        workspace.session("a").unwrap(),
        workspace.session("base").unwrap(),
    );
    let mut contexts: Vec<Infer> = (0..4).map(|_| a.infer().unwrap()).collect();
    contexts.push(base.infer().unwrap());
    assert_eq!(contexts[4].session().crate_name(), "base");
    let made: Vec<(Term, Term)> = contexts
        .iter_mut()
        .map(|it| (it.fresh_ty().unwrap(), it.fresh_ty().unwrap()))
        .collect();
    let names = ["u8", "u16", "bool", "str", "char"];
    for ((infer, (it, _)), name) in contexts.iter_mut().zip(&made).zip(names) {
        let value = plain(infer, name);
        infer.eq(*it, value).unwrap();
    }
    for ((infer, (it, other)), name) in contexts.iter_mut().zip(&made).zip(names) {
        assert_eq!(shown(infer, *it), name);
        assert_eq!(shown(infer, *other), "?1t");
    }
    assert_eq!(contexts[4].ty("Str", &[]), Err(Error::NoSuchName));
    assert_eq!(infers(&mut contexts[0]), "V<u8>");
}

/// What a session says of some questions.
fn answers(session: &Session) -> Vec<ProveAnswer> {
    let questions = [
        "u8: Show",
        "bool: Show",
        "?x: Show",
        "Str: Into<?v>, ?v: Push<u8>",
        "V<V<u16>>: Show",
        "V<?x>: Push<?y>",
    ];
    let answers = questions.map(|it| session.prove(it).unwrap());
    answers.into()
}

#[test]
fn a_session_answers_beside_a_context_as_before() {
    let session = session();
    let before = answers(&session);
    let mut infer = session.infer().unwrap();
    let it = infer.fresh_ty().unwrap();
    assert_eq!(answers(&session), before);
    assert_eq!(decides(&mut infer, it), Selected::AllDone);
    assert_eq!(shown(&mut infer, it), "u8");
    assert_eq!(answers(&session), before);
    infer.start_snapshot().unwrap();
    assert_eq!(infers(&mut infer), "V<u8>");
    drop(infer);
    assert_eq!(answers(&session), before);
    let mut again = session.infer().unwrap();
    let fresh = again.fresh_ty().unwrap();
    assert_eq!(fresh, it);
    assert_eq!(shown(&mut again, fresh), "?0t");
    assert_eq!(infers(&mut again), "V<u8>");
    assert_eq!(answers(&session), before);
}

#[test]
fn a_context_outlives_its_session() {
    let mut infer = {
        let session = session();
        session.infer().unwrap()
    };
    assert_eq!(infers(&mut infer), "V<u8>");
    let again = infer.session().infer();
    assert_eq!(infers(&mut again.unwrap()), "V<u8>");
    let session = infer.session().workspace().session("a").unwrap();
    drop(infer);
    assert_eq!(session.prove("u8: Show"), Ok(ProveAnswer::Yes(vec![])));
}

#[test]
fn contexts_are_dropped_while_others_ask() {
    let workspace = workspace(TEXT);
    let before = answers(&workspace.session("a").unwrap());
    thread::scope(|scope| {
        for number in 0..8 {
            let session = workspace.session("a").unwrap();
            let (workspace, before) = (&workspace, &before);
            scope.spawn(move || {
                for _ in 0..20 {
                    let mut infer = session.infer().unwrap();
                    assert_eq!(infers(&mut infer), "V<u8>");
                    if number % 2 == 0 {
                        assert_eq!(&answers(&session), before);
                    } else {
                        drop(infer);
                        let other = workspace.session("base").unwrap();
                        assert_eq!(other.prove("u8: Show"), Ok(ProveAnswer::Yes(vec![])));
                    }
                }
            });
        }
    });
}

#[test]
fn a_context_moves_to_another_thread_and_back() {
    let mut infer = infer();
    let it = infer.fresh_ty().unwrap();
    for number in 0..4 {
        infer = thread::spawn(move || {
            assert_eq!(shown(&mut infer, it), "?0t");
            infer.start_snapshot().unwrap();
            let byte = plain(&mut infer, "u8");
            infer.eq(it, byte).unwrap();
            infer
        })
        .join()
        .unwrap();
        assert_eq!(shown(&mut infer, it), "u8", "{number}");
        assert_eq!(infer.roll_back(), Ok(true));
    }
}

#[test]
fn a_context_is_printed_by_its_crate() {
    assert_eq!(format!("{:?}", infer()), "Infer { crate_name: \"a\", .. }");
}

/// Infers to this depth, on a stack of so many bytes.
fn infers_the_deepest(depth: Depth, bytes: usize) {
    let infers = move || {
        let session = Workspace::parse(DEEPEST, depth).unwrap().session("a");
        let mut infer = session.unwrap().infer().unwrap();
        let own = plain(&mut infer, "E");
        let (deep, selected) = asks(&mut infer, "T", &[own]);
        assert_eq!(selected, Selected::Pending);
        assert_eq!(infer.standing(deep), Ok(Standing::TooDeep));
        assert_eq!(shown(&mut infer, own), "E");
    };
    let thread = thread::Builder::new().stack_size(bytes).spawn(infers);
    thread.unwrap().join().unwrap();
}

#[test]
fn a_stack_of_any_size_is_enough() {
    for bytes in [64 << 10, 512 << 10, 2 << 20] {
        for levels in [1, 8, 128, 255] {
            infers_the_deepest(Depth::deep(levels).unwrap(), bytes);
        }
    }
}
