"""Method lookup by autoderef where the receiver's type is partly unknown. `_` is a type that is not known.

The steps are the receiver's type, what that dereferences to, and so on. Each step T is tried as T, &T and &mut T, and the first of these that
the method takes ends the lookup. What follows from a call is kept, so it may decide the goals of earlier ones. A goal that is undecided
counts.

    $ python3 bindings/python/inference.py
    v: Box<File>
        v.show(): step 1, &File: Show for File
        v.sum(): no method
    v: Box<File>, all done
    v: Vec<_>
        v.sum(): step 1, &[_]: Sum for [_], undecided
        v.push(u16): step 0, &mut Vec<u16>: Push<u16> for Vec<u16>
    v: Vec<u16>, all done
    v: &mut Vec<_>
        v.show(): step 2, &[_]: Show for [_], undecided
        v.push(File): step 0, &mut Vec<File>: Push<File> for Vec<File>
    v: &mut Vec<File>, all done
    v: Box<_>
        v.show(): step 1 has a type that is not known
    v: Box<_>, all done
"""
from __future__ import annotations

import re
from typing import Callable, Dict, Iterator, Sequence, Tuple

from celtisdarts import Infer, NoSolution, Refused, Standing, Term, Workspace

TEXT = """\
crate app
trait Deref { type Target; }
impl<'a, T> Deref for &'a T { type Target = T; }
impl<'a, T> Deref for &'a mut T { type Target = T; }
impl<T> Deref for Box<T> { type Target = T; }
struct Vec<T>(*const T)
impl<T> Deref for Vec<T> { type Target = [T]; }
trait Push<T>
impl<T> Push<T> for Vec<T>
struct File
trait Show
impl Show for File
impl<T> Show for [T] where T: Show
trait Sum
impl Sum for [u8]
impl Sum for [u16]
"""

# The methods: their traits, and what they take, made of the type that has the trait. Their arguments are those of the trait.
METHODS: Dict[str, Tuple[str, Callable[[Infer, Term], Term]]] = {
    "show": ("Show", Infer.reference),
    "sum": ("Sum", Infer.reference),
    "push": ("Push", lambda context, own: context.reference(own, mutable=True)),
}
# Receivers, and the names of methods that are called, each with the types of its arguments.
RECEIVERS: Sequence[Tuple[Callable[[Infer], Term], Sequence[Sequence[str]]]] = [
    (lambda it: it.ty("Box", it.ty("File")), [["show"], ["sum"]]),
    (lambda it: it.ty("Vec", it.fresh_ty()), [["sum"], ["push", "u16"]]),
    (lambda it: it.reference(it.ty("Vec", it.fresh_ty()), mutable=True), [["show"], ["push", "File"]]),
    (lambda it: it.ty("Box", it.fresh_ty()), [["show"]]),
]


def shown(context: Infer, term: Term) -> str:
    return re.sub(r"\?\d+[tc]", "_", str(context.resolve(term)))


def steps(context: Infer, step: Term) -> Iterator[Term]:
    """The type, what it dereferences to, and so on, as far as impls of `Deref` say so."""
    while True:
        yield step
        context.start_snapshot()
        target = context.fresh_ty()
        goal = context.register_projection("Deref", step, item="Target", value=target)
        context.select_where_possible()
        if context.standing(goal) is not Standing.DONE:
            context.roll_back()
            return
        context.commit()
        step = context.resolve(target)


def take(context: Infer, taken: Term, name: str, *types: str) -> str:
    """Lets a method take the receiver and arguments, and says what has its trait. Raises NoSolution if it cannot take them."""
    of, makes = METHODS[name]
    own, args = context.fresh_ty(), [context.ty(it) for it in types]
    context.eq(taken, makes(context, own))
    goal = context.register(of, own, *args)
    if isinstance(context.select_where_possible(), Refused):
        raise NoSolution
    doubt = "" if context.standing(goal) is Standing.DONE else ", undecided"
    return f"{of}{'<' + ', '.join(types) + '>' if types else ''} for {shown(context, own)}{doubt}"


def look_up(context: Infer, receiver: Term, call: Sequence[str]) -> str:
    for number, step in enumerate(steps(context, receiver)):
        if shown(context, step) == "_":
            return f"step {number} has a type that is not known"
        for taken in (step, context.reference(step), context.reference(step, mutable=True)):
            try:
                with context.probe():
                    take(context, taken, *call)
            except NoSolution:
                continue
            found = take(context, taken, *call)
            return f"step {number}, {shown(context, taken)}: {found}"
    return "no method"


if __name__ == "__main__":
    session = Workspace(TEXT).session("app")
    for made, calls in RECEIVERS:
        with session.infer() as context:
            receiver = made(context)
            print(f"v: {shown(context, receiver)}")
            for name, *types in calls:
                print(f"    v.{name}({', '.join(types)}): {look_up(context, receiver, [name, *types])}")
            print(f"v: {shown(context, receiver)}, {context.select_where_possible()}")
