"""Random texts that work the search hard: supertraits that multiply, cliques with queries for all, wide clauses, growing types."""
from __future__ import annotations

import random

Lines = list[str]
WRAPS = ["[#]", "(#,)", "&#", "*const #", "V<#>", "W<#>", "(#, #)", "Box<#>"]
SMALL = 1024


def wrapped(form: str, inside: str) -> str:
    return form.replace("#", inside)


def size_of(lines: Lines) -> int:
    return sum(len(line) + 1 for line in lines)


# --------------------------------------------------------------------------------------------- supertraits and where-clauses that multiply


def multiplying_traits(rng: random.Random, branches: int, levels: int) -> Lines:
    """Traits of which each has the one before so often among its supertraits, each time with another argument: the last of so many
    levels has `branches` to the power of `levels` paths down."""
    wraps = rng.sample(WRAPS[:6], branches)
    lines = ["trait M0<T>"]
    for level in range(1, levels + 1):
        bounds = " + ".join(f"M{level - 1}<{wrapped(wrap, 'T')}>" for wrap in wraps)
        lines.append(f"trait M{level}<T>: {bounds}")
    return lines


def leaf_bound(rng: random.Random, lines: Lines) -> str:
    """A supertrait at the bottom of those traits, down a random path."""
    inside = "u8"
    for line in reversed(lines[1:]):
        bound = rng.choice(line.split(": ", 1)[1].split(" + "))
        inside = bound[bound.index("<") + 1 : -1].replace("T", inside)
    return f"M0<{inside}>"


def multiplying_queries(rng: random.Random, lines: Lines, top: int) -> Lines:
    leaf = leaf_bound(rng, lines)
    whole = f"M{top}<u8>"
    return rng.sample(
        [
            f"prove in c0 dyn {whole}: {whole}",
            f"prove in c0 dyn {whole}: {leaf}",
            f"prove in c0 dyn {whole} + Safe: M0<bool>",
            f"refute in c0 dyn {whole}: {leaf}",
            f"prove in c0 dyn {whole}: Unsize<dyn {leaf}>",
            f"prove in c0 bool: Unsize<dyn {whole}>",
            f"prove in c0 <T> T: {leaf} where T: {whole}",
            f"prove in c0 <T> T: M0<bool> where T: {whole}, T: M{top}<bool>",
            f"prove in c0 <T> dyn M{top}<T>: M{top}<T> where T: {whole}",
            "supers in c0",
        ],
        rng.choice([1, 1, 2, 3]),
    )


def multiplying_text(rng: random.Random) -> Lines:
    """Supertraits whose arguments multiply, with queries for a `dyn` and for a parameter: some thousand of them at most."""
    branches = rng.choice([2, 2, 3])
    most = 12 if branches == 2 else 8
    top = min(rng.randrange(2, most), rng.randrange(2, most))
    traits = multiplying_traits(rng, branches, top)
    lines = ["crate c0", "auto trait Safe", "struct V<T>", "struct W<T>"] + traits
    if rng.random() < 0.5:
        lines.append(f"impl<T> M{top}<T> for W<T>" if rng.random() < 0.5 else f"impl<T> M0<T> for W<T> where T: M{top}<u8>")
    return lines + multiplying_queries(rng, traits, top)


def endless_text(rng: random.Random) -> Lines:
    """The same with far more supertraits than any list can hold."""
    branches = rng.choice([2, 3])
    top = rng.choice([20, 24, 32, 40])
    traits = multiplying_traits(rng, branches, top)
    lines = ["crate c0", "auto trait Safe", "struct V<T>", "struct W<T>"] + traits
    if rng.random() < 0.3:
        lines.append(f"impl<T> M{top}<T> for W<T>")
    return lines + multiplying_queries(rng, traits, top)


# ----------------------------------------------------------------------------------------------------------- cliques with queries for all


def others(rng: random.Random, count: int, own: int, density: float) -> list[int]:
    return [it for it in range(count) if it != own and rng.random() < density] or [(own + 1) % count]


def asked_clique_text(rng: random.Random) -> Lines:
    """Impls that need each other, all of them or some, with a query for each, for some of them two."""
    count = rng.choice([3, 4, 5, 6, 6, 7, 8, 8, 9, 10, 10, 12, 16, 24])
    density = rng.choice([1.0, 1.0, 0.7, 0.4])
    auto = "auto " if rng.random() < 0.4 else ""
    lines = ["crate c0", f"{auto}trait Safe"] + [f"struct S{k}" for k in range(count)]
    for own in range(count):
        clauses = ", ".join(f"S{it}: Safe" for it in others(rng, count, own, density))
        lines.append(f"impl Safe for S{own} where {clauses}")
    order = list(range(count))
    rng.shuffle(order)
    word = rng.choice(["prove", "prove", "refute"])
    lines += [f"{word} in c0 S{it}: Safe" for it in order]
    if rng.random() < 0.3:
        lines += [f"prove in c0 S{it}: Safe" for it in order[: count // 2]]
    return lines


def stepping_text(rng: random.Random) -> Lines:
    """Impls with a few clauses each, on numbers that are multiples of their own, with queries for many."""
    count = rng.choice([8, 10, 12, 15, 20, 20, 30, 40, 60])
    width = rng.choice([2, 3, 5])
    auto = "auto " if rng.random() < 0.4 else ""
    lines = ["crate c0", f"{auto}trait Safe"] + [f"struct S{k}" for k in range(count)]
    for own in range(count):
        needed = sorted({(own * step + step) % count for step in range(1, width + 1)})
        lines.append(f"impl Safe for S{own} where " + ", ".join(f"S{it}: Safe" for it in needed))
    return lines + [f"prove in c0 S{it}: Safe" for it in rng.sample(range(count), rng.choice([3, count // 2, count]))]


# ----------------------------------------------------------------------------------------------------------------------- wide clauses


def wide_impl(rng: random.Random, trait: str, subject: str, traits: int, larger: list[str]) -> str:
    """An impl with many where-clauses, each of another trait, for a larger type or for the type itself."""
    clauses = []
    for _ in range(rng.choice([10, 20, 30, 64])):
        clauses.append(f"{rng.choice(larger)}: R{rng.randrange(traits)}")
    return f"impl<T> {trait} for {subject} where " + ", ".join(clauses)


def wide_clauses_text(rng: random.Random) -> Lines:
    """Impls with 10 to 64 where-clauses, all of which lead back or to larger types."""
    traits = rng.choice([1, 1, 2, 3, 5])
    larger = rng.choice([["T"], ["V<T>"], ["V<T>", "W<T>"], ["V<V<T>>", "T"], ["V<W<T>>", "W<V<T>>"]])
    lines = ["crate c0", "struct V<T>", "struct W<T>"] + [f"trait R{k}" for k in range(traits)]
    for k in range(traits):
        subject = "T" if larger == ["T"] and rng.random() < 0.7 else "V<T>"
        lines.append(wide_impl(rng, f"R{k}", subject, traits, larger))
        if subject == "V<T>" and rng.random() < 0.6:
            lines.append(wide_impl(rng, f"R{k}", "W<T>", traits, larger))
    subjects = ["u8", "V<u8>", "V<V<u8>>", "V<W<bool>>", "V<?x>"]
    for _ in range(rng.choice([1, 3, 8, 15])):
        subject = rng.choice(subjects + [f"V<[u8; {rng.randrange(20)}]>"])
        lines.append(f"{rng.choice(['prove', 'prove', 'refute'])} in c0 {subject}: R{rng.randrange(traits)}")
    return lines


# ----------------------------------------------------------------------------------------------------------------------- growing types


def growing_premises(rng: random.Random, count: int) -> list[str]:
    grown = [f"{outer}<{inner}<T>>" for outer in "ABC" for inner in "ABC"]
    return rng.sample(grown, count)


def growing_impl_lines(rng: random.Random, count: int) -> tuple[Lines, str]:
    """Impls whose two or three clauses are about types with one level more; and what begins it."""
    lines = ["trait Show", "trait Back"]
    for head in rng.sample("ABC", rng.choice([1, 1, 2, 3])):
        clauses = [f"{it}: Show" for it in growing_premises(rng, count)]
        if rng.random() < 0.25:
            clauses[-1] = f"{head}<T>: Back"
        lines.append(f"impl<T> Show for {head}<T> where " + ", ".join(clauses))
    if any("Back" in it for it in lines[2:]):
        lines.append("impl<T> Back for A<T> where T: Show")
    return lines, "A<u8>"


def growing_field_lines(rng: random.Random, count: int) -> tuple[Lines, str]:
    """A struct around two or three larger types of its own, under an auto trait."""
    fields = ", ".join(f"G<{it}>" for it in ["A<T>", "B<T>", "G<T>", "C<T>"][:count])
    return ["auto trait Show", f"struct G<T>({fields})"], "G<u8>"


def growing_argument_lines(rng: random.Random, count: int) -> tuple[Lines, str]:
    """A trait whose arguments grow one at a time."""
    names = "XYZ"[:count]
    clauses = [", ".join(f"A<{it}>" if it == grown else it for it in names) for grown in names]
    written = ", ".join(names)
    lines = [f"trait Go<{written}>", "trait Show"]
    lines.append(f"impl<{written}> Go<{written}> for u8 where " + ", ".join(f"u8: Go<{it}>" for it in clauses))
    lines.append("impl Show for u8 where u8: Go<" + ", ".join(["u8"] * count) + ">")
    return lines, "u8"


def growing_premises_text(rng: random.Random) -> Lines:
    """Types that grow by two or three premises. In most texts the goal that needs them fails for another cause, so that the rules have an answer."""
    count = rng.choice([2, 2, 3])
    maker = rng.choice([growing_impl_lines, growing_impl_lines, growing_field_lines, growing_argument_lines])
    made, subject = maker(rng, count)
    lines = ["crate c0", "struct A<T>", "struct B<T>", "struct C<T>", "struct Q", "trait Nope"] + made
    if rng.random() < 0.8:
        after = ", Q: Nope" if rng.random() < 0.8 else ""
        lines.append(f"impl Show for Q where {subject}: Show{after}")
        subject = "Q"
    if rng.random() < 0.5:
        lines += ["trait Mine", f"impl<T> Mine for T where {subject}: Show", "impl Mine for u8"]
    return lines + [f"prove in c0 {subject}: Show", f"refute in c0 {subject}: Show"]


# ------------------------------------------------------------------------------------------------------------------- costly queries


def costly_growth(rng: random.Random) -> str:
    """A larger type: with many types on a level, with lifetimes, or with a binder."""
    width = rng.choice([2, 4, 12])
    item = rng.choice(["[T; #]", "&'a [T; #]", "B<[T; #]>", "*const [T; #]"])
    wide = "(" + ", ".join(item.replace("#", str(k)) for k in range(width)) + ")"
    return rng.choice([wide, f"A<{wide}>", "for<'z> fn(&'z T) -> &'z T", "(T, B<T>, &'a T)"])


def costly_text(rng: random.Random) -> Lines:
    """Types that grow by two or three premises, where each query costs much: by its type, the impls with its head or the
    where-clauses next to it."""
    premises = [costly_growth(rng)] + rng.sample(["A<T>", "B<T>", "C<T>"], rng.choice([1, 2]))
    lines = ["crate c0", "trait Show", "struct A<T>", "struct B<T>", "struct C<T>", "struct D<X, Y>"]
    lines.append("impl<'a, T> Show for A<T> where " + ", ".join(f"A<{it}>: Show" for it in premises))
    if rng.random() < 0.4:
        header = rng.choice(["A<D<[u8; #], T>>", "A<A<A<A<A<D<[u8; #], T>>>>>>", "A<&D<T, [u8; #]>>"])
        lines += [f"impl<T> Show for {header.replace('#', str(k))}" for k in range(rng.choice([5, 20, 100]))]
    subject = rng.choice(["A<u8>", "A<U>", "A<?x>"])
    wheres = ", ".join(f"{rng.choice(['A<[U; #]>', 'U', '(U, [u8; #])'])}: Show".replace("#", str(k)) for k in range(rng.choice([1, 5, 20, 64])))
    params, where = ("<U> ", f" where {wheres}") if subject == "A<U>" else ("", "")
    return lines + [f"prove in c0 {params}{subject}: Show{where}"] + ["refute in c0 A<u8>: Show"] * (rng.random() < 0.3)
