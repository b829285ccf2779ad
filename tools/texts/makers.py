"""Makers of the texts of one family each, of any size. The comment of each says what grows."""
from __future__ import annotations

from typing import Callable

Lines = list[str]
Maker = Callable[[int], Lines]
SHOW = ["crate base", "trait Show"]
# Items of a crate that a large base has.
ITEMS = 4000


def numbered(form: str, count: int) -> Lines:
    """A line for each number from 1, where the form has it."""
    return [form.replace("#", str(k)) for k in range(1, count + 1)]


def nested_in(form: str, levels: int, leaf: str) -> str:
    """The type with so many levels of the form around it."""
    before, after = form.split("#")
    return before * levels + leaf + after * levels


def clauses_of(heads: list[str], trait: str = "Show") -> str:
    return " where " + ", ".join(f"{it}: {trait}" for it in heads) if heads else ""


def ceiling_root(count: int) -> int:
    root = int(count**0.5)
    return root if root * root >= count else root + 1


# --------------------------------------------------------------------------------------------------------------- items and queries


def arrays(count: int) -> Lines:
    """Impls for arrays, with a query for each."""
    return SHOW + numbered("impl Show for [u8; #]", count) + numbered("prove in base [u8; #]: Show", count)


def structs(count: int) -> Lines:
    """Structs of one crate, a trait of another with an impl for each."""
    return ["crate base"] + numbered("struct S#", count) + ["crate user uses base", "trait Show"] + numbered("impl Show for S#", count)


def nested(count: int) -> Lines:
    """Impls for one struct around another type each."""
    return ["crate base", "struct V<T>", "trait Show"] + numbered("impl Show for V<V<[u8; #]>>", count)


def blanket(count: int) -> Lines:
    """A blanket impl that no struct meets, and an impl for each of so many structs."""
    lines = ["crate base", "trait Num", "crate user uses base", "trait Show"] + numbered("struct S#", count)
    return lines + ["impl<T> Show for &T where T: Num"] + numbered("impl Show for S#", count - 1)


def chain(count: int) -> Lines:
    """Queries about a struct around itself, up to 60 deep."""
    lines = SHOW + ["struct V<T>", "impl<T> Show for V<T> where T: Show", "impl Show for u8"]
    return lines + [f"prove in base {nested_in('V<#>', k % 60 + 1, 'u8')}: Show" for k in range(count)]


def pairs_above(level: int, leaf: int) -> str:
    if level == 0:
        return f"[u8; {leaf}]"
    return f"({pairs_above(level - 1, leaf)}, {pairs_above(level - 1, leaf + 1)})"


def tree(count: int) -> Lines:
    """Queries about pairs of pairs, down to 16 leaves each."""
    return ["crate base"] + [f"prove in base {pairs_above(4, k)}: Clone" for k in range(1, count + 1)]


def refute(count: int) -> Lines:
    """References that nobody may implement."""
    return ["crate base", "trait Num", "struct V<T>"] + numbered("refute in base V<[?x; #]>: Num", count)


def spread(count: int) -> Lines:
    """Impls of one trait over 8 crates."""
    lines = SHOW[:]
    for crate in range(1, 9):
        lines.append(f"crate c{crate} uses base")
        for k in range(1, count // 8 + 1):
            lines += [f"struct S{crate}_{k}", f"impl Show for S{crate}_{k}"]
    return lines


def arrays_alone(count: int) -> Lines:
    """Impls for arrays and no query."""
    return SHOW + numbered("impl Show for [u8; #]", count)


def structs_asked(count: int) -> Lines:
    """So many structs with an impl each, and four queries for each."""
    queries = numbered("prove in user S#: Show", count)
    return structs(count) + queries * 4


def asked_again(count: int) -> Lines:
    """One impl, and one query again and again."""
    return ["crate u", "trait S", "impl S for !"] + ["prove in u !: S"] * count


def references(count: int) -> Lines:
    """Impls for references to structs, with a query for each."""
    return SHOW + numbered("struct S#", count) + numbered("impl Show for &S#", count) + numbered("prove in base &S#: Show", count)


def with_parameter(count: int) -> Lines:
    """Impls for one struct around another type each and a parameter, with a query for each."""
    lines = SHOW + ["struct V<T, U>"] + numbered("struct S#", count) + numbered("impl<U> Show for V<S#, U>", count)
    return lines + numbered("prove in base V<S#, u8>: Show", count)


def two_heads(count: int) -> Lines:
    """Impls for two structs around arrays, with a query for each."""
    lines = SHOW + ["struct V<T>", "struct W<T>"]
    for word, end in (("impl Show for ", ""), ("prove in base ", ": Show")):
        for k in range(1, count // 2 + 1):
            for head in "VW":
                subject = f"{head}<[u8; {k}]>"
                lines.append(word + subject + end)
    return lines


def heads(count: int) -> Lines:
    """Structs, each with an impl and a query."""
    lines = SHOW[:]
    for crate in range((count + 1999) // 2000):
        lines.append(f"crate c{crate} uses base")
        numbers = range(2000 * crate, min(count, 2000 * crate + 2000))
        lines += [f"struct S{k}" for k in numbers] + [f"impl Show for S{k}" for k in numbers]
        lines += [f"prove in c{crate} S{k}: Show" for k in numbers]
    return lines


def matrix(count: int) -> Lines:
    """A square of so many impls: each of so many traits for each of so many structs, with a query for each."""
    side = ceiling_root(count)
    lines = ["crate base"] + numbered("trait T#", side) + numbered("struct S#", side)
    for word, end in (("impl T{} for S{}", ""), ("prove in base S{1}: T{0}", "")):
        lines += [word.format(trait, head) + end for trait in range(1, side + 1) for head in range(1, side + 1)]
    return lines


def conversions(count: int) -> Lines:
    """Impls of one trait with another argument each for one struct, with a query for each."""
    lines = ["crate base", "trait From<T>", "struct Y"] + numbered("struct X#", count) + numbered("impl From<X#> for Y", count)
    return lines + numbered("prove in base Y: From<X#>", count)


def constants(count: int) -> Lines:
    """Impls for one struct with another constant each, with a query for each."""
    lines = SHOW + ["struct B<const N>"] + numbered("impl Show for B<#>", count)
    return lines + numbered("prove in base B<#>: Show", count)


def unknowns(count: int) -> Lines:
    """200 queries with so many variables each, 16 at most, in tuples of four."""
    tuples = ", ".join(f"(?x{k}, u8, ?x{k}, [?x{k}; 2])" for k in range(count))
    params = ", ".join(f"T{k}" for k in range(count))
    lines = ["crate base", f"struct V<{params}>"] + numbered("trait R#", 200) + numbered(f"impl<{params}> R# for V<{params}>", 200)
    return lines + numbered(f"prove in base V<{tuples}>: R#", 200)


def questions(count: int) -> Lines:
    """As many queries as a text may have, over 26 structs with an impl each."""
    names = letters(26)
    lines = ["crate b", "trait _S"] + [f"struct {it}" for it in names] + [f"impl _S for {it}" for it in names]
    return lines + [f"prove in b {names[k % 26]}:_S" for k in range(count)]


def environment(count: int) -> Lines:
    """500 queries with so many where-clauses each, the last of which answers it."""
    lines = ["crate base", "trait P<A>"] + numbered("struct S#", 600)
    for first in range(1, 501):
        wheres = ", ".join(f"T: P<S{k}>" for k in range(first, first + count))
        lines.append(f"prove in base <T> T: P<S{first + count - 1}> where {wheres}")
    return lines


def wide_impls(count: int) -> Lines:
    """200 queries over an impl with so many where-clauses, each about a struct of its own."""
    lines = SHOW + ["struct V<T>", "trait P<A>", "impl<A, T> P<A> for V<T>"] + numbered("struct A#", count)
    lines.append("impl<T> Show for V<T> where " + ", ".join(f"V<T>: P<A{k}>" for k in range(1, count + 1)))
    return lines + numbered("struct S#", 200) + numbered("prove in base V<S#>: Show", 200)


def fresh(count: int) -> Lines:
    """A struct around 60 types, queried with other types each time: 60 goals a query."""
    params = [f"T{k}" for k in range(15)]
    lines = ["crate base", "auto trait Safe", "struct L<T>(T)", f"struct V<{', '.join(params)}>({', '.join(f'L<L<L<{it}>>>' for it in params)})"]
    for k in range(count):
        lines.append("prove in base V<" + ", ".join(f"[u8; {15 * k + number}]" for number in range(15)) + ">: Safe")
    return lines


def plain_structs(count: int) -> Lines:
    """Structs alone, over crates of 4,000: what is read and looked at no more."""
    lines: Lines = []
    for k in range(count):
        if k % ITEMS == 0:
            lines.append(f"crate c{k // ITEMS}")
        lines.append(f"struct Struct{k}<T>(*mut T, *const [T; 3])")
    return lines


def empty_lines(count: int) -> Lines:
    """Lines without anything."""
    return ["crate base"] + [""] * count


# -------------------------------------------------------------------------------------------------------------- chains and where-clauses


def where_chain(count: int) -> Lines:
    """A chain of so many impls, each of which needs the next, for a type without parameters."""
    lines = ["crate base"] + numbered("trait R#", count)
    lines += [f"impl R{k} for u8 where u8: R{k + 1}" for k in range(1, count)] + [f"impl R{count} for u8"]
    return lines + ["prove in base u8: R1"]


def open_where_chain(count: int) -> Lines:
    """The same for any type, with a query for a struct around a variable."""
    lines = ["crate base", "struct V<T>"] + numbered("trait R#", count)
    lines += [f"impl<T> R{k} for V<T> where V<V<T>>: R{k + 1}" for k in range(1, count)] + [f"impl<T> R{count} for T"]
    return lines + ["prove in base V<?x>: R1"]


def doubled(count: int) -> Lines:
    """A goal that leads to one whose type is twice as large, and so on: the size is the depth."""
    return SHOW + ["struct V<T>", "impl<T> Show for V<T> where V<(T, T)>: Show", "prove in base V<u8>: Show", "refute in base V<u8>: Show"]


def pairs_of_references(count: int) -> Lines:
    """So many impls of which each needs the pair of its type with itself, and a goal with a reference at the ends."""
    lines = SHOW + [f"struct W{k}<T>" for k in range(count + 1)]
    lines += [f"impl<T> Show for W{k}<T> where W{k + 1}<(T, T)>: Show" for k in range(count)]
    return lines + [f"impl<T> Show for W{count}<T>", "prove in base <'a> W0<&'a u8>: Show"]


def struct_chain(count: int) -> Lines:
    """Structs, each around the one before, under an auto trait, with a query for each, from the last on."""
    lines = ["crate base", "auto trait Safe", "struct S1"] + [f"struct S{k}(S{k - 1})" for k in range(2, count + 1)]
    return lines + [f"prove in base S{k}: Safe" for k in range(count, 0, -1)]


def struct_chain_of_crates(count: int) -> Lines:
    """The same over three crates."""
    each = count // 3
    lines = ["crate c0", "auto trait Safe", "struct S1"]
    for k in range(2, count + 1):
        if (k - 1) % each == 0 and k - 1 < 3 * each:
            lines.append(f"crate c{(k - 1) // each} uses c{(k - 1) // each - 1}")
        lines.append(f"struct S{k}(S{k - 1})")
    return lines + [f"prove in c2 S{k}: Safe" for k in range(count, 0, -1)]


def dyn_tower(count: int) -> Lines:
    """Traits, each with the one before as its supertrait, with a query for the `dyn` of each."""
    lines = ["crate base", "trait R1"] + [f"trait R{k}: R{k - 1}" for k in range(2, count + 1)]
    return lines + [f"prove in base dyn R{k}: R{k}" for k in range(1, count + 1)]


def unsizing_chain(count: int) -> Lines:
    """Structs, each around the one before and unsizing by it, with a query for each, from the last on."""
    lines = ["crate base", "struct S1<T>(T)"] + [f"struct S{k}<T>(S{k - 1}<T>)" for k in range(2, count + 1)]
    return lines + [f"prove in base S{k}<[u8; 3]>: Unsize<S{k}<[u8]>>" for k in range(count, 0, -1)]


def two_steps(count: int) -> Lines:
    """A chain whose members each need the next two, with a pair that is cleared only by its refusal."""
    lines = SHOW + ["trait Nope"] + [f"struct S{k}" for k in range(count + 2)]
    lines += [f"impl Show for S{k} where S{k + 1}: Show, S{k + 2}: Show" for k in range(count)]
    lines += [f"impl Show for S{count}", f"impl Show for S{count + 1}", "struct Q", "impl Show for Q where S0: Show, Q: Nope"]
    return lines + kept_apart("Q")


def kept_apart(subject: str) -> Lines:
    """A pair that is cleared if the subject is refused, and both queries about it."""
    mine = ["trait Mine", f"impl<T> Mine for T where {subject}: Show", "impl Mine for u8"]
    return mine + [f"prove in base {subject}: Show", f"refute in base {subject}: Show"]


# ------------------------------------------------------------------------------------------------------------------------------ cycles


def clique_impls(count: int) -> Lines:
    lines = [f"struct S{k}" for k in range(1, count + 1)]
    for own in range(1, count + 1):
        lines.append(f"impl Safe for S{own}" + clauses_of([f"S{k}" for k in range(1, count + 1) if k != own], "Safe"))
    return lines


def clique(count: int) -> Lines:
    """Impls that each need all others, one query."""
    return ["crate base", "trait Safe"] + clique_impls(count) + ["prove in base S1: Safe"]


def auto_clique(count: int) -> Lines:
    """The same of an auto trait."""
    return ["crate base", "auto trait Safe"] + clique_impls(count) + ["prove in base S1: Safe"]


def clique_asked(count: int) -> Lines:
    """Impls that each need all others, with queries for all."""
    return ["crate base", "trait Safe"] + clique_impls(count) + numbered("prove in base S#: Safe", count)


def auto_clique_asked(count: int) -> Lines:
    """The same of an auto trait."""
    return ["crate base", "auto trait Safe"] + clique_impls(count) + numbered("prove in base S#: Safe", count)


def steps_asked(count: int) -> Lines:
    """Impls with five where-clauses each, on numbers that are multiples of their own, with queries for all."""
    lines = ["crate base", "trait Safe"] + [f"struct S{k}" for k in range(count)]
    for own in range(count):
        lines.append(f"impl Safe for S{own}" + clauses_of([f"S{(own * j + j) % count}" for j in range(1, 6)], "Safe"))
    return lines + [f"prove in base S{k}: Safe" for k in range(count)]


def ring(count: int) -> Lines:
    """Impls of an auto trait that each ask the next and the one before."""
    lines = ["crate base", "auto trait Safe"] + [f"struct S{k}" for k in range(count)]
    lines += [f"impl Safe for S{k}" + clauses_of([f"S{(k + 1) % count}", f"S{(k - 1) % count}"], "Safe") for k in range(count)]
    return lines + ["prove in base S0: Safe"]


def by_lot(count: int) -> Lines:
    """Impls of an auto trait that each ask the next and two others by lot."""
    lines = ["crate base", "auto trait Safe"] + [f"struct S{k}" for k in range(count)]
    lot = 0
    for k in range(count):
        needed = [(k + 1) % count]
        for _ in range(2):
            lot = (lot * 1103515245 + 12345) % 2147483648
            needed.append(lot // 65536 % count)
        lines.append(f"impl Safe for S{k}" + clauses_of([f"S{it}" for it in needed], "Safe"))
    return lines + ["prove in base S0: Safe"]


def ladder(count: int) -> Lines:
    """Levels of two structs whose impls each ask both of the next level, the last of them the first again."""
    lines = ["crate base", "trait Safe"] + [f"struct {side}{k}" for k in range(1, count + 1) for side in "LR"]
    for k in range(1, count + 1):
        clauses = clauses_of([f"L{k + 1}", f"R{k + 1}"] if k < count else ["L1"], "Safe")
        lines += [f"impl Safe for {side}{k}{clauses}" for side in "LR"]
    return lines + ["prove in base L1: Safe"]


def ladder_refused(count: int) -> Lines:
    """A ladder that leads back, under an impl that fails for another cause."""
    lines = ladder(count)[:-1]
    lines[1] = "trait Safe"
    lines += ["trait Nope", "struct Q", "impl Safe for Q where L1: Safe, Q: Nope"]
    mine = ["trait Mine", "impl<T> Mine for T where Q: Safe", "impl Mine for u8"]
    return lines + mine + ["prove in base Q: Safe", "refute in base Q: Safe"]


def wide_ends(count: int) -> Lines:
    """An impl with 30 where-clauses that lead to a larger type, and so many queries."""
    clauses = ", ".join(f"V<{it}>: A" for it in ["T", "V<T>"] * 15)
    lines = ["crate base", "trait A", "struct V<T>", f"impl<T> A for V<T> where {clauses}"]
    return lines + [f"prove in base V<[u8; {k}]>: A" for k in range(count)]


# ------------------------------------------------------------------------------------------------- types that grow; the size is the depth


def growing_impls(growth: list[str]) -> Lines:
    """An impl that needs larger types of its own, under an impl that fails for another cause."""
    lines = SHOW + ["trait Nope", "struct A<T>", "struct B<T>", "struct C<T>", f"impl<T> Show for A<T>{clauses_of(growth)}"]
    return lines + ["impl Show for u8 where A<u8>: Show, u8: Nope"] + kept_apart("u8")


def one_larger(count: int) -> Lines:
    """A type that grows by one premise."""
    return growing_impls(["A<A<T>>"])


def two_larger(count: int) -> Lines:
    """A type that grows by two premises."""
    return growing_impls(["A<A<T>>", "A<B<T>>"])


def three_larger(count: int) -> Lines:
    """A type that grows by three premises."""
    return growing_impls(["A<A<T>>", "A<B<T>>", "A<C<T>>"])


def two_arguments(count: int) -> Lines:
    """A trait with two arguments that grow, one at a time."""
    lines = ["crate base", "trait Go<X, Y>", "struct A<T>"]
    lines += ["impl<X, Y> Go<X, Y> for u8 where u8: Go<A<X>, Y>, u8: Go<X, A<Y>>", "trait Show", "trait Nope"]
    return lines + ["impl Show for u8 where u8: Go<u8, u8>, u8: Nope"] + kept_apart("u8")


def there_and_back(count: int) -> Lines:
    """A type that grows, and a second trait that leads back to smaller ones."""
    lines = SHOW + ["trait Back", "struct A<T>", "impl<T> Show for A<T> where A<A<T>>: Show, A<T>: Back"]
    lines += ["impl<T> Back for A<T> where T: Show", "impl Show for bool", "trait Nope", "struct Q"]
    return lines + ["impl Show for Q where A<u8>: Show, Q: Nope"] + kept_apart("Q")


def three_fields(count: int) -> Lines:
    """A struct of three fields around larger types of its own, under an auto trait."""
    lines = ["crate base", "auto trait Show", "struct B<T>", "struct C<T>", "struct A<T>(A<A<T>>, A<B<T>>, A<C<T>>)"]
    return lines + ["trait Nope", "struct Q", "impl Show for Q where A<u8>: Show, Q: Nope"] + kept_apart("Q")


def growing_beside(premises: list[str], more: Lines, query: str) -> Lines:
    lines = SHOW + ["struct A<T>", "struct B<T>", "struct C<T>"] + more
    return lines + [f"impl<'a, T> Show for A<T>{clauses_of(premises)}", query]


GROWN = ["A<A<T>>", "A<B<T>>", "A<C<T>>"]


def growing_with_lifetimes(count: int) -> Lines:
    """A type that grows by three premises, one of which puts a lifetime at twelve positions of each level."""
    wide = ", ".join(f"&'a [T; {k}]" for k in range(12))
    return growing_beside([f"A<({wide})>"] + GROWN[1:], [], "prove in base A<u8>: Show")


def growing_in_width(count: int) -> Lines:
    """A type around a variable that grows by three premises, one of which makes 144 types of each level."""
    wide = ", ".join("(" + ", ".join(f"[T; {12 * row + k}]" for k in range(12)) + ")" for row in range(12))
    return growing_beside([f"A<({wide})>"] + GROWN[1:], [], "prove in base A<?x>: Show")


def growing_under_binders(count: int) -> Lines:
    """A type that grows by three premises, one of which binds a lifetime at each level."""
    return growing_beside(["A<for<'z> fn(&'z T) -> &'z T>"] + GROWN[1:], [], "prove in base A<u8>: Show")


def growing_beside_clauses(count: int) -> Lines:
    """A type that grows by three premises, under so many where-clauses of the same trait."""
    wheres = ", ".join(f"A<S{k}>: Show" for k in range(1, count + 1))
    return growing_beside(GROWN, numbered("struct S#", count), f"prove in base <U> A<U>: Show where {wheres}")


def growing_beside_impls(count: int) -> Lines:
    """A type that grows by three premises, and so many impls for types with its head that are disjoint from it at the fifth level."""
    lines = ["struct D<X, Y>"] + numbered("impl<T> Show for A<A<A<A<D<[u8; #], T>>>>>", count)
    return growing_beside(GROWN, lines, "prove in base A<u8>: Show")


# -------------------------------------------------------------------------------------------------------------------- supertraits


def letters(count: int) -> list[str]:
    return [chr(ord("A") + k) if k < 26 else f"A{k}" for k in range(count)]


def multiplying(levels: int, wraps: list[str]) -> tuple[Lines, str]:
    """Traits, each with the one before under each of these arguments for its supertraits; and the last of them."""
    names = letters(levels)
    lines = [f"trait {names[0]}<t>"]
    for above, name in zip(names, names[1:]):
        bounds = "+".join(f"{above}<{it.replace('#', 't')}>" for it in wraps)
        lines.append(f"trait {name}<t>:{bounds}")
    return lines, names[-1]


PAIR = ["[#]", "(#,)"]
TRIPLE = ["[#]", "(#,)", "*const #"]


def levels_of(count: int, branches: int) -> int:
    """How many levels have so many supertraits in all, or a few more."""
    levels, reached = 1, 1
    while reached < count:
        reached = reached * branches + 1
        levels += 1
    return levels


def supertraits_of_dyn(count: int) -> Lines:
    """Supertraits whose arguments multiply, so many in all, with a query for a `dyn`."""
    lines, top = multiplying(levels_of(count, 2), PAIR)
    return ["crate a"] + lines + [f"prove in a dyn {top}<u8>: {top}<u8>"]


def endless_supertraits(count: int) -> Lines:
    """So many levels of supertraits, each twice as many as the one before, with a query for a `dyn`."""
    lines, top = multiplying(count, PAIR)
    return ["crate a"] + lines + [f"prove in a dyn {top}<u8>: {top}<u8>"]


def leaf_of_dyn(count: int) -> Lines:
    """The same with a query for the last supertrait."""
    levels = levels_of(count, 2)
    lines, top = multiplying(levels, PAIR)
    return ["crate a"] + lines + [f"prove in a dyn {top}<u8>: A<{nested_in('(#,)', levels - 1, 'u8')}>"]


def supertraits_of_clause(count: int) -> Lines:
    """Supertraits whose arguments multiply, so many in all, of a where-clause, with a query for the last of them."""
    levels = levels_of(count, 2)
    lines, top = multiplying(levels, PAIR)
    return ["crate a"] + lines + [f"prove in a <T> T: A<{nested_in('(#,)', levels - 1, 'u8')}> where T: {top}<u8>"]


def supertraits_of_three(count: int) -> Lines:
    """The same, with three for each."""
    levels = levels_of(count, 3)
    lines, top = multiplying(levels, TRIPLE)
    return ["crate a"] + lines + [f"prove in a <T> T: A<{nested_in('(#,)', levels - 1, 'u8')}> where T: {top}<u8>"]


def supertraits_of_impl(count: int) -> Lines:
    """Supertraits whose arguments multiply, so many in all, of a header, with an impl of each trait for all arguments."""
    levels = levels_of(count, 2)
    lines, top = multiplying(levels, PAIR)
    impls = [f"impl<t> {it}<t> for S" for it in letters(levels)]
    return ["crate a", "struct S"] + lines + impls + ["supers in a"]


def plain_lattice(count: int) -> Lines:
    """Levels of two traits without arguments, each with both of the level before for its supertraits, of a `dyn` and of a where-clause."""
    lines = ["crate base", "trait L1", "trait R1"]
    for k in range(2, count + 1):
        lines += [f"trait {side}{k}: L{k - 1} + R{k - 1}" for side in "LR"]
    return lines + [f"prove in base dyn L{count}: R1", f"prove in base <T> T: L1 where T: L{count}, T: R{count}"]


def supers_of_chain(count: int) -> Lines:
    """Impls of two traits, one of which is the other's supertrait, for each of so many arrays, and the line that checks them."""
    half = count // 2
    lines = SHOW + ["trait Sub: Show"] + numbered("impl Show for [u8; #]", half) + numbered("impl Sub for [u8; #]", half)
    return lines + ["supers in base"]


def supers_of_tower(count: int) -> Lines:
    """Traits, each with the one before for its supertrait, an impl of each for one type, and the line that checks their supertraits."""
    lines = ["crate base", "trait R1"] + [f"trait R{k}: R{k - 1}" for k in range(2, count + 1)]
    return lines + numbered("impl R# for u8", count) + ["supers in base"]


def supers_of_tall_tower(count: int) -> Lines:
    """The same over crates of 2,000 traits that use one another, with such a line for each."""
    lines: Lines = []
    for first in range(1, count + 1, 2000):
        crate, numbers = first // 2000, range(first, min(first + 2000, count + 1))
        lines.append(f"crate c{crate}" + (f" uses c{crate - 1}" if crate else ""))
        lines += [f"trait R{k}" + (f": R{k - 1}" if k > 1 else "") for k in numbers] + [f"impl R{k} for u8" for k in numbers]
    return lines + [f"supers in c{crate}" for crate in range((count + 1999) // 2000)]


def supers_in_core(count: int) -> Lines:
    """The supertraits of core's own impls, checked again and again."""
    return ["crate base"] + ["supers in core"] * count


# ------------------------------------------------------------------------------------------------------------------------- auto traits


def fields_below(index: int, fields: int) -> list[str]:
    """So many structs of the layers below that of the struct, a layer being 32 of them: by lot, with the same lot each time."""
    below = index - index % 32
    return [f"S{(index * 7919 + k * 10473) % below}" for k in range(fields)] if below else ["u8"]


def auto_graph(count: int) -> Lines:
    """So many structs of 60 fields each, in layers of 32, each around structs of the layers below, under an auto trait, with a query for the last."""
    lines = ["crate base", "auto trait Safe"] + [f"struct S{k}({', '.join(fields_below(k, 60))})" for k in range(count)]
    return lines + [f"prove in base S{count - 1}: Safe"]


def auto_graph_cyclic(count: int) -> Lines:
    """The same, in which each struct also leads back to itself."""
    lines = ["crate base", "auto trait Safe", "struct C<T>(T)"]
    lines += [f"struct S{k}({', '.join([f'C<S{k}>'] + fields_below(k, 59))})" for k in range(count)]
    return lines + [f"prove in base S{count - 1}: Safe"]


def auto_graph_upward(count: int) -> Lines:
    """The structs of 60 fields, with queries from the bottom."""
    return auto_graph(count)[:-1] + [f"prove in base S{k}: Safe" for k in range(count)]


# ---------------------------------------------------------------------------------------------------------------------- pairs of impls


def apart_in_fn(count: int) -> Lines:
    """Impls with a parameter that differ only inside `fn`."""
    return SHOW + numbered("impl<T> Show for fn([u8; #]) -> T", count)


def apart_in_fn_over_crates(count: int) -> Lines:
    """The same over crates of 1,500, each with an argument of its own."""
    lines, before = ["crate base", "trait Show<A>"], "base"
    for k in range(count):
        if k % 1500 == 0:
            lines += [f"crate c{k // 1500} uses {before}", f"struct L{k // 1500}"]
            before = f"c{k // 1500}"
        lines.append(f"impl<T> Show<L{k // 1500}> for fn([u8; {k}]) -> T")
    return lines


def apart_in_dyn(count: int) -> Lines:
    """Impls that differ only inside `dyn`."""
    return SHOW + ["trait P<T>"] + numbered("impl Show for dyn P<[u8; #]>", count)


def apart_deep(count: int) -> Lines:
    """Impls with a parameter that differ at the fifth level and below."""
    return SHOW + ["struct V<T>", "struct W<A, B>"] + numbered("impl<T> Show for V<V<V<V<V<W<[u8; #], T>>>>>>", count)


def apart_of_sixteen(count: int) -> Lines:
    """Impls with 16 parameters that differ at the fifth level."""
    params = ", ".join(f"T{k}" for k in range(15))
    lines = SHOW + ["struct V<T>", "struct W<A, B>", f"struct H<T, {params}>"]
    return lines + numbered(f"impl<U, {params}> Show for H<V<V<V<W<[u8; #], U>>>>, {params}>", count)


def cleared_by_clause(count: int) -> Lines:
    """Blanket impls over so many structs, and as many impls: each pair is cleared by a where-clause alone."""
    lines = ["crate base", "trait Num", "trait Show<A>", "struct V<T>"] + numbered("struct S#", count)
    lines += numbered("impl<T> Show<S#> for V<T> where T: Num", count)
    return lines + numbered("impl<A> Show<A> for V<S#>", count)


def cleared_over_parameter(count: int) -> Lines:
    """The same over a parameter as the self type."""
    lines = ["crate base", "trait Num", "trait Show<A>"] + numbered("struct S#", count)
    lines += numbered("impl<T> Show<S#> for T where T: Num", count)
    return lines + numbered("impl<A> Show<A> for S#", count)


def references_alone(count: int) -> Lines:
    """Impls for references to structs and no query, over crates of 1,000 that use one another."""
    lines = SHOW[:]
    before = "base"
    for k in range(count):
        if k % 1000 == 0:
            lines.append(f"crate c{k // 1000} uses {before}")
            before = f"c{k // 1000}"
        lines += [f"struct S{k}", f"impl Show for &S{k}"]
    return lines


def references_of_many(count: int) -> Lines:
    """The same over crates of 100."""
    lines = SHOW[:]
    before = "base"
    for k in range(count):
        if k % 100 == 0:
            lines.append(f"crate c{k // 100} uses {before}")
            before = f"c{k // 100}"
        lines += [f"struct S{k}", f"impl Show for &S{k}"]
    return lines


# --------------------------------------------------------------------------------------------------------------------------- crates


def large_base(items: int) -> tuple[Lines, str]:
    """Crates of structs and impls that use one another, so many items in all; and the last of them."""
    lines, name = SHOW[:], "base"
    for crate in range((items + 3999) // 4000):
        lines.append(f"crate b{crate} uses {name}")
        name = f"b{crate}"
        for k in range(min(items - 4000 * crate, 4000) // 2):
            lines += [f"struct B{crate}_{k}", f"impl Show for B{crate}_{k}"]
    return lines, name


def users_of(base: str, count: int, in_chain: bool) -> Lines:
    lines, before = [], base
    for k in range(count):
        lines += [f"crate user{k} uses {before}", f"struct U{k}", f"impl Show for U{k}"]
        if in_chain:
            before = f"user{k}"
    return lines


def siblings_of_growing(count: int) -> Lines:
    """So many crates that each use one base of 40 times as many items, with an impl each."""
    lines, base = large_base(40 * count)
    return lines + users_of(base, count, in_chain=False)


def siblings(count: int) -> Lines:
    """So many crates that each use one base of 4,000 items, with an impl each."""
    lines, base = large_base(4000)
    return lines + users_of(base, count, in_chain=False)


def siblings_of_large(count: int) -> Lines:
    """So many crates that each use one base of 24,000 items, with an impl each."""
    lines, base = large_base(24000)
    return lines + users_of(base, count, in_chain=False)


def users_in_chain(count: int) -> Lines:
    """So many crates that use one another, above a base of 4,000 items, with an impl each."""
    lines, base = large_base(4000)
    return lines + users_of(base, count, in_chain=True)


def crates_of_many(count: int) -> Lines:
    """Crates of 1,700 structs and as many impls that use one another."""
    lines: Lines = []
    for crate in range(1, count + 1):
        uses = f" uses c{crate - 1}" if crate > 1 else ""
        lines += [f"crate c{crate}{uses}", f"trait T{crate}"]
        for k in range(1, 1701):
            lines += [f"struct A{crate}_{k}", f"impl T{crate} for A{crate}_{k}"]
    return lines


def crate_chain(count: int) -> Lines:
    """So many crates that use one another, without items, and a query in the last."""
    lines = SHOW + ["crate c0 uses base"] + [f"crate c{k} uses c{k - 1}" for k in range(1, count)]
    return lines + [f"prove in c{count - 1} u8: Clone"]


def crate_chain_of_impls(count: int) -> Lines:
    """So many crates that use one another, with 16 impls each."""
    lines, before = SHOW[:], "base"
    for k in range(count):
        lines.append(f"crate c{k} uses {before}")
        before = f"c{k}"
        for number in range(16):
            lines += [f"struct S{k}_{number}", f"impl Show for S{k}_{number}"]
    return lines


def uses_written(count: int) -> Lines:
    """So many crates, each of which names all before it among its uses."""
    lines = SHOW[:]
    for k in range(count):
        lines.append(f"crate c{k} uses " + ", ".join(["base"] + [f"c{it}" for it in range(k)]))
    return lines


def refute_over_crates(count: int) -> Lines:
    """So many crates that use one another, and a refutation in each."""
    lines = ["crate base", "fundamental trait Num", "struct V<T>"]
    lines += [f"crate c{k} uses {'c' + str(k - 1) if k else 'base'}" for k in range(count)]
    return lines + [f"refute in c{k} V<[?x; {k}]>: Num" for k in range(count)]


def later_impls(count: int) -> Lines:
    """A section with so many impls."""
    return SHOW + ["struct V<T>", "later base"] + numbered("impl Show for V<[u8; #]>", count)


def sections(count: int) -> Lines:
    """So many sections of one impl each."""
    lines = SHOW + ["struct V<T>"]
    for k in range(count):
        lines += ["later base", f"impl Show for V<[u8; {k}]>"]
    return lines
