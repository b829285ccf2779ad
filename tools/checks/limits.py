"""Each limit of a text: a text at the limit is accepted, and one past it has fault 16 on its line.

And what the searches of a line may take in all: a verdict and `supers` of 1 KB whose searches are given up come in time, at each
depth, and what needs little is answered behind them.
"""
from __future__ import annotations

import argparse
from functools import partial
from typing import Callable, Iterator, NamedTuple

from .common import Limits, Tally, program, run
from .makers import many, repeated

# The most bytes of a text, and the most items of a crate or impls of a section.
TEXT_LIMIT, ITEM_LIMIT = 67108864, 65535
BASE = "crate base\ntrait Show\n"
ACCEPTED, REFUSED = "crate base: accepted", "line 3: fault 16"
# Declarations of a name and of a variable, for which @ stands. In the middle is the last line of the answer if the name is not too long.
NAMED = """
a crate's name|crate @: accepted|crate @ uses base
a trait's name|crate base: accepted|trait @
a struct's type parameter|crate base: accepted|struct Q<@>
a struct's lifetime|crate base: accepted|struct Q<'@>(&'@ u8)
a struct's const parameter|crate base: accepted|struct Q<const @>([u8; @])
a trait's type parameter|crate base: accepted|trait Many<@>
a trait's lifetime|crate base: accepted|trait Many<'@>
a trait's const parameter|crate base: accepted|trait Many<const @>
an impl's type parameter|crate base: accepted|impl<@> Show for (@,)
an impl's lifetime|crate base: accepted|impl<'@> Show for &'@ u8
an impl's const parameter|crate base: accepted|impl<const @> Show for [u8; @]
a query's type parameter|prove 1: unproved|prove in base <@> @: Show
a query's lifetime|prove 1: unproved|prove in base <'@> &'@ u8: Show
a query's const parameter|prove 1: unproved|prove in base <const @> [u8; @]: Show
a binder's lifetime|crate base: accepted|impl Show for for<'@> fn(&'@ u8)
a binder's lifetime in a dyn|crate base: accepted|impl Show for dyn for<'@> Show
a type variable|prove 1: unproved|prove in base (?@,): Show
a const variable|refute 1: open|refute in base [u8; ?@]: Sized
"""


class Case(NamedTuple):
    """A text, and the last line of its answer."""

    name: str
    text: str
    last: str


def numbered(form: str, count: int) -> str:
    """A line for each number from 1, where the form has #."""
    return "".join(f"{it}\n" for it in many(form, range(1, count + 1)))


def listed(prefix: str, count: int, first: int = 1) -> str:
    return ", ".join(many(f"{prefix}#", range(first, count + 1)))


def all_kinds(form: str, count: int) -> str:
    """So many parameters where the form has @: five lifetimes, six types, and constants for the rest."""
    return form.replace("@", ", ".join([listed("'a", 5), listed("T", 6), listed("const N", count - 11)]))


def named(form: str, count: int) -> str:
    """A name of so many bytes where the form has @."""
    return form.replace("@", "n" * count)


def pair(name: str, most: int, text: Callable[[int], str], taken: str = ACCEPTED, refused: str = REFUSED) -> Iterator[Case]:
    """A text at a limit and one past it; in the name # is the number."""
    for count, last in ((most, taken), (most + 1, refused)):
        yield Case(name.replace("#", f"{count:,}"), text(count), last)


def line_pair(name: str, most: int, line: Callable[[int], str], taken: str = ACCEPTED, refused: str = REFUSED, before: str = BASE) -> Iterator[Case]:
    """The same, for a line after others."""
    return pair(name, most, lambda count: before + line(count) + "\n", taken, refused)


def text_cases() -> Iterator[Case]:
    yield from pair("# line ends", TEXT_LIMIT, lambda count: "\n" * count, "", f"line {TEXT_LIMIT + 1}: fault 16")
    yield Case("a byte too many after two line ends", " " * (TEXT_LIMIT - 2) + "\n\nx", "line 3: fault 16")
    yield from pair("# crates", 4095, lambda count: numbered("crate c#", count), "crate c4095: accepted", "line 4096: fault 16")
    yield from pair("# queries", 65536, lambda count: "crate b\ntrait S\n" + "prove in b!:S\n" * count, "prove 65536: unproved", "line 65539: fault 16")


def item_cases() -> Iterator[Case]:
    structs = numbered("struct s#", ITEM_LIMIT)
    past = f"line {ITEM_LIMIT + 2}: fault 16"
    yield from pair("# structs", ITEM_LIMIT, lambda count: "crate base\n" + numbered("struct s#", count), refused=past)
    mixed = numbered("struct s#", 32768) + numbered("trait t#", 32766) + "impl t1 for s1\nimpl t1 for s2\n"
    yield Case("structs, traits and impls count together", "crate base\n" + mixed, past)
    other = structs.replace("struct s", "struct r")
    yield Case(f"{ITEM_LIMIT:,} structs in each of two crates", f"crate base\n{structs}crate other\n{other}", "crate other: accepted")


def section_cases() -> Iterator[Case]:
    """A section has its own count of impls, and there is none of sections."""
    head, arrays = "crate base\ntrait t\n", "impl t for [u8; #]"
    past = f"line {3 + ITEM_LIMIT + 1}: fault 16"
    yield from pair("# impls in a section", ITEM_LIMIT, lambda count: f"{head}later base\n{numbered(arrays, count)}", "later base: compatible", past)
    full, section = head + numbered(arrays, ITEM_LIMIT - 1), "later base\n" + numbered(arrays, ITEM_LIMIT)
    yield Case(f"{ITEM_LIMIT:,} impls in each of two sections of a crate of as many items", full + section * 2, "later base: compatible")
    after = "later base\ncrate other\nsupers in other\ncrate third\n" + numbered("struct s#", ITEM_LIMIT + 1)
    yield Case(f"{ITEM_LIMIT + 1:,} structs after a section", full + after, f"line {4 + ITEM_LIMIT - 1 + 2 + ITEM_LIMIT + 1}: fault 16")
    yield Case("30,000 sections", "crate base\n" + "later base\n" * 30000, "later base: compatible")
    yield Case("30,000 lines supers", "crate base\n" + "supers in base\n" * 30000, "supers base: held")


def name_cases() -> Iterator[Case]:
    yield from pair("a name of # bytes", 64, lambda count: f"crate base\nstruct {'n' * count}\n", refused="line 2: fault 16")
    for row in NAMED.strip().split("\n"):
        name, answer, line = row.split("|")
        yield from line_pair(f"{name} of # bytes", 64, partial(named, line), named(answer, 64))


def parameter_cases() -> Iterator[Case]:
    """Parameters of each kind of line, of one kind and of all three."""
    yield from line_pair("# parameters", 64, lambda count: f"struct Q<{listed('T', count)}>")
    yield from line_pair("# parameters of a trait", 64, lambda count: f"trait Many<{listed('T', count)}>")
    twelves = [listed("T", first + 11, first) for first in range(1, 61, 12)]
    both = "impl<{}> Show for (" + ", ".join(f"({it})" for it in twelves) + ", fn({}))"
    yield from line_pair("# parameters of an impl", 64, lambda count: both.format(listed("T", count), listed("T", count, 61)))
    for kind in ("struct", "trait"):
        yield from line_pair(f"# parameters of all kinds of a {kind}", 64, partial(all_kinds, f"{kind} Q<@>"))
    lifetimes = "impl<{}, T> Show for &'a1 T"
    yield from line_pair("# lifetimes and a type of an impl", 63, lambda count: lifetimes.format(listed("'a", count)))
    query = "prove in base <{}> T1: Show"
    yield from line_pair("# parameters of a query", 64, lambda count: query.format(listed("T", count)), "prove 1: unproved")
    yield from line_pair("# parameters of all kinds of a query", 64, partial(all_kinds, query.format("@")), "prove 1: unproved")
    variables = f"trait Many<{listed('T', 12)}>"
    query = "prove in base ({}): Many<{}>"
    yield from line_pair("# variables", 16, lambda count: query.format(listed("?x", count - 12), listed("?y", 12)), "prove 1: unproved", before=f"crate base\n{variables}\n")


def type_cases() -> Iterator[Case]:
    yield from line_pair("a type that is # deep", 64, lambda count: f"impl Show for {'&' * (count - 1)}u8")
    added = f"{BASE}later base\n"
    yield from line_pair("an added type that is # deep", 64, lambda count: f"impl<T> Show for {'&' * (count - 1)}T",
                         "later base: breaking impl 1", "line 4: fault 16", added)
    yield Case("a type that is 200,001 deep", f"{BASE}impl Show for {'&' * 200000}u8\n", REFUSED)
    yield from line_pair("# items of a tuple", 12, lambda count: f"impl Show for ({repeated('u8', count)})")
    yield from line_pair("# inputs of a fn", 12, lambda count: f"impl Show for fn({repeated('u8', count)}) -> u8")
    yield from line_pair("# fields", 64, lambda count: f"struct Q({repeated('u8', count)})")
    safe = f"{BASE}auto trait Safe\n"
    yield from line_pair("# bounds of a dyn", 64, lambda count: f"impl Show for dyn {repeated('Safe', count, ' + ')}", refused="line 4: fault 16", before=safe)
    yield Case("the greatest number", f"{BASE}impl Show for [u8; {2**64 - 1}]\n", ACCEPTED)
    yield Case("a number past it", f"{BASE}impl Show for [u8; {2**64}]\n", REFUSED)


def clause_cases() -> Iterator[Case]:
    yield from line_pair("# where-clauses", 64, lambda count: f"impl<T> Show for T where {repeated('T: Show', count)}")
    yield from line_pair("# where-clauses of a query", 64, lambda count: f"prove in base <T> T: Show where {repeated('T: Show', count)}", "prove 1: yes")
    yield from line_pair("# bounds of a query", 64, lambda count: f"prove in base {repeated('u8: Sized', count)}", "prove 1: yes")
    yield from line_pair("# bounds of a query with a where-clause", 64, lambda count: f"prove in base <T> {repeated('T: Show', count)} where T: Show", "prove 1: yes")
    yield from line_pair("# bounds in refute", 64, lambda count: f"refute in base {repeated('u8: Show', count)}", "refute 1: no")
    yield from line_pair("# variables in as many bounds", 16, lambda count: f"prove in base {', '.join(many('?x#: Sized', range(1, count + 1)))}", "prove 1: maybe")
    yield from line_pair("# bounds of a trait", 64, lambda count: f"trait Bounded: {repeated('Show', count, ' + ')}")


ITEM = f"{BASE}trait It {{ type Item; }}\n"
LINE_LIMIT = 65536


def types_of(count: int, form: str = "type A#;") -> str:
    return " ".join(many(form, range(1, count + 1)))


def bindings_of(count: int) -> str:
    return ", ".join(many("A# = u8", range(1, count + 1)))


def long_line(count: int, line: str) -> str:
    """The line, with so many bytes."""
    return line + " " * (count - len(line))


def companion_cases() -> Iterator[Case]:
    """What is counted of a line with types, and of the lines that it stands for."""
    yield from line_pair("# types of a trait", 16, lambda count: f"trait Many {{ {types_of(count)} }}")
    many_types = f"{BASE}trait Many {{ {types_of(16)} }}\n"
    yield Case("16 types of an impl", f"{many_types}impl Many for u8 {{ {types_of(16, 'type A# = u8;')} }}\n", ACCEPTED)
    yield Case("17 types of an impl", f"{many_types}impl Many for u8 {{ {types_of(17, 'type A# = u8;')} }}\n", "line 4: fault 16")
    yield Case("16 bindings", f"{many_types}trait Sub: Many<{bindings_of(16)}>\n", ACCEPTED)
    yield Case("17 bindings", f"{many_types}trait Sub: Many<{bindings_of(17)}>\n", "line 4: fault 16")
    yield from line_pair("a line with a type, of # bytes", LINE_LIMIT, lambda count: long_line(count, "trait It { type Item; }"))
    past = "line 4: fault 16"
    yield from line_pair("a query with a binding, of # bytes", LINE_LIMIT, lambda count: long_line(count, "prove in base u8: It<Item = u8>"),
                         "prove 1: unproved", past, ITEM)
    yield Case("a line without types that is longer", f"{BASE}{long_line(LINE_LIMIT + 1, 'impl Show for u8')}\n", ACCEPTED)
    yield Case("a comment with a brace that is longer", f"{BASE}{long_line(LINE_LIMIT + 1, '// {')}\n", ACCEPTED)
    yield Case("a longer line with a brace that is no line", f"{BASE}{long_line(LINE_LIMIT + 1, 'trait {')}\n", "line 3: fault 2")
    yield from line_pair("a trait and a type with names of # bytes", 62, lambda count: f"trait {'n' * 30} {{ type {'t' * (count - 30)}; }}")
    yield from line_pair("# parameters of a trait with a type", 63, lambda count: f"trait Many<{listed('T', count)}> {{ type Item; }}")
    yield from line_pair("a value that is # deep", 63, lambda count: f"impl It for u8 {{ type Item = {'&' * (count - 1)}u8; }}", refused=past, before=ITEM)
    yield from line_pair("# where-clauses, of which each has a binding", 32, lambda count: f"impl<T> Show for T where {repeated('T: It<Item = u8>', count)}",
                         refused=past, before=ITEM)
    yield from line_pair("# bounds with a binding of a trait", 32, lambda count: f"trait Sub: {repeated('It<Item = u8>', count, ' + ')}", refused=past, before=ITEM)
    yield from line_pair("# bounds with a binding of a query", 64, lambda count: f"prove in base {repeated('u8: It<Item = u8>', count)}",
                         "prove 1: unproved", past, ITEM)


# Types that grow in two ways, of which a search is given up, and what is asked of some of them.
GROWING = "crate a\ntrait S\ntrait N<t>\ntrait M:S\nstruct V<T>\nimpl<T>S for V<T>where V<&&&[T]>:S,V<&T>:S\n"
SMALL = ["u8", "i8", "()", "!", "u16", "i16", "u32", "i32", "u64", "i64", "str", "bool", "char"]
KB = 1024
# A busy machine takes this long at most; without a limit for a text some of these took minutes.
IN_TIME = Limits(seconds=20, memory=512 * 1024 * 1024)


def up_to_a_kilobyte(head: str, lines: Iterator[str]) -> str:
    for line in lines:
        if len(head) + len(line) >= KB:
            break
        head += line + "\n"
    return head


def heavy_types(*inner: str) -> Iterator[str]:
    """Different types, each of which is larger than a search gets to the end of."""
    wrapped = ["@", "[@]", "(@,)", "*const @", "[[@]]", "([@],)", "[(@,)]", "((@,),)", "*const [@]", "[*const @]", "*const *const @", "fn(@)", "[@; 1]"]
    yield from (f"V<{form.replace('@', it)}>" for form in wrapped for it in inner or SMALL)


def budget_cases() -> Iterator[Case]:
    """Texts in which the searches of one line are given up one after the other: a query, pairs of impls, supertraits."""
    yield Case("one query", f"{GROWING}prove in a V<u8>:S\n", "prove 1: maybe")
    pairs = up_to_a_kilobyte(GROWING, (f"impl<T>N<T>for u8 where {it}:S,[T]:M" for it in heavy_types("T")))
    yield Case("pairs of impls", f"{pairs}prove in a u8:Sized\n", "prove 1: yes")
    headers = up_to_a_kilobyte(GROWING, (f"impl M for {it}" for it in heavy_types()))
    yield Case("supertraits", f"{headers}supers in a\n", "supers a: undecided impl 2 clause 1")


def check_budgets(tally: Tally, answering: str) -> None:
    for case in budget_cases():
        for depth in (16, 128, 255):
            ended = run([answering, str(depth)], case.text.encode(), IN_TIME)
            named = f"{case.name} that are given up, at depth {depth}"
            tally.expect(named, ended.status == 0 and ended.last_line() == case.last, f"status {ended.status} and '{ended.last_line()}', '{case.last}' is wanted")


def check(tally: Tally, _: argparse.Namespace) -> None:
    answering = program("celtisdarts")
    check_budgets(tally, answering)
    for cases in (text_cases, item_cases, section_cases, name_cases, parameter_cases, type_cases, clause_cases, companion_cases):
        for case in cases():
            ended = run([answering, "8"], case.text.encode())
            expected = (1 if "fault" in case.last else 0, case.last)
            found = (ended.status, ended.last_line())
            tally.expect(case.name, found == expected, f"status {found[0]} and '{found[1]}', {expected[0]} and '{expected[1]}' are expected")
