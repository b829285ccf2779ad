"""The cone of a query, or of a crate's check: the smallest part of all crates that answers as the whole does, for a text of its own.

A set of trait references is closed if it has, for each of its references r, by the view of the query's crate:

1. the premises of each impl of which r may be an instance;
2. those of the built-in rules: the fields of a struct for an auto trait, its last field for `Sized` and `Unsize`, the parts of tuples,
   arrays and slices, the output of a fn pointer, the bounds of a `dyn` that is unsized to;
3. the supertraits of r, which a `dyn` needs, also if another crate may have the impl.

The cone of a closed set has, each in its own crate:

- each impl of which some reference of the set may be an instance, with its companions (read by `impl_rules`);
- for an auto trait that a struct needs, each impl for that struct, whatever its arguments are: such an impl removes the built-in rule
  (`is_written`);
- each struct and trait that one of its lines names, with its fields, its supertraits, `fundamental` and `auto` (`sized_rules`, `auto_rules`,
  `unsize_rules`, `object_rules`, `strict_supertraits`, `visited`);
- each crate that has such an item, and the uses by which one crate sees another (`sees`, `is_known_in`).

Such a part has the same answers by a law: `APartAnswersAlike` of `type_terms/specs/Parts.antt`. It is not proved that `close` finds a closed
set. The set may have more than it needs, never less, since a variable matches everything. Before an answer is given, the references that
the finished text leads to are looked up in it (`Asker.inside`). A missing one is an error.

The check of a crate checks that its headers keep the orphan rule, which needs the crates of items. For each pair of one of its impls and one
that it sees it checks whether they have a common instance, and whether a clause of the two is impossible there. Its cone has its impls, each
impl that may have a common instance with one of them, and the cone of their clauses, with variables for parameters that the instance leaves
open.

If the subject is a variable that no query wrote, impls that name an item which no line of the cone names are left out: a variable gets its
value by matching lines of the cone, so that is a type of their names. Terms that are more than `DEEPEST` deep, and traits with more than
`MANY` references, become variables.

A variable `?x` that a query writes is *free* if no goal can give it a value: no header, and no built-in rule, has more than a parameter in its
position. A goal whose self type is a variable is ambiguous, whatever impls there are, so the search ends at `?x: Trait` of a free one. If
there is one that is not free no impl is left out, and a part that grows beyond `MOST_OPEN` is given up at once.
"""
from __future__ import annotations

import functools
import re
from dataclasses import dataclass, field
from typing import Iterator, Optional, Sequence

from ..model.world import CORE_NAMES, World, crate_name
from ..read.headers import FLOATS, Named_, NotUnderstood, Reader
from ..read.html_docs import is_std_key
from ..read.terms import (FUNCTION_STRUCTS, UNIT, Array, Constant, Declaration, Dyn, Impl, Lossy, Named, Param, Parameter, Tuple, Type, Unknown, head_of,
                          keys_of, leaf_of, parts, put, rebuilt, walk)
from ..write.build import Translation
from ..write.declare import Declarer
from ..write.impls import Written
from ..write.project import APPLY, WRAP
from ..write.render import FIELD, THEN, Scope, as_arguments, is_packed, names_of, params_text
from ..write.text_form import Text, TextLine
from .questions import OWN, Question, QuestionWriter, terms_of
from .reach import Reach, Reacher, bind
from .rules import BY_PARTS, BY_TARGET, FINDING_OUT, Reference_, premises

ANY = Unknown("_")
DEEPEST, ROUNDS = 12, 12
# How many references of a trait, or of a pattern, are kept as they are.
MANY = 400
# How many references are looked at, and how many lines where a variable is not free.
MOST, MOST_OPEN = 20000, 1000
SPECIAL_HEADS = {"Ref_": "&", "RefMut_": "&mut", "PtrConst_": "*const", "PtrMut_": "*mut"}


class TooLarge(Lossy):
    """The queries lead to more than one text should have."""


@dataclass
class Chosen:
    """What a cone has: impls in any order, by identity. `asked` are the structs by name with the auto traits that they need, `leaves` the
    built-in types, `references` all that the cone was closed over, `free` the free variables."""
    impls: dict[int, Impl] = field(default_factory=dict)
    asked: set[tuple[str, str]] = field(default_factory=set)
    leaves: set[str] = field(default_factory=set)
    references: set[Reference_] = field(default_factory=set)
    free: frozenset[str] = frozenset()

    def covers(self, reference: Reference_, is_auto: bool = False) -> bool:
        """Whether the closure has the reference, as it is or with a variable for parts of it. For an auto trait the type has to be there by its
        name: a variable brings neither its fields nor the impl by which a struct that is cut has them."""
        trait, arguments = reference
        if is_auto and isinstance(arguments[0], Named) and (arguments[0].key, trait) not in self.asked:
            return False
        places = (arguments, tuple(cut_off(a, DEEPEST) for a in arguments), widest(arguments))
        return any((trait, place) in self.references for place in places) or any(
            len(wide) == len(arguments) and all(map(is_instance, arguments, wide)) for wide in self.with_unknowns.get(trait, []))

    @functools.cached_property
    def with_unknowns(self) -> dict[str, list[tuple[Type, ...]]]:
        """The references with variables, by their traits: what follows from a term that was cut off is wider than what follows from the whole
        term."""
        found: dict[str, list[tuple[Type, ...]]] = {}
        for trait, arguments in self.references:
            if any(isinstance(part, Unknown) for term in arguments for part in walk(term)):
                found.setdefault(trait, []).append(arguments)
        return found


def is_instance(term: Type, wide: Type) -> bool:
    """Whether the term is the wide one with types for its variables, each by itself."""
    if isinstance(wide, Unknown) or term == wide:
        return True
    left, right = parts(term), parts(wide)
    return head_alone(term) == head_alone(wide) and len(left) == len(right) and all(map(is_instance, left, right))


def head_alone(term: Type) -> Type:
    """The head of the term alone."""
    return rebuilt(term, lambda part: ANY)


def cut_off(term: Type, depth: int) -> Type:
    """The term with variables for its deeper parts, so that chains without end come to an end here."""
    return ANY if depth == 0 else rebuilt(term, lambda part: cut_off(part, depth - 1))


def pattern_in(arguments: tuple[Type, ...]) -> str:
    """The pattern that a reference needs, or is about: its own name in `Pat1_<..>: Apply_<V>`, that in `Wrap_` of a `Then` trait; else empty."""
    for term in arguments:
        inside = term.arguments[0] if isinstance(term, Named) and term.key == WRAP and term.arguments else term
        if isinstance(inside, Named) and re.fullmatch(r"Pat\d+_", inside.key):
            return inside.key
    return ""


def widest(arguments: tuple[Type, ...]) -> tuple[Type, ...]:
    """The arguments as variables, except for the pattern: a variable in its place would lead to the meanings of all."""
    def widened(term: Type) -> Type:
        if isinstance(term, Named) and term.key == WRAP:
            return Named(WRAP, tuple(map(widened, term.arguments)))
        if isinstance(term, Named) and pattern_in((term,)):
            return Named(term.key, (ANY,) * len(term.arguments))
        return ANY

    return tuple(map(widened, arguments))


def leaves_of_functions(term: Type) -> Iterator[str]:
    """The fn pointers for which structs of the text are in a term."""
    for part in walk(term):
        if isinstance(part, Named) and part.key in FUNCTION_STRUCTS and isinstance(part.arguments[0], Tuple):
            yield leaf_of(part.arguments[0].items, FUNCTION_STRUCTS[part.key])


def unknowns_of(term: Type) -> set[str]:
    """The names of the variables in a type, also of those that stand for constants."""
    return {part.name for part in walk(term) if isinstance(part, Unknown)} | {name for part in walk(term) for name in re.findall(r"\?(\w+)", constant_of(part))}


def constant_of(term: Type) -> str:
    return term.length if isinstance(term, Array) else term.text if isinstance(term, Constant) else ""


def found_out(pattern: Type, term: Type, params: set[str], values: dict[str, Type]) -> set[str]:
    """The variables in a term that may get values if it is an instance of the pattern: those where the pattern has more than a parameter, and
    those of a parameter that stands for different terms."""
    if isinstance(pattern, Parameter) and pattern.name in params:
        known = values.setdefault(pattern.name, term)
        return set() if known == term else unknowns_of(known) | unknowns_of(term)
    left, right = parts(pattern), parts(term)
    if isinstance(term, (Unknown, Dyn)) or len(left) != len(right):
        return unknowns_of(term)
    constants = unknowns_of(Constant(constant_of(term))) if constant_of(pattern) not in params else set()
    return constants.union(*(found_out(l, r, params, values) for l, r in zip(left, right)))


class Cone(Reacher):
    """`view` are the crates that are seen. Lines are those that `translation` writes, which only has the names. `free` are the variables of the query that are assumed to be free,
    and `bound` gets those that are not. With `is_open` a variable may be a type that the text does not name: the query wrote it."""

    def __init__(self, translation: Translation, view: set[str], is_open: bool = False, free: frozenset[str] = frozenset()) -> None:
        super().__init__(Text(), [], free)
        self.is_open = is_open
        self.bound: set[str] = set()
        self.looked_at = 0
        self.translation = translation
        self.world: World = translation.world
        self.renderer = translation.renderer
        self.standard = translation.standard
        self.view = view
        self.chosen = Chosen(free=free)
        self.lines: dict[int, list[TextLine]] = {}
        self.traits: dict[str, Optional[TextLine]] = {}
        self.per_trait: dict[tuple[str, str], int] = {}
        self.meanings: dict[str, TextLine] = {}
        self.declarer = Declarer(translation.impl_writer.projector, [])
        self.assumed: list[tuple[str, Type, list[Type]]] = []

    # ---- written lines as terms
    def lookup(self, words: list[str]) -> Named_:
        name = words[-1]
        if name in self.world.named:
            kind = "trait" if self.world.get(self.world.named[name]).is_trait else "struct"
            return kind, name, name
        if name in CORE_NAMES:
            return "struct" if name == "Box" else "trait", name, name
        if name in self.renderer.further or name in ("Never_", APPLY):
            return "trait", name, name
        if name in SPECIAL_HEADS or name in FUNCTION_STRUCTS or name in FLOATS or name == WRAP or (name.startswith("Tuple") and name.endswith("_")):
            return "struct", name, name
        return "word", None, name

    def parsed(self, text: str) -> TextLine:
        """The line as terms. A name is the same in all texts of a world, so each line is read once."""
        if text not in self.world.parsed:
            self.world.parsed[text] = self.read(text)
        found: TextLine = self.world.parsed[text]
        return found

    def read(self, text: str) -> TextLine:
        reader = Reader(text, self.lookup, unknowns=True)
        line = TextLine(0, text, "impl", "")
        reader.need("impl")
        line.params, _ = reader.generics()
        line.trait = reader.bound()
        reader.need("for")
        line.self_type = reader.type()
        if reader.eat("where"):
            line.clauses = reader.where()
        return line

    def lines_of(self, impl: Impl) -> list[TextLine]:
        if id(impl) not in self.lines:
            written: Written = self.translation.impl_writer.write(impl)
            self.lines[id(impl)] = [self.parsed(line.text) for line in dict.fromkeys(written.upper + written.lower)]
        return self.lines[id(impl)]

    def term(self, declaration: Declaration, written: Type) -> Optional[Type]:
        """A field as the text writes it; None for what it cannot say."""
        try:
            text = self.renderer.type(written, Scope(FIELD, names_of(declaration.params), predicates=declaration.predicates))
            return Reader(text, self.lookup).type()
        except (Lossy, NotUnderstood):
            return None

    # ---- what there is
    def trait_of(self, name: str) -> Optional[Declaration]:
        """The trait of a name, for a companion, or one that asks patterns, the one that it goes with."""
        key = self.renderer.further.get(name) or self.world.named.get(name)
        return self.world.get(key) if key else None

    def candidates(self, trait: Declaration, head: Optional[str]) -> Iterator[Impl]:
        if is_std_key(trait.key):
            for impl in self.standard.impls_with_head(trait.key, head):
                if self.translation.taken(trait, impl) and self.is_there(impl, head) and self.is_understood(impl):
                    yield impl
        for impl in self.world.impls_of(trait.key, head):
            if impl.crate in self.view and self.is_there(impl, head):
                yield impl
        for impl in self.translation.objects() if head in (None, "dyn") else ():
            if impl.trait is not None and impl.trait.key == trait.key:
                yield impl

    def is_there(self, impl: Impl, head: Optional[str]) -> bool:
        """A variable gets its value from headers of the text alone, so an impl that names nothing of the text concludes nothing of it."""
        return head is not None or self.is_open or impl.trait is None or self.translation.absent(impl) is None

    def is_understood(self, impl: Impl) -> bool:
        """Types of std whose declaration is not understood are in no text."""
        assert impl.trait is not None
        for term in (impl.self_type, *impl.trait.arguments):
            for key in keys_of(term):
                if is_std_key(key):
                    try:
                        self.world.get(key)
                    except Lossy:
                        return False
        return True

    def head(self, term: Type) -> Optional[str]:
        """The head of a term of the text as impls have it. None if it may be anything."""
        if isinstance(term, Unknown):
            return None
        if not isinstance(term, Named):
            return head_of(term)
        if term.key in SPECIAL_HEADS:
            return SPECIAL_HEADS[term.key]
        if term.key in FLOATS:
            return "prim:" + term.key
        if term.key in FUNCTION_STRUCTS:
            return next(leaves_of_functions(term), None)
        if self.world.named.get(term.key, "") in self.world.shape_of_key:
            return "dyn"
        if term.key.startswith("Tuple") and term.key not in self.world.named:
            return "tuple:" + term.key[len("Tuple"):-1]
        return self.world.named.get(term.key, term.key)

    def declared(self, name: str) -> Optional[TextLine]:
        """A trait with its supertraits as the text has them; a companion has none."""
        if name not in self.traits:
            self.traits[name] = None
            key = self.world.named.get(name)
            declaration = self.world.get(key) if key else None
            if declaration is not None and declaration.is_trait and not self.world.is_cores(declaration):
                line = TextLine(0, "", "trait", "", name, is_auto=declaration.is_auto)
                line.params = [Param(p.kind, names_of([p])[p.name]) for kind in ("type", "const") for p in declaration.params if p.kind == kind]
                for text, _ in self.renderer.supertraits(declaration)[0]:
                    bound = Reader(text, self.lookup).bound()
                    line.bounds += [bound] if bound else []
                self.traits[name] = line
        return self.traits[name]

    def fields_of(self, term: Named) -> list[Type]:
        """The fields of a struct with its arguments put in: of std the tail alone, auto traits of its types being impls."""
        if term.key not in self.world.named:
            return [*term.arguments, UNIT]
        declaration = self.world.get(self.world.named[term.key])
        if declaration.is_opaque:
            return []
        if is_packed(declaration.params):
            return [*term.arguments, UNIT]
        fields = declaration.fields if not is_std_key(declaration.key) else [declaration.tail] if declaration.tail is not None else []
        names = [names_of([p])[p.name] for kind in ("type", "const") for p in declaration.params if p.kind == kind]
        values = dict(zip(names, term.arguments))
        found = [put(f, values) for f in (self.term(declaration, f) for f in fields) if f is not None]
        return found + ([UNIT] if declaration.is_enum and fields else [])

    # ---- the closure
    def close(self, seeds: list[Reference_]) -> None:
        todo = list(seeds)
        while todo:
            trait, arguments = todo.pop()
            arguments = tuple(cut_off(a, DEEPEST) for a in arguments)
            place = (trait, pattern_in(arguments))
            if len(self.chosen.references) > MOST:
                raise TooLarge("what it leads to is too large")
            if self.per_trait.get(place, 0) > MANY:
                arguments = self.widened(trait, arguments)
            if (trait, arguments) in self.chosen.references:
                continue
            self.chosen.references.add((trait, arguments))
            self.per_trait[place] = self.per_trait.get(place, 0) + 1
            for term in arguments:
                self.mark(term)
            todo += self.children((trait, arguments), Reach())

    def widened(self, trait: str, arguments: tuple[Type, ...]) -> tuple[Type, ...]:
        """The arguments as variables; of an auto trait the type's name stays, since its fields and impls are found by that."""
        line, subject = self.declared(trait), arguments[0]
        if line is not None and line.is_auto and isinstance(subject, Named):
            return (Named(subject.key, (ANY,) * len(subject.arguments)),)
        return widest(arguments)

    def mark(self, term: Type) -> None:
        leaves = {key for key in keys_of(term) if key.startswith(("prim:", "tuple:", "fn:"))}.union(leaves_of_functions(term))
        self.chosen.leaves |= leaves
        self.translation.mark(leaves)

    def children(self, reference: Reference_, found: Reach) -> list[Reference_]:
        trait, arguments = reference
        if self.is_free(arguments[0]):
            return []
        self.bound_by_rules(trait, arguments)
        if trait == APPLY:
            return self.by_meaning(reference)
        children: list[Reference_] = []
        declaration = self.trait_of(trait)
        if declaration is not None:
            for impl in self.candidates(declaration, self.head(arguments[0])):
                children += self.by_impl(impl, reference)
            if trait in self.renderer.further:
                children += self.by_functions(declaration, reference) + self.by_assumed(reference)
        line = self.declared(trait)
        if line is not None:
            values = {p.name: a for p, a in zip(line.params, arguments[1:])}
            children += [(b.key, (arguments[0], *(put(a, values) for a in b.arguments))) for b in line.bounds]
            if line.is_auto and declaration is not None:
                children += self.by_auto_trait(declaration, arguments[0])
        children += premises(reference)
        if trait in BY_PARTS:
            children += [(trait, (part,)) for part in self.parts(arguments[0], trait)]
        if trait in BY_TARGET:
            children += self.by_unsize(*arguments)
        return children

    def bound_by_rules(self, trait: str, arguments: tuple[Type, ...]) -> None:
        """Built-in rules that may find a variable out: of `Unsize`, of fn pointers, of a `dyn`."""
        if self.free and (trait in FINDING_OUT or any(isinstance(part, Dyn) for part in walk(arguments[0]))):
            self.bound |= self.free & set().union(*map(unknowns_of, arguments))

    def by_impl(self, impl: Impl, reference: Reference_) -> list[Reference_]:
        """The premises of an impl's lines that may conclude the reference; with one of them the impl is chosen."""
        trait, arguments = reference
        children: list[Reference_] = []
        lines = self.lines_of(impl)
        if not lines:
            # It is out of both texts; answers that it may turn have to name it.
            self.chosen.impls[id(impl)] = impl
        for line in lines:
            found = self.by_line(line, reference)
            if found is not None:
                self.choose(impl, line)
                children += found
        return children

    def by_line(self, line: TextLine, reference: Reference_) -> Optional[list[Reference_]]:
        """The premises of a line by which the reference may be concluded. None if it may not."""
        trait, arguments = reference
        assert line.trait is not None
        pattern, params = (line.self_type, *line.trait.arguments), {x.name for x in line.params}
        values: dict[str, Type] = {}
        self.looked_at += self.is_open
        if self.looked_at > MOST_OPEN:
            raise TooLarge("too many impls may matter for what its variables stand for: write more of the types")
        if line.trait.key != trait or len(pattern) != len(arguments) or not all(bind(p, a, params, values) for p, a in zip(pattern, arguments)):
            return None
        if self.free:
            firsts: dict[str, Type] = {}
            self.bound |= self.free & set().union(*(found_out(p, a, params, firsts) for p, a in zip(pattern, arguments)))
        return [(b.key, (put(s, values), *(put(a, values) for a in b.arguments))) for s, b in line.clauses]

    # ---- patterns
    def by_meaning(self, reference: Reference_) -> list[Reference_]:
        """What a pattern means of a value; of a variable one what all that are written so far mean."""
        children: list[Reference_] = []
        subject = reference[1][0]
        patterns = self.translation.impl_writer.projector.patterns
        for name in [subject.key] if isinstance(subject, Named) else list(patterns):
            if name not in patterns:
                continue
            if name not in self.meanings:
                self.meanings[name] = self.parsed(patterns[name].line)
            children += self.by_line(self.meanings[name], reference) or []
        return children

    def by_functions(self, trait: Declaration, reference: Reference_) -> list[Reference_]:
        """What fn pointers ask: that a pattern holds of their output."""
        subject = reference[1][0]
        children: list[Reference_] = []
        if not self.renderer.is_fn_trait(trait):
            return children
        for text in self.translation.all_fn_lines(trait):
            children += self.by_line(self.parsed(text), reference) or []
        return children

    def by_assumed(self, reference: Reference_) -> list[Reference_]:
        """What a query's clauses have to prove before it: whether a pattern holds of a value that they name."""
        trait, arguments = reference
        if not trait.endswith(THEN):
            return []
        patterns = [a.arguments[0] if isinstance(a, Named) else ANY for a in arguments[1:]
                    if isinstance(a, Unknown) or isinstance(a, Named) and a.key == WRAP]
        return [(APPLY, (pattern, value)) for companion, subject, values in self.assumed
                if trait == companion + THEN and (isinstance(arguments[0], Unknown) or subject == arguments[0])
                for value in values for pattern in patterns]

    def choose(self, impl: Impl, line: TextLine) -> None:
        self.chosen.impls[id(impl)] = impl
        for term in opened(line)[1]:
            self.mark(term)

    def by_auto_trait(self, trait: Declaration, term: Type) -> list[Reference_]:
        """An impl for the same head takes the built-in rule away, whatever its arguments are; of std's types the page has all impls."""
        name = self.world.name(trait)
        if isinstance(term, Unknown):
            return []
        children: list[Reference_] = []
        for impl in self.candidates(trait, self.head(term)):
            if self.lines_of(impl):
                self.chosen.impls[id(impl)] = impl
        if isinstance(term, Named):
            self.chosen.asked.add((term.key, name))
            key = self.world.named.get(term.key)
            if key and is_std_key(key) and is_std_key(trait.key):
                for _, impl in self.standard.auto_impls(key):
                    if impl.trait is not None and impl.trait.key == trait.key and isinstance(impl.self_type, Named) and impl.self_type.key == key:
                        self.chosen.impls[id(impl)] = impl
                        children += self.by_impl(impl, (name, (term,)))
        return children + [(name, (part,)) for part in self.parts(term, name)] + self.by_fields(trait, term)

    def by_fields(self, trait: Declaration, term: Type) -> list[Reference_]:
        """What an auto trait asks of fields with associated types, which a struct that is cut has as clauses of its impl."""
        declaration = self.world.get(self.world.named[term.key]) if isinstance(term, Named) and term.key in self.world.named else None
        if declaration is None or is_std_key(declaration.key) or declaration.is_opaque or is_packed(declaration.params):
            return []
        children: list[Reference_] = []
        header = f"impl{params_text(declaration.params)} {self.world.name(trait)} for {self.world.name(declaration)}{as_arguments(params_text(declaration.params))}"
        for written in declaration.fields:
            if self.term(declaration, written) is None:
                try:
                    line = self.parsed(f"{header} where {self.declarer.projected(declaration, written, trait)}")
                except (Lossy, NotUnderstood):
                    continue
                children += self.by_line(line, (self.world.name(trait), (term,))) or []
        return children

    def parts(self, term: Type, trait: str) -> list[Type]:
        match term:
            case Tuple(items):
                return list(items)
            case Named():
                return self.fields_of(term)
        return [term.element] if hasattr(term, "element") else []

    def by_unsize(self, term: Type, target: Type) -> list[Reference_]:
        if isinstance(target, Dyn):
            return [("Sized", (term,))] + [(b.key, (term, *b.arguments)) for b in target.bounds]
        if isinstance(term, Named) and isinstance(target, Named) and term.key == target.key:
            return [("Unsize", pair) for pair in zip(self.fields_of(term)[-1:], self.fields_of(target)[-1:])]
        return []


class Lines:
    """Lines that were written in an earlier round. A new companion of a trait needs them again."""

    def __init__(self, translation: Translation) -> None:
        self.translation = translation
        self.count = -1
        self.lines: dict[int, list[TextLine]] = {}

    def kept(self) -> dict[int, list[TextLine]]:
        count = len(self.translation.renderer.further)
        if count != self.count:
            self.count, self.lines = count, {}
        return self.lines


# ---- of a query
def view_of(world: World, crate: str) -> set[str]:
    seen: set[str] = set()
    todo = [crate]
    while todo:
        name = todo.pop()
        if name not in seen:
            seen.add(name)
            todo += world.uses.get(name, [])
    return seen


def cone_of_questions(world: World, questions: list[Question], further: Sequence[Reference_] = ()) -> Translation:
    """The part of the crates that answers the queries and the further references, not yet built."""
    free = free_variables(questions)
    while True:
        scratch = Translation(world, cone=Chosen())
        scratch.roots = [root for question in questions for root in question.roots()]
        scratch.begin()
        chosen, bound = closed(scratch, questions, further, free)
        if not bound:
            break
        free -= bound
    found = Translation(world, cone=chosen)
    found.roots = scratch.roots
    found.keep = {crate_name(question.of_crate) for question in questions}
    return found


def free_variables(questions: list[Question]) -> frozenset[str]:
    """The variables that may be free: those of one query that are in its subject alone, if it has no clauses that may give them values."""
    if len(questions) != 1 or questions[0].params or questions[0].predicates:
        return frozenset()
    others = set().union(*map(unknowns_of, terms_of(questions[0].bound)))
    return frozenset(unknowns_of(questions[0].subject) - others - {OWN})


def closed(scratch: Translation, questions: list[Question], further: Sequence[Reference_], free: frozenset[str]) -> tuple[Chosen, set[str]]:
    """What is chosen for the queries, and which variables are not free."""
    chosen = Chosen()
    is_open = any(question.has_unknowns() and unknowns_in(question) - free for question in questions)
    lines: Lines = Lines(scratch)
    for _ in range(ROUNDS):
        scratch.renderer.grew = False
        seeds: list[Reference_] = []
        view: set[str] = set()
        cone = Cone(scratch, view, is_open, free)
        cone.lines = lines.kept()
        writer = QuestionWriter(scratch)
        for question in questions:
            try:
                writer.write(question)
            except Lossy:
                continue
            view |= view_of(scratch.world, question.of_crate)
            seeds += [reference for asked in question.lines for reference in references_of(cone, asked.prove)]
        cone.close([*seeds, *further])
        chosen = cone.chosen
        if cone.bound or not scratch.renderer.grew:
            return chosen, cone.bound
    return chosen, set()


def unknowns_in(question: Question) -> set[str]:
    return set().union(*(unknowns_of(term) for root in question.roots() for term in terms_of(root)))


def references_of(cone: Cone, prove: str) -> list[Reference_]:
    """The goal of a query, from its line."""
    reader = Reader(prove, cone.lookup, unknowns=True)
    reader.need("prove")
    reader.need("in")
    reader.word()
    reader.generics()
    subject = reader.type()
    reader.need(":")
    bound = reader.bound()
    for place, clause in reader.where() if reader.eat("where") else []:
        cone.assumed.append((clause.key, place, list(clause.arguments)))
    return [(bound.key, (subject, *bound.arguments))] if bound else []


# ---- of a crate's check
def cone_of_impls(world: World, name: str) -> Translation:
    """A crate's impls alone, to see what became of them."""
    return Translation(world, cone=Chosen({id(impl): impl for impl in world.crates[name].impls}))


def cone_of_crate(world: World, name: str, with_patterns: bool = True) -> Translation:
    """What the check of one crate looks at: its impls, those that may meet one of them, and what their clauses lead to."""
    scratch = Translation(world, cone=Chosen(), with_patterns=with_patterns)
    scratch.begin()
    chosen = Chosen()
    lines = Lines(scratch)
    for _ in range(ROUNDS):
        scratch.renderer.grew = False
        cone = Cone(scratch, view_of(world, name))
        cone.lines = lines.kept()
        seeds: list[Reference_] = []
        # First of all, and in their order, so that the program's first refusal is that of the whole text.
        cone.chosen.impls.update((id(impl), impl) for impl in world.crates[name].impls)
        for impl in world.crates[name].impls:
            for line in cone.lines_of(impl):
                cone.choose(impl, line)
                seeds += meetings(cone, impl, line)
        cone.close(seeds)
        chosen = cone.chosen
        if not scratch.renderer.grew:
            break
    found = Translation(world, cone=chosen, with_patterns=with_patterns)
    found.keep = {crate_name(name)}
    return found


def opened(line: TextLine) -> Reference_:
    """A header as a reference, its parameters unknown."""
    assert line.trait is not None
    values: dict[str, Type] = {p.name: ANY for p in line.params}
    return line.trait.key, tuple(put(t, values) for t in (line.self_type, *line.trait.arguments))


def meetings(cone: Cone, impl: Impl, line: TextLine) -> list[Reference_]:
    """Chooses the impls that may have an instance in common with this line, with their clauses and its own in that instance."""
    trait, arguments = opened(line)
    declaration = cone.trait_of(trait)
    found: list[Reference_] = []
    if declaration is None:
        # A trait of the text's `core`: its own impls are in each text.
        return [(b.key, (ANY, *b.arguments)) for _, b in line.clauses]
    for other in cone.candidates(declaration, cone.head(arguments[0])):
        if other is impl:
            continue
        for theirs in cone.lines_of(other):
            assert theirs.trait is not None
            pattern = (theirs.self_type, *theirs.trait.arguments)
            if theirs.trait.key != trait or len(pattern) != len(arguments):
                continue
            values: dict[str, Type] = {}
            if not all(bind(p, a, {x.name for x in theirs.params}, values) for p, a in zip(pattern, arguments)):
                continue
            cone.choose(other, theirs)
            found += [(b.key, (put(s, values), *(put(a, values) for a in b.arguments))) for s, b in theirs.clauses]
            values = {}
            assert line.trait is not None
            for p, a in zip((line.self_type, *line.trait.arguments), opened(theirs)[1]):
                bind(p, a, {x.name for x in line.params}, values)
            found += [(b.key, (put(s, values), *(put(a, values) for a in b.arguments))) for s, b in line.clauses]
    # Two lines that ask a variable pattern have the clauses of their impls too, which meet as well: it never distinguishes them.
    return [r for r in found if r[0] != APPLY or not isinstance(r[1][0], Unknown)]
