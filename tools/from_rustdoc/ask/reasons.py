"""Why a query has no proof: the program's explanation (`celtisdarts --explain`), in Rust's names and with the places of the real sources.

The program names the goal that failed first, and then what it was needed for, from the inside out. Lines of the text become impls and
structs of the crates, patterns and companions the associated types that they stand for. What cannot be read back is left out.
"""
from __future__ import annotations

import re
from dataclasses import dataclass, field
from typing import Any, Iterator, Optional

from ..model.show import Show
from ..model.world import CORE_NAMES
from ..read.headers import Named_, NotUnderstood, Reader
from ..read.html_docs import is_std_key
from ..read.terms import BadInput, Bound, Declaration, Dyn, Impl, Lossy, Named, Parameter, Place, Predicate, Projection, Type, argument_values, put, rebuilt
from ..report.messages import Message, at
from ..write.build import Piece
from ..write.render import FIELD, Scope, names_of
from ..write.text_form import read_text
from ..write.unfold import Unfolder
from .assume import Assumed, Assumer, asked_goal
from .back import Back, shortened
from .program import explain
from .questions import InText, Verdict
from .reach import Reach

GOAL = re.compile(r"the trait bound `(.*)` was not proved$")
STEP = re.compile(r"required for `(.*)` to implement `(.*)`(, by a built-in rule)?(, not checked)?$")
CYCLE = "needs itself"
NEVER, APPLY, WRAP, OBJECT = "Never_", "Apply_", "Wrap_", "Object_"
SPECIAL = (NEVER, APPLY, WRAP)
SHOWN, DEEPEST = 4, 4


@dataclass
class Goal:
    """`subject: bound`, with the names of the text, and the line of it that concludes this."""
    subject: Type
    bound: Bound
    piece: Optional[Piece] = None
    is_built_in: bool = False


@dataclass
class Told:
    """What the program says of one line: the goals from the inside out, its helps, and whether the innermost is one in a cycle."""
    goals: list[Goal] = field(default_factory=list)
    helps: list[str] = field(default_factory=list)
    is_cycle: bool = False


@dataclass(frozen=True)
class Step:
    """A step of a proof: a goal, how deep it is below the query, and by what it holds; of an impl its header."""
    depth: int
    goal: str
    how: str
    impl: str = ""
    place: Optional[Place] = None


def is_of_text(subject: Type) -> bool:
    """Whether it is the field `dyn Object_` by which the struct that stands for a `dyn` has no auto trait of its own."""
    return isinstance(subject, Dyn) and any(bound.key == OBJECT for bound in subject.bounds)


class Explainer:
    """Explains a query in its text: that it has no proof in the upper one, where every impl stands that may count, or the proof that
    it has in the lower one."""

    def __init__(self, asked: InText, mode: str, program: Optional[str] = None) -> None:
        self.asked = asked
        self.prove = asked.lines[mode]
        self.names = asked.names
        self.translation = asked.translation
        self.program = program
        self.world = self.translation.world
        self.show = Show(self.world)
        self.back = Back(self.world)
        self.askable = self.back.show
        lines, self.pieces = self.translation.text(mode)
        self.text = "\n".join(lines) + "\n"
        self.companions, self.thens = self.of_associated_types()

    def of_associated_types(self) -> tuple[dict[str, tuple[str, str]], dict[str, tuple[str, str]]]:
        """The traits of the text that stand for associated types: those of values, and those that ask patterns."""
        renderer = self.translation.renderer
        values = {renderer.companion_name(self.world.get(key), name): (key, name) for key, name in renderer.companions}
        return values, {renderer.then_name(self.world.get(key), name): (key, name) for key, name in renderer.thens}

    # ---- what the program says
    def explain(self) -> list[Message]:
        """Notes on why there is no proof. None if nothing can be read back."""
        told = self.refusal()
        return self.notes(told) if told is not None else []

    def refusal(self) -> Optional[Told]:
        """What the program says of the query, down to the goal that failed first."""
        told = self.told([self.prove])[0]
        if told is not None and told.is_cycle:
            told = self.without_cycle(told) or told
        for _ in range(DEEPEST):
            deeper = self.of_value(told) if told is not None else None
            if deeper is None:
                break
            told = deeper
        return told

    def said(self, lines: list[str]) -> list[dict[str, Any]]:
        found = explain(self.text + "".join(line + "\n" for line in lines), self.program)
        return [message for message in found if message.get("answer", "").startswith("prove ")]

    def told(self, lines: list[str]) -> list[Optional[Told]]:
        said = self.said(lines)
        return [self.read(message) if message.get("code") else None for message in said] + [None] * (len(lines) - len(said))

    def read(self, message: dict[str, Any]) -> Optional[Told]:
        found = GOAL.match(message["message"])
        if found is None:
            return None
        told = Told()
        try:
            told.goals.append(self.goal(found.group(1)))
        except NotUnderstood:
            return None
        for child in message["children"]:
            step = STEP.match(child["message"])
            if step is not None:
                try:
                    goal = self.goal(f"{step.group(1)}: {step.group(2)}")
                except NotUnderstood:
                    continue
                goal.is_built_in = bool(step.group(3))
                goal.piece = None if goal.is_built_in else self.piece_of(child)
                told.goals.append(goal)
            elif CYCLE in child["message"]:
                told.is_cycle = True
            elif child["level"] == "help":
                told.helps.append(child["message"])
        return told

    def piece_of(self, child: dict[str, Any]) -> Optional[Piece]:
        number = child["spans"][0]["line_start"] - 1 if child["spans"] else len(self.pieces)
        return self.pieces[number] if number < len(self.pieces) else None

    def goal(self, written: str) -> Goal:
        """`Vec<u8, Global>: Clone` of the text."""
        reader = Reader(written, self.lookup, unknowns=True)
        subject = reader.type()
        reader.need(":")
        bound = reader.bound()
        if bound is None or not reader.at_end():
            raise NotUnderstood(written)
        return Goal(subject, bound)

    def lookup(self, words: list[str]) -> Named_:
        """Names stand for themselves."""
        name = words[-1]
        kind = self.back.lookup(words)[0] if name not in SPECIAL else "struct"
        of_text = name in self.thens or name in self.companions or name in self.translation.renderer.further
        is_trait = kind == "trait" or of_text or (name in CORE_NAMES and name != "Box")
        return ("trait", name, name) if is_trait else (kind, None if kind == "word" else name, name)

    # ---- from the text to Rust
    def rust(self, term: Type) -> Type:
        """A type of the text as Rust has it, without arguments that are left to defaults."""
        if isinstance(term, Named) and term.key in SPECIAL:
            return Named(term.key, tuple(map(self.rust, term.arguments)))
        return self.shortened(put(self.back.type(self.keyed(term)), self.names))

    def keyed(self, term: Type) -> Type:
        """The type with its items' keys for their names in the text."""
        term = rebuilt(term, self.keyed)
        return Named(self.world.named.get(term.key, term.key), term.arguments) if isinstance(term, Named) else term

    def shortened(self, term: Type) -> Type:
        term = rebuilt(term, self.shortened)
        return shortened(self.world, term) if isinstance(term, Named) and term.key not in SPECIAL else term

    def shown_type(self, term: Type) -> str:
        return self.show.type(self.rust(term))

    def shown_bound(self, bound: Bound) -> str:
        return self.show.bound(Bound(self.world.named.get(bound.key, bound.key), tuple(map(self.rust, bound.arguments))))

    def without_cycle(self, told: Told) -> Optional[Told]:
        """A cycle is no reason by itself where something else of a type in it fails too: its fields are asked one by one."""
        for number, goal in enumerate(told.goals):
            declaration = self.declaration(self.rust(goal.subject)) if self.is_by_fields(goal) else None
            if declaration is None:
                continue
            lines = [line for line in (self.field_line(goal, declaration, term) for term in declaration.fields) if line]
            for other in self.told(lines):
                if other is not None and not other.is_cycle:
                    other.goals += told.goals[number:]
                    return other
        return None

    def of_value(self, told: Told) -> Optional[Told]:
        """Why a pattern does not hold of the value that the query's clauses give an associated type: the program is asked that by itself."""
        first = told.goals[0]
        if first.bound.key not in self.thens:
            return None
        text = read_text(self.text + self.prove + "\n")
        line = text.lines[-1]
        thens = {name: self.translation.renderer.companion_name(self.world.get(key), value) for name, (key, value) in self.thens.items()}
        reach = Reach(references={(first.bound.key, (first.subject, *first.bound.arguments))})
        lines = [asked_goal(self.prove, line, candidate.goal()) for candidate in Assumer(text, thens).candidates(line, reach, Assumed())]
        for other in self.told(lines):
            if other is not None:
                other.goals += told.goals
                return other
        return None

    def field_line(self, goal: Goal, declaration: Declaration, term: Type) -> str:
        """What asks the goal of a field."""
        itself = self.rust(goal.subject)
        assert isinstance(itself, Named)
        try:
            names = {name: text for text, place in self.names.items() if isinstance(place, Parameter) for name in [place.name]}
            written = self.translation.renderer.type(put(term, argument_values(declaration.params, itself.arguments)), Scope(FIELD, names))
            return f"prove in {self.asked.crate} {written}: {goal.bound.key}"
        except Lossy:
            return ""

    # ---- as notes
    @staticmethod
    def chain(told: Told) -> tuple[list[Goal], bool]:
        """The goals that Rust has too, from the inside out, and whether a negative impl rules the first one out."""
        goals = [goal for goal in told.goals if goal.bound.key != APPLY and not is_of_text(goal.subject)]
        is_negative = len(goals) > 1 and goals[0].bound.key == NEVER
        return goals[is_negative:], is_negative

    def notes(self, told: Told) -> list[Message]:
        goals, is_negative = self.chain(told)
        if not goals:
            return []
        first, rest = goals[0], goals[1:]
        if is_negative:
            notes = [self.negative(first)]
        else:
            notes = [Message(f"`{self.shown(first)}` does not hold", kind="note")] if rest else []
        inner = first
        for goal in rest:
            note = self.step(goal, inner)
            if note is not None:
                notes.append(note)
            inner = goal
        return notes + self.helps(first, told)

    def negative(self, goal: Goal) -> Message:
        impl = self.impl_of(goal)
        text = f"`{self.shown(goal)}` does not hold"
        if impl is None or not impl.is_negative:
            return Message(text, kind="note")
        whose = "std" if impl.source.startswith("std") else f"`{impl.crate}`"
        return Message(f"{text}: {whose} has `{self.show.header(impl)}`", kind="note", spans=at(impl.place))

    def step(self, goal: Goal, inner: Goal) -> Optional[Message]:
        """What the inner goal is needed for."""
        if goal.bound.key in self.thens:
            return Message(f"it is asked of the value of `{self.value(goal)}`", kind="note")
        if goal.bound.key in self.companions:
            return None
        text = f"required for `{self.shown(goal)}`"
        declaration = self.declaration(self.rust(goal.subject))
        if declaration is not None and self.is_by_fields(goal):
            name, its_type = self.field_of(goal, inner)
            its = f"its field `{name}` is `{its_type}`" if name else ""
            return Message(f"{text}: {its}" if its else text, kind="note", spans=at(declaration.place), summary=its)
        impl = self.impl_of(goal)
        if impl is not None and impl.trait is not None:
            return Message(f"{text}, by `{self.show.header(impl)}`" + ("" if impl.place else f" ({impl.source.split(':')[0]})"), kind="note", spans=at(impl.place))
        return Message(text, kind="note")

    def field_of(self, goal: Goal, inner: Goal) -> tuple[str, str]:
        """Of a goal by the fields of a type that field for which the inner goal is needed, and its type; empty where there is none."""
        itself = self.rust(goal.subject)
        declaration = self.declaration(itself)
        if declaration is None or not isinstance(itself, Named):
            return "", ""
        wanted = self.shown_type(self.unfolded(inner)[0] if inner.bound.key in self.thens else inner.subject)
        values = argument_values(declaration.params, itself.arguments)
        for name, term in zip(declaration.field_names, declaration.fields):
            if self.show.type(self.shortened(put(self.resolved(declaration, term), values))) == wanted:
                return name, wanted
        return "", ""

    @staticmethod
    def is_by_fields(goal: Goal) -> bool:
        """Whether a goal is asked of the parts of a type."""
        return goal.is_built_in or goal.piece is not None and goal.piece.cut is not None

    @staticmethod
    def impl_of(goal: Goal) -> Optional[Impl]:
        return goal.piece.written.impl if goal.piece is not None and goal.piece.written is not None else None

    def value(self, goal: Goal) -> str:
        """The associated type of whose value a goal asks a pattern."""
        key, name = self.thens[goal.bound.key]
        arguments = tuple(self.rust(a) for a in goal.bound.arguments if not (isinstance(a, Named) and a.key == WRAP))
        return self.show.type(Projection(self.rust(goal.subject), Bound(key, arguments), name))

    def resolved(self, declaration: Declaration, term: Type) -> Type:
        """A field with the traits of its associated types."""
        try:
            return self.translation.renderer.resolved(term, Scope(FIELD, names_of(declaration.params), predicates=declaration.predicates))
        except Lossy:
            return term

    def declaration(self, term: Type) -> Optional[Declaration]:
        try:
            return self.world.get(term.key, "struct", term.arguments) if isinstance(term, Named) and term.key not in SPECIAL else None
        except Lossy:
            return None

    def shown(self, goal: Goal) -> str:
        """A goal as Rust writes it: `I::Item: Clone` for what the text says by a pattern."""
        subject, bound = goal.subject, goal.bound
        if bound.key in self.companions:
            key, name = self.companions[bound.key]
            value, others = self.value_of(goal, key)
            return f"{self.show.type(Projection(self.rust(subject), Bound(key, others), name))} == {self.show.type(value)}"
        if bound.key in self.thens:
            subject, bound = self.unfolded(goal)
        return f"{self.shown_type(subject)}: {self.shown_bound(bound)}"

    def value_of(self, goal: Goal, key: str) -> tuple[Type, tuple[Type, ...]]:
        """Of a goal that an associated type is a type: that type, and the arguments of the trait."""
        count = len([p for p in self.world.get(key).params if p.kind == "type"])
        arguments = tuple(map(self.rust, goal.bound.arguments))
        return arguments[count], arguments[:count] + arguments[count + 1:]

    def unfolded(self, goal: Goal) -> tuple[Type, Bound]:
        """What a goal that asks a pattern asks of the associated type."""
        found = Unfolder(read_text(self.text), self.thens).unfold(goal.subject, goal.bound)
        if found.bound is None:
            raise NotUnderstood("a pattern that is not all known")
        return found.subject, found.bound

    # ---- a proof
    def proof(self) -> list[Message]:
        """The proof that was found, a note for each step that is not about a size; what is above is not said again."""
        return [Message(f"{'  ' * step.depth}`{step.goal}`: {step.how}", kind="note", spans=at(step.place)) for step in self.steps()]

    def steps(self) -> list[Step]:
        """The steps of the proof in the order of its trees, each before what it rests on."""
        return [step for message in self.said([self.prove]) for root in message.get("proof", []) for step in self.steps_of(root, 0)]

    def steps_of(self, row: dict[str, Any], depth: int) -> Iterator[Step]:
        step = self.row(row, depth)
        if step is not None:
            yield step
        for premise in row["premises"]:
            yield from self.steps_of(premise, depth + 1)

    def row(self, row: dict[str, Any], depth: int) -> Optional[Step]:
        """A step as Rust has it; nothing for what only the text has, and for what was said before."""
        rule = str(row["rule"])
        if rule == "shown above":
            return None
        try:
            goal = self.goal(row["goal"])
        except NotUnderstood:
            return None
        if goal.bound.key in (APPLY, "Sized") or goal.bound.key in self.translation.renderer.further:
            return None
        number = row["span"]["line_start"] if row["span"] else 0
        piece = self.pieces[number - 1] if 0 < number <= len(self.pieces) else None
        impl = piece.written.impl if piece is not None and piece.written is not None else None
        declaration = self.declaration(self.rust(goal.subject))
        header = self.show.header(impl) if impl is not None and impl.trait is not None else ""
        how = "built-in rule" if piece is not None and impl is None else f"`{header}`" if header else "std's impl" if "`core`" in rule else rule
        place = impl.place if impl is not None else declaration.place if declaration is not None and how == "built-in rule" else None
        return Step(depth, self.shown(goal), how, header, place)

    # ---- helps
    def helps(self, goal: Goal, told: Told) -> list[Message]:
        """What may be done: a clause that the query has not, and the types of the crates that have the trait."""
        found = [text for text in told.helps if "where-clause" in text]
        helps = [Message(f"ask it with `where {self.clause(goal)}`", kind="help")] if found else []
        key = self.world.named.get(goal.bound.key)
        if key is not None and not is_std_key(key):
            impls = self.nearest([i for i in self.world.impls_of(key, None) if not i.is_negative and i.trait is not None])
            names = [f"`{self.show.type(i.self_type)}`" for i in impls[:SHOWN]]
            more = f" and {len(impls) - SHOWN} more" if len(impls) > SHOWN else ""
            which = f"`{self.show.path(key)}` is implemented for {', '.join(names)}{more}" if impls else f"nothing that is seen implements `{self.show.path(key)}`"
            helps.append(Message(which, kind="help"))
        return helps

    def clause(self, goal: Goal) -> str:
        """A goal as a where-clause of a query."""
        subject, bound = self.predicate(goal)
        return f"{self.askable.type(subject)}: {self.askable.bound(bound)}"

    def predicate(self, goal: Goal) -> Predicate:
        """A goal as Rust has it."""
        subject, bound = goal.subject, goal.bound
        if bound.key in self.companions:
            key, name = self.companions[bound.key]
            value, others = self.value_of(goal, key)
            return self.rust(subject), Bound(key, others, ((name, value),))
        if bound.key in self.thens:
            subject, bound = self.unfolded(goal)
        return self.rust(subject), Bound(self.world.named.get(bound.key, bound.key), tuple(map(self.rust, bound.arguments)))

    def nearest(self, impls: list[Impl]) -> list[Impl]:
        """Those of the crates that use others first, and in each crate types with a name before arrays, tuples and references."""
        order = {name: number for number, name in enumerate(reversed(list(self.world.crates)))}
        return sorted(impls, key=lambda impl: (order.get(impl.crate, len(order)), not isinstance(impl.self_type, Named)))


def why(verdict: Verdict, program: Optional[str] = None, with_proof: bool = False) -> list[Message]:
    """Why a query has no proof, or by what it has one. An explanation that cannot be read is none."""
    if verdict.asked is None or (verdict.word == "yes" and not with_proof):
        return []
    try:
        explainer = Explainer(verdict.asked, "lower" if verdict.word == "yes" else "upper", program)
        return explainer.proof() if verdict.word == "yes" else explainer.explain()
    except (BadInput, Lossy, NotUnderstood):
        return []
