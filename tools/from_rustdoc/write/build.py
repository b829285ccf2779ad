"""The translation: what the text needs, gathered until nothing is added, and the lines of each crate in both texts."""
from __future__ import annotations

from dataclasses import dataclass, field
from typing import TYPE_CHECKING, Iterable, Iterator, Optional

from ..model.objects import is_object
from ..model.world import STD_TEXTS, World, crate_name
from ..read.console import console
from ..read.headers import PRIMITIVES
from ..read.html_docs import is_std_key
from ..read.standard import FN_TRAITS, Header, Standard
from ..read.terms import FUNCTION_STRUCTS, Array, Bound, Declaration, Impl, Lossy, Named, Never, Parameter, Pointer, Primitive, Reference, Type, keys_of
from .declare import Cut, Declarer
from .impls import ImplWriter, Line, Written
from .project import APPLY, WRAP
from .render import ALWAYS, FIELD, MAXIMAL_ITEMS, Renderer, Scope, names_of

if TYPE_CHECKING:
    from ..ask.cone import Chosen

AUTO_TRAITS = {"Send": "core/marker/trait.Send.html", "Sync": "core/marker/trait.Sync.html", "Unpin": "core/marker/trait.Unpin.html",
               "UnwindSafe": "core/panic/unwind_safe/trait.UnwindSafe.html",
               "RefUnwindSafe": "core/panic/unwind_safe/trait.RefUnwindSafe.html"}
USUAL_TRAITS = ("core/default/trait.Default.html", "core/fmt/trait.Debug.html")
USUAL_LEAVES = ("prim:u8", "prim:str", "prim:usize", "prim:bool")
MAXIMAL_ROUNDS = 12


@dataclass
class Piece:
    """A line of a text with where it comes from."""
    upper: Optional[Line]
    lower: Optional[Line]
    source: str
    is_impl: bool = False
    written: Optional[Written] = None
    cut: Optional[Cut] = None
    declaration: Optional[Declaration] = None


@dataclass
class CrateText:
    """A crate as the text has it: what it uses, and its items and impls."""
    name: str
    uses: list[str]
    pieces: list[Piece] = field(default_factory=list)


def without_empty(crates: list[CrateText], keep: set[str]) -> list[CrateText]:
    """The crates that have items, and those to keep. Each uses what it has seen of them, directly or through others."""
    seen: dict[str, dict[str, None]] = {}
    for crate in crates:
        seen[crate.name] = {}
        for used in crate.uses:
            seen[crate.name].update({**seen.get(used, {}), used: None})
    there = {crate.name for crate in crates if crate.pieces or crate.name in keep}
    return [CrateText(c.name, [u for u in seen[c.name] if u in there], c.pieces) for c in crates if c.name in there]


class Translation:
    """All crates of a world, or the part that `cone` has chosen. `with_patterns`: whether clauses on associated types are said."""

    def __init__(self, world: World, whole_std: bool = False, quiet: bool = True, cone: Optional[Chosen] = None, with_patterns: bool = True) -> None:
        self.world = world
        self.cone = cone
        self.standard: Standard = world.standard
        self.renderer = Renderer(world)
        self.impl_writer = ImplWriter(self.renderer, self.standard, with_patterns)
        self.whole_std = whole_std
        self.quiet = quiet
        self.leaves: set[str] = set(USUAL_LEAVES)
        self.std_impls: dict[str, list[tuple[Header, Impl]]] = {}
        self.autos: dict[str, str] = {}
        self.of_crates: list[Written] = []
        self.of_std: list[Written] = []
        self.of_objects: list[Written] = []
        self.crates: list[CrateText] = []
        self.cuts: list[Cut] = []
        self.lost_supers: list[str] = []
        self.roots: list[Type | Bound] = []
        self.keep: set[str] = set()
        self.has_begun = False

    def say(self, text: str) -> None:
        if not self.quiet:
            console.note(text)

    # ---- what is needed
    def begin(self) -> None:
        for name in ALWAYS:
            self.renderer.need_special(name)
        if self.cone is not None:
            self.renderer.names_values = bool(self.roots)
            self.leaves |= self.cone.leaves
            for root in self.roots:
                self.need_root(root)
            return
        for name, page in AUTO_TRAITS.items():
            self.autos[name] = self.needed_page(page)
        for page in USUAL_TRAITS:
            self.needed_page(page)
        for crate in self.world.crates.values():
            for declaration in crate.declarations.values():
                self.renderer.need(declaration.key)
                for term in declaration.fields:
                    self.mark(keys_of(term))
            for impl in crate.impls:
                self.mark_impl(impl)
        self.renderer.names_values = bool(self.roots)
        for root in self.roots:
            self.need_root(root)

    def needed_page(self, page: str) -> str:
        key = self.world.pages.key(page)
        if key is None:
            raise Lossy(f"std's documents have no page {page}")
        self.renderer.need(key)
        return key

    def need_root(self, root: Type | Bound) -> None:
        """A type or bound of a query: all that it names is to be in the text."""
        keys: list[str] = []
        if isinstance(root, Bound):
            keys.append(root.key)
            for term in root.arguments + tuple(value for _, value in root.constraints):
                keys += list(keys_of(term))
        else:
            keys += list(keys_of(root))
        self.mark(keys)
        while keys:
            key = keys.pop()
            if key.startswith(("prim:", "tuple:", "fn:")):
                continue
            declaration = self.world.get(key)
            known = declaration.key in self.renderer.structs or declaration.key in self.renderer.traits
            if declaration.kind != "type":
                self.renderer.need(key)
            if not known:
                # What its parameters are by default is named with it.
                for param in declaration.params:
                    keys += list(keys_of(param.default)) if param.default is not None else []

    def mark(self, keys: Iterable[str]) -> None:
        for key in keys:
            if key.startswith(("prim:", "tuple:", "fn:")) and key not in self.leaves:
                self.leaves.add(key)
                self.renderer.grew = True

    def mark_impl(self, impl: Impl) -> None:
        if impl.trait is None:
            return
        terms = [impl.self_type, *impl.trait.arguments, *impl.associated.values()]
        for subject, bound in impl.predicates:
            terms += [subject, *bound.arguments, *(value for _, value in bound.constraints)]
        for term in terms:
            self.mark(keys_of(term))

    def absent(self, impl: Impl) -> Optional[str]:
        """The name of a type in the impl's header that occurs nowhere in the text; such impls of std are pruned."""
        assert impl.trait is not None
        for term in (impl.self_type, *impl.trait.arguments):
            for key in keys_of(term):
                if key.startswith(("prim:", "tuple:", "fn:")):
                    if key not in self.leaves:
                        return {"prim": "", "tuple": "a tuple of ", "fn": "a fn of "}[key.split(":")[0]] + key.split(":")[1]
                    continue
                if key in self.renderer.structs or key in self.renderer.traits:
                    continue
                known = self.world.known(key)
                if known is None or (known.key not in self.renderer.structs and known.key not in self.renderer.traits):
                    return key.split("@")[-1].split(".")[-1]
        return None

    # ---- rounds
    def build(self) -> None:
        """Gathers until nothing is added; once more where something was asked for since."""
        if not self.has_begun:
            self.begin()
            self.has_begun = True
        rounds = 0
        while self.renderer.grew and rounds < MAXIMAL_ROUNDS:
            self.renderer.grew = False
            rounds += 1
            self.renderer.lost_supers.clear()
            for trait in list(self.renderer.traits.values()):
                self.renderer.lost(trait)
            if self.cone is not None:
                written = [self.impl_writer.write(impl) for impl in self.cone.impls.values() if not is_object(impl)]
                self.of_crates = [w for w in written if w.impl.crate not in STD_TEXTS]
                self.of_std = [w for w in written if w.impl.crate in STD_TEXTS]
                self.need_fields()
            else:
                self.all_impls()
            self.of_objects = [self.impl_writer.write(impl) for impl in self.objects() if self.cone is None or id(impl) in self.cone.impls]
            self.compose()
            self.say(f"round {rounds}: {len(self.renderer.structs)} types, {len(self.renderer.traits)} traits, "
                     f"{len(self.of_crates)} impls of crates, {len(self.of_std)} of std")
        if self.renderer.grew:
            raise Lossy("what std's impls need kept growing; this is a fault of the translator")

    def objects(self) -> list[Impl]:
        """The impls that each `dyn` with associated types has by itself."""
        return [impl for key in list(self.renderer.structs) if key in self.world.shape_of_key for impl in self.world.shape_of_key[key].impls]

    def need_fields(self) -> None:
        """What the fields of structs name, and those of what they name: each round of its own would find one layer of it."""
        todo, seen = list(self.renderer.structs.values()), set(self.renderer.structs)
        while todo:
            declaration = todo.pop()
            for term in [] if is_std_key(declaration.key) or declaration.is_opaque else declaration.fields:
                try:
                    self.renderer.type(term, Scope(FIELD, names_of(declaration.params), predicates=declaration.predicates))
                except Lossy:
                    pass
            todo += [d for key, d in self.renderer.structs.items() if key not in seen]
            seen |= set(self.renderer.structs)

    def all_impls(self) -> None:
        self.of_crates = [self.impl_writer.write(impl) for crate in self.world.crates.values() for impl in crate.impls]
        self.of_std = []
        for declaration in list(self.renderer.traits.values()):
            if is_std_key(declaration.key):
                self.std_trait(declaration)
        for declaration in list(self.renderer.structs.values()):
            if is_std_key(declaration.key):
                self.std_struct(declaration)

    def taken(self, declaration: Declaration, impl: Impl) -> bool:
        """Whether an impl on the page of a trait of std is one for the text, if all that it names is there."""
        return (impl.trait is not None and not self.of_another(declaration, impl) and not (declaration.is_auto and isinstance(impl.self_type, Named))
                and not self.core_has(declaration, impl) and not self.built_in(declaration, impl))

    @staticmethod
    def of_another(declaration: Declaration, impl: Impl) -> str:
        """Why a header on a trait's page is no impl of it; empty where it is one."""
        assert impl.trait is not None
        if impl.trait.key != declaration.key:
            return "the header is of another trait than its page"
        if impl.trait.arguments == (Never(),) and isinstance(impl.self_type, Parameter) and declaration.name == "From":
            return "a reservation, and no impl"
        return ""

    @staticmethod
    def built_in(declaration: Declaration, impl: Impl) -> bool:
        return declaration.is_auto and not impl.is_negative and not isinstance(impl.self_type, (Reference, Pointer))

    def std_trait(self, declaration: Declaration) -> None:
        if declaration.key not in self.std_impls:
            self.std_impls[declaration.key] = self.standard.impls_of_trait(declaration.key)
        for header, impl in self.std_impls[declaration.key]:
            if header.fate.startswith("in the text") and impl.trait is None:
                continue
            self.std_impl(declaration, header, impl)

    def std_impl(self, declaration: Declaration, header: Header, impl: Impl) -> None:
        if impl.trait is None:
            self.settle(header, "reported: the header is not understood: " + impl.error)
            self.of_std.append(Written(impl, losses=["the header is not understood: " + impl.error]))
            return
        if self.of_another(declaration, impl):
            self.settle(header, "reported: " + self.of_another(declaration, impl))
            return
        if declaration.is_auto and isinstance(impl.self_type, Named):
            absent = self.absent(impl)
            self.settle(header, f"pruned: {absent} is not in the text" if absent else "in the text: by the page of its type")
            return
        absent = None if self.whole_std else self.absent(impl)
        if absent:
            self.settle(header, f"pruned: {absent} is not in the text")
            return
        if self.core_has(declaration, impl):
            self.settle(header, "in the text: `core` has it")
            return
        if self.built_in(declaration, impl):
            self.settle(header, "in the text: the built-in rule says it")
            return
        self.take(header, impl)

    def std_struct(self, declaration: Declaration) -> None:
        if declaration.key not in self.std_impls:
            self.std_impls[declaration.key] = self.standard.auto_impls(declaration.key)
        for header, impl in self.std_impls[declaration.key]:
            assert impl.trait is not None
            trait = self.world.known(impl.trait.key)
            if trait is None or trait.key not in self.renderer.traits:
                self.settle(header, f"pruned: {self.standard.declaration(impl.trait.key).name} is not in the text")
            elif isinstance(impl.self_type, Named) and impl.self_type.key == declaration.key:
                self.take(header, impl)
            else:
                self.settle(header, "in the text: by the page of its type")

    def take(self, header: Header, impl: Impl) -> None:
        written = self.impl_writer.write(impl)
        self.of_std.append(written)
        self.mark_impl(impl)
        self.settle(header, "in the text" if written.upper else "reported: " + written.losses[0])

    @staticmethod
    def settle(header: Header, fate: str) -> None:
        """Of a header that stands for many impls it counts that one of them is in the text."""
        if not header.fate.startswith("in the text"):
            header.fate = fate

    def core_has(self, trait: Declaration, impl: Impl) -> bool:
        if not (self.world.is_cores(trait) and trait.name in ("Clone", "Copy")):
            return False
        match impl.self_type:
            case Never() | Array():
                return True
            case Primitive(name):
                return name in PRIMITIVES
        return False

    # ---- the crates
    def items(self) -> list[Declaration]:
        """Traits and structs; of a part those of a crate in the crate's order, in which the whole has them, so that the same are cut."""
        items = list(self.renderer.traits.values()) + list(self.renderer.structs.values())
        if self.cone is not None:
            places = {item.key: n for crate in self.world.crates.values() if crate.name in {d.crate for d in items} for n, item in enumerate(crate.items)}
            items.sort(key=lambda d: (not d.is_trait, places.get(d.key, -1)))
        return items

    def compose(self) -> None:
        self.crates, self.cuts, self.lost_supers = [], [], []
        items = self.items()
        not_given = sorted({d.crate for d in items} - set(self.world.crates) - set(STD_TEXTS))
        impls: dict[str, list[Written]] = {}
        for written in self.of_objects + self.of_std + self.of_crates:
            impls.setdefault(written.impl.crate, []).append(written)
        for name in [*STD_TEXTS, *not_given, *self.world.crates]:
            if name == "alloc":
                uses: list[str] = []
            elif name == "std":
                uses = ["alloc"]
            else:
                uses = ["std"] + ([] if name in not_given else not_given) + self.world.uses.get(name, [])
            text = CrateText(crate_name(name), [crate_name(u) for u in uses])
            if name == "alloc":
                text.pieces += self.specials()
            self.declarations(text, [d for d in items if d.crate == name], impls.get(name, []))
            self.crates.append(text)
        if self.cone is not None:
            self.crates = without_empty(self.crates, self.keep)

    def declarations(self, text: CrateText, mine: list[Declaration], impls: list[Written]) -> None:
        declarer = Declarer(self.impl_writer.projector, mine)
        declarer.write()
        self.lost_supers += declarer.lost
        self.cuts += declarer.cuts
        for upper, lower, declaration in declarer.lines:
            text.pieces.append(Piece(Line(upper, "item"), Line(lower, "item"), declaration.source, declaration=declaration))
        if text.name == "alloc":
            text.pieces += self.special_impls()
        for line in map(Line, self.impl_writer.projector.lines(text.name)):
            text.pieces.append(Piece(line, line, "a pattern", True))
        has: set[tuple[str, str]] = set()
        for written in impls:
            text.pieces += self.pieces_of(written)
            impl = written.impl
            if impl.trait is not None and isinstance(impl.self_type, Named) and written.upper:
                has.add((self.world.get(impl.self_type.key, "struct", impl.self_type.arguments).key, self.world.get(impl.trait.key).key))
        cuts = list(declarer.cuts)
        cuts += [Cut(d, ["std's documents show no impl of it"]) for d in mine
                 if is_std_key(d.key) and not d.is_trait and all(d is not c.declaration for c in cuts)]
        for cut in cuts:
            self.auto_pieces(text, declarer, cut, has)

    def auto_pieces(self, text: CrateText, declarer: Declarer, cut: Cut, has: set[tuple[str, str]]) -> None:
        for trait in self.renderer.traits.values():
            seen = is_std_key(trait.key) or trait.crate == cut.declaration.crate or trait.crate in self.world.uses.get(cut.declaration.crate, [])
            if not trait.is_auto or not seen or (cut.declaration.key, trait.key) in has:
                continue
            if self.cone is not None and (self.world.name(cut.declaration), self.world.name(trait)) not in self.cone.asked:
                continue
            if is_std_key(cut.declaration.key) and not is_std_key(trait.key):
                continue
            upper, lower, lost = declarer.auto_lines(cut, trait)
            written = Written(Impl(cut.declaration.crate, cut.declaration.source, Bound(trait.key), cut.declaration.itself()), [upper], [lower],
                              [f"an auto trait by fields: {reason}" for reason in lost])
            text.pieces.append(Piece(upper, lower, cut.declaration.source, True, written, cut))

    @staticmethod
    def pieces_of(written: Written) -> Iterator[Piece]:
        """The impl's lines; a line of the lower text goes with the upper one of its role."""
        lower = {line.text: line for line in written.lower}
        taken: set[str] = set()
        for line in written.upper:
            same = lower.get(line.text)
            if same is None and line.role == "impl":
                same = next((x for x in written.lower if x.role == "void"), None)
            if same is not None:
                taken.add(same.text)
            yield Piece(line, same, written.impl.source, True, written)
        assert taken == set(lower)

    def specials(self) -> list[Piece]:
        """`Never_`, which nothing has, and the structs that stand for references, pointers, floats, long tuples, and unsafe or
        foreign fns."""
        lines = ["fundamental trait Never_", f"fundamental trait {APPLY}<V>", f"struct {WRAP}<K>"]
        for name in self.renderer.special:
            if name in ALWAYS:
                lines.append(ALWAYS[name])
            elif name.startswith("Tuple"):
                parts = [f"T{n}" for n in range(-(-int(name[5:-1]) // MAXIMAL_ITEMS))]
                lines.append(f"struct {name}<{', '.join(parts)}>({', '.join(parts)}, ())")
            elif name in FUNCTION_STRUCTS:
                lines.append(f"struct {name}<I, R>")
            else:
                lines.append(f"struct {name}")
        return [Piece(Line(text, "item"), Line(text, "item"), "built in") for text in lines]

    def special_impls(self) -> Iterator[Piece]:
        """What is built in for fn pointers and long tuples, and for fn pointers of each arity that occurs."""
        lines: list[str] = []
        for name in self.renderer.special:
            if name.startswith("Tuple"):
                parts = [f"T{n}" for n in range(-(-int(name[5:-1]) // MAXIMAL_ITEMS))]
                for trait in ("Clone", "Copy"):
                    lines.append(f"impl<{', '.join(parts)}> {trait} for {name}<{', '.join(parts)}> where " + ", ".join(f"{p}: {trait}" for p in parts))
        for name in self.renderer.special:
            if name in FUNCTION_STRUCTS:
                lines += [f"impl<I, R> {trait} for {name}<I, R>" for trait in ("Clone", "Copy")]
        for declaration in self.renderer.traits.values():
            if is_std_key(declaration.key) and declaration.name in FN_TRAITS + ("FnPtr",):
                lines += self.all_fn_lines(declaration)
        for text in lines:
            line = Line(text)
            yield Piece(line, line, "built in", True)

    def all_fn_lines(self, declaration: Declaration) -> Iterator[str]:
        """The impls of a trait of functions for the fn pointers that occur. Those that are unsafe or foreign have `FnPtr` alone."""
        for count in range(MAXIMAL_ITEMS + 1):
            if self.whole_std or f"fn:{count}" in self.leaves:
                yield from self.fn_lines(declaration, count)
        if declaration.name == "FnPtr":
            yield from (f"impl<I, R> {self.world.name(declaration)} for {name}<I, R>" for name in FUNCTION_STRUCTS if name in self.renderer.special)

    def fn_lines(self, declaration: Declaration, count: int) -> list[str]:
        names = [f"A{n}" for n in range(count)]
        inputs = f"({names[0]},)" if count == 1 else f"({', '.join(names)})"
        params, function = f"<{', '.join(names + ['R'])}>", f"fn({', '.join(names)}) -> R"
        trait = self.world.name(declaration)
        lines = [f"impl{params} {trait}{'' if declaration.name == 'FnPtr' else f'<{inputs}>'} for {function}"]
        if (declaration.key, "Output") in self.renderer.companions:
            lines.append(f"impl{params} {self.renderer.companion(declaration, 'Output')}<{inputs}, R> for {function}")
        if declaration.key in self.renderer.anys:
            lines.append(f"impl{params} {self.renderer.any_name(declaration)} for {function}")
        if (declaration.key, "Output") in self.renderer.thens:
            then = self.renderer.then_name(declaration, "Output")
            lines.append(f"impl<{', '.join(names + ['R', 'K_'])}> {then}<{inputs}, {WRAP}<K_>> for {function} where K_: {APPLY}<R>")
        return lines

    # ---- texts
    def text(self, mode: str, comments: bool = False) -> tuple[list[str], list[Optional[Piece]]]:
        """The lines of one text ("upper" or "lower"), each with its piece; None for lines that begin a crate, and comments."""
        lines: list[str] = []
        pieces: list[Optional[Piece]] = []
        read = {crate_name(name) for name in self.world.crates}
        for crate in self.crates:
            uses = list(dict.fromkeys(u for u in crate.uses if u != crate.name))
            lines.append(f"crate {crate.name}" + (f" uses {', '.join(uses)}" if uses else ""))
            pieces.append(None)
            last = ""
            for piece in crate.pieces:
                line = piece.upper if mode == "upper" else piece.lower
                if line is None:
                    continue
                if comments and crate.name in read and piece.source != last:
                    lines.append("// " + "".join(c if 32 <= ord(c) < 127 else "?" for c in piece.source))
                    pieces.append(None)
                    last = piece.source
                lines.append(line.text)
                pieces.append(piece)
        return lines, pieces
