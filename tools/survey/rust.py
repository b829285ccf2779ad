"""Types, bounds and clauses of rustdoc's JSON as Rust writes them, with parameters replaced. Lifetimes become `'static`, or are left out
where they are bound by `for<'a>`."""
from __future__ import annotations

from dataclasses import dataclass, field
from typing import Any, Optional

from .documents import Crate, Json

FN_TRAITS = ("Fn", "FnMut", "FnOnce")
SIZED = ("Sized", "MetaSized", "PointeeSized")


class NotWritten(Exception):
    """A term that has no public path, or that a query does not write."""


@dataclass
class Parameters:
    """The parameters of an item: types and constants with what they are declared with, and the clauses of the item."""
    names: list[str] = field(default_factory=list)
    consts: dict[str, str] = field(default_factory=dict)
    defaults: dict[str, Json] = field(default_factory=dict)
    unsized: set[str] = field(default_factory=set)
    bounds: list[tuple[Json, Json]] = field(default_factory=list)

    def bounds_of(self, name: str) -> list[Json]:
        return [bound for subject, bound in self.bounds if subject == {"generic": name}]


def parameters(generics: Json, consts: Optional[dict[str, str]] = None) -> Parameters:
    """Reads generics; each bound of a trait is in `bounds` with its subject."""
    found = Parameters()
    for parameter in generics["params"]:
        kind, body = next(iter(parameter["kind"].items()))
        name = parameter["name"]
        if kind == "lifetime" or kind == "type" and body.get("is_synthetic"):
            continue
        found.names.append(name)
        if kind == "const":
            found.consts[name] = body["type"].get("primitive", "")
        else:
            add_bounds(found, {"generic": name}, body["bounds"])
        if body.get("default") is not None:
            found.defaults[name] = body["default"]
    for predicate in generics["where_predicates"]:
        if "bound_predicate" in predicate:
            body = predicate["bound_predicate"]
            add_bounds(found, body["type"], body["bounds"], body["generic_params"])
    return found


def add_bounds(found: Parameters, subject: Json, bounds: list[Json], outer: Optional[list[Json]] = None) -> None:
    for bound in bounds:
        body = bound.get("trait_bound")
        if body is None:
            continue
        if body["modifier"] == "maybe":
            found.unsized.add(subject.get("generic", ""))
        elif body["trait"]["path"].split("::")[-1] not in SIZED:
            found.bounds.append((subject, {"trait_bound": {**body, "generic_params": body["generic_params"] + (outer or [])}}))


def split(term: Any) -> tuple[str, Any]:
    """The kind of a term, and what it holds; of `"infer"` nothing."""
    return next(iter(term.items())) if isinstance(term, dict) else (str(term), None)


class Printer:
    """`values` has a text for each parameter. A parameter that is not in it is written as it is."""

    def __init__(self, crate: Crate, values: Optional[dict[str, str]] = None) -> None:
        self.crate = crate
        self.values = values or {}
        self.bound_lifetimes: set[str] = set()

    def path(self, number: int, written: str) -> str:
        found = self.crate.path(number)
        if found is None:
            raise NotWritten(f"{written} has no public path")
        return "::".join(found)

    def lifetime(self, name: Optional[str]) -> str:
        return "" if name is None or name in self.bound_lifetimes else "'static "

    def type(self, term: Json) -> str:
        kind, body = split(term)
        if kind == "generic":
            return self.values.get(body, body)
        if kind == "primitive":
            return "!" if body == "never" else str(body)
        if kind == "resolved_path":
            return self.path(body["id"], body["path"]) + self.arguments(body["args"])
        if kind == "tuple":
            return f"({self.type(body[0])},)" if len(body) == 1 else f"({', '.join(map(self.type, body))})"
        if kind == "slice":
            return f"[{self.type(body)}]"
        if kind == "array":
            return f"[{self.type(body['type'])}; {self.constant(body['len'])}]"
        if kind == "borrowed_ref":
            return f"&{self.lifetime(body['lifetime'])}{'mut ' * body['is_mutable']}{self.type(body['type'])}"
        if kind == "raw_pointer":
            return f"*{'mut' if body['is_mutable'] else 'const'} {self.type(body['type'])}"
        if kind == "function_pointer":
            return self.function(body)
        if kind == "dyn_trait":
            return self.dyn(body)
        if kind == "qualified_path":
            return self.projection(body)
        raise NotWritten(str(kind))

    def function(self, body: Json) -> str:
        header = body["header"]
        if header["is_unsafe"] or header["abi"] != "Rust":
            raise NotWritten("an unsafe or foreign fn")
        with_bound = self.binding(body["generic_params"])
        output = f" -> {with_bound.type(body['sig']['output'])}" if body["sig"]["output"] is not None else ""
        return f"fn({', '.join(with_bound.type(term) for _, term in body['sig']['inputs'])}){output}"

    def dyn(self, body: Json) -> str:
        traits = [self.binding(t["generic_params"]).trait(t["trait"]) for t in body["traits"]]
        return f"dyn {traits[0]}" if len(traits) == 1 else f"(dyn {' + '.join(traits)})"

    def projection(self, body: Json) -> str:
        if body["trait"] is None or body["trait"]["path"] == "" or body.get("args") and body["args"].get("angle_bracketed", {}).get("args"):
            raise NotWritten("an associated type without a trait, or with arguments")
        return f"<{self.type(body['self_type'])} as {self.trait(body['trait'])}>::{body['name']}"

    def binding(self, generic_params: list[Json]) -> "Printer":
        """The printer inside `for<'a>`. A trait with such a lifetime as an argument is not written."""
        inner = Printer(self.crate, self.values)
        inner.bound_lifetimes = self.bound_lifetimes | {p["name"] for p in generic_params}
        return inner

    def constant(self, text: str) -> str:
        text = self.values.get(text, text)
        if not (text.isalnum() or text.replace("_", "").isalnum()):
            raise NotWritten("a const expression")
        return text.replace("_usize", "").replace("usize", "") if text[0].isdigit() else text

    def arguments(self, arguments: Optional[Json]) -> str:
        if arguments is None:
            return ""
        if "parenthesized" in arguments:
            body = arguments["parenthesized"]
            output = f" -> {self.type(body['output'])}" if body["output"] is not None else ""
            return f"({', '.join(map(self.type, body['inputs']))}){output}"
        if "angle_bracketed" not in arguments:
            raise NotWritten("arguments of another kind")
        body = arguments["angle_bracketed"]
        written = [self.argument(a) for a in body["args"]] + [self.constraint(c) for c in body["constraints"]]
        return f"<{', '.join(written)}>" if written else ""

    def argument(self, argument: Any) -> str:
        kind, body = split(argument)
        if kind == "type":
            return self.type(body)
        if kind == "lifetime" and body not in self.bound_lifetimes:
            return "'static"
        if kind == "const":
            return self.constant(body["expr"])
        raise NotWritten(f"an argument of another kind: {kind}")

    def constraint(self, constraint: Json) -> str:
        term = constraint["binding"].get("equality", {}).get("type")
        if term is None or constraint["args"] is not None and constraint["args"].get("angle_bracketed", {}).get("args"):
            raise NotWritten("a bound on an associated type, or a generic one")
        return f"{constraint['name']} = {self.type(term)}"

    def trait(self, trait: Json) -> str:
        return self.path(trait["id"], trait["path"]) + self.arguments(trait["args"])

    def bound(self, bound: Json) -> str:
        body = bound["trait_bound"]
        if body["modifier"] != "none":
            raise NotWritten("a bound with a modifier")
        return self.binding(body["generic_params"]).trait(body["trait"])

    def clause(self, subject: Json, bound: Json) -> str:
        inner = self.binding(bound["trait_bound"]["generic_params"])
        return f"{inner.type(subject)}: {self.bound(bound)}"
