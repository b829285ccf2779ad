"""What is written of a public item, in one form for both versions: items by their common keys, parameters by their places, lifetimes by the
order in which they come. Equal forms mean the same; what differs is to be judged or counted."""
from __future__ import annotations

import json
from typing import Any, Callable, Optional

from ..read.rustdoc_json import JsonCrate, kind_and_body

# What a form leaves out: how the item is documented, and where it stands.
LEFT_OUT = ("docs", "links", "span", "deprecation", "generic_params", "is_synthetic", "is_literal", "has_body")
STATIC, PLACEHOLDER = "'static", (None, "'_")
# Attributes on which it may depend whether a user compiles. (`non_exhaustive` and `target_feature` have classes.)
ATTRIBUTES = ("repr", "no_mangle", "export_name", "link_section", "link_name", "rustc_")


class Form:
    """The forms of what is in one item. `erased` leaves lifetimes out. Names of parameters are given by their places; a lifetime that is
    not among them goes by its place among those that occur, where an elided one of a result is what Rust takes it for."""

    def __init__(self, crate: JsonCrate, common: Callable[[str], str], names: list[str], erased: bool = False, met: Optional[dict[str, str]] = None) -> None:
        self.crate = crate
        self.common = common
        self.names = {name: f"P{number}" for number, name in enumerate(names)}
        self.erased = erased
        self.met: dict[str, str] = dict(met or {})
        self.tokens: list[str] = []
        self.elided: Optional[str] = None

    def of(self, node: Any) -> Any:
        if isinstance(node, list):
            return [self.of(part) for part in node if not (self.erased and isinstance(part, dict) and set(part) & {"lifetime", "outlives", "use"})]
        if isinstance(node, str):
            return self.names.get(node.strip("{} "), node)
        if not isinstance(node, dict):
            return node
        if "id" in node and "path" in node:
            return self.path(node)
        if "inputs" in node:
            return self.signature(node)
        return {key: self.lifetime(part) if key in ("lifetime", "outlives") else part if key == "name" else self.of(part)
                for key, part in node.items() if key not in LEFT_OUT}

    def path(self, node: dict[str, Any]) -> Any:
        key = self.crate.key(node["id"], node["path"]) or "?" + node["path"]
        arguments = self.of(node.get("args"))
        item = self.crate.item(node["id"])
        kind, body = kind_and_body(item) if item else ("", {})
        found = {"item": self.common(key), "arguments": arguments or None}
        if kind == "type_alias":
            # (What it stands for, since it may be another type, or private.)
            found["stands for"] = Form(self.crate, self.common, [p["name"] for p in body["generics"]["params"]], self.erased).of(body["type"])
        elif isinstance(body, dict) and "generics" in body and not self.erased:
            given = ((node.get("args") or {}).get("angle_bracketed") or {}).get("args", [])
            if not any(isinstance(argument, dict) and "lifetime" in argument for argument in given):
                found["lifetimes"] = [self.lifetime(None) for param in body["generics"]["params"] if "lifetime" in param["kind"]]
        return found

    def signature(self, node: dict[str, Any]) -> Any:
        """Of a function, a pointer to one, or `Fn(A) -> B`."""
        outer, before = self.elided, len(self.tokens)
        self.elided = None
        inputs, own = [], None
        for part in node["inputs"]:
            is_self = isinstance(part, list) and part[0] == "self"
            begin = len(self.tokens)
            inputs.append([is_self, self.of(part[1] if isinstance(part, list) else part)])
            own = self.tokens[begin] if is_self and len(self.tokens) > begin else own
        met = list(dict.fromkeys(self.tokens[before:]))
        self.elided = own or (met[0] if len(met) == 1 else "elided")
        output = self.of(node["output"])
        self.elided = outer
        return {"inputs": inputs, "output": output, "variadic": node.get("is_c_variadic", False), "results": self.of(node.get("results"))}

    def lifetime(self, name: Any) -> Any:
        if self.erased or isinstance(name, list):
            return None if self.erased else [self.lifetime(one) for one in name]
        if name in PLACEHOLDER:
            found = self.elided or self.fresh(f"elided {len(self.tokens)}")
        else:
            found = name if name == STATIC else self.names.get(name) or self.fresh(name)
        self.tokens.append(found)
        return found

    def fresh(self, name: str) -> str:
        return self.met.setdefault(name, f"'{len(self.met)}")


def text(form: Any) -> str:
    return json.dumps(form, sort_keys=True)


def clauses(crate: JsonCrate, common: Callable[[str], str], body: dict[str, Any], names: list[str], met: Optional[dict[str, str]] = None) -> dict[str, str]:
    """The bounds that are in an item's body, in its list of parameters and after it, in their form, each with that without lifetimes: empty
    for one that speaks of what outlives what. `met` are the places of lifetimes by what comes before."""
    generics = body["generics"]
    found: list[tuple[Any, Any]] = [({"generic": "Self"}, bound) for bound in body.get("bounds", [])]
    for param in generics["params"]:
        kind, inside = next(iter(param["kind"].items()))
        subject = {"lifetime" if kind == "lifetime" else "generic": param["name"]}
        found += [(subject, bound) for bound in inside.get("bounds", inside.get("outlives", []))]
        found += [(subject, inside["default"])] if inside.get("default") else []
    for predicate in generics["where_predicates"]:
        kind, inside = next(iter(predicate.items()))
        subject = inside["type"] if kind == "bound_predicate" else {"lifetime": inside.get("lifetime")}
        found += [(subject, bound) for bound in inside.get("bounds", inside.get("outlives", []))] if kind != "eq_predicate" else [(predicate, None)]

    def both(subject: Any, bound: Any) -> tuple[str, str]:
        if "lifetime" in subject or isinstance(bound, dict) and {"outlives", "use"} & set(bound):
            bound = bound if isinstance(bound, dict) else {"outlives": bound}
            return text(Form(crate, common, names, met=met).of([subject, bound])), ""
        return text(Form(crate, common, names, met=met).of([subject, bound])), text(Form(crate, common, names, True).of([subject, bound]))

    return dict(both(*pair) for pair in found)


def attributes(item: dict[str, Any], *words: str) -> list[str]:
    """The item's attributes that have one of the words, as they are written."""
    return sorted(str(attribute) for attribute in item.get("attrs", []) if any(word in str(attribute) for word in words) and "doc" not in str(attribute))
