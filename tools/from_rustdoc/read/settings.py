"""What `[package.metadata.celtisdarts]` and `[workspace.metadata.celtisdarts]` say: queries and what is expected of them, changes that are
waived, and sets of features to try. It is read strictly: what is not known there is an error, so that nothing is expected or waived in vain."""
from __future__ import annotations

import os
from dataclasses import dataclass, field
from typing import Any, Iterable, Optional, Sequence

from .near import hint
from .terms import BadInput

TABLE = "metadata.celtisdarts"
ASK, WAIVE, SETS = KEYS = ("ask", "waive", "feature-sets")
ANSWERS = ("yes", "no", "maybe")
WAIVER_KEYS = ("class", "item", "reason", "package")
ALL_FEATURES = "all"


@dataclass
class Expected:
    """A query, and the answer that it is to have."""
    question: str
    answer: str


@dataclass
class Waiver:
    """A change that may be, and why: its class, and the item that it is about. `package` is empty if it is of all of a workspace. `count` says
    how many changes it has waived, `others` are the items of those of its class that nothing waives."""
    code: str
    item: str
    reason: str
    place: str = ""
    package: str = ""
    count: int = 0
    others: list[str] = field(default_factory=list)

    def shown(self) -> str:
        return f"{self.code} of `{self.item}`"


@dataclass
class Settings:
    """`sets` are cargo's words for each set of features. None if none is given."""
    asks: list[Expected] = field(default_factory=list)
    waivers: list[Waiver] = field(default_factory=list)
    sets: Optional[list[list[str]]] = None


class Reader:
    """Reads one of both tables. `codes` are the classes that can be waived, `packages` those of the workspace, if it is its table, and `known` the
    features of the package, if it is a package's."""

    def __init__(self, manifest: str, owner: str, codes: Iterable[str], packages: Sequence[str] = (), known: Optional[Sequence[str]] = None) -> None:
        self.manifest = manifest
        self.owner = owner
        self.codes = list(codes)
        self.packages = packages
        self.known = known

    def read(self, found: Any) -> Settings:
        if found is None:
            return Settings()
        table = self.table(found, "", KEYS)
        asks = [Expected(question, self.one_of(answer, f"{ASK}.{question!r}", ANSWERS)) for question, answer in self.table(table.get(ASK, {}), ASK).items()]
        waivers = [self.waiver(one, f"{WAIVE} {number}") for number, one in enumerate(self.rows(table.get(WAIVE, []), WAIVE), 1)]
        sets = [self.features(one, f"{SETS} {number}") for number, one in enumerate(self.rows(table[SETS], SETS), 1)] if SETS in table else None
        if sets == []:
            raise self.error(SETS, "has no set: `[[]]` has one without features")
        return Settings(asks, waivers, sets)

    def waiver(self, found: Any, place: str) -> Waiver:
        table = self.table(found, place, WAIVER_KEYS if self.packages else WAIVER_KEYS[:3])
        code = self.one_of(table.get("class"), f"{place}: class", self.codes)
        item, reason = (self.text(table.get(name), f"{place}: {name}") for name in ("item", "reason"))
        package = self.one_of(table["package"], f"{place}: package", self.packages) if "package" in table else ""
        return Waiver(code, item, reason, self.manifest, package)

    def features(self, found: Any, place: str) -> list[str]:
        """Cargo's words for a set: the names of features, `default` among them if it is meant, or `all`."""
        if found == ALL_FEATURES:
            return ["--all-features"]
        if not isinstance(found, list):
            raise self.error(place, f"is a list of features, or \"{ALL_FEATURES}\"")
        names = [self.text(name, place) for name in found]
        others = [name for name in names if name != "default"]
        for name in others:
            if self.known is not None and name not in self.known and "/" not in name:
                raise self.error(place, f"has `{name}`, which is no feature of the package{hint(name, self.known)}")
        return ["--no-default-features"] * ("default" not in names) + (["--features", ",".join(others)] if others else [])

    # ---- values
    def table(self, found: Any, place: str, keys: Optional[Sequence[str]] = None) -> dict[str, Any]:
        if not isinstance(found, dict):
            raise self.error(place, "is a table")
        for key in found:
            if keys is not None and key not in keys:
                raise self.error(place, f"has no key `{key}`{hint(key, keys)} (it has {', '.join(keys)})")
        return found

    def rows(self, found: Any, place: str) -> list[Any]:
        if not isinstance(found, list):
            raise self.error(place, "is a list")
        return found

    def text(self, found: Any, place: str) -> str:
        if not isinstance(found, str) or not found.strip():
            raise self.error(place, "has to be there, and is a text that says something")
        return found.strip()

    def one_of(self, found: Any, place: str, known: Sequence[str]) -> str:
        word = self.text(found, place)
        if word not in known:
            listed = f" (it is one of {', '.join(known)})" if len(known) <= len(KEYS) else ""
            raise self.error(place, f"is `{word}`, which is none that is known{hint(word, known)}{listed}")
        return word

    def error(self, place: str, what: str) -> BadInput:
        return BadInput(f"{self.manifest}: [{self.owner}.{TABLE}]{f' {place}' if place else ''} {what}")


def of_metadata(data: dict[str, Any], packages: Sequence[dict[str, Any]], codes: Iterable[str]) -> tuple[Settings, dict[str, Settings]]:
    """The workspace's settings, and those of each of these packages, by cargo's metadata."""
    codes = list(codes)
    of_workspace = Reader(shown(os.path.join(data["workspace_root"], "Cargo.toml")), "workspace", codes, [p["name"] for p in data["packages"]]).read(ours(data["metadata"]))
    return of_workspace, {p["name"]: Reader(shown(p["manifest_path"]), "package", codes, known=list(p["features"])).read(ours(p["metadata"])) for p in packages}


def ours(metadata: Any) -> Any:
    return metadata.get("celtisdarts") if isinstance(metadata, dict) else None


def shown(path: str) -> str:
    below = os.path.relpath(path)
    return path if below.startswith("..") else below


def features_told(words: Sequence[str]) -> str:
    """What is said of a set of features, of cargo's words."""
    if "--all-features" in words:
        return "all features"
    names = ["default"] * ("--no-default-features" not in words) + [word for before, word in zip(words, words[1:]) if before == "--features"]
    return f"features {', '.join(','.join(names).split(','))}" if names else "no features"
