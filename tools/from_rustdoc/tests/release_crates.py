"""Releases of real crates: each of some impls of a crate of Debian's registry as if it had been added, judged beside rustc.

The older version is the crate without the impl, where it compiles without it. Of a breaking one `later` names an impl of another crate: a
crate that has it is E0119 with the newer version alone. Of a compatible one no impl of another
crate for a type of its own is. It takes minutes; what it needs is as in real_crates.py. FROM_RUSTDOC_PAIRS says how many impls of each crate.
"""
from __future__ import annotations

import json
import os
import re
import shutil
import subprocess
import sys
import tempfile
import unittest
from collections import Counter
from itertools import product
from typing import Iterator, Optional

from ..later.claims import Programs
from ..later.release import compared
from ..model.show import Show
from ..model.world import World
from ..read.cargo import Project, docs_folder, document
from ..read.kept import KeptPages, KeptStandard
from ..read.proved import proved_program
from ..read.terms import BadInput, Bound, Impl, Lossy, Parameter, Place, Type, put, put_bound
from ..report.messages import Message
from .pairs import written_out
from .real_crates import REGISTRY

CRATES = os.environ.get("FROM_RUSTDOC_CRATES", """either bytes smallvec semver arrayvec indexmap itertools num-complex num-rational num-bigint once_cell http url hashbrown log memchr
            fixedbitset ordered-float linked-hash-map uuid""").split()
OF_EACH = int(os.environ.get("FROM_RUSTDOC_PAIRS", "3"))
PROGRAM = os.environ.get("FROM_RUSTDOC_PROGRAM")


def folder_of(name: str) -> Optional[str]:
    """The newest version of a crate in the registry."""
    found = sorted((f for f in os.listdir(REGISTRY) if re.fullmatch(re.escape(name) + r"-\d[\w.+-]*", f)), key=lambda f: [int(n) for n in re.findall(r"\d+", f)])
    return os.path.join(REGISTRY, found[-1]) if found else None


def missing() -> str:
    if not shutil.which("cargo"):
        return "there is no cargo"
    if not os.path.isdir(REGISTRY):
        return "Debian's registry of crates is not installed"
    return "" if PROGRAM or proved_program() else "there is no proved program of these sources"


class Copy:
    """A crate of the registry in a folder of its own, and a crate that uses it."""

    def __init__(self, room: str, name: str, source: str) -> None:
        self.name = name
        self.place = os.path.join(room, name)
        self.user = os.path.join(room, "user-of-" + name)
        shutil.copytree(source, self.place)
        os.makedirs(os.path.join(self.user, "src"))
        os.makedirs(os.path.join(self.user, ".cargo"))
        self.write("Cargo.toml", f'[package]\nname = "user"\nversion = "0.1.0"\nedition = "2021"\n[dependencies]\n{name} = {{ path = "../{name}" }}\n[workspace]\n')
        self.write(".cargo/config.toml", f'[source.crates-io]\nreplace-with = "debian"\n[source.debian]\ndirectory = "{REGISTRY}"\n')
        self.write("src/lib.rs", "")

    def write(self, file: str, text: str) -> None:
        with open(os.path.join(self.user, file), "w", encoding="utf-8") as handle:
            handle.write(text)

    def document(self) -> Project:
        return document(self.user, ["--offline", "--quiet"], quiet=True)

    def errors(self, source: str) -> Optional[set[str]]:
        """rustc's errors in the user's crate; None where the crate itself does not compile."""
        self.write("src/lib.rs", source)
        done = subprocess.run(["cargo", "check", "--offline", "--message-format", "json"], cwd=self.user, stdout=subprocess.PIPE, stderr=subprocess.DEVNULL,
                              text=True, env={**os.environ, "RUSTFLAGS": "--cap-lints warn"})
        self.write("src/lib.rs", "")
        found: set[str] = set()
        for line in done.stdout.splitlines():
            message = json.loads(line)
            if message["reason"] == "compiler-message" and message["message"]["level"] == "error":
                if message["target"]["name"] != "user":
                    return None
                found.add((message["message"]["code"] or {"code": ""})["code"])
        return found

    def without(self, place: Place) -> Optional[str]:
        """Takes an impl out of its source; what stood there before, None where the source has no impl just there."""
        file = os.path.join(self.place, os.path.relpath(place.file, self.place)) if os.path.isabs(place.file) else os.path.join(self.place, place.file)
        if not os.path.isfile(file):
            return None
        with open(file, encoding="utf-8") as handle:
            text = handle.read()
        lines = text.split("\n")
        block = "\n".join(lines[place.line - 1:place.end_line])
        if place.column != 1 or not re.match(r"(unsafe )?impl\b", block) or not block.endswith("}") or "$" in block:
            return None
        lines[place.line - 1:place.end_line] = [""] * (place.end_line - place.line + 1)
        above = place.line - 2
        while above >= 0 and re.match(r"\s*(#\[|///)", lines[above]):
            lines[above] = ""
            above -= 1
        with open(file, "w", encoding="utf-8") as handle:
            handle.write("\n".join(lines))
        return text

    def restore(self, place: Place, text: str) -> None:
        with open(place.file if os.path.isabs(place.file) else os.path.join(self.place, place.file), "w", encoding="utf-8") as handle:
            handle.write(text)


def users_impls(world: World, impl: Impl) -> Iterator[str]:
    """Impls of another crate with a type of its own for some parameters: those that the added one would meet, if they are any crate's."""
    show = Show(world, exact=True)
    types = [p.name for p in impl.params if p.kind == "type"]
    assert impl.trait is not None
    for chosen in product((True, False), repeat=min(len(types), 3)):
        values: dict[str, Type] = {name: Parameter("Mine") for name, is_mine in zip(types, chosen) if is_mine}
        if not values:
            continue
        special = impl.copy()
        special.params = [p for p in impl.params if p.name not in values]
        special.trait = Bound(impl.trait.key, put_bound(impl.trait, values).arguments)
        special.self_type = put(impl.self_type, values)
        try:
            yield "pub struct Mine; " + header(show, special)
        except Lossy:
            pass


def header(show: Show, impl: Impl) -> str:
    """As Rust writes it, lifetimes elided."""
    written = show.header(impl).replace("&'static ", "&")
    if "'" in written:
        raise Lossy("a lifetime")
    return written + " {}"


@unittest.skipIf(missing(), missing())
class RealReleases(unittest.TestCase):
    def test_added_impls_are_judged_as_rustc_judges_other_crates(self) -> None:
        count: Counter[str] = Counter()
        wrong: list[str] = []
        for name in CRATES:
            source = folder_of(name)
            if source is None:
                print(f"{name} is not in the registry", file=sys.stderr)
                continue
            with tempfile.TemporaryDirectory() as room:
                try:
                    for line in self.of_crate(Copy(room, name, source), count):
                        wrong.append(f"{name}: {line}")
                except BadInput as error:
                    print(f"{name}: left out: {error}", file=sys.stderr)
            print(f"{name}: {dict(count)}", file=sys.stderr, flush=True)
        self.assertEqual(wrong, [])
        self.assertGreater(count["breaking"] + count["compatible"], 0)

    def of_crate(self, copy: Copy, count: Counter[str]) -> Iterator[str]:
        crate = copy.name.replace("-", "_")
        new = self.world(copy.document(), crate)
        impls = [i for i in new.crates[crate].impls if i.place is not None and i.trait is not None]
        impls.sort(key=lambda i: (not i.params, i.source))
        tried = 0
        for impl in impls:
            if tried >= OF_EACH:
                return
            assert impl.place is not None
            before = copy.without(impl.place)
            if before is None:
                continue
            try:
                if copy.errors("") is None:
                    continue
                tried += 1
                old = self.world(copy.document(), crate)
                messages = [m for m in compared(old, new, crate, programs=Programs(PROGRAM)).messages if m.code == "impl-added"]
                yield from self.judged(copy, new, impl, messages, count, before)
            finally:
                copy.restore(impl.place, before)

    @staticmethod
    def world(project: Project, crate: str) -> World:
        """Of copies of the JSON: cargo makes it anew each time."""
        pages, files = KeptPages(docs_folder(None)), []
        room = tempfile.mkdtemp(dir=os.path.dirname(project.folder))
        for name in project.closure([crate]):
            files.append(shutil.copy(project.files[name], os.path.join(room, f"{name}.json")))
        world = World(pages, KeptStandard(pages))
        world.load(files, project.links)
        return world

    def judged(self, copy: Copy, new: World, impl: Impl, messages: list[Message], count: Counter[str], before: str) -> Iterator[str]:
        """What is wrong of what was told on the one impl that is added."""
        shown = Show(new).header(impl)
        if len(messages) != 1:
            yield f"{shown}: {len(messages)} impls are told as added: {[m.text for m in messages]}"
            return
        word = messages[0].word
        count[word] += 1
        if word not in ("breaking", "compatible"):
            return
        assert impl.place is not None
        users = list(users_impls(new, impl))
        if word == "breaking":
            users = written_out(messages[0])
        for user in users:
            old = copy.errors(user)
            copy.restore(impl.place, before)
            new_errors = copy.errors(user)
            copy.without(impl.place)
            meets = old is not None and new_errors is not None and "E0119" in new_errors and not {"E0119", "E0117", "E0210"} & old
            count[f"{word}, rustc {'E0119' if meets else 'nothing'}"] += 1
            if word == "compatible" and meets:
                yield f"{shown}: compatible, and `{user}` breaks"
            if word == "breaking" and not meets:
                yield f"{shown}: breaking, and `{user}` compiles with both: {old} {new_errors}"


