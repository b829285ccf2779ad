"""What is exported of crates that were not given is not judged, and counted."""
from __future__ import annotations

import json
import os
import tempfile
import unittest
from typing import Any

from ..later.release import Release, compared
from ..model.world import World
from .common import kept, pages


def exporting(folder: str, *exports: tuple[list[str], str, bool]) -> str:
    """The JSON of a kept crate that exports items of others too: by path, kind, and whether it is all that stands in them."""
    with open(kept("user"), encoding="utf-8") as handle:
        data: dict[str, Any] = json.load(handle)
    root = data["index"][str(data["root"])]
    crates = {crate["name"]: int(number) for number, crate in data["external_crates"].items()}
    for number, (path, kind, is_glob) in enumerate(exports):
        crate = crates.setdefault(path[0], 90000 + number)
        data["external_crates"].setdefault(str(crate), {"name": path[0], "html_root_url": None})
        data["paths"][str(95000 + number)] = {"crate_id": crate, "path": path, "kind": kind}
        data["index"][str(99000 + number)] = {"id": 99000 + number, "crate_id": 0, "name": None, "visibility": "public", "attrs": [], "span": None, "inner": {
            "use": {"source": "::".join(path), "name": path[-1], "id": 95000 + number, "is_glob": is_glob}}}
        root["inner"]["module"]["items"].append(99000 + number)
    file = os.path.join(folder, "user.json")
    with open(file, "w", encoding="utf-8") as handle:
        json.dump(data, handle)
    return file


class NotGiven(unittest.TestCase):
    def judged(self, *exports: tuple[list[str], str, bool], given: tuple[str, ...] = ()) -> Release:
        with tempfile.TemporaryDirectory() as folder:
            worlds = [World(pages()), World(pages())]
            for one in worlds:
                one.load([exporting(folder, *exports), *map(kept, given)])
            return compared(worlds[0], worlds[1], "user")

    def test_an_item_of_a_crate_that_was_not_given_is_not_judged(self) -> None:
        # (The crate itself exports `ab::Sb`.)
        exports = ((["ab", "Ta"], "trait", False), (["up", "inner"], "module", True), (["up", "all"], "module", False), (["up", "f"], "function", False),
                   (["core", "mem", "swap"], "function", False), (["alloc", "vec", "Vec"], "struct", False))
        release = self.judged(*exports)
        self.assertEqual(release.answer, "no break found in what was judged")
        self.assertEqual(sorted(m.text for m in release.messages if m.word == "not judged"), [
            "user::Sb: is of ab, which was not given", "user::Ta: is of ab, which was not given", "user::all: is of up, which was not given",
            "user::f: is of up, which was not given", "user::up::inner::*: is of up, which was not given"])
        self.assertEqual((release.not_judged["re-export"], release.status, release.strict_status()), (5, 0, 4))

    def test_what_was_given_is_judged(self) -> None:
        self.assertEqual(self.judged((["ab", "Ta"], "trait", False), given=("ab",)).answer, "compatible")


if __name__ == "__main__":
    unittest.main()
