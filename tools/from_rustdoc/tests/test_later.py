"""Two releases of a small crate: what each added impl is judged to be stands in the newer one's source (crates/after.rs). And the pairs of
releases/pairs.txt: what is told of each stands there, and rustc, where it is there, says the same of crates that use them."""
from __future__ import annotations

import io
import json
import os
import re
import shutil
import tempfile
import unittest
from collections import Counter
from typing import Any, Callable

from ..later.claims import Programs
from ..later.command import told as say
from ..later.release import Release, compared
from ..later.waivers import item_of
from ..model.show import Show
from ..model.world import World
from ..report.classes import CHANGES
from ..report.messages import Message, Output
from .common import PROGRAM, WHY_NO_PROGRAM, kept, pages, world
from .pairs import Compiler, Pair, all_pairs, pairs_of, written_out


NOT_JUDGED = "not-judged"


def renamed(name: str, other: str, folder: str) -> str:
    """A file with the JSON of a kept crate under another name."""
    with open(kept(name), encoding="utf-8") as handle:
        data = json.load(handle)
    data["index"][str(data["root"])]["name"] = other
    for path in data["paths"].values():
        if path["crate_id"] == 0:
            path["path"][0] = other
    file = os.path.join(folder, other + ".json")
    with open(file, "w", encoding="utf-8") as handle:
        json.dump(data, handle)
    return file


def told(release: Release, pairs: list[Pair]) -> dict[str, list[Message]]:
    """What is told of each pair."""
    found: dict[str, list[Message]] = {}
    for message in release.messages:
        for name in pairs_of(message, pairs):
            found.setdefault(name, []).append(message)
    return found


@unittest.skipIf(WHY_NO_PROGRAM, WHY_NO_PROGRAM)
class Later(unittest.TestCase):
    release: Release

    @classmethod
    def setUpClass(cls) -> None:
        cls.release = cls.judged(False)

    @staticmethod
    def judged(with_private: bool) -> Release:
        with tempfile.TemporaryDirectory() as folder:
            new = World(pages())
            new.load([renamed("after", "before", folder)])
            return compared(world("before"), new, "before", with_private, Programs(PROGRAM))

    def of(self, release: Release, code: str) -> dict[str, str]:
        return {m.text: m.word for m in release.messages if m.code == code}

    def test_each_added_impl_has_one_message(self) -> None:
        breaks = " breaks crates that have an impl of their own"
        self.assertEqual(self.of(self.release, "impl-added"), {
            "`impl Default for before::Packet`": "compatible",
            "`impl before::Encode for u16`": "compatible",
            "`impl Clone for before::Fresh`": "compatible",
            "`impl<T> before::Decode for T`": "compatible",
            "`impl<T> before::Encode for Vec<T>`": "compatible",
            "`impl PartialEq<&str> for before::Packet`": "compatible",
            f"`impl<T> PartialEq<&mut T> for before::Packet`{breaks}": "breaking",
            f"`impl<T> before::Encode for Box<T>`{breaks}": "breaking",
            "`impl<T> From<Option<T>> for before::Packet`": "compatible",
            "`impl<T> before::Closed for T`": "sealed",
            "`impl before::Seal for u8`": "private",
            "`impl Send for before::Packet`": "compatible",
        })

    def test_a_breaking_one_names_an_impl_that_it_would_meet(self) -> None:
        notes = "\n".join(child.text for m in self.release.messages for child in m.children)
        self.assertIn("another crate may have `impl PartialEq<&mut Mine> for before::Packet`", notes)
        self.assertIn("another crate may have `impl before::Encode for Box<Mine>`", notes)

    def test_with_private_items_they_are_judged_too(self) -> None:
        words = self.of(self.judged(True), "impl-added")
        self.assertEqual(words["`impl<T> before::Closed for T` breaks crates that have an impl of their own"], "breaking")
        self.assertEqual(words["`impl before::Seal for u8`"], "compatible")

    def test_what_no_section_can_say_is_told(self) -> None:
        self.assertEqual(self.of(self.release, "item-removed"), {"struct `before::Gone` is removed": "breaking"})
        gone = next(m for m in self.release.messages if m.code == "item-removed")
        self.assertIn("its impls are not compared: 1", [child.text for child in gone.children])
        self.assertEqual(self.of(self.release, "auto-trait-lost"), {"struct before::Pool is not `Send` any more": "breaking",
                                                                    "struct before::Pool is not `Sync` any more": "breaking"})
        self.assertEqual([m.code for m in self.release.messages if m.word in ("not settled", "changed")], [])
        self.assertEqual((self.release.answer, self.release.status), ("breaking", 1))

    def test_new_items_are_named(self) -> None:
        self.assertEqual(self.of(self.release, "item-added"), {"struct before::Fresh": "new", "trait before::Decode": "new"})

    def test_a_release_that_changes_nothing_is_compatible(self) -> None:
        release = compared(world("before"), world("before"), "before", programs=Programs(PROGRAM))
        self.assertEqual((release.messages, release.answer, release.status, release.strict_status()), ([], "compatible", 0, 0))


@unittest.skipIf(WHY_NO_PROGRAM, WHY_NO_PROGRAM)
class Exported(unittest.TestCase):
    def judged(self, change: Callable[[World, dict[str, Any]], None]) -> list[tuple[str, str]]:
        """What is told of `user`, which exports `ab::Sb`, if its new version uses another one of `ab`."""
        old = world("ab", "user")
        with tempfile.TemporaryDirectory() as folder:
            with open(kept("ab"), encoding="utf-8") as handle:
                data = json.load(handle)
            data["crate_version"] = "2.0.0"
            change(old, data)
            file = os.path.join(folder, "ab.json")
            with open(file, "w", encoding="utf-8") as handle:
                json.dump(data, handle)
            new = World(pages())
            new.load([file, kept("user")])
            release = compared(old, new, "user", programs=Programs(PROGRAM))
        return [(m.text, m.word) for m in release.messages]

    def test_an_impl_that_a_type_of_another_crate_loses(self) -> None:
        def change(old: World, data: dict[str, Any]) -> None:
            lost = next(i for i in old.crates["ab"].impls if Show(old).header(i) == "impl ab::Ta for ab::Sb")
            assert lost.place is not None
            data["index"] = {n: i for n, i in data["index"].items() if "impl" not in i["inner"] or i["span"]["begin"][0] != lost.place.line}

        self.assertEqual(self.judged(change), [("`impl ab::Ta for ab::Sb` is removed", "breaking")])
        self.assertEqual(self.judged(lambda old, data: None), [])

    def test_a_destructor_and_an_impl_that_a_type_of_another_crate_gets(self) -> None:
        def change(old: World, data: dict[str, Any]) -> None:
            core = next(int(number) for number, crate in data["external_crates"].items() if crate["name"] == "core")
            model = next(i for i in data["index"].values() if i["inner"].get("impl", {}).get("for", {}).get("resolved_path", {}).get("path") == "Sb")
            for number, (kind, path) in enumerate([("Drop", ["core", "ops", "drop", "Drop"]), ("Clone", ["core", "clone", "Clone"])], 90000):
                data["paths"][str(number)] = {"crate_id": core, "path": path, "kind": "trait"}
                body = {**model["inner"]["impl"], "items": [], "trait": {"args": None, "id": number, "path": kind}}
                data["index"][str(number + 10)] = {**model, "id": number + 10, "inner": {"impl": body}, "span": {**model["span"], "begin": [number, 1]}}

        self.assertEqual(self.judged(change), [("struct user::Sb has a destructor now", "breaking"), ("`impl Clone for ab::Sb`", "compatible")])


class NotJudged(unittest.TestCase):
    def test_what_is_not_judged_is_not_compatible(self) -> None:
        release = Release("a", ("1.0.0", "1.1.0"), [], Counter({"function signature": 3, "field": 1}))
        self.assertEqual((release.answer, release.status, release.strict_status()), ("no break found in what was judged", 0, 4))
        self.assertEqual(release.summary(), "a 1.0.0 to 1.1.0: no break found in what was judged")
        self.assertEqual(release.uncovered(), "not judged: 1 field, 3 function signatures")

    def test_it_has_a_line_and_a_key(self) -> None:
        release = Release("a", ("1.0.0", "1.1.0"), [], Counter({"hidden type": 2}))
        for is_strict, status in [(False, 0), (True, 4)]:
            said = io.StringIO()
            self.assertEqual(say(release, Output(stream=said), is_strict), status)
            self.assertEqual(said.getvalue(), "not judged: 2 hidden types\na 1.0.0 to 1.1.0: no break found in what was judged\n")
            said = io.StringIO()
            say(release, Output(stream=said, is_json=True), is_strict)
            found = json.loads(said.getvalue())
            self.assertEqual((found["not_judged"], found["status"], found["answer"]), ({"hidden type": 2}, status, "no break found in what was judged"))

    def test_a_break_stays_one(self) -> None:
        release = Release("a", ("1.0.0", "1.1.0"), [Message("x", word="breaking")], Counter({"field": 1}))
        self.assertEqual((release.answer, release.status, release.strict_status()), ("breaking", 1, 1))


@unittest.skipIf(WHY_NO_PROGRAM, WHY_NO_PROGRAM)
class Pairs(unittest.TestCase):
    pairs: list[Pair]
    told: dict[str, list[Message]]

    @classmethod
    def setUpClass(cls) -> None:
        cls.pairs = all_pairs()
        cls.told = told(compared(world("pairs_old"), world("pairs_new"), "pairs", programs=Programs(PROGRAM)), cls.pairs)

    def test_each_pair_is_told_as_it_was_worked_out(self) -> None:
        for pair in self.pairs:
            found = [m for m in self.told.get(pair.name, []) if m.level in ("error", "warning") or m.word == "not judged"]
            with self.subTest(pair.name):
                self.assertEqual({m.code for m in found}, pair.classes, [m.text for m in found])
                self.assertEqual([m.text for m in found if m.word == "not settled"], [])

    def test_one_break_is_told_once(self) -> None:
        for name in ("copy_lost", "equality_removed", "equality_written_by_hand"):
            self.assertEqual(len([m for m in self.told[name] if m.level == "error"]), 1, name)

    def test_each_change_can_be_waived_by_its_class_and_item(self) -> None:
        for message in (message for messages in self.told.values() for message in messages if message.word not in ("new", "private", "sealed")):
            self.assertIn(message.code, CHANGES)
            self.assertRegex(item_of(message), r"^(pairs::[\w:*#]+|(impl|dyn)\b.*)$", message.text)

    def test_there_are_enough_pairs_of_either_kind(self) -> None:
        self.assertGreater(sum(not p.classes for p in self.pairs), 25)
        self.assertGreater(len(set().union(*(p.classes for p in self.pairs))), 24)

    @unittest.skipUnless(shutil.which("rustc"), "there is no rustc")
    def test_rustc_says_the_same_of_their_users(self) -> None:
        with tempfile.TemporaryDirectory() as folder:
            compiler = Compiler(folder, self.pairs)
            self.assertEqual(compiler.failing(self.pairs, "old"), {})
            failing = compiler.failing(self.pairs, "new")
        # Of what is not judged either may be so.
        unsure = {p.name for p in self.pairs if p.classes == {NOT_JUDGED}}
        self.assertEqual(set(failing) - unsure, {p.name for p in self.pairs if p.classes - {NOT_JUDGED}})
        for name, codes in failing.items():
            if name in unsure:
                continue
            said = " ".join(child.text for m in self.told[name] for child in m.children if child.level == "help")
            with self.subTest(name):
                self.assertTrue(codes & set(re.findall(r"E\d{4}", said) + re.findall("`([^`]*)`", said)), (codes, said))

    @unittest.skipUnless(shutil.which("rustc"), "there is no rustc")
    def test_each_impl_that_is_written_out_breaks(self) -> None:
        """It compiles with the old version but for the items that it has to have, and with the new one it overlaps."""
        texts = [(p.name, text) for p in self.pairs for m in self.told.get(p.name, []) if m.code == "impl-added" and m.word == "breaking"
                 for text in written_out(m)]
        users = [Pair(f"user_{number}", set(), {"user": text + "\n"}, name) for number, (name, text) in enumerate(texts)]
        self.assertGreater(len(users), 10)
        with tempfile.TemporaryDirectory() as folder:
            compiler = Compiler(folder, self.pairs)
            old, new = compiler.failing(users, "old"), compiler.failing(users, "new")
        for user in users:
            with self.subTest(user.sources["user"]):
                self.assertLessEqual(old.get(user.name, set()), {"E0046"})
                self.assertIn("E0119", new.get(user.name, set()))
