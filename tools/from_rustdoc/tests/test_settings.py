"""What packages say in their metadata, which packages and features a call is about, what is waived, and what the numbers of versions say."""
from __future__ import annotations

import contextlib
import io
import os
import tempfile
import unittest
from collections import Counter
from typing import Any, Optional

from ..later.bump import release_type
from ..later.command import told
from ..later.release import Release
from ..later.waivers import item_of, unused, waive
from ..read.cargo import features
from ..read.selection import Selection, Trial, project_folder, selected
from ..read.settings import Expected, Reader, Settings, Waiver, features_told, of_metadata
from ..read.terms import BadInput
from ..report.classes import CHANGES, CLASSES
from ..report.messages import Message, Output

WAIVER = {"class": "impl-added", "item": "impl A for B", "reason": "nobody has one"}


class Metadata(unittest.TestCase):
    def read(self, found: Any, packages: tuple[str, ...] = ()) -> Settings:
        return Reader("Cargo.toml", "workspace" if packages else "package", CHANGES, packages).read(found)

    def refused(self, found: Any, packages: tuple[str, ...] = ()) -> str:
        with self.assertRaises(BadInput) as error:
            self.read(found, packages)
        return str(error.exception).removeprefix("Cargo.toml: [")

    def test_questions_waivers_and_features_are_read(self) -> None:
        self.assertEqual(self.read(None), Settings())
        found = self.read({"ask": {"Pool<u8>: Send": "yes"}, "waive": [WAIVER], "feature-sets": [["default"], ["default", "a", "b"], ["a"], [], "all"]})
        self.assertEqual(found.asks, [Expected("Pool<u8>: Send", "yes")])
        self.assertEqual(found.waivers, [Waiver("impl-added", "impl A for B", "nobody has one", "Cargo.toml")])
        self.assertEqual(found.sets, [[], ["--features", "a,b"], ["--no-default-features", "--features", "a"], ["--no-default-features"], ["--all-features"]])
        self.assertEqual([features_told(words) for words in found.sets or []], ["features default", "features default, a, b", "features a", "no features", "all features"])
        self.assertEqual(self.read({"waive": [{**WAIVER, "package": "b"}]}, ("a", "b")).waivers[0].package, "b")

    def test_what_is_not_known_is_an_error_with_the_nearest(self) -> None:
        self.assertEqual(self.refused({"waves": []}), "package.metadata.celtisdarts] has no key `waves`; did you mean `waive`? (it has ask, waive, feature-sets)")
        self.assertEqual(self.refused({"waive": [WAIVER, {**WAIVER, "reasn": "x"}]}),
                         "package.metadata.celtisdarts] waive 2 has no key `reasn`; did you mean `reason`? (it has class, item, reason)")
        self.assertEqual(self.refused({"waive": [{**WAIVER, "class": "impl-aded"}]}),
                         "package.metadata.celtisdarts] waive 1: class is `impl-aded`, which is none that is known; did you mean `impl-added`?")
        self.assertEqual(self.refused({"ask": {"A: B": "yess"}}),
                         "package.metadata.celtisdarts] ask.'A: B' is `yess`, which is none that is known; did you mean `yes`? (it is one of yes, no, maybe)")
        self.assertEqual(self.refused({"waive": [{**WAIVER, "package": "pol"}]}, ("pool",)),
                         "workspace.metadata.celtisdarts] waive 1: package is `pol`, which is none that is known; did you mean `pool`? (it is one of pool)")
        # Of one package's own table it is that package.
        self.assertIn("has no key `package`", self.refused({"waive": [{**WAIVER, "package": "pool"}]}))

    def test_a_waiver_has_a_reason(self) -> None:
        for reason in (None, "", "  ", 5):
            self.assertEqual(self.refused({"waive": [{**WAIVER, "reason": reason}]}), "package.metadata.celtisdarts] waive 1: reason has to be there, and is a text that says something")
        self.assertIn("waive 1: item has to be there", self.refused({"waive": [{"class": "impl-added", "reason": "x"}]}))

    def test_what_is_of_another_kind_is_an_error(self) -> None:
        for found, what in (([], "is a table"), ({"ask": ["x"]}, "ask is a table"), ({"waive": WAIVER}, "waive is a list"), ({"feature-sets": ["a"]}, "feature-sets 1 is a list of features"),
                            ({"feature-sets": [[1]]}, "feature-sets 1 has to be there, and is a text"), ({"feature-sets": []}, "feature-sets has no set")):
            self.assertIn(what, self.refused(found))

    def test_it_is_read_of_the_packages_that_are_chosen(self) -> None:
        def package(name: str, metadata: Any) -> dict[str, Any]:
            return {"name": name, "manifest_path": f"/w/{name}/Cargo.toml", "metadata": metadata, "features": {"serde": []}}
        packages = [package("a", {"celtisdarts": {"ask": {"A: B": "no"}}, "docs": 1}), package("b", {"celtisdarts": {"wrong": 1}})]
        data = {"workspace_root": "/w", "packages": packages, "metadata": {"celtisdarts": {"waive": [{**WAIVER, "package": "b"}]}}}
        of_workspace, settings = of_metadata(data, packages[:1], CHANGES)
        self.assertEqual((of_workspace.waivers[0].package, settings["a"].asks), ("b", [Expected("A: B", "no")]))
        with self.assertRaisesRegex(BadInput, r"^/w/b/Cargo.toml: \[package\.metadata\.celtisdarts\] has no key `wrong`"):
            of_metadata(data, packages, CHANGES)
        for names, why in ((["serd"], "feature-sets 1 has `serd`, which is no feature of the package; did you mean `serde`?"), (["default", "serde", "a/b"], "")):
            packages[1]["metadata"] = {"celtisdarts": {"feature-sets": [names]}}
            with self.assertRaises(BadInput) if why else contextlib.nullcontext() as error:
                of_metadata(data, packages, CHANGES)
            self.assertIn(why, str(getattr(error, "exception", "")))

    def test_each_class_of_a_release_can_be_waived(self) -> None:
        self.assertLess(set(CHANGES), set(CLASSES))
        self.assertEqual([name for name in CLASSES if not CLASSES[name] or name != name.lower()], [])


class Chosen(unittest.TestCase):
    def setUp(self) -> None:
        room = tempfile.TemporaryDirectory()
        self.addCleanup(room.cleanup)
        self.room = os.path.realpath(room.name)
        for folder in ("", "a/src/deep", "b-c"):
            os.makedirs(os.path.join(self.room, folder), exist_ok=True)
        for folder in ("", "a", "b-c"):
            open(os.path.join(self.room, folder, "Cargo.toml"), "w", encoding="utf-8").close()
        self.addCleanup(os.chdir, os.getcwd())
        packages = [{"id": name, "name": name, "version": "1.0.0", "manifest_path": os.path.join(self.room, name, "Cargo.toml")} for name in ("a", "b-c")]
        self.data: dict[str, Any] = {"packages": packages, "workspace_members": ["a", "b-c"], "workspace_default_members": ["b-c"], "workspace_root": self.room}

    def chosen(self, folder: str, *packages: str, **more: Any) -> tuple[list[str], list[str]]:
        found = selected(os.path.join(self.room, folder), self.data, packages, **more)
        return found.names(), found.words

    def test_the_folder_is_that_of_the_next_manifest(self) -> None:
        os.chdir(os.path.join(self.room, "a", "src", "deep"))
        self.assertEqual(project_folder(None), os.path.join("..", ".."))
        os.chdir(self.room)
        self.assertEqual((project_folder(None), project_folder("a/Cargo.toml"), project_folder("Cargo.toml")), (".", "a", "."))
        for wrong, why in (("a", "takes the path of a Cargo.toml"), ("c/Cargo.toml", "there is no c/Cargo.toml")):
            with self.assertRaisesRegex(BadInput, why):
                project_folder(wrong)
        os.chdir("/")
        with self.assertRaisesRegex(BadInput, "^there is no Cargo.toml in /, nor in a folder above it$"):
            project_folder(None)

    def test_packages_are_cargos(self) -> None:
        self.assertEqual(self.chosen("a"), (["a"], []))
        self.assertEqual(self.chosen(""), (["b-c"], []))
        self.assertEqual(self.chosen("a", is_whole=True), (["a", "b-c"], ["--workspace"]))
        self.assertEqual(self.chosen("", is_whole=True, excluded=["b*"]), (["a"], ["--workspace", "--exclude", "b*"]))
        self.assertEqual(self.chosen("a", "b-c"), (["b-c"], ["-p", "b-c"]))
        self.assertEqual(self.chosen("a", "b_c", "a@1.0.0"), (["a", "b-c"], ["-p", "b-c", "-p", "a"]))
        for wrong, why in (("bc", "no package `bc` is in this workspace; did you mean `b-c`? (it has a, b-c)"), ("a@2", "no package `a@2` is in this workspace")):
            with self.assertRaises(BadInput) as error:
                self.chosen("a", wrong)
            self.assertIn(why, str(error.exception))

    def trials(self, extra: list[str], of_a: Optional[list[list[str]]], of_b: Optional[list[list[str]]], of_all: Optional[list[list[str]]] = None) -> list[Trial]:
        chosen = Selection(self.room, self.data, self.data["packages"])
        return chosen.trials(extra, {"a": Settings(sets=of_a), "b-c": Settings(sets=of_b)}, Settings(sets=of_all))

    def test_features_are_those_that_are_given_or_of_each_package_or_of_all(self) -> None:
        self.assertEqual(self.trials([], None, None), [Trial()])
        self.assertEqual(self.trials(["--all-features"], [["x"]], None), [Trial()])
        self.assertEqual(self.trials([], [["x"], ["y"]], None), [Trial(["a"], ["x"], True), Trial(["a"], ["y"], True), Trial(["b-c"], [], False)])
        self.assertEqual(self.trials([], None, None, [["x"]]), [Trial([], ["x"], True)])
        self.assertEqual(self.trials([], [["x"]], [["x"]]), [Trial([], ["x"], True)])

    def test_cargos_words_for_features(self) -> None:
        self.assertEqual(features(["--locked", "--features", "a", "-F", "b", "--features=c", "--no-default-features", "-p", "x"]),
                         ["--features", "a", "-F", "b", "--features=c", "--no-default-features"])


class Numbers(unittest.TestCase):
    def test_they_say_which_release_it_is(self) -> None:
        for old, new, kind in (("0.3.0", "0.4.0", "major"), ("0.3.1", "0.3.2", "minor"), ("0.0.1", "0.0.2", "major"), ("0.0.1", "0.1.0", "major"), ("1.2.3", "1.2.4", "patch"),
                               ("1.2.3", "1.3.0", "minor"), ("1.2.3", "2.0.0", "major"), ("0.9.9", "1.0.0", "major"), ("1.0.0", "1.0.0", ""), ("1.0.1", "1.0.0", ""), ("2.0.0", "1.9.0", ""),
                               ("1.0.0-alpha.1", "1.0.0-alpha.2", "major"), ("1.0.0-rc.1", "1.0.0", "major"), ("1.0.0-rc.1", "1.0.0-beta", ""), ("1.0.0-rc.2", "1.0.0-rc.10", "major"),
                               ("1.0.0", "1.1.0-rc.1", "minor"), ("1.0.0+a", "1.0.0+b", ""), ("", "1.0.0", ""), ("1.0", "1.1", "")):
            self.assertEqual(release_type(old, new), kind, (old, new))

    def said(self, release: Release, is_strict: bool = False) -> tuple[int, str]:
        stream = io.StringIO()
        status = told(release, Output(stream=stream), is_strict)
        return status, stream.getvalue()

    def release(self, kind: str, is_given: bool = False) -> Release:
        return Release("a", ("0.3.0", "0.4.0"), [Message("x", "bound-added", "breaking"), Message("y", "impl-added", "compatible")], Counter({"field": 1}), kind, is_given)

    def test_status_and_last_line_say_it(self) -> None:
        status, said = self.said(self.release("major"), True)
        self.assertEqual((status, said.splitlines()[0], said.splitlines()[-1]),
                         (0, "warning[bound-added]: x", "a 0.3.0 to 0.4.0 (major): breaking, as a major release may be (1 breaking, 1 compatible)"))
        status, said = self.said(self.release("minor"))
        self.assertEqual((status, said.splitlines()[0], said.splitlines()[-1]), (1, "error[bound-added]: x", "a 0.3.0 to 0.4.0 (minor): breaking (1 breaking, 1 compatible)"))
        self.assertEqual(self.said(self.release("patch", True))[1].splitlines()[-1], "a 0.3.0 to 0.4.0 (patch, as given): breaking (1 breaking, 1 compatible)")
        self.assertEqual(self.said(self.release(""))[0], 1)


class Waived(unittest.TestCase):
    def release(self) -> Release:
        hidden = Message("function a::f: its lifetimes have changed", "not-judged", "not judged", counted_as="function signature")
        return Release("a", ("1.0.0", "1.1.0"), [Message("struct a::S has a new bound: `T: Copy`", "bound-added", "breaking"), Message("struct a::S2 has a new bound: `T: Copy`", "bound-added", "breaking"),
                                                 hidden, Message("`impl A for a::S`", "impl-added", "compatible")], Counter({"function signature": 1}), "minor")

    def test_a_waiver_is_of_one_class_and_one_item(self) -> None:
        release = self.release()
        waivers = [Waiver("bound-added", "a::S", "one", "Cargo.toml"), Waiver("bound-removed", "a::S2", "two", "Cargo.toml"), Waiver("impl-added", "impl A for a::S", "three", "Cargo.toml")]
        waive(release, waivers)
        self.assertEqual([m.waived for m in release.messages], ["one", "", "", ""])
        self.assertEqual((release.status, release.summary()), (1, "a 1.0.0 to 1.1.0 (minor): breaking (1 breaking, 1 compatible, 1 breaking waived)"))
        self.assertEqual([(m.text, m.level, m.status) for m in unused(waivers)],
                         [("a waiver in Cargo.toml waives nothing: bound-removed of `a::S2`; remove it", "warning", 0), ("a waiver in Cargo.toml waives nothing: impl-added of `impl A for a::S`; remove it", "warning", 0)])
        # One of the same class may have been meant.
        waivers = [Waiver("bound-added", "S2", "two", "Cargo.toml")]
        waive(self.release(), waivers)
        self.assertEqual([m.text for m in unused(waivers)], ["a waiver in Cargo.toml waives nothing: bound-added of `S2`; what nothing waives of this class is of `a::S`, `a::S2`"])

    def test_what_is_waived_is_never_compatible(self) -> None:
        release = self.release()
        waive(release, [Waiver("bound-added", name, "x") for name in ("a::S", "a::S2")])
        self.assertEqual((release.answer, release.status, release.exit_status(True)), ("no break found in what was judged", 0, 4))
        waive(release, [Waiver("not-judged", "a::f", "y")])
        self.assertEqual((release.answer, release.exit_status(True), release.uncovered()), ("no break but what is waived", 0, ""))
        self.assertEqual(release.summary(), "a 1.0.0 to 1.1.0 (minor): no break but what is waived (1 compatible, 2 breaking waived, 1 not judged waived)")

    def test_the_item_of_a_change_is_what_its_text_begins_with(self) -> None:
        for text, item in (("struct a::S has a new bound: `T: Copy`", "a::S"), ("struct `a::Gone` is removed", "a::Gone"), ("struct a::H: the default of `T` is another one", "a::H"),
                           ("associated constant a::T::ONE is of another type: `u16`, and was `u8`", "a::T::ONE"), ("`impl<T> A<T> for a::S` breaks crates", "impl<T> A<T> for a::S"),
                           ("glob re-export `a::std::*` is removed", "a::std::*"), ("the library `a` is gone", "a"), ("`dyn a::D` is no type any more", "dyn a::D"),
                           ("function a::f: its lifetimes have changed", "a::f"), ("type a::View: a bound or type has other lifetimes", "a::View")):
            self.assertEqual(item_of(Message(text)), item)


if __name__ == "__main__":
    unittest.main()
