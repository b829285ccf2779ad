"""Projects: what cargo is asked and what it says, two versions of one crate, and what is told where there is nothing to read. The last tests run
cargo on a small project that needs no other crates, where it is installed."""
from __future__ import annotations

import contextlib
import io
import json
import os
import shutil
import subprocess
import sys
import tempfile
import unittest
from typing import Any
from unittest import mock

from .. import command
from ..command import main
from ..model.world import World
from ..read.cargo import HERE, Project, Unit, align, chosen, configured, docs_folder, is_no_work, pinned, progress_of, project_of, read_metadata, units_of
from ..read.doc_cfg import lines
from ..read.proved import proved_program
from ..read.rustdoc_json import external_name
from ..read.terms import BadInput, keys_of
from ..read.unit import Depends, add_depends, is_documented, read_depends, words_of_rustdoc
from .common import kept, pages


def package(name: str, version: str = "1.0.0", kind: str = "lib") -> dict[str, Any]:
    return {"id": f"{name} {version}", "version": version, "targets": [{"name": name, "kind": [kind]}]}


def used(name: str, kind: object = None, version: str = "1.0.0") -> dict[str, Any]:
    return {"pkg": f"{name} {version}", "dep_kinds": [{"kind": kind}]}


def metadata(packages: list[dict[str, Any]], uses: dict[str, list[dict[str, Any]]], members: list[str]) -> str:
    return json.dumps({"packages": packages, "workspace_members": members, "workspace_root": "/w",
                       "resolve": {"nodes": [{"id": p["id"], "deps": uses.get(p["id"], [])} for p in packages]}})


class Metadata(unittest.TestCase):
    def test_what_uses_what_is_cargos_word(self) -> None:
        text = metadata([package("a"), package("b-c"), package("m", kind="proc-macro"), package("t")],
                        {"a 1.0.0": [used("b-c"), used("m"), used("t", "dev")]}, ["a 1.0.0"])
        project = read_metadata(text)
        self.assertEqual((project.uses["a"], project.members), (["b_c"], ["a"]))


def unit(stem: str, crate: str, *uses: str, package: str = "", version: str = "1.0.0") -> Unit:
    return Unit(stem, package or f"{crate} {version}", crate, version, f"{stem}.json", uses=list(uses))


class Units(unittest.TestCase):
    def test_what_uses_what_is_told_by_compiled_files(self) -> None:
        project = project_of([unit("liba-1", "a", "libb-2", "libm-3"), unit("libb-2", "b"), unit("libz-9", "z")], ["a 1.0.0", "c 1.0.0"], "/w")
        self.assertEqual((project.members, project.files, project.uses), (["a"], {"a": "liba-1.json", "b": "libb-2.json"}, {"a": ["b"], "b": []}))
        self.assertEqual((project.links.artifacts, project.root), ({"liba-1": "a", "libb-2": "b"}, "/w"))

    def test_units_of_one_crate_have_names_of_their_own(self) -> None:
        units = [unit("liba-1", "a", "libd-3", "libm-4"), unit("libd-2", "d", version="0.1.0"), unit("libd-3", "d", version="0.2.0"), unit("libm-4", "m", "libd-2")]
        project = project_of(units, ["a 1.0.0"], "/w")
        self.assertEqual(project.uses, {"a": ["d@0.2.0", "m"], "d@0.1.0": [], "d@0.2.0": [], "m": ["d@0.1.0"]})
        self.assertEqual(project.links.names, {"libd-2.json": "d@0.1.0", "libd-3.json": "d@0.2.0"})
        # One that is not used by a library, as what only procedural macros use, is none of these.
        self.assertEqual(project_of(units[:1] + units[2:3], ["a 1.0.0"], "/w").uses, {"a": ["d"], "d": []})

    def test_one_version_from_two_places_has_two_names(self) -> None:
        units = [unit("liba-1", "a", "libd-2", "libd-3"), unit("libd-2", "d", package="one"), unit("libd-3", "d", package="two")]
        self.assertEqual(project_of(units, ["a 1.0.0"], "/w").uses, {"a": ["d@1.0.0", "d@1.0.0+2"], "d@1.0.0": [], "d@1.0.0+2": []})

    def test_the_workspaces_own_crate_keeps_its_name(self) -> None:
        units = [unit("libd-1", "d", "libm-2"), unit("libm-2", "m", "libd-3"), unit("libd-3", "d", version="0.2.0")]
        self.assertEqual(project_of(units, ["d 1.0.0"], "/w").uses, {"d": ["m"], "m": ["d@0.2.0"], "d@0.2.0": []})

    def test_a_member_is_the_unit_that_procedural_macros_do_not_use(self) -> None:
        units = [unit("libd-1", "d"), unit("libmac-3", "mac", "libd-1"), unit("libd-2", "d")]
        self.assertEqual(project_of(units, ["d 1.0.0"], "/w").files, {"d": "libd-2.json"})

    def test_of_files_alone_neither_version_is_taken_for_the_other(self) -> None:
        def user(folder: str, name: str, stem: str) -> str:
            with open(kept("user"), encoding="utf-8") as handle:
                data = json.load(handle)
            data["index"][str(data["root"])]["name"] = name
            for path in data["paths"].values():
                path["path"][0] = name if path["crate_id"] == 0 else path["path"][0]
            next(crate for crate in data["external_crates"].values() if crate["name"] == "ab")["path"] = f"/deps/{stem}.rmeta"
            with open(os.path.join(folder, name + ".json"), "w", encoding="utf-8") as handle:
                json.dump(data, handle)
            return handle.name
        for second, doubled in (("libab-1", []), ("libab-2", ["ab"])):
            with tempfile.TemporaryDirectory() as folder:
                found = World(pages())
                found.load([kept("ab"), user(folder, "one", "libab-1"), user(folder, "two", second)])
            self.assertEqual(found.doubled, doubled)
            keys = {key for crate in found.crates.values() if crate.name != "ab" for d in crate.declarations.values() for t in d.fields for key in keys_of(t)}
            self.assertEqual(any(key.startswith("other:ab::") for key in keys), not doubled)
            self.assertEqual(any(key.startswith("other:ab@libab-2::") for key in keys), bool(doubled))

    def test_a_crate_that_is_not_read_is_no_other_version(self) -> None:
        artifacts = {"libd-1": "d@0.1.0", "libd-2": "d@0.2.0", "libb-3": "b"}
        self.assertEqual([external_name(name, stem, artifacts) for name, stem in (("d", "libd-2"), ("b", "libb-3"), ("b", "libb-4"), ("c", "libc-5"), ("core", "x"))],
                         ["d@0.2.0", "b", "b@libb-4", "c", "core"])
        self.assertEqual(external_name("b", "libb-4", None), "b")

    def test_two_versions_of_a_project_have_the_same_names(self) -> None:
        def project(*versions: str) -> Project:
            units = [unit("liba-1", "a", *(f"libd-{v}" for v in versions)), *(unit(f"libd-{v}", "d", version=v) for v in versions)]
            found = project_of(units, ["a 1.0.0"], "/w")
            found.units = {name: next(u for u in units if u.file == file) for name, file in found.files.items()}
            return found
        for old, new, names_of_old, names_of_new in (
                (("0.9.1",), ("0.9.4", "1.0.2"), ["d@0.9"], ["d@0.9", "d@1"]), (("1.0.0", "0.0.2"), ("0.0.3", "1.4.0"), ["d@1", "d@0.0.2"], ["d@0.0.3", "d@1"]),
                (("1.0.0", "1.1.0"), ("1.1.0",), ["d@1.0.0", "d@1.1.0"], ["d@1"]), (("1.0.0",), ("2.0.0",), ["d"], ["d"])):
            before, after = project(*old), project(*new)
            align(before, after)
            for one, names in ((before, names_of_old), (after, names_of_new)):
                self.assertEqual((one.uses["a"], list(one.uses)[1:], list(one.files)[1:], list(one.units)[1:], list(one.links.artifacts.values())[1:]), (names,) * 5)
                self.assertEqual(list(one.links.names.values()), [name for name in names if "@" in name])

    def test_what_has_no_document_is_named(self) -> None:
        def message(package: str, file: str, kind: str = "lib") -> dict[str, Any]:
            return {"reason": "compiler-artifact", "package_id": package, "target": {"kind": [kind]}, "filenames": [file]}
        with tempfile.TemporaryDirectory() as folder:
            os.makedirs(os.path.join(folder, "liba-1"))
            for name, text in (("unit", json.dumps({"crate": "a", "version": "1", "target": "", "cfgs": ["x"], "uses": ["libb-2"]})), ("a.json", "{}")):
                with open(os.path.join(folder, "liba-1", name), "w", encoding="utf-8") as handle:
                    handle.write(text)
            found, missing = units_of([message("a 1", "/t/liba-1.rmeta"), message("b 1", "/t/libb-2.rmeta"), message("m 1", "/t/libm-3.so", "proc-macro"),
                                       message("h 1", "/t/libh-4.rlib"), {"reason": "build-finished"}], folder)
        self.assertEqual((found, missing), ([Unit("liba-1", "a 1", "a", "1", os.path.join(folder, "liba-1", "a.json"), "", ["x"], ["libb-2"])], ["b 1"]))

    def test_only_work_is_told(self) -> None:
        lines = ("    Finished `dev` profile in 0.0s", "\x1b[1m\x1b[92m    Finished\x1b[0m `dev`", "   Compiling a v1", "error: no")
        self.assertEqual([is_no_work(line) for line in lines], [True, True, False, False])

    def test_progress_is_what_cargo_says_of_it(self) -> None:
        lines = ("    Building [=======>      ] 3/12: serde, syn(build.rs)   \n", "\x1b[K\x1b[1m\x1b[96m    Building\x1b[0m [ ] 0/2: a", "   Checking a v1", "Building 3/4: x")
        self.assertEqual([found and found.groups() for found in map(progress_of, lines)], [("3", "12", "serde, syn(build.rs)"), ("0", "2", "a"), None, None])

    def test_what_is_chosen_goes_to_metadata_too(self) -> None:
        self.assertEqual(chosen(["--offline", "--no-deps", "--features", "a,b", "-j", "2"]), ["--offline", "--features", "a,b"])

    def test_what_is_configured_goes_to_metadata_too(self) -> None:
        self.assertEqual(configured(["--offline", "--config", "build.target-dir='x'", "-j", "2", "--config=a", "-Zb"]), ["--config", "build.target-dir='x'", "--config=a", "-Zb"])


class Told(unittest.TestCase):
    def test_what_pins_the_toolchain_is_named(self) -> None:
        with tempfile.TemporaryDirectory() as folder, mock.patch.dict(os.environ):
            os.environ.pop("RUSTUP_TOOLCHAIN", None)
            os.makedirs(os.path.join(folder, "in"))
            open(os.path.join(folder, "rust-toolchain"), "w", encoding="utf-8").close()
            self.assertIn("rust-toolchain pins the toolchain", pinned(os.path.join(folder, "in")))
            with mock.patch.dict(os.environ, {"RUSTUP_TOOLCHAIN": "stable"}):
                self.assertEqual(pinned(folder), "")

    def test_a_folder_without_documents_is_refused_before_anything_is_made(self) -> None:
        with tempfile.TemporaryDirectory() as folder:
            with self.assertRaisesRegex(BadInput, "has no documents of std"):
                docs_folder(folder)

    def test_documents_of_another_version_are_refused(self) -> None:
        other = pages()
        with mock.patch.dict(vars(other), version="1.94.0"):
            with self.assertRaisesRegex(BadInput, r"was made by Rust 1\.95\.0, and std's documents in .* are of 1\.94\.0"):
                World(other).load([kept("ab")])
        with mock.patch.dict(vars(other), version="1.95.0"):
            World(other).load([kept("ab")])


class DocCfg(unittest.TestCase):
    def test_what_depends_on_it(self) -> None:
        text = ('#[cfg(doc)] impl A for u8 {}\n#[cfg(all(feature = "x", not(doc)))]\n#[cfg_attr(docsrs, doc(cfg(feature = "x")))]\n#[cfg(any(test, doc))]\n'
                '// #[cfg(doc)]\n#[cfg_attr(doc, derive(Clone))]\n#[cfg(all(unix, doc))]\n#[doc = "cfg(doc)"]\n#[cfg(any(unix, doc))]\n'
                'cfg_if! { if #[cfg( doc )] {} }\n#[doc(cfg(feature = "doc"))]\n#[cfg(any(all(doc, docsrs), unix))]\n')
        self.assertEqual(list(lines(text, None)), [1, 2, 4, 6, 7, 9, 10, 12])
        self.assertEqual(list(lines(text, frozenset({"unix"}))), [1, 4, 6, 7, 10])
        self.assertEqual(list(lines(text, frozenset({'feature="x"'}))), [1, 2, 4, 6, 9, 10])


RUSTC = ("--crate-name", "d", "--edition=2021", "src/my lib.rs", "--error-format=json", "--json=artifacts", "--crate-type", "lib", "--emit=dep-info,metadata",
         "-C", "embed-bitcode=no", "-Cdebuginfo=2", "--cfg", 'feature="x"', "--check-cfg", "cfg(docsrs,test)", "-C", "metadata=5", "-C", "extra-filename=-77",
         "--out-dir", "/deps", "-C", "incremental=/i", "-L", "dependency=/deps", "--extern", "noprelude:b=/deps/libb-8.rmeta", "-l", "static=z", "-Dwarnings", "-g")


class Wrapper(unittest.TestCase):
    """`rustc.sh` and `unit.py` with a program in rustc's and rustdoc's place that writes its words, and a document of its own number."""

    def setUp(self) -> None:
        self.room = tempfile.mkdtemp()
        self.addCleanup(shutil.rmtree, self.room)
        os.makedirs(os.path.join(self.room, "deps"))
        os.makedirs(os.path.join(self.room, "shared"))
        self.tool("rustc", 'echo "rustc $*" >> "$CALLS"\n[ -z "$FAILS" ] || exit 7\nprintf "x: src/lib.rs\\n\\nsrc/lib.rs:\\n" > "$ROOM/deps/d-77.d"\n')
        self.tool("rustdoc", '[ "$1" != -vV ] || { echo 1.0; exit; }\necho "rustdoc $RUSTC_BOOTSTRAP $*" >> "$CALLS"\n'
                             'for word; do [ "$before" != -o ] || place=$word; case $word in --emit=*) depends=${word#*=dep-info=};; esac; before=$word; done\n'
                             'grep -c ^rustdoc "$CALLS" > "$place/d.json"\n'
                             'printf "y: src/lib.rs seen\\\\\\\\ here.rs\\n\\n# env-dep:READ%s\\n" "${READ:+=$READ}" > "${depends%,*}"\n')

    def tool(self, name: str, text: str) -> None:
        with open(os.path.join(self.room, name), "w", encoding="utf-8") as handle:
            handle.write("#!/bin/sh\n" + text)
        os.chmod(os.path.join(self.room, name), 0o755)

    def called(self, *words: str, project: str = "json", **more: str) -> tuple[int, list[str]]:
        """The status, and the calls of both, without the folder."""
        calls = os.path.join(self.room, "calls")
        before = len(self.lines(calls))
        environment = {"PATH": os.environ["PATH"], "FROM_RUSTDOC_TOOL": os.path.join(self.room, "rustdoc"), "FROM_RUSTDOC_JSON": os.path.join(self.room, project),
                       "FROM_RUSTDOC_FLAGS": "-Z json", "FROM_RUSTDOC_PYTHON": sys.executable, "CARGO_MANIFEST_DIR": "/a b", "CARGO_PKG_VERSION": "0.2.0",
                       "CALLS": calls, "ROOM": self.room, **more}
        done = subprocess.run([os.path.join(HERE, "rustc.sh"), os.path.join(self.room, "rustc"), *words], env=environment, stderr=subprocess.PIPE, text=True)
        self.assertEqual(done.stderr, "")
        return done.returncode, [line.replace(self.room, "") for line in self.lines(calls)[before:]]

    @staticmethod
    def lines(file: str) -> list[str]:
        if not os.path.exists(file):
            return []
        with open(file, encoding="utf-8") as handle:
            return handle.read().splitlines()

    def words(self, **more: str) -> tuple[str, ...]:
        return tuple(more.get(word, word).replace("/deps", os.path.join(self.room, "deps"), 1) if word == "/deps" else more.get(word, word) for word in RUSTC)

    def test_a_library_that_is_checked_is_documented_by_the_same_words(self) -> None:
        status, (built, documented) = self.called(*self.words())
        self.assertEqual((status, built.split()[-2:]), (0, ["--cap-lints", "allow"]))
        self.assertRegex(documented, r'^rustdoc 1 --crate-name d --edition 2021 src/my lib.rs --crate-type lib -C embed-bitcode=no -C debuginfo=2 --cfg feature="x" '
                                     r"--check-cfg cfg\(docsrs,test\) -C metadata=5 -L dependency=/deps --extern noprelude:b=/deps/libb-8.rmeta "
                                     r"--crate-version 0.2.0 -o /json/libd-77\.\d+ --cap-lints allow -Z json --emit=dep-info=/json/libd-77\.\d+/depends,invocation-specific$")
        with open(os.path.join(self.room, "json", "libd-77", "unit"), encoding="utf-8") as handle:
            self.assertEqual(json.load(handle), {"stem": "libd-77", "crate": "d", "version": "0.2.0", "manifest": "/a b", "target": "", "cfgs": ['feature="x"'],
                                                 "uses": ["libb-8"], "is_fixed": False})
        # Cargo is told of what rustdoc alone has read.
        self.assertEqual(self.lines(os.path.join(self.room, "deps", "d-77.d")), ["x: src/lib.rs seen\\ here.rs", "", "src/lib.rs:", "seen\\ here.rs:", "# env-dep:READ"])

    def test_others_are_built_alone(self) -> None:
        for old, new in (("lib", "bin"), ("lib", "proc-macro"), ("--emit=dep-info,metadata", "--emit=dep-info,metadata,link")):
            self.assertEqual([line.split()[0] for line in self.called(*self.words(**{old: new}))[1]], ["rustc"], new)
            self.assertEqual(os.listdir(os.path.join(self.room, "json", "libd-77")), ["unit"])
        self.assertEqual(self.called("-vV"), (0, ["rustc -vV"]))
        # As a build script asks what the compiler can do.
        self.assertEqual(self.called("--crate-name", "probe", "--crate-type=lib", "--emit=dep-info,metadata", "--out-dir", "/o", "-")[1],
                         ["rustc --crate-name probe --crate-type=lib --emit=dep-info,metadata --out-dir /o -"])

    def test_what_does_not_compile_is_not_documented(self) -> None:
        status, calls = self.called(*self.words(), FAILS="1")
        self.assertEqual((status, len(calls), os.path.exists(os.path.join(self.room, "json", "libd-77"))), (7, 1, False))

    def test_the_users_wrapper_is_called(self) -> None:
        self.tool("cache", 'echo "cache" >> "$CALLS"\nexec "$@"\n')
        self.assertEqual([line.split()[0] for line in self.called(*self.words(), FROM_RUSTDOC_WRAPPER=os.path.join(self.room, "cache"))[1]], ["cache", "rustc", "rustdoc"])

    # ---- where projects share documents
    def shared(self, project: str, *words: str, **more: str) -> tuple[str, bool]:
        """The document that a project gets, and whether it was taken."""
        used = os.path.join(self.room, project, "libb-8")
        os.makedirs(used)
        with open(os.path.join(used, "unit"), "w", encoding="utf-8") as handle:
            json.dump({"is_fixed": more.pop("USES", "fixed") == "fixed"}, handle)
        environment = {"FROM_RUSTDOC_SHARED": os.path.join(self.room, "shared"), "CARGO_HOME": "/home", "CARGO_MANIFEST_DIR": "/home/registry/src/i/d-1", **more}
        self.assertEqual(self.called(*(words or (*self.words(), "--cap-lints", "allow")), project=project, **environment)[0], 0)
        place = os.path.join(self.room, project, "libd-77")
        return self.lines(os.path.join(place, "d.json"))[0], os.path.exists(os.path.join(place, "taken"))

    def test_a_document_of_the_registry_is_made_once(self) -> None:
        self.assertEqual([self.shared("a"), self.shared("b")], [("1", False), ("1", True)])
        self.assertIn("seen", self.lines(os.path.join(self.room, "deps", "d-77.d"))[0])

    def test_another_word_or_variable_has_its_own(self) -> None:
        capped = ("--cap-lints", "allow")
        self.assertEqual([self.shared("a"), self.shared("b", *self.words(**{'feature="x"': "has_it"}), *capped), self.shared("c", READ="x")],
                         [("1", False), ("2", False), ("3", False)])

    def test_what_its_build_script_wrote_tells_documents_apart(self) -> None:
        for project, text in (("a", "one"), ("b", "two"), ("c", "one")):
            os.makedirs(os.path.join(self.room, "out", project))
            with open(os.path.join(self.room, "out", project, "generated.rs"), "w", encoding="utf-8") as handle:
                handle.write(text)
        self.assertEqual([self.shared(p, OUT_DIR=os.path.join(self.room, "out", p)) for p in ("a", "b", "c")], [("1", False), ("2", False), ("1", True)])

    def test_what_may_change_is_not_shared(self) -> None:
        for number, more in enumerate(({"CARGO_MANIFEST_DIR": "/home/git/checkouts/d"}, {"CARGO_MANIFEST_DIR": "/own"}, {"USES": "a patch"}), 1):
            self.assertEqual(self.shared(f"a{number}", **more), (str(number), False))
        # (Cargo caps no lints where a package has a path.)
        self.assertEqual(self.shared("b", *self.words()), ("4", False))
        self.assertEqual(os.listdir(os.path.join(self.room, "shared")), [])

    # ---- words and files
    def test_what_is_built_to_be_run_is_not_documented(self) -> None:
        self.assertTrue(is_documented(list(RUSTC)))
        self.assertFalse(is_documented([*RUSTC, "--test"]))
        self.assertEqual(words_of_rustdoc(["-Zx", "-Wy", "-O", "--target=t", "--codegen", "linker=l", "--cap-lints", "warn"]), ["-Z", "x", "--target", "t"])

    def test_files_of_dependencies(self) -> None:
        file = os.path.join(self.room, "x.d")
        with open(file, "w", encoding="utf-8") as handle:
            handle.write("x: a.rs b\\ c.rs\n\na.rs:\n\n# env-dep:A=1\n# env-dep:B\n")
        self.assertEqual(read_depends(file), Depends(["a.rs", "b\\ c.rs"], {"A": "1", "B": None}))
        add_depends(file, Depends(["a.rs", "d.rs"], {"B": None, "C": "2"}))
        self.assertEqual(read_depends(file), Depends(["a.rs", "b\\ c.rs", "d.rs"], {"A": "1", "B": None, "C": "2"}))


FILES = {
    "Cargo.toml": '[workspace]\nmembers = ["app", "mid"]\nexclude = ["old", "new"]\nresolver = "2"\n',
    "app/Cargo.toml": '[package]\nname = "app"\nversion = "0.1.0"\nedition = "2021"\n[features]\nextra = ["mid/more"]\n'
                      '[dependencies]\nmid = { path = "../mid" }\ndbl = { path = "../new" }\n',
    "app/src/lib.rs": "#![deny(warnings)]\nfn unused() {}\npub struct X(pub mid::M, pub dbl::A);\nimpl dbl::T for X {}\n"
                      "pub trait Mark {}\n#[cfg(doc)]\nimpl Mark for u64 {}\n",
    "mid/Cargo.toml": '[package]\nname = "mid"\nversion = "0.1.0"\nedition = "2021"\n[features]\nmore = ["dbl/more"]\n[dependencies]\ndbl = { path = "../old" }\n',
    "mid/src/lib.rs": "#![deny(warnings)]\nfn unused() {}\npub struct M(pub dbl::A);\nimpl dbl::T for M {}\n"
                      "pub trait Nightly {}\n#[cfg(nightly)]\nimpl Nightly for u64 {}\npub trait Built {}\n#[cfg(built)]\nimpl Built for u64 {}\n",
    # As crates find out whether the compiler takes unstable features: rustc does so where RUSTC_BOOTSTRAP is set.
    "mid/build.rs": 'use std::process::Command;\nfn main() {\n    println!("cargo:rustc-check-cfg=cfg(nightly, built)");\n'
                    '    println!("cargo:rustc-cfg=built");\n    let rustc = std::env::var("RUSTC").unwrap();\n'
                    '    if Command::new(rustc).args(["-Z", "help"]).output().unwrap().status.success() {\n'
                    '        println!("cargo:rustc-cfg=nightly");\n    }\n}\n',
    "old/Cargo.toml": '[package]\nname = "dbl"\nversion = "0.1.0"\nedition = "2021"\n[features]\nmore = []\n[workspace]\n',
    "old/src/lib.rs": 'pub struct A(pub u8);\npub trait T {}\nimpl T for A {}\n#[cfg(feature = "more")]\npub struct More(*const u8);\n',
    "new/Cargo.toml": '[package]\nname = "dbl"\nversion = "0.2.0"\nedition = "2021"\n[workspace]\n',
    "new/src/lib.rs": "pub struct A(pub *const u8);\npub trait T {}\n",
    "bin/Cargo.toml": '[package]\nname = "bin"\nversion = "0.1.0"\nedition = "2021"\n[workspace]\n',
    "bin/src/main.rs": "fn main() {}\n",
    "mac/Cargo.toml": '[package]\nname = "mac"\nversion = "0.1.0"\nedition = "2021"\n[lib]\nproc-macro = true\n[workspace]\n',
    "mac/src/lib.rs": "",
    # A folder in place of a registry, with two versions of one crate, of which a third crate uses the older one too.
    "twice/.cargo/config.toml": '[source.crates-io]\nreplace-with = "folder"\n[source.folder]\ndirectory = "vendor"\n',
    "twice/Cargo.toml": '[package]\nname = "twice"\nversion = "0.1.0"\nedition = "2021"\n[workspace]\nexclude = ["vendor"]\n'
                        '[dependencies]\nolder = { package = "num", version = "0.9" }\nnum = "1.0"\nunder = "0.1"\n',
    "twice/src/lib.rs": "pub trait Q {}\nimpl Q for older::N {}\npub trait P { type A; }\npub struct V;\nimpl P for V { type A = num::N; }\n"
                        "pub struct Under(pub under::U);\n",
    **{f"twice/vendor/{folder}/.cargo-checksum.json": '{"files":{}}' for folder in ("num-0.9", "num-1.0", "under")},
    "twice/vendor/num-0.9/Cargo.toml": '[package]\nname = "num"\nversion = "0.9.0"\nedition = "2021"\n',
    "twice/vendor/num-0.9/src/lib.rs": "pub struct N(pub *const u8);\npub trait Number {}\nimpl Number for N {}\n",
    "twice/vendor/num-1.0/Cargo.toml": '[package]\nname = "num"\nversion = "1.0.0"\nedition = "2021"\n',
    "twice/vendor/num-1.0/src/lib.rs": "pub struct N(pub u8);\npub trait Number {}\nimpl Number for N {}\n",
    "twice/vendor/under/Cargo.toml": '[package]\nname = "under"\nversion = "0.1.0"\nedition = "2021"\n[dependencies]\nnum = "0.9"\n',
    "twice/vendor/under/src/lib.rs": "pub struct U(pub num::N);\n",
}


@unittest.skipUnless(shutil.which("cargo") and shutil.which("rustdoc"), "there is no cargo")
@unittest.skipUnless(proved_program(), "there is no proved program of these sources")
class Projects(unittest.TestCase):
    def setUp(self) -> None:
        room = tempfile.TemporaryDirectory()
        self.addCleanup(room.cleanup)
        self.folder = room.name
        patch = mock.patch.dict(os.environ, {"XDG_CACHE_HOME": os.path.join(self.folder, "cache"), "CARGO_NET_OFFLINE": "true"})
        patch.start()
        self.addCleanup(patch.stop)
        for name, text in FILES.items():
            os.makedirs(os.path.dirname(os.path.join(self.folder, name)), exist_ok=True)
            with open(os.path.join(self.folder, name), "w", encoding="utf-8") as handle:
                handle.write(text)

    def call(self, *words: str) -> tuple[int, str, str]:
        with contextlib.redirect_stdout(io.StringIO()) as said, contextlib.redirect_stderr(io.StringIO()) as errors:
            status = main(list(words))
        return status, said.getvalue(), errors.getvalue()

    def project(self, folder: str, *extra: str) -> tuple[int, str, str]:
        return self.call("project", os.path.join(self.folder, folder), "--docs", kept("std"), "--jobs", "1", "--quiet", "--", "--quiet", *extra)

    def ask(self, base: str, *questions: str) -> list[str]:
        """The words of the answers, with what they rest on."""
        status, said, errors = self.call("ask", os.path.join(self.folder, base), *questions)
        self.assertEqual((status, errors), (0, ""))
        return [" ".join(line.split("    ")[1].split()) for line in said.splitlines() if not line.startswith(" ")]

    def test_two_versions_lints_features_and_what_rustdoc_alone_sees(self) -> None:
        status, said, errors = self.project("app", "--features", "extra")
        self.assertEqual(status, 0, said + errors)
        self.assertEqual([line.split(".")[0] for line in said.splitlines() if ": coherent" in line], ["dbl 0", "dbl 0", "mid 0", "app 0"])
        self.assertRegex(errors, r"warning: rustdoc sets `cfg\(doc\)`, on which items of app depend \(lib\.rs:6\)")
        base = "target/from-rustdoc/app"
        # Several processes say the same, in the same order.
        self.assertEqual(self.call("check", os.path.join(self.folder, base), "--jobs", "3")[:2], (0, "".join(said.splitlines(True)[1:])))
        self.assertEqual([a.split(" ")[0] for a in self.ask(base, "app::X: dbl@0.2.0::T", "app::X: dbl@0.1::T", "mid::M: dbl@0.1.0::T", "dbl@0.1.0::A: Send",
                                                           "dbl@0.2.0::A: Send", "dbl@0.1.0::More: Send")], ["yes", "no", "yes", "yes", "no", "no"])
        # What a build script finds of the compiler is as in any build.
        self.assertEqual([a.split(" ")[0] for a in self.ask(base, "u64: mid::Built", "u64: mid::Nightly")], ["yes", "no"])
        self.assertEqual(self.ask(base, "u64: app::Mark"), ["yes (not proved: items of app depend on `cfg(doc)`, which rustdoc sets (lib.rs:6))"])
        status, _, errors = self.call("ask", os.path.join(self.folder, base), "dbl::A: Send")
        self.assertEqual(status, 3)
        self.assertIn("`dbl` may be any of `dbl@0.2.0`, `dbl@0.1.0`", errors)

    def test_what_an_earlier_run_has_left_does_not_count(self) -> None:
        # What questions need is there before anything is checked.
        with mock.patch.object(command, "check_project", side_effect=BadInput("the check is given up")):
            status, _, errors = self.project("app")
        self.assertEqual((status, errors.splitlines()[-1]), (3, "from-rustdoc: the check is given up"))
        self.assertEqual(self.ask("target/from-rustdoc/app", "mid::M: dbl@0.1.0::T"), ["yes (certain)"])
        status, said, _ = self.project("mid")
        self.assertEqual(status, 0)
        self.assertEqual([line.split(":")[0] for line in said.splitlines() if ": coherent" in line], ["dbl 0.1.0", "mid 0.1.0"])

    def test_without_a_library_there_is_nothing_to_read(self) -> None:
        for name in ("bin", "mac"):
            status, _, errors = self.project(name)
            self.assertEqual(status, 3, errors)
            self.assertIn("has no library that is documented", errors)
        status, _, errors = self.project("cache")
        self.assertEqual((status, errors.count("\n")), (3, 1))

    def test_two_versions_of_a_registrys_crate_are_two_crates(self) -> None:
        status, said, errors = self.project("twice")
        self.assertEqual(status, 0, said + errors)
        self.assertEqual(sorted(line.split(":")[0] for line in said.splitlines() if ": coherent" in line), ["num 0.9.0", "num 1.0.0", "twice 0.1.0", "under 0.1.0"])
        base = "twice/target/from-rustdoc/twice"
        questions = {"<twice::V as twice::P>::A: twice::Q": "no", "<twice::V as twice::P>::A: Send": "yes", "num@0.9::N: twice::Q": "yes", "num@1.0::N: twice::Q": "no",
                     "num@0.9::N: Send": "no", "twice::Under: Send": "no", "<twice::V as twice::P>::A: num@0.9::Number": "no", "num@0.9::N: num@0.9::Number": "yes"}
        status, said, errors = self.call("ask", os.path.join(self.folder, base), *questions)
        self.assertEqual((status, errors), (0, ""))
        found = [line.split("    ")[1].split()[0] for line in said.splitlines() if not line.startswith(" ")]
        self.assertEqual([("yes" if word == "yes" else "no") for word in found], list(questions.values()), said)


if __name__ == "__main__":
    unittest.main()
