"""Exit statuses of the programs and of ./celtisdarts that no example shows.

Words that are no depth limit (before any input is read), an input that cannot be read, an output that cannot be written. They are tried on
the built programs, and on the script in a copy of the sources: with the built program, with nothing built, and with a release. For the
script it is tried too when it runs which program. There tools/checks/rt_stand_in replaces the toolchain's command `rt` and takes no
time. With `--with-rt` one more case compiles with the command itself, which takes a processor minutes. The options of the script are
tried by the check `options`.
"""
from __future__ import annotations

import argparse
import hashlib
import os
import re
import shutil
import subprocess
import tempfile
import time
from concurrent.futures import ThreadPoolExecutor
from functools import partial
from pathlib import Path
from typing import Callable, Optional

from .common import TOP, Ended, Example, Tally, Word, example, program, run
from .explained_json import read_lines

TEXT, FAULTY = example("two_crates_accepted"), example("unknown_name")
OVERLAPS = (example("overlapping_impls"), example("an_overlap_with_core"))
FILES = [str(it.folder / "input.txt") for it in (TEXT, FAULTY)]
# Words that are no depth limit, and no file for the script.
BAD_WORDS = ("0", "000", "256", "999", "0008", "", "-1")
LONG = b"crate base\ntrait Show\nimpl Show for u8\n" + b"prove in base u8: Show\n" * 200
TOO_LONG = b"a" * 70000000
# A trait with a million supertraits.
ENDLESS = b"crate a\ntrait A<t>\n" + b"".join(b"trait %c<t>: %c<[t]> + %c<(t,)>\n" % (it + 1, it, it) for it in range(65, 84)) + b"prove in a dyn T<u8>: T<u8>\n"
# The commands that the script takes if it has a program.
COMMANDS = "awk cat cmp dirname find grep head mktemp mv readlink rm sed sha256sum sort tr uname wc".split()
FORGED = '#!/bin/sh\necho "$@" >> "$CALLS.forged"\nexec "$PROGRAM" "$@"\n'


def answers_of(*names: str) -> bytes:
    """The answers to several files of these names. One that is named 8 or as the example is the text with a fault."""
    answers = {"none": b"", ".": b"", "8": FAULTY.expected(), FILES[1]: FAULTY.expected()}
    return b"".join(f"== {it}\n".encode() + answers.get(it, TEXT.expected()) for it in names)


def has_lines(expected: bytes, found: bytes) -> bool:
    """Whether these lines are there in this order, with or without others between."""
    rows = iter(found.splitlines())
    return all(line in rows for line in expected.splitlines())


class Cases:
    """Cases under one name, which a command runs."""

    def __init__(self, tally: Tally, what: str, *command: Word, env: Optional[dict[str, str]] = None) -> None:
        self.tally, self.what, self.command, self.env = tally, what, list(command), env
        self.last = Ended(0, b"", b"", 0.0)

    def run(self, *words: str, text: bytes = b"", cwd: Optional[Path] = None) -> Ended:
        self.last = run([*self.command, *words], text, cwd=cwd, env=self.env)
        return self.last

    def shell(self, script: str, text: bytes = b"", cwd: Optional[Path] = None) -> Ended:
        """Runs a script, in which "$@" is the command."""
        self.last = run(["sh", "-c", script, "sh", *self.command], text, cwd=cwd, env=self.env)
        return self.last

    def expect(self, name: str, is_so: bool) -> None:
        """A case of the last run."""
        first = b"\n".join([*self.last.output.split(b"\n")[:5], *self.last.errors.split(b"\n")[:5]]).decode("latin-1")
        self.tally.expect(f"{self.what}, {name}", is_so, f"status {self.last.status}, and these are the output and the messages:\n{first}")

    def gave(self, name: str, status: int, output: bytes = b"") -> None:
        self.expect(name, (self.last.status, self.last.output) == (status, output))

    def reported(self, name: str, form: str) -> None:
        """One line of the messages has the form."""
        self.expect(name, len(re.findall(f"^.*{form}", self.last.errors.decode(), re.M)) == 1)

    def printed(self, name: str, words: str) -> None:
        """The output has these words in it."""
        self.expect(name, words in self.last.output.decode())

    def refuses(self, *calls: str) -> None:
        """Each call ends as one with wrong arguments."""
        for words in calls:
            self.run(*words.split(), text=TEXT.text)
            self.gave(f"the words '{words}'", 2)


# ---- the programs, and the script in their place


def try_statuses(cases: Cases) -> None:
    """What holds of a program that answers, and of the script in its place."""
    for word in BAD_WORDS:
        cases.run(word, text=TEXT.text)
        cases.gave(f"the word '{word}'", 2)
    # a bad word is refused before any input is read: all of it remains for the next reader
    cases.shell('"$@" 0; status=$?; cat; exit "$status"', TEXT.text)
    cases.gave("a bad word, input unread", 2, TEXT.text)
    for word in ("1", "7", "007", "255"):
        cases.run(word)
        cases.gave(f"the word '{word}' on an empty text", 0)
    for name, it in (("a text", TEXT), ("a text with a fault", FAULTY)):
        cases.run("8", text=it.text)
        cases.gave(name, it.status, it.expected())
    cases.run("8", text=ENDLESS)
    cases.expect("supertraits without end", cases.last.status == 3 and cases.last.seconds < 10)
    for name, how in (("an input that is a folder", "< ."), ("no input at all", "<&-"), ("no output at all", ">&-"), ("a full device", "> /dev/full")):
        cases.shell(f'"$@" 8 {how}', TEXT.text)
        cases.gave(name, 3)


def try_short_output(cases: Cases) -> None:
    """A file that may not grow past a block takes the beginning of an answer, and the run ends as if writing fails."""
    whole = cases.run("8", text=LONG).output
    cases.expect("200 queries", whole.count(b"\n") == 201)
    short = cases.shell("trap '' XFSZ; ulimit -f 1; exec \"$@\" 8", LONG).output
    cases.expect("an output that stops, its length", len(short) >= 512)
    cases.gave("an output that stops", 3, whole[: len(short)])


def try_explained(cases: Cases) -> None:
    """What holds of the program and of the script with `--explain` as the first word."""

    def answer(name: str, status: int, it: Example, words: str, text: Optional[bytes] = None) -> None:
        ended = cases.run(*words.split(), text=it.text if text is None else text)
        cases.expect(f"{name}, the lines", has_lines(it.expected(), ended.output))
        cases.expect(f"{name}, the status", ended.status == status)

    cases.refuses("0", "8 --color", "8 --color red", "8 --file", "8 --other")
    for words in ("8", "--color never 8", "8 --color auto --check", "--file a.txt 007"):
        answer(f"the words '{words}'", 0, TEXT, words)
    answer("a text with a fault", 1, FAULTY, "8")
    answer("a text with a fault and --check", 1, FAULTY, "--check 8")
    for it in OVERLAPS:
        answer(f"{it.name} as a file", 0, it, f"8 {it.folder}/input.txt", b"")
        answer(f"{it.name} and --check", 4, it, "8 --check")
    found = read_lines(cases.run("--json", "8", text=TEXT.text).output)
    cases.expect("accepted crates as JSON", [(it.answer, it.message) for it in found] == [(it, None) for it in TEXT.expected().decode().splitlines()])
    cases.expect("accepted crates as JSON, the status", cases.last.status == 0)
    named = cases.run("8", "--file", "\x1b[1m\n", text=FAULTY.text).output
    cases.expect("a name with an escape and a line feed", b"--> ?[1m?:" in named and b"\x1b" not in named)
    for name, file in (("a folder as a file", "."), ("no file", "none")):
        cases.run("8", file)
        cases.gave(name, 3)
    cases.expect("no output at all", cases.shell('"$@" 8 >&-', TEXT.text).status == 3)


# ---- the script in a copy of the sources


class Script(Cases):
    """The script in a copy of the sources with nothing built, and a replacement of rt."""

    def __init__(self, tally: Tally, room: Path) -> None:
        self.room, self.at = room, room / "clone"
        super().__init__(tally, "the script, unbuilt, with rt itself", self.at / "celtisdarts")
        self.built, self.released = self.at / "crates/celtisdarts/out/celtisdarts", self.at / "release/celtisdarts"
        self.source, self.calls = self.at / "crates/type_terms/src/laws.rt", room / "calls"
        (self.at / "tools").mkdir(parents=True)
        for name in ("celtisdarts", "crates.txt", "test", "tools/program.sh", "tools/release", "tools/library"):
            shutil.copy2(TOP / name, self.at / name)
        shutil.copytree(TOP / "tools" / "command", self.at / "tools" / "command")
        shutil.copytree(TOP / "bindings" / "c", self.at / "bindings" / "c")
        for folder in (TOP / "crates").iterdir():
            for part in ("src", "specs", "proofs"):
                if (folder / part).is_dir():
                    shutil.copytree(folder / part, self.at / "crates" / folder.name / part)

    def stand_in(self) -> dict[str, str]:
        """From here on a call of rt is one of the replacement, which reads these words."""
        (self.room / "bin").mkdir()
        shutil.copy2(Path(__file__).with_name("rt_stand_in"), self.room / "bin" / "rt")
        names = {"PROGRAM": program("celtisdarts"), "CALLS": str(self.calls)}
        words = {"VERSION": "a toolchain", "FAILS": "", "EDITS": "", "WAITS": "", "PATH": f"{self.room}/bin:{os.environ['PATH']}"}
        self.env = {**os.environ, **names, **words}
        self.calls.touch()
        return self.env

    def about(self, what: str, *words: str) -> Cases:
        """Other cases that it runs, after these words."""
        return Cases(self.tally, what, *self.command, *words, env=self.env)

    def store_program(self) -> None:
        self.built.parent.mkdir(parents=True, exist_ok=True)
        shutil.copy(program("celtisdarts"), self.built)

    def drop_programs(self) -> None:
        for name in ("celtisdarts", "celtisdarts_c"):
            shutil.rmtree(self.at / "crates" / name / "out", ignore_errors=True)

    def called(self) -> list[str]:
        """The calls of rt since this was called last."""
        found = self.calls.read_text(encoding="utf-8").splitlines()
        self.calls.write_text("", encoding="utf-8")
        return found

    def answers(self, name: str, calls: int, word: str = "") -> None:
        """The script answers a text, with so many calls of rt that have the word in them: with none, by a program that is there."""
        self.called()
        self.run("8", text=TEXT.text)
        made = sum(word in it for it in self.called())
        self.expect(name, (self.last.status, self.last.output, made) == (0, TEXT.expected(), calls))

    def is_used(self, name: str) -> None:
        self.answers(name, 0)

    def is_not_used(self, name: str) -> None:
        self.answers(name, 1)

    def change_source(self) -> Callable[[], object]:
        """Changes a source; what it gives changes that back."""
        text = self.source.read_text(encoding="utf-8")
        self.source.write_text(text + "// changed\n", encoding="utf-8")
        return lambda: self.source.write_text(text, encoding="utf-8")


def try_messages(script: Script) -> None:
    """What the script says, and when it calls rt."""
    script.what = "the script's messages"
    script.drop_programs()
    script.called()
    for word in BAD_WORDS:
        script.run(word, text=TEXT.text)
        script.expect(f"the word '{word}'", script.last.errors.count(b"\n") == 2)
    script.called()
    script.run("--build", "8")
    script.gave("a word after --build", 2)
    script.expect("a word after --build, and no call of rt", not script.called())
    link = script.room / "link"
    link.symlink_to(script.at / "celtisdarts")
    script.last = run([link, "8"], TEXT.text, env=script.env)
    script.gave("called by a link", 0, TEXT.expected())
    script.run("8", text=TEXT.text)
    script.gave("an answer after the messages", 0, TEXT.expected())
    script.reported("a message that it compiles", "--build")
    script.run("8", text=TOO_LONG)
    script.gave("a text without end", 1, b"line 1: fault 16\n")


def try_files(script: Script, what: str, calls: int) -> None:
    """Files as words, in each call with so many calls of rt."""
    script.what, folder = what, script.room / "texts"
    folder.mkdir(exist_ok=True)
    for it, file in ((TEXT, "-a b"), (FAULTY, "8")):
        (folder / file).write_bytes(it.text)
    script.called()

    def answer(name: str, status: int, output: bytes, *files: str) -> None:
        script.run("8", *files, cwd=folder)
        script.gave(name, status, output)
        script.expect(f"{name}, calls of rt", len(script.called()) == calls)

    answer("one file", 0, TEXT.expected(), "--", "-a b")
    answer("a file with a fault", 1, FAULTY.expected(), "8")
    answer("three files", 1, answers_of("-a b", "8", "-a b"), "--", "-a b", "8", "-a b")
    script.run("0", "--", "-a b", "8", cwd=folder)
    script.gave("three files and a bad word", 2)
    script.called()
    for file, reason in (("none", "no such file"), (".", "is a folder")):
        names = ("-a b", "8", file, "-a b")
        answer(f"the file '{file}' among others", 3, answers_of(*names), "--", *names)
        script.reported(f"the file '{file}' named", f"celtisdarts: {re.escape(file)}: {reason}$")
        script.run("8", file, cwd=folder)
        script.gave(f"the file '{file}' alone", 3)
        script.called()
    script.shell('"$@" 8 8 8 >&-', cwd=folder)
    script.gave("two files and no output", 3)
    script.expect("two files and no output, calls of rt", len(script.called()) == calls)


def try_first_build(script: Script, env: dict[str, str]) -> None:
    script.drop_programs()
    env["FAILS"] = "coherence lib"
    script.run("--build")
    script.gave("a crate that is not proved", 3)
    script.reported("a crate that is not proved, named", "no program: the crate coherence ")
    env["FAILS"] = ""
    script.is_not_used("no program of that")
    script.run("--build")
    script.gave("all crates proved", 0)
    calls = script.called()
    script.reported("a call for each crate that it counts", f"celtisdarts: crate 1 of {len(calls)}: type_terms; minutes so far: 0$")
    script.expect("a program as the last crate", calls[-1:] == ["celtisdarts run"])
    script.is_used("the program stored")
    script.run("--help")
    script.printed("help that says so", "built here")


def try_sources(script: Script) -> None:
    """When a program is of today's sources: by what --build noted, and else by times."""
    os.utime(script.source)
    script.is_used("a source with a new time")
    script.run("--build")
    script.expect("a source with a new time, nothing to build", not script.called())
    change_back = script.change_source()
    os.utime(script.source, (1, 1))
    script.is_not_used("a source that changed, with an old time")
    change_back()
    script.is_used("a source that changed and changed back")
    crates = script.at / "crates.txt"
    listed = crates.read_text(encoding="utf-8")
    crates.write_text(re.sub(r"(?m)^coherence:.*", r"\g<0> indexmap", listed), encoding="utf-8")
    script.is_not_used("a library more in crates.txt")
    crates.write_text(listed, encoding="utf-8")
    script.is_used("the libraries as they were")
    script.store_program()
    script.is_used("a program without a note")
    os.utime(script.source)
    script.is_not_used("a program without a note, and a source with a new time")
    script.store_program()
    script.run("--build")
    os.utime(script.source)
    script.is_used("a program that got its note later")


def try_build(script: Script, env: dict[str, str]) -> None:
    """What --build makes, and when that is used."""
    script.what = "the script's --build"
    try_first_build(script, env)
    try_sources(script)
    script.drop_programs()
    env["EDITS"], text = "coherence lib", script.source.read_text(encoding="utf-8")
    script.run("--build")
    env["EDITS"] = ""
    script.gave("a source that changes while it is built", 3)
    script.is_not_used("no program of that change")
    script.source.write_text(text, encoding="utf-8")
    script.is_not_used("no program of that either")
    env["FAILS"] = "celtisdarts try"
    script.drop_programs()
    script.run("8", text=TEXT.text)
    script.gave("no answer without the proofs", 3)
    script.reported("no answer without the proofs, reported", "no answer without the proofs, .* --build makes the proved program")
    env["FAILS"] = ""


class Release:
    """The release of the copy, which tools/release makes and compares."""

    def __init__(self, script: Script) -> None:
        self.script, self.path, self.note = script, script.released, Path(f"{script.released}.proved")

    def make(self, *words: str) -> Ended:
        self.script.last = run([self.script.at / "tools/release", *words], env=self.script.env)
        return self.script.last

    def checked(self, name: str, line: str) -> None:
        """What --check ends with."""
        self.script.expect(name, self.make("--check").last_line() == line)

    def forge(self, program: bytes) -> None:
        """Writes a program as if it had been proved."""
        self.path.write_bytes(program)
        self.path.chmod(0o755)
        self.note.write_text(re.sub(r"(?m)^program .*", f"program {hashlib.sha256(program).hexdigest()}", self.note.read_text(encoding="utf-8")), encoding="utf-8")


def try_made(script: Script, release: Release, env: dict[str, str]) -> None:
    """What tools/release makes, and when the gate refuses it."""
    script.drop_programs()
    release.checked("none", "0 passed, 0 failed")
    release.make()
    script.expect("made, with all that it takes", release.path.is_file() and release.path.read_bytes() == Path(env["PROGRAM"]).read_bytes())
    release.checked("of the program that was built", "1 passed, 0 failed")
    env["VERSION"] = "another toolchain"
    release.checked("by another toolchain", "0 passed, 0 failed")
    env["VERSION"] = "a toolchain"
    script.drop_programs()
    script.is_used("with nothing built")
    release.checked("with nothing built, not compared", "0 passed, 1 failed")
    script.run("--help")
    script.printed("help that says so", "release/celtisdarts")


def try_release_answers(script: Script) -> None:
    try_statuses(script.about("the script, with a release"))
    try_files(script, "files, with a release", 0)
    script.what = "a release"
    script.run("--explain", "8", text=OVERLAPS[0].text)
    script.gave("--explain, with a release", 0, run([program("celtisdarts"), "--explain", "8"], OVERLAPS[0].text).output)
    script.expect("--explain, with a release, which compiles nothing", not script.called())


def try_forged(script: Script, release: Release, env: dict[str, str]) -> None:
    """A release of other sources, of other bytes, and for another machine."""
    os.utime(script.source)
    script.is_used("a source with a new time")
    change_back = script.change_source()
    script.is_not_used("a source that changed")
    release.checked("a source that changed, not compared", "0 passed, 0 failed")
    change_back()
    script.is_used("a source that changed and changed back")
    forged = Path(f"{script.calls}.forged")
    release.forge(FORGED.encode())
    script.is_used("of other bytes")
    script.expect("of other bytes, which was run", forged.is_file() and "8" in forged.read_text(encoding="utf-8"))
    script.run("--build")
    forged.unlink(missing_ok=True)
    script.is_used("of other bytes, with the built program")
    script.expect("of other bytes, which was not run", not forged.exists())
    release.checked("of other bytes, compared", "0 passed, 1 failed")
    script.drop_programs()
    release.path.write_bytes(release.path.read_bytes() + b"\n")
    script.is_not_used("of bytes that are not noted")
    release.checked("of bytes that are not noted, compared", "0 passed, 1 failed")
    release.forge(b"#!/nothing/that/loads/it\n")
    script.is_not_used("for another machine")
    release.forge(Path(env["PROGRAM"]).read_bytes())
    script.is_used("as it was")
    release.path.chmod(0o644)
    script.is_not_used("that may not be run")
    release.path.chmod(0o755)


def try_without_rt(script: Script, env: dict[str, str]) -> None:
    """With the commands on the PATH that these calls take, and so without rt."""
    (script.room / "commands").mkdir()
    for name in COMMANDS:
        (script.room / "commands" / name).symlink_to(shutil.which(name) or name)
    path, env["PATH"] = env["PATH"], str(script.room / "commands")
    script.is_used("and no toolchain")
    shutil.rmtree(script.released.parent)
    script.run("8", text=TEXT.text)
    script.gave("none, and no toolchain", 3)
    script.reported("none, and no toolchain, reported", "the toolchain's command 'rt' is not on the PATH")
    script.run("--help")
    script.printed("none, and no toolchain, in the help", "no command 'rt' on the PATH")
    script.run("--build")
    script.gave("no toolchain, and --build", 3)
    script.reported("no toolchain, and --build, reported", "nothing can be built: .* 'rt' .* README.md names the kit that has it")
    script.last = run([script.at / "test"], env=env)
    script.expect("no toolchain, and the gate", script.last.status == 1 and script.last.output.endswith(b"\n0 passed, 1 failed\n"))
    script.printed("no toolchain, and the gate, reported", "test: the command 'rt' is not on the PATH")
    env["PATH"] = path


def try_release(script: Script, env: dict[str, str]) -> None:
    script.what, release = "a release", Release(script)
    try_made(script, release, env)
    try_release_answers(script)
    try_forged(script, release, env)
    try_without_rt(script, env)


def try_library(script: Script, env: dict[str, str]) -> None:
    """The library for C, which tools/library makes one object of two archives, and when the gate refuses it."""
    script.what, release = "the library", Release(script)
    script.drop_programs()
    for name in ("c", "glue"):
        (script.room / name).mkdir()
    run(["as", "-o", "heap.pic.o"], b".globl rattle_alloc\nrattle_alloc: ret\n", cwd=script.room / "glue")
    run(["ar", "rcD", "../c/liblibc_c.a", "heap.pic.o"], cwd=script.room / "glue")
    archive = script.released.with_name("libceltisdarts.a")

    def made(name: str, status: int, calls: int) -> None:
        """A call that puts it into release/, with so many calls of rt that prove it."""
        script.called()
        script.last = run([script.at / "tools/library", "--release"], env=script.env)
        script.expect(name, (script.last.status, script.called().count("celtisdarts_c lib")) == (status, calls))

    release.checked("none", "0 passed, 0 failed")
    env["FAILS"] = "celtisdarts_c lib"
    made("not proved", 1, 1)
    env["FAILS"], env["EDITS"] = "", "celtisdarts_c lib"
    made("a source that changes meanwhile", 1, 1)
    env["EDITS"] = ""
    script.expect("none that is released", not archive.exists())
    made("made", 0, 1)
    symbols = [line.split()[-2:] for line in run(["nm", "--extern-only", archive]).output.splitlines() if line.count(b" ") > 1]
    expected = [[b"R", b"celtisdarts_abi_version"], [b"T", b"celtisdarts_run"]]
    script.expect("made one object, which offers its calls alone", run(["ar", "t", archive]).output == b"celtisdarts.o\n" and symbols == expected)
    made("made already", 0, 0)
    one = script.at / "crates/celtisdarts_c/out/libceltisdarts.a"
    run(["ar", "rcD", "other.a", "one.o"], cwd=one.parent)
    os.replace(one.parent / "other.a", one)
    note = Path(f"{one}.proved")
    note.write_text(re.sub("program .*", f"program {hashlib.sha256(one.read_bytes()).hexdigest()}", note.read_text()))
    made("made, if the objects of the built one are separate", 0, 1)
    release.checked("of what was built", "1 passed, 0 failed")
    change_back = script.change_source()
    release.checked("a source that changed, not compared", "0 passed, 0 failed")
    change_back()
    archive.write_bytes(archive.read_bytes() + b"\n")
    release.checked("of bytes that are not noted", "0 passed, 1 failed")
    made("made again", 0, 0)
    script.drop_programs()
    release.checked("with nothing built, not compared", "0 passed, 1 failed")
    shutil.rmtree(archive.parent)


def try_at_once(script: Script, lanes: ThreadPoolExecutor, env: dict[str, str]) -> None:
    """Two calls, two builds, and a call during a build."""
    script.what = "at once"
    script.drop_programs()
    call = [*script.command, "8"]
    first = lanes.submit(run, call, TEXT.text, env=env)
    script.run("8", text=FAULTY.text)
    script.gave("two calls, the second", 1, FAULTY.expected())
    script.last = first.result()
    script.gave("two calls, the first", 0, TEXT.expected())
    first = lanes.submit(run, [*script.command, "--build"], env=env)
    script.run("--build")
    script.gave("two builds, the second", 0)
    script.expect("two builds, the first", first.result().status == 0)
    script.is_used("the program of two builds")
    script.drop_programs()
    wait = Path(f"{script.calls}.wait")
    wait.touch()
    first = lanes.submit(run, [*script.command, "--build"], env={**env, "WAITS": "coherence lib"})
    script.answers("a call while it is built", 1, "celtisdarts try")
    wait.unlink()
    script.expect("a build during a call", first.result().status == 0)
    script.is_used("the program of a build during a call")


def try_ended(script: Script, env: dict[str, str]) -> None:
    """A call that is terminated leaves no file, and no process."""
    script.drop_programs()
    wait, folder = Path(f"{script.calls}.wait"), script.room / "tmp"
    wait.touch()
    folder.mkdir()
    script.called()
    words = {**env, "WAITS": "celtisdarts try", "TMPDIR": str(folder)}
    nowhere = subprocess.DEVNULL
    with subprocess.Popen([*script.command, "8", *FILES], env=words, stdin=nowhere, stdout=nowhere, stderr=nowhere) as child:
        for _ in range(100):
            if "celtisdarts try" in script.calls.read_text(encoding="utf-8"):
                break
            time.sleep(0.1)
        script.expect("a call that waits, its files", any(folder.iterdir()))
        child.terminate()
        script.expect("a call that is terminated", child.wait() == 143)
    script.expect("no file of a call that ended", not any(folder.iterdir()))
    wait.unlink()


def try_built(script: Script) -> None:
    script.store_program()
    try_statuses(script.about("the script, built"))
    try_files(script, "files, built", 0)


def try_unbuilt(script: Script) -> None:
    script.drop_programs()
    try_statuses(script.about("the script, unbuilt"))
    try_files(script, "files, unbuilt", 1)
    explaining = script.about("the script that explains, unbuilt", "--explain")
    try_explained(explaining)
    file = f"{OVERLAPS[0].folder}/input.txt"
    explaining.run("8", file)
    explaining.gave("what the program writes of the file", 0, run([program("celtisdarts"), "--explain", "8", file]).output)


def try_script(script: Script, is_compiled: bool) -> None:
    if is_compiled:
        script.run("8", *FILES)
        script.gave("two texts", 1, answers_of(*FILES))
    env = script.stand_in()
    with ThreadPoolExecutor() as lanes:
        parts: list[Callable[[Script], None]] = [
            try_built, try_unbuilt, try_messages, partial(try_build, env=env), partial(try_release, env=env),
            partial(try_library, env=env), partial(try_at_once, lanes=lanes, env=env), partial(try_ended, env=env),
        ]
        for part in parts:
            script.tally.go_through(partial(part, script))


def add_words(reader: argparse.ArgumentParser) -> None:
    reader.add_argument("--with-rt", action="store_true")


def check(tally: Tally, given: argparse.Namespace) -> None:
    answering = Cases(tally, "the program", program("celtisdarts"))
    try_statuses(answering)
    answering.refuses("--json", "8 -x", "--color never", "- -")
    try_short_output(answering)
    explaining = Cases(tally, "the program that explains", program("celtisdarts"), "--explain")
    try_explained(explaining)
    explaining.refuses("--json 8 a b", "--check --file a a b")
    with tempfile.TemporaryDirectory() as room:
        try_script(Script(tally, Path(room)), given.with_rt)
