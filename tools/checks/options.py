"""The options of ./celtisdarts, typical mistakes in them, and their messages.

It needs a proved program of today's sources: one that was built here, or that of release/. Calls without a program are tried in a copy,
with a replacement of the toolchain. (Which program is run, and when, is tried by the check `statuses`.)
"""
from __future__ import annotations

import argparse
import json
import os
import pty
import re
import shutil
import subprocess
import tempfile
from dataclasses import dataclass
from pathlib import Path
from typing import Mapping, Optional, Sequence

from . import common
from .common import TOP

SCRIPT = TOP / "celtisdarts"
PROGRAMS = ("celtisdarts",)
HELP_OFFERED = " (--help lists the options)\n"

# A text without a fault whose answers are not all the best ones: crate, section, supertraits and queries, in another order than answered.
MIXED = """\
crate base
trait Show
trait Sub: Show
impl Show for u8
prove in base bool: Show
later base
impl<T> Show for T
crate a uses base
supers in a
struct A
impl Sub for A
impl Sub for A
refute in a bool: Show
prove in a fn(u8): Fn<?x>
"""
MIXED_ANSWER = """\
crate base: accepted
crate a: overlap impl 2 with a 1
later base: breaking impl 1
supers a: missing impl 1 clause 1
prove 1: unproved
refute 2: open
prove 3: yes ?x = (u8,)
"""

# A text in front, and one after it.
FRONT = """\
crate std
trait Display
impl Display for u8
""" + "// no statement\n" * 7 + "// the last of 11 lines, without an end"
BODY = """\
crate mine uses std
trait Named
impl<T> Named for T where T: Display
prove in mine u8: Named
impl Named for u8
"""
BODY_ANSWER = """\
crate std: accepted
crate mine: overlap impl 2 with mine 1
prove 1: yes
"""

RT = """\
#!/bin/sh
# Replaces the toolchain: it compiles nothing, and runs a program that was proved before, in a folder with copies of the files that it gets.
[ "$1" != version ] || { echo "a toolchain"; exit; }
name=$(basename "$PWD")
room=$(mktemp -d)
while [ "$1" != -- ]; do
    [ "$1" != --data ] || cp "${2#*=}" "$room/${2%%=*}"
    shift
done
shift
[ ! -f "$STANDIN/linger" ] || "$STANDIN/real_sleep" 3
waited=0
while [ -f "$STANDIN/wait" ] && [ "$waited" -lt 60 ]; do
    "$STANDIN/real_sleep" 1
    waited=$((waited + 1))
done
cd "$room"
"$STANDIN/programs/$name" "$@"
echo "run=ended status=$? runners=1 proved=no" >&2
rm -r "$room"
"""


@dataclass
class Tally:
    """Reports each case, with what was found in place of what is expected."""

    tally: common.Tally

    def expect(self, name: str, is_so: bool, found: object) -> None:
        self.tally.expect(name, is_so, f"found: {found}")


@dataclass
class Ended:
    status: int
    output: str
    errors: str

    def is_like(self, status: int, output: str, errors: str = "") -> bool:
        return (self.status, self.output, self.errors) == (status, output, errors)


def run(words: Sequence[str], text: str = "", cwd: Optional[Path] = None, script: Path = SCRIPT, env: Optional[Mapping[str, str]] = None,
        stdin: Optional[int] = None, stdout: int = subprocess.PIPE) -> Ended:
    """Runs the script with the words on the text, through a pipe, or on another input."""
    source: dict[str, object] = {"input": text.encode("latin-1")} if stdin is None else {"stdin": stdin}
    done = subprocess.run([str(script), *words], stdout=stdout, stderr=subprocess.PIPE, cwd=cwd, env={**os.environ, **(env or {})}, **source)  # type: ignore[call-overload]
    return Ended(done.returncode, (done.stdout or b"").decode("latin-1"), done.stderr.decode("latin-1"))


def at_terminal(words: Sequence[str], which: Sequence[str], script: Path = SCRIPT, cwd: Optional[Path] = None,
                env: Optional[Mapping[str, str]] = None, typed: bytes = b"") -> tuple[int, str]:
    """Runs the script with these of its streams at a terminal; its status, and what the terminal shows."""
    ours, theirs = pty.openpty()
    streams = {name: (theirs if name in which else subprocess.DEVNULL) for name in ("stdin", "stdout", "stderr")}
    child = subprocess.Popen([str(script), *words], cwd=cwd, env={**os.environ, "TERM": "xterm", **(env or {})}, start_new_session=True, **streams)  # type: ignore[call-overload]
    os.close(theirs)
    os.write(ours, typed)
    shown = b""
    while True:
        try:
            part = os.read(ours, 65536)
        except OSError:  # no process has the terminal any more
            break
        if not part:
            break
        shown += part
    os.close(ours)
    return child.wait(), shown.decode("latin-1").replace("\r\n", "\n")


class Room:
    """A folder with files to be named."""

    def __init__(self, path: Path) -> None:
        self.path = path
        for name, text in (("good.txt", "crate a\n"), ("mixed.txt", MIXED), ("front.txt", FRONT), ("body.txt", BODY),
                           ("fault.txt", "crate a\n\nstruct\n"), ("-dashed", "crate a\n"), ("8", "crate b\n"), ("zero", "crate a\n\0\n")):
            (path / name).write_bytes(text.encode("latin-1"))
        (path / "folder").mkdir()

    def write(self, name: str, text: str) -> None:
        (self.path / name).write_text(text, encoding="latin-1")

    def run(self, words: str, text: str = "", stdin: Optional[int] = None, stdout: int = subprocess.PIPE) -> Ended:
        return run(words.split(), text, self.path, stdin=stdin, stdout=stdout)


# ---- help, version, mistakes


def try_help(tally: Tally) -> None:
    for word in ("--help", "-h"):
        ended = run([word])
        is_good = ended.status == 0 and ended.errors == "" and ended.output.startswith("usage: ./celtisdarts [DEPTH] [OPTION...] [FILE...]\n")
        tally.expect(word, is_good, ended)
    for option in ("--explain", "--json", "--proof", "--color", "--check", "--ask", "--with", "--file", "--build", "--version", "--help", "--"):
        tally.expect(f"help on {option}", f"\n  {option} " in run(["--help"]).output, "it is not listed")


def try_version(tally: Tally) -> None:
    ended = run(["--version"])
    first, *rest = ended.output.splitlines()
    tally.expect("--version", ended.status == 0 and ended.errors == "", ended)
    tally.expect("--version, the commit", bool(re.fullmatch(r"celtisdarts (\d{4}-\d\d-\d\d \(commit [0-9a-f]+\)|of an unknown commit)", first)), first)
    version = dict(line.split(": ", 1) for line in rest[rest.index("celtisdarts") + 1:] if line)
    note = TOP / (version["program"] + ".proved")
    if note.exists():  # (nothing is noted of a program that the toolchain alone built)
        noted = dict(line.split(" ", 1) for line in note.read_text().splitlines())
        tally.expect("--version, the sources", version["sources"] == noted["sources"], ended)
        tally.expect("--version, the toolchain", version["toolchain"] == noted["toolchain"], ended)


def try_mistakes(tally: Tally, room: Room) -> None:
    """Each wrong word is named, in one line, and nothing is read before."""
    mistakes = {
        "--jsno": "`--jsno` is no option",
        "8 good.txt -x": "`-x` is no option",
        "300 good.txt": "`300` is no depth: 1 to 255",
        "0": "`0` is no depth: 1 to 255",
        "256": "`256` is no depth: 1 to 255",
        "0008": "`0008` is no depth: 1 to 255",
        "99999999999999999999": "`99999999999999999999` is no depth: 1 to 255",
        "--json good.txt": "`--json` needs `--explain`",
        "--color always good.txt": "`--color` needs `--explain`",
        "--explain --color": "`--color` needs a value",
        "--explain --color red": "`--color` takes auto, always or never, and not `red`",
        "--color=": "`--color` takes auto, always or never, and not ``",
        "good.txt --with": "`--with` needs a value",
        "--with=": "an empty argument names no file",
        "--file": "`--file` needs a value",
        "--explain --json good.txt 8": "`--json` takes one text, not 2 files",
        "--proof": "`--proof` needs a value",
        "--proof svg good.txt": "`--proof` takes dot, and not `svg`",
        "--proof dot good.txt 8": "`--proof` takes one text, not 2 files",
        "--check --file a good.txt 8": "`--file` names one text, not 2 files",
        "--build 8": "`--build` takes no other argument",
        "8 --build": "`--build` is no option",
        "- -": "standard input is read once, and is named twice",
        "--with - -": "standard input is read once, and is named twice",
        "--with -": "standard input is read once, and is named twice",
    }
    for words, message in mistakes.items():
        ended = room.run(words)
        tally.expect(f"the words '{words}'", ended.is_like(2, "", f"celtisdarts: {message}{HELP_OFFERED}"), ended)
    ended = run(["8", ""], cwd=room.path)
    tally.expect("an empty word", ended.is_like(2, "", "celtisdarts: an empty argument names no file" + HELP_OFFERED), ended)
    ended = run(["--\x1b[31m\n"], cwd=room.path)
    tally.expect("a word with an escape", ended.is_like(2, "", "celtisdarts: `--?[31m?` is no option" + HELP_OFFERED), ended)
    with open(room.path / "good.txt", "rb") as source:
        room.run("8 --jsno", stdin=source.fileno())
        left = os.read(source.fileno(), 100)
    tally.expect("a mistake, the text unread", left == b"crate a\n", left)


def try_program(tally: Tally, room: Room, folder: Path) -> None:
    """The program by itself, as a copy in a folder where nothing else is."""
    folder.mkdir()
    shutil.copy(program_of("celtisdarts"), folder)
    (folder / "mixed.txt").write_text(MIXED)
    script = folder / "celtisdarts"
    ended = run(["mixed.txt"], cwd=folder, script=script)
    tally.expect("the program on a file", ended.is_like(0, MIXED_ANSWER), ended)
    for words in ("--explain mixed.txt", "--explain --json --color always mixed.txt", "7 mixed.txt --explain --file=a", "-- mixed.txt mixed.txt",
                  "--proof dot mixed.txt", "--with mixed.txt mixed.txt"):
        ended = run(words.split(), cwd=folder, script=script)
        tally.expect(f"the program's words '{words}'", ended == run(words.split(), cwd=folder) and ended.status in (0, 1), ended)
    for words in (["--check", "mixed.txt"], ["--explain", "--check", "mixed.txt"]):
        tally.expect(f"the program's words {words}", run(words, cwd=folder, script=script).status == 4, "another status than 4")
    for word in ("--help", "-h", "--version", "-V"):
        ended = run([word], script=script)
        is_good = ended.output.startswith("usage: celtisdarts [DEPTH] [OPTION...] [FILE...]\n" if "h" in word else "celtisdarts ")
        tally.expect(f"the program's {word}", is_good and ended.status == 0 and ended.errors == "", ended)
    done = subprocess.run([bytes(script), b"\xff"], stdin=subprocess.DEVNULL, stdout=subprocess.PIPE, stderr=subprocess.PIPE, check=False)
    message = b"celtisdarts: an argument is not UTF-8 (a file with such a name can be standard input)\n"
    tally.expect("a word that is not UTF-8", (done.returncode, done.stdout, done.stderr) == (2, b"", message), done)


def try_refused_files(tally: Tally, room: Room) -> None:
    reasons = {
        "nosuch": "nosuch: no such file",
        "8 300": "300: no such file (the depth comes before all files)",
        "folder": "folder: is a folder",
        "-- -other": "-other: no such file",
        "--with nosuch good.txt": "nosuch: no such file",
        "--with folder good.txt": "folder: is a folder",
        "--explain nosuch": "nosuch: no such file",
        "--check nosuch": "nosuch: no such file",
        "--check /proc/self/mem": "/proc/self/mem: could not be read",
        "--with /proc/self/mem good.txt": "/proc/self/mem: could not be read",
        "/proc/self/mem": "/proc/self/mem: could not be read",
    }
    for words, reason in reasons.items():
        ended = room.run(words)
        tally.expect(f"the words '{words}'", ended.is_like(3, "", f"celtisdarts: {reason}\n"), ended)
    ended = run(["\x1b[31m\n?"], cwd=room.path)
    tally.expect("a name with an escape", ended.is_like(3, "", "celtisdarts: ?[31m??: no such file\n"), ended)
    for words in ("zero", "--check zero", "-"):
        ended = room.run(words, (room.path / "zero").read_text())
        name = "standard input" if words == "-" else "zero"
        message = f"celtisdarts: {name}: is no text: it has a byte 0\n"
        tally.expect(f"bytes that are no text, '{words}'", ended.is_like(1, "line 2: fault 2\n", message), ended)
    with open(room.path / "zero", "rb") as source:
        ended = room.run("8", stdin=source.fileno())
    tally.expect("bytes that are no text, as the input", ended.is_like(1, "line 2: fault 2\n", "celtisdarts: standard input: is no text: it has a byte 0\n"), ended)
    for words, message in {"fault.txt": "celtisdarts: fault.txt: --explain has the reason\n", "--check fault.txt": "", "--check --explain fault.txt": "",
                        "--explain fault.txt": "", "--explain --json fault.txt": "", "--proof dot fault.txt": "", "good.txt": ""}.items():
        ended = room.run(words)
        tally.expect(f"the messages, '{words}'", ended.errors == message, ended)
        is_answered = ended.status == (0 if words == "good.txt" else 1) and (message == "" or ended.output == "line 3: fault 2\n")
        tally.expect(f"the messages, '{words}', with the answer", is_answered, ended)
    several = room.run("good.txt nosuch 8")
    expected = "== good.txt\ncrate a: accepted\n== nosuch\n== 8\ncrate b: accepted\n"
    tally.expect("one missing file of several", several.is_like(3, expected, "celtisdarts: nosuch: no such file\n"), several)


# ---- depth, files, standard input


def chain(steps: int) -> str:
    """A goal whose proof has a chain of so many premises."""
    traits = "".join(f"trait T{number}\n" for number in range(steps + 1))
    impls = "".join(f"impl T{number} for u8 where u8: T{number + 1}\n" for number in range(steps))
    return f"crate a\n{traits}{impls}impl T{steps} for u8\nprove in a u8: T0\n"


def try_depth(tally: Tally, room: Room) -> None:
    """Without a depth it is 128: a chain of so many premises is followed to its end, and a longer one is not."""
    room.write("short", chain(128))
    room.write("long", chain(129))
    good, cut = "crate a: accepted\nprove 1: yes\n", "crate a: accepted\nprove 1: maybe\n"
    for words, expected in {"short": good, "long": cut, "127 short": cut, "128 short": good, "128 long": cut, "129 long": good, "255 long": good,
                          "001 short": cut, "129 -- long": good, "--check 129 long": good, "--check short": good}.items():
        ended = room.run(words)
        tally.expect(f"the words '{words}'", ended.output == expected, ended)
    ended = room.run("short 129")
    tally.expect("a number after a file", ended.errors == "celtisdarts: 129: no such file (the depth comes before all files)\n", ended)
    for words in ("8 8", "-- 8", "8 -- 8", "./8", "--with good.txt -- 8"):
        tally.expect(f"the file 8, '{words}'", room.run(words).output.endswith("crate b: accepted\n"), room.run(words))


def try_positions(tally: Tally, room: Room) -> None:
    """Options may come anywhere, and a value may follow `=`."""
    expected = room.run("--explain 8 mixed.txt")
    tally.expect("an explained answer", "error[E0119]" in expected.output and expected.status == 0, expected)
    for words in ("8 --explain mixed.txt", "8 mixed.txt --explain", "8 --explain -- mixed.txt", "--color=never 8 mixed.txt --explain",
                  "8 mixed.txt --color auto --explain --file=mixed.txt"):
        tally.expect(f"the words '{words}'", room.run(words) == expected, room.run(words))
    for words in ("8", "", "-", "8 -", "- --file x"):
        ended = room.run(words, MIXED)
        tally.expect(f"standard input, '{words}'", ended.is_like(0, MIXED_ANSWER), ended)
    ended = room.run("good.txt - 8", MIXED)
    expected_output = f"== good.txt\ncrate a: accepted\n== -\n{MIXED_ANSWER}== 8\ncrate b: accepted\n"
    tally.expect("standard input among files", ended.is_like(0, expected_output), ended)
    ended = room.run("-- -dashed")
    tally.expect("a file with a dash", ended.is_like(0, "crate a: accepted\n"), ended)
    shutil.copy(room.path / "good.txt", room.path / "\x1b[1m")
    ended = run(["good.txt", "\x1b[1m"], cwd=room.path)
    tally.expect("a name with an escape above its answer", ended.is_like(0, "== good.txt\ncrate a: accepted\n== ?[1m\ncrate a: accepted\n"), ended)
    ended = run(["--explain", "fault.txt", "--file", "\x1b[1m"], cwd=room.path)
    tally.expect("a name with an escape before a line", "--> ?[1m:3:7\n" in ended.output and "\x1b" not in ended.output, ended)
    both = room.run("--explain good.txt mixed.txt")
    tally.expect("two explained files", both.output == f"== good.txt\ncrate a: accepted\n== mixed.txt\n{expected.output}", both)


# ---- expectations


def try_check(tally: Tally, room: Room) -> None:
    """The messages of --check about MIXED, whose best answers are those of crate base and of query 3."""
    found = ["mixed.txt:5: prove 1: expected `yes`, found `unproved`",
             "mixed.txt:6: later base: expected `compatible`, found `breaking impl 1`",
             "mixed.txt:8: crate a: expected `accepted`, found `overlap impl 2 with a 1`",
             "mixed.txt:9: supers a: expected `held`, found `missing impl 1 clause 1`",
             "mixed.txt:13: refute 2: expected `no`, found `open`"]
    ended = room.run("8 --check mixed.txt")
    tally.expect("answers that are not good", ended.is_like(4, MIXED_ANSWER, "\n".join(found) + "\n"), ended)
    message = "".join(f"{line}\n" for line in found)
    for words in ("8 --check --explain mixed.txt", "8 --check --explain --json mixed.txt", "8 --check --explain --color always mixed.txt"):
        ended = room.run(words)
        tally.expect(f"the words '{words}'", ended.status == 4 and ended.errors == message and ended.output == room.run(words.replace("--check ", "")).output, ended)
    ended = room.run("8 --check", MIXED)
    tally.expect("answers on standard input", ended.is_like(4, MIXED_ANSWER, message.replace("mixed.txt", "<stdin>")), ended)
    ended = room.run("8 --check --file a.txt mixed.txt")
    tally.expect("answers of a text with another name", ended.errors == message.replace("mixed.txt", "a.txt"), ended)
    for text, status in (("crate a\n", 0), ("", 0), ("crate a\nstruct\n", 1)):
        ended = run(["--check"], text)
        tally.expect(f"status {status} of a checked text", ended.status == status and ended.errors == "", ended)
    ended = room.run("--check good.txt mixed.txt fault.txt")
    tally.expect("three checked files", ended.status == 4 and ended.errors == message, ended)


def try_expectations(tally: Tally) -> None:
    """The line after `// expect:`, what it expects, and what is found: nothing if it is met."""
    cases = [
        ("prove in a u8: Sized", "yes", ""),
        ("prove in a u8: Sized", "unproved", "3: prove 1: expected `unproved`, found `yes`"),
        ("prove in a [u8]: Sized", "unproved", ""),
        ("prove in a [u8]: Sized", "unprove", "3: prove 1: expected `unprove`, found `unproved`"),
        ("prove in a [u8]: Sized", "", "3: prove 1: expected ``, found `unproved`"),
        ("prove in a (u8, bool): ?x", "yes", "fault"),
        ("prove in a fn(u8): Fn<?x>", "yes", ""),
        ("prove in a fn(u8): Fn<?x>", "yes ?x = (u8,)", ""),
        ("prove in a fn(u8): Fn<?x>", "yes ?x = (u8", "3: prove 1: expected `yes ?x = (u8`, found `yes ?x = (u8,)`"),
        ("prove in a fn(u8): Fn<?x>", "yes ?x = (u8,", "3: prove 1: expected `yes ?x = (u8,`, found `yes ?x = (u8,)`"),
        ("prove in a fn(u8): Fn<?x>", "yes ?x = u8", "3: prove 1: expected `yes ?x = u8`, found `yes ?x = (u8,)`"),
        ("refute in a [u8]: Sized", "no", ""),
        ("refute in a u8: Tuple", "open", ""),
        ("supers in core", "held", ""),
        ("supers in core", "missing", "3: supers core: expected `missing`, found `held`"),
        ("crate b", "accepted", ""),
        ("crate b", "overlap", "3: crate b: expected `overlap`, found `accepted`"),
        ("later a", "compatible", ""),
        ("later a", "breaking", "3: later a: expected `breaking`, found `compatible`"),
        ("struct X", "yes", "2: `// expect:` stands before no line that has an answer"),
        ("// a comment", "yes", "2: `// expect:` stands before no line that has an answer"),
        ("", "yes", "2: `// expect:` stands before no line that has an answer"),
        ("// expect: yes\nprove in a u8: Sized", "yes", "2: `// expect:` stands before no line that has an answer"),
    ]
    for line, expected, found in cases:
        for spelling in ("// expect: ", "  //expect:   "):
            ended = run(["--check"], f"crate a\n{spelling}{expected}\n{line}\n")
            status = 1 if found == "fault" else 4 if found else 0
            message = f"<stdin>:{found}\n" if status == 4 else ""
            tally.expect(f"`{line}`, expected `{expected}`", ended.status == status and ended.errors == message, ended)
    for expected, status in (("yes", 0), ("yes ?x = u8", 0), ("yes ?x = u8, ?y = fn(u8) -> bool", 0), ("yes ?x = u8, ?y = fn(u8)", 4), ("yes ?x = u", 4)):
        text = f"crate a\ntrait Two<A, B>\nstruct S\nimpl Two<u8, fn(u8) -> bool> for S\n// expect: {expected}\nprove in a S: Two<?x, ?y>\n"
        ended = run(["--check"], text)
        tally.expect(f"two values, expected `{expected}`", ended.status == status, ended)
    ended = run(["--check"], "crate a\n// expected: no\n// Expect: no\nprove in a u8: Sized\n// expect: no")
    tally.expect("an expectation at the end", ended.status == 4 and ended.errors == "<stdin>:5: `// expect:` stands before no line that has an answer\n", ended)
    ended = run(["--check"], "crate a\n// expect: unproved \t\r\nprove in a [u8]: Sized\n")
    tally.expect("an expectation with CR LF", ended.is_like(0, "crate a: accepted\nprove 1: unproved\n"), ended)


def try_texts(tally: Tally) -> None:
    ended = run(["--with", "texts/std.txt", "--check", "texts/std_answers.txt"], cwd=TOP)
    tally.expect("texts/std_answers.txt", ended.status == 0 and ended.errors == "", ended)
    queries = re.findall(r"^prove ", (TOP / "texts" / "std_answers.txt").read_text(), re.M)
    tally.expect("texts/std_answers.txt, its answers", ended.output.count("\nprove ") == len(queries) > 50, len(queries))
    text = (TOP / "texts" / "std_answers.txt").read_text().replace("// expect: unproved\nprove in user Ptr<u8>: Send", "prove in user Ptr<u8>: Send")
    ended = run(["--with", "texts/std.txt", "--check"], text, cwd=TOP)
    tally.expect("a raw pointer that is not Send", ended.status == 4 and ended.errors.endswith(": expected `yes`, found `unproved`\n") and ended.errors.count("\n") == 1, ended)


def try_documents(tally: Tally, room: Room) -> None:
    """The texts of docs/FORMAT.md about expectations, and about Send and Sync."""
    blocks = (TOP / "docs" / "FORMAT.md").read_text().split("```")
    text = next(block for block in blocks if "// expect: overlap" in block)[len("text\n"):]
    ended = run(["--check"], text)
    tally.expect("the text of FORMAT.md", ended.status == 0 and ended.errors == "" and ended.output.count("\n") == 4, ended)
    room.write("mine.txt", "".join(line for number, line in enumerate(text.splitlines(keepends=True), 1) if number != 5))
    ended = room.run("--check mine.txt")
    message = blocks[blocks.index(f"text\n{text}") + 2][len("text\n"):]
    tally.expect("the text of FORMAT.md without its fifth line", ended.status == 4 and ended.errors == message, ended)
    recipe = next(block for block in blocks if "fundamental struct Ref<T>" in block)[len("text\n"):]
    answers = {"&u8": "yes", "Ref<u8>": "yes", "&(u8, Ptr<u8>)": "unproved", "Ref<&mut u8>": "yes", "Ptr<u8>": "unproved", "*const u8": "yes"}
    ended = run(["--check"], recipe + "".join(f"// expect: {answer}\nprove in base {kind}: Send\n" for kind, answer in answers.items()))
    tally.expect("the recipe of FORMAT.md", ended.status == 0 and ended.output.count("\n") == 1 + len(answers), ended)


# ---- several files that are one text


def try_with(tally: Tally, room: Room) -> None:
    """The text in front ends with a line that has no end."""
    for words in ("--with front.txt body.txt", "body.txt --with=front.txt"):
        ended = room.run(words)
        tally.expect(f"the words '{words}'", ended.is_like(0, BODY_ANSWER), ended)
    ended = room.run("--with front.txt", BODY)
    tally.expect("standard input after a file", ended.is_like(0, BODY_ANSWER), ended)
    ended = room.run("--with - body.txt", FRONT)
    tally.expect("standard input in front of a file", ended.is_like(0, BODY_ANSWER), ended)
    ended = room.run("--with front.txt body.txt good.txt")
    expected = f"== body.txt\n{BODY_ANSWER}== good.txt\ncrate std: accepted\ncrate a: accepted\n"
    tally.expect("two texts with a file in front of each", ended.is_like(0, expected), ended)
    ended = room.run("--with front.txt --check body.txt")
    message = "body.txt:1: crate mine: expected `accepted`, found `overlap impl 2 with mine 1`\n"
    tally.expect("a checked text with a file in front", ended.is_like(4, BODY_ANSWER, message), ended)

    room.write("more.txt", "crate more uses std\n// expect: no\nprove in std u8: Display\n")
    ended = room.run("--with front.txt --with more.txt --check good.txt")
    tally.expect("an expectation in a file in front", ended.errors == "more.txt:3: prove 1: expected `no`, found `yes`\n", ended)
    ended = room.run("--with front.txt --with more.txt fault.txt")
    tally.expect("a fault after it", ended.is_like(1, "line 3: fault 2\n", "celtisdarts: fault.txt: --explain has the reason\n"), ended)
    ended = room.run("--with front.txt --with fault.txt good.txt")
    tally.expect("a fault in front", ended.is_like(1, "fault.txt: line 3: fault 2\n", "celtisdarts: good.txt: --explain has the reason\n"), ended)
    ended = room.run("--explain --with front.txt --with fault.txt good.txt")
    expected = "fault.txt: line 3: fault 2\nerror: "
    tally.expect("a fault in front, explained", ended.status == 1 and ended.output.startswith(expected) and "\n  --> fault.txt:3:7\n" in ended.output
                 and "\n3  | struct\n" in ended.output, ended)
    ended = room.run("--with front.txt folder good.txt")
    tally.expect("a folder after it", ended.is_like(3, "== folder\n== good.txt\ncrate std: accepted\ncrate a: accepted\n", "celtisdarts: folder: is a folder\n"), ended)


def try_with_explained(tally: Tally, room: Room) -> None:
    """Line 3 of body.txt is line 14 of the whole text: there is room for numbers of two digits."""
    ended = room.run("--explain --with front.txt body.txt")
    for row in ("  --> body.txt:5:6", "3  | impl<T> Named for T where T: Display", "5  | impl Named for u8", "   |      ^^^^^^^^^^^^ conflicting implementation for `u8`",
                "  --> body.txt:4:15", "   = proof: u8: Named         impl at line 3", "            `- u8: Display    impl at line 3 of front.txt"):
        tally.expect(f"explained, the row {row!r}", row in ended.output.splitlines(), ended.output)
    room.write("blanket.txt", "crate blanket\ntrait Wide\nimpl<T> Wide for T\n")
    room.write("narrow.txt", "crate narrow uses blanket\nstruct N\nimpl Wide for N\n")
    ended = room.run("--explain --with blanket.txt narrow.txt")
    expected = ["error[E0119]: conflicting implementations of trait `Wide` for type `N`: lines 3 of blanket.txt and 3",
              " --> narrow.txt:3:6", "  |", " ::: blanket.txt:3", "3 | impl<T> Wide for T", " ::: narrow.txt:3", "3 | impl Wide for N"]
    rows = iter(ended.output.splitlines())
    tally.expect("an overlap between files", all(row in rows for row in expected), ended.output)
    colored = room.run("--explain --color always --with blanket.txt narrow.txt").output
    tally.expect("an overlap between files with colours", re.sub(r"\x1b\[[0-9;]*m", "", colored) == ended.output and "\x1b" in colored, colored)


def spans_in(value: object) -> list[dict[str, object]]:
    if isinstance(value, list):
        return [span for item in value for span in spans_in(item)]
    if isinstance(value, dict):
        return [value] if "file_name" in value else [span for item in value.values() for span in spans_in(item)]
    return []


def try_with_json(tally: Tally, room: Room) -> None:
    """Each span's bytes and columns are those of its own file."""
    explained = room.run("--explain --with front.txt body.txt")
    ended = room.run("--explain --json --with front.txt body.txt")
    objects = [json.loads(line) for line in ended.output.splitlines()]
    tally.expect("objects", len(objects) == 3 and ended.status == 0, ended)
    spans = spans_in(objects)
    tally.expect("spans", len(spans) >= 3 and any(span["line_start"] == 5 for span in spans), spans)
    for span in spans:
        data = (room.path / str(span["file_name"])).read_bytes()
        line = data.split(b"\n")[int(str(span["line_start"])) - 1]
        marked = line[int(str(span["column_start"])) - 1:int(str(span["column_end"])) - 1]
        tally.expect("a span", marked != b"" and data[int(str(span["byte_start"])):int(str(span["byte_end"]))] == marked, span)
    messages = [str(child["message"]) for item in objects for child in item.get("children", [])]
    expected = "proof:\nu8: Named         impl at line 3\n`- u8: Display    impl at line 3 of front.txt"
    tally.expect("a proof as JSON", expected in messages, messages)
    rendered = "".join(str(item.get("rendered", "")) for item in objects)
    rows = [row for row in explained.output.splitlines() if not row.startswith(("crate", "prove"))]
    tally.expect("what is rendered", rendered.splitlines() == rows, rendered)
    ended = room.run("--explain --json --with fault.txt good.txt")
    first, further = map(json.loads, ended.output.splitlines())
    tally.expect("a fault in front as JSON", first["answer"] == "fault.txt: line 3: fault 2", ended)
    parts = {"answered": "line", "line": 3, "file": "fault.txt", "kind": "fault", "fault": 2}
    tally.expect("the parts of a fault in front", first["parts"] == parts, ended)
    parts = {"answered": "line", "line": 1, "kind": "fault", "fault": 4}
    tally.expect("a further fault after it", further["answer"] == "" and further["parts"] == parts and further["spans"][0]["line_start"] == 1, ended)


def try_proof(tally: Tally, room: Room) -> None:
    """A proof as a picture: a node for each row, and an edge to each premise."""
    ended = room.run("--proof dot --with front.txt body.txt")
    nodes = re.findall(r'^    (\w+) \[label="(.*)"\];$', ended.output, re.M)
    edges = re.findall(r"^    (\w+) -> (\w+);$", ended.output, re.M)
    labels = dict(nodes)
    expected = ("u8: Named\\nimpl at line 3", "u8: Display\\nimpl at line 3 of front.txt")
    tally.expect("a proof as a picture", ended.status == 0 and expected in [(labels[above], labels[below]) for above, below in edges], ended)
    is_whole = ended.output.startswith("digraph proofs {\n") and ended.output.endswith("}\n") and len(nodes) == len(labels)
    tally.expect("a picture, whole", is_whole, ended)
    ended = room.run("--proof=dot good.txt")
    tally.expect("a picture of no proof", ended.status == 0 and "label" not in ended.output and ended.output.endswith("}\n"), ended)


# ---- colours, terminals, and what is refused


def try_terminal(tally: Tally, room: Room) -> None:
    def has_colors(words: str, **env: str) -> bool:
        return "\x1b[" in at_terminal(words.split(), ("stdout",), cwd=room.path, env={"NO_COLOR": "", **env})[1]

    for words in ("--explain mixed.txt", "--explain --check mixed.txt", "--explain --with front.txt body.txt"):
        tally.expect(f"colours on a terminal, '{words}'", has_colors(words), "none")
        tally.expect(f"NO_COLOR, '{words}'", not has_colors(words, NO_COLOR="1"), "colours")
        tally.expect(f"TERM=dumb, '{words}'", not has_colors(words, TERM="dumb"), "colours")
        tally.expect(f"no TERM, '{words}'", not has_colors(words, TERM=""), "colours")
    tally.expect("--color never", not has_colors("--explain --color never mixed.txt"), "colours")
    tally.expect("--color always and NO_COLOR", has_colors("--explain --color always mixed.txt", NO_COLOR="1"), "none")
    tally.expect("--json", not has_colors("--explain --json --color always mixed.txt"), "colours")
    tally.expect("no colours in a file", "\x1b" not in room.run("--explain mixed.txt").output, "colours")
    status, shown = at_terminal([], ("stdin", "stderr"))
    tally.expect("no word at a terminal", (status, shown) == (2, "celtisdarts: there is no text: name a file" + HELP_OFFERED), (status, shown))
    for given, message in ((["fault.txt"], "celtisdarts: fault.txt: --explain has the reason\n"), (["--explain", "fault.txt"], ""), (["good.txt"], "")):
        shown = at_terminal(given, ("stderr",), cwd=room.path)[1]
        tally.expect(f"a fault at a terminal, {given}", shown == message, shown)
    status, shown = at_terminal(["8"], ("stdin", "stdout", "stderr"), typed=b"crate a\n\x04")
    expected = "celtisdarts: reading the text from the terminal, until Ctrl-D on a line by itself\n"
    tally.expect("a text that is typed", status == 0 and expected in shown and shown.endswith("crate a: accepted\n"), (status, shown))


def try_full_device(tally: Tally, room: Room) -> None:
    if not os.access("/dev/full", os.W_OK):
        return
    with open("/dev/full", "wb") as full, open(room.path / "mixed.txt", "rb") as source:
        for words in ("8", "8 mixed.txt", "8 mixed.txt mixed.txt", "--check mixed.txt", "--explain mixed.txt", "--explain --json mixed.txt",
                      "--with front.txt body.txt", "--explain --with front.txt body.txt", "--help", "--version"):
            source.seek(0)
            ended = room.run(words, stdin=source.fileno(), stdout=full.fileno())
            lines = ended.errors.splitlines()
            is_reported = len(lines) == 1 and lines[0].startswith("celtisdarts: ") and lines[0].endswith("standard output could not be written")
            tally.expect(f"a full device, '{words}'", ended.status == 3 and is_reported, ended)
        ended = room.run("8", MIXED, stdout=full.fileno())
        tally.expect("a full device, from a pipe", ended.status == 3 and ended.errors.count("\n") == 1, ended)


def try_refused_output(tally: Tally, room: Room) -> None:
    room.write("many.txt", "crate a\n" + "prove in a u8: Copy\n" * 40000)
    for words in ("8 many.txt", "8 many.txt many.txt", "--check many.txt", "--explain many.txt", "--with front.txt many.txt"):
        reader, writer = os.pipe()
        os.close(reader)
        ended = room.run(words, stdout=writer)
        os.close(writer)
        tally.expect(f"a pipe without a reader, '{words}'", ended.is_like(3, ""), ended)
    for words, message in {"8 <&-": "standard input: is closed", "8 < .": "standard input: is a folder",
                        "8 good.txt >&-": "good.txt: no whole answer: standard output is closed", "8 < good.txt >&-":
                        "standard input: no whole answer: standard output is closed", "--check good.txt >&-":
                        "good.txt: no whole answer: standard output is closed"}.items():
        done = subprocess.run(["sh", "-c", f"{SCRIPT} {words}"], cwd=room.path, stdout=subprocess.PIPE, stderr=subprocess.PIPE, text=True, check=False)
        tally.expect(f"'{words}'", (done.returncode, done.stdout, done.stderr) == (3, "", f"celtisdarts: {message}\n"), done)


# ---- where nothing is built


def program_of(name: str) -> Path:
    """The program that the script runs, by its own word."""
    version = run(["--version"]).output.split(f"\n{name}\n")[1]
    path = version.split("program: ")[1].split("\n")[0]
    if path.startswith("none"):
        raise common.Missing(f"no proved {name} of today's sources: ./celtisdarts --build")
    return TOP / path


def make_unbuilt(folder: Path) -> dict[str, str]:
    """A copy with nothing built, and the environment with a replacement of its toolchain."""
    shutil.copytree(TOP / "tools" / "command", folder / "clone" / "tools" / "command")
    for name in ("celtisdarts", "crates.txt", "tools/program.sh"):
        shutil.copy(TOP / name, folder / "clone" / name)
    for crate in (TOP / "crates").iterdir():
        shutil.copytree(crate / "src", folder / "clone" / "crates" / crate.name / "src")
    (folder / "programs").mkdir()
    for name in PROGRAMS:
        shutil.copy(program_of(name), folder / "programs" / name)
    (folder / "bin").mkdir()
    (folder / "bin" / "rt").write_text(RT)
    (folder / "bin" / "rt").chmod(0o755)
    (folder / "real_sleep").symlink_to(shutil.which("sleep") or "/bin/sleep")
    return {"PATH": f"{folder / 'bin'}:{os.environ['PATH']}", "STANDIN": str(folder)}


def try_unbuilt(tally: Tally, room: Room, folder: Path) -> None:
    env = make_unbuilt(folder)
    script = folder / "clone" / "celtisdarts"
    compiling = "celtisdarts: compiling for this one call, which takes minutes; ./celtisdarts --build makes the proved program once\n"
    for words in ("mixed.txt", "good.txt mixed.txt", "8 --check mixed.txt", "8 --with front.txt body.txt", "--explain --json mixed.txt",
                  "--explain --check --with=front.txt body.txt good.txt", "--with front.txt fault.txt", "--jsno", "nosuch"):
        built, ended = room.run(words), run(words.split(), script=script, cwd=room.path, env=env)
        tally.expect(f"unbuilt, '{words}'", (ended.status, ended.output) == (built.status, built.output), ended)
        tally.expect(f"unbuilt, '{words}', the messages", ended.errors == compiling + built.errors, ended)
    printed = run(["--version"], script=script, env=env).output
    tally.expect("unbuilt, --version", "program: none; each call compiles it\ntoolchain: a toolchain\n" in printed and "of an unknown commit" in printed, printed)
    printed = run(["--help"], script=script, env=env).output
    tally.expect("unbuilt, --help", "Each call takes minutes, since it compiles" in printed, printed)

    # A `sleep` that does not wait lets time pass. Its 65th call ends what the replacement waits for.
    (folder / "bin" / "sleep").write_text('#!/bin/sh\necho >> "$STANDIN/slept"\n[ "$(wc -l < "$STANDIN/slept")" -lt 65 ] || rm -f "$STANDIN/wait"\n')
    (folder / "bin" / "sleep").chmod(0o755)
    (folder / "wait").touch()
    shown = at_terminal(["8", "good.txt"], ("stderr",), script=script, cwd=room.path, env=env)[1]
    seconds = re.findall(r"^celtisdarts: still compiling, after (\d+) s$", shown, re.M)
    tally.expect("a line each half minute at a terminal", seconds[:2] == ["30", "60"], shown)
    (folder / "linger").touch()
    ended = run(["8", "good.txt"], script=script, cwd=room.path, env=env)
    tally.expect("no such line in a file", ended.is_like(0, "crate a: accepted\n", compiling), ended)


def check(common_tally: common.Tally, _: argparse.Namespace) -> None:
    tally = Tally(common_tally)
    for name in PROGRAMS:
        program_of(name)
    with tempfile.TemporaryDirectory() as first, tempfile.TemporaryDirectory() as second:
        room = Room(Path(first))
        try_help(tally)
        try_version(tally)
        try_mistakes(tally, room)
        try_program(tally, room, Path(second) / "alone")
        try_refused_files(tally, room)
        try_depth(tally, room)
        try_positions(tally, room)
        try_check(tally, room)
        try_expectations(tally)
        try_texts(tally)
        try_documents(tally, room)
        try_with(tally, room)
        try_with_explained(tally, room)
        try_with_json(tally, room)
        try_proof(tally, room)
        try_terminal(tally, room)
        try_full_device(tally, room)
        try_refused_output(tally, room)
        try_unbuilt(tally, room, Path(second))
