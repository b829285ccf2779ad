"""./celtisdarts --ask: lines of standard input, answered one by one after a text.

Each query of an example gets the answer of the example. Forms, faults, mistakes and a terminal are tried too.
"""
from __future__ import annotations

import argparse
import json
import os
import re
import tempfile
from pathlib import Path

from .common import Tally, examples
from .options import HELP_OFFERED, Ended, at_terminal, run

TEXT = "crate base\ntrait Show\nimpl Show for u8\ncrate a uses base\nstruct V<T>(T)\nimpl<T> Show for V<T> where T: Show\nprove in a u8: Show"

# The line, and the answer if the call names no crate, and if it names a.
FORMS = [
    ("prove in a V<V<u8>>: Show", "prove 2: yes", "prove 2: yes"),
    ("  prove   in   base   u8: Show  ", "prove 2: yes", "prove 2: yes"),
    ("refute in a bool: Fn<()>", "refute 2: no", "refute 2: no"),
    ("prove in a <T> V<T>: Show where T: Show", "prove 2: yes", "prove 2: yes"),
    ("prove in base V<u8>: Show", "fault 6", "fault 6"),
    ("prove V<bool>: Show", "fault 2", "prove 2: unproved"),
    ("refute V<bool>: Show", "fault 2", "refute 2: open"),
    ("fn(u8): Fn<?x>", "asks nothing", "prove 2: yes ?x = (u8,)"),
    ("?x: Show", "asks nothing", "prove 2: maybe"),
    ("<T> V<T>: Show where T: Show", "asks nothing", "prove 2: yes"),
    ("W: Show", "asks nothing", "fault 5"),
    ("*: Show", "asks nothing", "fault 2"),
    ("\x80: Show", "asks nothing", "fault 1"),
    ("prove", "fault 2", "fault 2"),
    ("struct W", "asks nothing", "asks nothing"),
    ("crate b", "asks nothing", "asks nothing"),
    ("supers in a", "asks nothing", "asks nothing"),
    ("prove in a V<u8>: Show, fn(u8): Fn<?x>", "prove 2: yes ?x = (u8,)", "prove 2: yes ?x = (u8,)"),
    ("V<u8>: Show, V<bool>: Show", "asks nothing", "prove 2: unproved"),
    ("refute V<u8>: Show, bool: Show", "fault 2", "refute 2: open"),
    ("V<u8>: Show, W: Show", "asks nothing", "fault 5"),
]


EDITOR = """\
#!/bin/sh
# Replaces rlwrap: notes its options, and runs the program.
echo "$1 $2" >> {calls}
shift 2
exec "$@"
"""


def number_free(line: str) -> str:
    return re.sub(r"^(prove|refute) \d+: ", r"\1: ", line)


def try_examples(tally: Tally) -> None:
    """The queries of examples that have some, after the whole text."""
    count = 0
    for example in examples():
        queries = [line for line in example.text.decode("latin-1").split("\n") if line.startswith(("prove ", "refute "))]
        if example.status or not queries or count > 60:
            continue
        count += len(queries)
        expected = [line for line in example.expected().decode().splitlines() if line.startswith(("prove ", "refute "))]
        ended = run([example.depths[-1], "--ask", str(example.folder / "input.txt")], "\n".join(queries))
        found = [number_free(line) for line in ended.output.splitlines()]
        tally.expect(example.name, (ended.status, found, ended.errors) == (0, [number_free(line) for line in expected], ""), f"found: {ended}")
    tally.expect("so many queries", count > 60, f"{count} alone")


def try_forms(tally: Tally, room: Path) -> None:
    lines = "".join(f"{line}\n" for line, _, _ in FORMS)
    for words, column in ((["--ask", "text.txt"], 1), (["--ask", "text.txt", "a"], 2), (["128", "text.txt", "a", "--ask"], 2)):
        ended = run(words, lines, room)
        for row, found in zip(FORMS, ended.output.splitlines()):
            tally.expect(f"{words}, `{row[0]}`", found == row[column], f"found: {found}")
        tally.expect(f"{words}, a line each", ended.status == 0 and ended.output.count("\n") == len(FORMS) and ended.errors == "", f"found: {ended}")
    ended = run(["--ask", "text.txt", "a"], "\n// a comment\n   \nu8: Show", room)
    tally.expect("no statement, and no end", ended.is_like(0, "prove 2: yes\n"), f"found: {ended}")
    ended = run(["--ask", "text.txt", "a"], "", room)
    tally.expect("no line", ended.is_like(0, ""), f"found: {ended}")
    printed = run(["--ask", "text.txt"], "?\n", room).output
    tally.expect("the forms", "prove in CRATE " in printed and "refute in CRATE " in printed and "in the crate" not in printed, printed)
    printed = run(["--ask", "text.txt", "a"], "?\n", room).output
    tally.expect("the forms with a crate", "TYPE: TRAIT alone: in the crate a\n" in printed, printed)
    ended = run(["--with", "text.txt", "--ask", "body.txt", "b"], "V<u8>: Show\n", room)
    tally.expect("a text of two files", ended.is_like(0, "prove 2: yes\n"), f"found: {ended}")


def try_reasons(tally: Tally, room: Path) -> None:
    ended = run(["--explain", "--ask", "text.txt", "a"], "V<u8>: Show\nW: Show\n", room)
    rows = ended.output.splitlines()
    expected = ["prove 2: yes", "note: `V<u8>: Show` holds", " --> text.txt:8:12", "8 | prove in a V<u8>: Show", "  = proof: V<u8>: Show    impl at line 6", "fault 5",
              "error: a name is not known", " --> text.txt:8:12", "8 | prove in a W: Show"]
    tally.expect("with reasons, in their order", [row for row in rows if row in expected] == expected and ended.status == 0, f"found: {ended}")
    tally.expect("with reasons, of these lines alone", not any(row.startswith(("crate", "prove 1")) for row in rows), f"found: {ended}")
    ended = run(["--explain", "--with", "text.txt", "--ask", "body.txt", "b"], "V<u8>: Show\nW: Show\n", room)
    rows = ended.output.splitlines()
    expected = [" --> body.txt:2:12", "2 | prove in b V<u8>: Show", "  = proof: V<u8>: Show    impl at line 6 of text.txt", " --> body.txt:2:12", "2 | prove in b W: Show"]
    tally.expect("with reasons, by the lines of the text itself", [row for row in rows if row in expected] == expected and ended.status == 0, f"found: {ended}")
    ended = run(["--explain", "--color", "always", "--file", "name", "--ask", "text.txt", "a"], "V<u8>: Show\n", room)
    tally.expect("with colours", ended.output.startswith("prove 2: yes\n\x1b[") and "name:8:12\n" in ended.output, f"found: {ended}")


def try_json(tally: Tally, room: Path) -> None:
    """With --json each line that is no comment gets one object."""
    lines = "".join(f"{line}\n" for line, _, _ in FORMS)
    ended = run(["--explain", "--json", "--ask", "text.txt", "a"], f"\n// a comment\n?\n{lines}", room)
    found = [json.loads(row) for row in ended.output.splitlines()]
    tally.expect("as JSON, an object a line", ended.status == 0 and ended.errors == "" and len(found) == len(FORMS) + 1, f"found: {ended}")
    for (line, _, answer), one in zip([("?", "", "fault 2"), *FORMS], found):
        said = one["message"] if one["$message_type"] == "unanswered" else re.sub(r"^line \d+: ", "", one["answer"])
        tally.expect(f"as JSON, `{line}`", said == answer, f"found: {one}")
    expected = {"answered": "prove", "kind": "yes", "question": 2, "values": {"?x": "(u8,)"}}
    tally.expect("as JSON, the values", found[8].get("parts") == expected, f"found: {found[8]}")
    ended = run(["--explain", "--json", "--with", "text.txt", "--ask", "body.txt", "b"], "V<u8>: Show\nW: Show\n", room)
    spans = [json.loads(row)["spans"][0] for row in ended.output.splitlines()]
    places = [(span["file_name"], span["line_start"], span["column_start"]) for span in spans]
    tally.expect("as JSON, by the lines of the text itself", places == [("body.txt", 2, 12), ("body.txt", 2, 12)], f"found: {ended}")
    ended = run(["--explain", "--json", "--ask", "fault.txt", "a"], "u8: Show\n", room)
    tally.expect("as JSON, a text with a fault", ended.status == 1 and json.loads(ended.output.splitlines()[0])["parts"]["fault"] == 2, f"found: {ended}")


def refused(room: Path, words: str) -> Ended:
    return run(words.split(), "u8: Show\n", room)


def try_mistakes(tally: Tally, room: Path) -> None:
    for words, message in {
            "--ask": "`--ask` needs a text: name a file",
            "--ask -": "`--ask` reads lines from standard input, and takes its text from a file",
            "--with - --ask text.txt": "`--ask` reads lines from standard input, and takes its text from a file",
            "--ask text.txt a b": "`--ask` takes one text and one crate, not 3 arguments",
            "--ask --check text.txt": "`--ask` answers line by line: `--proof` and `--check` are for whole texts",
            "--ask --proof dot text.txt": "`--ask` answers line by line: `--proof` and `--check` are for whole texts",
            "--ask --json text.txt": "`--json` needs `--explain`",
    }.items():
        ended = refused(room, words)
        tally.expect(f"'{words}'", ended.is_like(2, "", f"celtisdarts: {message}{HELP_OFFERED}"), f"found: {ended}")
    for words, message in {"--ask nosuch": "nosuch: no such file", "--ask .": ".: is a folder", "--with nosuch --ask text.txt": "nosuch: no such file"}.items():
        ended = refused(room, words)
        tally.expect(f"'{words}'", ended.is_like(3, "", f"celtisdarts: {message}\n"), f"found: {ended}")
    ended = refused(room, "--ask fault.txt a")
    tally.expect("a text with a fault", ended.is_like(1, "line 3: fault 2\n", "celtisdarts: fault.txt: --explain has the reason\n"), f"found: {ended}")
    ended = refused(room, "--with text.txt --ask fault.txt a")
    tally.expect("a text with a fault after another", ended.output == "line 1: fault 4\n" and ended.status == 1, f"found: {ended}")
    ended = refused(room, "--with fault.txt --ask text.txt a")
    tally.expect("a text with a fault in front", ended.output == "fault.txt: line 3: fault 2\n" and ended.status == 1, f"found: {ended}")
    ended = refused(room, "--ask text.txt b")
    tally.expect("a crate that is not there", ended.is_like(0, "fault 5\n"), f"found: {ended}")
    reader, writer = os.pipe()
    os.close(reader)
    ended = run(["--ask", "text.txt", "a"], "u8: Show\n" * 20, room, stdout=writer)
    os.close(writer)
    tally.expect("a pipe without a reader", ended.is_like(3, ""), f"found: {ended}")


def try_terminal(tally: Tally, room: Path) -> None:
    status, shown = at_terminal(["--ask", "text.txt", "a"], ("stdin", "stdout", "stderr"), cwd=room, typed=b"u8: Show\n\x04")
    tally.expect("a terminal", status == 0 and "`?` lists what can be asked" in shown and "> prove 2: yes\n> " in shown, f"found: {shown!r}")


def try_history(tally: Tally, room: Path) -> None:
    """On a terminal rlwrap edits the lines, if it is on the PATH. In a file nothing of it is seen."""
    (room / "bin").mkdir()
    calls = room / "calls"
    (room / "bin/rlwrap").write_text(EDITOR.format(calls=calls))
    (room / "bin/rlwrap").chmod(0o755)
    env = {"PATH": f"{room / 'bin'}:{os.environ['PATH']}"}
    ended, shown = at_terminal(["--ask", "text.txt", "a"], ("stdin", "stdout", "stderr"), cwd=room, typed=b"u8: Show\n\n?x: Show\n\x04", env=env)
    is_good = ended == 0 and "prove 2: yes\n" in shown and "prove 2: maybe\n" in shown and "fault" not in shown
    tally.expect("an editor of lines", is_good, f"found: {shown!r}")
    tally.expect("an editor of lines, its call", calls.read_text() == "-C celtisdarts\n", calls.read_text())
    ended = run(["--ask", "text.txt", "a"], "u8: Show\n", room, env=env)
    tally.expect("an editor of lines, and no terminal", ended.is_like(0, "prove 2: yes\n") and calls.read_text().count("\n") == 1, f"found: {ended}")


def check(tally: Tally, _: argparse.Namespace) -> None:
    with tempfile.TemporaryDirectory() as folder:
        room = Path(folder)
        for name, text in (("text.txt", TEXT), ("body.txt", "crate b uses a\n"), ("fault.txt", "crate a\n\nstruct\n")):
            (room / name).write_text(text)
        try_examples(tally)
        for part in (try_forms, try_reasons, try_json, try_mistakes, try_terminal, try_history):
            part(tally, room)
