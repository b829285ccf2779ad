"""The clients among the examples of the bindings, for the check `bindings`: they print what their heads say.

The head of a client in bindings/python has commands after '$ ', which are run at the top of the repository, and their output. That of one in
bindings/rust has a block. Two are compared with rustc, by clients_in_rust, if rustc is there. The type checker reports what toys.txt expects.
"""
from __future__ import annotations

import json
import re
import shlex
import shutil
import subprocess
import sys
import threading
from pathlib import Path
from typing import Any, Mapping, Sequence

from .clients_in_rust import Rustc, Toy, toys, try_lookups, try_toy
from .common import TOP, Ended, Example, Tally, Word, difference, example, run

Env = Mapping[str, str]

PYTHON, RUST = TOP / "bindings/python", TOP / "bindings/rust"

COMMAND = re.compile(r"^    \$ (.*)\n((?:    (?!\$ ).*\n)*)", re.M)
BLOCK = re.compile(r"^//! ```text\n((?://! .*\n)*)//! ```$", re.M)


# ---- Python

GATED = (
    "a_first_text", "an_orphan_with_a_local_argument", "a_blanket_impl_and_a_specific_one", "later_versions_are_judged_apart",
    "a_supertrait_that_is_missing", "a_supertrait_that_rests_on_itself", "a_supertrait_that_is_there", "unknown_name",
)
REFUSED = re.compile(rb"^(?:crate \w+: (?:orphan|overlap)|later \w+: breaking|supers \w+: (?:missing|undecided)) .*\n", re.M)
# Requests to the server over a_first_text, and the responses. Of an error only that there is one is compared.
SERVED: Sequence[tuple[str, dict[str, Any]]] = [
    ('{"id": 1, "crate": "a", "prove": "A: Show"}', {"id": 1, "answer": "yes", "values": {}}),
    ('{"id": "b", "crate": "a", "prove": "fn(A): Fn<?x>"}', {"id": "b", "answer": "yes", "values": {"x": "(A,)"}}),
    ('{"id": 3, "crate": "a", "prove": "?x: Show"}', {"id": 3, "answer": "maybe", "values": {}}),
    ('{"id": 4, "crate": "base", "prove": "u8: Show"}', {"id": 4, "answer": "unproved"}),
    ('{"id": 5, "crate": "base", "refute": "u8: Show"}', {"id": 5, "answer": "no"}),
    ('{"id": 6, "crate": "a", "refute": "A: Show"}', {"id": 6, "answer": "open"}),
    ('{"id": 7, "crate": "a", "check": true}', {"id": 7, "answer": "accepted"}),
    ('{"id": 8, "crate": "a", "check": false}', {"id": 8, "error": ""}),
    ('{"id": 9, "crate": "b", "check": true}', {"id": 9, "error": ""}),
    ('{"id": 10, "crate": "a"}', {"id": 10, "error": ""}),
    ('{"id": 11, "crate": "a", "prove": "A: Show", "refute": "A: Show"}', {"id": 11, "error": ""}),
    ('{"id": 12, "crate": ["a"], "prove": "A: Show"}', {"id": 12, "error": ""}),
    ('{"id": 13, "crate": "a", "prove": 1}', {"id": 13, "error": ""}),
    ('{"id": 14, "crate": "a", "prove": "A: Show\\nA: Show"}', {"id": 14, "error": ""}),
    ('{"id": 15, "crate": "a", "prove": "\\ud800"}', {"id": 15, "error": ""}),
    ('{"crate": "a", "prove": "A: Show"}', {"id": None, "error": ""}),
    ("[1]", {"id": None, "error": ""}),
    ("", {"id": None, "error": ""}),
    ("[" * 100_000, {"id": None, "error": ""}),
    ('{"id": 16, "crate": "a", "prove": "A: Show"}', {"id": 16, "answer": "yes", "values": {}}),
    ('{"id": 17, "crate": "a", "prove": "fn(A): Fn<?x>, A: Show"}', {"id": 17, "answer": "yes", "values": {"x": "(A,)"}}),
    ('{"id": 18, "crate": "a", "refute": "A: Show, A: Clone"}', {"id": 18, "answer": "no"}),
]
# Wrong words, and a faulty text.
WRONG = (
    ("traits_of.py",), ("traits_of.py", "none.txt", "a", "A"), ("traits_of.py", "examples/unknown_name/input.txt", "base", "u8"),
    ("traits_of.py", "examples/a_first_text/input.txt", "b", "A"), ("traits_of.py", "examples/a_first_text/input.txt", "a", "<T> T"),
    ("traits_of.py", "examples/a_first_text/input.txt", "base", "A"), ("gate.py",), ("gate.py", "none.txt"), ("gate.py", "a", "b"),
    ("server.py",), ("server.py", "none.txt"), ("server.py", "examples/unknown_name/input.txt"),
)


def python(name: str, *words: str) -> list[Word]:
    return [sys.executable, "-B", PYTHON / name, *words]


def try_head(tally: Tally, name: str, env: Env) -> None:
    """The commands in the head of a client print what is below them."""
    head = (PYTHON / name).read_text(encoding="utf-8").split('"""')[1]
    runs = COMMAND.findall(head)
    tally.expect(f"{name}, its head", bool(runs), "it has no command")
    for command, shown in runs:
        words = re.sub(r"\bpython3 ", f"{shlex.quote(sys.executable)} -B ", command)
        ended = run(["sh", "-c", f"exec 2>&1; {words}"], env=env, cwd=TOP)
        tally.report(f"{name}: {command}", difference(ended.output, re.sub(r"^    ", "", shown, flags=re.M).encode()))


def try_gate(tally: Tally, it: Example, env: Env) -> None:
    refused = b"".join(REFUSED.findall(it.expected()))
    status = 2 if it.status else 1 if refused else 0
    ended = run(python("gate.py", str(it.folder / "input.txt")), env=env)
    tally.expect(f"gate.py: {it.name}", (ended.status, ended.output) == (status, refused), f"{ended}")


def try_server(tally: Tally, env: Env) -> None:
    """Each request is sent after the response to the last one."""
    words = python("server.py", str(example("a_first_text").folder / "input.txt"))
    env = {name: it for name, it in env.items() if name != "PYTHONUNBUFFERED"}
    with subprocess.Popen(words, stdin=subprocess.PIPE, stdout=subprocess.PIPE, env=env, text=True) as server:
        assert server.stdin and server.stdout
        waits = threading.Timer(30, server.kill)  # so that a response which does not come is a failure
        waits.start()
        for request, expected in SERVED:
            print(request, file=server.stdin, flush=True)
            found = json.loads(server.stdout.readline() or "{}")
            if found.get("error"):
                found["error"] = ""
            tally.expect(f"server.py: {request[:80]}", found == expected, f"{found}, and {expected} is expected")
        server.stdin.close()
        server.wait()
        waits.cancel()
    tally.expect("server.py, its end", server.returncode == 0, f"status {server.returncode}")


def try_python_clients(tally: Tally, env: Env) -> None:
    for name in ("traits_of.py", "gate.py", "server.py"):
        try_head(tally, name, env)
    for name in GATED:
        try_gate(tally, example(name), env)
    try_server(tally, env)
    for words in WRONG:
        ended = run(python(*words), env=env, cwd=TOP)
        is_refused = (ended.status, ended.output) == (2, b"") and ended.errors.count(b"\n") == 1
        tally.expect(f"a wrong call: {' '.join(words)}", is_refused, f"{ended}")
    ended = run(python("gate.py", str(example("a_first_text").folder / "input.txt")), env={**env, "CELTISDARTS_LIB": "none.so"})
    tally.expect("gate.py without a library", (ended.status, ended.output) == (2, b""), f"{ended}")


# ---- Rust


def try_block(tally: Tally, name: str, ended: Ended, status: int) -> None:
    """The run printed the block in the client's head."""
    block = BLOCK.search((RUST / f"examples/{name}.rs").read_text(encoding="utf-8"))
    shown = re.sub(r"^//! ", "", block[1], flags=re.M) if block else ""
    tally.expect(f"{name}, its status", ended.status == status, f"{ended}")
    tally.report(f"{name}, its head", difference(ended.output, shown.encode()))


def try_said(tally: Tally, toy: Toy, room: Path, checker: Path) -> None:
    file = room / "toy.txt"
    file.write_text(toy.text, encoding="utf-8")
    ended = run([checker, file])
    said = "".join(f"line {line}: {error}\n" for line, error in toy.notes("error")).encode()
    tally.report(f"type_checker: {toy.name}", difference(ended.output, said))
    tally.expect(f"type_checker: {toy.name}, its status", ended.status == bool(said), f"{ended}")


def try_rust_clients(tally: Tally, room: Path, built: Path) -> None:
    """The clients that cargo built in that folder."""
    lookups = run([built / "method_lookup"])
    try_block(tally, "method_lookup", lookups, 0)
    try_block(tally, "type_checker", run([built / "type_checker", "examples/toy/program.txt"], cwd=RUST), 1)
    for toy in toys():
        try_said(tally, toy, room, built / "type_checker")
    if not shutil.which("rustc"):
        print("tools/check bindings: there is no rustc, so the clients are not compared with it", file=sys.stderr)
        return
    rustc = Rustc(room)
    try_lookups(tally, rustc, (RUST / "examples/method_lookup.rs").read_text(encoding="utf-8"), lookups.output.decode())
    for toy in toys():
        try_toy(tally, rustc, toy)
