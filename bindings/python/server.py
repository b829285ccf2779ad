"""Answers requests over standard input and output, one a line: python3 server.py TEXT

A request is a JSON object: an `id` (an integer or a string), a `crate`, and one of `prove` and `refute` (bounds) and `check` (true). The
response has the same `id`, and the `answer` with its parts, or an `error`. `unproved` says that the crate sees no impl that gives a proof,
and `no` that no linked crate can add one. `maybe` and `open` are undecided. A session is kept for each crate, so later answers take less
time. After a faulty request the server goes on. It ends with its input. The status is 2 if the word or the text is wrong.

    $ echo '{"id": 1, "crate": "a", "prove": "fn(A): Fn<?x>"}' | python3 bindings/python/server.py examples/a_first_text/input.txt
    {"id": 1, "answer": "yes", "values": {"x": "(A,)"}}
    $ echo '{"id": 2, "crate": "a", "prove": "W: Show"}' | python3 bindings/python/server.py examples/a_first_text/input.txt
    {"id": 2, "error": "the question has fault 5: a name or a lifetime is not known"}
    $ echo '{"id": 3, "crate": "mine", "check": true}' | python3 bindings/python/server.py examples/a_blanket_impl_and_a_specific_one/input.txt
    {"id": 3, "answer": "overlap", "number": 4, "other_crate": "mine", "other_number": 2}
"""
from __future__ import annotations

import json
import signal
import sys
from dataclasses import asdict
from pathlib import Path
from typing import Any, Sequence

from celtisdarts import Answer, CeltisdartsError, Session, Workspace


def text_of(request: dict[str, Any], name: str) -> str:
    value = request.get(name)
    if not isinstance(value, str):
        raise ValueError(f"`{name}` is not a string")
    return value


class Server:
    """A text, with a session for each crate that was asked."""

    def __init__(self, workspace: Workspace) -> None:
        self.workspace = workspace
        self.sessions: dict[str, Session] = {}

    def session(self, name: str) -> Session:
        if name not in self.sessions:
            self.sessions[name] = self.workspace.session(name)
        return self.sessions[name]

    def answer(self, request: dict[str, Any]) -> Answer:
        session = self.session(text_of(request, "crate"))
        asked = [it for it in ("prove", "refute", "check") if it in request]
        if asked == ["prove"]:
            return session.prove(text_of(request, "prove"))
        if asked == ["refute"]:
            return session.refute(text_of(request, "refute"))
        if asked == ["check"] and request["check"] is True:
            return session.check_crate()
        raise ValueError('a request has one of "prove": BOUND, "refute": BOUND and "check": true')

    def response(self, line: bytes) -> dict[str, Any]:
        number = None
        try:
            request = json.loads(line)
            if not isinstance(request, dict) or not isinstance(request.get("id"), (int, str)):
                raise ValueError("a request is an object with an `id`, which is an integer or a string")
            number = request["id"]
            answer = self.answer(request)
        except (CeltisdartsError, RecursionError, ValueError) as error:
            return {"id": number, "error": str(error)}
        return {"id": number, "answer": type(answer).__name__.lower(), **asdict(answer)}


def main(words: Sequence[str]) -> int:
    if len(words) != 1:
        print("usage: server.py TEXT", file=sys.stderr)
        return 2
    try:
        server = Server(Workspace(Path(words[0]).read_bytes()))
    except (ImportError, OSError, CeltisdartsError) as error:
        print(f"server.py: {error}", file=sys.stderr)
        return 2
    signal.signal(signal.SIGPIPE, signal.SIG_DFL)  # ends when nobody reads
    for line in sys.stdin.buffer:
        print(json.dumps(server.response(line)), flush=True)
    return 0


if __name__ == "__main__":
    sys.exit(main(sys.argv[1:]))
