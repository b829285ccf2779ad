"""A service: each line of standard input is a request, and is answered by a line of standard output, both JSON.

    {"id": 1, "method": "ask", "params": {"question": "mine::Pool<u8>: Send"}}
    {"id": 1, "result": {"question": "mine::Pool<u8>: Send", "word": "yes", ...}}
    {"id": 2, "error": {"kind": "not understood", "message": "..."}}

The methods are those of `Project`, with its parameters by their names, and so are the fields of results. `id` is given back as it is; a request
without one gets null. After an error the next line is read. Answers are of what was last read: `reload` asks cargo whether that is still so, and a
request with `"fresh": true` does so first. Empty lines are skipped, and the end of the input ends the service.

| Kind of an error | When |
|---|---|
| `bad request` | the line is no JSON object, or has no such method or parameter |
| `not understood` | the query or type cannot be asked; the message says what to write |
| `no answer` | the project cannot be documented or read, or a mistake of this tool |
"""
from __future__ import annotations

import inspect
import json
import os
import sys
from dataclasses import fields, is_dataclass
from typing import Any, BinaryIO, Callable, TextIO

from .project import Project
from .read.terms import BadInput, Lossy

METHODS = ("ask", "ask_many", "conditions", "traits", "impls", "deref_chain", "later", "reload")
KINDS: dict[str, type] = {"str": str, "bool": bool, "Sequence[str]": list}


class BadRequest(Exception):
    """A line is no request, and why."""


def data(value: Any) -> Any:
    """A result as JSON has it."""
    if is_dataclass(value):
        return {its.name: data(getattr(value, its.name)) for its in fields(value)}
    if isinstance(value, (list, tuple)):
        return [data(part) for part in value]
    return {name: data(part) for name, part in value.items()} if isinstance(value, dict) else value


def call_of(request: Any, project: Project) -> Callable[[], Any]:
    """The call that a request asks for."""
    if not isinstance(request, dict):
        raise BadRequest("a request is an object with `id`, `method` and `params`")
    further = set(request) - {"id", "method", "params", "fresh"}
    method, params, fresh = request.get("method"), request.get("params", {}), request.get("fresh", False)
    if further:
        raise BadRequest(f"a request has no key `{min(further)}`")
    if method not in METHODS:
        raise BadRequest(f"the methods are {', '.join(METHODS)}")
    if not isinstance(params, dict) or not isinstance(fresh, bool):
        raise BadRequest("`params` is an object, and `fresh` true or false")
    found = getattr(project, method)
    known = inspect.signature(found).parameters
    for name, value in params.items():
        if name not in known:
            raise BadRequest(f"`{method}` takes {listed(list(known))}, and not `{name}`")
        wanted = KINDS[str(known[name].annotation)]
        if not isinstance(value, wanted) or isinstance(value, list) and not all(isinstance(part, str) for part in value):
            raise BadRequest(f"`{name}` is {'true or false' if wanted is bool else 'a string' if wanted is str else 'a list of strings'}")
    for name, one in known.items():
        if name not in params and one.default is inspect.Parameter.empty:
            raise BadRequest(f"`{method}` needs `{name}`")

    def call() -> Any:
        if fresh and method != "reload":
            project.reload()
        return found(**params)

    return call


def listed(names: list[str]) -> str:
    return " and ".join(f"`{name}`" for name in names) if names else "nothing"


def answered(line: bytes, project: Project) -> dict[str, Any]:
    """The response to a line."""
    number: Any = None
    try:
        try:
            request = json.loads(line.decode("utf-8"))
        except (ValueError, RecursionError) as error:
            raise BadRequest(f"this is no JSON: {error}")
        number = request.get("id") if isinstance(request, dict) else None
        return {"id": number, "result": data(call_of(request, project)())}
    except BadRequest as error:
        kind, message = "bad request", str(error)
    except (BadInput, Lossy) as error:
        kind, message = "not understood", str(error)
    except OSError as error:
        kind, message = "no answer", f"{error.filename or 'a file'}: {error.strerror or error}"
    except Exception as error:  # whatever it is, the next line is read
        if os.environ.get("FROM_RUSTDOC_TRACE"):
            raise
        kind, message = "no answer", f"a mistake of the translator: {type(error).__name__}: {' '.join(str(error).split())}"
    return {"id": number, "error": {"kind": kind, "message": message}}


def serve(project: Project, requests: BinaryIO, responses: TextIO) -> int:
    for line in requests:
        if line.strip():
            responses.write(json.dumps(answered(line, project)) + "\n")
            responses.flush()
    return 0


def main(project: Project) -> int:
    """Serves standard input. What else would print there goes to standard error."""
    responses, sys.stdout = sys.stdout, sys.stderr
    try:
        return serve(project, sys.stdin.buffer, responses)
    finally:
        sys.stdout = responses
