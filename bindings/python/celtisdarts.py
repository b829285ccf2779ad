"""Asks a proved trait solver and coherence checker in process.

    import celtisdarts

    workspace = celtisdarts.Workspace("crate base\\ntrait Show\\nimpl Show for u8\\n")
    session = workspace.session("base")
    print(session.check_crate(), session.prove("u8: Show"), session.prove("fn(u8): Fn<?x>"))    # accepted yes yes ?x = (u8,)

A text of crates is read once, as a `Workspace`, and then asked at run time, by a `Session` for a crate. `run` answers a whole text in one
call. The language of texts and the meaning of each answer stand in docs/FORMAT.md of the repository. A session's `infer` gives an `Infer`, a
context of inference variables and goals that have to hold together, as a type checker keeps one for each function.

An answer has no truth value, since `Unproved` and `Maybe` do not say that a reference does not hold: `if session.prove(..)` raises TypeError.
Compare answers, or write `isinstance(answer, Yes)` or `match`.

It loads a shared object: that which the variable CELTISDARTS_LIB names, or libceltisdarts.so beside this file, which a wheel has. In the
repository it is made of the archive of release/ by

    python3 celtisdarts.py --make [ARCHIVE [SHARED_OBJECT]]

which takes a C compiler under the name `cc`. The answers are proved, up to the functions that the library exports for C; what is here is
tested and not proved.
"""
from __future__ import annotations

import argparse
import ctypes
import enum
import functools
import itertools
import os
import subprocess
import sys
import threading
from concurrent.futures import ThreadPoolExecutor
from contextlib import contextmanager
from ctypes import POINTER, byref, c_char, c_char_p, c_size_t, c_uint32, c_uint64, c_void_p
from dataclasses import dataclass, field
from pathlib import Path
from types import TracebackType
from typing import Any, Callable, Iterable, Iterator, NoReturn, Optional, Sequence, Tuple, TypeVar, Union

__version__ = "0.1.0"

T = TypeVar("T")

HERE = Path(__file__).resolve().parent

# As rustc's recursion_limit.
DEFAULT_DEPTH = 128
# The stack that a level of a search takes at most, and that which a call takes beside, in bytes.
LEVEL, CALL = 3 << 10, 64 << 10
# The version of the library's calls.
ABI_VERSION = 2
# The stack of a thread that is kept for calls which the caller's is too small for, in bytes. At depth 255 a call takes some 0.7 MiB.
DEEP_STACK = 8 << 20
# How long a buffer for an answer is at first. A longer answer is asked for once more, in a longer one.
FIRST_ROOM = 1024

# ---- what is answered; each is printed as the program prints it


class WithoutTruthValue:
    """What is no condition: an answer of three kinds is compared."""

    def __bool__(self) -> NoReturn:
        raise TypeError(f"the answer `{self}` has no truth value: compare it, as by `isinstance(answer, {type(self).__name__})`")


@dataclass(frozen=True)
class Accepted(WithoutTruthValue):
    """Every header keeps the orphan rule, and no two impls that the crate brings together overlap."""

    def __str__(self) -> str:
        return "accepted"


@dataclass(frozen=True)
class Orphan(WithoutTruthValue):
    """The header of this impl of the crate breaks the orphan rule: a parameter comes before the first local type, or, where there is none,
    no type of it is local. Impls count from 1."""

    number: int
    param: Optional[str] = None
    before: Optional[str] = None

    def __str__(self) -> str:
        reason = "nonlocal" if self.param is None else f"uncovered {self.param}"
        return f"orphan impl {self.number} {reason}" + (f" before {self.before}" if self.before else "")


@dataclass(frozen=True)
class Overlap(WithoutTruthValue):
    """This impl of the crate and that one of another, or of the same, apply to one type."""

    number: int
    other_crate: str
    other_number: int

    def __str__(self) -> str:
        return f"overlap impl {self.number} with {self.other_crate} {self.other_number}"


@dataclass(frozen=True)
class WithValues(WithoutTruthValue):
    """What has values for variables, by their names; one without a value is not listed."""

    values: dict[str, str] = field(default_factory=dict)

    def __hash__(self) -> int:
        return hash((type(self), frozenset(self.values.items())))

    def __str__(self) -> str:
        values = ", ".join(f"?{variable} = {value}" for variable, value in self.values.items())
        return f"{type(self).__name__.lower()} {values}".rstrip()


class Yes(WithValues):
    """The reference has a proof, with these values for its variables."""


class Maybe(WithValues):
    """Whether it has a proof is not settled. These values are what is known of its variables: if the question has no parameters, each solution
    is an instance of them."""


@dataclass(frozen=True)
class Unproved(WithoutTruthValue):
    """No proof was found."""

    def __str__(self) -> str:
        return "unproved"


@dataclass(frozen=True)
class No(WithoutTruthValue):
    """No crate that may be linked can give the reference a proof."""

    def __str__(self) -> str:
        return "no"


@dataclass(frozen=True)
class Open(WithoutTruthValue):
    """Whether one can is not settled."""

    def __str__(self) -> str:
        return "open"


@dataclass(frozen=True)
class Compatible(WithoutTruthValue):
    """The impls of a section `later` may be added."""

    def __str__(self) -> str:
        return "compatible"


@dataclass(frozen=True)
class Breaking(WithoutTruthValue):
    """The impl of that number in the section is the first that may not."""

    number: int

    def __str__(self) -> str:
        return f"breaking impl {self.number}"


@dataclass(frozen=True)
class Held(WithoutTruthValue):
    """Each supertrait of the crate's impl headers has a proof."""

    def __str__(self) -> str:
        return "held"


@dataclass(frozen=True)
class Missing(WithoutTruthValue):
    """Of this supertrait of this impl's header no proof was found."""

    number: int
    clause: int

    def __str__(self) -> str:
        return f"missing impl {self.number} clause {self.clause}"


@dataclass(frozen=True)
class Undecided(WithoutTruthValue):
    """Of this supertrait of this impl's header that is not settled."""

    number: int
    clause: int

    def __str__(self) -> str:
        return f"undecided impl {self.number} clause {self.clause}"


Verdict = Union[Accepted, Orphan, Overlap]
ProveAnswer = Union[Yes, Maybe, Unproved]
RefuteAnswer = Union[No, Open]
LaterAnswer = Union[Compatible, Breaking]
SupersAnswer = Union[Held, Missing, Undecided]
Answer = Union[Verdict, ProveAnswer, RefuteAnswer, LaterAnswer, SupersAnswer]


@dataclass(frozen=True)
class Line:
    """A line of an output: its first word, `crate`, `later`, `supers`, `prove` or `refute`; the crate's name or the query's number, which
    counts from 1 over the text; and the answer."""

    topic: str
    of: str
    answer: Answer

    def __str__(self) -> str:
        return f"{self.topic} {self.of}: {self.answer}"


# ---- why there is no answer

FAULTS = (
    "a byte of 128 or more",
    "the line is not in the grammar",
    "an item before any crate line, or a struct or a trait in a section",
    "a declared name is taken",
    "a name or a lifetime is not known",
    "the crate does not see the item",
    "the name of another kind of item, or other arguments than the item takes",
    "a parameter of the impl is not in its header",
    "a trait's bounds use its own name",
    "an auto trait with parameters or bounds",
    "an impl of an auto trait for a type that is no struct of the crate",
    "an impl of a trait that only built-in rules give",
    "a variable outside the asked reference, or of two kinds",
    "parameters in a refute line",
    "a dyn whose bounds are not a principal trait, auto traits and a lifetime",
    "a limit is passed",
)


class CeltisdartsError(Exception):
    """Why a call has no answer. After it the value that was called can be called again."""


class TextFault(CeltisdartsError):
    """The text has a fault: in its first faulty line, counted from 1, the one with the smallest number, from 1 to 16."""

    def __init__(self, line: int, number: int) -> None:
        super().__init__(f"line {line}: fault {number}: {FAULTS[number - 1]}")
        self.line, self.number = line, number


class QuestionFault(CeltisdartsError):
    """The question has a fault, from 1 to 16."""

    def __init__(self, number: int) -> None:
        super().__init__(f"the question has fault {number}: {FAULTS[number - 1]}")
        self.number = number


class NotAQuery(CeltisdartsError):
    """The line asks nothing: it is a declaration, a check, a comment or empty. It has no fault, but of a trait or an impl with types that is
    not said."""


class SeveralLines(CeltisdartsError):
    """The question holds a line feed before its end."""


class TooLong(CeltisdartsError):
    """Text and question together are longer than a text may be, 67,108,864 bytes."""


class NoSuchCrate(CeltisdartsError):
    """The text declares no crate of that name."""


class OutOfMemory(CeltisdartsError):
    """A request for memory was refused, or no thread could be started."""


class TableFull(CeltisdartsError):
    """A table of terms, of goals or of answers was full."""


class NoSuchTerm(CeltisdartsError):
    """A rollback took this term, or this obligation, back."""


class NoSolution(CeltisdartsError):
    """No solution of all that was asked makes the terms equal."""


class NoSuchName(CeltisdartsError):
    """The crate sees no struct, or no trait, of that name."""


class WrongTerms(CeltisdartsError):
    """Other terms are taken: more, fewer, or of other kinds."""


# ---- the library's calls

DONE, FAULT, TOO_SHORT, NO_CRATE, NO_TERM = 0, 1, 5, 9, 12
REFUSALS: dict[int, tuple[type[CeltisdartsError], str]] = {
    3: (OutOfMemory, "out of memory"),
    4: (TableFull, "a table is full"),
    6: (NotAQuery, "the line asks nothing"),
    7: (SeveralLines, "the question is several lines"),
    8: (TooLong, "text and question are longer than 67,108,864 bytes"),
    9: (NoSuchCrate, "the text declares no such crate"),
    12: (NoSuchTerm, "a rollback took a term or an obligation back"),
    13: (NoSolution, "no solution of all that was asked makes the terms equal"),
    14: (NoSuchName, "the crate sees no struct or no trait of that name"),
    15: (WrongTerms, "other terms are taken: more, fewer, or of other kinds"),
}


def refusal(word: int) -> CeltisdartsError:
    """Why a call ended with this word, which is not that of a fault."""
    kind, message = REFUSALS[word]
    return kind(message)


class Handle(ctypes.Structure):
    """A place for a text, behind a pointer that the library made."""

    _fields_ = [("at", c_void_p)]


READ = c_char_p
NUMBERS = POINTER(c_uint32)  # that are read
WRITTEN = POINTER(c_char)
# As the library defines them, which a test of bindings/rust compares.
CALLS: dict[str, tuple[list[Any], Any]] = {
    "celtisdarts_run": ([READ, c_size_t, c_uint32, WRITTEN, c_size_t, POINTER(c_size_t)], c_uint32),
    "celtisdarts_new": ([POINTER(c_void_p)], c_uint32),
    "celtisdarts_close": ([Handle], None),
    "celtisdarts_read": ([POINTER(Handle), READ, c_size_t, c_uint32, POINTER(c_uint32), POINTER(c_uint32)], c_uint32),
    "celtisdarts_name": ([POINTER(Handle), c_uint32, WRITTEN, c_size_t, POINTER(c_size_t)], c_uint32),
    "celtisdarts_check": ([POINTER(Handle), c_uint32, WRITTEN, c_size_t, POINTER(c_size_t)], c_uint32),
    "celtisdarts_ask": ([POINTER(Handle), READ, c_size_t, WRITTEN, c_size_t, POINTER(c_size_t), POINTER(c_uint32)], c_uint32),
    "celtisdarts_infer_begin": ([POINTER(Handle), c_uint32], c_uint32),
    "celtisdarts_infer_end": ([POINTER(Handle)], c_uint32),
    "celtisdarts_infer": ([POINTER(Handle), c_uint32, READ, c_size_t, NUMBERS, c_size_t, c_uint64, POINTER(c_uint32)], c_uint32),
    "celtisdarts_infer_text": ([POINTER(Handle), c_uint32, WRITTEN, c_size_t, POINTER(c_size_t)], c_uint32),
}


class Operation(enum.IntEnum):
    """What `celtisdarts_infer` does with a context."""

    FRESH_TYPE = 1
    FRESH_CONST = 2
    TYPE = 3
    CONSTANT = 4
    LIFETIME = 5
    TUPLE = 6
    SLICE = 7
    ARRAY = 8
    REFERENCE = 9
    REFERENCE_MUT = 10
    POINTER = 11
    POINTER_MUT = 12
    FUNCTION = 13
    PARAM = 14
    CONST_PARAM = 15
    EQ = 20
    CAN_EQ = 21
    REGISTER = 22
    SELECT = 23
    STANDING = 24
    RESOLVE = 25
    SNAPSHOT = 26
    COMMIT = 27
    ROLL_BACK = 28
    ASSUME = 29


@functools.lru_cache(maxsize=None)
def library() -> ctypes.CDLL:
    """The shared object, loaded at the first call."""
    path = os.environ.get("CELTISDARTS_LIB") or str(HERE / "libceltisdarts.so")
    if not os.path.isfile(path):
        raise ImportError(f"there is no {path}: `python3 {HERE / 'celtisdarts.py'} --make` makes it, or CELTISDARTS_LIB names another")
    found = ctypes.CDLL(path)
    try:
        version = c_uint32.in_dll(found, "celtisdarts_abi_version").value
    except ValueError:
        version = 0
    if version != ABI_VERSION:
        raise ImportError(f"{path} has version {version} of the calls, and this module is for {ABI_VERSION}")
    for name, (params, result) in CALLS.items():
        call = getattr(found, name, None)
        if call is None:
            raise ImportError(f"{path} has no {name}: it is older than this module")
        call.argtypes, call.restype = params, result
    return found


def make(archive: Path, shared: Path) -> None:
    """Makes the shared object of the archive. It offers the library's calls alone, as that does."""
    words = ["cc", "-shared", "-o", str(shared), "-Wl,-z,defs,-z,relro,-z,now"]
    subprocess.run([*words, "-Wl,--whole-archive", str(archive), "-Wl,--no-whole-archive"], check=True)


Buffer = Any  # an array of c_char


class Room:
    """A buffer for what a call writes, which grows."""

    def __init__(self, size: int = FIRST_ROOM) -> None:
        self.buffer: Buffer = ctypes.create_string_buffer(size)

    def written(self, call: Callable[[Buffer, c_size_t, Any], int]) -> tuple[int, str]:
        """Makes a call that writes into the buffer; once more where it was too short, since a call that ends so changes nothing. Returns its
        word and what it wrote."""
        needed = c_size_t(0)
        word = call(self.buffer, c_size_t(len(self.buffer)), byref(needed))
        while word == TOO_SHORT:
            self.buffer = ctypes.create_string_buffer(needed.value)
            word = call(self.buffer, c_size_t(len(self.buffer)), byref(needed))
        return word, ctypes.string_at(self.buffer, needed.value).decode("ascii")


STACKS = threading.Lock()
KEPT = threading.local()


def stack_size() -> int:
    """How large this thread's stack is, in bytes; 0 where that is not known."""
    if not hasattr(KEPT, "stack"):
        libc = ctypes.CDLL(None)
        attributes, lowest, size = ctypes.create_string_buffer(64), c_void_p(), c_size_t(0)  # (pthread_attr_t has 56 bytes)
        if libc.pthread_getattr_np(c_void_p(threading.get_ident()), attributes) == 0:
            libc.pthread_attr_getstack(attributes, byref(lowest), byref(size))
            libc.pthread_attr_destroy(attributes)
        KEPT.stack = size.value
    return KEPT.stack  # type: ignore[no-any-return]


def deep_thread() -> ThreadPoolExecutor:
    """The thread with a large stack that makes the calls of this thread. It is kept, and ends with this one. (A fork has no thread of
    before.)"""
    if getattr(KEPT, "process", None) == os.getpid():
        return KEPT.deep  # type: ignore[no-any-return]
    deep = ThreadPoolExecutor(1, "celtisdarts")
    with STACKS:
        before = threading.stack_size(DEEP_STACK)
        try:
            deep.submit(int)  # starts it
        except RuntimeError as error:
            raise OutOfMemory("no thread could be started") from error
        finally:
            threading.stack_size(before)
    KEPT.deep, KEPT.process = deep, os.getpid()
    return deep


def on_stack(depth: int, call: Callable[[], T]) -> T:
    """Makes a call that searches to this depth, on a stack that is large enough: the caller's, if three quarters of that may be in use."""
    return call() if 4 * (depth * LEVEL + CALL) <= stack_size() else deep_thread().submit(call).result()


def to_bytes(text: Union[str, bytes]) -> bytes:
    # (A byte of 128 or more is a fault of the line, whatever it is.)
    if isinstance(text, str):
        return text.encode("utf-8", "surrogateescape")
    if isinstance(text, (bytes, bytearray, memoryview)):
        return bytes(text)
    raise TypeError(f"a text is str or bytes, and not {type(text).__name__}")


def to_line(line: Union[str, bytes]) -> bytes:
    """A line, without the line feed with which it may end."""
    found = to_bytes(line)
    return found[:-1] if found.endswith(b"\n") else found


def to_question(question: str) -> str:
    if not isinstance(question, str):
        raise TypeError(f"a question is str, and not {type(question).__name__}")
    return question


def as_depth(depth: int) -> int:
    if not isinstance(depth, int):
        raise TypeError(f"a depth is int, and not {type(depth).__name__}")
    if not 1 <= depth <= 255:
        raise ValueError(f"a depth is from 1 to 255, and not {depth}")
    return depth


# ---- lines that are read back


def numbers(text: str, words: Sequence[str]) -> list[int]:
    """The numbers of a text `WORD NUMBER WORD NUMBER ..` with these words."""
    found = text.split(" ")
    if found[::2] != list(words):
        raise ValueError(f"no line of answers: {text}")
    return [int(it) for it in found[1::2]]


def values(text: str) -> dict[str, str]:
    """Values, as `?x = V<u8, ?1>, ?y = fn(u8) -> u8`: the commas inside a type stand in its brackets."""
    parts, depth, begin = [], 0, 0
    for place, sign in enumerate(text):
        if sign in "<([":
            depth += 1
        elif sign in ")]" or sign == ">" and text[place - 1] != "-":
            depth -= 1
        elif sign == "," and depth == 0:
            parts.append(text[begin:place])
            begin = place + 2
    pairs = [it.partition(" = ") for it in [*parts, text[begin:]] if it]
    return {variable[1:]: value for variable, _, value in pairs}


PLAIN: dict[str, Answer] = {str(it): it for it in (Accepted(), Unproved(), No(), Open(), Compatible(), Held())}


def read_answer(text: str) -> Answer:
    word, _, rest = text.partition(" ")
    if text in PLAIN:
        return PLAIN[text]
    if word in ("yes", "maybe"):
        return {"yes": Yes, "maybe": Maybe}[word](values(rest))
    if word == "orphan":
        _, number, reason = rest.split(" ", 2)
        param, _, before = reason.partition(" ")[2].partition(" before ")
        return Orphan(int(number), param or None, before or None)
    if word == "overlap":
        head, _, other = rest.partition(" with ")
        name, _, other_number = other.partition(" ")
        return Overlap(numbers(head, ["impl"])[0], name, int(other_number))
    if word == "breaking":
        return Breaking(numbers(rest, ["impl"])[0])
    number, clause = numbers(rest, ["impl", "clause"])
    return {"missing": Missing, "undecided": Undecided}[word](number, clause)


def read_line(text: str) -> Line:
    head, _, answer = text.rstrip("\n").partition(": ")
    topic, _, of = head.partition(" ")
    return Line(topic, of, read_answer(answer))


# ---- whole texts


@dataclass(frozen=True)
class Output:
    """All that a text is told: the lines as they were written, each with its end."""

    text: str

    def lines(self) -> Iterator[Line]:
        """The lines in their order: of each crate, then of each line `later` or `supers`, and then of each query."""
        return map(read_line, self.text.splitlines())


def run(text: Union[str, bytes], depth: int = DEFAULT_DEPTH) -> Output:
    """Judges all crates of a text and answers all its queries, to this depth.

    Raises TextFault, OutOfMemory, TableFull, and ValueError where the depth is not from 1 to 255.
    """
    source, limit = to_bytes(text), as_depth(depth)
    # A guess, so that a second call is rare: a line of answers for each line.
    room = Room(64 * (source.count(b"\n") + 1))
    word, written = on_stack(limit, lambda: room.written(lambda at, size, needed: library().celtisdarts_run(source, len(source), limit, at, size, needed)))
    if word == FAULT:
        line, _, number = written.rstrip("\n")[len("line "):].partition(": fault ")
        raise TextFault(int(line), int(number))
    if word != DONE:
        raise refusal(word)
    return Output(written)


# ---- texts that are asked


class Asker:
    """A text that the library has read, to be asked by one call at a time. It cannot be copied, since it closes its handle once."""

    def __init__(self, text: bytes, depth: int) -> None:
        self.handle, self.depth, self.room, self.lock = Handle(), depth, Room(), threading.Lock()
        at = c_void_p()
        word = library().celtisdarts_new(byref(at))
        if word != DONE:
            raise refusal(word)
        self.handle.at = at.value
        line, number = c_uint32(0), c_uint32(0)
        word = library().celtisdarts_read(self.handle, text, len(text), depth, byref(line), byref(number))
        if word == FAULT:
            raise TextFault(line.value, number.value)
        if word != DONE:
            raise refusal(word)

    def alone(self, call: Callable[[], T]) -> T:
        """Makes a call. (It lets other threads run: the lock keeps these from the handle. It is the calling thread's, so that it stays where
        who waits for that one is interrupted.)"""

        def locked() -> T:
            with self.lock:
                if not self.handle.at:
                    raise ValueError("the text is closed")
                return call()

        return on_stack(self.depth, locked)

    def call(self, call: Callable[[Buffer, c_size_t, Any], int]) -> tuple[int, str]:
        """Makes a call that writes."""
        return self.alone(lambda: self.room.written(call))

    def name(self, number: int) -> Optional[str]:
        word, name = self.call(lambda at, size, needed: library().celtisdarts_name(self.handle, number, at, size, needed))
        if word == NO_CRATE:
            return None
        if word != DONE:
            raise refusal(word)
        return name

    def names(self) -> Iterator[str]:
        """The names of all crates, that of `core` first."""
        for number in itertools.count():
            name = self.name(number)
            if name is None:
                return
            yield name

    def check(self, number: int) -> str:
        word, line = self.call(lambda at, size, needed: library().celtisdarts_check(self.handle, number, at, size, needed))
        if word != DONE:
            raise refusal(word)
        return line

    def ask(self, line: bytes) -> str:
        fault = c_uint32(0)
        word, answer = self.call(lambda at, size, needed: library().celtisdarts_ask(self.handle, line, len(line), at, size, needed, byref(fault)))
        if word == FAULT:
            raise QuestionFault(fault.value)
        if word != DONE:
            raise refusal(word)
        return answer

    def close(self) -> None:
        """Lets the text go. Nothing can be asked behind it, and it may be called again."""
        with self.lock:
            handle, self.handle = self.handle, Handle()
            if handle.at:
                library().celtisdarts_close(handle)

    def __del__(self) -> None:
        if hasattr(self, "lock"):
            self.close()

    def __reduce__(self) -> NoReturn:
        raise TypeError("what was read cannot be copied")


# Of so many crates a reading keeps what was found, if these are also no more than as often the text's length as makes so many bytes.
KEPT_CRATES = 16
KEPT_BYTES = 4 << 20


Reading = Tuple[Asker, "set[int]"]


class Readings:
    """A text that is read once more only for calls that are made at once, or for more crates than one reading keeps. There are at most as many
    readings as sessions, calls and contexts at once, and one."""

    def __init__(self, text: bytes, depth: int) -> None:
        self.text, self.depth, self.lock, self.sessions = text, depth, threading.Lock(), 0
        self.most = min(max(1, KEPT_BYTES // max(1, len(text))), KEPT_CRATES)
        # Those that no call uses now, the latest last, each with the crates in which it was asked.
        self.idle: list[Reading] = [(Asker(text, depth), set())]

    def found(self, number: int) -> Optional[Reading]:
        """An idle reading for a crate: one that was asked in it, one that keeps a further crate, or the oldest if there are enough for all
        sessions."""
        with self.lock:
            for is_right in (lambda crates: number in crates, lambda crates: len(crates) < self.most):
                for place, (_, crates) in reversed(list(enumerate(self.idle))):
                    if is_right(crates):
                        return self.idle.pop(place)
            if self.idle and len(self.idle) * self.most >= self.sessions:
                return self.idle.pop(0)[0], set()
        return None

    def take(self, number: int) -> Reading:
        """A reading for a crate that nothing else uses until it is given back."""
        asker, crates = self.found(number) or (Asker(self.text, self.depth), set())
        crates.add(number)
        return asker, crates

    def give_back(self, reading: Reading) -> None:
        # (Without the lock, which the thread may hold that collects a context. An append is one step, and moves no other reading.)
        self.idle.append(reading)

    def ask(self, number: int, call: Callable[[Asker], T]) -> T:
        """Makes a call about a crate with a reading that no other call uses, and keeps that for later ones."""
        reading = self.take(number)
        try:
            return call(reading[0])
        finally:
            self.give_back(reading)

    def enter(self) -> None:
        with self.lock:
            self.sessions += 1

    def leave(self) -> None:
        """Notes that a session is closed: no more readings stay than there are sessions, and one."""
        with self.lock:
            self.sessions -= 1
            excess = max(0, len(self.idle) - max(1, self.sessions))
            del self.idle[:excess]


class Workspace:
    """A text of crates that was read, to be asked to a depth from 1 to 255. Its sessions share what was read and found, which goes with the last
    of them and the workspace.

    Raises TextFault, with the text's first faulty line, OutOfMemory, and ValueError where the depth is another. A call runs on the caller's
    thread if the stack of that is large enough, 1.8 MiB at depth 128. Else it runs on another thread, with 8 MiB, of which each thread that
    needs it keeps one.
    """

    def __init__(self, text: Union[str, bytes], depth: int = DEFAULT_DEPTH) -> None:
        self.text, self.depth = to_bytes(text), as_depth(depth)
        self.readings = Readings(self.text, self.depth)
        self.all_crates: list[str] = self.readings.ask(0, lambda asker: list(asker.names()))

    @property
    def crates(self) -> list[str]:
        """The names of the crates that the text declares, in their order; `core`, which each text has, is not among them."""
        return self.all_crates[1:]

    def session(self, name: str) -> Session:
        """A session for a crate of the text, or for `core`. Nothing is read for it. Raises NoSuchCrate."""
        if not isinstance(name, str):
            raise TypeError(f"the name of a crate is str, and not {type(name).__name__}")
        if name not in self.all_crates:
            raise refusal(NO_CRATE)
        return Session(self, name)


class Session:
    """Asks in one crate of a text. What the crate sees, and what searches have found, is kept for later calls, also for those of the workspace's
    other sessions.

    A reading of the text keeps it for 16 crates, or for as many as 4 MiB hold the text, while the searches have started at most 65,536 frames, one
    for each goal that was new; 64 bytes of a question count as a frame. Then it is dropped, and the next call lowers again what the crate sees. So
    it is after OutOfMemory and TableFull.

    After any call, one that raised an error too, it can be asked again, and answers as before. Threads may share it, and calls of several
    threads are made side by side. `close`, or the end of a `with` block, ends it; a call behind that raises ValueError. A copy of it is another
    session of the workspace.
    """

    def __init__(self, workspace: Workspace, name: str) -> None:
        self.crate_name = name
        self.number = workspace.all_crates.index(name)
        self.readings: Optional[Readings] = workspace.readings
        workspace.readings.enter()

    def close(self) -> None:
        """Ends the session. Nothing can be asked behind it, and it may be called again."""
        readings, self.readings = self.readings, None
        if readings:
            readings.leave()

    def __del__(self) -> None:
        if hasattr(self, "readings"):
            self.close()

    def __copy__(self) -> Session:
        other = Session.__new__(Session)
        other.__dict__.update(self.__dict__)
        if other.readings:
            other.readings.enter()
        return other

    def __reduce__(self) -> NoReturn:
        raise TypeError("what was read cannot be written: make another session of the workspace")

    def __enter__(self) -> Session:
        return self

    def __exit__(self, kind: Optional[type[BaseException]], error: Optional[BaseException], trace: Optional[TracebackType]) -> None:
        self.close()

    def opened(self) -> Readings:
        readings = self.readings
        if not readings:
            raise ValueError("the session is closed")
        return readings

    def asked(self, call: Callable[[Asker], str]) -> str:
        return self.opened().ask(self.number, call)

    def check_crate(self) -> Verdict:
        """Whether the crate is coherent with those that it uses. Raises OutOfMemory and TableFull."""
        return read_line(self.asked(lambda asker: asker.check(self.number))).answer  # type: ignore[return-value]

    def prove(self, question: str) -> ProveAnswer:
        """Whether a reference has a proof by the rules that the crate sees.

        The question is what stands behind `prove in NAME` in a text: `[params] type: bound, .. [where]`, with a line feed at its end or none.
        Raises QuestionFault, SeveralLines, TooLong, OutOfMemory and TableFull.
        """
        return self.ask(f"prove in {self.crate_name} {to_question(question)}")  # type: ignore[return-value]

    def refute(self, question: str) -> RefuteAnswer:
        """Whether no crate that may be linked with this one can give a reference a proof. The question is what stands behind `refute in
        NAME` in a text: `type: bound, ..`. Raises what `prove` raises."""
        return self.ask(f"refute in {self.crate_name} {to_question(question)}")  # type: ignore[return-value]

    def ask(self, line: Union[str, bytes]) -> Union[ProveAnswer, RefuteAnswer]:
        """The answer to a whole query line, which may ask in another crate of the text: what the program `celtisdarts` answers last to the
        text with this line behind it. Raises what `prove` raises, and NotAQuery."""
        asked = to_line(line)
        return read_line(self.asked(lambda asker: asker.ask(asked))).answer  # type: ignore[return-value]

    def infer(self) -> Infer:
        """An inference context of the crate, without variables and goals. It takes a reading of the text for itself until it is closed, and
        stays usable when the session is closed. Raises OutOfMemory and TableFull."""
        return Infer(self.opened(), self.number, self.crate_name)


# ---- inference


@dataclass(frozen=True)
class Numbered:
    """What a context has by number. Two are equal if one call gave them. It keeps its context."""

    context: Infer = field(repr=False)
    number: int
    # Which of all that the context gave it is.
    serial: int = field(repr=False)


@dataclass(frozen=True)
class Term(Numbered):
    """A type, a constant or a lifetime of an inference context, printed as that displays it. Terms of several calls are not equal, also where
    they stand for one type: `Infer.eq` and `Infer.can_eq` are about types."""

    def __str__(self) -> str:
        return self.context.display(self)


@dataclass(frozen=True)
class Obligation(Numbered):
    """A goal that was registered with an inference context."""


N = TypeVar("N", bound=Numbered)


@dataclass(frozen=True)
class AllDone(WithoutTruthValue):
    """Each obligation is done."""

    def __str__(self) -> str:
        return "all done"


@dataclass(frozen=True)
class Pending(WithoutTruthValue):
    """Some obligation is pending, and selecting once more fixes nothing new."""

    def __str__(self) -> str:
        return "pending"


@dataclass(frozen=True)
class Refused(WithoutTruthValue):
    """This obligation was refused: there is no solution of all that was asked."""

    obligation: Obligation

    def __str__(self) -> str:
        return f"refused {self.obligation.number}"


Selected = Union[AllDone, Pending, Refused]


class Standing(enum.Enum):
    """How an obligation stands. Only `TOO_DEEP` says that a limit was reached."""

    # It has a proof by what the crate sees, at each solution that is left.
    DONE = 0
    # It is pending: more values may decide it, or it was not selected yet.
    AMBIGUOUS = 1
    # It is pending, since the search reached a limit.
    TOO_DEEP = 2
    # It has no proof at any solution.
    REFUSED = 3

    def __bool__(self) -> NoReturn:
        raise TypeError(f"the standing {self.name} has no truth value: compare it, as by `is Standing.DONE`")


def to_name(name: str) -> bytes:
    if not isinstance(name, str):
        raise TypeError(f"a name is str, and not {type(name).__name__}")
    return to_bytes(name)


def as_number(what: str, number: int, bits: int) -> int:
    if not isinstance(number, int):
        raise TypeError(f"{what} is int, and not {type(number).__name__}")
    if not 0 <= number < 1 << bits:
        raise ValueError(f"{what} is from 0 to {(1 << bits) - 1}, and not {number}")
    return number


def as_mutable(mutable: bool) -> bool:
    if not isinstance(mutable, bool):
        raise TypeError(f"`mutable` is bool, and not {type(mutable).__name__}")
    return mutable


class Infer:
    """An inference context of one crate of a text: variables with their values, and goals that have to hold together.

    A type checker makes a variable for each type that it does not know, makes types equal, registers the bounds that have to hold, selects them,
    and resolves the variables:

        with session.infer() as context:
            unknown = context.fresh_ty()
            context.register("Into", context.ty("Str"), unknown)
            print(context.select_where_possible(), context.resolve(unknown))

    No solution of all that was asked is lost, and what is done has a proof by what the crate sees at each solution that is left. `NoSolution`, a
    refused obligation and a `can_eq` that is false say that there is no solution.

    For the body of a generic function `param` gives its parameters, and `assume` takes its bounds. What is done has a proof under what was assumed
    before it was registered. While something was registered under assumptions, or with parameters in it, nothing is promised of what says that
    there is no solution.

    Terms and obligations are of the context that gave them: those of another raise ValueError. What a rollback took back raises NoSuchTerm, also
    where the library has given its number anew. Lifetimes are not told apart.

    It has a reading of the text for itself, so it changes no answer of the session. `close`, the end of a `with` block, or that it is collected,
    ends it and gives the reading to later calls, with what was found. A call behind that raises ValueError. Each call may raise OutOfMemory and
    TableFull, and after any error the context is as before, but for what a search had found. Threads may share it, and its calls are made one
    after the other. Snapshots are of the context and not of a thread, so a rollback takes back what all threads did. It cannot be copied.
    """

    def __init__(self, readings: Readings, number: int, crate_name: str) -> None:
        self.crate_name, self.readings = crate_name, readings
        # By kind and number: which has the number now. A rollback takes numbers back. Until the library gives them anew, it refuses them itself.
        self.latest: dict[tuple[type[Numbered], int], int] = {}
        self.serials, self.snapshots = itertools.count(), 0
        self.reading: Optional[Reading] = None
        reading = readings.take(number)
        try:
            self.begin(reading[0], number)
            self.reading = reading
        finally:
            if not self.reading:
                readings.give_back(reading)

    def begin(self, asker: Asker, number: int) -> None:
        word = asker.alone(lambda: library().celtisdarts_infer_begin(asker.handle, number))
        if word != DONE:
            raise refusal(word)

    def close(self) -> None:
        """Ends the context. Nothing can be asked behind it, and it may be called again."""
        reading = self.reading
        if reading and self.ended(reading[0]):
            self.readings.give_back(reading)

    def ended(self, asker: Asker) -> bool:
        """Ends the context, once. Whether its reading can be used further. (On the caller's thread, as whatever is let go.)"""
        with asker.lock:
            is_open, self.reading = self.reading is not None, None
            return is_open and library().celtisdarts_infer_end(asker.handle) == DONE

    def __del__(self) -> None:
        if hasattr(self, "reading"):
            self.close()

    def __reduce__(self) -> NoReturn:
        raise TypeError("an inference context cannot be copied: make another one of the session")

    def __enter__(self) -> Infer:
        return self

    def __exit__(self, kind: Optional[type[BaseException]], error: Optional[BaseException], trace: Optional[TracebackType]) -> None:
        self.close()

    def alone(self, call: Callable[[Asker], T]) -> T:
        """Makes a call while no other one is made."""
        reading = self.reading
        if not reading:
            raise ValueError("the context is closed")
        asker = reading[0]

        def checked() -> T:
            if not self.reading:  # closed by another thread
                raise ValueError("the context is closed")
            return call(asker)

        return asker.alone(checked)

    def own(self, kind: type[N], it: N) -> N:
        if not isinstance(it, kind):
            raise TypeError(f"an argument is {kind.__name__}, and not {type(it).__name__}")
        if it.context is not self:
            raise ValueError(f"the {kind.__name__.lower()} is of another context")
        return it

    def known(self, it: Numbered) -> int:
        """The number of what has it still."""
        if self.latest.get((type(it), it.number)) != it.serial:
            raise refusal(NO_TERM)
        return it.number

    def new(self, kind: type[N], number: int) -> N:
        serial = self.latest[kind, number] = next(self.serials)
        return kind(self, number, serial)

    def new_term(self, number: int) -> Term:
        return self.new(Term, number)

    def operate(self, operation: Operation, note: Callable[[int], T], terms: Sequence[Term] = (), name: bytes = b"", number: int = 0) -> T:
        """Makes an operation, and returns what is noted of that which it gives."""
        taken = [self.own(Term, it) for it in terms]
        return self.alone(lambda asker: self.operated(asker, operation, note, [self.known(it) for it in taken], name, number))

    def operated(
        self, asker: Asker, operation: Operation, note: Callable[[int], T], terms: Sequence[int] = (), name: bytes = b"", number: int = 0
    ) -> T:
        numbers, given = (c_uint32 * len(terms))(*terms), c_uint32(0)
        word = library().celtisdarts_infer(asker.handle, operation, name, len(name), numbers, len(terms), number, byref(given))
        if word != DONE:
            raise refusal(word)
        return note(given.value)

    def fresh_ty(self) -> Term:
        """A new type variable."""
        return self.operate(Operation.FRESH_TYPE, self.new_term)

    def fresh_const(self) -> Term:
        """A new constant variable."""
        return self.operate(Operation.FRESH_CONST, self.new_term)

    def param(self, number: int) -> Term:
        """The type parameter of this number, as the `T` in the body of `fn f<T>(..)`: nothing is known of it but what is assumed. Equal numbers give
        equal types, and others types that are never equal. Raises ValueError where the number has more than 32 bits or is negative."""
        return self.operate(Operation.PARAM, self.new_term, number=as_number("a parameter", number, 32))

    def const_param(self, number: int) -> Term:
        """The constant parameter of this number, as the `N` in the body of `fn f<const N: usize>(..)`. Raises what `param` does."""
        return self.operate(Operation.CONST_PARAM, self.new_term, number=as_number("a parameter", number, 32))

    def ty(self, name: str, *args: Term) -> Term:
        """A type by its name: a struct that the crate sees, with its arguments, or a type without parts, as `u8`, `str` and `!`. Raises NoSuchName
        and WrongTerms."""
        return self.operate(Operation.TYPE, self.new_term, args, to_name(name))

    def constant(self, number: int) -> Term:
        """A constant. Raises ValueError where that has more than 64 bits or is negative."""
        return self.operate(Operation.CONSTANT, self.new_term, number=as_number("a constant", number, 64))

    def lifetime(self) -> Term:
        """The lifetime `'static`, for arguments that are lifetimes."""
        return self.operate(Operation.LIFETIME, self.new_term)

    def tuple(self, *types: Term) -> Term:
        """The tuple of these types. Raises WrongTerms."""
        return self.operate(Operation.TUPLE, self.new_term, types)

    def slice(self, ty: Term) -> Term:
        """The type `[T]`. Raises WrongTerms."""
        return self.operate(Operation.SLICE, self.new_term, [ty])

    def array(self, ty: Term, constant: Term) -> Term:
        """The type `[T; N]`. Raises WrongTerms."""
        return self.operate(Operation.ARRAY, self.new_term, [ty, constant])

    def reference(self, ty: Term, mutable: bool = False) -> Term:
        """The type `&T`, or `&mut T`. Raises WrongTerms."""
        return self.operate(Operation.REFERENCE_MUT if as_mutable(mutable) else Operation.REFERENCE, self.new_term, [ty])

    def pointer(self, ty: Term, mutable: bool = False) -> Term:
        """The type `*const T`, or `*mut T`. Raises WrongTerms."""
        return self.operate(Operation.POINTER_MUT if as_mutable(mutable) else Operation.POINTER, self.new_term, [ty])

    def function(self, inputs: Iterable[Term], output: Term) -> Term:
        """The type `fn(A, B) -> C`. Raises WrongTerms."""
        return self.operate(Operation.FUNCTION, self.new_term, [*inputs, output])

    def eq(self, left: Term, right: Term) -> None:
        """Makes two terms equal. Raises NoSolution if no solution of all that was asked does."""
        self.operate(Operation.EQ, int, [left, right])

    def can_eq(self, left: Term, right: Term) -> bool:
        """Whether two terms can be equal, by the values of variables that are known. No goal is selected, and nothing changes."""
        return self.operate(Operation.CAN_EQ, bool, [left, right])

    def register(self, trait: str, *args: Term) -> Obligation:
        """Registers the goal that these terms implement this trait, the self type first. Nothing is evaluated yet. Raises NoSuchName and
        WrongTerms."""
        return self.operate(Operation.REGISTER, lambda number: self.new(Obligation, number), args, to_name(trait))

    def register_projection(self, trait: str, *args: Term, item: str, value: Term) -> Obligation:
        """Registers that a type of this trait is this one: `T: Stream<Item = U>` is `register_projection("Stream", t, item="Item", value=u)`. It
        holds where the bound itself holds and the value is that of the impl or of what is assumed, so that a variable takes its value from there.
        Raises NoSuchName, also where the trait has no such type, and WrongTerms."""
        companion, with_value = self.projection(trait, args, item, value)
        return self.register(companion, *with_value)

    def assume(self, trait: str, *args: Term) -> None:
        """Assumes that these terms implement this trait, the self type first: a bound of the generic function whose types are inferred. What is
        registered from now on has to hold under that and the trait's supertraits, and may take values from it. What was registered before does not get
        it. `Sized` is never implicit. A rollback takes it back. Raises NoSuchName and WrongTerms."""
        self.operate(Operation.ASSUME, int, args, to_name(trait))

    def assume_projection(self, trait: str, *args: Term, item: str, value: Term) -> None:
        """Assumes that these terms implement this trait, and that a type of it is this one, as `assume` does. Raises NoSuchName, also where the
        trait has no such type, and WrongTerms. Then nothing is assumed."""
        companion, with_value = self.projection(trait, args, item, value)
        self.start_snapshot()
        try:
            self.assume(trait, *args)
            self.assume(companion, *with_value)
        except Exception:
            self.roll_back()
            raise
        self.commit()

    def projection(self, trait: str, args: Sequence[Term], item: str, value: Term) -> Tuple[str, List[Term]]:
        """The trait that says of a type of this trait what it is, with its arguments: behind the others the type, in a struct of `core`."""
        for name in (trait, item):
            to_name(name)
        return f"{trait}::{item}", [*args, self.ty("::W", value)]

    def select_where_possible(self) -> Selected:
        """Selects the registered goals, until that fixes nothing new. What answers fix stays."""
        selected = self.operate(Operation.SELECT, self.selected)
        assert selected is not None  # without a bound
        return selected

    def select_within(self, nested_goals: int) -> Optional[Selected]:
        """Selects as `select_where_possible` does, and stops before the next evaluation once so many nested goals were started. None is that it
        stopped: what was found stays, and another call goes on. An evaluation is not cut short, and at least one is made: 0 is taken as 1. The
        other call looks at the pending bounds again; where results are kept no goals start, and a number below what the others start gets no
        further. Raises ValueError where the number has more than 64 bits or is negative.

            while (selected := context.select_within(1000)) is None:
                ..  # the caller may end the loop
        """
        return self.operate(Operation.SELECT, self.selected, number=max(1, as_number("a bound", nested_goals, 64)))

    def selected(self, given: int) -> Optional[Selected]:
        if given < 2:
            return Pending() if given else AllDone()
        return None if given == 2 else Refused(Obligation(self, given - 3, self.latest[Obligation, given - 3]))

    def standing(self, obligation: Obligation) -> Standing:
        """How an obligation stands since it was selected last."""
        asked = self.own(Obligation, obligation)
        return self.alone(lambda asker: self.operated(asker, Operation.STANDING, Standing, number=self.known(asked)))

    def resolve(self, term: Term) -> Term:
        """The term with the values that are known: each variable with a value is replaced by it."""
        return self.operate(Operation.RESOLVE, self.new_term, [term])

    def display(self, term: Term) -> str:
        """A term as the language writes it. A type variable without a value is `?0t`, and a constant variable `?0c`: by their numbers. A
        type parameter is `!0t`, and a constant parameter `!0c`."""
        shown = self.own(Term, term)

        def call(asker: Asker) -> str:
            number = self.known(shown)
            word, text = asker.room.written(lambda at, size, needed: library().celtisdarts_infer_text(asker.handle, number, at, size, needed))
            if word != DONE:
                raise refusal(word)
            return text

        return self.alone(call)

    def start_snapshot(self) -> None:
        """Opens a snapshot, behind those that are open."""
        self.operate(Operation.SNAPSHOT, lambda _: self.count_snapshots(1))

    def commit(self) -> bool:
        """Ends the snapshot that was opened last, and keeps what was done since. Whether one was open."""
        return self.operate(Operation.COMMIT, lambda given: self.count_snapshots(-given))

    def roll_back(self) -> bool:
        """Restores the context as it was at the snapshot that was opened last, and ends that. Terms and obligations that were given since are
        taken back. Whether a snapshot was open."""
        return self.operate(Operation.ROLL_BACK, lambda given: self.count_snapshots(-given))

    def count_snapshots(self, more: int) -> bool:
        """Counts the snapshots that are open. Whether their number is another now."""
        self.snapshots += more
        return more != 0

    @contextmanager
    def probe(self) -> Iterator[None]:
        """Opens a snapshot for a `with` block, and rolls back to it at the block's end, also over snapshots that the block leaves open."""
        before = self.snapshots
        self.start_snapshot()
        try:
            yield
        finally:
            while self.reading and self.snapshots > before:
                self.roll_back()


def main(words: Sequence[str]) -> None:
    reader = argparse.ArgumentParser(description="Makes the shared object that this module loads.")
    reader.add_argument("--make", action="store_true", required=True)
    reader.add_argument("archive", nargs="?", type=Path, default=HERE.parents[1] / "release/libceltisdarts.a")
    reader.add_argument("shared", nargs="?", type=Path, default=HERE / "libceltisdarts.so")
    given = reader.parse_args(words)
    make(given.archive, given.shared)


if __name__ == "__main__":
    main(sys.argv[1:])
