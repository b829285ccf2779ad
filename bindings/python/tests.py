"""What celtisdarts.py answers: python3 -m unittest tests, here. It needs the shared object, or CELTISDARTS_LIB.

CELTISDARTS_TEXTS may name a folder of further texts, `*.txt`, whose queries are asked too.
"""
from __future__ import annotations

import copy
import gc
import os
import pickle
import re
import subprocess
import sys
import threading
import unittest
from pathlib import Path
from typing import Any, Callable, Iterator, NamedTuple, Optional, Sequence

import celtisdarts
from celtisdarts import (Accepted, AllDone, Asker, Breaking, CeltisdartsError, Compatible, Held, Infer, Maybe, Missing, No, NoSolution, NoSuchCrate,
                         NoSuchName, NoSuchTerm, NotAQuery, Obligation, Open, Orphan, Overlap, Pending, QuestionFault, Refused, Session, SeveralLines,
                         Standing, Term, TextFault, TooLong, Undecided, Unproved, Workspace, WrongTerms, Yes)

TOP = Path(__file__).resolve().parents[2]
# Its search goes down to the depth limit at whatever depth, by the largest frames that were found.
DEEPEST = (TOP / "bindings/rust/tests/texts/deepest.txt").read_text()
TEXT = "crate base\ntrait Show\nimpl Show for u8\ncrate a uses base\nstruct V<T>(T)\nimpl<T> Show for V<T> where T: Show\n"
# What a `Str` is converted to has elements.
CONVERTED = """\
crate base
trait Into<T>
trait Push<T>
trait Show
struct Str
struct V<T>
struct A<T, const N>
impl<T> Into<V<T>> for Str
impl<T> Push<T> for V<T>
impl Show for u8
impl Show for bool
crate a uses base
struct R<'a, T>(&'a T)
struct G<T>
trait Grow
impl<T> Grow for T where G<T>: Grow
"""
# What generic functions ask for.
GENERIC = """\
crate a
struct Str
struct V<T>(*const T)
trait Eq
trait Ord: Eq
trait Other
trait Into<T>
trait Push<T>
impl<T> Eq for V<T> where T: Eq
impl<T, const N> Eq for [T; N] where T: Eq
impl Eq for u8
impl<T> Into<V<T>> for Str where T: Ord
impl<T> Push<T> for V<T>
trait One
impl One for V<u8>
trait Loop
impl<T> Loop for T where V<T>: Loop
"""
# A trait with a type, which an impl gives and generic functions ask for.
STREAMS = """\
crate a
struct V<T>(*const T)
struct Take<I>(I)
trait Show
impl Show for u8
trait Stream { type Item; }
impl<T> Stream for V<T> { type Item = T; }
impl<T> Stream for Take<V<T>> where V<T>: Stream<Item = T> { type Item = T; }
"""
QUERY = re.compile(rb" *(?:prove|refute) +in +(\w+)")


class Text(NamedTuple):
    name: str
    text: bytes
    depths: list[int]
    expected: Optional[str]


def texts() -> Iterator[Text]:
    """Those of examples/, with the outputs that were worked out by hand; and further ones, without."""
    for folder in sorted(it for it in (TOP / "examples").iterdir() if it.is_dir()):
        depths = (folder / "depth").read_text().split() if (folder / "depth").is_file() else ["8"]
        yield Text(folder.name, (folder / "input.txt").read_bytes(), [int(it) for it in depths], (folder / "expected.txt").read_text())
    if os.environ.get("CELTISDARTS_TEXTS"):
        for file in sorted(Path(os.environ["CELTISDARTS_TEXTS"]).glob("*.txt")):
            yield Text(file.name, file.read_bytes(), [128], None)


def written(text: bytes, depth: int) -> str:
    """What the program writes."""
    try:
        return celtisdarts.run(text, depth).text
    except TextFault as fault:
        return f"line {fault.line}: fault {fault.number}\n"


def on_thread(stack: int, call: Callable[[], None]) -> None:
    """On a thread with so many bytes of stack."""
    before = threading.stack_size(stack)
    thread = threading.Thread(target=call)
    thread.start()
    threading.stack_size(before)
    thread.join()


class Texts(unittest.TestCase):
    def test_examples_have_their_outputs(self) -> None:
        for it in texts():
            for depth in it.depths if it.expected is not None else []:
                self.assertEqual(written(it.text, depth), it.expected, f"{it.name} at depth {depth}")

    def test_lines_that_were_read_print_as_they_were(self) -> None:
        for it in texts():
            for depth in it.depths:
                output = written(it.text, depth)
                if not output.startswith("line "):
                    lines = celtisdarts.Output(output).lines()
                    self.assertEqual("".join(f"{line}\n" for line in lines), output, it.name)

    def test_queries_asked_at_run_time_have_the_answers_of_a_run(self) -> None:
        compared = sum(self.compare(it, depth) for it in texts() for depth in it.depths)
        self.assertGreater(compared, 400)

    def compare(self, it: Text, depth: int) -> int:
        """Asks the crates and the queries of a text at run time, and returns how many were compared."""
        output = written(it.text, depth)
        if output.startswith("line "):
            with self.assertRaises(TextFault):
                Workspace(it.text, depth)
            return 0
        workspace = Workspace(it.text, depth)
        sessions: dict[str, Session] = {}
        queries = iter([line for line in it.text.split(b"\n") if QUERY.match(line)])
        lines = [line for line in celtisdarts.Output(output).lines() if line.topic not in ("later", "supers")]
        for line in lines:
            query = b"" if line.topic == "crate" else next(queries)
            found = QUERY.match(query)
            name = found[1].decode() if found else line.of
            session = sessions.setdefault(name, sessions.get(name) or workspace.session(name))
            answer = session.ask(query) if query else session.check_crate()
            self.assertEqual(answer, line.answer, f"{it.name}: {line} at depth {depth}")
        self.assertIsNone(next(queries, None))
        return len(lines)


class Calls(unittest.TestCase):
    def fault(self, text: str) -> tuple[int, int]:
        with self.assertRaises(TextFault) as raised:
            Workspace(text)
        return raised.exception.line, raised.exception.number

    def test_faults_of_texts(self) -> None:
        self.assertEqual(self.fault("crate a\n\nstruct A;\n"), (3, 2))
        self.assertEqual(self.fault("crate a\ntrait T\u00e9\n"), (2, 1))
        self.assertEqual(self.fault("\n" * 67_108_865), (67_108_865, 16))
        for depth in (0, 256, -1):
            with self.assertRaises(ValueError):
                Workspace("", depth)
            with self.assertRaises(ValueError):
                celtisdarts.run("", depth)

    def test_the_empty_text_has_core_alone(self) -> None:
        workspace = Workspace("")
        self.assertEqual(workspace.crates, [])
        with self.assertRaises(NoSuchCrate):
            workspace.session("a")
        core = workspace.session("core")
        self.assertEqual((core.check_crate(), core.prove("u8: Copy")), (Accepted(), Yes({})))

    def test_a_question_with_a_fault_changes_nothing(self) -> None:
        session = Workspace(TEXT).session("a")
        for _ in range(3):
            for question, number in (("", 2), ("W: Show", 5), ("V<u8, u8>: Show", 7), ("\u00e9: Show", 1)):
                with self.assertRaises(QuestionFault) as raised:
                    session.prove(question)
                self.assertEqual(raised.exception.number, number, question)
            refused: list[tuple[str, type[CeltisdartsError]]] = [
                ("prove in a u8: Show\n\n", SeveralLines), ("prove in a u8: Show\nstruct W", SeveralLines),
                ("prove in a u8: Show" + " " * 67_108_864, TooLong), ("", NotAQuery), ("struct W", NotAQuery),
                ("supers in a", NotAQuery), ("// prove in a u8: Show", NotAQuery),
            ]
            for line, kind in refused:
                with self.assertRaises(kind):
                    session.ask(line)
            self.assertEqual(session.prove("V<V<u8>>: Show"), Yes({}))
            self.assertEqual(session.prove("bool: Show"), Unproved())
            self.assertEqual(session.prove("u8: Show\n"), Yes({}))
            self.assertEqual(session.refute("V<u8>: Clone\n"), No())
            self.assertEqual(session.ask(b"prove in a u8: Show\n"), Yes({}))
            self.assertEqual(session.prove("?x: Show"), Maybe())
            self.assertEqual(session.refute("V<bool>: Show"), Open())
            self.assertEqual(session.refute("V<u8>: Clone"), No())
            self.assertEqual(session.ask("prove in base u8: Show"), Yes({}))
            self.assertEqual(session.check_crate(), Accepted())

    def test_crates_that_are_not_accepted(self) -> None:
        workspace = Workspace("crate base\ntrait Show\ntrait Conv<T>\ncrate a uses base\nimpl Show for u8\ncrate b uses base\nstruct B\nimpl<T> Conv<B> for T\n"
                              "crate c uses base\nimpl<T> Conv<u8> for T\ncrate d\ntrait Own\nimpl<T> Own for T\nimpl Own for u8\n")
        verdicts = [workspace.session(name).check_crate() for name in workspace.crates]
        self.assertEqual(verdicts, [Accepted(), Orphan(1), Orphan(1, "T", "B"), Orphan(1, "T"), Overlap(2, "d", 1)])

    def test_answers_longer_than_the_first_buffer(self) -> None:
        name = "a" * 64
        inside = "(" + ", ".join([name] * 12) + ")"
        session = Workspace(f"crate a\nstruct {name}\ntrait Conv<T>\nimpl Conv<({inside}, {inside})> for u8\n").session("a")
        for _ in range(2):
            self.assertEqual(session.prove("u8: Conv<?x>"), Yes({"x": f"({inside}, {inside})"}))
            self.assertEqual(session.prove("u8: Copy"), Yes({}))

    def test_values_by_their_variables(self) -> None:
        session = Workspace("crate a\nstruct P<T, U>(T, U)\ntrait Conv<T>\nimpl<T> Conv<(T, fn(T, u8) -> [T])> for P<T, bool>\n").session("a")
        wanted = {"x": "P<u8, str>", "y": "bool", "z": "fn(P<u8, str>, u8) -> [P<u8, str>]"}
        self.assertEqual(session.prove("P<?x, ?y>: Conv<(P<u8, str>, ?z)>"), Yes(wanted))

    def test_what_is_known_of_an_undecided_question(self) -> None:
        shows = "trait Show\nimpl Show for u8\nimpl Show for bool\n"
        session = Workspace(f"crate a\nstruct V<T>\n{shows}trait Conv<T>\nimpl<T> Conv<V<T>> for u8 where T: Show\n").session("a")
        known, unknown = session.prove("u8: Conv<?x>"), session.prove("<T> u8: Conv<?x> where T: Show")
        self.assertEqual((known, str(known)), (Maybe({"x": "V<?1>"}), "maybe ?x = V<?1>"))
        self.assertEqual((unknown, str(unknown)), (Maybe(), "maybe"))
        self.assertNotEqual(Maybe(), Yes())

    def test_words_of_another_type(self) -> None:
        workspace, anything = Workspace(TEXT), celtisdarts
        session = workspace.session("a")
        wrong: Any
        for wrong in (None, 5, 1.5, ["u8: Show"], anything):
            for call in (Workspace, celtisdarts.run, workspace.session, session.prove, session.refute, session.ask):
                with self.assertRaises(TypeError, msg=f"{call}({wrong})"):
                    call(wrong)
        for wrong in (None, "8", 8.0):
            with self.assertRaises(TypeError):
                Workspace("", wrong)
        wrong = b"u8: Show"
        with self.assertRaises(TypeError):
            session.prove(wrong)
        self.assertEqual(session.ask(bytearray(b"prove in a u8: Show")), Yes({}))

    def test_answers_are_keys_and_no_conditions(self) -> None:
        answers = [Accepted(), Orphan(1), Orphan(1, "T", "B"), Overlap(2, "d", 1), Yes({}), Yes({"x": "u8", "y": "u8"}), Maybe(), Unproved(), No(), Open(),
                   Compatible(), Breaking(1), Held(), Missing(1, 2), Undecided(1, 2)]
        self.assertEqual(len({*answers, *answers, Yes({"y": "u8", "x": "u8"})}), len(answers))
        for answer in answers:
            with self.assertRaisesRegex(TypeError, "has no truth value"):
                bool(answer)
            self.assertEqual(pickle.loads(pickle.dumps(answer)), answer)

    def test_a_session_is_closed(self) -> None:
        workspace = Workspace(TEXT)
        with workspace.session("a") as session:
            self.assertEqual(session.prove("u8: Show"), Yes({}))
        for call in (lambda: session.prove("u8: Show"), session.check_crate):
            with self.assertRaisesRegex(ValueError, "closed"):
                call()
        session.close()
        self.assertEqual(workspace.session("a").prove("u8: Show"), Yes({}))

    def test_a_copy_shares_what_was_read(self) -> None:
        session, asker = Workspace(TEXT).session("a"), Asker(TEXT.encode(), 8)
        other, further = copy.copy(session), copy.copy(session)
        self.assertIs(other.readings, session.readings)
        for refused in (copy.copy, copy.deepcopy, pickle.dumps):
            with self.assertRaises(TypeError):
                refused(asker)
        for refused in (copy.deepcopy, pickle.dumps):
            with self.assertRaises(TypeError):
                refused(session)
        further.close()
        del session
        self.assertEqual(other.prove("u8: Show"), Yes({}))
        with self.assertRaisesRegex(ValueError, "closed"):
            copy.copy(further).check_crate()
        del asker, other

    def test_sessions_share_what_was_read(self) -> None:
        names = [f"c{number}" for number in range(40)]
        workspace = Workspace("".join(f"crate {name}\ntrait T{name}\nimpl T{name} for u8\n" for name in names))
        for name in names:  # one session at a time
            with workspace.session(name) as session:
                self.assertEqual(session.check_crate(), Accepted())
        self.assertEqual(len(workspace.readings.idle), 1)
        sessions = [workspace.session(name) for name in names]
        for _ in range(3):
            for name, session in zip(names, sessions):
                answers = session.prove(f"u8: T{name}"), session.prove(f"bool: T{name}")
                self.assertEqual(answers, (Yes({}), Unproved()))
        self.assertEqual(len(workspace.readings.idle), 3)  # 16 crates each
        for session in sessions[1:]:
            session.close()
        self.assertEqual((len(workspace.readings.idle), sessions[0].refute("u8: Tc0")), (1, Open()))

    def test_a_thread_with_a_small_stack_keeps_one_thread(self) -> None:
        session, before, kept = Workspace(TEXT, 255).session("a"), threading.active_count(), []

        def ask() -> None:
            for _ in range(50):
                self.assertEqual(session.prove("u8: Show"), Yes({}))
                self.assertEqual(celtisdarts.run(TEXT).text, "crate base: accepted\ncrate a: accepted\n")
            self.assertEqual(threading.active_count(), before + 2)
            if not os.fork():  # a child has none of them
                os._exit(0 if session.prove("u8: Show") == Yes({}) else 1)
            self.assertEqual(os.wait()[1], 0)
            kept.extend(celtisdarts.KEPT.deep._threads)

        on_thread(256 << 10, ask)
        for thread in kept:
            thread.join(10)
        self.assertEqual([thread.is_alive() for thread in kept], [False])

    def test_stacks(self) -> None:
        found: list[object] = []
        sizes = [(stack, depth) for stack in (256 << 10, 1 << 20, 2 << 20, 8 << 20) for depth in (8, 128, 255)]
        for stack, depth in sizes:
            on_thread(stack, lambda: found.append(celtisdarts.run(DEEPEST, depth).text))
            on_thread(stack, lambda: found.append(Workspace(DEEPEST, depth).session("a").prove("E: T")))
        self.assertEqual(found, ["crate a: accepted\nprove 1: maybe\n", Maybe()] * len(sizes))

    def test_threads(self) -> None:
        # Four have a session each, and four more share one.
        workspace, wrong = Workspace(TEXT), []
        shared = workspace.session("a")

        def ask(session: Session) -> None:
            for _ in range(50):
                if (session.prove("u8: Show"), session.prove("V<bool>: Show"), session.check_crate()) != (Yes({}), Unproved(), Accepted()):
                    wrong.append(session)

        threads = [threading.Thread(target=ask, args=[workspace.session("a") if place < 4 else shared]) for place in range(8)]
        for thread in threads:
            thread.start()
        for thread in threads:
            thread.join()
        self.assertEqual(wrong, [])

    def test_no_library(self) -> None:
        words = [sys.executable, "-B", "-c", "import celtisdarts; celtisdarts.run('')"]
        env = {**os.environ, "CELTISDARTS_LIB": "/nowhere.so"}
        ended = subprocess.run(words, cwd=Path(celtisdarts.__file__).parent, env=env, capture_output=True, text=True, check=False)
        self.assertEqual(ended.returncode, 1)
        self.assertIn("there is no /nowhere.so", ended.stderr)

    def test_a_library_of_another_version(self) -> None:
        words = [sys.executable, "-B", "-c", "import celtisdarts; celtisdarts.ABI_VERSION = 7; celtisdarts.run('')"]
        ended = subprocess.run(words, cwd=Path(celtisdarts.__file__).parent, capture_output=True, text=True, check=False)
        self.assertEqual(ended.returncode, 1)
        self.assertIn(" has version 2 of the calls, and this module is for 7", ended.stderr)

    def test_a_library_without_a_call(self) -> None:
        words = [sys.executable, "-B", "-c", "import celtisdarts; celtisdarts.CALLS['celtisdarts_more'] = ([], None); celtisdarts.run('')"]
        ended = subprocess.run(words, cwd=Path(celtisdarts.__file__).parent, capture_output=True, text=True, check=False)
        self.assertEqual(ended.returncode, 1)
        self.assertIn(" has no celtisdarts_more: it is older than this module", ended.stderr)


class Contexts(unittest.TestCase):
    def setUp(self) -> None:
        self.workspace = Workspace(CONVERTED, 8)
        self.session = self.workspace.session("a")

    def asker(self, context: Infer) -> Asker:
        assert context.reading
        return context.reading[0]

    def refused(self, kind: type[Exception], calls: Sequence[Callable[[], object]]) -> None:
        for number, call in enumerate(calls):
            with self.assertRaises(kind, msg=f"call {number}"):
                call()

    def test_goals_that_fix_a_variable_together(self) -> None:
        with self.session.infer() as it:
            unknown, byte = it.fresh_ty(), it.ty("u8")
            self.assertTrue(it.can_eq(unknown, byte))
            goals = [it.register("Into", it.ty("Str"), unknown), it.register("Push", unknown, byte)]
            self.assertEqual([it.standing(goal) for goal in goals], [Standing.AMBIGUOUS] * 2)
            self.assertEqual(str(it.resolve(unknown)), "?0t")
            self.assertEqual(it.select_where_possible(), AllDone())
            self.assertEqual([it.standing(goal) for goal in goals], [Standing.DONE] * 2)
            self.assertEqual((str(it.resolve(unknown)), it.display(it.resolve(unknown))), ("V<u8>", "V<u8>"))
            self.assertFalse(it.can_eq(unknown, byte))
            with self.assertRaises(NoSolution):
                it.eq(unknown, byte)
            self.assertEqual(it.select_where_possible(), AllDone())

    def test_terms_as_they_are_displayed(self) -> None:
        with self.session.infer() as it:
            byte, flag, three = it.ty("u8"), it.ty("bool"), it.constant(3)
            displayed = [
                (byte, "u8"), (it.ty("!"), "!"), (it.ty("Str"), "Str"), (it.ty("V", byte), "V<u8>"), (it.ty("A", byte, three), "A<u8, 3>"),
                (it.ty("Box", byte), "Box<u8>"), (three, "3"), (it.constant((1 << 64) - 1), "18446744073709551615"), (it.tuple(), "()"),
                (it.tuple(byte), "(u8,)"), (it.tuple(byte, flag), "(u8, bool)"), (it.slice(byte), "[u8]"), (it.array(byte, three), "[u8; 3]"),
                (it.reference(byte), "&u8"), (it.reference(byte, mutable=True), "&mut u8"), (it.pointer(byte), "*const u8"),
                (it.pointer(byte, mutable=True), "*mut u8"), (it.function([byte, flag], byte), "fn(u8, bool) -> u8"),
                (it.function((), it.tuple()), "fn()"), (it.fresh_ty(), "?0t"), (it.fresh_const(), "?0c"), (it.ty("V", it.fresh_ty()), "V<?1t>"),
            ]
            self.assertEqual([str(term) for term, _ in displayed], [text for _, text in displayed])
            many = it.tuple(*[it.tuple(*[it.ty("A", it.ty("Str"), it.constant((1 << 64) - 1))] * 12)] * 12)
            inside = "(" + ", ".join(["A<Str, 18446744073709551615>"] * 12) + ")"
            self.assertEqual(str(many), "(" + ", ".join([inside] * 12) + ")")  # longer than the first buffer

    def test_arguments_that_are_lifetimes(self) -> None:
        with self.session.infer() as it:
            unknown = it.fresh_ty()
            it.eq(it.ty("R", it.lifetime(), unknown), it.ty("R", it.lifetime(), it.ty("u8")))
            self.assertEqual(str(it.resolve(unknown)), "u8")

    def test_a_constant_is_inferred(self) -> None:
        with self.session.infer() as it:
            byte, length = it.ty("u8"), it.fresh_const()
            it.eq(it.ty("A", byte, length), it.ty("A", byte, it.constant(3)))
            self.assertEqual(str(it.resolve(length)), "3")

    def test_how_obligations_stand(self) -> None:
        with self.session.infer() as it:
            self.assertEqual(it.select_where_possible(), AllDone())
            done = it.register("Show", it.ty("u8"))
            self.assertEqual(it.select_where_possible(), AllDone())
            pending = it.register("Show", it.fresh_ty())
            self.assertEqual(it.select_where_possible(), Pending())
            deep = it.register("Grow", it.ty("u8"))
            self.assertEqual(it.select_where_possible(), Pending())
            wrong = it.register("Show", it.ty("Str"))
            self.assertEqual(it.select_where_possible(), Refused(wrong))
            standings = [it.standing(goal) for goal in (done, pending, deep, wrong)]
            self.assertEqual(standings, [Standing.DONE, Standing.AMBIGUOUS, Standing.TOO_DEEP, Standing.REFUSED])

    def test_names_and_terms_that_are_refused(self) -> None:
        with self.session.infer() as it, self.workspace.session("base").infer() as other:
            byte, three, static = it.ty("u8"), it.constant(3), it.lifetime()
            self.refused(NoSuchName, [
                lambda: it.ty("W"), lambda: it.ty(""), lambda: it.ty("Show"), lambda: it.ty("V<u8>"), lambda: it.ty("\u00e9"),
                lambda: it.ty("u8\0"), lambda: it.register("W", byte), lambda: it.register("Str", byte), lambda: it.register("u8", byte),
                lambda: other.ty("G", other.ty("u8")), lambda: other.register("Grow", other.ty("u8")),
            ])
            self.refused(WrongTerms, [
                lambda: it.ty("V"), lambda: it.ty("V", byte, byte), lambda: it.ty("V", three), lambda: it.ty("V", static), lambda: it.ty("u8", byte),
                lambda: it.ty("A", three, byte), lambda: it.ty("R", byte), lambda: it.slice(three), lambda: it.array(byte, byte),
                lambda: it.array(three, three), lambda: it.reference(static), lambda: it.reference(three, mutable=True), lambda: it.pointer(three),
                lambda: it.tuple(byte, three), lambda: it.function([three], byte), lambda: it.function([byte], three),
                lambda: it.register("Show"), lambda: it.register("Show", byte, byte), lambda: it.register("Into", byte, three),
            ])
            self.assertEqual(it.select_where_possible(), AllDone())
            self.assertEqual([str(byte), str(it.fresh_ty()), it.register("Show", byte).number], ["u8", "?0t", 0])

    def test_arguments_of_another_type(self) -> None:
        wrong: Any
        with self.session.infer() as it:
            byte = it.ty("u8")
            goal = it.register("Show", byte)
            for wrong in (None, 5, "u8", [byte], goal, it):
                self.refused(TypeError, [
                    lambda: it.ty("V", wrong), lambda: it.tuple(byte, wrong), lambda: it.slice(wrong), lambda: it.array(byte, wrong),
                    lambda: it.array(wrong, byte), lambda: it.reference(wrong), lambda: it.pointer(wrong), lambda: it.function([wrong], byte),
                    lambda: it.function([], wrong), lambda: it.eq(byte, wrong), lambda: it.eq(wrong, byte), lambda: it.can_eq(wrong, byte),
                    lambda: it.register("Show", wrong), lambda: it.assume("Show", wrong), lambda: it.resolve(wrong), lambda: it.display(wrong),
                ])
            for wrong in (None, 0, "u8", byte):
                self.refused(TypeError, [lambda: it.standing(wrong), lambda: it.function(wrong, byte)])
                self.refused(TypeError, [lambda: it.reference(byte, wrong), lambda: it.pointer(byte, wrong)])
            for wrong in (None, 5, b"u8", byte):
                self.refused(TypeError, [lambda: it.ty(wrong), lambda: it.register(wrong, byte), lambda: it.assume(wrong, byte)])
            for wrong in (None, "3", 3.0, byte):
                self.refused(TypeError, [lambda: it.constant(wrong)])
                self.refused(TypeError, [lambda: it.param(wrong), lambda: it.const_param(wrong), lambda: it.select_within(wrong)])
            self.refused(ValueError, [lambda: it.constant(-1), lambda: it.constant(1 << 64)])
            self.refused(ValueError, [lambda: it.param(-1), lambda: it.param(1 << 32), lambda: it.const_param(-1), lambda: it.const_param(1 << 32)])
            self.refused(ValueError, [lambda: it.select_within(-1), lambda: it.select_within(1 << 64)])
            self.assertEqual((str(it.fresh_ty()), it.select_where_possible()), ("?0t", AllDone()))

    def test_a_rollback_takes_back(self) -> None:
        with self.session.infer() as it:
            kept, byte = it.fresh_ty(), it.ty("u8")
            self.assertEqual((it.commit(), it.roll_back()), (False, False))
            it.start_snapshot()
            term = it.ty("V", kept)
            goal = it.register("Push", term, byte)
            self.assertEqual((it.select_where_possible(), str(it.resolve(kept))), (AllDone(), "u8"))
            it.eq(kept, byte)
            self.assertTrue(it.roll_back())
            gone: Sequence[Callable[[], object]] = [
                lambda: str(term), lambda: it.display(term), lambda: it.resolve(term), lambda: it.eq(kept, term), lambda: it.can_eq(term, kept),
                lambda: it.ty("V", term), lambda: it.register("Show", term), lambda: it.standing(goal),
            ]
            self.refused(NoSuchTerm, gone)
            flag = it.ty("bool")
            other = it.register("Show", flag)
            self.assertEqual((flag.number, other.number), (term.number, goal.number))  # which are given anew
            self.assertEqual((flag == term, other == goal), (False, False))
            self.refused(NoSuchTerm, gone)
            self.assertEqual((it.select_where_possible(), it.standing(other), str(flag)), (AllDone(), Standing.DONE, "bool"))
            self.assertEqual((str(it.resolve(kept)), it.roll_back()), ("?0t", False))

    def test_a_commit_keeps(self) -> None:
        with self.session.infer() as it:
            unknown = it.fresh_ty()
            it.start_snapshot()
            it.start_snapshot()
            it.eq(unknown, it.ty("u8"))
            self.assertTrue(it.commit())
            self.assertEqual(str(it.resolve(unknown)), "u8")
            self.assertTrue(it.roll_back())
            self.assertEqual((str(it.resolve(unknown)), it.commit()), ("?0t", False))

    def test_a_probe_leaves_no_trace(self) -> None:
        with self.session.infer() as it:
            unknown, byte = it.fresh_ty(), it.ty("u8")
            with it.probe():
                it.eq(unknown, byte)
                with it.probe():
                    it.register("Show", it.slice(unknown))
                    it.start_snapshot()  # left open
                    self.assertIsInstance(it.select_where_possible(), Refused)
                self.assertEqual((it.select_where_possible(), str(it.resolve(unknown))), (AllDone(), "u8"))
            with self.assertRaises(NoSolution), it.probe():
                it.eq(unknown, it.ty("bool"))
                it.eq(unknown, byte)
            self.assertEqual((str(it.resolve(unknown)), it.roll_back()), ("?0t", False))
            it.start_snapshot()
            with it.probe():
                self.assertTrue(it.commit())  # its own
            self.assertEqual((it.roll_back(), it.roll_back()), (True, False))
            with it.probe():
                it.close()

    def generic(self) -> Infer:
        """A context for the body of a generic function."""
        return Workspace(GENERIC).session("a").infer()

    def holds(self, context: Infer, trait: str, *args: Term) -> bool:
        """Whether a goal that is registered now is done. Nothing of it is left."""
        with context.probe():
            goal = context.register(trait, *args)
            selected = context.select_where_possible()
            is_done = context.standing(goal) is Standing.DONE
            self.assertEqual(selected == AllDone(), is_done)
        return is_done

    def test_parameters(self) -> None:
        with self.generic() as it:
            t, n, last = it.param(0), it.const_param(0), it.param((1 << 32) - 1)
            displayed = [(t, "!0t"), (n, "!0c"), (last, "!4294967295t"), (it.ty("V", t), "V<!0t>"), (it.array(t, n), "[!0t; !0c]")]
            self.assertEqual([str(it.resolve(term)) for term, _ in displayed], [text for _, text in displayed])
            self.assertTrue(it.can_eq(t, it.param(0)))
            it.eq(t, it.param(0))
            for left, right in ((t, it.param(1)), (t, it.ty("u8")), (n, it.const_param(1)), (n, it.constant(0))):
                self.assertFalse(it.can_eq(left, right))
                with self.assertRaises(NoSolution):
                    it.eq(left, right)
            self.refused(WrongTerms, [lambda: it.slice(n), lambda: it.array(t, t)])

    def test_what_is_assumed_holds_with_its_supertraits(self) -> None:
        with self.generic() as it:
            t, other = it.param(0), it.param(1)
            it.assume("Ord", t)
            own = it.ty("V", t)
            done = [("Ord", t), ("Eq", t), ("Eq", own), ("Eq", it.array(own, it.const_param(0)))]
            not_done = [("Other", t), ("Ord", own), ("Ord", other), ("Eq", other), ("Eq", it.ty("V", other)), ("Sized", t)]
            self.assertEqual([self.holds(it, *goal) for goal in done], [True] * len(done))
            self.assertEqual([self.holds(it, *goal) for goal in not_done], [False] * len(not_done))
            it.assume("Copy", other)
            self.assertEqual([self.holds(it, trait, other) for trait in ("Copy", "Clone", "Sized", "Eq")], [True, True, True, False])

    def test_assumptions_and_impls_fix_variables(self) -> None:
        with self.generic() as it:
            t, unknown, other = it.param(0), it.fresh_ty(), it.fresh_ty()
            it.assume("Ord", t)
            it.assume("Into", t, it.ty("u8"))
            goals = [it.register("Into", it.ty("Str"), unknown), it.register("Push", unknown, t), it.register("Into", t, other)]
            self.assertEqual(it.select_where_possible(), AllDone())
            self.assertEqual([it.standing(goal) for goal in goals], [Standing.DONE] * 3)
            self.assertEqual((str(it.resolve(unknown)), str(it.resolve(other))), ("V<!0t>", "u8"))

    def test_projections_give_their_values(self) -> None:
        with Workspace(STREAMS).session("a").infer() as it:
            item, other = it.fresh_ty(), it.fresh_ty()
            own = it.ty("V", other)
            it.register_projection("Stream", it.ty("Take", own), item="Item", value=item)
            it.register("Show", item)
            it.eq(other, it.ty("u8"))
            self.assertEqual((it.select_where_possible(), str(it.resolve(item))), (AllDone(), "u8"))
            wrong = it.register_projection("Stream", own, item="Item", value=it.ty("str"))
            self.assertEqual(it.select_where_possible(), Refused(wrong))

    def test_an_assumed_projection_gives_its_value(self) -> None:
        with Workspace(STREAMS).session("a").infer() as it:
            t, item = it.param(0), it.fresh_ty()
            it.assume_projection("Stream", t, item="Item", value=it.param(1))
            it.register("Stream", t)
            it.register_projection("Stream", t, item="Item", value=item)
            self.assertEqual((it.select_where_possible(), str(it.resolve(item))), (AllDone(), "!1t"))

    def test_projections_that_are_refused(self) -> None:
        with Workspace(STREAMS).session("a").infer() as it:
            t, three = it.param(0), it.constant(3)
            for call in (it.register_projection, it.assume_projection):
                self.refused(NoSuchName, [
                    lambda: call("Stream", t, item="Thing", value=t), lambda: call("Show", t, item="Item", value=t),
                    lambda: call("Stream", t, item="", value=t),
                ])
                self.refused(WrongTerms, [lambda: call("Stream", t, item="Item", value=three), lambda: call("Stream", item="Item", value=t)])
                self.refused(TypeError, [lambda: call(None, t, item="Item", value=t), lambda: call("Stream", t, item=None, value=t)])
            self.assertEqual((it.roll_back(), self.holds(it, "Stream", t)), (False, False))

    def test_what_was_registered_before_an_assumption(self) -> None:
        with self.generic() as it:
            t = it.param(0)
            before = it.register("Eq", t)
            it.assume("Eq", t)
            it.select_where_possible()
            self.assertIsNot(it.standing(before), Standing.DONE)

    def test_a_rollback_takes_assumptions_back(self) -> None:
        with self.generic() as it:
            t, u = it.param(0), it.param(1)

            def stand() -> list[bool]:
                return [self.holds(it, *goal) for goal in (("Eq", t), ("Ord", t), ("Eq", u))]

            it.assume("Eq", t)
            it.start_snapshot()
            it.assume("Ord", t)
            with it.probe():
                it.assume("Eq", u)
                self.assertEqual(stand(), [True, True, True])
            self.assertEqual(stand(), [True, True, False])
            it.start_snapshot()
            it.assume("Eq", u)
            self.assertTrue(it.commit())
            self.assertEqual(stand(), [True, True, True])
            self.assertTrue(it.roll_back())
            self.assertEqual(stand(), [True, False, False])

    def test_assumptions_that_are_refused(self) -> None:
        with self.generic() as it:
            t, n = it.param(0), it.const_param(0)
            with it.probe():
                gone = it.param(1)
            self.refused(WrongTerms, [
                lambda: it.assume("Eq"), lambda: it.assume("Eq", t, t), lambda: it.assume("Eq", n), lambda: it.assume("Into", t),
                lambda: it.assume("Into", t, n),
            ])
            self.refused(NoSuchName, [lambda: it.assume("Show", t), lambda: it.assume("V", t), lambda: it.assume("", t), lambda: it.assume("\u00e9", t)])
            self.refused(NoSuchTerm, [lambda: it.assume("Eq", gone), lambda: it.assume("Into", t, gone)])
            self.assertEqual((self.holds(it, "Eq", t), self.holds(it, "Into", t, t)), (False, False))

    def registered(self, it: Infer) -> tuple[list[Obligation], list[Term]]:
        """Some twenty goals, and the terms whose values they fix."""
        byte = it.ty("u8")
        goals: list[Obligation] = []
        terms: list[Term] = []
        for _ in range(4):
            unknown, item, unfixed = it.fresh_ty(), it.fresh_ty(), it.fresh_ty()
            own = it.ty("V", item)
            goals += [it.register("Eq", own), it.register("Push", unknown, byte), it.register("Push", unknown, item), it.register("Eq", unfixed)]
            goals += [it.register("One", own), it.register("Eq", it.ty("V", it.ty("V", own)))]
            terms += [unknown, item, unfixed]
        return [*goals, it.register("Loop", byte), it.register("Eq", byte)], terms

    def test_selections_that_stop_come_to_what_one_does(self) -> None:
        def state(it: Infer, goals: Sequence[Obligation], terms: Sequence[Term]) -> tuple[list[Standing], list[str]]:
            return [it.standing(goal) for goal in goals], [str(it.resolve(term)) for term in terms]

        with self.generic() as whole:
            goals, terms = self.registered(whole)
            self.assertEqual(whole.select_where_possible(), Pending())
            wanted = state(whole, goals, terms)
        self.assertEqual({*wanted[0]}, {Standing.DONE, Standing.AMBIGUOUS, Standing.TOO_DEEP})
        for bound in (0, 1, 2, 7, (1 << 64) - 1):
            with self.generic() as it:
                goals, terms = self.registered(it)
                stops = 0
                while (selected := it.select_within(bound)) is None:
                    stops += 1
                    self.assertLess(stops, 10_000)
                self.assertEqual((selected, state(it, goals, terms)), (Pending(), wanted), bound)
                self.assertTrue(stops > 0 if bound < 2 else bound < 8 or stops == 0, bound)

    def test_a_selection_with_a_bound_says_what_is_refused(self) -> None:
        with self.generic() as it:
            self.assertEqual(it.select_within(1), AllDone())
            wrong = it.register("Other", it.ty("u8"))
            self.assertEqual((it.select_within(1000), it.select_where_possible()), (Refused(wrong), Refused(wrong)))

    def test_two_contexts_of_one_workspace(self) -> None:
        with self.session.infer() as it, self.session.infer() as other, self.workspace.session("base").infer() as further:
            unknown, byte = it.fresh_ty(), it.ty("u8")
            goal = it.register("Show", unknown)
            it.eq(unknown, byte)
            for context in (other, further):
                variable = context.fresh_ty()
                context.eq(variable, context.ty("bool"))
                self.assertEqual((str(context.resolve(variable)), variable == unknown), ("bool", False))
                self.refused(ValueError, [
                    lambda: context.eq(variable, byte), lambda: context.ty("V", byte), lambda: context.resolve(byte),
                    lambda: context.display(byte), lambda: context.register("Show", byte), lambda: context.assume("Show", byte),
                    lambda: context.standing(goal),
                ])
                with self.assertRaisesRegex(ValueError, "another context"):
                    context.slice(unknown)
            self.assertEqual((it.select_where_possible(), str(it.resolve(unknown))), (AllDone(), "u8"))
            self.assertEqual((it.crate_name, further.crate_name), ("a", "base"))

    def test_a_context_is_closed(self) -> None:
        with self.session.infer() as it:
            byte = it.ty("u8")
            goal = it.register("Show", byte)
        it.close()
        calls: Sequence[Callable[[], object]] = [
            it.fresh_ty, it.fresh_const, lambda: it.ty("u8"), lambda: it.constant(3), it.lifetime, it.tuple, lambda: it.slice(byte), lambda: str(byte),
            lambda: it.array(byte, byte), lambda: it.reference(byte), lambda: it.pointer(byte), lambda: it.function([], byte), lambda: it.eq(byte, byte),
            lambda: it.can_eq(byte, byte), lambda: it.register("Show", byte), it.select_where_possible, lambda: it.standing(goal),
            lambda: it.param(0), lambda: it.const_param(0), lambda: it.assume("Show", byte), lambda: it.select_within(1),
            lambda: it.resolve(byte), it.start_snapshot, it.commit, it.roll_back, it.probe().__enter__,
        ]
        for call in calls:
            with self.assertRaisesRegex(ValueError, "the context is closed"):
                call()
        self.assertEqual((repr(byte), {byte: 1}[byte]), ("Term(number=0)", 1))

    def test_a_context_outlives_its_session(self) -> None:
        it = Workspace(CONVERTED).session("a").infer()
        gc.collect()
        self.assertEqual(str(it.ty("V", it.ty("u8"))), "V<u8>")
        self.session.close()
        with self.assertRaisesRegex(ValueError, "the session is closed"):
            self.session.infer()
        with Workspace("").session("core").infer() as core:
            core.register("Copy", core.ty("u8"))
            self.assertEqual(core.select_where_possible(), AllDone())

    def test_a_session_answers_as_before(self) -> None:
        def answers() -> list[object]:
            asked = ["Str: Into<?x>, ?x: Push<u8>", "?x: Show", "V<u8>: Show", "u8: Show", "u8: Grow"]
            return [self.session.check_crate(), *map(self.session.prove, asked), self.session.refute("Str: Show")]

        before = [Accepted(), Yes({"x": "V<u8>"}), Maybe(), Unproved(), Yes(), Maybe(), Open()]
        self.assertEqual(answers(), before)
        with self.session.infer() as it:
            unknown = it.fresh_ty()
            it.register("Show", unknown)
            it.register("Show", it.ty("V", unknown))
            self.assertEqual(answers(), before)
            self.assertIsInstance(it.select_where_possible(), Refused)
            self.assertEqual(answers(), before)
            self.assertEqual(str(it.resolve(unknown)), "?0t")
        self.assertEqual(answers(), before)

    def test_a_closed_context_gives_its_reading_back(self) -> None:
        with self.session.infer() as it:
            asker = self.asker(it)
            self.assertEqual(self.workspace.readings.idle, [])
        for _ in range(3):
            self.assertEqual(self.session.prove("u8: Show"), Yes({}))
            self.assertEqual([reading[0] for reading in self.workspace.readings.idle], [asker])
            with self.session.infer() as it, self.workspace.session("base") as other:
                self.assertIs(self.asker(it), asker)
                self.assertEqual((str(it.fresh_ty()), it.ty("u8").number), ("?0t", 1))  # nothing is left of the last one
            self.assertEqual(other.crate_name, "base")
        contexts = [self.session.infer() for _ in range(4)]
        self.assertEqual(len({self.asker(it) for it in contexts}), 4)
        terms = [it.ty("u8") for it in contexts]
        del contexts, it
        gc.collect()
        self.assertEqual((self.workspace.readings.idle, [str(term) for term in terms]), ([], ["u8"] * 4))  # a term keeps its context
        del terms
        gc.collect()
        self.assertEqual(len(self.workspace.readings.idle), 4)
        self.workspace.session("a").close()
        self.assertEqual(len(self.workspace.readings.idle), 1)

    def test_a_context_is_collected_at_any_time(self) -> None:
        context = self.session.infer()
        found = self.asker(context)
        with self.workspace.readings.lock:  # a collection may begin where a call has the lock
            del context
            gc.collect()
        self.assertEqual([reading[0] for reading in self.workspace.readings.idle], [found])

    def test_contexts_are_not_copied(self) -> None:
        with self.session.infer() as it:
            term = it.ty("u8")
            goal = it.register("Show", term)
            for refused in (copy.copy, copy.deepcopy, pickle.dumps):
                with self.assertRaises(TypeError):
                    refused(it)
            for value in (term, goal):
                self.assertEqual(copy.copy(value), value)
                for refused in (copy.deepcopy, pickle.dumps):
                    with self.assertRaises(TypeError):
                        refused(value)

    def test_terms_are_values(self) -> None:
        with self.session.infer() as it:
            term, other, goal = it.ty("u8"), it.ty("u8"), it.register("Show", it.fresh_ty())
            self.assertEqual(len({term, other, goal, copy.copy(term)}), 3)
            self.assertEqual((term == other, it.can_eq(term, other), term == goal), (False, True, False))
            self.assertEqual((repr(term), repr(goal)), ("Term(number=0)", "Obligation(number=0)"))
            value: Any
            for value in (term, goal):
                with self.assertRaises(AttributeError):
                    value.number = 5
            self.assertEqual([isinstance(value, Term) for value in (term, goal)], [True, False])
            self.assertIsInstance(goal, Obligation)

    def test_what_a_selection_comes_to_is_no_condition(self) -> None:
        with self.session.infer() as it:
            goal = it.register("Show", it.ty("Str"))
            refused = it.select_where_possible()
            self.assertEqual([str(AllDone()), str(Pending()), str(refused)], ["all done", "pending", "refused 0"])
            self.assertEqual(len({AllDone(), Pending(), refused, Refused(goal), AllDone()}), 3)
            for value in (AllDone(), Pending(), refused, *Standing):
                with self.assertRaisesRegex(TypeError, "has no truth value"):
                    bool(value)
            for value in (AllDone(), Pending(), *Standing):
                self.assertEqual(pickle.loads(pickle.dumps(value)), value)

    def test_threads_share_a_context(self) -> None:
        context, wrong = self.session.infer(), []

        def infer() -> None:
            for number in range(50):
                unknown = context.fresh_ty()
                context.eq(context.slice(unknown), context.slice(context.ty("V", context.ty("u8"))))
                goal = context.register("Push", unknown, context.ty("u8"))
                context.select_where_possible()
                if (str(context.resolve(unknown)), context.standing(goal)) != ("V<u8>", Standing.DONE):
                    wrong.append(number)

        threads = [threading.Thread(target=infer) for _ in range(4)]
        for thread in threads:
            thread.start()
        for thread in threads:
            thread.join()
        self.assertEqual((wrong, context.fresh_ty().number), ([], 4 * 50 * 7))

    def test_a_context_is_closed_by_another_thread(self) -> None:
        for _ in range(20):
            context, ended = self.session.infer(), []

            def infer() -> None:
                try:
                    while True:
                        str(context.fresh_ty())
                except ValueError as error:
                    ended.append(str(error))

            threads = [threading.Thread(target=infer) for _ in range(3)] + [threading.Thread(target=context.close) for _ in range(3)]
            for thread in threads:
                thread.start()
            for thread in threads:
                thread.join()
            self.assertEqual((ended, len(self.workspace.readings.idle)), (["the context is closed"] * 3, 1))

    def test_a_thread_with_a_small_stack(self) -> None:
        found: list[object] = []

        def infer() -> None:
            with Workspace(CONVERTED, 255).session("a").infer() as it:
                goal = it.register("Grow", it.ty("u8"))
                found.extend([it.select_where_possible(), it.standing(goal)])

        on_thread(256 << 10, infer)
        self.assertEqual(found, [Pending(), Standing.TOO_DEEP])

    def test_the_example_prints_what_its_head_says(self) -> None:
        example = Path(__file__).with_name("inference.py")
        ended = subprocess.run([sys.executable, "-B", example], capture_output=True, text=True, check=True)
        head = example.read_text(encoding="utf-8").split('"""')[1]
        shown = head.split("    $ python3 bindings/python/inference.py\n")[1]
        self.assertEqual(ended.stdout, re.sub("^    ", "", shown, flags=re.M))


if __name__ == "__main__":
    unittest.main()
