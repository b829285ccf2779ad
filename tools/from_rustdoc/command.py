"""The command: read, check, ask, later, and a project's folder."""
from __future__ import annotations

import argparse
import contextlib
import hashlib
import json
import os
import sqlite3
import sys
from dataclasses import dataclass, replace
from typing import TYPE_CHECKING, Any, Callable, Iterator, Optional

from . import flags
from .ask.answer import Answerer
from .ask.program import binding, run
from .ask.questions import QuestionReader
from .ask.verdicts import Checked, answer_message, check_verdicts, say_answer, say_checks
from .later.baseline import named
from .later.bump import RELEASE_TYPES
from .model.world import World
from .read import cargo
from .read.console import AUTO, COLOURS, console
from .read.html_docs import Pages, json_folder
from .read.kept import Damaged, KeptPages, KeptStandard, remove_stores
from .read.proved import TOP, tool_sum
from .read.terms import BadInput, Lossy
from .report.messages import FINE, NO_ANSWER, Message, Output, Sources, worst
from .report.outputs import FORMATS, HUMAN, Reporter, reporter_of
from .write.build import Translation

if TYPE_CHECKING:
    from .report.items import Report

# The status of words that are not understood.
WRONG_WORDS = 2
USAGE = """from-rustdoc: a translator of crates to texts for this program, and of its answers back. It is not proved: docs/RUSTDOC.md.

  from-rustdoc PROJECT [-- CARGO'S FLAGS]                documents the folder's project and what it uses, and checks each crate
  from-rustdoc read -o BASE CRATE.json ..                writes BASE.upper.txt, BASE.lower.txt, BASE.report and BASE.map
  from-rustdoc check BASE                                is each crate coherent?
  from-rustdoc ask BASE 'smallvec::IntoIter<[u8; 4]>: Send' ..
  from-rustdoc ask --project PROJECT QUESTION ..         the same of a project, which is documented first
  from-rustdoc conditions --project PROJECT QUESTION ..  under which bounds on its parameters does the bound hold?
  from-rustdoc traits --project PROJECT TYPE ..          which traits has the type, and under which bounds?
  from-rustdoc serve --project PROJECT                   answers requests, a line of JSON each, as tools/from_rustdoc/serve.py says
  from-rustdoc later OLD.json NEW.json                   what of a release breaks crates that use it?
  from-rustdoc later --baseline REV|FOLDER [PROJECT]     the same of a project and its older version
  from-rustdoc std -o FILE                               the part of std that people name, as a text to stand in front of others

ask: --expect yes|no|maybe (another answer is status 1), --why (the proof too, where there is one).
later: --strict (status 4 if something that changed is not judged), --private (private and sealed impls too), -p NAME, --workspace, --exclude NAME
(as cargo has them), --release-type major|minor|patch (in place of what the versions' numbers say),
--no-build-scripts (refuses an older version that runs some, or procedural macros, of its own), --with CRATE.json (crates that both files use).
All: --message-format human|short|json|github|sarif, --color auto|always|never, --docs DIR (std's documents), --program FILE and --program-that-explains FILE (default: the proved ones
that are here), --metadata FILE (what `cargo metadata --format-version 1` printed; read and later), --all-std (read: all of std that is about
the traits that are named), --jobs N (processes of a project's check), -q, --quiet,
-v, --verbose (what answers rest on, in the words of docs/RUSTDOC.md).

Status: 0 fine, 1 not coherent, breaking or not as expected, 4 not settled, changed or, with --strict, not judged, 3 no answer, 2 the words are not
understood."""


def new_world(docs: Optional[str]) -> World:
    """A world with std by its JSON where that is installed, else by its HTML documents."""
    folder = cargo.docs_folder(docs)
    std = json_folder(folder)
    if std:
        # (Imported here, as below what a query does not need: to load it takes long next to an answer.)
        from .read.standard_json import JsonStandard
        return World(Pages(folder), JsonStandard(std))
    pages = KeptPages(folder)
    return World(pages, KeptStandard(pages))


def world_of(files: list[str], docs: Optional[str], links: Optional[cargo.Links], is_given_what_it_uses: bool = False) -> World:
    world = new_world(docs)
    world.load(files, links, is_given_what_it_uses)
    keep(world)
    return world


def keep(world: World) -> None:
    """What pages were looked at is stored for the next call."""
    if isinstance(world.pages, KeptPages):
        world.pages.store.flush()


def links_of(metadata: Optional[str]) -> Optional[cargo.Links]:
    """Which crate uses which, by a file of cargo's metadata."""
    if not metadata:
        return None
    with open(metadata, encoding="utf-8") as handle:
        return cargo.read_metadata(handle.read()).links


def translated(world: World, arguments: argparse.Namespace) -> Translation:
    translation = Translation(world, whole_std=getattr(arguments, "all_std", False), quiet=arguments.quiet)
    translation.build()
    return translation


# ---- the commands
def read(arguments: argparse.Namespace) -> int:
    from .report.items import Report
    from .write.texts import texts_of
    links = links_of(arguments.metadata)
    world = world_of(arguments.json, arguments.docs, links)
    inputs = inputs_of(world, arguments.json, links)
    write_map(arguments.output, {"inputs": inputs, "documents": cargo.states(arguments.json)})
    warn(world)
    translation = translated(world, arguments)
    report = Report(translation)
    write_all(arguments.output, report, texts_of(translation), inputs)
    print("\n".join(report.summary()))
    return 0


def std(arguments: argparse.Namespace) -> int:
    from .write.std_text import std_text
    world = new_world(arguments.docs)
    text = std_text(world)
    keep(world)
    with open(arguments.output, "w", encoding="utf-8") as handle:
        handle.write(text)
    return 0


def inputs_of(world: World, files: list[str], links: Optional[cargo.Links]) -> dict[str, Any]:
    """What was read, so that `ask` can read it again."""
    links = replace(links or cargo.Links(world.uses), doc_cfgs=world.doc_cfgs)
    return {"json": [os.path.abspath(f) for f in files], "docs": os.path.abspath(world.pages.root.rstrip("/")), "links": links.kept()}


def world_again(known: dict[str, Any], arguments: argparse.Namespace) -> World:
    """What the map says that was read."""
    inputs = known.get("inputs", {})
    if "links" not in inputs:
        raise BadInput("the map was made by another version of this tool: read the crates again")
    return world_of(inputs["json"], arguments.docs or inputs["docs"], cargo.Links(**inputs["links"]))


def warn(world: World) -> None:
    """Told once, where the crates are read."""
    for name in world.doubled:
        console.warn(f"more than one version of {name} is used, and one is given: what others use of it is taken as unknown. (Of a project, each version is read.)")
    for name, places in world.doc_cfgs.items():
        console.warn(f"rustdoc sets `cfg(doc)`, on which items of {name} depend ({', '.join(places)}): what rests on them may be there for rustdoc "
                     "alone, or be hidden from it")


def write_map(base: str, found: dict[str, Any]) -> None:
    with open(base + ".map", "w", encoding="utf-8") as handle:
        handle.write(json.dumps(found, indent=1) + "\n")


def write_all(base: str, report: Report, texts: dict[str, str], inputs: dict[str, Any]) -> None:
    """Both texts, the report, and the map with what was read."""
    files = {".upper.txt": texts["upper"], ".lower.txt": texts["lower"], ".report": report.text()}
    for ending, text in files.items():
        with open(base + ending, "w", encoding="utf-8") as handle:
            handle.write(text)
    write_map(base, {**report.map(inputs, texts), "documents": cargo.states(inputs["json"])})


def map_of(base: str) -> dict[str, Any]:
    with open(base + ".map", encoding="utf-8") as handle:
        found: dict[str, Any] = json.load(handle)
        return found


def kept(base: str) -> dict[str, Any]:
    """The map of crates that were read, whose documents have to be those that it is of."""
    try:
        found = map_of(base)
        is_same = "documents" not in found or found["documents"] == cargo.states(found["inputs"]["json"])
    except (OSError, ValueError) as error:
        raise BadInput(f"{base}.map cannot be read; make it by `from-rustdoc read -o {base} CRATE.json ..`: {error}")
    if not is_same:
        raise BadInput(f"the documents that {base}.map names were made again since: read the crates again")
    return found


def check(arguments: argparse.Namespace) -> int:
    known = kept(arguments.base)
    if "sums" not in known:
        world = world_again(known, arguments)
        return check_project(arguments.base, known["inputs"], world, arguments, list(world.crates))
    answers = {}
    for mode in ("upper", "lower"):
        with open(f"{arguments.base}.{mode}.txt", encoding="utf-8") as handle:
            text = handle.read()
        if hashlib.sha256(text.encode()).hexdigest() != known["sums"][mode]:
            raise BadInput(f"{arguments.base}.{mode}.txt is not what was written: read the crates again")
        answers[mode] = run(text, arguments.program)
    output = output_of(arguments, known["inputs"])
    status = say_checks(check_verdicts(known["summary"], list(answers["upper"].crates), answers, known["places"]), output)
    output.line("`accepted` in sets of linked crates is argued of the real crates, not proved: docs/RUSTDOC.md")
    return status


def output_of(arguments: argparse.Namespace, inputs: dict[str, Any]) -> Output:
    """Standard output, with the sources that places name."""
    folders = [inputs["links"]["root"]] if inputs["links"]["root"] else [os.path.dirname(file) for file in inputs["json"]]
    return reporter_of(arguments).output(Sources({"": folders}))


def ask(arguments: argparse.Namespace) -> int:
    known = kept(arguments.base)
    return answered(known["inputs"], world_again(known, arguments), arguments)


def answered(inputs: dict[str, Any], world: World, arguments: argparse.Namespace) -> int:
    """Each query by itself, so that one that is not understood spoils none."""
    reader, answerer, output = QuestionReader(world), Answerer(world, arguments.program), output_of(arguments, inputs)
    output.features = getattr(arguments, "told_features", "")
    if output.features:
        output.line(f"with {output.features}:")
    statuses = []
    for written, expected in arguments.questions:
        try:
            for question in reader.read_all(written):
                verdict = answerer.answer(question)
                message = answer_message(verdict, expected or arguments.expect, arguments.program_that_explains, arguments.why)
                say_answer(message, verdict, output)
                statuses.append(message.status)
        except (BadInput, Lossy) as error:
            statuses.append(NO_ANSWER)
            not_understood(written, error, output)
    keep(world)
    return worst(statuses)


def conditions(arguments: argparse.Namespace, extra: list[str]) -> int:
    """`conditions` and `traits`, of crates that were read or of a project. What cannot be asked spoils nothing else."""
    from .ask.conditions import Finder, read_open
    from .ask.told import say_conditions, say_traits
    from .ask.traits import Lister
    inputs, world = asked_of(arguments, extra)
    reader, finder, output = QuestionReader(world), Finder(world, arguments.program, arguments.program_that_explains), output_of(arguments, inputs)
    statuses = []
    for written in arguments.questions:
        try:
            if arguments.command == "traits":
                statuses.append(say_traits(Lister(world, finder).of(written), finder, output))
                continue
            for question in read_open(reader, written):
                statuses.append(say_conditions(finder.find(question), finder, output))
        except (BadInput, Lossy) as error:
            statuses.append(NO_ANSWER)
            not_understood(written, error, output)
    keep(world)
    return worst(statuses)


def asked_of(arguments: argparse.Namespace, extra: list[str]) -> tuple[dict[str, Any], World]:
    """What is asked: a project, or crates that were read, whose base is the first word then."""
    if arguments.project is not None:
        arguments.questions = arguments.words
        return documents(arguments.project, extra, arguments)[1:]
    arguments.base, *arguments.questions = arguments.words
    known = kept(arguments.base)
    return known["inputs"], world_again(known, arguments)


def not_understood(written: str, error: Exception, output: Output) -> None:
    message = Message(f"no answer to `{written}`: {error}", "not-understood", "not understood")
    if output.takes(message):
        output.message(message)
    else:
        console.fail(message.text)


def serve(arguments: argparse.Namespace, extra: list[str]) -> int:
    from . import serve as service
    from .project import Project
    return service.main(Project(arguments.project or ".", extra, arguments.docs, arguments.program, arguments.program_that_explains, arguments.quiet))


def ask_project(arguments: argparse.Namespace, extra: list[str]) -> int:
    """Queries on a project, of which cargo documents first what has changed."""
    _, inputs, world = documents(arguments.project, extra, arguments)
    return answered(inputs, world, arguments)


@dataclass
class Documents:
    """A project that cargo has documented: `files` are what is read of it, and `known` is the same while that would be read alike."""
    folder: str
    project: cargo.Project
    base: str
    files: list[str]
    known: dict[str, Any]


def documented(folder: str, extra: list[str], arguments: argparse.Namespace) -> Documents:
    """Has cargo document what has changed."""
    found = cargo.document(folder, extra, arguments.quiet)
    crates = found.closure(found.members)
    if not crates:
        raise BadInput(f"{folder} has no library that is documented: a project of programs or procedural macros alone has nothing to read")
    files = [found.files[c] for c in crates]
    # (Of several sets of features each has its own.)
    told = getattr(arguments, "told_features", "")
    base = os.path.join(found.folder, crates[0] + (f"-{hashlib.sha256(told.encode()).hexdigest()[:8]}" if told else ""))
    return Documents(folder, found, base, files,
                     {"documents": cargo.states(files), "made_by": made_by(found, files, arguments.docs)})


def read_documents(found: Documents, arguments: argparse.Namespace) -> tuple[str, dict[str, Any], World]:
    """Reads a project, and writes the map, which is all that queries need: the base of its files, and what was read."""
    with contextlib.suppress(OSError, ValueError):
        before = map_of(found.base)
        if {name: before.get(name) for name in found.known} == found.known:
            return found.base, before["inputs"], world_again(before, arguments)
    cargo.add_cfgs(found.project, found.folder)
    world = world_of(found.files, cargo.docs_folder(arguments.docs, found.folder), found.project.links)
    inputs = inputs_of(world, found.files, found.project.links)
    if cargo.states(found.files) != found.known["documents"]:
        raise BadInput(f"{found.folder} was documented again while it was read: ask again")
    write_map(found.base, {"inputs": inputs, **found.known})
    warn(world)
    return found.base, inputs, world


def documents(folder: str, extra: list[str], arguments: argparse.Namespace) -> tuple[str, dict[str, Any], World]:
    return read_documents(documented(folder, extra, arguments), arguments)


def made_by(found: cargo.Project, files: list[str], docs: Optional[str]) -> str:
    """A sum of what a map is made by besides its documents."""
    return hashlib.sha256(json.dumps([found.links.kept(), files, docs, tool_sum()]).encode()).hexdigest()


def project(folder: str, extra: list[str], arguments: argparse.Namespace) -> int:
    """Checks a project, of which cargo documents first what has changed."""
    base, inputs, world = documents(folder, extra, arguments)
    output_of(arguments, inputs).line(f"what `from-rustdoc ask {base} ..` needs is written: {base}.map")
    return check_project(base, inputs, world, arguments, list(world.crates))


def check_project(base: str, inputs: dict[str, Any], world: World, arguments: argparse.Namespace, names: list[str]) -> int:
    """Judges each of these crates by a text of what its check looks at, so that no text grows with the project."""
    output = output_of(arguments, inputs)
    output.features = getattr(arguments, "told_features", "")
    statuses, reports, missing = [], [], set()
    for number, (checks, report, not_given) in enumerate(checked(world, arguments, names), 1):
        console.progress(f"judged {number} of {len(names)}: {names[number - 1]}")
        statuses.append(say_checks(checks, output))
        reports += report
        missing |= not_given
    reports += [f"not given: {name}: its impls are in neither text" for name in sorted(missing)]
    with open(base + ".report", "w", encoding="utf-8") as handle:
        handle.write("\n".join(reports) + "\n")
    output.line(f"the report: {base}.report")
    return worst(statuses)


Judged = tuple[list[Checked], list[str], set[str]]
# What the processes of one check share: they are copies of the one that read the crates.
SHARED: list[tuple[World, argparse.Namespace]] = []


def checked(world: World, arguments: argparse.Namespace, names: list[str]) -> Iterator[Judged]:
    """The crates' checks, by as many processes as are asked for, in the order of the crates."""
    SHARED[:] = [(world, arguments)]
    if arguments.jobs == 1 or len(names) == 1:
        yield from map(check_shared, names)
        return
    import multiprocessing
    from concurrent.futures import ProcessPoolExecutor
    if not arguments.program:
        # (So that it is looked for once, and not by each process.)
        binding()
    reopen = getattr(getattr(world.pages, "store", None), "reopen", None)
    with ProcessPoolExecutor(arguments.jobs, multiprocessing.get_context("fork"), reopen) as pool:
        yield from pool.map(check_shared, names)


def check_shared(name: str) -> Judged:
    from .ask.crate_check import check_crate
    world, arguments = SHARED[0]
    return (*check_crate(world, name, arguments.program), set(world.missing))


# ---- words
def parser(prog: str = "from-rustdoc") -> argparse.ArgumentParser:
    # (A flag that is cut short is none: another one would be taken for it one day.)
    common = argparse.ArgumentParser(add_help=False, allow_abbrev=False)
    common.add_argument("--docs")
    common.add_argument("--program")
    common.add_argument("--program-that-explains")
    common.add_argument("-q", "--quiet", action="store_true")
    common.add_argument("-v", "--verbose", action="store_true")
    common.add_argument("--color", choices=COLOURS, default=AUTO)
    common.add_argument("--message-format", choices=FORMATS, default=HUMAN)
    common.add_argument("--jobs", type=int, default=os.cpu_count() or 1)
    top = argparse.ArgumentParser(prog=prog, usage=USAGE, add_help=True, allow_abbrev=False)
    commands = top.add_subparsers(dest="command", required=True)
    one = commands.add_parser("read", parents=[common], usage=USAGE, allow_abbrev=False)
    one.add_argument("json", nargs="+")
    one.add_argument("-o", dest="output", required=True)
    one.add_argument("--metadata")
    one.add_argument("--all-std", action="store_true")
    commands.add_parser("std", parents=[common], usage=USAGE, allow_abbrev=False).add_argument("-o", dest="output", required=True)
    two = commands.add_parser("check", parents=[common], usage=USAGE, allow_abbrev=False)
    two.add_argument("base")
    three = commands.add_parser("ask", parents=[common], usage=USAGE, allow_abbrev=False)
    three.add_argument("--project")
    three.add_argument("--expect", choices=("yes", "no", "maybe"))
    three.add_argument("--why", action="store_true")
    three.add_argument("words", nargs="+")
    for name in ("conditions", "traits"):
        one = commands.add_parser(name, parents=[common], usage=USAGE, allow_abbrev=False)
        one.add_argument("--project")
        one.add_argument("words", nargs="+")
    commands.add_parser("serve", parents=[common], usage=USAGE, allow_abbrev=False).add_argument("--project")
    four = commands.add_parser("later", parents=[common], usage=USAGE, allow_abbrev=False)
    four.add_argument("--private", action="store_true")
    four.add_argument("--strict", action="store_true")
    four.add_argument("--with", dest="with_crates", action="append", default=[])
    four.add_argument("--metadata")
    four.add_argument("--baseline", type=named)
    four.add_argument("--no-build-scripts", action="store_true")
    four.set_defaults(of_project=False)
    four.add_argument("--release-type", choices=RELEASE_TYPES)
    four.add_argument("-p", "--package", action="append", default=[])
    four.add_argument("--workspace", action="store_true")
    four.add_argument("--exclude", action="append", default=[])
    four.add_argument("files", nargs="*")
    five = commands.add_parser("project", parents=[common], usage=USAGE, allow_abbrev=False)
    five.add_argument("folder")
    return top


COMMANDS = ("read", "check", "ask", "conditions", "traits", "serve", "later", "std", "project")


def divided(words: list[str]) -> tuple[list[str], list[str]]:
    """The words of this command, and cargo's own after `--`."""
    return (words[:words.index("--")], words[words.index("--") + 1:]) if "--" in words else (words, [])


def run_command(arguments: argparse.Namespace, extra: list[str]) -> int:
    if arguments.command == "project":
        return project(arguments.folder, extra, arguments)
    if arguments.command == "later":
        from .later.command import later
        return later(arguments, extra, world_of, links_of(arguments.metadata))
    if arguments.command == "ask":
        if arguments.project is None:
            arguments.base, *words = arguments.words
            arguments.questions = [(word, None) for word in words]
            return ask(arguments)
        arguments.questions = [(word, None) for word in arguments.words]
        return ask_project(arguments, extra)
    if arguments.command in ("conditions", "traits"):
        return conditions(arguments, extra)
    if arguments.command == "serve":
        return serve(arguments, extra)
    return {"read": read, "check": check, "std": std}[arguments.command](arguments)


def main(words: list[str]) -> int:
    words, extra = divided(words)
    if words and words[0] not in COMMANDS and os.path.isdir(words[0]):
        words = ["project", *words]
    console.begin("from-rustdoc", is_quiet="--quiet" in words or "-q" in words)

    def run_it(reporter: Reporter) -> int:
        arguments = parser().parse_args(words)
        begin(arguments, reporter)
        return run_command(arguments, extra)
    return guarded(run_it, Reporter(format_of(words)))


def begin(arguments: argparse.Namespace, reporter: Reporter) -> None:
    reporter.color, reporter.is_verbose = arguments.color, arguments.verbose
    arguments.reporter = reporter
    console.begin(console.name, arguments.color, arguments.quiet)


def format_of(words: list[str]) -> str:
    """The form of messages, by the words alone: so that what goes wrong anywhere has a line."""
    found = [word.partition("=")[2] for word in words if word.startswith("--message-format=")]
    found += [value for word, value in zip(words, words[1:]) if word == "--message-format"]
    return found[0] if found and found[0] in FORMATS else HUMAN


def main_of_cargo(words: list[str]) -> int:
    """`cargo celtisdarts`, in the project of this folder or of one above, or in that which `--manifest-path` names."""
    words, extra = divided(words[1:] if words[:1] == ["celtisdarts"] else words)
    console.begin(flags.CALLED, is_quiet="--quiet" in words or "-q" in words)
    return guarded(lambda reporter: run_for_cargo(words, extra, reporter), Reporter(format_of(words)))


def run_for_cargo(words: list[str], extra: list[str], reporter: Reporter) -> int:
    if words[:1] == ["help"]:
        words = [*words[1:], "--help"]
    command, words = flags.command_of(words)
    if command is None:
        return say_help(words)
    arguments = flags.read(command, words)
    arguments.command = command.name
    begin(arguments, reporter)
    if arguments.h or arguments.help:
        print(flags.short_help(command) if arguments.h else flags.long_help(command), end="")
        return FINE
    # (Imported here, since it imports this module.)
    from .subcommands import run
    return run(command.name, arguments, [*arguments.extra, *extra])


def say_help(words: list[str]) -> int:
    """Where no command is named."""
    if not words:
        print(flags.short_help(), end="", file=sys.stderr)
        return WRONG_WORDS
    print(f"cargo-celtisdarts {version()}" if words[0] in ("-V", "--version") else flags.short_help().rstrip() if words[0] == "-h" else flags.long_help().rstrip())
    return FINE


def version() -> str:
    """As the program has it: the commit of the sources."""
    said = cargo.command([os.path.join(TOP, "celtisdarts"), "--version"], ".").splitlines()
    return said[0].partition(" ")[2] if said else ""


def guarded(run_it: Callable[[Reporter], int], reporter: Reporter) -> int:
    """The command's status. Whatever goes wrong ends with a line and the status of no answer, so that none is taken for an answer."""
    sys.setrecursionlimit(20000)
    status = NO_ANSWER
    try:
        status = run_it(reporter)
        complaint = ""
    except flags.WrongWords as error:
        complaint, status = str(error), WRONG_WORDS
    except (Damaged, sqlite3.DatabaseError) as error:
        complaint = f"what was kept of std is damaged ({error}); it is removed, and made anew by the next call"
        remove_stores()
    except (BadInput, Lossy) as error:
        complaint = str(error)
    except BrokenPipeError:
        sys.stdout = open(os.devnull, "w", encoding="utf-8")
        complaint = "standard output was closed"
    except OSError as error:
        complaint = f"{error.filename or 'a file'}: {error.strerror or error}"
    except KeyboardInterrupt:
        console.clear()
        return 130
    except Exception as error:
        if os.environ.get("FROM_RUSTDOC_TRACE"):
            raise
        import traceback
        last = traceback.extract_tb(error.__traceback__)[-1]
        complaint = f"a mistake of the translator: {type(error).__name__}: {' '.join(str(error).split())} ({os.path.basename(last.filename)}:{last.lineno})"
    if complaint:
        reporter.fail(complaint)
    reporter.end(status)
    console.clear()
    if complaint:
        console.fail(complaint)
    return status
