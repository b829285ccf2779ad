"""The library as C, Rust and Python call it: bindings/, over the archive of tools/library.

The tests are those of bindings/rust, by `cargo test --offline`, of bindings/python and of bindings/c. If there is no cargo, those of Rust
are left out. They run the queries of examples/, and of the texts `*.txt` in the folder that CELTISDARTS_TEXTS names, if it names one. The
programs that docs/LIBRARY.md shows are those of bindings/, and print what it says. The function in Rattle is that of
example_checker, which is proved. The clients among the examples print what their heads say, and two agree with rustc (clients.py).

Each binding is installed too, without a network, and the program of the page runs over what was installed: the packages of Rust, which
`cargo package` verifies, in a project of their own; the wheel in an environment of its own; header, archive and shared object below a prefix.
All of that leaves no file in the repository that git does not ignore.
"""
from __future__ import annotations

import argparse
import os
import re
import shutil
import sys
import tempfile
from pathlib import Path
from typing import Mapping, Sequence

from .clients import try_python_clients, try_rust_clients
from .common import TOP, Ended, Missing, Tally, Word, difference, is_released, library, run

PAGE = TOP / "docs/LIBRARY.md"
HEADER = TOP / "bindings/c/celtisdarts.h"

# A project that names the two packages where they were unpacked, so that no registry is used.
PROJECT = """\
[package]
name = "asks"
version = "0.1.0"
edition = "2021"
[dependencies]
celtisdarts = {{ path = "{0}/celtisdarts-0.1.0" }}
[patch.crates-io]
celtisdarts-sys = {{ path = "{0}/celtisdarts-sys-0.1.0" }}
[workspace]
"""

RUST = re.compile(rb"^test (.+?) (?:- .*)?\.\.\. (ok|FAILED)", re.M)
PYTHON = re.compile(rb"^(test_\w+ \(.+?\)).*? \.\.\. (?:.*\n)??.*?(ok|FAIL|ERROR)$", re.M)


def tests(tally: Tally, what: str, ended: Ended, found: Sequence[tuple[bytes, bytes]]) -> None:
    """Counts the tests that a run names, and the run itself if its end is not that of its tests."""
    for name, result in found:
        tally.expect(f"{what}: {name.decode()}", result == b"ok", "see what the run says")
    is_good = all(result == b"ok" for _, result in found)
    if not found or (ended.status == 0) != is_good:
        tally.report(what, f"it ended with status {ended.status} after {len(found)} tests")
    if ended.status:
        print("\n".join((ended.output + ended.errors).decode("utf-8", "replace").split("\n")[-100:]))


def blocks(kind: str) -> list[bytes]:
    """The blocks of that kind on the page."""
    return re.findall(rf"^```{kind}\n(.*?)^```$".encode(), PAGE.read_bytes(), re.M | re.S)


def try_run(tally: Tally, name: str, words: Sequence[Word], env: Mapping[str, str]) -> None:
    """The program prints what is shown on the page. (It is run elsewhere, so that it finds nothing of the repository.)"""
    ended = run(words, env=env, cwd=Path("/"))
    printed = [it for it in blocks("text") if it.split(b"\n")[0] == ended.output.split(b"\n")[0]]
    tally.report(name, f"status {ended.status}: {ended.errors.decode()}" if ended.status else difference(ended.output, b"".join(printed)))


def try_shown(tally: Tally, kind: str, source: Path, words: Sequence[Word], env: Mapping[str, str]) -> None:
    """The program is shown on the page, and prints what is shown there."""
    name = source.relative_to(TOP)
    tally.expect(f"{PAGE.name}: {name}", source.read_bytes() in blocks(kind), "no block shows it as it is")
    try_run(tally, f"{PAGE.name}: {name}, run", words, env)


def succeeds(tally: Tally, name: str, words: Sequence[Word], env: Mapping[str, str]) -> bool:
    ended = run(words, env=env)
    return tally.expect(name, ended.status == 0, f"status {ended.status}: {(ended.output + ended.errors).decode('utf-8', 'replace')[-4000:]}")


def try_rattle(tally: Tally) -> None:
    """The page shows the function of the example in Rattle."""
    source = (TOP / "crates/example_checker/src/lib.rt").read_bytes()
    tally.expect(f"{PAGE.name}: example_checker", source[source.index(b"pub fn ") :] in blocks("text"), "no block shows its function as it is")


def try_rust(tally: Tally, room: Path, env: Mapping[str, str]) -> None:
    if not shutil.which("cargo"):
        print("tools/check bindings: there is no cargo, so the tests of bindings/rust are left out", file=sys.stderr)
        return
    crate = TOP / "bindings/rust"
    words = ["--offline", "--manifest-path", crate / "Cargo.toml", "--target-dir", room / "target"]
    ended = run(["cargo", "test", "--no-fail-fast", *words], env=env)
    tests(tally, "bindings/rust", ended, RUST.findall(ended.output))
    try_shown(tally, "rust", crate / "examples/ask.rs", ["cargo", "run", "--quiet", "--example", "ask", *words], env)
    if succeeds(tally, "bindings/rust: its examples", ["cargo", "build", "--quiet", "--examples", *words], env):
        try_rust_clients(tally, room, room / "target/debug/examples")
    try_packages(tally, room, {name: it for name, it in env.items() if name != "CELTISDARTS_LIB_DIR"})


def try_packages(tally: Tally, room: Path, env: Mapping[str, str]) -> None:
    """Both packages are verified with the archive that is put into one of them, and a project of its own is built over them."""
    if not succeeds(tally, "tools/library --rust", [TOP / "tools/library", "--rust"], env):
        return
    words = ["--offline", "--manifest-path", TOP / "bindings/rust/Cargo.toml", "--target-dir", room / "target"]
    if not succeeds(tally, "bindings/rust: cargo package", ["cargo", "package", "--workspace", "--allow-dirty", *words], env):
        return
    project = room / "asks"
    (project / "src").mkdir(parents=True)
    (project / "Cargo.toml").write_text(PROJECT.format(room / "target/package"))
    shutil.copy(TOP / "bindings/rust/examples/ask.rs", project / "src/main.rs")
    words = ["--offline", "--manifest-path", project / "Cargo.toml", "--target-dir", room / "asks_target"]
    if is_released("celtisdarts_c"):
        try_run(tally, "bindings/rust: a project over the packages", ["cargo", "run", "--quiet", *words], env)
    else:
        succeeds(tally, "bindings/rust: a project over the packages", ["cargo", "check", "--quiet", *words], env)


def try_python(tally: Tally, room: Path, env: Mapping[str, str]) -> None:
    module = TOP / "bindings/python/celtisdarts.py"
    made = run([sys.executable, "-B", module, "--make", library(), room / "libceltisdarts.so"])
    if made.status:
        raise Missing(f"no shared object could be made: {made.errors.decode()}")
    env = {**env, "CELTISDARTS_LIB": str(room / "libceltisdarts.so")}
    ended = run([sys.executable, "-B", "-m", "unittest", "-v", "tests"], cwd=module.parent, env=env)
    tests(tally, "bindings/python", ended, PYTHON.findall(ended.errors))
    example = module.parent / "example.py"
    try_shown(tally, "python", example, [sys.executable, "-B", example], env)
    try_python_clients(tally, env)
    try_wheel(tally, room, {name: it for name, it in env.items() if name not in ("CELTISDARTS_LIB", "PYTHONPATH")})


def try_wheel(tally: Tally, room: Path, env: Mapping[str, str]) -> None:
    """The wheel, by tools/library and by pip, which makes the same one; in an environment of its own it has all that it needs."""
    if not succeeds(tally, "bindings/python: tools/library --wheel", [TOP / "tools/library", "--wheel", room / "wheels"], env):
        return
    (wheel,) = (room / "wheels").glob("*.whl")
    pip: list[Word] = [room / "venv/bin/python", "-m", "pip", "--quiet", "--disable-pip-version-check"]
    succeeds(tally, "bindings/python: an environment", [sys.executable, "-m", "venv", room / "venv"], env)
    succeeds(tally, "bindings/python: pip wheel", [*pip, "wheel", "--no-index", "--wheel-dir", room / "by_pip", TOP / "bindings/python"], env)
    made = [it.read_bytes() for it in (room / "by_pip").glob(wheel.name)]
    tally.expect("bindings/python: the wheel of pip", made == [wheel.read_bytes()], f"it is another: {os.listdir(room / 'by_pip')}")
    succeeds(tally, "bindings/python: pip install", [*pip, "install", "--no-index", wheel], env)
    shutil.copy(TOP / "bindings/python/example.py", room / "asks.py")
    try_run(tally, "bindings/python: a program over the wheel", [room / "venv/bin/python", "-B", room / "asks.py"], env)
    typed = "import celtisdarts as it, pathlib, sys; sys.exit(it.__version__ != '0.1.0' or not pathlib.Path(it.__file__).with_name('py.typed').is_file())"
    succeeds(tally, "bindings/python: types and a version", [room / "venv/bin/python", "-B", "-c", typed], env)


def compile_c(tally: Tally, source: Path, out: Path, *words: str) -> bool:
    made = run(["cc", "-std=c11", "-Wall", "-Wextra", "-Werror", "-O1", "-g", *words, "-o", out, source, library()])
    return tally.expect(f"bindings/c: {source.name} compiles", made.status == 0, made.errors.decode())


def try_c(tally: Tally, room: Path, env: Mapping[str, str]) -> None:
    """Two drivers with the compiler's checks of memory, and the program of the page."""
    folder = TOP / "bindings/c"
    for name, words in (("driver", []), ("refused", ["-Wl,--wrap=malloc,--wrap=realloc"])):
        if compile_c(tally, folder / f"{name}.c", room / name, "-fsanitize=address,undefined", "-fno-sanitize-recover=all", *words):
            ended = run([room / name], env=env)
            printed = (ended.output + ended.errors).decode("utf-8", "replace")
            tally.expect(f"bindings/c: {name}.c", ended.status == 0, f"status {ended.status}: {printed[-4000:]}")
    if compile_c(tally, folder / "example.c", room / "example"):
        try_shown(tally, "c", folder / "example.c", [room / "example"], env)
    try_prefix(tally, room, env)


def try_prefix(tally: Tally, room: Path, env: Mapping[str, str]) -> None:
    """What is installed below a prefix, and a program over it: by the shared object, and by the archive."""
    prefix = room / "prefix"
    for words, status in ((["--install"], 2), (["--install", "prefix"], 1), (["--wheel"], 2), (["--other"], 2), (["--release", "more"], 2)):
        ended = run([TOP / "tools/library", *words], cwd=room)
        is_refused = (ended.status, ended.output) == (status, b"") and ended.errors.count(b"\n") == 1
        tally.expect(f"tools/library {' '.join(words)}", is_refused and not prefix.exists(), f"{ended}")
    if not succeeds(tally, "bindings/c: tools/library --install", [TOP / "tools/library", "--install", prefix], env):
        return
    lib, here = prefix / "lib", {**env, "PKG_CONFIG_PATH": str(prefix / "lib/pkgconfig"), "LD_LIBRARY_PATH": str(prefix / "lib")}
    flags = [f"-I{prefix}/include", f"-L{lib}", "-lceltisdarts"]
    if shutil.which("pkg-config"):
        ended = run(["pkg-config", "--cflags", "--libs", "celtisdarts"], env=here)
        tally.expect("bindings/c: pkg-config", ended.output.decode().split() == flags, f"{ended}")
        ended = run(["pkg-config", "--modversion", "celtisdarts"], env=here)
        tally.expect("bindings/c: pkg-config, the version", ended.output == b"0.1.0\n", f"{ended}")
    source = TOP / "bindings/c/example.c"
    cc = ["cc", "-std=c11", "-Wall", "-Wextra", "-Wpedantic", "-Werror", source]
    if succeeds(tally, "bindings/c: over the shared object", [*cc, *flags, "-o", room / "shared"], here):
        try_run(tally, "bindings/c: a program over the shared object", [room / "shared"], here)
        tally.expect("bindings/c: its name", b"\0libceltisdarts.so.2\0" in (room / "shared").read_bytes(), "the program needs another")
    if succeeds(tally, "bindings/c: over the archive", [*cc, flags[0], lib / "libceltisdarts.a", "-o", room / "static"], env):
        try_run(tally, "bindings/c: a program over the archive", [room / "static"], env)
    for words, file in ((["nm", "--extern-only", "--defined-only"], "libceltisdarts.a"), (["nm", "-D", "--defined-only"], "libceltisdarts.so")):
        ended = run([*words, lib / file])
        names = sorted(line.split()[-1].partition(b"@")[0] for line in ended.output.splitlines() if b" T " in line or b" R " in line)
        declared = sorted(set(re.findall(rb"(celtisdarts_(?:abi_version(?=;)|\w+(?=\()))", HEADER.read_bytes().partition(b"/* ---- null")[0])))
        tally.expect(f"bindings/c: what {file} offers", names == declared, f"{names}, and {declared} is declared")
    succeeds(tally, "bindings/c: in C++", ["cc", "-x", "c++", "-Wall", "-Wextra", "-Werror", "-fsyntax-only", HEADER], env)


def untracked_files() -> bytes:
    """The files that git neither has nor ignores; none where this is no clone."""
    return run(["git", "-C", TOP, "ls-files", "--others", "--exclude-standard"]).output


def check(tally: Tally, _: argparse.Namespace) -> None:
    try_rattle(tally)
    env = {**os.environ, "CELTISDARTS_LIB_DIR": str(library().parent)}
    before = untracked_files()
    with tempfile.TemporaryDirectory() as folder:
        for part in (try_rust, try_python, try_c):
            part(tally, Path(folder), env)
    tally.report("files that remain", difference(untracked_files(), before))
