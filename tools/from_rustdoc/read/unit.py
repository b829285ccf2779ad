"""What cargo calls in rustc's place for a unit, which is a package with its features and the units that it uses: rustc builds it, and of a library
that is only checked rustdoc makes the JSON, by the very words that rustc has.

So each unit has a document of its own, and cargo decides when it is made again: what rustdoc has read is added to the files and variables on which
rustc says that the unit depends. A document is in a folder with the name of the unit's compiled file, next to it what the unit is, in `unit`.

FROM_RUSTDOC_JSON is the folder of all documents, FROM_RUSTDOC_FLAGS are the flags that ask rustdoc for JSON, FROM_RUSTDOC_TOOL is rustdoc. In
FROM_RUSTDOC_SHARED documents of registries are stored for other projects: a registry never changes a package. Such a document is known by rustdoc's
version, by all words that it was made by, and by what the build script wrote; it is taken where the variables that it reads have the same
values, and `taken` says so next to it.

This file is run by itself, and imports none of the others.
"""
from __future__ import annotations

import hashlib
import json
import os
import shutil
import subprocess
import sys
from dataclasses import asdict, dataclass, field
from typing import Iterator, Optional

LIBRARIES = ("lib", "rlib", "dylib", "cdylib", "staticlib")
# Of rustc's words with a value those that rustdoc is to have, by their short forms, and those that it is not.
GIVEN = {"--crate-name", "--crate-type", "--edition", "--cfg", "--check-cfg", "--extern", "--codegen", "-C", "-L", "--target", "-Z", "--sysroot"}
LEFT = {"--emit", "--error-format", "--json", "--diagnostic-width", "--out-dir", "-o", "-l", "-A", "-W", "-D", "-F", "--allow", "--warn", "--deny", "--forbid",
        "--force-warn", "--cap-lints", "--color", "--remap-path-prefix", "--print", "--explain"}
LEFT_CODEGEN = ("incremental", "extra-filename", "linker", "link-arg", "save-temps")
NO_DEP_INFO = "emission type"


def pairs(words: list[str]) -> Iterator[tuple[str, str]]:
    """The words of a call with their values; a word without one, and a file, are alone."""
    rest = iter(words)
    for word in rest:
        name, equals, value = word.partition("=")
        if name.startswith("--") and equals:
            yield name, value
        elif word in GIVEN | LEFT:
            yield word, next(rest, "")
        elif word[:2] in GIVEN | LEFT and not word.startswith("--"):
            yield word[:2], word[2:]
        else:
            yield word, ""


@dataclass
class Unit:
    """`stem` is the name of the compiled file without its ending, `uses` those of the units that it uses. `is_fixed` says that neither its
    sources nor those of what it uses ever change."""
    stem: str
    crate: str = ""
    version: str = ""
    manifest: str = ""
    target: str = ""
    cfgs: list[str] = field(default_factory=list)
    uses: list[str] = field(default_factory=list)
    is_fixed: bool = False


def unit_of(words: list[str], folder: str) -> Unit:
    found = list(pairs(words))
    values = dict(found)
    ending = next((v.partition("=")[2] for w, v in found if w in ("-C", "--codegen") and v.startswith("extra-filename=")), "")
    unit = Unit(f"lib{values['--crate-name']}{ending}", values["--crate-name"], os.environ.get("CARGO_PKG_VERSION", ""),
                os.environ.get("CARGO_MANIFEST_DIR", ""), values.get("--target", ""))
    unit.cfgs = [v for w, v in found if w == "--cfg"]
    unit.uses = [stem_of(v.partition("=")[2]) for w, v in found if w == "--extern" and "=" in v]
    unit.is_fixed = "--cap-lints" in values and is_of_registry(unit.manifest) and all(is_fixed(folder, stem) for stem in unit.uses)
    return unit


def stem_of(path: str) -> str:
    return os.path.basename(path).rsplit(".", 1)[0]


def is_of_registry(manifest: str) -> bool:
    """Whether cargo took the package from a registry, or from a folder in place of one. (`--cap-lints` says that it lies in no path or workspace.)"""
    home = os.environ.get("CARGO_HOME") or os.path.expanduser("~/.cargo")
    return manifest.startswith(os.path.join(home, "registry", "")) or os.path.isfile(os.path.join(manifest, ".cargo-checksum.json"))


def is_fixed(folder: str, stem: str) -> bool:
    try:
        with open(os.path.join(folder, stem, "unit"), encoding="utf-8") as handle:
            return bool(json.load(handle)["is_fixed"])
    except (OSError, ValueError, KeyError):
        return False


def is_documented(words: list[str]) -> bool:
    """Whether it is a library that is checked, not built to be run here, as what procedural macros and build scripts use."""
    found = list(pairs(words))
    types = [v for w, v in found if w == "--crate-type"]
    return any(t in LIBRARIES for t in types) and ("--test", "") not in found and \
        any(w == "--emit" and "metadata" in v.split(",") and "link" not in v.split(",") for w, v in found)


def words_of_rustdoc(words: list[str]) -> list[str]:
    """The words that rustdoc has too, and the file."""
    found: list[str] = []
    for word, value in pairs(words):
        if word in GIVEN and not (word in ("-C", "--codegen") and value.startswith(LEFT_CODEGEN)):
            found += [word, value]
        elif not word.startswith("-"):
            found.append(word)
    return found


# ---- what rustc and rustdoc depend on
@dataclass
class Depends:
    """What a file of dependencies says: files as they are written there, and values of variables (None for one that is not set)."""
    files: list[str] = field(default_factory=list)
    variables: dict[str, Optional[str]] = field(default_factory=dict)


def read_depends(file: str) -> Depends:
    found = Depends()
    with open(file, encoding="utf-8") as handle:
        for line in handle:
            line = line.rstrip("\n")
            if line.startswith("# env-dep:"):
                name, equals, value = line[len("# env-dep:"):].partition("=")
                found.variables[name] = value if equals else None
            elif ": " in line and not found.files and not line.startswith("#"):
                found.files = split_names(line.partition(": ")[2])
    return found


def split_names(text: str) -> list[str]:
    """The names of a line, where a blank in a name comes after a backslash."""
    found = [""]
    for word in text.split(" "):
        found[-1] += word
        if word.endswith("\\"):
            found[-1] += " "
        else:
            found.append("")
    return [name for name in found if name]


def add_depends(file: str, more: Depends) -> None:
    """Has rustc's file say what rustdoc depends on as well."""
    known = read_depends(file)
    files = [name for name in more.files if name not in known.files]
    variables = [f"# env-dep:{n}" + (f"={v}" if v is not None else "") for n, v in more.variables.items() if n not in known.variables]
    with open(file, encoding="utf-8") as handle:
        lines = handle.read().split("\n")
    # (Cargo reads the first line alone.)
    lines[0] = " ".join([lines[0], *files])
    with open(file, "w", encoding="utf-8") as handle:
        handle.write("\n".join([*lines[:-1], *[f"{name}:" for name in files], *variables, ""]))


def unescaped(value: str) -> str:
    return value.replace("\\n", "\n").replace("\\r", "\r").replace("\\\\", "\\")


def is_same_here(depends: Depends) -> bool:
    return all(os.environ.get(name) == (unescaped(value) if value is not None else None) for name, value in depends.variables.items())


# ---- documents
def tool() -> str:
    return os.environ.get("FROM_RUSTDOC_TOOL") or "rustdoc"


def make(unit: Unit, words: list[str], place: str) -> int:
    """Has rustdoc make the document in a folder, and say there on what it depends."""
    depends = os.path.join(place, "depends")
    called = [tool(), *words_of_rustdoc(words), "--crate-version", unit.version, "-o", place, "--cap-lints", "allow",
              *os.environ.get("FROM_RUSTDOC_FLAGS", "").split()]
    # Build scripts do not see this variable: what they find of the compiler is as in any build. (Cargo's tokens for jobs are open files.)
    environment = {**os.environ, "RUSTC_BOOTSTRAP": "1"}
    done = subprocess.run([*called, f"--emit=dep-info={depends},invocation-specific"], env=environment, stderr=subprocess.PIPE, close_fds=False)
    if done.returncode and NO_DEP_INFO in done.stderr.decode("utf-8", "replace"):
        # An older rustdoc cannot say it; then its document names the files.
        done = subprocess.run(called, env=environment, stderr=subprocess.PIPE, close_fds=False)
        if not done.returncode:
            write_depends(os.path.join(place, unit.crate + ".json"), depends)
    sys.stderr.buffer.write(done.stderr)
    sys.stderr.flush()
    return done.returncode


def write_depends(document: str, file: str) -> None:
    with open(document, encoding="utf-8") as handle:
        items = json.load(handle)["index"].values()
    files = sorted({item["span"]["filename"] for item in items if item.get("span") and item.get("crate_id") == 0})
    with open(file, "w", encoding="utf-8") as handle:
        handle.write(f"{document}: {' '.join(name.replace(' ', chr(92) + ' ') for name in files)}\n")


def shared_place(unit: Unit, words: list[str]) -> Optional[str]:
    """Where the document stands for all projects."""
    folder = os.environ.get("FROM_RUSTDOC_SHARED")
    if not folder or not unit.is_fixed:
        return None
    version = subprocess.run([tool(), "-vV"], stdout=subprocess.PIPE, text=True).stdout
    said = [[w, stem_of(v) if w == "--extern" else v] for w, v in pairs(words) if w not in ("-L", "--out-dir") and not v.startswith("incremental=")]
    total = hashlib.sha256(json.dumps([version, os.environ.get("FROM_RUSTDOC_FLAGS"), said]).encode())
    built = os.environ.get("OUT_DIR", "")
    for place, folders, files in os.walk(built) if built else ():
        folders.sort()
        for name in sorted(files):
            total.update(os.path.relpath(os.path.join(place, name), built).encode() + b"\0")
            with open(os.path.join(place, name), "rb") as handle:
                total.update(hashlib.sha256(handle.read()).digest())
    return os.path.join(folder, f"{unit.stem}-{total.hexdigest()[:16]}")


def copied(source: str, target: str) -> None:
    """(A folder on another disk has a copy.)"""
    try:
        os.link(source, target)
    except OSError:
        shutil.copy(source, target)


def document(words: list[str], folder: str) -> int:
    """Makes the document of a unit, or takes it. It is there whole or not at all."""
    unit = unit_of(words, folder)
    place, room = os.path.join(folder, unit.stem), os.path.join(folder, f"{unit.stem}.{os.getpid()}")
    shutil.rmtree(room, ignore_errors=True)
    os.makedirs(room)
    try:
        if is_documented(words):
            shared = shared_place(unit, words)
            if shared and os.path.isdir(shared) and is_same_here(read_depends(os.path.join(shared, "depends"))):
                for name in (unit.crate + ".json", "depends"):
                    copied(os.path.join(shared, name), os.path.join(room, name))
                open(os.path.join(room, "taken"), "w", encoding="utf-8").close()
            else:
                status = make(unit, words, room)
                if status:
                    return status
                if shared:
                    share(room, shared)
            values = dict(pairs(words))
            add_depends(os.path.join(values["--out-dir"], unit.stem[len("lib"):] + ".d"), read_depends(os.path.join(room, "depends")))
        with open(os.path.join(room, "unit"), "w", encoding="utf-8") as handle:
            json.dump(asdict(unit), handle)
        shutil.rmtree(place, ignore_errors=True)
        os.rename(room, place)
    finally:
        shutil.rmtree(room, ignore_errors=True)
    return 0


def share(room: str, shared: str) -> None:
    """Whoever else does the same, there is one whole folder."""
    part = f"{shared}.{os.getpid()}"
    os.makedirs(part, exist_ok=True)
    for name in os.listdir(room):
        copied(os.path.join(room, name), os.path.join(part, name))
    try:
        os.rename(part, shared)
    except OSError:
        shutil.rmtree(part, ignore_errors=True)


def main(words: list[str]) -> int:
    compiler, own = words[:1], words[1:]
    # (A wrapper comes before the compiler.)
    while own and not own[0].startswith("-"):
        compiler, own = [*compiler, own[0]], own[1:]
    is_capped = any(word == "--cap-lints" for word, _ in pairs(own))
    # Lints are not reported, and fail nothing.
    status = subprocess.call([*compiler, *own, *([] if is_capped else ["--cap-lints", "allow"])], close_fds=False)
    return status or document(own, os.environ["FROM_RUSTDOC_JSON"])


if __name__ == "__main__":
    sys.exit(main(sys.argv[1:]))
