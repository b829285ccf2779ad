"""A registry of crates as a folder of sources (a directory source of cargo), and projects that use crates of it."""
from __future__ import annotations

import os
import re
from dataclasses import dataclass
from typing import Iterable, Optional

from from_rustdoc.read.terms import BadInput


@dataclass(frozen=True)
class Package:
    """`kind` is lib, proc-macro or bin."""
    name: str
    version: str
    kind: str = "lib"

    @property
    def folder(self) -> str:
        return f"{self.name}-{self.version}"

    @property
    def crate(self) -> str:
        return self.name.replace("-", "_")


def order(version: str) -> tuple[tuple[int, ...], bool, str]:
    """Versions in the order of their numbers; a pre-release comes before its release."""
    numbers, _, rest = version.partition("-")
    return tuple(int(n) for n in re.findall(r"\d+", numbers.split("+")[0])), rest == "", rest


def read_package(folder: str) -> Optional[Package]:
    """The package of a folder. Manifests of a registry are written by cargo, one key a line."""
    try:
        with open(os.path.join(folder, "Cargo.toml"), encoding="utf-8") as handle:
            lines = handle.read().splitlines()
    except OSError:
        return None
    section = ""
    keys: dict[tuple[str, str], str] = {}
    for line in lines:
        if line.startswith("["):
            section = line.strip("[] ")
        found = re.match(r'([A-Za-z-]+) *= *"?([^"]*)"?', line)
        if found and section in ("package", "lib"):
            keys.setdefault((section, found.group(1)), found.group(2))
    if ("package", "name") not in keys or ("package", "version") not in keys:
        return None
    library = keys.get(("lib", "path"), os.path.join("src", "lib.rs"))
    is_macro = "true" in (keys.get(("lib", "proc-macro")), keys.get(("lib", "proc_macro")))
    kind = "proc-macro" if is_macro else "lib" if os.path.exists(os.path.join(folder, library)) else "bin"
    return Package(keys[("package", "name")], keys[("package", "version")], kind)


def packages(registry: str) -> list[Package]:
    """All packages of a registry, by name and version."""
    if not os.path.isdir(registry):
        raise BadInput(f"there is no registry in {registry}")
    found = [read_package(os.path.join(registry, name)) for name in sorted(os.listdir(registry))]
    return sorted((p for p in found if p is not None), key=lambda p: (p.name, order(p.version)))


def earlier(package: Package, among: Iterable[Package]) -> Optional[Package]:
    """The version before this one."""
    older = [p for p in among if p.name == package.name and order(p.version) < order(package.version)]
    return max(older, key=lambda p: order(p.version)) if older else None


def newest(name: str, among: Iterable[Package]) -> Optional[Package]:
    found = [p for p in among if p.name == name]
    return max(found, key=lambda p: order(p.version)) if found else None


@dataclass(frozen=True)
class Dependency:
    package: Package
    features: tuple[str, ...] = ()

    def line(self) -> str:
        features = f", features = [{', '.join(f'{chr(34)}{f}{chr(34)}' for f in self.features)}]" if self.features else ""
        return f'{self.package.name} = {{ version = "={self.package.version}"{features} }}'


def read_dependencies(file: str, among: list[Package]) -> tuple[list[Dependency], list[str]]:
    """Lines `name [version] [+feature ..]` as dependencies; and the names of those that the registry has not."""
    found, missing = [], []
    with open(file, encoding="utf-8") as handle:
        lines = [line.split("#")[0].split() for line in handle]
    for words in filter(None, lines):
        features = tuple(w[1:] for w in words[1:] if w.startswith("+"))
        versions = [w for w in words[1:] if not w.startswith("+")]
        package = next((p for p in among if p.name == words[0] and p.version in versions), None) if versions else newest(words[0], among)
        if package is None:
            missing.append(" ".join(words[:1] + versions))
        else:
            found.append(Dependency(package, features))
    return found, missing


def write_project(folder: str, dependencies: list[Dependency], registry: Optional[str]) -> None:
    """A project with an empty library that uses the crates, of the registry alone."""
    os.makedirs(os.path.join(folder, "src"), exist_ok=True)
    os.makedirs(os.path.join(folder, ".cargo"), exist_ok=True)
    lines = ["[package]", 'name = "surveyed"', 'version = "0.1.0"', 'edition = "2021"', "[workspace]", "[dependencies]"]
    written: dict[str, list[str]] = {
        "Cargo.toml": lines + [d.line() for d in dependencies],
        os.path.join("src", "lib.rs"): [],
        os.path.join(".cargo", "config.toml"):
            ["[source.crates-io]", 'replace-with = "surveyed"', "[source.surveyed]", f'directory = "{os.path.abspath(registry)}"'] if registry else []}
    for name, text in written.items():
        with open(os.path.join(folder, name), "w", encoding="utf-8") as handle:
            handle.write("".join(line + "\n" for line in text))
