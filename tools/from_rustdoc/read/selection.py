"""Which packages a call is about, by cargo's rules: the package of this folder, or of one above; in a workspace's own folder its default members;
or those that are named. And which features are tried for each."""
from __future__ import annotations

import fnmatch
import os
from dataclasses import dataclass, field
from typing import Any, Optional, Sequence

from . import cargo
from .near import hint
from .settings import Settings
from .terms import BadInput

MANIFEST = "Cargo.toml"


def project_folder(manifest: Optional[str]) -> str:
    """The folder of the manifest that is named, or of the one here or next above."""
    if manifest is not None:
        if os.path.basename(manifest) != MANIFEST:
            raise BadInput(f"--manifest-path takes the path of a {MANIFEST}, and {manifest} is none")
        if not os.path.isfile(manifest):
            raise BadInput(f"there is no {manifest}")
        return os.path.dirname(manifest) or "."
    place, above = os.path.abspath("."), "."
    while not os.path.isfile(os.path.join(place, MANIFEST)):
        if place == os.path.dirname(place):
            raise BadInput(f"there is no {MANIFEST} in {os.path.abspath('.')}, nor in a folder above it")
        place, above = os.path.dirname(place), os.path.join(above, "..")
    return os.path.normpath(above)


@dataclass
class Trial:
    """A set of features, and the packages that are tried with it; all that are chosen if none is named. `is_told` says whether it is one of
    several."""
    packages: list[str] = field(default_factory=list)
    words: list[str] = field(default_factory=list)
    is_told: bool = False


@dataclass
class Selection:
    """`packages` are those that the call is about, by cargo's metadata; `words` say so to cargo."""
    folder: str
    data: dict[str, Any]
    packages: list[dict[str, Any]] = field(default_factory=list)
    words: list[str] = field(default_factory=list)
    named: list[str] = field(default_factory=list)

    def is_whole(self) -> bool:
        """Whether it has all members of the workspace."""
        return len(self.packages) == len(self.data["workspace_members"])

    def names(self) -> list[str]:
        return [package["name"] for package in self.packages]

    def trials(self, extra: Sequence[str], settings: dict[str, Settings], of_workspace: Settings) -> list[Trial]:
        """Cargo's words say which features are meant; else the settings of each package do, or those of the workspace."""
        if cargo.features(extra):
            return [Trial()]
        sets = {name: settings[name].sets if settings[name].sets is not None else of_workspace.sets for name in self.names()}
        groups: dict[str, list[str]] = {}
        for name, its in sets.items():
            groups.setdefault(repr(its), []).append(name)
        return [Trial([] if len(groups) == 1 else names, words, sets[names[0]] is not None)
                for names in groups.values() for words in sets[names[0]] or [[]]]


def selected(folder: str, data: dict[str, Any], packages: Sequence[str] = (), is_whole: bool = False, excluded: Sequence[str] = ()) -> Selection:
    """What cargo would take: the words are its flags `-p`, `--workspace` and `--exclude`."""
    members = [package for package in data["packages"] if package["id"] in data["workspace_members"]]
    if is_whole:
        gone = [package for spec in excluded for package in matching(spec, members)]
        words = ["--workspace", *(word for spec in excluded for word in ("--exclude", spec))]
        return Selection(folder, data, [package for package in members if package not in gone], words)
    if packages:
        found = [package for spec in packages for package in matching(spec, members)]
        names = list(dict.fromkeys(package["name"] for package in found))
        return Selection(folder, data, [package for package in members if package["name"] in names], [word for name in names for word in ("-p", name)], names)
    own = os.path.realpath(os.path.join(folder, MANIFEST))
    here = [package for package in members if os.path.realpath(package["manifest_path"]) == own]
    is_root = os.path.realpath(data["workspace_root"]) == os.path.realpath(folder)
    default = [package for package in members if package["id"] in data.get("workspace_default_members", [])]
    return Selection(folder, data, default if is_root and default else here or members)


def matching(spec: str, members: list[dict[str, Any]]) -> list[dict[str, Any]]:
    """The packages that a word for `-p` means: a name, a name with a version, or a pattern."""
    name, _, version = spec.partition("@")
    found = [package for package in members if fnmatch.fnmatchcase(package["name"], name) and (not version or package["version"] == version)]
    # (A library's name is taken for that of its package.)
    found = found or [package for package in members if package["name"].replace("-", "_") == name.replace("-", "_") and not version]
    if not found:
        names = [package["name"] for package in members]
        raise BadInput(f"no package `{spec}` is in this workspace{hint(spec, names)}" + (f" (it has {', '.join(names)})" if len(names) <= 8 else ""))
    return found
