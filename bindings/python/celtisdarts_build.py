"""Makes the wheel of celtisdarts.py, by the standard library and a C compiler `cc` alone: python3 -m celtisdarts_build ARCHIVE FOLDER

For `pip` it is the backend that pyproject.toml names. The archive is then that of the folder CELTISDARTS_LIB_DIR, or else of the repository's
release/. A source distribution it does not make: that would lack the archive.

The module becomes the package `celtisdarts`, since only a package can say that it has types (py.typed), with the shared object beside it.
The wheel's platform is what that needs: a C library of the version whose symbols it names. Equal contents give equal bytes.
"""
from __future__ import annotations

import base64
import hashlib
import os
import re
import sys
import tempfile
import zipfile
from pathlib import Path
from typing import Any, Mapping, Optional, Sequence

from celtisdarts import make

HERE = Path(__file__).resolve().parent
# The C library's version that each manylinux2014 has.
OLDEST = 17


def project() -> dict[str, str]:
    """What pyproject.toml says of the project, as far as it is text. (Python before 3.11 has no reader of such files.)"""
    table = (HERE / "pyproject.toml").read_text(encoding="utf-8").partition("[project]\n")[2].partition("\n[")[0]
    return dict(re.findall(r'^([\w-]+) = "(.*)"$', table, re.M))


def platforms(shared: bytes) -> list[str]:
    """The platforms on which the shared object can be loaded, by what it names: the C library alone, at least of some version."""
    needed = set(re.findall(rb"\0(lib[\w+-]+\.so[.\d]*)(?=\0)", shared))
    minor = max((int(it) for it in re.findall(rb"\0GLIBC_2\.(\d+)[.\d]*(?=\0)", shared)), default=0)
    if needed != {b"libc.so.6"} or b"GLIBC_PRIVATE" in shared:
        return ["linux_x86_64"]
    return ["manylinux_2_17_x86_64", "manylinux2014_x86_64"] if minor <= OLDEST else [f"manylinux_2_{minor}_x86_64"]


def licences() -> list[Path]:
    return sorted(HERE.parents[1].glob("LICENSE-*"))


def described(found: Mapping[str, str], tags: Sequence[str]) -> dict[str, bytes]:
    """The files of the wheel's folder of descriptions, but for the list of all files."""
    folder = f"celtisdarts-{found['version']}.dist-info"
    metadata = ["Metadata-Version: 2.1", f"Name: {found['name']}", f"Version: {found['version']}", f"Summary: {found['description']}",
                f"License: {found['license']}", f"Requires-Python: {found['requires-python']}", *(f"License-File: {it.name}" for it in licences())]
    wheel = ["Wheel-Version: 1.0", "Generator: celtisdarts_build", "Root-Is-Purelib: false", *(f"Tag: py3-none-{it}" for it in tags)]
    files = {f"{folder}/{it.name}": it.read_bytes() for it in licences()}
    return {**files, f"{folder}/METADATA": "".join(f"{it}\n" for it in metadata).encode(), f"{folder}/WHEEL": "".join(f"{it}\n" for it in wheel).encode()}


def row(name: str, data: bytes) -> str:
    digest = base64.urlsafe_b64encode(hashlib.sha256(data).digest()).rstrip(b"=").decode()
    return f"{name},sha256={digest},{len(data)}\n"


def write(path: Path, files: Mapping[str, bytes]) -> None:
    """Writes the files as a wheel, whole or not at all."""
    part = path.with_suffix(".part")
    with zipfile.ZipFile(part, "w", zipfile.ZIP_DEFLATED) as wheel:
        for name, data in files.items():
            entry = zipfile.ZipInfo(name)  # of 1980, as all that have no time
            entry.external_attr = (0o755 if name.endswith(".so") else 0o644) << 16
            wheel.writestr(entry, data, zipfile.ZIP_DEFLATED)
    part.replace(path)


def make_wheel(archive: Path, folder: Path) -> str:
    with tempfile.TemporaryDirectory() as room:
        made = Path(room) / "libceltisdarts.so"
        make(archive, made)
        shared = made.read_bytes()
    found, tags = project(), platforms(shared)
    files = {"celtisdarts/__init__.py": (HERE / "celtisdarts.py").read_bytes(), "celtisdarts/py.typed": b"", "celtisdarts/libceltisdarts.so": shared,
             **described(found, tags)}
    listed = f"celtisdarts-{found['version']}.dist-info/RECORD"
    files[listed] = ("".join(row(*it) for it in files.items()) + f"{listed},,\n").encode()
    name = f"celtisdarts-{found['version']}-py3-none-{'.'.join(tags)}.whl"
    folder.mkdir(parents=True, exist_ok=True)
    write(folder / name, files)
    return name


def build_wheel(wheel_directory: str, config_settings: Optional[Mapping[str, Any]] = None, metadata_directory: Optional[str] = None) -> str:
    """What `pip` calls."""
    folder = os.environ.get("CELTISDARTS_LIB_DIR")
    archive = Path(folder) if folder else HERE.parents[1] / "release"
    return make_wheel(archive / "libceltisdarts.a", Path(wheel_directory))


if __name__ == "__main__":
    print(make_wheel(Path(sys.argv[1]), Path(sys.argv[2])))
