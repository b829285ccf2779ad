"""Builds the static library of a crate over the libraries that were built below it: build_archive.py TOP KIT CRATE FILE.

`rt ci` proves a static library and leaves no archive, and `rt lib` proves all below it once more. So this calls `rattle build`, which proves
the crate again and takes the libraries as `rt ci` left them in crates/NAME/out/rlib. The status is 3 where one of these is missing.
"""
import os
import subprocess
import sys


def crates_of(top: str) -> dict[str, list[str]]:
    """What each line of crates.txt names: crates of the repository and libraries of the kit."""
    with open(f"{top}/crates.txt", encoding="utf-8") as file:
        lines = [line.partition("#")[0].partition(":") for line in file]
    return {head.split()[0]: uses.replace(",", " ").split() for head, _, uses in lines if head.strip()}


def below(crates: dict[str, list[str]], crate: str) -> list[str]:
    found: list[str] = []
    left = [crate]
    while left:
        for name in crates[left.pop()]:
            if name in crates and name not in found:
                found.append(name)
                left.append(name)
    return sorted(found)


def words_of(top: str, kit: str, crate: str, path: str) -> list[str]:
    crates = crates_of(top)
    rlib = {name: f"{top}/crates/{name}/out/rlib/{name}.rlib" for name in below(crates, crate)}
    missing = [name for name in rlib if not os.path.isdir(rlib[name])]
    if missing:
        print(f"tools/library: not built here: {' '.join(missing)}", file=sys.stderr)
        sys.exit(3)
    words = [f"{kit}/bin/rattle", "build", "--crate-name", crate, "--crate-type", "staticlib", "src/lib.rt", "--extern", f"std={kit}/rlibs/std.rlib"]
    for name in crates[crate]:
        words += ["--extern", f"{name}={rlib.get(name, f'{kit}/rlibs/{name}.rlib')}"]
    for folder in [f"{kit}/rlibs", *map(os.path.dirname, rlib.values())]:
        words += ["-L", f"dependency={folder}"]
    words += ["--antt-project", f"{kit}/rattle/logic/antt-project.json", "--logic-built", f"{kit}/logic_built", "--links", f"{crate}="]
    return [*words, "--toolchain", f"{kit}/toolchain", "-o", path]


def main() -> int:
    top, kit, crate, path = sys.argv[1:]
    ended = subprocess.run(words_of(top, kit, crate, path), cwd=f"{top}/crates/{crate}", stdout=subprocess.PIPE, stderr=subprocess.STDOUT, text=True)
    if ended.returncode:
        print(ended.stdout, file=sys.stderr)
    return 1 if ended.returncode else 0


if __name__ == "__main__":
    sys.exit(main())
