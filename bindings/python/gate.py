"""A gate for CI: python3 gate.py TEXT

The status is 1 if a crate of the text is refused, a `later` section is breaking, or a supertrait is missing or undecided, and these lines
are printed. It is 2 for wrong arguments, and if there are no answers, since the text has a fault or for another reason. Otherwise it is 0.
Supertraits are judged where the text has `supers in CRATE`. Queries do not count: `./celtisdarts --check` compares their answers.

    $ python3 bindings/python/gate.py examples/a_release_judged_by_later/input.txt
    later shapes: breaking impl 1
    $ python3 bindings/python/gate.py examples/unknown_name/input.txt
    examples/unknown_name/input.txt: line 2: fault 5: a name or a lifetime is not known
    $ python3 bindings/python/gate.py examples/a_first_text/input.txt && echo passed
    passed
"""
from __future__ import annotations

import sys
from pathlib import Path
from typing import Sequence

import celtisdarts
from celtisdarts import Breaking, CeltisdartsError, Missing, Orphan, Overlap, Undecided

REFUSED = (Orphan, Overlap, Breaking, Missing, Undecided)


def main(words: Sequence[str]) -> int:
    if len(words) != 1:
        print("usage: gate.py TEXT", file=sys.stderr)
        return 2
    try:
        output = celtisdarts.run(Path(words[0]).read_bytes())
    except (ImportError, OSError, CeltisdartsError) as error:
        print(f"{words[0]}: {error}", file=sys.stderr)
        return 2
    refused = [line for line in output.lines() if isinstance(line.answer, REFUSED)]
    for line in refused:
        print(line)
    return 1 if refused else 0


if __name__ == "__main__":
    sys.exit(main(sys.argv[1:]))
