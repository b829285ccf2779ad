"""What the numbers of two versions say of a release, by cargo's rules: whether it may break crates that use it."""
from __future__ import annotations

import re
from typing import Optional

MAJOR, MINOR, PATCH = RELEASE_TYPES = ("major", "minor", "patch")
NUMBER = re.compile(r"(\d+)\.(\d+)\.(\d+)(?:-([0-9A-Za-z.-]+))?(?:\+[0-9A-Za-z.-]+)?")

Number = tuple[int, int, int, str]


def number(text: str) -> Optional[Number]:
    """The three numbers of a version, and its pre-release."""
    found = NUMBER.fullmatch(text)
    return (int(found[1]), int(found[2]), int(found[3]), found[4] or "") if found else None


def release_type(old: str, new: str) -> str:
    """Which release leads from one version to the other: of `0.3.1` to `0.4.0` and `0.0.1` to `0.0.2` a major one, as of what begins at a
    pre-release. Empty where the number does not grow, so that none is reported."""
    before, after = number(old), number(new)
    if before is None or after is None or not is_later(before, after):
        return ""
    if before[3] or before[0] != after[0]:
        return MAJOR
    # (The first number that is not 0 is the major one.)
    place = next(place for place in (1, 2) if before[place] != after[place])
    return (MAJOR, MINOR, PATCH)[max(0, place - (0 if before[0] else 1 if before[1] else 2))]


def is_later(before: Number, after: Number) -> bool:
    return (before[:3], order(before[3])) < (after[:3], order(after[3]))


def order(pre: str) -> tuple[bool, list[tuple[bool, int, str]]]:
    """Pre-releases in the order of SemVer: numbers before words, and none of them last."""
    return not pre, [(not part.isdigit(), int(part) if part.isdigit() else 0, part) for part in pre.split(".")]
