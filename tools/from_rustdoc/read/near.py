"""The word that was meant, among those that are known."""
from __future__ import annotations

import difflib
from typing import Iterable

# How like two words are at least, of which one is taken for the other.
LIKE = 0.6


def nearest(word: str, known: Iterable[str]) -> str:
    """The nearest of the known words; empty where none is near. What all flags begin with makes none alike."""
    words = {one.lstrip("-"): one for one in known}
    return next((words[found] for found in difflib.get_close_matches(word.lstrip("-"), list(words), 1, LIKE)), "")


def hint(word: str, known: Iterable[str]) -> str:
    """What is said after a word that is not known."""
    found = nearest(word, known)
    return f"; did you mean `{found}`?" if found else ""
