"""Both texts of a translation, as they are written: the checker has to find nothing in them."""
from __future__ import annotations

from ..read.terms import BadInput
from .build import Translation
from .checker import check_texts


def texts_of(translation: Translation, modes: tuple[str, ...] = ("upper", "lower")) -> dict[str, str]:
    """The texts, checked: a text that breaks a rule is not written."""
    texts = {}
    for mode in modes:
        text = "\n".join(translation.text(mode, comments=True)[0]) + "\n"
        texts[mode] = text if len(text) < 1 << 26 else "\n".join(translation.text(mode)[0]) + "\n"
    problems = check_texts(translation, texts)
    if problems:
        raise BadInput("the texts break the rules of docs/RUSTDOC.md, so they are not written: " + "; ".join(problems[:3]))
    return texts
