"""What became of each item: whole, with which loss and in which direction it errs, or out. And of each header of std."""
from __future__ import annotations

import hashlib
from collections import Counter
from dataclasses import astuple
from typing import Any

from ..model.show import Show
from ..model.world import crate_name
from ..read.html_docs import is_std_key
from ..read.terms import Lossy
from ..write.build import Translation

PATTERNED = "a clause on an associated type, which keeps less apart than rustc's"
ERRS = "the upper text has it more often than the crate, the lower one not at all"


def plain(text: str) -> str:
    return "".join(c if 32 <= ord(c) < 127 else "?" for c in text)


def is_of(line: str, crate: str) -> bool:
    """Whether the line of a summary is on the crate, by its name in the text."""
    name, version = (line.split(":")[0].split(" ") + [""])[:2]
    return crate in (crate_name(name), crate_name(f"{name}@{version}"))


class Report:
    def __init__(self, translation: Translation) -> None:
        self.translation = translation
        self.world = translation.world
        self.show = Show(translation.world)

    def counts(self) -> dict[str, Counter[str]]:
        counts: dict[str, Counter[str]] = {}
        for written in self.translation.of_crates:
            counts.setdefault(written.impl.crate, Counter())[written.fate] += 1
        return counts

    def summary(self) -> list[str]:
        """A line for each crate: how many impls are whole, and how many are not."""
        lines = []
        for crate in self.world.crates.values():
            count = self.counts().get(crate.name, Counter())
            total = sum(count.values())
            rest = [f"{count['loss']} with a loss"] * (count["loss"] > 0) + [f"{count['out']} out"] * (count["out"] > 0)
            said = "all whole" if count["whole"] == total else f"{count['whole']} whole, " + ", ".join(rest)
            lines.append(f"{crate.name.split('@')[0]} {crate.version}: {total} impls, {said}")
        for name, times in sorted(self.world.missing.items()):
            lines.append(f"not given: {name}, named {times} times: its impls are in neither text")
        return lines

    def std_lines(self) -> list[str]:
        """Each impl header of std that was found is in the text, pruned with the type named, or here. None is without a fate."""
        found = self.translation.standard.found
        fates = Counter(header.fate.split(":")[0] for header in found)
        assert "" not in fates, "a header of std has no fate"
        lines = [f"std: {len(found)} impl headers found: " + ", ".join(f"{count} {fate}" for fate, count in fates.most_common())]
        pruned = Counter(h.fate[len("pruned: "):] for h in found if h.fate.startswith("pruned: "))
        lines.append("std, pruned by: " + "; ".join(f"{reason} ({count})" for reason, count in sorted(pruned.items())))
        lines += [f"std, {header.fate}: {header.text}" for header in found if header.fate.startswith("reported")]
        lines += [f"std, loss: {w.impl.source}: {'; '.join(w.losses)} ({ERRS})" for w in self.translation.of_std if w.fate == "loss"]
        lines += [f"std, {w.impl.source}: {'; '.join(w.unknown)}" for w in self.translation.of_std if w.unknown]
        lines += [f"std, narrowed: {w.impl.source}: {w.impl.narrowed}" for w in self.translation.of_std if w.impl.narrowed]
        return lines

    def of_crate(self, name: str) -> list[str]:
        """What became of the items of one crate."""
        lines = [line for line in self.summary() if is_of(line, crate_name(name))] + self.item_lines(name)
        return [plain(line) for line in lines]

    def item_lines(self, name: str = "") -> list[str]:
        """Of all crates, or of one alone."""
        lines = []
        cuts = {cut.declaration.key: cut for cut in self.translation.cuts}
        for crate in self.world.crates.values():
            for declaration in crate.declarations.values() if name in ("", crate.name) else ():
                what = f"{declaration.source}: {declaration.kind} {self.show.item(declaration)}"
                if declaration.is_trait:
                    lost = self.translation.renderer.supertraits(declaration)[1]
                    lines.append(f"loss {what}: {'; '.join(lost)} (no `dyn` of it is written)" if lost else f"whole {what}")
                elif declaration.key in cuts:
                    cut = cuts[declaration.key]
                    lines.append(f"cut {what}: {'; '.join(dict.fromkeys(cut.reasons))} (auto traits by impls with the fields as clauses"
                                 + (", of the lower text by none" if any("names" not in r for r in cut.reasons) else "") + ")")
                else:
                    lines.append(f"whole {what}")
        for written in self.translation.of_crates:
            if name not in ("", written.impl.crate):
                continue
            what = f"{written.impl.source}: {self.show.header(written.impl)}"
            notes = [f"({n})" for n in written.unknown]
            if written.fate == "whole":
                lines.append(" ".join([f"whole {what}", *notes]))
            elif written.fate == "loss":
                lines.append(" ".join([f"loss {what}: {'; '.join(written.losses)} ({ERRS})", *notes]))
            else:
                lines.append(f"out {what}: {'; '.join(written.losses)}" + ("" if written.is_safe else " (a hole in both texts)"))
        return lines

    def text(self) -> str:
        cut = [c for c in self.translation.cuts if not is_std_key(c.declaration.key)]
        lines = self.summary()
        lines.append(f"structs that are cut: {len(cut)}; supertraits that are not said: {len(self.translation.lost_supers)}")
        lines += self.std_lines() + self.item_lines()
        return "\n".join(plain(line) for line in lines) + "\n"

    # ---- from the texts back to sources
    def places(self, mode: str) -> dict[str, list[list[Any]]]:
        """For each crate of the text the source, header, losses and place of each of its impls, in order."""
        places: dict[str, list[list[Any]]] = {}
        for crate in self.translation.crates:
            places[crate.name] = []
            for piece in crate.pieces:
                line = piece.upper if mode == "upper" else piece.lower
                if piece.is_impl and line is not None:
                    header = line.text.split(" where ")[0]
                    if piece.written is not None:
                        try:
                            header = self.show.header(piece.written.impl)
                        except Lossy:
                            pass
                    losses = "; ".join(piece.written.losses) if piece.written is not None else ""
                    if not losses and "__Then<" in line.text:
                        losses = PATTERNED
                    place = piece.written.impl.place if piece.written is not None else None
                    places[crate.name].append([piece.source, plain(header), plain(losses), list(astuple(place)) if place else None])
        return places

    def map(self, inputs: dict[str, Any], texts: dict[str, str]) -> dict[str, Any]:
        sums = {mode: hashlib.sha256(text.encode()).hexdigest() for mode, text in texts.items()}
        return {"inputs": inputs, "sums": sums, "summary": self.summary(), "places": {mode: self.places(mode) for mode in ("upper", "lower")}}
