"""The page of figures of a survey, from its database."""
from __future__ import annotations

import sqlite3
from typing import Any, Sequence

LONGEST = 12
LINES = 40
# Impls of other crates that a breaking impl may meet: of the same trait, for a type of the same name, in a crate that uses this one.
WHOM = """select distinct i.name || ' ' || i.version from changes j
          join impls own on own.name = j.name and own.version = j.version and own.header = j.header
          join uses u on u.used = replace(j.name, '-', '_')
          join impls i on i.name = u.name and i.version = u.version and i.trait = own.trait and i.type = own.type
          where j.rowid = ?"""


class Page:
    def __init__(self, database: str) -> None:
        self.connection = sqlite3.connect(database)
        self.lines: list[str] = []

    def rows(self, query: str, values: Sequence[Any] = ()) -> list[tuple[Any, ...]]:
        return self.connection.execute(query, values).fetchall()

    def one(self, query: str, values: Sequence[Any] = ()) -> Any:
        found = self.connection.execute(query, values).fetchone()
        return found[0] if found and found[0] is not None else 0

    def table(self, title: str, columns: Sequence[str], rows: Sequence[Sequence[Any]]) -> None:
        if rows:
            self.lines += ["", f"## {title}", "", f"| {' | '.join(columns)} |", "|" + "---|" * len(columns)]
            self.lines += [f"| {' | '.join(shown(cell) for cell in row)} |" for row in rows]

    # ---- parts
    def crates(self) -> None:
        total = self.one("select count(*) from crates")
        kinds = self.rows("select kind, count(*) from crates group by kind order by 2 desc")
        counts = ", ".join(f"{count} {kind}" for kind, count in kinds)
        self.lines += ["# A survey of crates", "", f"{total} crates with their versions: {counts}."]
        rows = [(step, *[self.one("select count(*) from steps where step = ? and status = ?", (step, status)) for status in ("done", "failed", "skipped")])
                for (step,) in self.rows("select distinct step from steps order by rowid")]
        self.table("Steps", ("step", "done", "failed", "skipped"), rows)
        self.table("Why steps failed", ("step", "why", "crates"),
                   self.rows("select step, substr(why, 1, 140), count(*) from steps where status = 'failed' group by 1, 2 order by 3 desc limit ?", (LINES,)))

    def impls(self) -> None:
        fates = self.rows("select fate, count(*) from impls group by fate order by 2 desc")
        total = sum(count for _, count in fates)
        rows = [(fate, count, percent(count, total)) for fate, count in fates]
        self.table("Impls", ("fate", "impls", "share"), [*rows, ("all", total, "")] if rows else [])
        self.table("Crates by verdict", ("verdict", "crates"),
                   self.rows("select json_extract(figures, '$.word'), count(*) from steps where step = 'check' and status = 'done' group by 1 order by 2 desc"))
        self.table("Crates that are not coherent, or not settled", ("crate", "verdict", "why"), self.rows(
            "select name || ' ' || version, json_extract(figures, '$.word'), substr(json_extract(figures, '$.verdict_why'), 1, 160) from steps "
            "where step = 'check' and status = 'done' and json_extract(figures, '$.word') <> 'coherent' order by 1 limit ?", (LINES,)))
        self.table("Crates with the most losses", ("crate", "impls", "with a loss or out"), self.rows(
            "select name || ' ' || version, count(*), sum(fate <> 'whole') from impls group by 1 having sum(fate <> 'whole') > 0 order by 3 desc limit ?",
            (LONGEST,)))

    def queries(self) -> None:
        total = self.one("select count(*) from questions where verdict not in ('not well formed', 'not decided')")
        rows = [(verdict, count, percent(count, total)) for verdict, count in
                self.rows("select verdict, count(*) from questions group by 1 order by 2 desc")]
        self.table(f"Queries compared with rustc: {total}", ("answer/rustc", "queries", "share"), rows)
        self.table("On what the answers rest", ("answer", "rests on", "queries"), self.rows(
            "select said, foundation, count(*) from questions where said in ('yes', 'no', 'unproved') group by 1, 2 order by 3 desc"))
        self.table("By kind of query", ("kind", "right", "not settled", "not read", "wrong"), self.rows(
            "select how, sum(verdict in ('yes/yes', 'no/no', 'unproved/no', 'yes, but for lifetimes')), sum(verdict = 'not settled'), sum(verdict = 'not read'), "
            "sum(verdict = 'wrong') from questions where verdict not in ('not well formed', 'not decided') group by 1 order by 2 desc"))
        self.table("Wrong", ("crate", "query", "answer", "rustc"), self.rows(
            "select name || ' ' || version, question, said || ' (' || basis || ')', rustc || ' ' || substr(rustc_why, 1, 120) from questions "
            "where verdict = 'wrong' order by 1 limit ?", (LINES,)))

    def releases(self) -> None:
        self.table("Added impls judged", ("as", "answer", "impls"),
                   self.rows("select how, word, count(*) from changes where code = 'impl-added' group by 1, 2 order by 1, 3 desc"))
        rows = []
        for number, crate, header, reason in self.rows(
                "select rowid, name || ' ' || version, header, reason from changes where word = 'breaking' and code = 'impl-added' "
                "order by how = 'as if added', name limit ?", (LINES,)):
            whom = [name for (name,) in self.rows(WHOM, (number,))]
            rows.append((crate, header, reason, ", ".join(whom[:4]) or "none of these"))
        self.table("Breaking, and whom", ("crate", "added", "why", "crates here that have such an impl"), rows)
        self.table("Releases", ("release", "answer"), self.rows(
            "select name || ' ' || json_extract(figures, '$.before') || ' to ' || version, json_extract(figures, '$.answer') from steps "
            "where step = 'judge' and status = 'done' and json_extract(figures, '$.how') = 'release' order by 1 limit ?", (LINES,)))
        self.table("What else these releases change", ("class", "answer", "times", "releases"), self.rows(
            "select code, word, count(*), count(distinct name || version) from changes where how = 'release' and code <> 'impl-added' "
            "group by 1, 2 order by 3 desc limit ?", (LINES,)))

    def times(self) -> None:
        rows = [(step, count, round(total, 1), round(total / count, 2), round(most, 1), memory) for step, count, total, most, memory in self.rows(
            "select step, count(*), sum(processor), max(processor), max(memory) from steps where status = 'done' group by step order by rowid")]
        self.table("Processor time", ("step", "crates", "seconds in all", "mean", "longest", "most memory (MB)"), rows)
        self.table("The longest steps", ("crate", "step", "processor seconds"), self.rows(
            "select name || ' ' || version, step, processor from steps where status = 'done' order by processor desc limit ?", (LONGEST,)))
        size = self.one("select sum(json_extract(figures, '$.bytes')) from steps where step = 'document'")
        own = self.one("select sum(json_extract(figures, '$.own_bytes')) from steps where step = 'document'")
        if size:
            self.lines += ["", f"Documents: {size / 1e6:.0f} MB with what each crate uses, {own / 1e6:.0f} MB of the crates themselves."]
        taken = self.one("select sum(json_extract(figures, '$.crates')) from steps where step = 'document' and json_extract(figures, '$.made') is not null")
        if taken:
            made = self.one("select sum(json_extract(figures, '$.made')) from steps where step = 'document'")
            self.lines += [f"Of {taken} documents that crates and their projects took, rustdoc made {made}; the others were there."]


def percent(count: int, total: int) -> str:
    return f"{100 * count / total:.1f} %" if total else ""


def shown(cell: Any) -> str:
    return str(cell if cell is not None else "").replace("|", "\\|").replace("\n", " ")


def page(database: str) -> str:
    """The whole page, as Markdown."""
    found = Page(database)
    for part in (found.crates, found.impls, found.queries, found.releases, found.times):
        part()
    found.connection.close()
    return "\n".join(found.lines) + "\n"
