"""All results of a survey as one SQLite file."""
from __future__ import annotations

import json
import os
import sqlite3
from typing import Any, Iterator

from from_rustdoc.read.terms import BadInput

from . import results
from .registry import Package

SCHEMA = """
create table crates (name text, version text, kind text, primary key (name, version));
create table steps (name text, version text, step text, status text, why text, seconds real, processor real, memory integer, figures text,
                    primary key (name, version, step));
create table uses (name text, version text, used text);
create table impls (name text, version text, header text, source text, fate text, losses text, trait text, type text);
create table questions (name text, version text, how text, question text, said text, basis text, foundation text, rests_on text, rustc text,
                        rustc_why text, verdict text);
create table changes (name text, version text, how text, code text, word text, text text, header text, source text, reason text);
create index impls_by_trait on impls (trait, type);
create index changes_by_word on changes (word);
"""
TABLES = {"impl": "impls", "question": "questions", "change": "changes"}
STEPS = ("document", "read", "check", "ask", "judge")
OWN = ("kind", "step", "status", "why", "seconds", "processor", "memory")


def joined(out: str, packages: list[Package], file: str) -> None:
    """Writes the database anew, whole or not at all."""
    part = file + ".part"
    if os.path.exists(part):
        os.remove(part)
    connection = sqlite3.connect(part)
    try:
        connection.executescript(SCHEMA)
        columns = {table: [row[1] for row in connection.execute(f"pragma table_info({table})")] for table in TABLES.values()}
        for package in packages:
            add(connection, columns, os.path.join(out, "crates", package.folder), package)
        connection.commit()
    finally:
        connection.close()
    os.replace(part, file)


def add(connection: sqlite3.Connection, columns: dict[str, list[str]], folder: str, package: Package) -> None:
    own = (package.name, package.version)
    connection.execute("insert into crates values (?, ?, ?)", (*own, package.kind))
    for step in STEPS:
        file = os.path.join(folder, step + ".jsonl")
        if not os.path.exists(file):
            continue
        lines = results.read(file)
        head = next(lines, None)
        if head is None or head["kind"] != "step":
            raise BadInput(f"{file}: no line on the step")
        figures = {key: value for key, value in head.items() if key not in OWN}
        connection.execute("insert into steps values (?, ?, ?, ?, ?, ?, ?, ?, ?)",
                           (*own, step, head["status"], head["why"], head["seconds"], head["processor"], head["memory"], json.dumps(figures)))
        for line in lines:
            insert(connection, columns, own, line, file)
    for used in used_by(folder, package):
        connection.execute("insert into uses values (?, ?, ?)", (*own, used))


def insert(connection: sqlite3.Connection, columns: dict[str, list[str]], own: tuple[str, str], line: dict[str, Any], file: str) -> None:
    table = TABLES.get(line["kind"])
    if table is None:
        raise BadInput(f"{file}: a line of an unknown kind: {line['kind']}")
    values = [line.get(column, "") for column in columns[table][2:]]
    texts = [v if isinstance(v, (str, int, float)) else json.dumps(v) for v in values]
    connection.execute(f"insert into {table} values ({', '.join('?' * len(columns[table]))})", (*own, *texts))


def used_by(folder: str, package: Package) -> Iterator[str]:
    """The crates that a crate uses, itself and through others."""
    try:
        with open(os.path.join(folder, "project.json"), encoding="utf-8") as handle:
            uses: dict[str, list[str]] = json.load(handle)["links"]["uses"]
    except OSError:
        return
    name = package.crate if package.crate in uses else f"{package.crate}@{package.version}"
    todo, seen = [name], {name}
    while todo:
        for used in uses.get(todo.pop(), []):
            if used not in seen:
                seen.add(used)
                todo.append(used)
                yield used.split("@")[0]
