"""What was read, stored from one call to the next: crates by the hash of their JSON, std's pages one by one as they are asked for.

All is stored under XDG_CACHE_HOME (else ~/.cache) in `celtisdarts`. What is stored names the sources of this tool and of std's documents that it was
made by, and each entry has a sum: what was made by others, or is damaged, is made anew. Entries are items of `terms`, and no other
class is loaded from them.
"""
from __future__ import annotations

import hashlib
import io
import os
import pickle
import sqlite3
import time
import zlib
from collections.abc import Mapping, Sequence
from dataclasses import replace
from typing import Any, Iterator, Optional

from . import proved, terms
from .html_docs import CRATES, Pages
from .proved import SETTLED, cache_folder, tool_sum
from .rustdoc_json import ItemName, JsonCrate, external_name, too_deep
from .standard import Header, Standard
from .terms import ANY_HEAD, Declaration, Impl, Type, head_of


class Damaged(Exception):
    """What was stored cannot be read; it has to be made anew."""


# ---- values as bytes
class TermReader(pickle.Unpickler):
    def find_class(self, module: str, name: str) -> Any:
        if module != terms.__name__:
            raise Damaged(f"{module}.{name} is no term")
        return getattr(terms, name)


def packed(value: Any) -> bytes:
    data = pickle.dumps(value, protocol=4)
    return zlib.crc32(data).to_bytes(4, "big") + data


def unpacked(data: bytes) -> Any:
    if len(data) < 4 or zlib.crc32(data[4:]) != int.from_bytes(data[:4], "big"):
        raise Damaged("a sum is wrong")
    return TermReader(io.BytesIO(data[4:])).load()


# ---- where it is stored, and of what
def folder() -> str:
    return os.path.join(cache_folder(), "from-rustdoc")


def docs_sum(pages: Pages) -> str:
    """What tells std's documents from those of another version: their front pages, and the lists of all items. They are read once while they
    stay as they are."""
    names = [f"{crate}/{page}" for crate in CRATES for page in ("index.html", "all.html")]
    file = os.path.join(folder(), f"docs-{hashlib.sha256(pages.root.encode()).hexdigest()[:16]}.json")
    state = proved.state_of([pages.root + name for name in names] if pages.archive is None else [pages.root.rstrip("/")])
    known = proved.known(file, state)
    if known is not None:
        return known
    total = hashlib.sha256(pages.root.encode())
    for name in names:
        total.update(pages.data(name))
    if state is not None:
        proved.keep(file, {"state": state, "found": total.hexdigest()})
    return total.hexdigest()


def remove_stores() -> None:
    for name in os.listdir(folder()):
        if name.startswith("std-"):
            os.remove(os.path.join(folder(), name))


def written(path: str, data: bytes) -> None:
    """Writes the whole file or nothing."""
    # (Imported here, as below and in other modules, what a query does not need: to load it takes long next to an answer.)
    import tempfile
    os.makedirs(os.path.dirname(path), exist_ok=True)
    number, name = tempfile.mkstemp(dir=os.path.dirname(path))
    with os.fdopen(number, "wb") as handle:
        handle.write(data)
    os.replace(name, path)


# ---- crates
class Decoded(Mapping[str, Declaration]):
    """Declarations by their keys, each decoded when it is asked for."""

    def __init__(self, data: dict[str, bytes]) -> None:
        self.data = data
        self.known: dict[str, Declaration] = {}

    def __getitem__(self, key: str) -> Declaration:
        if key not in self.known:
            self.known[key] = unpacked(self.data[key])
        return self.known[key]

    def __contains__(self, key: object) -> bool:
        return key in self.data

    def __iter__(self) -> Iterator[str]:
        return iter(self.data)

    def __len__(self) -> int:
        return len(self.data)


class DecodedImpls(Sequence[Impl]):
    def __init__(self, data: list[bytes]) -> None:
        self.data = data
        self.known: dict[int, Impl] = {}

    def __getitem__(self, number: Any) -> Any:
        if number not in self.known:
            self.known[number] = unpacked(self.data[number])
        return self.known[number]

    def __len__(self) -> int:
        return len(self.data)


class KeptCrate:
    """A crate as `JsonCrate` has it, decoded item by item. `heads` has the trait and the head of each impl."""

    def __init__(self, file: str, data: dict[str, Any]) -> None:
        self.file = file
        self.name: str = data["name"]
        self.version: str = data["version"]
        self.names_crates: dict[str, None] = dict.fromkeys(data["names_crates"])
        self.declarations = Decoded(data["declarations"])
        self.aliases = Decoded(data["aliases"])
        self.impls = DecodedImpls(data["impls"])
        self.heads: list[tuple[str, str]] = data["heads"]
        self.items = [ItemName(*entry) for entry in data["items"]]
        self.std_version: str = data["std_version"]
        self.sources: list[str] = data["sources"]
        self.externals: list[tuple[str, str]] = data["externals"]
        self.exports: dict[str, Optional[str]] = data["exports"]
        self.modules: dict[str, list[str]] = data["modules"]
        self.traits_of: dict[str, list[str]] = data["traits_of"]


def data_of(crate: JsonCrate) -> dict[str, Any]:
    return {"name": crate.name, "version": crate.version, "names_crates": list(crate.names_crates),
            "declarations": {k: packed(replace(d, item={})) for k, d in crate.declarations.items()},
            "aliases": {k: packed(d) for k, d in crate.aliases.items()}, "impls": [packed(i) for i in crate.impls],
            "heads": crate.heads, "items": [(i.key, i.name, i.public_path) for i in crate.items], "std_version": crate.std_version,
            "sources": crate.sources, "externals": crate.externals, "exports": crate.exports, "modules": crate.modules,
            "traits_of": crate.traits_of}


class Keeper:
    """The crates that are stored, and the store of std."""

    def __init__(self, pages: Pages) -> None:
        self.of_tool = hashlib.sha256((tool_sum() + docs_sum(pages)).encode()).hexdigest()
        self.store = Store(os.path.join(folder(), f"std-{self.of_tool[:16]}.sqlite"), self.of_tool)

    def crate(self, file: str, pages: Pages, own: str, artifacts: Optional[dict[str, str]]) -> KeptCrate:
        try:
            total = self.store.sum_of(file)
        except OSError as error:
            raise terms.BadInput(f"{file}: cannot be read as JSON: {error}")
        read: Optional[JsonCrate] = None
        externals = self.store.get("externals", total)
        if externals is None:
            read = JsonCrate(file, pages, own, artifacts)
            externals = read.externals
            self.store.put("externals", total, externals)
        # What it says of other crates goes by their names. Keys of std's items are in what is stored of a crate, so it belongs to the very store that
        # gave them out.
        named = [external_name(name, stem, artifacts) for name, stem in externals]
        name = hashlib.sha256(repr((total, self.of_tool, self.store.made, own, named)).encode()).hexdigest()
        path = os.path.join(folder(), "crates", name)
        try:
            with open(path, "rb") as handle:
                return KeptCrate(file, unpacked(handle.read()))
        except (OSError, Damaged, pickle.UnpicklingError, EOFError):
            pass
        crate = read or JsonCrate(file, pages, own, artifacts)
        crate.load()
        try:
            data = data_of(crate)
        except RecursionError:
            raise too_deep(file)
        self.store.flush()
        try:
            written(path, packed(data))
        except OSError:
            pass
        return KeptCrate(file, data)


# ---- std
class Store:
    """A file of SQLite: keys of pages, and what was read of std. A damaged one is removed."""

    TABLES = ("create table if not exists page (path text primary key, key text)",
              "create table if not exists first (key text primary key, path text)",
              "create table if not exists sum (path text primary key, state text, total text)",
              "create table if not exists thing (kind text, name text, data blob, primary key (kind, name))",
              "create table if not exists impl (trait text, number integer, header integer, head text, data blob, primary key (trait, number))",
              "create index if not exists by_head on impl (trait, head)")

    def __init__(self, path: str, made_by: str) -> None:
        self.path = path
        self.new_pages: dict[str, Optional[str]] = {}
        self.new_firsts: dict[str, str] = {}
        os.makedirs(os.path.dirname(path), exist_ok=True)
        try:
            self.open(made_by)
        except (sqlite3.DatabaseError, Damaged):
            self.remove()
            self.open(made_by)

    def open(self, made_by: str) -> None:
        self.base = sqlite3.connect(self.path, timeout=60)
        self.base.execute("pragma journal_mode = wal")
        self.base.execute("pragma synchronous = normal")
        for table in self.TABLES:
            self.base.execute(table)
        self.base.execute("insert or ignore into thing values ('made', 'by', ?)", (packed((made_by, os.urandom(8).hex())),))
        self.base.commit()
        by, self.made = unpacked(self.base.execute("select data from thing where kind = 'made'").fetchone()[0])
        if by != made_by:
            raise Damaged("made by another version")

    def reopen(self) -> None:
        """A process that was forked has a connection of its own."""
        self.base = sqlite3.connect(self.path, timeout=60)

    def remove(self) -> None:
        for ending in ("", "-wal", "-shm"):
            try:
                os.remove(self.path + ending)
            except OSError:
                pass

    def get(self, kind: str, name: str) -> Any:
        """What is stored, None where nothing is."""
        row = self.base.execute("select data from thing where kind = ? and name = ?", (kind, name)).fetchone()
        return unpacked(row[0]) if row else None

    def put(self, kind: str, name: str, value: Any) -> None:
        self.base.execute("insert or replace into thing values (?, ?, ?)", (kind, name, packed(value)))
        self.flush()

    def sum_of(self, file: str) -> str:
        """The hash of a file. It is taken once of a file that has not changed since, by its size, its times and its place on the disk."""
        found = os.stat(file)
        path, state = os.path.abspath(file), repr((found.st_size, found.st_mtime_ns, found.st_ctime_ns, found.st_ino, found.st_dev))
        row = self.base.execute("select total from sum where path = ? and state = ?", (path, state)).fetchone()
        if row:
            return str(row[0])
        with open(file, "rb") as handle:
            total = hashlib.sha256(handle.read()).hexdigest()
        # What was written just now may be written again within what the clock of the disk tells apart.
        if time.time() - found.st_ctime > SETTLED:
            self.base.execute("insert or replace into sum values (?, ?, ?)", (path, state, total))
            self.base.commit()
        return total

    def put_impls(self, trait: str, headers: list[tuple[str, str, str]], rows: list[tuple[int, Impl]]) -> None:
        self.base.executemany("insert or replace into impl values (?, ?, ?, ?, ?)",
                              [(trait, n, h, head_of(i.self_type) if i.trait else "", packed(i)) for n, (h, i) in enumerate(rows)])
        self.put("headers", trait, headers)

    def impls(self, trait: str, head: Optional[str]) -> list[tuple[int, int, bytes]]:
        """Number, header and data of the impls of a trait, of all of them or of those with this head or any."""
        if head is None:
            found = self.base.execute("select number, header, data from impl where trait = ? order by number", (trait,))
        else:
            found = self.base.execute("select number, header, data from impl where trait = ? and head in (?, ?) order by number", (trait, head, ANY_HEAD))
        return found.fetchall()

    def first_page(self, key: str) -> str:
        row = self.base.execute("select path from first where key = ?", (key,)).fetchone()
        if row is None:
            raise Damaged(f"no page of {key}")
        return str(row[0])

    def flush(self) -> None:
        self.base.executemany("insert or replace into page values (?, ?)", list(self.new_pages.items()))
        self.base.executemany("insert or replace into first values (?, ?)", list(self.new_firsts.items()))
        self.base.commit()
        self.new_pages, self.new_firsts = {}, {}


class KeptPages(Pages):
    def __init__(self, root: str) -> None:
        super().__init__(root)
        self.keeper = Keeper(self)
        self.store = self.keeper.store
        self.keys = dict(self.store.base.execute("select path, key from page"))
        self.first_page = dict(self.store.base.execute("select key, path from first"))
        self.own_pages: dict[str, str] = {}

    def key(self, path: str) -> Optional[str]:
        if path in self.keys:
            return self.keys[path]
        key = super().key(path)
        self.store.new_pages[path] = key
        if key is not None:
            self.store.new_firsts[key] = self.first_page[key]
        return key

    def own_page(self, key: str) -> str:
        if key not in self.own_pages:
            kept = self.store.get("own page", key)
            if kept is None:
                if key not in self.first_page:
                    # Another process has looked at its page since this one began.
                    self.first_page[key] = self.store.first_page(key)
                kept = super().own_page(key)
                self.store.put("own page", key, kept)
            self.own_pages[key] = kept
        return self.own_pages[key]


class KeptStandard(Standard):
    """`Standard`, each page of which is read once."""

    def __init__(self, pages: KeptPages) -> None:
        super().__init__(pages)
        self.store = pages.store
        self.rows: dict[tuple[str, int], Impl] = {}
        self.by_place: dict[tuple[str, Optional[str]], list[Impl]] = {}

    def declaration(self, key: str) -> Declaration:
        if key not in self.declarations:
            kept = self.store.get("declaration", key)
            if kept is None:
                kept = super().declaration(key)
                self.store.put("declaration", key, kept)
            self.declarations[key] = kept
        return self.declarations[key]

    def read_trait(self, key: str) -> None:
        if self.store.get("headers", key) is not None:
            return
        before = len(self.found)
        rows = super().impls_of_trait(key)
        headers = self.found[before:]
        del self.found[before:]
        numbers = {id(h): n for n, h in enumerate(headers)}
        self.store.put_impls(key, [(h.text, h.page, h.fate) for h in headers], [(numbers[id(h)], i) for h, i in rows])

    def impls_of_trait(self, key: str) -> list[tuple[Header, Impl]]:
        self.read_trait(key)
        headers = [Header(*entry) for entry in self.store.get("headers", key)]
        self.found += headers
        return [(headers[header], self.row(key, number, data)) for number, header, data in self.store.impls(key, None)]

    def impls_with_head(self, key: str, head: Optional[str]) -> list[Impl]:
        if (key, head) not in self.by_place:
            self.read_trait(key)
            self.by_place[(key, head)] = [self.row(key, number, data) for number, _, data in self.store.impls(key, head)]
        return self.by_place[(key, head)]

    def row(self, trait: str, number: int, data: bytes) -> Impl:
        if (trait, number) not in self.rows:
            self.rows[(trait, number)] = unpacked(data)
        return self.rows[(trait, number)]

    def read_auto_impls(self, key: str) -> list[tuple[str, str, Impl]]:
        kept: Optional[list[tuple[str, str, Impl]]] = self.store.get("autos", key)
        if kept is None:
            kept = super().read_auto_impls(key)
            self.store.put("autos", key, kept)
        return kept

    def traits_on(self, path: str) -> list[str]:
        kept: Optional[list[str]] = self.store.get("traits", path)
        if kept is None:
            kept = super().traits_on(path)
            self.store.put("traits", path, kept)
        return kept

    def read_values(self, key: str) -> dict[str, dict[str, Type]]:
        kept: Optional[dict[str, dict[str, Type]]] = self.store.get("values", key)
        if kept is None:
            kept = super().read_values(key)
            self.store.put("values", key, kept)
        return kept
