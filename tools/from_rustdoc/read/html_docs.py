"""The documents of the standard library as the toolchain brings them (component `rust-docs`): pages, and keys of items.

An item's key is its source file and first line with its kind and name: the pages on which one item is documented, as
`std::vec::Vec` and `alloc::vec::Vec`, agree in these alone. (They give different last lines.)
"""
from __future__ import annotations

import functools
import json
import os
import re
from typing import Iterator, Optional

from .headers import Named_, NotUnderstood, Reader

KINDS = {"struct": "struct", "enum": "enum", "union": "union", "trait": "trait", "type_alias": "type", "primitive": "primitive"}
LINKED = ("struct", "enum", "union", "trait", "type")
CRATES = ("core", "alloc", "std")
# What rustdoc prints of a pattern type, `*const T is !null`: how the compiler holds the pattern.
HELD_PATTERN = "is TyPat {"


def unescaped(text: str) -> str:
    import html
    return html.unescape(text)


def is_std_key(key: str) -> bool:
    return key.startswith("std:")


def rust_crate_of(key: str) -> str:
    """The crate of Rust that declares the item of std: `core`, `alloc`, `std` .."""
    return key[4:].split("/")[1]


def kind_and_name(key: str) -> tuple[str, str]:
    kind, name = key.split("@")[1].split(".")[:2]
    return kind, name


def with_patterns(header: str) -> str:
    """The header with patterns as Rust writes them: `!null`, and `_` for all others."""
    before, held, after = header.partition(HELD_PATTERN)
    if not held:
        return header
    depth = 1
    for end, letter in enumerate(after):
        depth += (letter == "{") - (letter == "}")
        if depth == 0:
            pattern = "!null" if "kind: NotNull" in after[:end] else "_"
            return f"{before}is {pattern}{with_patterns(after[end + 1:])}"
    return header


def json_folder(html_folder: str) -> Optional[str]:
    """The folder of std's JSON next to that of its HTML documents, if the component is installed."""
    folder = os.path.join(os.path.dirname(html_folder.rstrip("/")), "json")
    return folder if all(os.path.exists(os.path.join(folder, c + ".json")) for c in CRATES) else None


class Pages:
    """The pages below a folder, or those in one file of JSON that has the text of each."""

    def __init__(self, root: str) -> None:
        self.root = root.rstrip("/") + "/"
        self.archive: Optional[dict[str, str]] = None
        if root.endswith(".json"):
            with open(root, encoding="utf-8") as file:
                self.archive = json.load(file)
        self.kept: dict[str, tuple[str, str]] = {}
        self.keys: dict[str, Optional[str]] = {}
        self.first_page: dict[str, str] = {}
        self.all_items: dict[str, list[str]] = {}

    @functools.cached_property
    def version(self) -> str:
        """The version of std that the documents are of, as `1.95.0` or `nightly`; empty where they do not say."""
        found = re.search(r'data-channel="([^"]*)"', self.read("core/index.html") or "")
        return found.group(1) if found else ""

    def read(self, path: str) -> Optional[str]:
        if self.archive is not None:
            return self.archive.get(path)
        try:
            with open(self.root + path, encoding="utf-8", errors="replace") as file:
                return file.read()
        except OSError:
            return None

    def data(self, path: str) -> bytes:
        """The bytes of a page, none where there is no page."""
        if self.archive is not None:
            return self.archive.get(path, "").encode()
        try:
            with open(self.root + path, "rb") as file:
                return file.read()
        except OSError:
            return b""

    @staticmethod
    def redirected(path: str, text: str) -> Optional[str]:
        if len(text) < 2000 and 'http-equiv="refresh"' in text:
            target = re.search(r'URL=([^"]*)"', text)
            if target:
                return os.path.normpath(os.path.join(os.path.dirname(path), target.group(1)))
        return None

    def page(self, path: str) -> tuple[str, str]:
        """The page after redirects: its path and text."""
        for _ in range(4):
            if path in self.kept:
                return self.kept[path]
            text = self.read(path)
            if text is None:
                raise NotUnderstood(f"no page {path}")
            further = self.redirected(path, text)
            if further is None:
                self.kept[path] = (path, text)
                if len(self.kept) > 60:
                    self.kept.pop(next(iter(self.kept)))
                return path, text
            path = further
        raise NotUnderstood(f"too many redirects at {path}")

    def key(self, path: str) -> Optional[str]:
        """The key of the item that the page documents. None if there is no page."""
        if path in self.keys:
            return self.keys[path]
        key = None
        text = self.read(path)
        if text is not None:
            further = self.redirected(path, text)
            if further is not None:
                key = self.key(further)
            else:
                source = re.search(r'<a class="src[^"]*" href="([^"]*)">Source', text)
                if source:
                    place = os.path.normpath(os.path.join(os.path.dirname(path), source.group(1)))
                    place = re.sub(r"(#\d+)-\d+$", r"\1", place)
                    kind, name = os.path.basename(path).split(".")[:2]
                    key = f"std:{place}@{kind}.{name}"
                    home = place.split("/")[1]
                    known = self.first_page.get(key)
                    if known is None or (known.split("/")[0] != home and path.split("/")[0] == home):
                        self.first_page[key] = path
        self.keys[path] = key
        return key

    def key_of_path(self, words: list[str], kind: str) -> Optional[str]:
        """The key of the item of std with this path and kind (as rustdoc's JSON calls kinds)."""
        if kind not in KINDS:
            return None
        return self.key("/".join(words[:-1] + [f"{KINDS[kind]}.{words[-1]}.html"]))

    def key_of_any_kind(self, words: list[str]) -> Optional[str]:
        for kind in LINKED:
            key = self.key("/".join(words[:-1] + [f"{kind}.{words[-1]}.html"]))
            if key:
                return key
        return None

    def key_of_re_export(self, words: list[str]) -> Optional[str]:
        """The key of what a module of std has by a `pub use` that is documented as such."""
        place = "/".join(words[:-1]) + "/index.html"
        for attributes, name in re.findall(r"<code>pub use [^;]*?<a ([^>]*)>([^<]*)</a>;", self.read(place) or ""):
            kind, target = re.search(r'class="([a-z]+)"', attributes), re.search(r'href="([^"#]*)"', attributes)
            if name == words[-1] and kind and target and kind.group(1) in LINKED:
                return self.key(os.path.normpath(os.path.join(os.path.dirname(place), target.group(1))))
        return None

    def own_page(self, key: str) -> str:
        """The path of the item's page in the crate that declares it, if there is one."""
        path = self.first_page[key]
        home = rust_crate_of(key)
        if path.split("/")[0] == home:
            return path
        same = home + "/" + path.split("/", 1)[1]
        if self.key(same) == key:
            return same
        if home not in self.all_items:
            self.all_items[home] = re.findall(r'<li><a href="([^"]*)">', self.read(home + "/all.html") or "")
        for page in self.all_items[home]:
            if os.path.basename(page) == os.path.basename(path) and self.key(home + "/" + page) == key:
                return home + "/" + page
        return path

    def rust_path(self, key: str) -> list[str]:
        """The item's path as Rust writes it."""
        words = self.own_page(key)[:-len(".html")].split("/")
        return words[:-1] + [words[-1].split(".")[1]]

    # ---- marked text
    def reader(self, fragment: str, path: str) -> Reader:
        """A reader of the fragment of the page at `path`, in which each link to an item is a path by itself."""
        links: list[tuple[str, str, str]] = []

        def mark(found: re.Match[str]) -> str:
            attributes, name = found.group(1), re.sub("<[^>]*>", "", found.group(2))
            kind = re.search(r'class="([a-z]+)"', attributes)
            target = re.search(r'href="([^"#]*)', attributes)
            if kind and target and kind.group(1) in LINKED and not target.group(1).startswith("http"):
                page = os.path.normpath(os.path.join(os.path.dirname(path), target.group(1)))
                links.append((kind.group(1), page, unescaped(name)))
                return f" \x01{len(links) - 1}\x02 "
            return name

        text = re.sub(r'<details.*?</details>|<div class="docblock">.*?</div>', " ", fragment, flags=re.S)
        text = re.sub(r"<a ([^>]*)>(.*?)</a>", mark, text, flags=re.S)
        text = re.sub(r'<br\s*/?>|<div class="where">|<span class="where[^>]*>', " ", text)
        text = unescaped(re.sub("<[^>]*>", "", text)).replace("\xa0", " ")

        def lookup(words: list[str]) -> Named_:
            if words[-1].startswith("\x01"):
                kind, page, name = links[int(words[-1][1:-1])]
                return kind, self.key(page), name
            return "word", None, words[-1]

        return Reader(text, lookup)

    @staticmethod
    def plain(fragment: str) -> str:
        return " ".join(unescaped(re.sub("<[^>]*>", "", re.sub(r"<br\s*/?>", " ", fragment))).split())

    @staticmethod
    def impl_sections(text: str) -> Iterator[tuple[str, str]]:
        """The headers of the impls on a page, each with what follows it up to the next."""
        for found in re.finditer(r'<section id="(impl-[^"]*)" class="impl[^"]*">(.*?)</section>(.*?)(?=<section id="impl-|<h2 |$)', text, re.S):
            header = re.search(r'<h3 class="code-header">(.*?)</h3>', found.group(2), re.S)
            if header:
                yield with_patterns(header.group(1)), found.group(3)

    def foreign_headers(self, trait_page: str, page_text: str) -> Iterator[tuple[str, str]]:
        """The impls of a trait in other crates of std: crate and header. They are in the script that the page names."""
        named = re.search(r'src="(?:\.\./)*(trait\.impl/[^"]*\.js)"', page_text)
        if not named:
            raise NotUnderstood(f"{trait_page} names no list of impls in other crates")
        text = self.read(named.group(1))
        if text is None:
            return
        found = re.search(r"Object\.fromEntries\((.*?)\);\n", text, re.S)
        if not found:
            raise NotUnderstood(f"trait.impl of {trait_page} has another form than this script knows")
        for crate, entries in json.loads(found.group(1)):
            for entry in entries:
                if not (len(entry) > 1 and entry[1] == 1):
                    yield crate, with_patterns(entry[0])
