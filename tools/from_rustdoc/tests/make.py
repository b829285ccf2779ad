#!/usr/bin/env python3
"""Makes the kept JSON anew: of the crates beside this file, by the rustdoc that is on the PATH, and of the pages of std that they name.

What the translator does not read (documentation, blanket impls) is cut out of both, and functions of all crates but the pairs. With a rustdoc
of another version as its word it makes json/formats.NUMBER.json of that.
"""
from __future__ import annotations

import json
import os
import re
import subprocess
import sys
import tempfile
from typing import Any

HERE = os.path.dirname(os.path.abspath(__file__))
sys.path.insert(0, os.path.dirname(os.path.dirname(HERE)))

from from_rustdoc.later.constant_changes import FREEZE  # noqa: E402
from from_rustdoc.read.cargo import FLAGS, docs_folder  # noqa: E402
from from_rustdoc.read.html_docs import Pages  # noqa: E402
from from_rustdoc.read.standard import COMPUTED  # noqa: E402
from from_rustdoc.tests.pairs import all_pairs, library, rustdoc  # noqa: E402
from from_rustdoc.write.build import AUTO_TRAITS  # noqa: E402

# Each with the crates that it uses.
CRATES: dict[str, list[str]] = {"shapes": [], "before": [], "after": [], "ab": [], "user": ["ab"], "deep": ["ab"], "reasons": [],
                                "names": ["ab"], "read": [], "formats": []}
COMPARED = ("before", "after")
READ = ("struct", "enum", "union", "variant", "struct_field", "trait", "impl", "assoc_type", "module", "use", "extern_crate", "type_alias")
# Pages that no kept crate names, but the translator or a question does.
MORE = ("core/marker/trait.Send.html core/marker/trait.Sync.html core/marker/trait.Unpin.html core/panic/unwind_safe/trait.UnwindSafe.html "
        "core/panic/unwind_safe/trait.RefUnwindSafe.html core/marker/trait.Sized.html core/marker/trait.PointeeSized.html core/marker/trait.MetaSized.html "
        "core/ops/function/trait.FnMut.html core/ops/function/trait.FnOnce.html core/default/trait.Default.html core/fmt/trait.Debug.html core/clone/trait.Clone.html core/marker/trait.Copy.html core/marker/trait.Unsize.html core/cmp/trait.Eq.html "
        "core/marker/trait.StructuralPartialEq.html core/option/enum.Option.html alloc/vec/struct.Vec.html alloc/boxed/struct.Box.html alloc/string/struct.String.html "
        "alloc/alloc/struct.Global.html core/alloc/trait.Allocator.html core/cell/struct.Cell.html core/marker/struct.PhantomData.html "
        "core/iter/traits/collect/trait.IntoIterator.html core/iter/traits/iterator/trait.Iterator.html alloc/vec/struct.IntoIter.html alloc/rc/struct.Rc.html "
        "core/fmt/type.Result.html core/result/enum.Result.html core/fmt/struct.Error.html core/marker/trait.Tuple.html core/num/nonzero/trait.ZeroablePrimitive.html core/num/trait.ZeroablePrimitive.html").split()


def is_kept(impl: dict[str, Any], whole: bool, is_compared: bool) -> bool:
    if impl["blanket_impl"] is not None or impl["trait"] is None:
        return whole and impl["blanket_impl"] is None
    return not impl["is_synthetic"] or is_compared and impl["trait"]["path"] in (*AUTO_TRAITS, FREEZE)


def trimmed(data: dict[str, Any], is_compared: bool, whole: bool = False) -> dict[str, Any]:
    """The parts that are read; all items if the crate is `whole`. Of one that `later` compares the auto traits are kept that rustdoc found."""
    index = {}
    of_traits = {number for item in data["index"].values() if "trait" in item["inner"] and item["crate_id"] == 0 for number in item["inner"]["trait"]["items"]}
    of_impls = {number for item in data["index"].values() if item["inner"].get("impl", {}).get("trait") for number in item["inner"]["impl"]["items"]}
    for number, item in data["index"].items():
        kind, body = next(iter(item["inner"].items()))
        if whole and item["crate_id"] == 0 and kind != "impl" and not (kind == "function" and int(number) in of_impls):
            pass
        elif int(number) in of_traits and kind in ("function", "assoc_const"):
            item["inner"] = {kind: {name: body[name] for name in ("has_body", "value") if name in body}}
        elif item["crate_id"] != 0 or kind not in READ:
            continue
        if kind == "impl" and not is_kept(body, whole, is_compared):
            continue
        for name in ("docs", "links", "deprecation"):
            item.pop(name, None)
        item["span"] = item["span"] and {"filename": os.path.basename(item["span"]["filename"]), "begin": item["span"]["begin"]}
        for name in ("impls", "implementations", "provided_trait_methods"):
            if isinstance(body, dict):
                body.pop(name, None)
        index[number] = item
    text = json.dumps(index)
    named = set(re.findall(r'"id": (\d+)', text))
    paths = {n: p for n, p in data["paths"].items() if n in named}
    crates = {str(p["crate_id"]) for p in paths.values()}
    external = {n: {k: c[k] for k in ("name", "html_root_url")} for n, c in data["external_crates"].items() if n in crates}
    return {"root": data["root"], "crate_version": "1.0.0", "includes_private": True, "index": index, "paths": paths,
            "external_crates": external, "format_version": data["format_version"]}


def crate_json(name: str, folder: str, rustdoc: str = "rustdoc") -> dict[str, Any]:
    source, edition = os.path.join(HERE, "crates", name + ".rs"), ["--edition", "2021"]
    used = [word for other in CRATES.get(name, []) for word in ("--extern", f"{other}={folder}/lib{other}.rmeta")]
    environment = {**os.environ, "RUSTC_BOOTSTRAP": "1"}
    if any(name in others for others in CRATES.values()):
        subprocess.run(["rustc", *edition, "--crate-type", "lib", "--cap-lints", "allow", "--emit", "metadata", source, "--out-dir", folder, *used], check=True,
                       env=environment)
    subprocess.run([rustdoc, "--cap-lints", "allow", *edition, source, "-o", folder, *used, *FLAGS.split()], check=True, env=environment)
    with open(os.path.join(folder, name + ".json"), encoding="utf-8") as handle:
        return trimmed(json.load(handle), name in COMPARED)


def pair_json(version: str, folder: str) -> dict[str, Any]:
    """The library of releases/pairs.txt, all pairs in it."""
    with open(rustdoc(folder, library(all_pairs(), version), version), encoding="utf-8") as handle:
        return trimmed(json.load(handle), True, whole=True)


def write(name: str, data: Any) -> None:
    with open(os.path.join(HERE, "json", name + ".json"), "w", encoding="utf-8") as handle:
        json.dump(data, handle, separators=(",", ":"), sort_keys=True, ensure_ascii=False)


def pages_of(crates: list[dict[str, Any]], pages: Pages) -> dict[str, str]:
    """The pages that the crates name, cut down to declarations and headers of which all links are kept too."""
    wanted: dict[str, None] = {}
    kinds = {"struct": "struct", "enum": "enum", "union": "union", "trait": "trait", "type_alias": "type"}
    for crate in crates:
        for path in crate["paths"].values():
            if path["crate_id"] != 0 and path["kind"] in kinds:
                wanted["/".join(path["path"][:-1] + [f"{kinds[path['kind']]}.{path['path'][-1]}.html"])] = None
    for page in MORE:
        wanted[page] = None
    kept: dict[str, str] = {}
    for path in wanted:
        while pages.read(path) is not None and path not in kept:
            text = pages.read(path) or ""
            kept[path] = text
            path = pages.redirected(path, text) or path
    for path, text in list(kept.items()):
        key = pages.key(path)
        if key and pages.own_page(key) not in kept:
            kept[pages.own_page(key)] = pages.read(pages.own_page(key)) or ""
    keys = {pages.key(path) for path in kept}
    return cut_down(kept, keys, pages)


def has_kept_links(fragment: str, path: str, keys: set[Any], pages: Pages) -> bool:
    for attributes in re.findall(r"<a ([^>]*)>", fragment):
        kind = re.search(r'class="(struct|enum|union|trait|type)"', attributes)
        target = re.search(r'href="([^"#]*)', attributes)
        if kind and target and pages.key(os.path.normpath(os.path.join(os.path.dirname(path), target.group(1)))) not in keys:
            return False
    return True


def cut_down(kept: dict[str, str], keys: set[Any], pages: Pages) -> dict[str, str]:
    small: dict[str, str] = {}
    for path, text in kept.items():
        if pages.redirected(path, text):
            small[path] = re.sub(r"\s+", " ", re.search(r"<meta[^>]*refresh[^>]*>", text).group())  # type: ignore[union-attr]
            continue
        source = re.search(r'<a class="src[^"]*" href="[^"]*">Source', text)
        declared = re.search(r'<pre class="rust item-decl"><code>.*?</code></pre>', text, re.S)
        parts = [source.group() if source else "", shorter_declaration(declared.group()) if declared else ""]
        for header, rest in Pages.impl_sections(text):
            if COMPUTED in text and text.index(COMPUTED) < text.index(header) and COMPUTED not in parts[-1]:
                parts.append(f"<h2 {COMPUTED}></h2>")
            values = "".join(re.findall(r'<section id="associatedtype[^>]*>.*?</section>', rest, re.S))
            if has_kept_links(header + values, path, keys, pages) and "T₁" not in header:
                parts.append(f'<section id="impl-" class="impl"><h3 class="code-header">{shorter(header)}</h3></section>')
                parts += [f'<section id="associatedtype"><h4 class="code-header">{shorter(v)}</h4></section>'
                          for v in re.findall(r'<h4 class="code-header">(.*?)</h4>', values, re.S)]
        named = re.search(r'src="((?:\.\./)*(trait\.impl/[^"]*\.js))"', text)
        if named:
            parts.append(f'<script src="{named.group(1)}">')
            foreign = pages.read(named.group(2))
            if foreign:
                found = re.search(r"Object\.fromEntries\((.*?)\);\n", foreign, re.S)
                entries = [[crate, [[shorter(e[0])] for e in listed if not (len(e) > 1 and e[1] == 1) and has_kept_links(e[0], "x", keys, pages)]]
                           for crate, listed in json.loads(found.group(1))]  # type: ignore[union-attr]
                small[named.group(2)] = f"Object.fromEntries({json.dumps(entries)});\n"
        small[path] = "\n".join(parts)
    for path, text in list(small.items()):
        for target in re.findall(r'href=\\?"([^"#\\]*\.html)', text):
            link = os.path.normpath(os.path.join("" if path.endswith(".js") else os.path.dirname(path), target))
            if link not in small and pages.key(link) in keys and pages.key(link) is not None:
                home = next(k for k in kept if pages.key(k) == pages.key(link) and not pages.redirected(k, kept[k]))
                small[link] = f'<meta http-equiv="refresh" content="0;URL={os.path.relpath(home, os.path.dirname(link))}">'
    return small


def shorter(fragment: str) -> str:
    """Links alone are kept of the markup."""
    fragment = re.sub(r'<div class="where">|<span class="where[^>]*>', " ", fragment)
    return re.sub(r"<(?!/?a\b|br)[^>]*>", "", re.sub(r' title="[^"]*"', "", re.sub("<wbr>", "", fragment)))


def shorter_declaration(text: str) -> str:
    """A declaration up to its body, and the names of the associated types in it."""
    inside = re.search(r"<code>(.*?)</code>", text, re.S).group(1)  # type: ignore[union-attr]
    head, _, body = inside.partition("{")
    body = re.sub(r"<details.*?<summary>|</summary>", "", body, flags=re.S)
    types = re.findall(r'type <a href="#associatedtype\.\w+"[^>]*>', body)
    return f'<pre class="rust item-decl"><code>{shorter(head)}{{{" ".join(types)}</code></pre>'


def main(words: list[str]) -> None:
    """All of it; or the crate `formats` alone by another rustdoc, whose number is in the file's name."""
    with tempfile.TemporaryDirectory() as folder:
        if words:
            other = crate_json("formats", folder, words[0])
            write(f"formats.{other['format_version']}", other)
            return
        crates = {name: crate_json(name, folder) for name in CRATES}
        crates |= {f"pairs_{version}": pair_json(version, folder) for version in ("old", "new")}
    for name, data in crates.items():
        write(name, data)
    write("std", pages_of(list(crates.values()), Pages(docs_folder(None))))


if __name__ == "__main__":
    main(sys.argv[1:])
