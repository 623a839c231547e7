#!/usr/bin/env python3
"""Brings this repository's own definitions and lemmas to today's spelling; run once, at the top, right after port.py.

Words are in snake case. In the name of a lemma a dash stays only between two names, as in `length-put`; a plain word is
added with an underscore. Names from Rattle source and exported names stay as they are, and so do types and modules.
"""

import pathlib
import re

TOKEN = re.compile(r"[A-Za-z_ℤσκμ+◌][A-Za-z0-9_'₁₂₃ℤ+◌-]*")
NOTE = re.compile(r"--.*")
PLAIN = "abbrev|unfoldable|pub|private|recursive|opaque"
DECLARED = re.compile(rf"^(?P<indent>\s*)(?P<marks>(?:(?:{PLAIN})\s+)*)(?P<name>[^\s:(){{}}.]+) : (?P<type>.*)")
# Names that an import gives, that the edits alone cite, or that stand before a type of several lines.
OTHERS = "argumentText spacedText listingText tableA sourceOf runOf nextOf andThen edgesInto cellsOf".split()
# Names of the library that a lemma's name may join.
LIBRARY = set("length take drop append set sets get_or map replicate xor cond suc add cases".split())


def walks(path):
    return path.name == "Proof.antt"


def files(*suffixes):
    return sorted(p for s in suffixes for p in pathlib.Path("crates").rglob("*" + s) if "out" not in p.parts)


def snake(word):
    """A name in camel case, in snake case: hardenedTable is hardened_table."""
    return re.sub(r"([a-z0-9])([A-Z])(?=[a-z]|$|_)", lambda m: m[1] + "_" + m[2].lower(), word)


def declared():
    """The names that the specs and the lemma files declare, and those of them that are definitions."""
    names, definitions = set(), set()
    for path in files(".antt"):
        if walks(path):
            continue
        for line in path.read_text().split("\n"):
            found = DECLARED.match(NOTE.sub("", line))
            if not found or found["name"].startswith("λ") or "|" in found["name"]:
                continue
            names.add(found["name"])
            if "abbrev" in found["marks"] or "unfoldable" in found["marks"]:
                definitions.add(found["name"])
    return names, definitions


def respelled(name, definitions):
    if re.match(r"[A-Z]", name) or "◌" in name:
        return name
    words = [word if re.match(r"[A-Z]", word) else snake(word) for word in name.split("-")]
    known = LIBRARY | {snake(d) for d in definitions if "-" not in d}
    out = words[0]
    for before, word in zip(words, words[1:]):
        out += ("-" if before in known and word in known else "_") + word
    return out


def main():
    names, definitions = declared()
    new = {name: respelled(name, definitions) for name in sorted(names)}
    for spelling in {s for s in new.values() if list(new.values()).count(s) > 1}:
        # A definition has the name, and the lemma about it gets `_lem`.
        lemmas = [name for name in new if new[name] == spelling and name not in definitions]
        others = [name for name in new if new[name] == spelling and name in definitions]
        for lemma in lemmas if others else lemmas[1:]:
            new[lemma] = spelling + "_lem"
        if len(others) > 1 or list(new.values()).count(spelling) > 1 or list(new.values()).count(spelling + "_lem") > 1:
            print(f"falls together: {spelling}")
    new = {old: name for old, name in new.items() if old != name} | {name: snake(name) for name in OTHERS}
    for path in files(".antt", ".rt", ".edit"):
        text = path.read_text()
        turned = TOKEN.sub(lambda m: new.get(m[0], m[0]), text)
        if turned != text:
            path.write_text(turned)
    print(f"respelled: {len(new)} names")


main()
