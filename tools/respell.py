#!/usr/bin/env python3
"""Respells the repository's own definitions, lemmas, fields and constructors as the library spells its own:
words in snake case, facts and types in camel case, a dash only between the name of a list function and its argument.

usage: python3 tools/respell.py     at the top of the repository, once, after the kit's own script has turned it

It goes by the names that specs/ and proofs/ declare, and turns them wherever they stand: there, in the clauses of src/ and in
the edits of must-fail/. Names of the code, and the names that Rattle gives to goals and steps, stay as they are.
"""

import os
import re

# names that would fall together with another one, and what they are called instead
APART = {
    "after-head": "after_head",
    "allLinked": "every_node_linked",
    "afterId": "after_id_of",
    "afterPaths": "after_paths_of",
    "afterTarget": "after_target_of",
    "after_head": "after_head_of",
    "afterHead": "after_head_of",
    "offered-to": "offered_to_lem",
    "sign-for": "sign_for_lem",
    "getD-in": "get_or_in",
    # a tactic's word
    "ground": "on_ground",
}
# an alias and variables, which no declaration shows
LOCAL = {"signToken": "sign_token", "at-word": "at_word", "is-not": "is_not"}
# list functions of the library, before whose name a dash stays
HEADS = {"length", "map", "take", "drop", "append", "filter", "reverse"}
NAME = r"[^\s(){}\[\]⟨⟩,;:.λ·→×↦|`]+"
DECLARED = re.compile(rf"^(?:pub )?(?:(?:abbrev|unfoldable) )?(?:pub )?(?:record |data |ruleset )?({NAME})(?=[^\n]*\s:\s)", re.M)
INNER = re.compile(rf"^ +(?:abbrev )?(?:pub )?(?:abbrev )?(?:record |data )?({NAME}) (?:[^\n=]*)?: ", re.M)
TOKEN = re.compile(NAME)


def files():
    for folder, dirs, names in os.walk("crates"):
        dirs[:] = sorted(d for d in dirs if d != "out")
        for n in sorted(names):
            if n.endswith((".antt", ".rt", ".edit")):
                yield os.path.join(folder, n)


def read(path):
    with open(path, encoding="utf-8") as f:
        return f.read()


def turned(name):
    if name in APART:
        return APART[name]
    if name[0].isupper() and "_" in name and "-" in name:
        return name
    if name[0].isupper():
        return "".join(p[:1].upper() + p[1:] for p in re.split("[-_]", name))
    name = re.sub(r"(?<=[a-z0-9])([A-Z])(?=[a-z0-9_-]|$)", lambda m: "_" + m.group(1).lower(), name)
    parts = name.split("-")
    if len(parts) == 2 and parts[0] in HEADS and parts[1] in HEADS | {"items"}:
        return name
    return "_".join(parts)


def generated(text):
    return set(re.findall(r"goal\.([^\s(){}.,]+)", text))


def declared():
    own, made = set(), set()
    for path in files():
        if not path.endswith(".antt"):
            continue
        text = read(path)
        made |= generated(text)
        own |= set(DECLARED.findall(text)) | set(INNER.findall(text))
    return {n for n in own - made if n[0].isalpha() and re.fullmatch(r"[A-Za-z0-9_'-]+", n)}


def respelled(text, names):
    def line(l):
        here = {n: t for n, t in names.items() if n != "ground"} if l.lstrip().startswith(("--", "//")) else names
        return TOKEN.sub(lambda m: here.get(m.group(0), m.group(0)), l)

    return "\n".join(line(l) for l in text.split("\n"))


def main():
    own = declared()
    names = {n: turned(n) for n in own if turned(n) != n}
    names |= LOCAL
    clash = sorted((n, t) for n, t in names.items() if t in own or sum(u == t for u in names.values()) > 1)
    for n, t in clash:
        print(f"look: {n} becomes {t}, which stands already")
    for path in files():
        old = read(path)
        if path.endswith(".antt"):
            new = respelled(old, names)
        else:
            inside = {n: t for n, t in names.items() if "-" in n or n != n.lower() and n[0].islower()}
            new = re.sub(r"(?<=\.)ground\b", APART["ground"], respelled(old, inside))
        if new != old:
            with open(path, "w", encoding="utf-8") as f:
                f.write(new)
    print(f"{len(names)} names respelled")


if __name__ == "__main__":
    main()
