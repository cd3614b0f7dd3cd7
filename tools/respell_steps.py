#!/usr/bin/env python3
"""Respells, in the proof files of functions, the names that Rattle makes: a name of the source keeps its own spelling in them,
and Rattle's own words are in snake case, as in returns-then-not-is_name for returns-then-not-is-name.

usage: python3 tools/respell_steps.py     at the top of the repository
"""

import os
import re

OWN = """in_ok in_err in_default slice_bounds invariant_of from_residual overflow_add overflow_sub overflow_mul overflow_step overflow_cast
overflow_shl overflow_shr nonzero_div nonzero_rem offset_bounds type_inv well_formed known_told told_self text_at
shared_slice_known from_output as_ref as_mut into_iter""".split()
TOKEN = re.compile(r"[A-Za-z0-9_'-]+")


def read(path):
    with open(path, encoding="utf-8") as f:
        return f.read()


def each(endings):
    for folder, dirs, names in os.walk("crates"):
        dirs[:] = sorted(d for d in dirs if d != "out")
        for n in sorted(names):
            if n.endswith(endings):
                yield os.path.join(folder, n)


def main():
    source = set(OWN)
    cycles = set()
    for path in each((".rt",)):
        cycles |= set(re.findall(r"#\[cycle\((\w+)\)\]", read(path)))
        source |= set(re.findall(r"\b[A-Za-z][A-Za-z0-9]*(?:_[A-Za-z0-9]+)+\b", read(path)))
    source -= cycles
    for path in each(("Answers.antt", "Invariants.antt")):
        text = read(path)
        kept = set()
        for line in re.findall(r"(?m)^use Rattle\.(?!\w+\.proofs\.[^{]*(?:Goals|Given)).*$", text):
            kept |= set(TOKEN.findall(line))

        def turned(m):
            t = m.group(0)
            if "-" not in t or t in kept:
                return t
            parts, out, i = t.split("-"), [], 0
            while i < len(parts):
                for j in range(len(parts), i, -1):
                    whole = "_".join(parts[i:j])
                    low = whole[:1].lower() + whole[1:]
                    if j == i + 1 or whole in source or low in source:
                        out.append(whole)
                        i = j
                        break
            return "-".join(out)

        new = "\n".join(l if l.lstrip().startswith("--") else TOKEN.sub(turned, l) for l in text.split("\n"))
        if new != text:
            with open(path, "w", encoding="utf-8") as f:
                f.write(new)


if __name__ == "__main__":
    main()
