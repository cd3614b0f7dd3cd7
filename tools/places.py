#!/usr/bin/env python3
"""Lists the places of the code that an older design left: run at the top of a checkout, with `-v` for each place.

The numbers are those of the points of docs/DESIGN-PASS.md. A pattern finds candidates; the page says which were read as
places. A pattern that finds too much is told from one that finds too little by the second count of that page."""
import collections
import glob
import re
import sys

SRC = sorted(glob.glob("crates/*/src/**/*.rt", recursive=True))
ANSWERS = sorted(glob.glob("crates/*/proofs/**/*.antt", recursive=True))

LINES = {
    "1a a call that answers whether it worked": r"fn \w+(<.*>)?\(&mut self.*\) -> bool",
    "1b a flag in a struct": r"^\s+(pub(\(\w+\))? )?\w+: bool,$",
    "1c a number for a kind or a refusal": r"^(pub )?const [A-Z_]+: u(8|64) = |^\s+\d+(\.\.=\d+)?( \| \d+)* => |Err\(.*\) => \d|-> \(u8, usize\)",
    "1d a match that a method of Option or Result is": r"^\s+((None|Err\(_\)|Some\(_\)) => (true|false|None|Err\(|\d|Refusal|match)|Some\((\w+)\) => (\4,|\4$|Some\(\4 )|Ok\((\w+)\) => Ok\(\5\),|Some\((\w+)\) => Ok\(\6\),)|if let Some\(_\)",
    "3a a loop over an index": r"for \w+ in 0\.\.[^{]*(len\(\)|\d+)[^{]*\{|for \w+ in \w+ \+ 1\.\.",
    "3b a loop that only searches, counts or folds": r"^\s+for .* in .*\{$",
    "3c a count by hand": r"saturating_add\(1\)|fn one\(",
    "4a an impl by hand": r"^impl.* (Clone|Copy|PartialEq|Eq|PartialOrd|Ord|Default|Debug|Hash) for ",
    "4b a comparison, conversion or print by a function of its own": r"fn (same|is_word|cause_of|raised|in_order|mark_for|either|takes|opposed|one_if_open|one|is_digit|mark_word|reading_line|put_number|push_number|refuse|twice)\b",
    "6a a buffer with its length beside": r"^\s+\w+: \[\w+; \d+\],$",
    "6b an index into a parallel list": r"place_at|ranks: |places: Table",
    "7a a flag that picks the step": r"value_due: bool|fn push_if",
}


def facts(path):
    """The clauses of a file, each as its fact."""
    text = open(path).read()
    return re.findall(r"(?:requires|ensures)(?: \w+)? \{ (.*?) \}$", text, re.M)


def functions(path):
    """Name and number of parameters of each function of a file."""
    text = open(path).read()
    for m in re.finditer(r"fn (\w+)(?:<[^(]*>)?\(([^{;]*?)\)(?: ->|\s*(?:requires|ensures|\{|where|$))", text, re.S | re.M):
        depth, count = 0, 1 if m.group(2).strip() else 0
        for ch in m.group(2).strip().rstrip(","):
            depth += ch in "<([" and 1 or ch in ">)]" and -1 or 0
            count += ch == "," and depth == 0
        yield m.group(1), count


def main():
    verbose = "-v" in sys.argv
    for name, pattern in LINES.items():
        found = [
            (f, n, line.strip())
            for f in SRC
            for n, line in enumerate(open(f), 1)
            if re.search(pattern, line)
        ]
        print(f"{name}: {len(found)}")
        if verbose:
            for f, n, line in found:
                print(f"    {f}:{n}: {line}")
    names = collections.Counter((f.split("/")[1] + "::" + n).split("::")[1] for f in SRC for n, _ in functions(f))
    alike = {n: k for n, k in names.items() if k > 1 and n not in ("main", "new", "len", "run")}
    print(f"2 names that several functions have: {len(alike)}")
    if verbose:
        print("    " + ", ".join(f"{n} {k}" for n, k in sorted(alike.items())))
    clauses = collections.Counter(c for f in SRC for c in set(facts(f)) for _ in range(facts(f).count(c)))
    often = {c: k for c, k in clauses.items() if k >= 3}
    print(f"5a facts that stand in three clauses or more: {len(often)}")
    if verbose:
        for c, k in sorted(often.items(), key=lambda x: -x[1]):
            print(f"    {k} {c}")
    wide = [(f, n, k) for f in SRC for n, k in functions(f) if k >= 5]
    print(f"5b functions of five parameters or more: {len(wide)}")
    if verbose:
        for f, n, k in wide:
            print(f"    {f}: {n} {k}")
    answers = sum(len(re.findall(r"^pub [\w\-']+ : goal\.", open(f).read(), re.M)) for f in ANSWERS)
    lines = sum(open(f).read().count("\n") for f in ANSWERS)
    print(f"8 answers in proofs/: {answers}, lines: {lines}")


if __name__ == "__main__":
    main()
