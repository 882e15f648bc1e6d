#!/usr/bin/env python3
"""Brings the definitions and lemmas of the repository to the spelling of today's Rattle.

usage: python3 tools/respell.py [--list]       at the top, once, after the toolchain's port.py

Words in snake case: a capital inside a word, and a dash between words, become an underscore. Types, modules, operators, names of the
toolchain's library, functions and fields of src/ keep their names. Of two names that would fall together the lemma, or the field that is
one, ends in _lem. Renames in .antt and .rt files, in must-fail edits, and between backticks in comments and pages. --list prints the pairs
alone.
"""

import collections
import glob
import os
import re
import sys

WORD = r"[^\s(){}\[\],;.@`«»∷\"]+"
MARKS = r"\s*(?:(?:pub|abbrev|unfoldable)\s+)*"
OUR = {os.path.basename(os.path.dirname(p)) for p in glob.glob("crates/*/src")}
# Lemmas that port.py had given these names, which definitions take now.
THERE = ["told_of", "no_second", "told_in", "all_right", "limits_of", "carried_on", "start_at"]
# Arguments of definitions and lemmas.
LOCAL = ["limitT", "limitC", "floorT", "floorC", "storedA", "storedB", "tangentsT", "tangentsC", "lengthsT", "lengthsC", "isAbscissa"]
SKIP = {"use", "module", "infix", "infixl", "infixr", "where", "let", "in", "elim", "record", "unfolding", "open"}


def antt_files():
    return [p for p in sorted(glob.glob("crates/**/*.antt", recursive=True)) if "/out/" not in p]


def rust_files():
    return [p for p in sorted(glob.glob("crates/*/src/**/*.rt", recursive=True)) if "/out/" not in p]


def names_of(path):
    """What a file declares: at the top, in a module _ block, as a field or as a constructor."""
    kind, depth = None, 0
    for line in open(path, encoding="utf-8"):
        if line.strip().startswith("--") or not line.strip():
            continue
        indent = len(line) - len(line.lstrip(" "))
        m = re.match(MARKS + r"(record|data)\s", line)
        if m:
            kind, depth = m.group(1), indent
        elif indent <= depth:
            kind = None
        m = re.match(MARKS + r"(record\s+|data\s+)?([^\s(){}:;,]+(?:\s+[^\s(){}:;,]+)*)\s*(?::\s|:$|\s\(|\s\{)", line)
        if not m:
            continue
        words = m.group(2).split()
        if words[0] in SKIP or any(w in words for w in "=→λ"):
            continue
        if m.group(1):
            yield words[0]
        elif indent <= 6 and (kind or re.match(MARKS + re.escape(words[0]) + r"\s*:", line)):
            yield from words


def declared():
    """Names of definitions, lemmas, fields and constructors; a function's own proof file has none that others see."""
    names = collections.OrderedDict()
    walks = ("Proof.antt", "Answers.antt", "Invariants.antt")
    for part in ("specs", "proofs"):
        for p in antt_files():
            if f"/{part}/" in p and not (part == "proofs" and os.path.basename(p) in walks):
                names.update((n, None) for n in names_of(p))
    return names


def imported():
    """Names that come from the toolchain's library."""
    names = set()
    for p in antt_files() + rust_files():
        for line in open(p, encoding="utf-8"):
            m = re.match(r"\s*(?:ghost )?(?:pub )?use ([^\s{;]+)\.\{([^}]*)\}", line)
            if m:
                parts = m.group(1).split(".")
                if not (parts[0] == "Rattle" and parts[1] in OUR):
                    names |= {w.strip().split(" as ")[0] for w in m.group(2).split(",")}
    return names


def respelled(name):
    if re.search(r"[◌≤<≈*+ℤ≡∷]", name) or not re.match(r"[a-z]", name):
        return name
    new = re.sub(r"(?<=[a-z0-9])([A-Z]+)(?=[A-Z][a-z]|[^A-Za-z]|$)", lambda m: "_" + m.group(1).lower(), name)
    new = re.sub(r"(?<=[a-z0-9])([A-Z])", lambda m: "_" + m.group(1).lower(), new)
    return new.lower().replace("-", "_").replace("′", "'")


def new_names():
    """Old and new names: of two that fall together the lemma, the one with a dash or the one that was there, gets _lem."""
    own, lib = declared(), imported()
    out = {n: respelled(n) for n in own if respelled(n) != n and n not in lib}
    count = collections.Counter(out.values())
    for old, new in list(out.items()):
        if "-" in old and (count[new] > 1 or new in own or new in THERE):
            out[old] = new + "_lem"
    taken = set(out.values())
    out.update((n, n + "_lem") for n in THERE if n in taken)
    out.update((n, respelled(n)) for n in LOCAL)
    return out


def turned(text, names):
    return re.sub(WORD, lambda m: names.get(m.group(0), m.group(0)), text)


def turned_ticks(text, names):
    return re.sub(r"`([^`\n]*)`", lambda m: "`" + turned(m.group(1), names) + "`", text)


def turned_line(line, mark, names):
    """A line of code, whose comment begins at the mark."""
    at = line.find(mark)
    return turned(line, names) if at < 0 else turned(line[:at], names) + turned_ticks(line[at:], names)


def rewrite(path, turn):
    old = open(path, encoding="utf-8").read()
    new = "\n".join(turn(line) for line in old.split("\n"))
    if new != old:
        open(path, "w", encoding="utf-8").write(new)


def main(argv):
    names = new_names()
    if argv == ["--list"]:
        print("\n".join(f"{old} {new}" for old, new in names.items()))
        return 0
    for p in antt_files():
        rewrite(p, lambda line: turned_line(line, "--", names))
    # A lemma's suffix is no matter of src/, where a function may have that name.
    in_src = {old: new for old, new in names.items() if old not in THERE}
    for p in rust_files():
        rewrite(p, lambda line: turned_line(line, "//", in_src))
    for p in sorted(glob.glob("crates/*/must-fail/*.edit")):
        rewrite(p, lambda line: turned(line, names) if line[:5] in ("old: ", "new: ") else line)
    for p in ["README.md", "checks/README.md"] + sorted(glob.glob("docs/**/*.md", recursive=True)):
        rewrite(p, lambda line: turned_ticks(line, names))
    print(len(names), "names")
    return 0


if __name__ == "__main__":
    raise SystemExit(main(sys.argv[1:]))
