#!/usr/bin/env python3
"""Brings the names of the repository's own definitions and lemmas to today's spelling, once, after the kit's port.py.

usage: python3 tools/spelling.py [--list]     at the top of the repository

Words are in snake case (blockLength is block_length); a dash stays between two names of functions (length-tabulate) and turns to `_` before
or after a plain word (tabulate_front). Types and modules keep their capitals. A list's element is `get_or` in names too, as in the library.
A law that would fall together with a definition gets `_lem`. What port.py has spelled with `_` stays as it is.
The names are those that the files of specs/ and proofs/ declare, but for the names of goals and of the proofs of functions, which Rattle
makes. They are changed where they stand as words: in .antt and .rt files, in must-fail edits, and between backticks in pages. Names of
functions of src/ are not touched. Stops where two names would still fall together; --list prints old and new names and changes nothing.
"""

import glob
import os
import re
import subprocess
import sys

WORD = re.compile(r"[A-Za-z0-9_'\u2080-\u2089\u00b2\u00b3\u03b1-\u03c9-]+")
DECLARED = re.compile(r"^\s*(?:abbrev |unfoldable |pub |record |data )*([^\s(){}.,;:]+)(?: \{[^}]*\})? :(?=\s|$)(.*)", re.M)
GOAL = re.compile(r"(returns|loop|add|sub|mul|cast|shl|shr|index|slice|shared|range|overflow|div|rem|step|measure|decreases|invariant|bounds)(-.*)?-?\d*$|.*-requires(-\d+)?$")
LIBRARY = """length get_or set take drop replicate append cons nil suc zero add sub mul div mod min max and or not cond bit_xor xor eqb leb ltb pow
sum map reverse""".split()
PLAIN = """all at before by core correct end fields first front held here in is king left less lines made more name named next no none of one other
own part past piece present pre read rest right root row run said same seen sent set settled shared silent size some start state step table
text to total whole with word yes zero""".split()


def read(path):
    with open(path, encoding="utf-8") as f:
        return f.read()


def snake(word):
    word = re.sub(r"(?<=[a-z0-9])([A-Z])", lambda m: "_" + m.group(1), word)
    parts = word.split("_")
    # a capital alone names a set or a polynomial, and stays
    return "_".join(p if len(p) == 1 or (p[:1].isupper() and parts.index(p) == 0) else p[:1].lower() + p[1:] for p in parts)


def declared():
    """Own names: those of specs/, and all of them; a name of proofs/FUNCTION that is a goal's or the function's proof is none."""
    specs, all_names = set(), set()
    for path in sorted(glob.glob("crates/*/specs/**/*.antt", recursive=True)):
        for m in DECLARED.finditer(read(path)):
            specs.add(m.group(1))
    all_names |= specs
    for path in sorted(glob.glob("crates/*/proofs/**/*.antt", recursive=True)):
        inner = path.split("/proofs/")[1].count("/") > 0
        for m in DECLARED.finditer(read(path)):
            if inner and (re.match(r"\s*(?:tie|steps|tie-\w+)\.|\s*$", m.group(2)) or m.group(1).endswith(("-spec", "_spec")) or GOAL.match(m.group(1))):
                continue
            all_names.add(m.group(1))
    return specs, {n for n in all_names if re.fullmatch(r"[A-Za-z0-9][A-Za-z0-9_'-]*", n)}


def imported():
    """Names of the library that some file imports: they have today's spelling."""
    names = set()
    for path in glob.glob("crates/**/*.antt", recursive=True) + glob.glob("crates/**/*.rt", recursive=True):
        for root, inside in re.findall(r"use ([\w.'-]+)\.\{([^}]*)\}", read(path)):
            if not root.startswith("Rattle.") or root.split(".")[1] in ("std", "core", "std_alloc", "std_collections", "io"):
                names |= {n.split(" as ")[0].strip() for n in inside.split(",")}
    return names


def new_name(name, known):
    if name[:1].isupper() and not re.match(r"[A-Z](-|$)", name):
        return name
    if name.startswith("get_d_"):
        name = "getD-" + name[6:].replace("_", "-")
    elif "_" in name:
        return name
    parts = []
    for p in name.split("-"):
        parts.append("get_or" if p == "getD" else snake(p))
    pieces, i = [], 0
    while i < len(parts):
        for j in range(len(parts), i, -1):
            whole = "_".join(parts[i:j])
            if whole in known:
                pieces.append((whole, True))
                i = j
                break
        else:
            pieces.append((parts[i], False))
            i += 1
    out = pieces[0][0]
    for (_, before), (piece, named) in zip(pieces, pieces[1:]):
        out += ("-" if before and named else "_") + piece
    return out


def camel(name):
    return "-" not in name and "_" not in name


def main():
    specs, names = declared()
    library = imported()
    known = {snake(n) for n in specs if "-" not in n and not n[:1].isupper()} - set(PLAIN) | set(LIBRARY)
    turn = {n: new_name(n, known) for n in names - library}
    taken = {new for n, new in turn.items() if camel(n)}
    for n, new in turn.items():
        if not camel(n) and new.replace("-", "_") in taken:
            turn[n] = new.replace("-", "_") + "_lem"
    bad = False
    by_new = {}
    for n, new in sorted(turn.items()):
        # a law that port.py spelled in some files alone is one name
        if new in library or by_new.setdefault(new, n).replace("_", "-") != n.replace("_", "-"):
            print(f"fall together: {n} and {by_new.get(new, new)}: {new}")
            bad = True
    turn = {n: new for n, new in sorted(turn.items()) if n != new}
    if "--list" in sys.argv:
        for n, new in turn.items():
            print(n, new)
        return 0
    if bad:
        return 1

    def word(m):
        old = m.group(0)
        new = turn.get(old, old)
        # after a dot stands a field, of a call of the function of that name
        if new.endswith("_lem") and m.start() and m.string[m.start() - 1] == ".":
            return new[:-4]
        return new

    def source_word(m):
        return turn.get(m.group(0), m.group(0)) if re.search("[A-Z-]", m.group(0)) else m.group(0)

    tracked = subprocess.run(["git", "ls-files", "-z"], capture_output=True, text=True, check=True).stdout.split("\0")
    for path in tracked:
        if not os.path.isfile(path) or os.path.islink(path):
            continue
        if re.match(r"crates/[^/]+/(specs|proofs)/.*\.antt$", path):
            text = read(path)
            new = WORD.sub(word, text)
        elif re.match(r"crates/[^/]+/src/.*\.rt$|crates/[^/]+/must-fail/.*\.edit$", path):
            text = read(path)
            new = WORD.sub(source_word, text)
        elif path.endswith(".md"):
            text = read(path)
            new = re.sub(r"`[^`\n]*`", lambda m: WORD.sub(word, m.group(0)), text)
        else:
            continue
        if new != text:
            with open(path, "w", encoding="utf-8") as f:
                f.write(new)
    return 0


if __name__ == "__main__":
    raise SystemExit(main())
