#!/usr/bin/env python3
"""Turns the names that this repository's specs/ and proofs/ declare to the spelling of today's Rattle.

Run once, at the top, right after the kit's port.py. Definitions, lemmas and fields become snake case; a dash stays only where it joins the
names of two definitions, as in 'rounded_z-neg'. Names of src/, answers (which Rattle names) and strings are left alone.
With --list it only prints what it would do.
"""
import os
import re
import subprocess
import sys

TOKEN = re.compile(r"[^\s(){}\[\];,.\"λ\\|]+")
DECLARED = re.compile(r"^(\s*)(?:(?:abbrev|unfoldable|pub|opaque)\s+)*([^\s:(){}\"]+)\s*:\s+(.*)$")
SHAPE = re.compile(r"^\s*(?:pub\s+)?(?:record|data)\s+([^\s:(){}]+)")
# names of the library that the older spelling of our own names was made of
WORDS = {"natAbs": "unsigned_abs", "getD": "get_or", "ofBits": "from_bits"}
# names that would fall together with another, and what they are called
APART = {
    "below-zero": "below_zero_lem",
    "is-place": "is_place_lem",
    "last-after": "last_after_lem",
    "one-record": "one_record_lem",
    "records-after": "records_after_lem",
    "station-at": "station_at_lem",
    "take-back-edges": "take_back_edges_lem",
    "zero-signed": "signed_zero",
    "inUse": "is_in_use",
}
# the same for names that port.py had turned before, in the files where they would fall together
APART_IN = {
    "crates/geomath/proofs/Normalized.antt": {"left_over": "left_over_lem"},
    "crates/history/proofs/Expenses.antt": {"point_at": "point_at_lem"},
    "crates/history/proofs/Spending.antt": {"point_at": "point_at_lem"},
    "crates/rows/proofs/Rotations.antt": {"turned_left": "turned_left_lem"},
}
LIBRARY = set(
    "length take drop map set neg add sub mul div rem lt le eq sqrt fits round closest size append replicate reverse abs value sum insert remove cond has codes bits up down low high prec".split()
)


def texts():
    for top, dirs, files in os.walk("crates"):
        dirs[:] = sorted(d for d in dirs if d != "out")
        for name in sorted(files):
            if name.endswith((".antt", ".rt")):
                yield os.path.join(top, name)


def snake(part):
    if not (re.match(r"[a-z]", part) and re.search(r"[A-Z]", part)):
        return part
    for old, new in WORDS.items():
        part = part.replace(old, new)
    part = re.sub(r"([a-z0-9'])([A-Z])", r"\1_\2", part)
    part = re.sub(r"([A-Z])([A-Z][a-z])", r"\1_\2", part)
    return part.lower()


def declared():
    """(all names, definitions among them, fields): answers and names of operators are left out."""
    names, definitions, fields = set(), set(), set()
    for path in texts():
        if not path.endswith(".antt"):
            continue
        own = os.path.basename(path) in ("Answers.antt", "Invariants.antt")
        record = False
        for line in open(path, encoding="utf-8"):
            if line.strip().startswith("--"):
                continue
            shape = SHAPE.match(line)
            if shape:
                record = True
                names.add(shape[1])
                definitions.add(shape[1])
                continue
            if line.strip() and not line[0].isspace():
                record = False
            match = DECLARED.match(line)
            if not match or match[2] in ("let", "in") or "◌" in match[2]:
                continue
            indent, name, kind = match[1], match[2], match[3]
            if own and re.match(r"(goal|need)\.", kind):
                continue
            if line.strip().startswith("let "):
                continue
            names.add(name)
            if record and indent:
                fields.add(name)
            elif "/specs/" in path or line.lstrip().startswith(("abbrev", "unfoldable")):
                definitions.add(name)
    return names, definitions, fields


def plan():
    names, definitions, fields = declared()
    known = definitions | LIBRARY
    turned = {}
    for name in sorted(names):
        if name in APART:
            turned[name] = APART[name]
            continue
        if name in fields and name not in definitions:
            new = "_".join(snake(part) for part in name.split("-"))
        else:
            parts = name.split("-")
            new = ("-" if all(part in known for part in parts) else "_").join(snake(part) for part in parts)
        if new != name:
            turned[name] = new
    return turned


def tokens_of(paths):
    seen = {}
    for path in paths:
        for token in TOKEN.findall(open(path, encoding="utf-8").read()):
            seen.setdefault(token, set()).add(path)
    return seen


def turn(path, text, turned):
    comment = "--" if path.endswith(".antt") else "//"
    lines = []
    for line in text.split("\n"):
        at = re.search(r"(?:^|\s)" + re.escape(comment) + r"(?:\s|$)", line)
        code, rest = (line[: at.start()], line[at.start():]) if at else (line, "")
        parts = re.split(r'("(?:[^"\\]|\\.)*")', code)
        parts[::2] = [TOKEN.sub(lambda m: turned.get(m[0], m[0]), part) for part in parts[::2]]
        rest = re.sub(r"`([^`]*)`", lambda m: "`" + TOKEN.sub(lambda n: turned.get(n[0], n[0]), m[1]) + "`", rest)
        lines.append("".join(parts) + rest)
    return "\n".join(lines)


def main():
    turned = plan()
    paths = list(texts())
    seen = tokens_of(paths)
    backs = {}
    for old, new in turned.items():
        backs.setdefault(new, []).append(old)
    for new, olds in sorted(backs.items()):
        if len(olds) > 1:
            print(f"fall together: {' '.join(olds)} -> {new}")
        if new in seen:
            print(f"stands already: {' '.join(olds)} -> {new}: {' '.join(sorted(seen[new])[:6])}")
    if "--list" in sys.argv:
        for old, new in sorted(turned.items()):
            print(f"{old} -> {new}")
        return
    for path in paths:
        text = open(path, encoding="utf-8").read()
        new = turn(path, text, turned | APART_IN.get(path, {}))
        if new != text:
            open(path, "w", encoding="utf-8").write(new)
    print(f"{len(turned)} names")


main()
