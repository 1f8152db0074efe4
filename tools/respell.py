#!/usr/bin/env python3
"""Brings the repository's own definitions, fields and lemmas to the toolchain's spelling: words in snake case.

usage: tools/respell.py          at the top of the repository, once, after the toolchain's own script has turned it

A name that specs/ or proofs/ declare, as validSize or bin-lt, becomes valid_size or bin_lt, in the .antt and .rt files, the must-fail edits and the
documents. Types, modules, functions of src/, exported C names, strings, inputs and outputs keep theirs; so does a name where a file brings it from a library
of the toolchain, and what a proof of a function calls its answers. What would fall together with another name is in TOGETHER.
"""
import collections
import glob
import re
import sys

TOKEN = re.compile(r'[^\s(){}.;,@"«»\[\]`]+')
DECLARED = re.compile(r"(?m)^(\s*)((?:(?:abbrev|unfoldable|pub|private)\s+)*)([^\s:(){}.;,@\"«»]+)((?:\s*\{[^}]*\})*)\s*:(?=\s)(.*)$")
USE = re.compile(r"(?m)^\s*(?:pub\s+|ghost\s+)*use\s+([^\s{;]+?)(?:\.\{([^}]*)\}|\s+as\s+\S+)?;?\s*$")
# Lemmas that would take the name of a definition, or of the library's.
TOGETHER = {
    "carried-words": "carried_words_is",
    "carry-unread": "carry_unread_is",
    "each-short": "each_short_is",
    "earlier-fed": "earlier_fed_is",
    "feed-unread": "feed_unread_is",
    "in-units": "in_units_is",
    "lane-of": "lane_of_is",
    "left-bytes": "left_bytes_is",
    "numbers-from": "numbers_from_is",
    "sampler-room": "sampler_room_is",
    "sizes-of": "sizes_of_is",
    "store-needed": "store_needed_is",
    "tested-blocks": "tested_blocks_is",
    "valid-size": "valid_size_is",
    "valid-width": "valid_width_is",
    "bit-or": "bit_of_or",
    "bit-and": "bit_of_and",
    "bit-xor": "bit_of_xor",
}
# The same in one file.
IN_FILE = {"crates/exchange/proofs/Written.antt": {"is_digit": "digit_is"}}


def snake(name):
    if name[0].isupper() and "-" not in name:
        return name
    name = name.replace("-", "_")
    if name[0].isupper():
        return name
    return re.sub(r"(?<=[a-z0-9])([A-Z])", lambda m: "_" + m.group(1).lower(), name)


def read(path):
    with open(path, encoding="utf-8", newline="") as f:
        return f.read()


def antt_files():
    return sorted(glob.glob("crates/*/specs/**/*.antt", recursive=True) + glob.glob("crates/*/proofs/**/*.antt", recursive=True))


def without_comments(text):
    return re.sub(r"--[^\n]*", "", text)


def declared():
    names = collections.defaultdict(set)
    for path in antt_files():
        for m in DECLARED.finditer(without_comments(read(path))):
            if m.group(3) in ("let", "where", "use", "mod", "module", "record", "_"):
                continue
            if re.match(r"\s*tie\.", m.group(5)):
                continue
            names[m.group(3)].add(path)
    return names


def of_library(text):
    """The names that a file brings from a library of the toolchain."""
    out = set()
    for m in USE.finditer(without_comments(text)):
        if m.group(2) and not (m.group(1).startswith("Rattle.") and m.group(1).split(".")[1] in CRATES):
            out |= {it.split()[0] for it in m.group(2).split(",") if it.strip()}
    return out


CRATES = {line.split(":")[0].strip() for line in read("crates.txt").splitlines() if ":" in line and not line.startswith("#")}


def table():
    names = declared()
    to = {n: TOGETHER.get(n) or snake(n) for n in names}
    return names, {n: s for n, s in to.items() if s != n}


def turned(text, to, keep):
    return TOKEN.sub(lambda m: to.get(m.group(0), m.group(0)) if m.group(0) not in keep else m.group(0), text)


def turn_rust(text, to, keep):
    """Clauses, ghost items and comments; strings stay."""
    return re.sub(r'"(?:[^"\\]|\\.)*"|[^"]+', lambda m: m.group(0) if m.group(0).startswith('"') else turned(m.group(0), to, keep), text)


def turn_page(text, to):
    return re.sub(r"`[^`\n]*`", lambda m: turned(m.group(0), to, ()), text)


def main(argv):
    names, to = table()
    back = collections.defaultdict(set)
    for n in names:
        back[to.get(n, n)].add(n)
    together = {s: ns for s, ns in back.items() if len(ns) > 1}
    if argv == ["--list"]:
        for n in sorted(to):
            print(n, to[n])
        for s, ns in sorted(together.items()):
            print("together:", s, {n: sorted(names[n])[:4] for n in ns})
        for path in antt_files():
            text = without_comments(read(path))
            lib = of_library(text)
            tokens = set(TOKEN.findall(text))
            for n in tokens:
                if n in to and n not in lib and to[n] in lib:
                    print("with the library:", path, n, to[n])
                if n in to and to[n] in tokens and to[n] not in names:
                    print("with a local name:", path, n, to[n])
        return 0
    for path in antt_files() + sorted(glob.glob("crates/*/src/**/*.rt", recursive=True)) + sorted(glob.glob("crates/*/must-fail/*.edit")):
        text = read(path)
        keep = of_library(text)
        to_here = {**to, **IN_FILE.get(path, {})}
        new = turn_rust(text, to_here, keep) if path.endswith((".rt", ".edit")) else turned(text, to_here, keep)
        if new != text:
            with open(path, "w", encoding="utf-8", newline="") as f:
                f.write(new)
    for path in ["README.md"] + sorted(glob.glob("docs/**/*.md", recursive=True)) + sorted(glob.glob("tools/**/*.md", recursive=True)) + ["differential/README.md"]:
        text = read(path)
        new = turn_page(text, to)
        if new != text:
            with open(path, "w", encoding="utf-8", newline="") as f:
                f.write(new)
    return 0


if __name__ == "__main__":
    raise SystemExit(main(sys.argv[1:]))
