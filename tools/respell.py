#!/usr/bin/env python3
"""Brings this repository's own names to the spelling that today's Rattle has: words in snake case, a dash only between two names.

usage: tools/respell.py         at the top, once, after port.py and before any edit by hand

port.py respells what Rattle's library respelled, and those names of ours that look alike. This turns the others: `pagesOf` is
`pages_of`, `still-growing` is `still_growing`, `length-setSize` is `length-set_size`. Where a lemma would fall together with a
definition or with another lemma it ends in `_lem`. Code, exported names, strings, inputs and outputs keep their names.
Must-fail edits and the pages get the new names too, those of port.py included, which it reads off LANDED.
"""

import glob
import re
import subprocess
import sys

LANDED = "b945bbdd88ba7e6d003d4c4b0f9013b24927337d"
HEAD = re.compile(r"^\s*((?:abbrev |unfoldable |open |pub |data |record )*)([^\s(){}\[\];:,.\"]+) (?::|[({].*:)")
TOKEN = re.compile(r"[^\s(){}\[\];,.:\"`«»|]+")
CAMEL = re.compile(r"^[a-z][a-z0-9]*[A-Z]")
# names of the library that stand in ours, so that a dash beside one joins two names
WORDS = {"length", "take", "drop", "append", "get_or", "replicate", "splice"}
# words of ours that the library has under another name, and names of the library that ours may not take
OTHER = {"getD": "get_or"}
LIBRARY = {"bit_or", "bit_and", "bit_xor"}


def heads(text):
    found = []
    for line in text.splitlines():
        m = HEAD.match(line)
        if m and not line.lstrip().startswith("--") and m.group(2) not in ("use", "module", "where", "let", "elim"):
            found.append((m.group(2), m.group(1)))
    return found


def lemma_files():
    return [p for p in sorted(glob.glob("crates/*/specs/**/*.antt", recursive=True) + glob.glob("crates/*/proofs/*.antt")) if "/out/" not in p]


def snake(word):
    word = OTHER.get(word, word)
    if not CAMEL.match(word):
        return word
    word = re.sub(r"([a-z])([0-9])", r"\1_\2", word) if re.search(r"[a-z]In?[A-Z]|Bits[0-9]", word) else word
    return re.sub(r"(?<=[a-z0-9])([A-Z])", lambda m: "_" + m.group(1).lower(), word).lower()


def spelled(name, definitions):
    """A dash stays where it joins two names, one of them not a plain word."""

    def known(part):
        return CAMEL.match(part) or "_" in part and part in definitions or OTHER.get(part, part) in WORDS

    parts = name.split("-")
    new = snake(parts[0])
    for before, part in zip(parts, parts[1:]):
        two = all(known(p) or p in definitions for p in (before, part)) and (known(before) or known(part))
        new += ("-" if two else "_") + snake(part)
    return new


def by_port():
    """What port.py made of our names: the heads of a file stand in one order before and after it."""
    turned = {}
    for path in lemma_files():
        old = subprocess.run(["git", "show", f"{LANDED}:{path}"], capture_output=True, text=True)
        if old.returncode:
            continue
        a, b = heads(old.stdout), heads(open(path).read())
        if len(a) == len(b):
            turned.update({x[0]: y[0] for x, y in zip(a, b) if x[0] != y[0]})
    return turned


def mapping():
    all_names, definitions = {}, set()
    for path in lemma_files():
        for name, marks in heads(open(path).read()):
            all_names.setdefault(name, set()).add(path)
            if "/specs/" in path and ("abbrev" in marks or "unfoldable" in marks):
                definitions.add(name)
    turn = {}
    for name in all_names:
        if re.search(r"[^\x00-\x7f]", name) or name[0].isupper() and "-" not in name:
            continue
        new = spelled(name, definitions)
        if new != name:
            turn[name] = new
    taken = {}
    for name in sorted(all_names, key=lambda n: (n not in definitions, n in turn, n)):
        new = turn.get(name, name)
        if new in LIBRARY or new in taken and taken[new] != name:
            print(f"together: {name} and {taken.get(new, 'the library')} at {new}", file=sys.stderr)
            new += "_lem"
            turn[name] = new
        taken[new] = name
    return turn


def in_text(text, turn):
    def other(m):
        new = turn.get(m.group(0), m.group(0))
        # behind a dot stands a field, a file or a step of the code, and no lemma
        return m.group(0) if new.endswith("_lem") and text[m.start() - 1 : m.start()] == "." else new

    return TOKEN.sub(other, text)


def in_antt(text, turn):
    camel = {a: b for a, b in turn.items() if "-" not in a}
    lines = []
    for line in text.split("\n"):
        code, dashes, said = line.partition("-- ") if not line.startswith("--") else ("", "--", line[2:])
        if dashes and code.strip() == "" and line.startswith("--"):
            lines.append("--" + in_said(said, turn, camel))
        else:
            lines.append(in_text(code, turn) + (dashes + in_said(said, turn, camel) if dashes else ""))
    return "\n".join(lines)


def in_said(text, turn, camel):
    """Prose: a name in backticks, or one in camel case, which is no word of English."""
    text = re.sub(r"`[^`]*`", lambda m: in_text(m.group(0), turn), text)
    return in_text(text, camel)


def in_rust(text, turn):
    return in_text(text, {a: b for a, b in turn.items() if CAMEL.match(a) and "-" not in a})


def in_edit(text, turn):
    text = re.sub(r"Rattle·(\w+)·specs\.specs\.", r"Rattle.\1.specs.", text).replace("Rattle·", "Rattle.").replace("′", "'")
    text = re.sub(r"(?<=[\w')]) \.(?=\w)", ".", text)
    text = re.sub(r"(?<= )\(([\w']+(?:\.\w+)+)\)", r"\1", text)
    return in_text(text, turn)


def write(path, new):
    if new != open(path).read():
        with open(path, "w") as f:
            f.write(new)


def main():
    turn, port = mapping(), by_port()
    both = {a: turn.get(b, b) for a, b in port.items()} | {a: b for a, b in turn.items() if a not in port.values()}
    for path in glob.glob("crates/**/*.antt", recursive=True):
        write(path, in_antt(open(path).read(), turn))
    for path in glob.glob("crates/**/*.rt", recursive=True):
        write(path, in_rust(open(path).read(), turn))
    for path in glob.glob("crates/*/must-fail/*.edit"):
        write(path, in_edit(open(path).read(), both))
    for path in ["README.md", *glob.glob("docs/*.md"), *glob.glob("docs/changes/*.md"), *glob.glob("host/*.md")]:
        camel = {a: b for a, b in both.items() if "-" not in a and CAMEL.match(a)}
        write(path, in_said(open(path).read(), both, camel))
    for old, new in sorted(both.items()):
        print(old, new)


main()
