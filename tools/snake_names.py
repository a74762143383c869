#!/usr/bin/env python3
"""Brings the names that this repository's own definitions and laws have to snake case: `crcByte` and `crc-is` to `crc_byte` and `crc_is`.

usage: python3 tools/snake_names.py [--list]        at the top of the repository, once, behind port.py

Names are those that files of specs/ and of proofs/ declare (those of a function's own folder, which Rattle's names fill,
aside). Types and modules keep their names, and so do functions of src/, strings, and what a library calls its own. Where a
definition and a law would fall together, the law gets `_lem`. Each name is changed wherever it stands: in definitions, laws,
contracts, comments and the pages. `--list` prints the table and writes nothing.
"""

import glob
import re
import sys

# what would fall together with another name where both are in scope
APART = {
    "is-number": "is_number_lem",
    "told-held": "told_held_lem",
    "told-free": "told_free_lem",
    "first-at": "first_at_place",
    "skipAt": "skip_at_place",
    "kind-at": "kind_at_lem",
    "isFree": "is_free_slot",
    "isLong": "is_long_ubx",
    # a law of this name stood before the definition's came to be spelled so
    "too_many": "too_many_lem",
}
TOKEN = re.compile(r"«[^»]*»|[A-Za-zℕℤ_][\w'₀-₉-]*")
DECLARED = re.compile(r"\s*(?:abbrev |unfoldable )?(?:pub )?(?:abbrev |unfoldable )?(?:data |record )?([A-Za-z][^\s:(){}]*)(?: \{[^:]*\}| \([^:]*\))* :")
MEMBERS = re.compile(r"\s*(?:pub )?([a-z][^\s:(){}]*(?: [a-z][^\s:(){}]*)*) :")


def snake(name):
    name = re.sub(r"([a-z0-9₀-₉])([A-Z])", lambda m: m.group(1) + "_" + m.group(2).lower(), name)
    return name.replace("-", "_")


def own_folder(path):
    return re.search(r"/proofs/.+/(Proof|Answers|Invariants)\.antt$", path)


def declared():
    names = set()
    for path in glob.glob("crates/*/specs/**/*.antt", recursive=True) + glob.glob("crates/*/proofs/**/*.antt", recursive=True):
        if own_folder(path):
            continue
        for line in open(path, encoding="utf-8"):
            line = line.split("--")[0]
            m = DECLARED.match(line)
            if m:
                names.add(m.group(1))
            m = MEMBERS.match(line)
            if m:
                names.update(m.group(1).split())
    return names


def table():
    names = {n for n in declared() if not n[0].isupper() and ("-" in n or re.search(r"[a-z0-9][A-Z]", n))}
    camel = {snake(n) for n in names if "-" not in n}
    out = {}
    for n in sorted(names):
        to = APART.get(n) or snake(n)
        if "-" in n and n not in APART and to in camel:
            to += "_lem"
        out[n] = to
    out["too_many"] = APART["too_many"]
    return out


def turn(text, names):
    return TOKEN.sub(lambda m: names.get(m.group(0), m.group(0)), text)


def turn_comment(text, names):
    """A comment, a page: what stands between backquotes, and names that no English word is spelled like."""
    camel = {k: v for k, v in names.items() if "-" not in k and "_" not in k}
    return turn(re.sub(r"`[^`\n]+`", lambda m: turn(m.group(0), names), text), camel)


def turn_lines(text, names, mark):
    out = []
    for line in text.split("\n"):
        at = line.find(mark)
        at = len(line) if at < 0 else at
        out.append(turn(line[:at], names) + turn_comment(line[at:], names))
    return "\n".join(out)


def turn_rattle(text, names):
    """A source file: strings stay as they are."""
    parts = re.split(r'(//[^\n]*|"(?:[^"\\\n]|\\.)*")', text)
    return "".join(p if p.startswith('"') else turn_comment(p, names) if p.startswith("//") else turn(p, names) for p in parts)


def turn_function(text, names):
    """A function's own proof: a field keeps Rattle's name where that has a dash."""
    return TOKEN.sub(
        lambda m: m.group(0)
        if "-" in m.group(0) and (text[m.start() - 1 : m.start()] == "." or re.match(r"\s+(:|c\b)", text[m.end() : m.end() + 3]) and text[: m.start()].endswith("\n"))
        else names.get(m.group(0), m.group(0)),
        text,
    )


def main():
    names = table()
    if "--list" in sys.argv[1:]:
        for old, new in names.items():
            print(old, new)
        return
    for path in (
        glob.glob("crates/*/specs/**/*.antt", recursive=True)
        + glob.glob("crates/*/proofs/**/*.antt", recursive=True)
        + glob.glob("crates/*/src/**/*.rt", recursive=True)
        + glob.glob("crates/*/*/*.edit")
        + glob.glob("*.md")
        + glob.glob("docs/**/*.md", recursive=True)
    ):
        text = open(path, encoding="utf-8").read()
        if path.endswith((".md", ".edit")):
            new = turn_comment(text, names)
        elif path.endswith(".rt"):
            new = turn_rattle(text, names)
        elif own_folder(path):
            new = turn_function(text, names)
        else:
            new = turn_lines(text, names, "--")
        if new != text:
            open(path, "w", encoding="utf-8").write(new)


if __name__ == "__main__":
    main()
