#!/usr/bin/env python3
"""Brings the repository's own definitions and lemmas to today's spelling: words in snake case, types in upper camel case.

usage: respell.py [--list] [ROOT]

ROOT is the top of a checkout, the current folder unless given. To be run once, after the kit's port.py. It turns whole words
in crates/*/specs, crates/*/proofs, in the clauses, ghost items and comments of crates/*/src, in crates/*/must-fail, and in the
code spans of README.md and docs/. What turns is what a file of specs/ or proofs/ declares with a dash in its name. A dash stays
where it joins the names of two functions (KEPT), and a name that a file brings in from the kit stays in that file. --list prints
the table and writes nothing. A new name that was in use before is told as 'together:'.
"""

import os
import re
import sys

DECLARES = re.compile(r"^\s*(?:(?:pub|abbrev|unfoldable|pattern|data|record|where) )*([^\s(){}.;,@\"«»:]+)(?: [^:=]*)? :(?: |$)")
PARAMETERS = re.compile(r"^(?:pub |abbrev |unfoldable )*(?:record|data|module) ([^\s(){}.;,@\"«»:]+) (?:[({].*[)}] )*: ")
BROUGHT = re.compile(r"use Rattle\.(\w+)\.[\w.]*\{([^}]*)\}")
WORD = re.compile(r"[^\s(){}\[\].;,@\"«»|`]+")
SPAN = re.compile(r"`[^`\n]*`")

# A dash joins two names: a definition with another, or with a word of the library.
KEPT = {"bit-and", "bit-or", "nth-map", "before-le", "size-le", "count-le", "largest-le", "before-through"}

# Types in camel case, and a name whose head was a word of the older library.
GIVEN = {"Calls-decide": "CallsDecide", "So-far": "SoFar", "getD-same": "get_or_same"}

# A name that would fall together with a function's gets another ending.
GIVEN |= {"alike-outcomes": "alike_outcomes_lem", "jobs-run": "jobs_run_lem", "one-outcome": "one_outcome_lem"}
GIVEN |= {"reply-to": "reply_for", "replies-to": "replies_for", "run-time": "run_time_of", "in-range": "row_in_range"}


def files(root):
    for top in ("crates", "docs"):
        for folder, below, names in os.walk(os.path.join(root, top)):
            below[:] = sorted(b for b in below if b != "out")
            for name in sorted(names):
                if name.endswith((".rt", ".antt", ".edit", ".md")):
                    yield os.path.join(folder, name)
    yield os.path.join(root, "README.md")


def read(path):
    with open(path, encoding="utf-8") as f:
        return f.read()


def is_declaring(path):
    """A file of definitions or lemmas, and not the proof of one function."""
    return path.endswith(".antt") and re.search(r"crates/\w+/(specs|proofs)/\w+\.antt$", path) is not None


def table(paths):
    names = set()
    for path in filter(is_declaring, paths):
        for line in read(path).splitlines():
            code = line.split("-- ")[0].rstrip()
            for form in (PARAMETERS, DECLARES):
                found = form.match(code)
                if found and "-" in found[1].strip("-"):
                    names.add(found[1])
    return {n: GIVEN.get(n, n.replace("-", "_")) for n in sorted(names) if n not in KEPT}


def turned(text, words):
    """What stands right behind 'c.' is a step of a proof, which is named after the source."""
    return WORD.sub(lambda m: m[0] if re.search(r"(?<![\w'])c\.$", text[: m.start()][-3:]) else words.get(m[0], m[0]), text)


def respelled(path, words):
    text = read(path)
    kit = {n for lib, names in BROUGHT.findall(text) if not is_own(lib) for n in re.split(r"[,\s]+", names)}
    words = {old: new for old, new in words.items() if old not in kit}
    if path.endswith(".md"):
        return text, SPAN.sub(lambda m: turned(m[0], words), text)
    if not path.endswith(".antt"):
        return text, turned(text, words)
    lines = []
    for line in text.split("\n"):
        code, dashes, said = line.partition("-- ")
        lines.append(turned(code, words) + dashes + SPAN.sub(lambda m: turned(m[0], words), said))
    return text, "\n".join(lines)


def is_own(library):
    return os.path.isdir(os.path.join(ROOT, "crates", library))


def main(argv):
    global ROOT
    ROOT = ([a for a in argv if not a.startswith("--")] or ["."])[0]
    paths = list(files(ROOT))
    words = table(paths)
    before = {w for p in paths if not p.endswith(".md") for w in WORD.findall(read(p))}
    for old, new in words.items():
        if new in before:
            print(f"together: {old} -> {new}")
        elif "--list" in argv:
            print(f"{old} -> {new}")
    if "--list" in argv:
        return 0
    count = 0
    for path in paths:
        old, new = respelled(path, words)
        if new != old:
            count += 1
            with open(path, "w", encoding="utf-8") as f:
                f.write(new)
    print(f"respelled {len(words)} names in {count} files")
    return 0


if __name__ == "__main__":
    raise SystemExit(main(sys.argv[1:]))
