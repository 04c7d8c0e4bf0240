#!/usr/bin/env python3
"""Brings this repository's own definitions and lemmas to the spelling of today's Rattle.

usage: python3 tools/rename_words.py [--look]      at the top of a checkout, after port.py, once

Words (definitions, lemmas, fields of records, constructors, aliases of imports) go into snake case, facts and types into
upper camel case: `entry-file` becomes `entry_file`, `noRemark` becomes `no_remark`, `Drawn-from` becomes `DrawnFrom`.
Names that Rattle makes (goals, invariants, measures, steps), names of src/, strings and comments stay as they are.
With --look nothing is written: the renaming is printed, with the names that would fall together.
"""

import os
import re
import sys

NAME = r"[A-Za-z][A-Za-z0-9_'-]*"
TOKEN = re.compile(r"(?<![A-Za-z0-9_'-])" + NAME)
DECLARED = re.compile(r"^\s*(?:(?:abbrev|unfoldable|pub|data|record)\s+)*(" + NAME + r")(?=\s)")
ALIAS = re.compile(r"\bas (" + NAME + ")")
# Where two names would fall together, the one that gives way.
GIVES_WAY = {"noStep": "absent_step"}


def files(kind):
    for folder, _, names in os.walk("crates"):
        if "/out" not in folder:
            for n in sorted(names):
                if n.endswith(kind):
                    yield os.path.join(folder, n)


def read(path):
    with open(path, encoding="utf-8") as f:
        return f.read()


def no_comment(line, mark):
    at = line.find(mark)
    return line if at < 0 else line[:at]


def has_type(rest):
    """Whether a colon stands outside brackets, after parameters at most: the line declares what it begins with."""
    depth = 0
    for i, c in enumerate(rest):
        if c in "({":
            depth += 1
        elif c in ")}":
            depth -= 1
        elif depth == 0:
            if rest.startswith(" : ", i) or rest[i:] == " :":
                return True
            if not (c.isalnum() or c in " _'-"):
                return False
    return False


def declared():
    """The names that the repository's specs/ and proofs/ declare, but for those that a goal's name fixes."""
    found = {}
    for path in files(".antt"):
        for line in read(path).splitlines():
            line = no_comment(line, "-- ")
            if re.search(r":\s+goal\.", line):
                continue
            m = DECLARED.match(line)
            if m and has_type(line[m.end():]) and m.group(1) not in ("let", "use", "in", "module", "elim", "record"):
                found.setdefault(m.group(1), set()).add(path)
            c = re.match(r"^\s+(?:pub )?(" + NAME + r") : ", line)
            if c:
                found.setdefault(c.group(1), set()).add(path)
            if re.match(r"^\s*(pub )?use ", line):
                for a in ALIAS.findall(line):
                    found.setdefault(a, set()).add(path)
    for path in files(".rt"):
        for line in read(path).splitlines():
            if line.lstrip().startswith(("ghost use", "pub ghost use")):
                for a in ALIAS.findall(line):
                    found.setdefault(a, set()).add(path)
    return found


def made(name):
    """Names that the check asks for, which keep its spelling."""
    return re.match(r"(invariant|decreases)-", name) is not None


def spelled(name):
    if name in GIVES_WAY:
        return GIVES_WAY[name]
    if name[0].isupper():
        parts = name.split("-")
        return parts[0] + "".join(p[:1].upper() + p[1:] for p in parts[1:])
    snake = re.sub(r"(?<=[a-z0-9])([A-Z])", lambda m: "_" + m.group(1).lower(), name)
    return snake.replace("-", "_")


def imported():
    """Names that come from the kit's libraries, which stay."""
    kit = set()
    for kind in (".antt", ".rt"):
        for path in files(kind):
            for m in re.finditer(r"use (?:Rattle\.(?:std|core)\.|mathlib\.|Prim\.|lib\.|borrow\.|denote\.)[^{;\n]*\{([^}]*)\}", read(path)):
                for item in m.group(1).split(","):
                    kit.add(item.strip().split(" as ")[0].strip())
    return kit


def turned(text, names, mark):
    def one(m):
        return names.get(m.group(0), m.group(0))

    out = []
    for line in text.split("\n"):
        code = no_comment(line, mark)
        rest = line[len(code):]
        parts = re.split(r'(b?"(?:[^"\\]|\\.)*")', code) if mark == "//" else [code]
        out.append("".join(p if i % 2 else TOKEN.sub(one, p) for i, p in enumerate(parts)) + rest)
    return "\n".join(out)


def source_names():
    """Fields, constants, types and aliases of src/, which a word of a clause must not share."""
    found = set()
    for path in files(".rt"):
        for line in read(path).splitlines():
            m = re.match(r"^\s+(?:pub )?([a-z_0-9]+): [^{]*,$", line)
            if m:
                found.add(m.group(1))
            m = re.match(r"^\s*(?:pub )?(?:ghost|const|static|struct|enum|type) ([A-Za-z_0-9]+)", line)
            if m:
                found.add(m.group(1))
    return found


def main(argv):
    kit, own = imported(), declared()
    names = {n: spelled(n) for n in own if not made(n) and n not in kit}
    names = {n: s for n, s in names.items() if n != s}
    look = "--look" in argv
    if look:
        for n in sorted(names):
            print(n, names[n])
        taken, source = set(own) | kit, source_names()
        after = {}
        for n, s in names.items():
            after.setdefault(s, []).append(n)
        for s, ns in sorted(after.items()):
            if len(ns) > 1 or s in taken:
                print("TOGETHER", s, ns, "kit" if s in kit else "", sorted(own.get(s, ())))
            if s in source:
                print("SOURCE", s, ns)
        return 0
    for kind, mark in ((".antt", "-- "), (".rt", "//")):
        for path in files(kind):
            old = read(path)
            new = turned(old, names, mark)
            if new != old:
                with open(path, "w", encoding="utf-8") as f:
                    f.write(new)
    print(f"{len(names)} names respelled")
    return 0


if __name__ == "__main__":
    raise SystemExit(main(sys.argv[1:]))
