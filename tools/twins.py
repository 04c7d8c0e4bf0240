#!/usr/bin/env python3
"""Lists functions of crates/*/src that have one shape: the same text once names, numbers and texts are left out.

Usage: python3 tools/twins.py [FOLDER]   (FOLDER holds crates/; the top of the repository where none is given)

Clauses and comments are left aside, so that twins with contracts of different words are found. Tests and functions
of one line are not listed. Each group is printed with the lines that its members have, the longest first."""
import pathlib
import re
import sys

TOKEN = re.compile(r"b?\"[^\"]*\"|b?'[^']'|[A-Za-z_][A-Za-z_0-9]*|[0-9][0-9_a-zA-Z]*|[^\sA-Za-z_0-9]")
KEYWORDS = set("as break const else enum false fn for if impl in let loop match mut pub ref return self Self true use "
               "while Some None Ok Err u8 u16 u32 u64 usize i32 i64 bool".split())
# Words of the language and of the library stay; types that a twin may differ in do not.
DIFFER = set("u8 u16 u32 u64 usize i32 i64".split())


def functions(text):
    """Each function's name, its line and the text of its signature and body, clauses left out."""
    lines = text.split("\n")
    at = 0
    while at < len(lines):
        start = re.match(r"\s*(?:pub(?:\(crate\))? )?(?:extern \"C\" )?fn ([a-z_0-9]+)", lines[at])
        if not start:
            at += 1
            continue
        begun, depth, kept, opened = at, 0, [], False
        while at < len(lines):
            line = lines[at]
            code = re.sub(r"//.*", "", line)
            if not re.match(r"\s*(requires|ensures|ghost)\b", code):
                kept.append(code)
                body = re.sub(r"b?'[{}]'|\"[^\"]*\"", "", code)
                depth += body.count("{") - body.count("}")
                opened = opened or "{" in body
                if (opened and depth == 0) or (not opened and code.rstrip().endswith(";")):
                    break
            at += 1
        yield start.group(1), begun + 1, "\n".join(kept)
        at += 1


def shape(text):
    out = []
    for token in TOKEN.findall(text):
        if re.match(r"[A-Za-z_]", token) and token not in KEYWORDS - DIFFER:
            out.append("n")
        elif re.match(r"[0-9]|b?[\"']", token):
            out.append("0")
        else:
            out.append(token)
    return " ".join(out)


def main():
    top = pathlib.Path(sys.argv[1] if len(sys.argv) > 1 else ".")
    groups = {}
    for path in sorted(top.glob("crates/*/src/**/*.rt")):
        if path.parts[-3].endswith("_tests") or path.name == "tests.rt":
            continue
        for name, line, text in functions(path.read_text()):
            if len(text.strip().split("\n")) > 3:
                groups.setdefault(shape(text), []).append((path.relative_to(top), line, name, text.count("\n") + 1))
    twins = sorted((g for g in groups.values() if len(g) > 1), key=lambda g: -g[0][3])
    for group in twins:
        print(f"{len(group)} of {group[0][3]} lines")
        for path, line, name, _ in group:
            print(f"  {path}:{line} {name}")
    print(f"{len(twins)} groups, {sum(len(g) for g in twins)} functions")


main()
