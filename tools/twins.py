#!/usr/bin/env python3
"""Finds functions that differ only in names, types and numbers.

usage: python3 tools/twins.py TREE

TREE is a checkout. Prints each pair of functions of crates/*/src whose bodies, of at least three lines, are the same where each name
is taken for one name and each number for one number; then how many pairs there are.
"""
import glob
import re
import sys

LEAST = 3
KEPT = {"let", "mut", "if", "else", "while", "loop", "for", "in", "match", "return", "break", "as", "true", "false"}


def plain(line):
    """The line with one name for all names, and one number for all numbers."""
    line = re.sub(r"[A-Za-z_][A-Za-z0-9_]*", lambda m: m.group() if m.group() in KEPT else "n", line)
    return re.sub(r"\b[0-9]+", "0", line)


def bodies(path):
    """The functions of a file: their names and the plain lines of their bodies, which rt fmt lays out."""
    with open(path, encoding="utf-8") as f:
        rows = f.read().split("\n")
    for i, row in enumerate(rows):
        head = re.match(r"^(\s*)(?:pub(?:\(crate\))? )?fn (\w+)", row)
        if not head:
            continue
        begin = next(j for j in range(i, len(rows)) if rows[j] == head.group(1) + "{" or rows[j].endswith((" {", "{}")))
        end = next(j for j in range(begin, len(rows)) if rows[j] == head.group(1) + "}" or rows[j].endswith("{}"))
        body = [plain(row.strip()) for row in rows[begin + 1:end] if row.strip() and not row.strip().startswith("//")]
        yield head.group(2), i + 1, "\n".join(body), len(body)


def main():
    root = sys.argv[1]
    found, seen = 0, {}
    for path in sorted(glob.glob(f"{root}/crates/*/src/**/*.rt", recursive=True)):
        for name, line, body, count in bodies(path):
            if count < LEAST:
                continue
            here = f"{path[len(root) + 1:]}:{line} {name}"
            for there in seen.get(body, []):
                found += 1
                print(f"{there} | {here} | {count} lines")
            seen.setdefault(body, []).append(here)
    print(f"{found} pairs")


if __name__ == "__main__":
    main()
