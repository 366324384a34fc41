#!/usr/bin/env python3
"""Lays the theorems and definitions of two trees side by side.

usage: python3 tools/theorems.py OLD NEW [--moved | --changed]

OLD is a tree of the repository after the scripts, NEW one of today; both have crates/. A declaration of crates/*/specs or of a
lemma file of crates/*/proofs is found again by its crate and its name. --moved prints each one that stood in specs/ and
stands in proofs/ now, whole as it is in NEW, by file; --changed each one whose text up to its first `=` differs, or that is gone.
"""
import glob
import os
import re
import sys

HEAD = re.compile(r"^(?P<indent>\s*)(?P<marks>(?:(?:abbrev|unfoldable|pub) )*)(?P<kind>data |record )?(?P<name>[^\s:(){}.,;]+)(?P<rest>.*)$")


def declarations(path):
    """Each declaration of a file: its name, whether it is public, its section's parameters, its statement and its body."""
    with open(path, encoding="utf-8") as f:
        lines = f.read().split("\n")
    out, sections, i, comment = [], [], 0, []
    while i < len(lines):
        line = lines[i]
        text = line.strip()
        indent = len(line) - len(line.lstrip())
        if not text:
            i += 1
            continue
        if text.startswith("--"):
            comment.append(text)
            i += 1
            continue
        sections = [s for s in sections if s[0] < indent]
        m = re.match(r"^module _ (.*) where$", text)
        if m:
            sections.append((indent, m.group(1)))
            comment, i = [], i + 1
            continue
        if text.startswith(("use ", "pub use", "pub mod", "mod ", "open ", "where", "ruleset")) or text == "where":
            comment, i = [], i + 1
            continue
        m = re.match(r"^((?:(?:abbrev|unfoldable|pub) )*)(data |record )?([^\s:(){}.,;]+)((?: [^\s:(){}.,;]+)*?)((?: [({].*)?) :(?: |$)", text)
        if not m or text.startswith(("|", "go ")):
            comment, i = [], i + 1
            continue
        block = [line]
        j = i + 1
        while j < len(lines):
            nxt = lines[j]
            if not nxt.strip():
                j += 1
                continue
            nind = len(nxt) - len(nxt.lstrip())
            if nind < indent or (nind == indent and is_head(nxt, m.group(3))):
                break
            if nind == indent and nxt.strip().startswith("--"):
                break
            block.append(nxt)
            j += 1
        statement = split(block, m.group(3), m.group(2))
        out.append((m.group(3), "pub " in m.group(1), m.group(1).strip(), [s[1] for s in sections], statement, " ".join(comment)))
        comment, i = [], j
    return out


def is_head(line, name):
    text = line.strip()
    if text.startswith(("module ", "use ", "pub mod")):
        return True
    if re.match(rf"^{re.escape(name)}(?= |$)", text):
        return False
    if text.startswith("unfolding"):
        return False
    return bool(re.match(r"^((?:(?:abbrev|unfoldable|pub) )*)(data |record )?[^\s:(){}.,;]+.* :(?: |$)", text)) and not text.startswith(("|", "let ", "rw", "in "))


def split(block, name, kind):
    """The statement: all of a type, else what stands before the first clause."""
    if kind:
        return re.sub(r"\s+", " ", " ".join(b.strip() for b in block if not b.strip().startswith("--")))
    head = []
    for b in block:
        t = b.strip()
        if t.startswith("unfolding") or re.match(rf"^{re.escape(name)}(?= |$).*", t) and b is not block[0] and " : " not in t.split("=")[0]:
            break
        if t.startswith("--"):
            continue
        head.append(t)
    return re.sub(r"\s+", " ", " ".join(head))


def tree(root):
    found = {}
    for path in sorted(glob.glob(f"{root}/crates/*/specs/*.antt") + glob.glob(f"{root}/crates/*/proofs/*.antt")):
        crate = path.split("/crates/")[1].split("/")[0]
        place = path.split("/crates/")[1]
        for d in declarations(path):
            found.setdefault((crate, d[0]), []).append((place, d))
    return found


def key(d):
    return (tuple(d[3]), d[4])


def main():
    old, new = tree(sys.argv[1]), tree(sys.argv[2])
    if "--moved" in sys.argv:
        by_file = {}
        stood = {(k, os.path.basename(place)) for k, places in old.items() for place, d in places if "/specs/" in place}
        for k, places in new.items():
            for place, d in places:
                if "/proofs/" in place and (k, os.path.basename(place)) in stood:
                    by_file.setdefault(place, []).append(d)
        for path in sorted(by_file):
            print(f"\n`{path}`\n")
            last = None
            for d in by_file[path]:
                if d[3] != last and d[3]:
                    print(f"- in a section with `{' '.join(d[3])}`:")
                last = d[3]
                print(f"- `{d[4]}`")
        return
    for k, places in sorted(old.items()):
        for place, d in places:
            today = [(p, e) for p, e in new.get(k, [])]
            if not today:
                print(f"gone: {place}: {d[4]}")
            elif not any(key(e) == key(d) for p, e in today):
                same = [e for p, e in today if os.path.basename(p) == os.path.basename(place)] or [today[0][1]]
                print(f"changed: {place}\n  - {' '.join(d[3])} | {d[4]}\n  + {' '.join(same[0][3])} | {same[0][4]}")


if __name__ == "__main__":
    main()
