#!/usr/bin/env python3
"""Respells this repository's own definitions and lemmas: words in snake case, a dash only between two names.

usage: python3 tools/spelling.py [--table]     at the top of the repository, once, after the kit's port.py

Turned are the names that the files of crates/*/specs and crates/*/proofs declare, fields and aliases among them, wherever
those files, the clauses of crates/*/src and the edits of crates/*/must-fail cite them. Names of functions, exported names,
strings, inputs and outputs stay. Where a lemma would get the name of a definition it ends in _lem. --table prints the
names, old and new, and changes nothing.
"""
import collections
import glob
import re
import sys

SIGNATURE = re.compile(r"^\s*((?:(?:abbrev|unfoldable|pub|ruleset) )*)([^\s:(){}.,;]+)((?: [^\s:(){}.,;]+)*) :(?= |$)")
ALIAS = re.compile(r"^use \S+ as (\S+)$")
CONSTRUCTOR = re.compile(r"^\s+\| ([^\s:(){}.,;]+) :")
TOKEN = re.compile(r"[^\s(){}\[\].;,\"`]+")
OWN_USE = re.compile(r"^(?:ghost )?use (?:Rattle\.(\w+)\.\S*|(\S+?))\.\{(.*)\}")


def humps(name):
    """camelCase in snake case; a name in upper camel case, or with an operator in it, stays."""
    return re.sub(r"(?<=[a-z0-9])([A-Z])(?=[a-z]|$)", lambda m: "_" + m.group(1).lower(), name)


def files():
    return sorted(glob.glob("crates/*/specs/**/*.antt", recursive=True) + glob.glob("crates/*/proofs/**/*.antt", recursive=True))


def declared(path):
    with open(path, encoding="utf-8") as f:
        for line in f:
            m = SIGNATURE.match(line) or CONSTRUCTOR.match(line)
            if m and m.re is SIGNATURE:
                if m.group(2) == "module":
                    continue
                for name in [m.group(2)] + m.group(3).split():
                    yield name
            elif m:
                yield m.group(1)
            else:
                a = ALIAS.match(line)
                if a:
                    yield a.group(1)


def library_names():
    """Names that files import from the library: these keep their spelling."""
    own = {p.split("/")[1] for p in glob.glob("crates/*/")}
    out = set()
    for path in files() + glob.glob("crates/*/src/**/*.rt", recursive=True):
        with open(path, encoding="utf-8") as f:
            for line in f:
                m = OWN_USE.match(line)
                if m and m.group(1) not in own:
                    out |= {w.split(" as ")[0].strip() for w in m.group(3).split(",")}
    return out


def table():
    plain = collections.OrderedDict((name, None) for path in files() if not path.endswith("/Proof.antt") for name in declared(path))
    library = library_names()
    names = [n for n in plain if n[0].islower() and re.fullmatch(r"[a-zA-Z0-9_'-]+", n)]
    camel = {n: humps(n) for n in names if "-" not in n and humps(n) != n}
    whole = {camel.get(n, n) for n in names if "-" not in n} | {n for n in library if "-" not in n}
    new = dict(camel)
    fallen = set(camel.values())
    new.update({n: n + "_lem" for n in names if "-" not in n and n not in camel and n in fallen})
    definitions = {camel.get(n, n) for n in names if "-" not in n}
    for n in names:
        if "-" not in n or n in library:
            continue
        parts = [humps(p) for p in n.split("-")]
        out = parts[0]
        for i, part in enumerate(parts[1:], 1):
            joins = i == 1 and len(parts) == 2 and out in KEPT_LEFT and part in whole
            out += ("-" if joins else "_") + part
        if out in definitions or out in library:
            out += "_lem"
        new[n] = out
    return {a: b for a, b in new.items() if a != b and a not in library}


# Library words whose lemmas are named by a dash, as length-drop.
KEPT_LEFT = {"length"}


def together(new):
    """Two names of one file that fall together."""
    out = []
    for path in files():
        with open(path, encoding="utf-8") as f:
            text = f.read()
        seen = collections.defaultdict(set)
        for t in set(TOKEN.findall(text)):
            seen[new.get(t, t)].add(t)
        out += [(path, b, sorted(a)) for b, a in seen.items() if len(a) > 1]
    return out


def turn(path, new):
    with open(path, encoding="utf-8") as f:
        text = f.read()
    turned = TOKEN.sub(lambda m: new.get(m.group(0), m.group(0)), text)
    if turned != text:
        with open(path, "w", encoding="utf-8") as f:
            f.write(turned)
        return 1
    return 0


def main():
    new = table()
    if "--table" in sys.argv:
        for a in sorted(new):
            print(f"{a}\t{new[a]}")
        for path, b, a in together(new):
            print(f"together: {path}: {b}: {a}", file=sys.stderr)
        return
    n = sum(turn(p, new) for p in files() + sorted(glob.glob("crates/*/src/**/*.rt", recursive=True)) + sorted(glob.glob("crates/*/must-fail/*.edit")))
    print(f"spelling: {len(new)} names, {n} files")


if __name__ == "__main__":
    main()
