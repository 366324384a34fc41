#!/usr/bin/env python3
"""Moves laws from specs/ to proofs/, and turns every path that names them.

usage: python3 tools/laws.py CRATE MODULE..      at the top of the repository

Each crates/CRATE/specs/MODULE.antt goes to crates/CRATE/proofs/MODULE.antt; the two Lib.antt and every `use` follow. Nothing
in the file itself changes but such lines.
"""
import glob
import os
import re
import subprocess
import sys


def lines_of(path):
    if not os.path.exists(path):
        return []
    with open(path, encoding="utf-8") as f:
        return f.read().splitlines()


def write(path, lines):
    with open(path, "w", encoding="utf-8") as f:
        f.write("\n".join(lines) + "\n")


def main():
    crate, modules = sys.argv[1], sys.argv[2:]
    specs, proofs = f"crates/{crate}/specs", f"crates/{crate}/proofs"
    os.makedirs(proofs, exist_ok=True)
    for module in modules:
        subprocess.run(["git", "mv", f"{specs}/{module}.antt", f"{proofs}/{module}.antt"], check=True)
    moved = [f"pub mod {m}" for m in modules]
    write(f"{specs}/Lib.antt", [line for line in lines_of(f"{specs}/Lib.antt") if line not in moved])
    write(f"{proofs}/Lib.antt", sorted(lines_of(f"{proofs}/Lib.antt") + moved))
    name = re.compile(rf"(Rattle\.{crate})\.specs\.({'|'.join(modules)})(?![\w'])")
    for path in glob.glob("crates/*/**/*.antt", recursive=True) + glob.glob("crates/*/src/**/*.rt", recursive=True):
        if "/out/" in path:
            continue
        with open(path, encoding="utf-8") as f:
            text = f.read()
        turned = name.sub(r"\1.proofs.\2", text)
        if turned != text:
            with open(path, "w", encoding="utf-8") as f:
                f.write(turned)


if __name__ == "__main__":
    main()
