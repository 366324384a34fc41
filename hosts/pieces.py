#!/usr/bin/env python3
"""Runs the built text program on texts that come through a pipe in pieces, and compares what it prints with what the rules
give. The arguments are the command that runs it.
"""
import subprocess
import sys
import tempfile
import time

from texts import EXAMPLE, all_cases, answer

CHOSEN = ["the example of the rules", "P4", "P6", "P9 refused", "P11 without roots", "nothing", "one LF", "one NUL", "words alone",
         "no LF behind line 6", "CR LF all through", "a NUL line at 4", "the longest right lines", "1024 roots and a word",
         "1025 roots", "5000 digits", "60000 bytes", "60001 bytes, a digit more"]
SIZES = [1, 7, 4096, 2**20]


def ran(command, text, size):
    """The program's status and what it prints where the text comes in pieces of this size. It may stop reading once it knows that
    a text is too long. Pieces of a short text come slowly, so that it waits for each."""
    with tempfile.TemporaryFile() as out:
        program = subprocess.Popen(command, stdin=subprocess.PIPE, stdout=out, bufsize=0)
        try:
            for at in range(0, len(text), size):
                program.stdin.write(text[at : at + size])
                if len(text) < 100:
                    time.sleep(0.001)
        except BrokenPipeError:
            pass
        program.stdin.close()
        status = program.wait(60)
        out.seek(0)
        return status, out.read()


def main(command):
    cases = all_cases()
    texts = {name: cases[name] for name in CHOSEN}
    texts["60000 bytes and a line more"] = cases["60000 bytes"] + b"word=4095,1\n"
    texts["60000 LF"] = b"\n" * 60000
    texts["60000 digits"] = b"7" * 60000
    texts["a million bytes"] = EXAMPLE + b"\n" * (10**6 - len(EXAMPLE))
    texts["a million digits"] = b"1" * 10**6
    for name, text in texts.items():
        for size in SIZES:
            if ran(command, text, size) != (0, answer(text)):
                sys.exit(f"hosts/program: {name}, in pieces of {size} bytes: the program does not print what the rules give")
    print(f"hosts/program: the built program ran {len(texts) * len(SIZES)} times, and printed what the rules give")


if __name__ == "__main__":
    main(sys.argv[1:])
