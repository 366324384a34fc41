#!/usr/bin/env python3
"""Writes the texts of the program texts and the answers expected of them: crates/texts/stdin and stdout.

The answers are worked out from the rules alone, and not the way the proved code works. A text is split at each LF, a line is
matched whole with a regular expression, and its numbers are compared with the limits as numbers of any size; of what a
line may follow there is a table. The collection is that of the other scripts, by a bitmap and a sweep.
With --check nothing is written: the two files must be there as they would be written.
"""
import os
import random
import re
import sys

from rules import collects, figures, header, rooms

MOST_BYTES, MOST_LINE, MOST_WORDS, MOST_KEEP, MOST_ROOTS, BIG = 60000, 32, 4096, 65535, 1024, 2**32
DECIMAL = rb"(0|[1-9][0-9]*)"
LINES = {kind: re.compile(b"%s=%s" % (kind.encode(), value)) for kind, value in
         [("words", DECIMAL), ("keep", DECIMAL), ("root", DECIMAL), ("word", DECIMAL + b"," + DECIMAL)]}
AFTER = {"words": {"keep"}, "keep": {"root", "word"}, "root": {"root", "word"}, "word": {"word"}}
NAMES = ["code", "where", "objects", "live", "references", "peak", "listed", "largest", "fragment"]
EXAMPLE = b"words=16\nkeep=2\nroot=1\nword=1,65539\nword=2,8\nword=8,2\n"
EXAMPLE_ANSWER = b"""code=0
where=0
objects=2
live=5
references=2
peak=2
listed=10
largest=6
fragment=400
free=4,4
free=10,6
"""
LONGEST = 20215  # the longest answer in the cases, in bytes
cases = {}


def taken(line):
    """The kind of a line and its numbers; no kind where it is like none."""
    for kind, pattern in LINES.items():
        match = len(line) <= MOST_LINE and pattern.fullmatch(line)
        if match:
            return kind, [int(digits) for digits in match.groups()]
    return "", []


def is_good(kind, numbers, found):
    """Whether the numbers of a line are within the limits, behind the lines found."""
    if kind == "words":
        return 1 <= numbers[0] <= MOST_WORDS
    if kind == "keep":
        return 1 <= numbers[0] <= MOST_KEEP
    if kind == "root":
        return numbers[0] < BIG and len(found["root"]) < MOST_ROOTS
    address, value = numbers
    last = found["word"][-1][0] if found["word"] else 0
    return last < address < found["words"][0][0] and 1 <= value < BIG


def read(text):
    """The numbers of a right text by the kinds of its lines, or the number of the first wrong line."""
    if len(text) > MOST_BYTES:
        return 0
    *lines, rest = text.split(b"\n")
    found, allowed = {kind: [] for kind in LINES}, {"words"}
    for number, line in enumerate(lines, 1):
        kind, numbers = taken(line)
        if kind not in allowed or not is_good(kind, numbers, found):
            return number
        found[kind].append(numbers)
        allowed = AFTER[kind]
    return len(lines) + 1 if rest or not found["keep"] else found


def say(names, numbers):
    return "".join(f"{name}={n}\n" for name, n in zip(names, numbers)).encode()


def free_lines(free):
    return b"".join(b"free=%d,%d\n" % interval for interval in free)


def answer(text):
    """What the text program prints."""
    found = read(text)
    if isinstance(found, int):
        return say(NAMES, [12, found])
    (h,), (t,), roots = found["words"][0], found["keep"][0], [n for n, in found["root"]]
    heap = [0] * h
    for a, n in found["word"]:
        heap[a] = n
    numbers, (_, _, listed) = collects((h, t, 0), heap, roots, rooms(h, t))
    if numbers[0]:
        return say(NAMES, numbers[:2])
    free = list(zip(listed[0::2], listed[1::2]))[: numbers[8]]
    return say(NAMES, [*numbers[:6], *figures(free)]) + free_lines(free)


def case(name, text, begins=b""):
    """A text; `begins` is how its answer begins where that was worked out by hand."""
    assert name not in cases and "\n" not in name, name
    assert answer(text).startswith(begins), (name, text[:200], answer(text)[:200])
    cases[name] = text


def wrong(name, where, text):
    case(name, text, say(NAMES, [12, where]))


def right(name, text):
    case(name, text)
    assert not answer(text).startswith(b"code=12\n"), (name, text[:200])


def text_of(h, t, roots=(), words=()):
    """The text of an image; words are addresses with their values."""
    rows = [f"words={h}", f"keep={t}"] + [f"root={r}" for r in roots]
    rows += [f"word={a},{n}" for a, n in sorted(dict(words).items()) if n]
    return "".join(row + "\n" for row in rows).encode()


def image(name, h, t, roots, words, *numbers, free=None):
    """An image; the numbers are those that its answer begins with."""
    text = text_of(h, t, roots, words)
    case(name, text, say(NAMES, numbers))
    assert not answer(text).startswith(b"code=12\n"), name
    assert free is None or answer(text).endswith(say(NAMES[8:], figures(free)[2:]) + free_lines(free)), name


def examples():
    """The examples of the rules, with what the rules say of them."""
    assert answer(EXAMPLE) == EXAMPLE_ANSWER
    case("the example of the rules", EXAMPLE, EXAMPLE_ANSWER)
    image("P1", 16, 2, [1], {1: 65539, 2: 8, 8: 2}, 0, 0, 2, 5, 2, 2, 10, 6, 400, free=[(4, 4), (10, 6)])
    pairs = {1: 2, 3: 2, 5: 2}
    image("P4", 7, 2, [3, 1, 5], pairs, 0, 0, 3, 6, 3, 2, 0, 0, 0, free=[])
    image("P5", 7, 2, [1, 3, 5], pairs, 0, 0, 3, 6, 3, 1, 0, 0, 0, free=[])
    image("P6", 8, 2, [1, 2], {1: 4, 2: 2}, 6, 2)
    image("P7", 8, 2, [2, 1], {1: 4, 2: 2}, 6, 1)
    image("P8", 8, 2, [2], {1: 4, 2: 2}, 0, 0, 1, 2, 1, 1, 4, 4, 0, free=[(4, 4)])
    image("P9 refused", 8, 2, [6], {6: 3}, 5, 6)
    image("P9 accepted", 8, 2, [6], {6: 2}, 0, 0, 1, 2, 1, 1, 5, 5, 0, free=[(1, 5)])
    image("P10 refused", 8, 2, [1], {1: 131074}, 5, 1)
    image("P10 accepted", 8, 2, [1], {1: 65538}, 0, 0, 1, 2, 2, 1, 5, 5, 0, free=[(3, 5)])
    image("P11 without roots", 1, 1, [], {}, 0, 0, 0, 0, 0, 0, 0, 0, 0, free=[])
    image("P11 with root 1", 1, 1, [1], {}, 4, 1)
    image("two words, keep 1", 2, 1, [], {}, 0, 0, 0, 0, 0, 1, 1, 1, 0, free=[(1, 1)])
    image("two words, keep 2", 2, 2, [], {}, 0, 0, 0, 0, 0, 0, 0, 0, 0, free=[])
    image("an object that refers to itself", 8, 2, [1], {1: header(2, 1), 2: 1}, 0, 0, 1, 2, 2, 1, 5, 5, 0)
    image("a root twice", 8, 2, [1, 1], {1: header(2, 1)}, 0, 0, 1, 2, 3, 1, 5, 5, 0)


def sound_images():
    image("no roots", 16, 2, [], {1: 65539, 2: 8, 8: 2}, 0, 0, 0, 0, 0, 1, 15, 15, 0, free=[(1, 15)])
    image("empty roots", 16, 2, [0, 0, 0], {}, 0, 0, 0, 0, 3, 1, 15, 15, 0)
    image("keep above words", 16, 17, [0], {1: 17}, 0, 0, 0, 0, 1, 0, 0, 0, 0, free=[])
    image("keep far above words", 2, 65535, [], {}, 0, 0, 0, 0, 0, 0, 0, 0, 0, free=[])
    image("one word and an empty root", 1, 1, [0], {}, 0, 0, 0, 0, 1, 0, 0, 0, 0, free=[])
    image("one word, greatest keep", 1, 65535, [], {}, 0, 0, 0, 0, 0, 0, 0, 0, 0, free=[])
    image("most words, keep 1", 4096, 1, [], {}, 0, 0, 0, 0, 0, 1, 4095, 4095, 0, free=[(1, 4095)])
    image("most words, keep 4095", 4096, 4095, [], {}, 0, 0, 0, 0, 0, 1, 4095, 4095, 0, free=[(1, 4095)])
    image("most words, keep 4096", 4096, 4096, [], {}, 0, 0, 0, 0, 0, 0, 0, 0, 0, free=[])
    image("an object of the whole heap", 4096, 4095, [1], {1: header(4095, 4094), 4095: 1},
          0, 0, 1, 4095, 4095, 1, 0, 0, 0, free=[])
    image("an object in the last word", 4096, 1, [4095], {4095: 1}, 0, 0, 1, 1, 1, 1, 4094, 4094, 0, free=[(1, 4094)])
    image("fewer words than 4096", 33, 2, [31], {31: 2}, 0, 0, 1, 2, 1, 1, 30, 30, 0, free=[(1, 30)])
    image("both words of the map", 34, 2, [31], {31: 2}, 0, 0, 1, 2, 1, 1, 30, 30, 0)
    image("fragment rounds up", 6, 1, [3, 5], {3: 1, 5: 1}, 0, 0, 2, 2, 2, 2, 3, 2, 334, free=[(1, 2), (4, 1)])
    image("fragment of one of three", 6, 1, [2, 4], {2: 1, 4: 1}, 0, 0, 2, 2, 2, 3, 3, 1, 667)
    image("a hundred objects", 202, 1, range(2, 202, 2), {a: 1 for a in range(2, 202, 2)}, 0, 0, 100, 100, 100, 101, 101, 1, 991)
    image("fragment of few", 1003, 1, [2], {2: 1}, 0, 0, 1, 1, 1, 2, 1001, 1000, 1, free=[(1, 1), (3, 1000)])
    image("data are not followed", 12, 2, [1], {1: 4, 2: 5, 3: 99, 4: BIG - 1}, 0, 0, 1, 4, 1, 1, 7, 7, 0)
    image("empty and repeated references", 12, 2, [0, 0, 1, 0, 1], {1: header(6, 3), 3: 7, 4: 7, 5: 99, 6: BIG - 1, 7: 2},
          0, 0, 2, 8, 8, 1, 3, 3, 0, free=[(9, 3)])
    image("touching", 12, 2, [1, 5], {1: 4, 5: 2}, 0, 0, 2, 6, 2, 1, 5, 5, 0)
    image("every gap is dropped", 13, 3, [3, 8], {3: 3, 8: 3}, 0, 0, 2, 6, 2, 1, 0, 0, 0, free=[])
    image("gaps of just the keep length", 13, 3, [4, 10], {4: 3, 10: 3}, 0, 0, 2, 6, 2, 2, 6, 3, 500, free=[(1, 3), (7, 3)])
    image("a cycle", 12, 2, [4], {1: header(3, 1), 2: 4, 4: header(3, 2), 5: 7, 7: header(2, 1), 8: 1}, 0, 0, 3, 8, 5, 2)


def refused_images():
    for r in [8, 9, 2**31, BIG - 8, BIG - 1]:
        image(f"root {r} of 8 words", 8, 1, [0, r], {7: 1}, 4, r)
        image(f"field {r} of 8 words", 8, 1, [1], {1: header(2, 1), 2: r}, 4, r)
    image("root 4095 of 4095 words", 4095, 1, [4095], {}, 4, 4095)
    image("root 4096 of 4096 words", 4096, 1, [4096], {}, 4, 4096)
    image("root 16 where the buffer goes on", 16, 1, [16], {}, 4, 16)
    image("a header of 0", 6, 2, [1], {}, 5, 1)
    image("a header in the last word", 6, 2, [5], {5: 2}, 5, 5)
    for word in [1, 6, 65535, 65536, header(2, 2), header(3, 3), header(5, 5), header(0, 65535), BIG - 1]:
        image(f"header {word} of a root", 6, 2, [1], {1: word}, 5, 1)
        image(f"header {word} of a field", 8, 2, [1], {1: header(2, 1), 2: 3, 3: word}, 5, 3)
    image("shorter than the keep length", 8, 3, [1], {1: 2}, 5, 1)
    image("an object where keep is above words", 8, 9, [1], {1: 7}, 5, 1)
    image("an end above the heap, by one", 4096, 1, [4095], {4095: 2}, 5, 4095)
    image("an inner word with a good header", 8, 2, [1, 3], {1: 5, 3: 2}, 6, 3)
    image("an inner word with a bad header", 8, 2, [1, 3], {1: 5, 3: 1}, 5, 3)
    image("the last word in common", 9, 2, [1, 4], {1: 4, 4: 2}, 6, 4)
    image("the last word in common, other order", 9, 2, [4, 1], {1: 4, 4: 2}, 6, 1)
    image("swallows a marked one", 9, 2, [3, 1], {1: 6, 3: 2}, 6, 1)
    image("swallows two", 9, 2, [7, 2, 1], {1: 8, 2: 3, 7: 2}, 6, 1)
    image("an overlap of two fields", 9, 2, [1], {1: header(3, 2), 2: 5, 3: 4, 4: 2, 5: 2}, 6, 4)
    image("an overlap of two fields, other order", 9, 2, [1], {1: header(3, 2), 2: 4, 3: 5, 4: 2, 5: 2}, 6, 5)


def orders():
    """Images in which the order of marking alone shows."""
    for first, then, peak in [(6, 4, 2), (4, 6, 1)]:
        image(f"fields {first} and {then}", 10, 2, [1], {1: header(3, 2), 2: first, 3: then, 4: 2, 6: 2}, 0, 0, 3, 7, 3, peak)
    for one, two, peak in [(8, 10, 2), (10, 8, 1)]:
        image(f"popped first: the one with {two}", 14, 2, [1],
              {1: header(3, 2), 2: 4, 3: 6, 4: header(2, 1), 5: one, 6: header(2, 1), 7: two, 8: 2, 10: 2}, 0, 0, 5, 11, 5, peak)
    image("emptied before the next root", 9, 2, [1, 5], {1: header(2, 1), 2: 3, 3: 2, 5: 2}, 0, 0, 3, 6, 3, 1)
    image("the next root after what is reached", 9, 2, [1, 3], {1: header(2, 1), 2: 5, 3: 2, 5: 2}, 0, 0, 3, 6, 3, 2)
    for first, then in [(99, 10), (10, 99)]:
        code = 4 if first == 99 else 5
        image(f"roots {first} and {then}", 12, 2, [first, then], {}, code, first)
        image(f"refused fields {first} and {then}", 12, 2, [1], {1: header(3, 2), 2: first, 3: then}, code, first)
        image(f"fields {first} and {then} of two roots", 12, 2, [1, 3],
              {1: header(2, 1), 2: first, 3: header(2, 1), 4: then}, code, first)
        image(f"field {first} of a field, root {then}", 12, 2, [1, then],
              {1: header(2, 1), 2: 5, 5: header(2, 1), 6: first}, code, first)
        image(f"field {then} of the one popped first", 12, 2, [1],
              {1: header(3, 2), 2: 4, 3: 6, 4: header(2, 1), 5: first, 6: header(2, 1), 7: then}, 9 - code, then)
    image("met before it is popped", 9, 2, [1], {1: header(3, 2), 2: 4, 3: 99, 4: header(2, 1), 5: 8}, 4, 99)


def missing_lines():
    wrong("nothing", 1, b"")
    wrong("one LF", 1, b"\n")
    wrong("two LF", 1, b"\n\n")
    wrong("words alone", 2, b"words=16\n")
    right("words and keep alone", b"words=16\nkeep=2\n")
    wrong("keep alone", 1, b"keep=2\n")
    wrong("keep first", 1, b"keep=2\nwords=16\n")
    wrong("root first", 1, b"root=1\n")
    wrong("word first", 1, b"word=1,2\n")
    wrong("words, then root", 2, b"words=16\nroot=1\n")
    wrong("words, then word", 2, b"words=16\nword=1,2\n")
    wrong("words twice", 2, b"words=16\nwords=16\nkeep=2\n")
    wrong("keep twice", 3, b"words=16\nkeep=2\nkeep=2\n")
    wrong("words later", 3, b"words=16\nkeep=2\nwords=16\n")
    wrong("words behind a root", 4, b"words=16\nkeep=2\nroot=1\nwords=16\n")
    wrong("keep behind a root", 4, b"words=16\nkeep=2\nroot=1\nkeep=2\n")
    wrong("keep behind a word", 4, b"words=16\nkeep=2\nword=1,2\nkeep=2\n")
    wrong("words behind a word", 4, b"words=16\nkeep=2\nword=1,2\nwords=16\n")
    wrong("root behind a word", 4, b"words=16\nkeep=2\nword=1,2\nroot=1\n")
    wrong("root between words", 5, b"words=16\nkeep=2\nroot=1\nword=1,2\nroot=1\nword=3,2\n")
    right("word behind keep", b"words=16\nkeep=2\nword=1,2\n")


def open_ends():
    """The last line has no LF."""
    lines = EXAMPLE.splitlines(keepends=True)
    for number in range(1, 7):
        wrong(f"no LF behind line {number}", number, b"".join(lines[:number])[:-1])
        wrong(f"half of line {number}", number, b"".join(lines[:number])[:-3])
    wrong("a byte behind the last LF", 7, EXAMPLE + b"w")
    wrong("a NUL behind the last LF", 7, EXAMPLE + b"\0")
    wrong("a space behind the last LF", 7, EXAMPLE + b" ")
    wrong("a digit behind the last LF", 7, EXAMPLE + b"0")
    wrong("a good line, no LF", 7, EXAMPLE + b"word=9,1")
    wrong("words, no LF", 1, b"words=16")
    wrong("keep, no LF", 2, b"words=16\nkeep=2")
    wrong("a CR for the last LF", 6, EXAMPLE[:-1] + b"\r")
    wrong("a NUL for the last LF", 6, EXAMPLE[:-1] + b"\0")
    wrong("one byte", 1, b"w")
    wrong("one NUL", 1, b"\0")


def blank_lines():
    lines = EXAMPLE.splitlines(keepends=True)
    for number in range(1, 8):
        for name, blank in [("blank", b"\n"), ("CR", b"\r\n"), ("NUL", b"\0\n"), ("space", b" \n")]:
            wrong(f"a {name} line at {number}", number, b"".join(lines[: number - 1] + [blank] + lines[number - 1 :]))
    wrong("blank lines at the end", 7, EXAMPLE + b"\n\n")
    wrong("CR LF all through", 1, EXAMPLE.replace(b"\n", b"\r\n"))
    wrong("CR all through", 1, EXAMPLE.replace(b"\n", b"\r"))
    wrong("LF CR all through", 2, EXAMPLE.replace(b"\n", b"\n\r"))
    wrong("one CR LF", 3, EXAMPLE.replace(b"root=1\n", b"root=1\r\n"))
    wrong("CR LF at the end", 6, EXAMPLE[:-1] + b"\r\n")
    wrong("a form feed for an LF", 1, EXAMPLE.replace(b"\n", b"\f", 1))
    wrong("a vertical tab for an LF", 1, EXAMPLE.replace(b"\n", b"\v", 1))


def wrong_bytes():
    """A line of the example, and what stands for it."""
    for number, line, forms in [
        (1, b"words=16", [
            b"words =16", b" words=16", b"words= 16", b"words=16 ", b"words=1 6", b"words\t=16", b"words=\t16", b"words=16\t",
            b"Words=16", b"WORDS=16", b"wordS=16", b"word=16", b"wordss=16", b"words:16", b"words16", b"words", b"=16",
            b"words==16", b"words=16=", b"words=1=6", b"words=", b"=", b"16", b"words=16,", b"words=16,1", b"words=,16",
            b"word=1,16", b"\xef\xbb\xbfwords=16", b"\xffwords=16", b"words\xff=16", b"words=16\xff", b"words=\xb9\xb6",
            b"w\xc3\xb6rds=16", b"\0words=16", b"words\0=16", b"words=\x0016", b"words=1\x006", b"words=16\0", b"words=16\0\0",
            b"words=16;", b"words=16#", b"#words=16", b"ords=16", b"words=/", b"words=:", b"words=1/", b"words=1:",
            b"words=16\r", b"\rwords=16", b"words=\r16",
        ]),
        (2, b"keep=2", [
            b"keep =2", b" keep=2", b"keep= 2", b"keep=2 ", b"keep\t=2", b"Keep=2", b"KEEP=2", b"keeps=2", b"kept=2", b"keep:2",
            b"keep", b"keep=", b"keep==2", b"keep=2=", b"keep=2,", b"keep=2,3", b"keep=2\0", b"keep\0=2", b"keep=\x002",
            b"keep=2\r", b"keep=\xb2", b"eep=2", b"\xef\xbb\xbfkeep=2",
        ]),
        (3, b"root=1", [
            b"root =1", b" root=1", b"root= 1", b"root=1 ", b"root=\t1", b"Root=1", b"ROOT=1", b"roots=1", b"rot=1", b"root:1",
            b"root", b"root=", b"root==1", b"root=1=", b"root=1,", b"root=1,2", b"root=1\0", b"root\0=1", b"root=1\r",
            b"root=\xb1", b"other=1", b"wood=1", b"wor=1",
        ]),
        (6, b"word=8,2", [
            b"word =8,2", b" word=8,2", b"word= 8,2", b"word=8 ,2", b"word=8, 2", b"word=8,2 ", b"word=8,\t2", b"Word=8,2",
            b"WORD=8,2", b"words=8,2", b"wor=8,2", b"word:8,2", b"word", b"word=", b"word=,", b"word=8", b"word=8,", b"word=,2",
            b"word=8,,2", b"word=,8,2", b"word=8,2,", b"word=8,2,3", b"word=8 2", b"word=8;2", b"word=8.2", b"word=82",
            b"word==8,2", b"word=8=2", b"word=8,=2", b"word=8,2=", b"word=8,2\0", b"word=8\0,2", b"word=8,\x002", b"word\0=8,2",
            b"word=8,2\r", b"word=8\r,2", b"word=8,\xb2", b"word=\xb8,2", b"word=8,2\xff",
        ]),
    ]:
        for form in forms:
            wrong(f"{form!a}"[1:].strip("'\""), number, EXAMPLE.replace(line + b"\n", form + b"\n"))


def wrong_numbers():
    """For each number of a text, forms that are no decimal, and numbers that would wrap to a good one."""
    places = [("words", 1, b"words=16", b"words=%s", 16), ("keep", 2, b"keep=2", b"keep=%s", 2),
              ("root", 3, b"root=1", b"root=%s", 1), ("address", 6, b"word=8,2", b"word=%s,2", 8),
              ("value", 6, b"word=8,2", b"word=8,%s", 2)]
    for name, number, line, form, good in places:
        forms = ["+1", f"+{good}", "-0", "-1", f"-{good}", "00", f"0{good}", f"00{good}", "0x10", "0b1", "0o7", "1e3", "1.0",
                 f"{good}.0", f"{good}.", f".{good}", "1_0", "1'0", f"{good}u", "a", "ten"]
        forms += [good + 2**32, good + 2**33, 2**32 + 1, 2**64, 2**64 + 1, 2**64 + 16, good + 2**64, good + 2**65, good + 2**80]
        forms += ["1" * 20, "9" * 20, "9" * 21, "4" * 25, good + 10**24, 2**32, 2**63, 10**19]
        for part in dict.fromkeys(map(str, forms)):
            put = form % part.encode()
            wrong(f"{put.decode()} in line {number}", number, EXAMPLE.replace(line + b"\n", put + b"\n"))
        for part in ["1" + "0" * 39, "0" * 39 + "1", "9" * 40]:
            put = form % part.encode()
            wrong(f"{name} of 40 digits, {part[-2:]} at the end", number, EXAMPLE.replace(line + b"\n", put + b"\n"))


def limits():
    for n in [1, 4095, 4096]:
        right(f"words={n}", b"words=%d\nkeep=1\n" % n)
    for n in [0, 4097, 65536, 65537, 2**32 - 1]:
        wrong(f"words={n}", 1, b"words=%d\nkeep=1\n" % n)
    for n in [1, 65534, 65535]:
        right(f"keep={n}", b"words=9\nkeep=%d\n" % n)
    for n in [0, 65536, 65537, 131072, 2**32 - 1]:
        wrong(f"keep={n}", 2, b"words=9\nkeep=%d\n" % n)
    image("root=0", 16, 2, [0], {}, 0, 0, 0, 0, 1)
    image("root=4294967295", 16, 2, [BIG - 1], {}, 4, BIG - 1)
    wrong("root=4294967296", 3, b"words=16\nkeep=2\nroot=4294967296\n")
    image("value 4294967295", 16, 2, [1], {1: 3, 2: BIG - 1}, 0, 0, 1, 3, 1, 1)
    wrong("value 4294967296", 4, b"words=16\nkeep=2\nword=1,3\nword=2,4294967296\n")
    roots = b"words=2\nkeep=1\n" + b"root=0\n" * 1024
    case("1024 roots and a word", roots + b"word=1,1\n", say(NAMES, [0, 0, 0, 0, 1024, 1, 1, 1, 0]))
    wrong("1025 roots", 1027, roots + b"root=0\n")


def addresses():
    head = b"words=16\nkeep=2\nroot=0\n"
    wrong("address 0", 4, head + b"word=0,5\n")
    wrong("address 0 and value 0", 4, head + b"word=0,0\n")
    right("address 1", head + b"word=1,5\n")
    right("address H-1", head + b"word=15,5\n")
    wrong("address H", 4, head + b"word=16,5\n")
    wrong("address H+1", 4, head + b"word=17,5\n")
    wrong("address 4294967295", 4, head + b"word=4294967295,5\n")
    wrong("address 65537", 4, head + b"word=65537,5\n")
    wrong("the same address", 5, head + b"word=5,1\nword=5,1\n")
    wrong("the same address, another value", 6, head + b"word=4,1\nword=5,1\nword=5,2\n")
    wrong("a falling address", 5, head + b"word=5,1\nword=4,1\n")
    wrong("a falling address later", 7, head + b"word=5,1\nword=6,1\nword=7,1\nword=6,9\n")
    wrong("an address above the first, below the last", 6, head + b"word=5,1\nword=9,1\nword=7,1\n")
    right("addresses rise by one", head + b"word=5,1\nword=6,1\nword=7,1\n")
    right("all addresses", head + b"".join(b"word=%d,1\n" % a for a in range(1, 16)))
    wrong("all addresses and one more", 19, head + b"".join(b"word=%d,1\n" % a for a in range(1, 17)))
    wrong("addresses 9 and 10 as text", 5, head + b"word=10,1\nword=9,1\n")
    wrong("value 0", 4, head + b"word=5,0\n")
    wrong("value 0 later", 5, head + b"word=5,1\nword=6,0\n")
    wrong("value 00", 4, head + b"word=5,00\n")
    for line in [b"word=1,1\n", b"word=0,1\n", b"word=1,0\n"]:
        wrong(f"{line[:-1].decode()} in a heap of one word", 3, b"words=1\nkeep=1\n" + line)
    right("word 4095 of 4096", b"words=4096\nkeep=1\nroot=4095\nword=4095,1\n")
    wrong("word 4096 of 4096", 4, b"words=4096\nkeep=1\nroot=4095\nword=4096,1\n")
    wrong("two wrong lines", 4, head + b"word=0,1\nword=1,0\n")
    wrong("a wrong line 1 and a wrong line 2", 1, b"words=0\nkeep=0\n")
    wrong("a wrong line, then right ones", 4, head + b"word=16,1\nword=5,1\nword=6,1\n")


def long_lines():
    """All are wrong, by their length or by what they say."""
    for size in [19, 20, 21, 30, 31, 32, 33, 34, 63, 64, 65, 255, 256, 257]:
        for name, line in [("zeros before a root", b"root=" + b"1".rjust(size - 5, b"0")),
                           ("spaces behind a root", b"root=1".ljust(size)), ("letters", b"x" * size)]:
            wrong(f"{size} bytes, {name}", 3, b"words=16\nkeep=2\n" + line + b"\nroot=1\n")
    right("the longest right lines", b"words=4096\nkeep=65535\nroot=4294967295\nword=4094,4294967294\nword=4095,4294967295\n")
    wrong("5000 digits", 3, b"words=16\nkeep=2\nroot=" + b"1" * 4995 + b"\nroot=1\n")
    for size in [31, 32, 33, 34, 100]:
        wrong(f"{size} bytes at the end, no LF", 3, b"words=16\nkeep=2\n" + b"root=".ljust(size, b"1"))
        wrong(f"words of {size} bytes", 1, b"words=".ljust(size, b"1") + b"\nkeep=2\n")


def over_refusals():
    """A wrong line wins over a collection that would be refused."""
    for name, roots, words in [("4", [99], {}), ("5", [1], {1: 1}), ("6", [1, 2], {1: 4, 2: 2})]:
        text = text_of(16, 2, roots, {**words, 9: 1})
        case(f"a collection refused {name}", text, b"code=%d\n" % int(name))
        lines = text.count(b"\n")
        wrong(f"a wrong last line over {name}", lines + 1, text + b"word=9,1\n")
        wrong(f"a last line without LF over {name}", lines + 1, text + b"word=10,1")
        wrong(f"a blank last line over {name}", lines + 1, text + b"\n")


def largest():
    """A right text of 60,000 bytes with the longest answer: 4,096 words, keep length 1, and 1,707 intervals of one word. Of
    1,706 objects 1,024 are roots, so 682 take a word each in others to be reached: no more intervals fit in 4,095 words."""
    pairs, starts, words, a = 682, [], {}, 2
    for i in range(pairs + MOST_ROOTS):
        starts.append(a)
        words[a] = header(2, 1) if i < pairs else 1
        a += 3 if i < pairs else 2
    for i in range(pairs):
        words[starts[i] + 1] = starts[MOST_ROOTS + i]
    assert a == MOST_WORDS
    roots = starts[:MOST_ROOTS]
    left = MOST_BYTES - len(text_of(MOST_WORDS, 1, roots, words))
    free = [b for b in range(1000, MOST_WORDS - 1) if b not in words]
    for i in range(left // 16):
        words[free[i]] = 99999 - i if i >= left % 16 else 999999 - i
    text = text_of(MOST_WORDS, 1, roots, words)
    assert len(text) == MOST_BYTES
    return text


def large_texts():
    text = largest()
    case("60000 bytes", text, say(NAMES, [0, 0, 1706, 2388, 1706, 1707, 1707, 1, 1000]))
    assert answer(text).count(b"free=") == 1707
    more = text.replace(b",99900\n", b",999000\n")
    assert len(more) == 60001
    wrong("60001 bytes, a digit more", 0, more)
    wrong("60001 bytes with a wrong line 1", 0, b"x" + text)


def random_text(chance):
    """A right text of a small heap: objects and gaps, references to objects, and some damage."""
    h, t = chance.choice([chance.randint(1, 12), chance.randint(8, 28)]), chance.choice([1, 1, 2, 2, 3, 4, 6])
    words, starts, a = {}, [], 1 + chance.choice([0, 0, 1, t])
    while a + t <= h:
        s = min(t + chance.choice([0, 0, 1, 2, 3]), h - a)
        starts.append(a)
        words[a] = header(s, chance.randint(0, s - 1))
        a += s + chance.choice([0, 0, 0, 1, t, t + 1])
    for a in starts:
        for k in range(words[a] // 65536):
            words[a + 1 + k] = chance.choice(starts + [0])
    roots = [chance.choice(starts + [0]) for _ in range(chance.choice([0, 1, 1, 2, 2, 3, 4]))]
    for _ in range(chance.choice([0, 0, 1, 1, 2])):
        damage = chance.randint(0, 4)
        if damage == 0:
            roots.append(chance.choice([h, h + 1, BIG - 1, chance.randrange(BIG)]))
        elif damage == 1 and words:
            words[chance.choice(list(words))] = chance.choice([t, t - 1, 65536, 65537 * t, h, BIG - 1, chance.randint(1, h)])
        elif damage == 2 and h > 1:
            inner = chance.randint(1, h - 1)
            words[inner] = chance.choice([t, t + 1, header(t + 1, 1)])
            roots.append(inner)
        elif len(starts) > 1:
            i = chance.randrange(len(starts) - 1)
            words[starts[i]] += chance.randint(1, 2)
            roots += starts[i : i + 2] if chance.randint(0, 1) else [starts[i + 1], starts[i]]
    return text_of(h, t, roots, words)


def mutated(text, chance):
    at, lines = chance.randrange(len(text)), text.splitlines(keepends=True)
    one = bytes([chance.choice(b"0123456789012345678901234567890123456789==,,,\n\n\r\0 +-.wrk\x80\xff")])
    i, j = chance.randrange(len(lines)), chance.randrange(len(lines))
    way = chance.randint(-3, 6)
    if way < 0:
        return text[:at] + re.sub(rb"[0-9]", b"%d" % chance.randint(0, 9), text[at:], count=1)
    if way <= 1:
        return text[:at] + one + text[at + 1 :]
    if way == 2:
        return text[:at] + text[at + 1 :]
    if way == 3:
        return text[:at] + one + text[at:]
    if way == 4:
        lines[i], lines[j] = lines[j], lines[i]
    elif way == 5:
        lines.insert(i, lines[i])
    else:
        return text[:at]
    return b"".join(lines)


def random_texts(chance):
    for i in range(300):
        right(f"random {i}", random_text(chance))
    for i in range(300):
        case(f"mutated {i}", mutated(random_text(chance), chance))


def all_cases():
    examples()
    sound_images()
    refused_images()
    orders()
    missing_lines()
    open_ends()
    blank_lines()
    wrong_bytes()
    wrong_numbers()
    limits()
    addresses()
    long_lines()
    over_refusals()
    large_texts()
    random_texts(random.Random(2006))
    codes = [answer(text)[5:].split(b"\n")[0] for text in cases.values()]
    assert all(codes.count(code) >= 40 for code in (b"0", b"4", b"5", b"6", b"12"))
    assert max(len(answer(text)) for text in cases.values()) == LONGEST
    return cases


def settle():
    folder = os.path.join(os.path.dirname(os.path.abspath(__file__)), "..", "crates", "texts")
    heads = {name: f"{len(text)} {name}\n".encode() for name, text in cases.items()}
    files = {
        "stdin": b"".join(heads[name] + text for name, text in cases.items()),
        "stdout": b"".join(heads[name] + answer(text) + b"kept\n" for name, text in cases.items()) + b"short gave 0\nkept\n",
    }
    assert len(files["stdin"]) < 500000
    for name, content in files.items():
        path = os.path.join(folder, name)
        if sys.argv[1:] != ["--check"]:
            with open(path, "wb") as file:
                file.write(content)
        elif open(path, "rb").read() != content:
            sys.exit(f"{sys.argv[0]}: crates/texts/{name} is not what the rules give")


if __name__ == "__main__":
    all_cases()
    settle()
