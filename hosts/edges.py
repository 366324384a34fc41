#!/usr/bin/env python3
"""Writes the lines of the program edges and the answers expected of them: crates/edges/stdin and stdout.

The answers are worked out here from the rules alone, and not the way the proved code works. The free list after words
were taken off is found by a sweep over a bitmap of the whole heap; the record that holds words, by looking at every one.
With --check nothing is written: the two files must be there as they would be written.
"""
import random

from rules import figures, flat, is_valid, lines, rooms, say, set_up, settle, shown, sweep, taken_off


def report(place, count, words):
    return [1, place, count] + shown(words)


def part(h, t, count, records):
    """The needed part of the list as a line gives it: what it does not give is 9."""
    return (flat(records)[: 2 * count] + [9] * rooms(h, t)[2])[: rooms(h, t)[2]]


def try_list(h, t, records, count=None):
    count = len(records) if count is None else count
    ok = is_valid(h, t, count, records)
    say("list", h, t, 0, 0, count, *flat(records), gave=[1, *figures(records[:count])] if ok else [0])


def try_off(h, t, a, s, records):
    count = len(records)
    assert is_valid(h, t, count, records)
    held = [j for j, (start, size) in enumerate(records) if start <= a and a + s <= start + size]
    gave = [1, count]
    if held:
        gave = report(held[0], *taken_off(h, t, records, part(h, t, count, records), a, s))
    say("off", h, t, a, s, count, *flat(records), gave=gave)


def try_front(h, t, s, records):
    count = len(records)
    assert is_valid(h, t, count, records)
    fit = [j for j, (_, size) in enumerate(records) if size >= s]
    gave = [1, count]
    if fit:
        gave = report(fit[0], *taken_off(h, t, records, part(h, t, count, records), records[fit[0]][0], s))
    say("front", h, t, 0, s, count, *flat(records), gave=gave)


def try_comb(h, a, s):
    records = []
    while 1 + 4 * len(records) + 3 <= h:
        records.append((1 + 4 * len(records), 3))
    words = flat(records) + [7] * (rooms(h, 1)[2] - 2 * len(records))
    held = [j for j, (start, size) in enumerate(records) if start <= a and a + s <= start + size]
    gave = [1, len(records)]
    if held:
        gave = report(held[0], *taken_off(h, 1, records, words, a, s))
    say("comb", h, 1, a, s, gave=gave)


def room_lines():
    for h, t in [(1, 1), (2, 1), (2, 2), (16, 2), (32, 2), (33, 2), (65535, 65535), (65536, 65535), (65536, 1),
                 (0, 1), (65537, 1), (16, 0), (16, 65536), (2**32 + 16, 2)]:
        say("rooms", h, t, gave=rooms(h, t))


def set_up_lines():
    for line in [(1, 1, 3, 3), (2, 1, 3, 5), (2, 2, 3, 5), (16, 2, 1, 14), (16, 2, 3, 17), (32, 2, 2, 31), (33, 2, 3, 33),
                 (4096, 7, 130, 1171), (65535, 65535, 2050, 3), (65536, 65535, 2050, 3), (65536, 2, 2048, 65534),
                 (65536, 2, 2050, 65537), (65536, 1, 2048, 131070), (65536, 1, 2050, 131073), (0, 1, 3, 3),
                 (65537, 2, 2050, 65537), (16, 0, 3, 17), (16, 65536, 3, 17), (16, 2**32 + 2, 3, 17), (0, 0, 0, 0),
                 (1, 1, 0, 3), (33, 2, 1, 33), (16, 2, 1, 13), (65536, 2, 2047, 65537), (65536, 2, 2050, 65533),
                 (65536, 1, 2047, 131073), (65536, 1, 2050, 131069)]:
        say("set-up", *line, gave=set_up(*line))


def list_lines():
    try_list(16, 2, [(4, 4), (10, 6)])
    try_list(16, 2, [])
    try_list(1, 1, [])
    try_list(2, 1, [(1, 1)])
    try_list(4, 1, [(1, 1), (3, 1)])
    try_list(8, 3, [(1, 3), (5, 3)])  # full: as many records as there is room for
    try_list(18, 5, [(1, 5), (7, 5), (13, 5)])
    try_list(18, 5, [(1, 5), (7, 5), (13, 6)])  # ends above the heap
    try_list(18, 5, [(1, 5), (7, 5), (13, 4)])  # shorter than the keep length
    try_list(18, 5, [(1, 5), (6, 5)])  # touching
    try_list(18, 5, [(1, 5), (4, 5)])  # overlapping
    try_list(18, 5, [(7, 5), (1, 5)])  # not by address
    try_list(18, 5, [(1, 5), (1, 5)])
    try_list(18, 5, [(0, 5)])
    try_list(18, 5, [(0, 18)])
    try_list(18, 5, [(1, 17)])
    try_list(18, 5, [(1, 18)])
    try_list(18, 5, [(1, 5), (7, 5), (13, 5), (3, 3)], count=3)  # what is past the count is not looked at
    try_list(18, 5, [(1, 5), (7, 5), (13, 5)], count=4)
    try_list(18, 5, [(1, 5)], count=2**32)
    try_list(18, 5, [(1, 5)], count=2**40 + 1)
    try_list(64, 2, [(36, 2**32 - 4)])  # end 32 if it were cut at 32 bits
    try_list(64, 2, [(2**32 - 4, 36)])
    try_list(64, 2, [(2**32 - 1, 2**32 - 1)])
    try_list(64, 2, [(1, 2), (2**32 - 1, 2)])
    try_list(65536, 1, [(1, 65535)])
    try_list(65536, 65535, [(1, 65535)])
    try_list(65536, 1, [(1, 1), (65535, 1)])
    try_list(10, 1, [(1, 2), (4, 1)])  # 2 of 3 words: 334, and not 333
    try_list(1000, 1, [(1, 1), (3, 996)])
    try_list(9, 9, [])
    try_list(9, 9, [(1, 8)], count=1)


def cut_lines():
    whole = [(1, 15)]
    for t in (1, 2, 3):
        for a, s in [(1, t), (16 - t, t), (1 + t, t), (2, t), (15 - t, t), (1, 15), (7, t), (1, 15 - t), (1 + t, 15 - t)]:
            try_off(16, t, a, s, whole)
    try_off(16, 2, 4, 4, [(4, 4), (10, 6)])
    try_off(16, 2, 10, 6, [(4, 4), (10, 6)])
    try_off(16, 2, 7, 2, [(4, 4), (10, 6)])  # runs over an end
    try_off(16, 2, 3, 2, [(4, 4), (10, 6)])
    try_off(16, 2, 8, 2, [(4, 4), (10, 6)])  # between two
    try_off(16, 2, 2, 2, [(4, 4), (10, 6)])  # before all
    try_off(16, 2, 3, 9, [(4, 4), (10, 6)])  # swallows one
    try_off(16, 2, 0, 2, [(1, 15)])
    try_off(16, 2, 15, 2, [(1, 15)])
    try_off(16, 2, 2, 2, [])
    try_off(18, 5, 7, 5, [(1, 5), (7, 5), (13, 5)])
    try_off(18, 5, 1, 5, [(1, 5), (7, 5), (13, 5)])
    try_off(18, 5, 13, 5, [(1, 5), (7, 5), (13, 5)])
    try_off(4, 1, 2, 1, [(1, 3)])
    try_off(2, 1, 1, 1, [(1, 1)])
    say("off", 16, 2, 3, 0, 1, 1, 15)
    say("off", 16, 2, 3, 17, 1, 1, 15)
    say("off", 16, 2, 2**32 + 3, 2, 1, 1, 15)
    say("off", 16, 2, 3, 2, 2, 1, 5, 6, 4, gave=[0])
    two = [(4, 4), (10, 4), (16, 6)]
    for s in (0, 1, 2, 3, 4, 5, 6, 7, 2**32 + 4, 2**64 // 4):
        try_front(22, 2, s, two)
    try_front(16, 2, 3, [(4, 4), (10, 6)])
    try_front(16, 2, 6, [(10, 6)])
    try_front(16, 2, 7, [(10, 6)])
    try_front(2, 1, 1, [(1, 1)])
    try_front(16, 2, 2, [])
    try_front(18, 5, 5, [(1, 5), (7, 5), (13, 5)])
    say("front", 16, 2, 0, 2, 2, 1, 5, 6, 4, gave=[0])


def random_lines(chance):
    while len(lines) < 330:
        h, t = chance.randint(2, 60), chance.randint(1, 6)
        free = [chance.random() < 0.8 for _ in range(h)]
        if chance.random() < 0.5:
            free = [free[w // 4] for w in range(h)]
        records = sweep(free, t)
        if len(records) > 13:
            continue
        s = chance.randint(1, 2 * t + 3)
        if chance.random() < 0.3:
            try_front(h, t, s, records)
        elif records and chance.random() < 0.7:
            start, size = chance.choice(records)
            s = min(s, size)
            try_off(h, t, start + chance.randint(0, size - s), s, records)
        elif s < h:
            try_off(h, t, chance.randint(1, h - s), s, records)


def comb_lines():
    for h, a, s in [(65536, 2, 1), (65536, 32770, 1), (65536, 65530, 1), (65536, 32769, 3), (65536, 1, 3), (65536, 65529, 3),
                    (65536, 65533, 1), (65536, 65534, 1), (65536, 65535, 1), (65536, 4, 1), (65536, 32769, 4), (65533, 65529, 1)]:
        try_comb(h, a, s)


room_lines()
set_up_lines()
list_lines()
cut_lines()
random_lines(random.Random(2006))
comb_lines()
settle("edges")
