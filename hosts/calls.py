#!/usr/bin/env python3
"""Writes the lines of the histories of calls and the answers expected of them: crates/calls/stdin and stdout.

The answers are worked out from the rules alone, and not the way the proved code works. An allot looks for the lowest words
in a bitmap of the free ones, and the list it leaves is a sweep over that bitmap; the starts on the map are a set.
With --check nothing is written: the two files must be there as they would be written.
"""
import random
from collections import Counter

from rules import bitmap, collects, figures, flat, header, is_valid, rooms, say, set_up, settle, shown, spare, sweep, taken_off

BUFFERS = ("map", "stack", "list")
came = Counter()


class Station:
    """What a history runs on: the buffers, with all that is lent of them, and the state."""

    def __init__(self, h, *lent):
        self.heap, self.state = [7] * h, (0, 0, 0)
        self.map, self.stack, self.list = ([7] * n for n in lent)
        say("buffers", h, *lent)

    def put(self, name, at, *words):
        buffer = getattr(self, name)
        assert at + len(words) <= len(buffer)
        buffer[at : at + len(words)] = words
        say(name, at, len(words), *words)

    def given(self, *state):
        self.state = state
        say("given", *state)

    def gave(self, want, numbers, name, *line, stack=()):
        """A call's line; `want` is how its answer begins, where that is said beforehand."""
        assert numbers[: len(want)] == list(want), (name, line, want, numbers)
        came[name, numbers[0]] += 1
        left = [*stack, *self.state, *shown(self.heap), *shown(self.map), *shown(self.list)]
        say(name, *line, gave=numbers + left)

    def new(self, t, want=()):
        code, h, t_set, count, m, n = set_up(len(self.heap), t, len(self.map), len(self.list))
        self.state = h, t_set, count
        self.map[:m] = [0] * m
        self.list[:n] = ([1, h - 1] * count + [0] * n)[:n]
        self.gave(want, [code], "new", t)

    def collect(self, *roots, want=()):
        buffers = [getattr(self, name) for name in BUFFERS]
        numbers, written = collects(self.state, self.heap, roots, [len(buffer) for buffer in buffers])
        for buffer, words in zip(buffers, written):
            buffer[: len(words)] = words
        self.state = tuple(numbers[6:])
        self.gave(want, numbers[:6], "collect", len(roots), *roots, stack=shown(self.stack))

    def lacks(self, heap, *used):
        """1 where H or T is out of limits or not the heap's, 2 where a buffer used is shorter than needed, else 0."""
        h, t, _ = self.state
        need = rooms(h, t)
        if need[0] == 0 or (heap and len(self.heap) != h):
            return 1
        short = any(len(getattr(self, name)) < n for name, n in zip(BUFFERS, need) if name in used)
        return 2 if short else 0

    def records(self):
        """The listed intervals, or none where the list gives 3."""
        h, t, count = self.state
        records = list(zip(self.list[: 2 * count : 2], self.list[1 : 2 * count : 2]))
        if not is_valid(h, t, count, records):
            return None
        assert sweep(bitmap(h, records), t) == records
        return records

    def starts(self):
        return {a for a in range(1, self.state[0]) if self.map[a // 32] // 2 ** (a % 32) % 2}

    def allot_code(self, s, p):
        lacks = self.lacks(True, "map", "list")
        if lacks:
            return lacks
        if self.records() is None:
            return 3
        return 7 if s < self.state[1] or s > 65535 or p > s - 1 else 0

    def allot(self, s, p=0, want=()):
        h, t, _ = self.state
        code, a = self.allot_code(s, p), 0
        if not code:
            records = self.records()
            a = max(0, bytes(bitmap(h, records)).find(b"\1" * s))
            code = 0 if a else 8
        if a:
            count, self.list = taken_off(h, t, records, self.list, a, s)
            self.state = h, t, count
            self.heap[a : a + s] = [header(s, p)] + [0] * (s - 1)
            self.map[a // 32] |= 2 ** (a % 32)
        self.gave(want, [code, a], "allot", s, p)

    def field_code(self, a, k):
        h, t, _ = self.state
        lacks = self.lacks(True, "map")
        if lacks:
            return lacks
        if a not in self.starts():
            return 9
        p, s = divmod(self.heap[a], 65536)
        if s < t or p > s - 1 or a + s > h:
            return 5
        return 10 if k >= s - 1 else 0

    def read(self, a, k, want=()):
        code = self.field_code(a, k)
        self.gave(want, [code, 0 if code else self.heap[a + 1 + k]], "read", a, k)

    def write(self, a, k, v, want=()):
        code = self.field_code(a, k)
        if not code:
            if k < self.heap[a] // 65536 and v not in self.starts() | {0}:
                code = 11
            else:
                self.heap[a + 1 + k] = v
        self.gave(want, [code], "write", a, k, v)

    def survey(self, want=()):
        code = self.lacks(False, "list")
        records = [] if code else self.records()
        if records is None:
            code, records = 3, []
        self.gave(want, [code, *figures(records)], "survey")


def forged(h, t, records=(), objects=(), more=0, lent=None):
    """A station with a list and with objects (address and header) that no call made; `more` has further bits of the map."""
    station = Station(h, *(lent or spare(h, t)))
    bits = more + sum(2**a for a, _ in objects)
    if records:
        station.put("list", 0, *flat(records))
    station.put("map", 0, *(bits // 2 ** (32 * w) % 2**32 for w in range(min(len(station.map), rooms(h, t)[0]))))
    for a, word in objects:
        station.put("heap", a, word)
    station.given(h, t, len(records))
    return station


def each(station, *codes):
    """An allot, a read, a write and a survey; `codes` is what they give."""
    station.allot(2, 1, want=codes[:1])
    station.read(1, 0, want=codes[1:2])
    station.write(1, 0, 1, want=codes[2:3])
    station.survey(want=codes[3:])


def example_lines():
    """P1, P2 and P3 of the rules, with what the rules say of them."""
    station = Station(16, 2, 8, 17)
    station.put("heap", 0, 0, 65539, 8, 0, 0, 0, 0, 0, 2, *[0] * 7)
    station.new(2, want=[0])
    station.collect(1, want=[0, 0, 2, 5, 2, 2])
    assert station.map[0] == 258
    station.survey(want=[0, 10, 6, 400])
    station.allot(3, want=[0, 4])
    assert (station.map[0], station.state[2], station.list[:4]) == (274, 1, [10, 6, 0, 0])
    station.allot(7, want=[8])
    station.allot(6, want=[0, 10])
    assert (station.state[2], station.list[:4]) == (0, [0] * 4)
    station.survey(want=[0, 0, 0, 0])
    station.write(1, 0, 10, want=[0])
    station.collect(1, want=[0, 0, 2, 9])  # the objects at 4 and 8 are no longer reached
    station.allot(6, 5, want=[0, 4])


def least_lines():
    """Heaps of one word and of two."""
    station = Station(1, 1, 0, 0)
    station.new(1, want=[0])
    station.allot(1, want=[8])
    station.survey(want=[0, 0, 0, 0])
    station.read(0, 0, want=[9])
    station.collect(want=[0])
    station = Station(2, 2, 2, 3)
    station.new(1, want=[0])
    station.survey(want=[0, 1, 1, 0])
    station.allot(2, want=[8])
    station.allot(1, want=[0, 1])
    station.allot(1, want=[8])
    station.read(1, 0, want=[10])
    station.write(1, 0, 0, want=[10])
    station.new(2, want=[0])
    station.allot(2, want=[8])
    station.collect(1, want=[5, 1])
    station.collect(0, want=[0])


def largest_lines():
    """Heaps of 65,536 words."""
    for t, s, p in [(1, 65535, 65534), (2, 65534, 1), (65535, 65535, 65534)]:
        station = Station(65536, *spare(65536, t))
        station.new(t, want=[0])
        station.survey(want=[0, 65535, 65535, 0])
        station.allot(65536, want=[7])
        station.allot(s, p, want=[0, 1])
        station.allot(t, want=[8])
        station.survey(want=[0, 0, 0, 0])
        station.write(1, s - 2, 1, want=[0])
        station.write(1, 0, 1, want=[0])
        station.write(1, 0, 65535, want=[11])
        station.read(1, s - 2, want=[0, 1])
        station.read(1, s - 1, want=[10, 0])
        station.collect(1, want=[0, 0, 1, s, p + 1])
    for t in [1, 2]:
        station = Station(65536, *spare(65536, t))
        station.new(t, want=[0])
        for s in [t, 32767, t, 32767 - 3 * t, t]:
            station.allot(s, min(1, s - 1), want=[0])
        station.survey(want=[0, 2 - t])  # one word is left
        station.collect(1 + t, 65535 - t, want=[0, 0, 2, 32767 + t])
        station.allot(3, 2, want=[0, 32768 + t])
        station.survey(want=[0])


def limit_lines():
    """1 and 2 of every call, in stations whose list and objects are sound."""
    sound = dict(records=[(4, 4), (10, 6)], objects=[(1, header(3, 1)), (8, 2)])
    station = forged(16, 2, lent=(2, 8, 17), **sound)
    for words, survey in [(0, 1), (15, 3), (17, 0), (65537, 1), (2**32 + 16, 1), (2**40, 1)]:  # a survey is lent no heap
        station.given(words, 2, 2)
        each(station, 1, 1, 1, survey)
        station.collect(1, want=[1])
    for keep in [0, 65536, 2**32 + 2, 2**40]:
        station.given(16, keep, 2)
        each(station, 1, 1, 1, 1)
        station.collect(1, want=[1])
    station.given(16, 65535, 0)
    each(station, 7, 5, 5, 0)
    station.given(16, 2, 2)
    each(station, 0, 0, 0, 0)
    for h in [0, 65537]:
        station = Station(h, 2050, 0, 9)
        station.new(2, want=[1])
        station.given(h, 65535, 0)
        each(station, 1, 1, 1, 1)
    station = Station(65536, 2048, 0, 2)
    station.new(65536, want=[1])  # leaves a state of zeros
    each(station, 1, 1, 1, 1)
    station.given(65536, 65535, 0)
    each(station, 7, 5, 5, 0)
    for lent, allot, field, survey, collect in [((1, 7, 14), 0, 0, 0, 4), ((1, 0, 14), 0, 0, 0, 2), ((0, 7, 14), 2, 2, 0, 2),
                                                ((1, 7, 13), 2, 0, 2, 2), ((0, 0, 13), 2, 2, 2, 2), ((9, 9, 99), 0, 0, 0, 4)]:
        station = forged(16, 2, lent=lent, **sound)
        each(station, allot, field, field, survey)
        station.given(15, 2, 2)  # 1 comes before 2
        each(station, 1, 1, 1, survey or 3)
        station.collect(99, want=[1])
        station.given(16, 2, 2)
        station.collect(99, want=[collect])
        station.new(0, want=[1])
        station.new(2, want=[allot])
    for lent, allot, field, survey in [((2, 0, 32), 0, 0, 0), ((1, 0, 32), 2, 2, 0), ((2, 0, 31), 2, 0, 2)]:
        station = forged(33, 2, [(4, 29)], [(1, 3)], lent=lent)  # the map's second word is there for word 32 alone
        each(station, allot, field, field, survey)


def list_lines():
    """3, and what is not looked at for it."""
    for records, code in [([(1, 5), (7, 5), (13, 5)], 0), ([(1, 5), (7, 5), (13, 6)], 3), ([(1, 5), (7, 5), (13, 4)], 3),
                          ([(1, 4), (7, 5)], 3), ([(1, 5), (6, 5)], 3), ([(1, 5), (5, 5)], 3), ([(7, 5), (1, 5)], 3),
                          ([(1, 5), (1, 5)], 3), ([(0, 5)], 3), ([(0, 18)], 3), ([(1, 17)], 0), ([(1, 18)], 3),
                          ([(13, 5)], 0), ([(14, 5)], 3), ([(1, 0)], 3), ([(1, 5), (0, 0)], 3), ([(18, 5)], 3),
                          ([(7, 5), (14, 2**32 - 4)], 3), ([(2**32 - 4, 8)], 3), ([(1, 6), (8, 10)], 0)]:
        station = forged(18, 5, records, lent=(2, 1, 9))
        station.survey(want=[code])
        station.allot(5, 2, want=[code])
    station = forged(64, 2, [(36, 2**32 - 4)], lent=(2, 0, 62))  # its end is 32 if it is cut at 32 bits
    station.survey(want=[3])
    station.allot(2, want=[3])
    for lent, records in [((1, 0, 6), [(1, 5), (7, 5), (13, 5)]), ((1, 0, 10), [(1, 5), (7, 5), (13, 5), (3, 3)])]:
        station = forged(18, 5, records, lent=lent)
        for count in [4, 2**32 + 1, 2**32 + 3, 2**40, 2**42 + 2]:
            station.given(18, 5, count)
            station.survey(want=[3])
            station.allot(5, want=[3])
    for count, left in [(2, [7, 5, 0, 0, 0, 3, 9, 9, 7, 7]), (1, [0, 0, 7, 5, 0, 3, 9, 9, 7, 7])]:
        station.put("list", 0, 1, 5, 7, 5, 0, 3, 9, 9)  # what is past the count is not looked at and stays
        station.given(18, 5, count)
        station.survey(want=[0, 5 * count])
        station.allot(5, want=[0, 1])
        assert station.list == left
    for count in [0, 3]:
        station.put("list", 0, 1, 5, 7, 5, 13, 5, 99, 99)
        station.given(18, 5, count)
        station.survey(want=[0, 5 * count])
        for left in range(count, -1, -1):
            station.allot(5, 4, want=[0 if left else 8])


def size_lines():
    """7 and 8, and which interval an allot takes."""
    for t in [1, 3]:
        station = forged(64, t, [(2, 9), (20, 3), (30, 12)])
        for s, p in [(0, 0), (0, 5), (0, 2**32), (t - 1, 0), (65536, 0), (70000, 0), (2**32, 0), (2**32 + 4, 0), (2**40 + 4, 1),
                     (t, t), (4, 4), (4, 5), (4, 2**32), (4, 2**32 + 1), (4, 2**40), (65535, 65535)]:
            station.allot(s, p, want=[7])
        for s in [13, 64, 65535]:
            station.allot(s, s - 1, want=[8])
        station.allot(12, 11, want=[0, 30])
        station.allot(10, want=[8])
        station.allot(4, 3, want=[0, 2])
        station.allot(5, want=[0, 6])
        station.allot(3, 1, want=[0, 20])
        station.allot(t, want=[8])
        station.survey(want=[0, 0, 0, 0])
    for s, starts in [(2, [4, 6, 10, 12, 16]), (3, [4, 10, 16, 19, 24, 0]), (4, [4, 10, 16, 24, 0]), (5, [16, 0]),
                      (6, [16, 0]), (7, [0])]:
        station = forged(30, 2, [(4, 4), (10, 4), (16, 6), (24, 4)])
        for a in starts:
            station.allot(s, s // 2, want=[0 if a else 8, a])
    for t, s, listed in [(3, 5, 3), (3, 6, 0), (3, 7, 0), (3, 8, 0), (4, 4, 4), (5, 8, 0), (1, 7, 1)]:  # what is left, about T
        station = forged(12, t, [(2, 8)])
        station.allot(s, want=[0, 2])
        station.survey(want=[0, listed])


def object_lines():
    """What an allot leaves in heap and map."""
    station = forged(20, 2, [(2, 10), (14, 6)], [(2, header(4, 1)), (5, 3), (17, 2)], more=2**0 + 2**20 + 2**31)
    station.allot(5, 2, want=[0, 2])  # the list runs over objects of the map: their bits stay
    station.read(5, 0, want=[5])
    station.allot(4, want=[0, 7])
    station.allot(6, 5, want=[0, 14])
    assert station.map[0] == sum(2**a for a in [0, 2, 5, 7, 14, 17, 20, 31])
    station = Station(24, 1, 7, 14)
    station.new(3, want=[0])
    station.put("heap", 1, *[2**32 - 1] * 23)
    station.allot(6, 3, want=[0, 1])
    for k in range(5):
        station.read(1, k, want=[0, 0])
    station.read(1, 5, want=[10])
    for a in [31, 32, 33, 63, 64]:  # at the ends of the map's words
        station = forged(70, 2, [(a, 4)])
        station.allot(2, 1, want=[0, a])
        station.write(a, 0, a, want=[0])


def field_lines():
    """9, 10 and 11, in a heap of 20 words whose map has bits at 0 and behind its end."""
    objects = [(1, header(5, 2)), (8, header(2, 1)), (10, 3), (18, header(2, 1))]
    station = forged(20, 2, objects=objects, more=2**0 + 2**20 + 2**21 + 2**31, lent=(2, 0, 18))
    for a in [0, 2, 7, 13, 19, 20, 21, 31, 32, 33, 64, 2**32, 2**32 + 1, 2**40 + 8]:
        station.read(a, 0, want=[9, 0])
        station.write(a, 0, 0, want=[9])
    for a, k in [(1, 0), (1, 3), (8, 0), (10, 1), (18, 0)]:
        station.write(a, k, 10, want=[0])
        station.read(a, k, want=[0, 10])
    for a, k in [(1, 4), (1, 5), (1, 2**32), (1, 2**32 + 1), (1, 2**40), (8, 1), (10, 2), (18, 1), (18, 2**32 - 1)]:
        station.read(a, k, want=[10, 0])
        station.write(a, k, 2**32 - 1, want=[10])
    for v in [2, 5, 13, 19, 20, 21, 31, 32, 2**31, 2**32 - 1, 2**16 + 1]:
        station.write(1, 1, v, want=[11])
        station.write(1, 2, v, want=[0])  # the first data field
        station.read(1, 2, want=[0, v])
        station.write(10, 0, v, want=[0])
    for v in [0, 1, 8, 10, 18]:
        station.write(1, 1, v, want=[0])
        station.write(18, 0, v, want=[0])
    station.put("heap", 10, 0)
    station.write(1, 0, 10, want=[0])  # the header of what is referred to is not looked at
    for h in [32, 33, 64, 65]:
        station = forged(h, 1, objects=[(1, header(2, 1)), (h - 2, header(2, 1))], more=2**h if h % 32 else 0)
        for a, field, value in [(h - 2, 0, 0), (h - 1, 9, 11), (h, 9, 11)]:
            station.write(1, 0, a, want=[value])
            station.read(a, 0, want=[field])


def header_lines():
    """5 of reads and writes, and headers that pass."""
    station = forged(20, 2, objects=[(1, header(5, 2)), (8, 2)], lent=(1, 0, 18))
    for word, code in [(0, 5), (1, 5), (2, 0), (header(2, 1), 0), (header(2, 2), 5), (header(3, 2), 0), (header(3, 3), 5),
                       (12, 0), (13, 5), (header(12, 11), 0), (header(12, 12), 5), (65535, 5), (65536, 5), (2**32 - 1, 5),
                       (header(0, 65535), 5), (header(1, 1), 5), (header(5, 65535), 5)]:
        station.put("heap", 8, word, 10)
        station.read(8, 0, want=[code])
        station.write(8, 0, 1, want=[code])
    for a, word, code in [(18, 2, 0), (18, 3, 5), (19, 2, 5), (19, 1, 5)]:  # the end of the heap
        station = forged(20, 2, objects=[(a, word)])
        station.read(a, 0, want=[code])
        station.write(a, 0, 2**32 - 1, want=[code])
    station = forged(9, 1, objects=[(1, 1), (2, 2), (8, 1)])  # objects of one word have no field
    for a, code in [(1, 10), (2, 0), (8, 10)]:
        station.read(a, 0, want=[code])
        station.write(a, 0, 99, want=[code])
    station = forged(20, 2, objects=[(1, header(6, 2)), (3, header(3, 1)), (5, 2)])  # objects that overlap
    station.write(1, 3, 77, want=[0])
    station.read(5, 0, want=[5])
    station.write(3, 0, 3, want=[0])
    station.read(3, 3, want=[10])
    station.write(1, 1, 5, want=[0])
    station.read(3, 3, want=[0, 7])


def order_lines():
    """Where two refusals apply the one that comes first is given."""
    touching = [(1, 5), (6, 5)]
    station = forged(18, 5, touching, lent=(0, 0, 6))
    station.allot(0, want=[2])  # 2 before 3
    station.read(0, 0, want=[2])  # 2 before 9
    station.write(0, 0, 1, want=[2])
    station.given(17, 5, 2)
    station.allot(0, want=[1])  # 1 before 2
    station.read(0, 0, want=[1])
    station.write(0, 0, 1, want=[1])
    station = forged(18, 5, touching, lent=(1, 0, 5))
    station.survey(want=[2])
    station.given(18, 0, 2)
    station.survey(want=[1])
    station = forged(18, 5, touching, [(1, 3), (9, header(7, 6))])
    station.allot(0, want=[3])  # 3 before 7
    station.allot(99, want=[3])  # 3 before 8
    station.survey(want=[3])
    station.put("heap", 2, 3)
    station.read(2, 9, want=[9])  # 9 before 5 and 10
    station.write(2, 0, 99, want=[9])
    station.read(1, 9, want=[5])  # 5 before 10
    station.write(1, 9, 99, want=[5])
    station.put("heap", 1, header(3, 3))
    station.write(1, 0, 99, want=[5])  # 5 before 11
    station.write(9, 6, 99, want=[10])  # just behind the last reference field
    station.write(9, 5, 99, want=[11])
    station.put("list", 0, 1, 5, 7, 5)
    station.allot(65536, want=[7])  # 7 before 8
    station.allot(17, 17, want=[7])
    station.allot(17, 16, want=[8])


def damage_lines():
    """After a collection that refuses: nothing is listed, nothing is on the map, and a later one can succeed."""
    for words, roots, code in [({1: header(3, 1), 2: 4, 4: 1}, [1], 5), ({1: 5, 3: 2}, [1, 3], 6), ({1: 5, 5: 2}, [5, 1], 6),
                               ({1: header(4, 1), 2: 1, 4: 2}, [1, 1, 4], 6), ({1: 5}, [1, 99], 4), ({1: 4}, [1, 16], 4)]:
        station = Station(16, 2, 8, 16)
        station.new(2, want=[0])
        station.allot(4, 1, want=[0, 1])
        for a, word in words.items():
            station.put("heap", a, word)
        station.collect(*roots, want=[code])
        station.allot(2, want=[8])
        station.read(1, 0, want=[9])
        station.write(1, 0, 0, want=[9])
        station.survey(want=[0, 0, 0, 0])
        station.put("heap", 4, 2)
        station.collect(1, want=[0])
        station.read(1, 0, want=[0])
        station.allot(2, 1, want=[0])
        station.survey(want=[0])
        station.given(16, 2, 2**40)  # the count is forgotten by a collection, and not by an allot
        station.allot(2, want=[3])
        station.collect(1, want=[0])


def forge(pick, station):
    """Damages a word of heap, map or list, or the count."""
    h, t, count = station.state
    name = pick.choice(["heap", "heap", "map", "list", "count"])
    if name == "count":
        station.given(h, t, pick.choice([0, max(0, count - 1), count + 1, 2**40]))
        return
    buffer = getattr(station, name)
    at = pick.randrange(len(buffer))
    word = pick.choice([0, 1, h, header(t, t), pick.randint(0, h + 2)])
    station.put(name, at, buffer[at] ^ 2 ** pick.randrange(32) if name == "map" else word)


def random_allot(pick, station):
    h, t, _ = station.state
    s = pick.randint(t, 3 * t + h // 10)
    station.allot(s, pick.randint(0, s - 1))


def random_call(pick, station, damaged):
    h, t, _ = station.state
    starts = sorted(station.starts())
    word = pick.randint(0, h + 1)
    a, v = pick.choice([word, *starts * 2]), pick.choice([0, word, word, *starts])
    kind = pick.choice(["allot"] * 4 + ["write"] * 6 + ["read"] * 3 + ["survey", "collect", "collect"])
    if kind == "allot":
        random_allot(pick, station)
    elif kind == "write":
        station.write(a, pick.randint(0, t + 2), v)
    elif kind == "read":
        station.read(a, pick.randint(0, t + 2))
    elif kind == "survey":
        station.survey()
    else:
        station.collect(*pick.sample(starts, len(starts) // 2), *[v] * damaged)


def random_lines(pick):
    """Histories in small heaps: allots until one is refused, then any calls, in every third history with damage between them."""
    for history in range(14):
        h, t, damaged = pick.randint(12, 90), pick.randint(1, 4), history % 3 == 0
        station = Station(h, *spare(h, t))
        station.new(t, want=[0])
        refused = came["allot", 8]
        while came["allot", 8] == refused:
            random_allot(pick, station)
        for _ in range(18):
            if damaged and pick.random() < 0.25:
                forge(pick, station)
            random_call(pick, station, damaged)


example_lines()
least_lines()
largest_lines()
limit_lines()
list_lines()
size_lines()
object_lines()
field_lines()
header_lines()
order_lines()
damage_lines()
random_lines(random.Random(2006))
ALLOWED = {"new": [0, 1, 2], "collect": [0, 1, 2, 4, 5, 6], "allot": [0, 1, 2, 3, 7, 8], "read": [0, 1, 2, 9, 5, 10],
           "write": [0, 1, 2, 9, 5, 10, 11], "survey": [0, 1, 2, 3]}
assert set(came) == {(name, code) for name, codes in ALLOWED.items() for code in codes}
assert min(came.values()) >= 3
settle("calls")
