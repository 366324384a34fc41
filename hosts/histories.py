#!/usr/bin/env python3
"""Writes the lines of the long random histories and the answers expected of them: crates/histories/stdin and stdout.

A line gives the words of the heap, the keep length, how many words more than needed are lent of map, stack and list, a seed, how
many turns there are, and in how many turns there is one of loss. The same numbers are drawn here as in the program, and the same
calls made, but what comes of them is worked out from what is held: the objects allotted and not since found unreachable, each with
the words last written to its fields. Free are the words outside them; the list is a sweep over these, an allot takes the lowest that
fit, and the map has the starts of what is held. No bit of a map and no record of a list is ever looked at. Beside them stand the
words of the heap, written by allots and writes alone.
With --check nothing is written: the two files must be there as they would be written.
"""
from collections import Counter

from rules import figures, flat, header, map_of, peak_by_borders, rooms, say, settle, spare, sweep, total

SLOTS, DRAWN = 24, 9
HUGE = 2**32
PLACES = [("allot", 0), ("allot", 7), ("allot", 8), ("read", 0), ("read", 9), ("read", 10), ("write", 0), ("write", 9),
          ("write", 10), ("write", 11), ("collect", 0), ("survey", 0), ("new", 0)]
came, sizes, depths, lacking = Counter(), Counter(), Counter(), Counter()


class Object:
    """What is held of an object: its size, how many of its fields are references, and the words of its fields."""

    def __init__(self, s, p):
        self.size, self.p, self.fields = s, p, [0] * (s - 1)

    def words(self):
        return [header(self.size, self.p), *self.fields]


class Station:
    """What a history runs on: what is held, the words ever written to the heap, what is free, and the numbers noted."""

    def __init__(self, h, t):
        self.h, self.t, self.lent = h, t, spare(h, t)
        self.held, self.heap, self.free = {}, [7] * h, bytearray(b"\0" + b"\1" * (h - 1))
        self.is_stack_clear = False
        self.runs = sweep(self.free, t)
        self.given, self.counted, self.peak, self.digest = Counter(), [0, 0, 0], 0, 0
        self.note("new", 0, *self.state())

    def state(self):
        return self.h, self.t, len(self.runs)

    def note(self, name, *numbers):
        came[name, numbers[0]] += 1
        self.given[name, numbers[0]] += 1
        self.digest = total(numbers, self.digest)

    def allot(self, s, p):
        code, a = 7 if s < self.t or s > 65535 or p > s - 1 else 0, 0
        if not code:
            a = max(0, self.free.find(b"\1" * s))
            code = 0 if a else 8
        if code == 8:
            lacking[self.h] = max(lacking[self.h], len(self.runs))
        if a:
            self.held[a] = Object(s, p)
            self.heap[a : a + s] = self.held[a].words()
            self.free[a : a + s] = bytes(s)
            self.runs = sweep(self.free, self.t)
        self.note("allot", code, a, *self.state())
        return a

    def field_code(self, a, k):
        if a not in self.held:
            return 9
        return 10 if k >= len(self.held[a].fields) else 0

    def read(self, a, k):
        code = self.field_code(a, k)
        value = 0 if code else self.held[a].fields[k]
        self.note("read", code, value)
        return not code, value

    def write(self, a, k, v):
        code = self.field_code(a, k)
        if not code and k < self.held[a].p and v and v not in self.held:
            code = 11
        if not code:
            self.held[a].fields[k] = self.heap[a + 1 + k] = v
        self.note("write", code)

    def survey(self):
        self.note("survey", 0, *figures(self.runs))

    def reached(self, roots):
        """The objects that the roots reach, in the order of marking."""
        reached, left = {}, []
        for root in roots:
            met = [root]
            while met or left:
                for a in met:
                    if a and a not in reached:
                        reached[a] = self.held[a]
                        left.append(a)
                depths[len(left)] += 1
                met = []
                if left:
                    found = self.held[left.pop()]
                    met = found.fields[: found.p]
        return reached

    def collect(self, roots):
        self.held = self.reached(roots)
        self.free = bytearray(b"\0" + b"\1" * (self.h - 1))
        for a, found in self.held.items():
            self.free[a : a + found.size] = bytes(found.size)
        self.runs = sweep(self.free, self.t)
        self.is_stack_clear = True
        marked = [(a, found.size) for a, found in self.held.items()]
        live, read = sum(s for _, s in marked), len(roots) + sum(found.p for found in self.held.values())
        assert live + sum(self.free) == self.h - 1  # no two of them overlap
        peak = peak_by_borders(self.h, self.t, marked)
        self.note("collect", 0, 0, len(marked), live, read, peak, *self.state())
        self.counted = [n + more for n, more in zip(self.counted, (len(marked), live, read))]
        self.peak = max(self.peak, peak)
        if self.given["collect", 0] % (self.h // 1024 + 1) == 0:
            self.look()

    def look(self):
        self.digest = total(self.sums(), self.digest)

    def sums(self):
        """Sums over all words lent of heap, map, stack and list."""
        outside = bytearray(b"\0" + b"\1" * (self.h - 1))
        for a, found in self.held.items():
            assert self.heap[a : a + found.size] == found.words()
            outside[a : a + found.size] = bytes(found.size)
        assert self.free == outside
        need = rooms(self.h, self.t)
        fronts = [map_of(self.h, [(a, 0) for a in self.held]), [0] * need[1] if self.is_stack_clear else [], flat(self.runs)]
        fronts[2] += [0] * (need[2] - len(fronts[2]))
        return [total(self.heap), *(total(front + [7] * (lent - len(front))) for front, lent in zip(fronts, self.lent))]


def below(x, n):
    return x // 256 % n


class Turn:
    """The choices of a turn, by the numbers drawn for it."""

    def __init__(self, station, slots, seed, seldom):
        self.station, self.slots, self.draw = station, slots, []
        for _ in range(DRAWN):
            seed = (seed % 2**31 * 1103515245 + 12345) % 2**31
            self.draw.append(seed)
        self.seed, self.slot = seed, self.a_slot(self.draw[1])
        self.is_loss = seldom > 0 and below(seed, seldom) == 0

    def a_slot(self, x):
        return below(x, min(SLOTS, self.station.h // 4 + 1))

    def size(self):
        how, x = below(self.draw[2], 40), self.draw[3]
        if how == 0:
            return below(x, self.station.t + 1)
        if how == 1:
            return 65536 + below(x, 3)
        return self.station.t + below(x, self.station.h // (4 * below(self.draw[6], 64) + 4) + 1 if how <= 4 else 8)

    def refs(self, s):
        how = below(self.draw[4], 40)
        if how == 0:
            return s
        return 0 if how <= 6 or s < 2 else 1 + below(self.draw[5], s - 1)

    def address(self, how):
        if how == 0:
            return below(self.draw[3], self.station.h + 3)
        return self.slots[self.slot] + (HUGE if how == 1 else 0)

    def field(self, how, is_any, a):
        x = self.draw[4]
        s = self.station.heap[a] % 65536 if a < self.station.h else 0
        if how == 3 and a < self.station.h:
            return HUGE + below(x, 3)
        if s < 2:
            return below(x, 3)
        if how == 2:
            return s - 1 + below(x, 3)
        return below(x, s - 1) if is_any else s - 2

    def value(self):
        how, x = below(self.draw[5], 8), self.draw[6]
        if how == 0:
            return 0
        if how == 1:
            return below(x, self.station.h + 3)
        return (x + self.draw[7]) % HUGE if how == 2 else self.slots[self.a_slot(x)]

    def allot(self):
        s = self.size()
        p = self.refs(s)
        a = self.station.allot(s, p)
        if not a:
            return
        old = self.slots[self.slot]
        if old and self.station.held[old].p > 8 and not self.is_loss and below(self.draw[7], 16):
            self.station.write(old, self.field(4, True, old), a)
        elif p and below(self.draw[6], 3):
            self.station.write(a, 0, old)
            self.slots[self.slot] = a
        elif old == 0 or self.is_loss:
            self.slots[self.slot] = a
        else:
            self.station.write(old, self.field(4, False, old), a)

    def read(self):
        how = below(self.draw[2], 20)
        a = self.address(how)
        k = self.field(how, True, a)
        is_read, value = self.station.read(a, k)
        to = self.a_slot(self.draw[5])
        if is_read and k < self.station.held[a].p and (self.slots[to] == 0 or self.is_loss):
            self.slots[to] = value

    def write(self):
        how = below(self.draw[2], 20)
        a = self.address(how)
        self.station.write(a, self.field(how, self.is_loss, a), self.value())

    def collect(self):
        n = SLOTS
        if self.is_loss:
            n = below(self.draw[3], SLOTS)
        elif below(self.draw[2], 4) == 0:
            n += below(self.draw[3], SLOTS + 1)
        roots = (self.slots * 2)[:n]
        self.slots[n:] = [0] * len(self.slots[n:])
        self.station.collect(roots)

    def run(self):
        kind = below(self.draw[0], 100)
        if kind < 38:
            self.allot()
        elif kind < 47:
            self.collect()
        elif kind < 68:
            self.read()
        elif kind < 90:
            self.write()
        elif kind < 95:
            self.station.survey()
        elif self.is_loss:
            self.slots[self.slot] = 0
        if self.station.h < 1024 and below(self.draw[7], 5) == 0:
            self.station.look()
        assert all(a == 0 or a in self.station.held for a in self.slots)


def history(h, t, seed, turns, seldom):
    station, slots, first = Station(h, t), [0] * SLOTS, seed
    for _ in range(turns):
        turn = Turn(station, slots, first, seldom)
        turn.run()
        first = turn.seed
    sizes[h] += 1
    more = [lent - need for lent, need in zip(station.lent, rooms(h, t))]
    counts = [station.given[place] for place in PLACES]
    others = sum(station.given.values()) - sum(counts)
    assert others == 0 and station.given["new", 0] == 1
    say("history", h, t, *more, seed, turns, seldom,
        gave=[*counts, others, *station.counted, station.peak, station.digest, *station.sums()])


# Words of the heap, keep lengths, how seldom there is loss, and turns.
ROWS = [(1, [1, 65535], [3], 100), (2, [1, 2], [3], 200), (7, [1, 2, 3], [2, 4], 600), (33, [1, 2, 5], [2, 5], 1000),
        (64, [1, 2, 4, 9], [2, 6], 1200), (200, [1, 3, 6, 8], [2, 5, 12], 1500), (1000, [1, 2, 7], [3, 20, 60], 2000),
        (4096, [1, 3, 8], [5, 40, 150], 3000), (4096, [500], [3], 1000), (20000, [2, 5], [10, 100], 4000),
        (20000, [3000], [3], 1000), (65536, [1, 9], [20, 200], 4000), (65536, [16000, 65535], [2], 1000),
        (65536, [4], [500], 8000), (20000, [12, 16], [2000], 9000)]
for h, keeps, losses, turns in ROWS:
    for t in keeps:
        for seldom in losses:
            history(h, t, 2006 + 1000 * sum(sizes.values()), turns, seldom)
assert set(came) == set(PLACES) and min(came.values()) >= sum(sizes.values())
assert len(sizes) >= 10 and came["collect", 0] >= 3000
assert max(depths) >= 50  # objects on the mark stack at once
assert lacking[20000] >= 50  # intervals listed, and none that fits
settle("histories")
