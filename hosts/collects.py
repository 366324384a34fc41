#!/usr/bin/env python3
"""Writes the lines of the collections and the answers expected of them: crates/collections/stdin and stdout.

The answers are worked out from the rules alone, and not the way the proved code works. Words of marked objects stand
in a bitmap of the whole heap, which tells an overlap; the free list is a sweep over it at the end; and the peak is found
afterwards, from the objects in the order of their marking, by a sweep after each or, in a large heap, by the borders of
the gaps between them. Images are laid by the same rules as the program's.
With --check nothing is written: the two files must be there as they would be written.
"""
import random

from rules import collects, flat, header, say, settle, shown, spare

ROOM = 39
codes = []


def collect(name, h, t, heap, roots, *given, count=0, lent=None, want=(), bits=None, free=None):
    """A line; `want` is how the answer begins, `bits` the map and `free` the list where the rules give them as an example."""
    state, lent = (h, t, count), lent or spare(h, t)
    numbers, written = collects(state, heap, roots, lent)
    assert numbers[: len(want)] == list(want), (name, given, numbers)
    assert bits is None or written[0] == bits, (name, given, written)
    assert free is None or written[2][: 2 * numbers[8]] == flat(free), (name, given, written)
    codes.append(numbers[0])
    shows = [shown(new + [7] * (have - len(new))) for new, have in zip(written, lent)]
    say(name, *state, len(heap), *lent, len(roots), *given, gave=numbers + sum(shows, []))


def image(h, t, roots, words, heap=None, **more):
    """A collection of the words given; `heap` is the heap's length where it is not the state's."""
    memory = [0] * (h if heap is None else heap)
    for a, word in words.items():
        memory[a] = word
    given = roots + flat(words.items())
    if 0 in words:
        given += [0, words[0]] * ((ROOM - len(given)) // 2)  # places that a line leaves out write 0 to word 0
    assert len(given) <= ROOM
    collect("given", h, t, memory, roots, *given, **more)


def chain(name, h, t, s, d=None, r=1, **more):
    d = d or s
    starts, heap = range(1, h - s + 1, d), [0] * h
    for a in starts:
        heap[a] = header(s, 1)
        if name == "back":
            heap[a + 1] = a - d if a > 1 else 0
        else:
            heap[a + 1] = a + d if a + d in starts else 0
    collect(name, h, t, heap, [starts[-1] if name == "back" else 1] * r, s, d, **more)


def fan(h, t, s, d, p, r=1, **more):
    heap = [0] * h
    for i, a in enumerate(range(p + 2, min(h, p + 2 + p * d), d)):
        heap[2 + i], heap[a] = a, header(s, int(s > 1))
    heap[1] = header(p + 1, p)
    collect("fan", h, t, heap, [1] * r, s, d, p, **more)


def after(x):
    return (x % 2**31 * 1103515245 + 12345) % 2**31


def below(x, n):
    return x // 256 % n


def is_time(x, n):
    return n != 0 and below(x, n) == 0


def made(h, t, s, bad, x):
    y = after(x)
    if is_time(y, bad):
        return [65536, t - 1, 65537 * t, h][below(after(y), 4)]
    return header(s, below(x, s)) % 2**32


def objects(heap, t, bad, overlap, x):
    a, starts = 1, []
    while len(starts) < 8192:
        x = after(x)
        a += 0 if is_time(x, 2) else below(after(x), 2 * t + 1)
        x = after(x)
        s = t + below(x, 5)
        if a + s > len(heap):
            break
        x = after(x)
        heap[a] = made(len(heap), t, s, bad, x)
        starts.append(a)
        a += s - is_time(after(x), overlap)
    return starts


def reference(starts, h, inner, outside, x):
    y = after(x)
    z = after(y)
    if is_time(x, 8):
        return 0
    if is_time(y, outside):
        return h + below(z, 3)
    return starts[below(z, len(starts))] + is_time(after(z), inner) if starts else 0


def fill(to, starts, h, inner, outside, x):
    for i, word in enumerate(to):
        x = after(x)
        if word == 0:
            to[i] = reference(starts, h, inner, outside, x)


def chance(h, t, r, seed, inner=0, outside=0, bad=0, overlap=0, **more):
    heap, roots = [0] * h, [0] * r
    starts = objects(heap, t, bad, overlap, seed)
    fill(heap, starts, h, inner, outside, seed)
    fill(roots, starts, h, inner, outside, after(seed))
    collect("random", h, t, heap, roots, seed, inner, outside, bad, overlap, **more)


def example_lines():
    """The examples of the rules, P1 and P4 to P11, with what the rules say of them, and those that follow the table."""
    image(16, 2, [1], {1: 65539, 2: 8, 8: 2}, want=[0, 0, 2, 5, 2, 2, 16, 2, 2], bits=[258], free=[(4, 4), (10, 6)])
    pairs = {1: 2, 3: 2, 5: 2}
    image(7, 2, [3, 1, 5], pairs, want=[0, 0, 3, 6, 3, 2, 7, 2, 0])
    image(7, 2, [1, 3, 5], pairs, want=[0, 0, 3, 6, 3, 1, 7, 2, 0])
    image(8, 2, [1, 2], {1: 4, 2: 2}, want=[6, 2])
    image(8, 2, [2, 1], {1: 4, 2: 2}, want=[6, 1])
    image(8, 2, [2], {1: 4, 2: 2}, want=[0, 0, 1, 2, 1, 1, 8, 2, 1], free=[(4, 4)])
    image(8, 2, [6], {6: 3}, want=[5, 6])
    image(8, 2, [6], {6: 2}, want=[0, 0, 1])
    image(8, 2, [1], {1: 131074}, want=[5, 1])
    image(8, 2, [1], {1: 65538}, want=[0, 0, 1])
    image(1, 1, [], {}, want=[0, 0, 0, 0, 0, 0, 1, 1, 0])
    image(1, 1, [1], {}, want=[4, 1])
    image(2, 1, [], {}, want=[0, 0, 0, 0, 0, 1, 2, 1, 1], free=[(1, 1)])
    image(2, 2, [], {}, want=[0, 0, 0, 0, 0, 0, 2, 2, 0])
    image(8, 2, [1], {1: header(2, 1), 2: 1}, want=[0, 0, 1, 2, 2])
    image(8, 2, [1, 1], {1: header(2, 1)}, want=[0, 0, 1, 2, 3])


def sound_lines():
    image(12, 2, [4], {1: header(3, 1), 2: 4, 4: header(3, 2), 5: 7, 7: header(2, 1), 8: 1})  # a cycle
    image(12, 2, [7], {1: header(3, 1), 2: 4, 4: header(3, 2), 5: 7, 6: 4, 7: header(2, 1), 8: 1})
    image(12, 2, [0, 0, 1, 0, 1], {1: header(6, 3), 3: 7, 4: 7, 5: 99, 6: 2**32 - 1, 7: 2})  # 0 and repeats are counted
    image(12, 2, [1], {1: 4, 2: 5, 3: 99, 4: 2**32 - 1})  # data are not followed
    image(12, 2, [], {1: header(3, 1), 2: 4, 4: 0, 8: 2**32 - 1})
    image(12, 2, [0, 0], {0: header(2, 1), 1: header(3, 1)})
    image(12, 2, [1, 5], {1: 4, 5: 2})  # touching
    image(12, 2, [5, 1], {1: 4, 5: 2})
    image(13, 3, [3, 8], {3: 3, 8: 3})  # every gap is dropped
    image(13, 3, [4, 10], {4: 3, 10: 3})  # gaps of just T words are kept
    image(13, 12, [1], {1: header(12, 11)})
    image(13, 12, [1], {1: 12, 2: 12})
    image(9, 1, [2, 4, 6, 8], {2: 1, 4: 1, 6: 1, 8: 1})
    image(9, 1, [8, 7, 6, 5, 4, 3, 2, 1], {a: 1 for a in range(1, 9)})
    image(2, 1, [1], {1: 1})
    image(2, 1, [0], {1: 1})
    image(3, 1, [1, 2], {1: 1, 2: 1})
    image(64, 2, [31, 62], {31: header(2, 1), 32: 33, 33: 2, 62: 2})  # both ends of the map's words
    image(65, 2, [1], {1: header(2, 1), 2: 32, 32: header(2, 1), 33: 63, 63: 2})
    image(66, 2, [64], {64: 2})
    image(65536, 65535, [1], {1: 65535})
    image(65536, 65535, [1], {1: header(65535, 65534), 65535: 1})
    image(65536, 65535, [], {})
    image(65536, 1, [65535, 1], {1: 65534, 65535: 1})
    image(65535, 65535, [0], {})


def refused_lines():
    for r in [7, 8, 9, 2**31, 2**32 - 8, 2**32 - 1]:  # at the upper end of the heap
        image(8, 1, [r], {7: 1})
        image(8, 1, [1], {1: header(2, 1), 2: r, 7: 2})
    for word in [0, 1, 2, 5, 6, 65535, 65536, header(2, 2), header(3, 2), header(3, 3), header(5, 4), header(5, 5),
                 header(0, 65535), 2**32 - 1]:
        image(6, 2, [1], {1: word})
        image(8, 2, [1], {1: header(2, 1), 2: 3, 3: word})
    for t, s in [(3, 2), (3, 3), (1, 0), (1, 1), (7, 7), (8, 7), (9, 9)]:
        image(8, t, [1], {1: s})
    for r in [0, 1, 4, 5, 6]:  # T above H-1
        image(5, 10, [r], {1: 4, 4: 10})
    image(1, 1, [0, 2], {})
    image(8, 2, [1, 3], {1: 5, 3: 2})  # an inner word with a good header, and with a bad one
    image(8, 2, [1, 3], {1: 5, 3: 1})
    image(8, 2, [1], {1: header(5, 2), 2: 3, 3: 3})
    image(8, 2, [1], {1: header(5, 2), 2: 3, 3: 65539})
    image(8, 2, [1, 5], {1: 5, 5: 3})  # the last word
    image(8, 2, [1, 5], {1: 5, 5: 4})
    image(9, 2, [1, 4], {1: 4, 4: 2})  # one word in common, in both orders
    image(9, 2, [4, 1], {1: 4, 4: 2})
    image(9, 2, [3, 1], {1: 6, 3: 2})  # swallows a marked one
    image(9, 2, [1], {1: header(3, 2), 2: 6, 3: 4, 4: 5, 6: 2})
    image(9, 2, [5, 3, 1], {1: 2, 3: 6, 5: 2})
    image(9, 2, [7, 2, 1], {1: 8, 2: 3, 7: 2})  # swallows two
    image(9, 2, [3, 3, 4], {3: 3, 4: 2})
    image(9, 2, [2, 1], {1: header(2, 1), 2: 3})


def order_lines():
    """Pairs of images that differ in the order of marking alone."""
    pair = {4: 2, 6: 2}
    for first, then in [(6, 4), (4, 6)]:  # two fields exchanged
        image(10, 2, [1], {1: header(3, 2), 2: first, 3: then, **pair})
    for one, two in [(8, 10), (10, 8)]:  # the object pushed last is popped first
        image(14, 2, [1], {1: header(3, 2), 2: 4, 3: 6, 4: header(2, 1), 5: one, 6: header(2, 1), 7: two, 8: 2, 10: 2})
    image(9, 2, [1, 5], {1: header(2, 1), 2: 3, 3: 2, 5: 2})  # the stack is emptied before the next root
    image(9, 2, [1, 3], {1: header(2, 1), 2: 5, 3: 2, 5: 2})
    for first, then in [(99, 10), (10, 99)]:  # which of two refusals comes first
        image(12, 2, [first, then], {})
        image(12, 2, [1], {1: header(3, 2), 2: first, 3: then})
        image(12, 2, [1, 3], {1: header(2, 1), 2: first, 3: header(2, 1), 4: then})
        image(12, 2, [1], {1: header(3, 2), 2: 4, 3: 6, 4: header(2, 1), 5: first, 6: header(2, 1), 7: then})
        image(12, 2, [1, then], {1: header(2, 1), 2: 5, 5: header(2, 1), 6: first})
    image(9, 2, [1], {1: header(3, 2), 2: 4, 3: 99, 4: header(2, 1), 5: 8})
    image(9, 2, [1], {1: header(3, 2), 2: 99, 3: 4, 4: header(2, 1), 5: 8})
    image(9, 2, [1], {1: header(3, 2), 2: 5, 3: 4, 4: 2, 5: 2})
    image(9, 2, [1], {1: header(3, 2), 2: 4, 3: 5, 4: 2, 5: 2})


def limit_lines():
    small = {1: header(2, 1), 2: 3, 3: 2}
    for h in [0, 65537]:
        image(h, 2, [0], {})
    for t in [0, 65536, 2**32 + 2, 2**40]:
        image(16, t, [1], small, lent=[3, 9, 17])
    for words in [0, 15, 17, 65537, 2**32 + 16]:
        image(words, 2, [1], small, heap=16, lent=[3, 9, 17])
    image(0, 0, [], {}, lent=[0, 0, 0])
    image(1, 1, [], {}, heap=0)
    for count in [1, 7, 8, 65535, 2**32 - 1, 2**32, 2**42]:  # the old count is not looked at
        image(16, 2, [1], small, count=count)
        image(16, 2, [4], small, count=count)
    image(16, 2, [1], small, heap=15, count=2**40)
    image(16, 2, [1], small, lent=[0, 7, 14], count=3)
    for lent in [[1, 7, 14], [0, 7, 14], [1, 6, 14], [1, 7, 13], [0, 0, 0], [3, 0, 17], [3, 9, 0]]:
        image(16, 2, [1], small, lent=lent, count=5)
        image(16, 2, [16], small, lent=lent, count=5)
        image(16, 2, [1], small, heap=15, lent=lent)
    for lent in [[2, 16, 32], [1, 16, 32], [2, 15, 32], [2, 16, 31]]:
        image(33, 2, [1], small, lent=lent)
    image(1, 1, [], {}, lent=[1, 0, 0])
    image(1, 1, [], {}, lent=[0, 0, 0])
    image(9, 9, [0], {}, lent=[1, 0, 0])


def large_lines():
    for name in ["onward", "back"]:
        chain(name, 16, 2, 2)
        chain(name, 17, 2, 3, lent=[1, 8, 16])
        chain(name, 65536, 2, 2)  # as many objects as there can be
        chain(name, 65536, 1, 5)
        chain(name, 65535, 7, 9)
        chain(name, 65536, 2, 65535)
        chain(name, 65536, 2, 2, 3)  # every gap is dropped
        chain(name, 65536, 2, 2, 4)
        chain(name, 65533, 2, 2, 4)  # as many intervals as such a heap can have
        chain(name, 65536, 3, 5, 8, lent=[2048, 21845, 43690])
        chain(name, 65536, 2, 4, 3)
        chain(name, 65536, 2, 2, r=65536)
    chain("onward", 65536, 2, 2, lent=[2048, 32767, 65534])
    for lent in [[2047, 32767, 65534], [2048, 32766, 65534], [2048, 32767, 65533]]:
        chain("onward", 65536, 2, 2, lent=lent)
    for r in [2, 65535, 65536, 65537]:
        chain("onward", 64, 2, 3, r=r)
    fan(16, 2, 2, 2, 4)
    fan(65536, 2, 2, 2, 21844)  # the deepest stack for T = 2
    fan(65536, 2, 2, 2, 21845)
    fan(65536, 1, 1, 1, 32767)
    fan(65536, 2, 2, 1, 21844)
    fan(65536, 2, 2, 4, 13107)
    fan(65536, 1, 1, 2, 21845)


def random_lines(pick):
    for seed in range(1, 241):
        h, t, r = pick.randint(9, 360), pick.randint(1, 6), pick.randint(1, 7)
        often = pick.choice([8, 16, 32, 64])
        chance(h, t, r, seed, **pick.choice([{}, {}, {"inner": often}, {"outside": often}, {"bad": often},
                                             {"overlap": often}, {"overlap": often}, {"inner": often, "overlap": often}]))
    for seed, (h, t) in enumerate([(4096, 1), (4096, 2), (4095, 3), (20000, 5), (20001, 8), (65536, 9)]):
        chance(h, t, 20, seed)
        chance(h, t, 20, seed, inner=3000, outside=3000, overlap=500)
    chance(65536, 60, 20, 9)
    chance(4000, 2, 0, 10)
    chance(4000, 2, 3000, 11)
    chance(5, 9, 3, 12)


example_lines()
sound_lines()
refused_lines()
order_lines()
limit_lines()
large_lines()
random_lines(random.Random(2006))
assert all(codes.count(code) >= 12 for code in (0, 1, 2, 4, 5, 6))
settle("collections")
