"""What the scripts for the test programs share: rules, and how lines and answers are written."""
import bisect
import os
import re
import sys

MAX_WORDS, MAX_KEEP, MAX_ROOTS, SMALL = 65536, 65535, 65536, 400
lines = []


def say(*line, gave=()):
    lines.append((" ".join(map(str, line)), "".join(f" {n}" for n in gave), bool(gave)))


def rooms(h, t):
    if not (1 <= h <= MAX_WORDS and 1 <= t <= MAX_KEEP):
        return 0, 0, 0
    most = (h - 1) // t
    return -(-h // 32), most, 2 * most


def sweep(free, t):
    """The longest runs of free words with t words or more; free[0] is no word of a run."""
    runs = re.finditer(b"\1+", b"\0" + bytes(free[1:]))
    return [(run.start(), len(run[0])) for run in runs if len(run[0]) >= t]


def flat(records):
    return [n for record in records for n in record]


def set_up(h, t, m, n):
    """The numbers answered (the code, then the state), and how many words of map and of list are written."""
    need_map, _, need_list = rooms(h, t)
    if need_map == 0:
        return 1, 0, 0, 0, 0, 0
    if m < need_map or n < need_list:
        return 2, 0, 0, 0, 0, 0
    return 0, h, t, int(h - 1 >= t), need_map, need_list


def is_valid(h, t, count, records):
    if count > (h - 1) // t:
        return False
    end = 0
    for start, size in records[:count]:
        if size < t or start == 0 or start + size > h or start <= end:
            return False
        end = start + size
    return True


def figures(records):
    sizes = [size for _, size in records]
    listed, largest = sum(sizes), max(sizes, default=0)
    return listed, largest, 1000 - 1000 * largest // listed if listed else 0


def bitmap(h, records):
    free = [False] * h
    for start, size in records:
        for w in range(start, start + size):
            free[w] = True
    return free


def taken_off(h, t, records, words, a, s):
    """The new count and all words of the list's part, once the s words from a on are no longer free."""
    free = bitmap(h, records)
    for w in range(a, a + s):
        free[w] = False
    left = sweep(free, t)
    new = flat(left)
    new += [0] * (2 * len(records) - len(new))
    return len(left), new + words[len(new):]


def header(s, p=0):
    return 65536 * p + s


class Refused(Exception):
    """A refusal: its number and the reference met."""


def mark(heap, t, roots):
    """The objects (start, size) in the order of their marking, a bitmap of their words, and the references read."""
    h, marked, taken, stack, read = len(heap), {}, bytearray(len(heap)), [], 0

    def meet(r):
        if r == 0 or r in marked:
            return
        if r >= h:
            raise Refused(4, r)
        s, p = heap[r] % 65536, heap[r] // 65536
        if s < t or p > s - 1 or r + s > h:
            raise Refused(5, r)
        if any(taken[r : r + s]):
            raise Refused(6, r)
        taken[r : r + s] = b"\1" * s
        marked[r] = s
        stack.append(heap[r + 1 : r + 1 + p])

    for root in roots:
        read += 1
        meet(root)
        while stack:
            for r in stack.pop():
                read += 1
                meet(r)
    return list(marked.items()), taken, read


def peak_swept(h, t, marked):
    free = [True] * h
    peak = len(sweep(free, t))
    for a, s in marked:
        free[a : a + s] = [False] * s
        peak = max(peak, len(sweep(free, t)))
    return peak


def peak_by_borders(h, t, marked):
    starts, ends, count = [0, h], [1, h], int(h - 1 >= t)
    peak = count
    for a, s in marked:
        i = bisect.bisect(starts, a)
        low, high = ends[i - 1], starts[i]
        count += (a - low >= t) + (high - a - s >= t) - (high - low >= t)
        starts.insert(i, a)
        ends.insert(i, a + s)
        peak = max(peak, count)
    return peak


def map_of(h, marked):
    words = [0] * rooms(h, 1)[0]
    for a, _ in marked:
        words[a // 32] += 2 ** (a % 32)
    return words


def collects(state, heap, roots, lent):
    """The numbers answered (code to peak, then the state), and what is written at the front of map, stack and list."""
    h, t, _ = state
    need = rooms(h, t)
    if need[0] == 0 or len(heap) != h or len(roots) > MAX_ROOTS:
        return [1, 0, 0, 0, 0, 0, *state], ([], [], [])
    if any(have < want for have, want in zip(lent, need)):
        return [2, 0, 0, 0, 0, 0, *state], ([], [], [])
    clear = [[0] * want for want in need]
    try:
        marked, taken, read = mark(heap, t, roots)
    except Refused as refused:
        return [*refused.args, 0, 0, 0, 0, h, t, 0], clear
    peak = peak_by_borders(h, t, marked)
    assert h > SMALL or peak == peak_swept(h, t, marked)
    runs = sweep([not word for word in taken], t)
    left = flat(runs) + [0] * (need[2] - 2 * len(runs))
    return [0, 0, len(marked), sum(s for _, s in marked), read, peak, h, t, len(runs)], (map_of(h, marked), clear[1], left)


def total(words, n=0):
    """A sum over words in which each place has a weight of its own, going on from n."""
    for word in words:
        n = (31 * n + word) % 1000003
    return n


def shown(words):
    """What is printed of a buffer: a sum over its words and, if it is short, all of them."""
    return [total(words)] + (words if len(words) <= 40 else [])


def spare(h, t):
    """How much is lent: mostly more than needed, and now and then just that."""
    return [need + more for need, more in zip(rooms(h, t), [(1, 2, 3), (2, 1, 1), (0, 0, 0), (1, 1, 2)][len(lines) % 4])]


def settle(program):
    """Writes the lines and the answers expected of them: stdin and stdout of the program. With --check nothing is written:
    the two files must be there as they would be written."""
    folder = os.path.join(os.path.dirname(os.path.abspath(__file__)), "..", "crates", program)
    texts = {
        "stdin": "".join(line + "\n" for line, _, _ in lines),
        "stdout": "".join(line + (" gave" + gave if came else "") + "\n" for line, gave, came in lines),
    }
    for name, text in texts.items():
        path = os.path.join(folder, name)
        if sys.argv[1:] != ["--check"]:
            with open(path, "w") as file:
                file.write(text)
        elif open(path).read() != text:
            sys.exit(f"{sys.argv[0]}: crates/{program}/{name} is not what the rules give")
