#!/usr/bin/env python3
"""Cases for the memory domain, and what each must answer.

Run in the repository:  python3 tests/mem_domain/cases.py         writes crates/try_mem_domain/stdin and stdout
                        python3 tests/mem_domain/cases.py --check  says whether the stored files are those

The list is made from the seed below, so that it is the same at every run. The answers come from `Domain`, a model of
docs/SPEC.md, 3, that has nothing from the Rattle code; `rt ci` runs the program on
stdin and compares what it writes with stdout. A case is five little-endian 32-bit words: a number, then four arguments.

  0               a new domain
  1 k start size attr   write slot k of the record, whatever it makes of it
  2 count         write the record's count, right or wrong
  3 start size attr     add
  4 start size    remove
  5 a             ask: count, has_free_slot, contains_addr(a), partition_get(a)
  6 start size start size   windows: end, valid (twice), overlap (twice)
"""
import os
import random
import struct
import sys

SEED = 20240611
TOP = 4294967295
OK, EINVAL, ENOSPC, ENOENT = 0, 1, 5, 6


def end(w):
    return w[0] + w[1]


def valid(w):
    return w[1] > 0 and end(w) <= TOP


def overlap(w, v):
    return end(w) > v[0] and end(v) > w[0]


class Domain:
    def __init__(self):
        self.slots = [(0, 0, 0)] * 16
        self.count = 0

    def recount(self):
        self.count = len([s for s in self.slots if s[1] != 0])

    def add(self, w):
        if not valid(w) or any(s[1] != 0 and overlap(w, s) for s in self.slots):
            return EINVAL, 0
        free = [k for k in range(16) if self.slots[k][1] == 0]
        if not free:
            return ENOSPC, 0
        self.slots[free[0]] = w
        self.recount()
        return OK, free[0]

    def remove(self, start, size):
        same = [k for k in range(16) if self.slots[k][:2] == (start, size)]
        if size == 0 or not same:
            return ENOENT, 0
        self.slots[same[0]] = (0, 0, 0)
        self.recount()
        return OK, same[0]

    def get(self, k):
        if k >= 16:
            return EINVAL, 0, 0, 0
        if self.slots[k][1] == 0:
            return ENOENT, 0, 0, 0
        return (OK,) + self.slots[k]

    def contains(self, a):
        return any(s[1] != 0 and s[0] <= a < end(s) for s in self.slots)

    def text(self):
        told = ''.join(f'| {k} {s[0]} {s[1]} {s[2]} ' for k, s in enumerate(self.slots) if s != (0, 0, 0))
        return f'{self.count} {told}\n'


def says(b):
    return 'yes ' if b else 'no '


class List:
    """The cases as they are made, with the answers."""
    def __init__(self):
        self.cases, self.out, self.d = [], [], Domain()

    def put(self, op, *args):
        a = (list(args) + [0, 0, 0, 0])[:4]
        self.cases.append(struct.pack('<5I', op, *a))
        if op == 0:
            self.d = Domain()
            self.out.append('init ' + self.d.text())
        elif op == 1 and a[0] < 16:
            self.d.slots[a[0]] = tuple(a[1:])
        elif op == 2:
            self.d.count = a[0]
        elif op == 3:
            code, value = self.d.add(tuple(a[:3]))
            self.out.append(f'add {code} {value} ' + self.d.text())
        elif op == 4:
            code, value = self.d.remove(a[0], a[1])
            self.out.append(f'remove {code} {value} ' + self.d.text())
        elif op == 5:
            got = ' '.join(str(x) for x in self.d.get(a[0]))
            self.out.append(f'ask {self.d.count} ' + says(any(s[1] == 0 for s in self.d.slots)) + says(self.d.contains(a[0])) + got + ' \n')
        elif op == 6:
            w, v = (a[0], a[1]), (a[2], a[3])
            self.out.append(f'windows {end(w)} ' + says(valid(w)) * 2 + says(overlap(w, v)) * 2 + '\n')


def limits(t):
    """The edge of SPEC 3.4, and those beside it."""
    for start in (0, 1, 15, 0x80000000, 0xFFFFFFEF, 0xFFFFFFF0, 0xFFFFFFF1, TOP - 1, TOP):
        for size in (0, 1, 15, 16, 17, 0x7FFFFFFF, 0x80000000, TOP - 1, TOP):
            t.put(6, start, size, TOP - size, size)
            t.put(0)
            t.put(3, start, size, 3)
    for k in (0, 1, 14, 15, 16, 17, 255, 256, TOP):
        t.put(5, k)


def neighbours(t):
    """A window and one beside it, apart, touching, and overlapping by one byte, at either end and inside."""
    base, size = 0x20001000, 4096
    for start, n in ((base - 32, 31), (base - 32, 32), (base - 32, 33), (base + size, 32), (base + size - 1, 32), (base + size + 1, 32),
                     (base, 1), (base + size - 1, 1), (base - 1, 1), (base + size, 1), (base - 1, size + 2), (base, size), (base + 8, 16)):
        t.put(0)
        t.put(3, base, size, 3)
        t.put(6, base, size, start, n)
        t.put(6, start, n, base, size)
        t.put(3, start, n, 1)
        for a in (base - 1, base, base + size - 1, base + size, start, start + n - 1, start + n):
            t.put(5, a)
        t.put(4, start, n)
        t.put(4, base, size)


def full(t):
    """Sixteen slots filled, one more of each kind, and holes filled from below."""
    t.put(0)
    for k in range(16):
        t.put(3, 0x1000 * k, 0x1000, k)
        t.put(5, k)
    t.put(3, 0x20000, 0x1000, 3)
    t.put(3, 0x800, 0x1000, 3)
    t.put(3, 0x20000, 0, 3)
    t.put(3, 0xFFFFFFF0, 16, 3)
    t.put(4, 0, 0)
    for k in (11, 3, 7):
        t.put(4, 0x1000 * k, 0x1000)
        t.put(4, 0x1000 * k, 0x1000)
    for k in (20, 21, 22, 23):
        t.put(3, 0x1000 * k, 0x1000, 7)


def counts(t):
    """A count that is wrong: it is given as it stands, and set anew by a change alone."""
    for wrong in (0, 1, 15, 16, 17, TOP):
        t.put(0)
        t.put(3, 4096, 4096, 5)
        t.put(2, wrong)
        t.put(5, 0)
        t.put(3, 4096, 1, 5)
        t.put(4, 4096, 4095)
        t.put(4, 0, 0)
        t.put(5, 4096)
        t.put(3, 0, 4096, 6)
        t.put(2, wrong)
        t.put(4, 4096, 4096)


def unsound(t, r):
    """Records that no call makes: slots that overlap, wrap, repeat each other, or are free and not zero."""
    edge = (0, 1, 31, 32, 4096, 0x7FFFFFFF, 0xFFFFFFF0, TOP)
    for _ in range(25):
        t.put(0)
        for k in range(16):
            if r.random() < 0.7:
                t.put(1, k, r.choice(edge), r.choice((0, 0, 1, 32, 4096, TOP)), r.randrange(0, TOP + 1))
        t.put(2, r.choice((0, 3, 16, TOP)))
        for _ in range(10):
            one(t, r, edge, (0, 1, 15, 16, 32, 4096, TOP))


def one(t, r, starts, sizes):
    start, size = r.choice(starts), r.choice(sizes)
    kind = r.randrange(8)
    if kind < 3:
        t.put(3, start, size, r.randrange(0, TOP + 1))
    elif kind < 6:
        same = r.choice(t.d.slots)
        start, size = same[:2] if r.random() < 0.6 else (start, size)
        t.put(4, start, size)
    else:
        s = r.choice(t.d.slots)
        t.put(5, min(TOP, r.choice((start, r.randrange(18), s[0], end(s), max(0, end(s) - 1)))))


def long_run(t, r):
    """One domain through many calls over a small board, so that it is often full and windows often meet."""
    t.put(0)
    starts, sizes = [64 * k for k in range(24)], (32, 63, 64, 65, 96)
    for _ in range(300):
        one(t, r, starts, sizes)


def main():
    t, r = List(), random.Random(SEED)
    t.put(0)
    limits(t)
    neighbours(t)
    full(t)
    counts(t)
    unsound(t, r)
    long_run(t, r)
    here = os.path.join(os.path.dirname(os.path.abspath(__file__)), '..', '..', 'crates', 'try_mem_domain')
    made = {'stdin': b''.join(t.cases), 'stdout': ''.join(t.out).encode()}
    assert len(made['stdin']) <= 65536
    for name, data in made.items():
        path = os.path.join(here, name)
        if '--check' in sys.argv[1:]:
            if open(path, 'rb').read() != data:
                sys.exit(f'{path} is not what this program makes')
        else:
            open(path, 'wb').write(data)
    print(f'{len(t.cases)} cases, {len(t.out)} answers, {len(made["stdout"])} bytes of output')


main()
