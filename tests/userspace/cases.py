#!/usr/bin/env python3
"""Cases for the permission leaf, and what they must answer.

    tests/userspace/cases.py    writes crates/try_userspace/stdin (the cases) and crates/try_userspace/stdout (the answers)
    tests/userspace/run         fails where the two files are not what this program writes

`rt ci` runs the cases over the proved crate and compares. The answers come from a model of docs/SPEC.md, 4:
a record with upstream's fields and a list of 64 yes or no, no word and no shift but in reading and printing it. Seeded, so that every
run writes the same. Python 3, standard library alone.
"""
import os
import random
import struct

ROOT = os.path.dirname(os.path.dirname(os.path.dirname(os.path.abspath(__file__))))
HERE = os.path.join(ROOT, 'crates', 'try_userspace')
MODES = [0, -1, 1, -2, 2, 127, -128]
WIDE_MODES = [0, -1, 1, -2, 255, 2147483647, -2147483648]
OK, EINVAL, EPERM, EBADF, EADDRINUSE = 0, 1, 2, 3, 4


class Record:
    """Upstream's record: a type, flags by name, further flag bits kept as they are, and 64 entries."""

    def __init__(self, kind, flags, word):
        self.kind = kind
        self.initialised, self.public = flags & 1 == 1, flags & 2 == 2
        self.rest = flags - flags % 4
        self.perms = [digit == '1' for digit in reversed(format(word, '064b'))]

    def flags(self):
        return int(self.initialised) + 2 * int(self.public) + self.rest

    def text(self):
        word = int(''.join('1' if held else '0' for held in reversed(self.perms)), 2)
        return f'{self.kind} {self.flags()} {word}'

    def access(self, tid, supervisor):
        return supervisor or self.public or (tid < 64 and self.perms[tid])

    def validate(self, expected, tid, supervisor, mode):
        return judge(expected == 0 or expected == self.kind, self.access(tid, supervisor), self.initialised, mode)


def judge(fits, allowed, ready, mode):
    if not fits:
        return EBADF
    if not allowed:
        return EPERM
    if mode == 0 and not ready:
        return EINVAL
    if mode == -1 and ready:
        return EADDRINUSE
    return 'ok'


def yes(b):
    return 'yes' if b else 'no'


def step(o, op, a, b, c, n, w):
    """The record after a case, and the line that it prints, if any."""
    if op == 0:
        return Record(a, b, w), None
    if op == 1:
        o = Record(a, 0, 0)
        return o, 'new ' + o.text()
    if op in (2, 3, 4, 8):
        name = {2: 'grant', 3: 'revoke', 4: 'clear-thread', 8: 'recycle'}[op]
        if n >= 64:
            return o, f'{name} {EINVAL} 0 {o.text()}'
        if op == 8:
            o.perms = [False] * 64
            o.initialised = True
        o.perms[n] = op in (2, 8)
        return o, f'{name} {OK} 0 {o.text()}'
    if op == 5:
        o.perms = [False] * 64
        return o, 'clear-all ' + o.text()
    if op == 6:
        o.initialised = True
        return o, 'init ' + o.text()
    if op == 7:
        o.initialised = False
        return o, 'uninit ' + o.text()
    if op == 9:
        o.public = True
        return o, 'make-public ' + o.text()
    if op == 10:
        query = f'{OK} {int(o.perms[n])}' if n < 64 else f'{EINVAL} 0'
        return o, f'ask {yes(o.access(n, a == 1))} {yes(o.initialised)} {yes(o.public)} {yes(o.rest & 4 == 4)} {yes(o.rest & 8 == 8)} {query} {o.kind} '
    if op == 11:
        return o, f'validate {o.validate(a, n, b == 1, {0: 0, 1: -1}.get(c, 1))} '
    if op == 12:
        x, y, z = a & 1 == 1, a & 2 == 2, a & 4 == 4
        return o, f'decide {yes(x or y)} {judge(x, y, z, MODES[c])} {set_flag(b, 1)} {clear_flag(b, 1)} {set_flag(b, 1)} {set_flag(b, 2)} '
    if op == 14:
        return o, 'constants 1 2 4 8 64 '
    named = f'{n} ' if n < 16 else '- '
    mode = WIDE_MODES[c]
    return o, 'name ' + named + (str(mode) if mode in (0, -1, 1) else '-')


def set_flag(flags, one):
    return flags if flags // one % 2 == 1 else flags + one


def clear_flag(flags, one):
    return flags - one if flags // one % 2 == 1 else flags


def cases():
    """Limits first, each operation and question at each; then seeded runs over one record."""
    random.seed(4)
    limits = [0, 1, 31, 32, 62, 63, 64, 65, 127, 128, 255, 256, 4294967295]
    words = [0, 1, 1 << 31, 1 << 32, 1 << 62, 1 << 63, (1 << 64) - 1, 0x5555555555555555]
    for n in limits:
        for w in words:
            for op in (2, 3, 4, 8):
                yield 0, random.choice([0, 1, 2, 15, 16, 255]), random.choice([0, 1, 2, 3, 4, 8, 12, 15, 16, 240, 255]), 0, 0, w
                yield op, 0, 0, 0, n, 0
            yield 10, 0, 0, 0, n, 0
            yield 10, 1, 0, 0, n, 0
    for kind in (0, 1, 14, 15, 16, 255):
        for flags in (0, 1, 2, 3, 4, 8, 16, 128, 252, 255):
            yield 0, kind, flags, 0, 0, 1 << 63
            for op in (5, 6, 7, 9):
                yield op, 0, 0, 0, 0, 0
            yield 0, kind, flags, 0, 0, 1 << 63
            for expected in (0, kind, (kind + 1) % 256):
                for tid in (63, 62, 64):
                    for supervisor in (0, 1):
                        yield 11, expected, supervisor, random.randrange(3), tid, 0
    for a in range(8):
        for c in range(7):
            yield 12, a, random.randrange(256), c, 0, 0
    for n in list(range(17)) + [255, 256, 4294967295]:
        yield 13, 0, 0, n % 7, n, 0
    yield 14, 0, 0, 0, 0, 0
    yield 1, 7, 0, 0, 0, 0
    for k in range(600):
        tid = random.choice([random.randrange(64), random.randrange(64), random.choice([63, 64, 65, 4294967295])])
        op = random.choice([1, 2, 2, 2, 2, 3, 3, 4, 5, 6, 7, 8, 9, 10, 10, 11, 11])
        if op == 1 and k % 5:
            op = 2
        a = random.choice([0, 7, 3]) if op in (1, 11) else random.randrange(2)
        yield op, a, random.randrange(2), random.randrange(3), tid, 0


def both():
    data, lines, o = bytearray(), [], Record(0, 0, 0)
    for op, a, b, c, n, w in cases():
        data += struct.pack('<BBBBIQ', op, a, b, c, n, w)
        o, line = step(o, op, a, b, c, n, w)
        if line is not None:
            lines.append(line + '\n')
    assert len(data) <= 65536, len(data)
    return bytes(data), ''.join(lines).encode()


def write():
    for name, text in zip(('stdin', 'stdout'), both()):
        open(os.path.join(HERE, name), 'wb').write(text)


def stored():
    """Whether the two files are what `write` writes."""
    return all(open(os.path.join(HERE, name), 'rb').read() == text for name, text in zip(('stdin', 'stdout'), both()))


if __name__ == '__main__':
    write()
