#!/usr/bin/env python3
"""The steps of crates/try_image and what it must print.

    tests/image/cases.py --write    writes crates/try_image/stdin and stdout
    tests/image/cases.py --check    compares the stored files with what it would write

Seeded (SEED below), so both files are the same each time. The answers are worked out here by a model of docs/SPEC.md, 9, that shares nothing with
the Rattle code: an image is taken apart into records and each of SPEC's sentences is asked of them (the Rattle reader judges tables, writes them
once more and compares). Good images first; from each come images with one thing wrong: every byte of the header, every reserved byte, every rule, every
truncation around the limits, bytes behind; then states are written, with and without room, sound and not, and what was written is read back."""
import os, random, struct, sys

SEED = 20261116
HERE = os.path.dirname(os.path.abspath(__file__))
CRATE = os.path.join(HERE, '..', '..', 'crates', 'try_image')
sys.dont_write_bytecode = True
sys.path.insert(0, os.path.dirname(HERE))
import stored

OK, SHORT, MAGIC, VALUE, ROOM = 0, 7, 8, 9, 11
HALF, SIZE = 8192, 16384


def slots_ok(slots):
    """Sixteen slots of one domain, each (start, size, attr)."""
    active = []
    for start, size, attr in slots:
        if size == 0:
            if start or attr:
                return False
            continue
        if start + size > 4294967295 or attr not in (1, 3, 5, 7):
            return False
        if any(start < s + z and s < start + size for s, z in active):
            return False
        active.append((start, size))
    return True


class State:
    """Objects by handle (type, flags, word), live threads by number (supervisor, domain, handle), eight domains of sixteen slots."""

    def __init__(self):
        self.objects, self.threads = {}, {}
        self.domains = [[(0, 0, 0)] * 16 for _ in range(8)]

    def image(self):
        count = max(self.objects, default=-1) + 1
        parts = [b'WLATCH01', struct.pack('<HBBI', count, len(self.threads), 8, 16 + 12 * count + 8 * len(self.threads) + 8 * 192)]
        for h in range(count):
            kind, flags, word = self.objects.get(h, (0, 0, 0))
            parts.append(struct.pack('<BBHQ', kind, flags, 0, word))
        for t in sorted(self.threads):
            supervisor, domain, handle = self.threads[t]
            parts.append(struct.pack('<BBBBHH', t, supervisor, domain, 0, handle, 0))
        for d in self.domains:
            parts += [struct.pack('<III', *slot) for slot in d]
        return b''.join(parts)

    def tables(self):
        objects, threads = [0] * 512, [0] * 192
        for h, (kind, flags, word) in self.objects.items():
            objects[2 * h:2 * h + 2] = [kind + 256 * flags, word]
        for t, (supervisor, domain, handle) in self.threads.items():
            threads[3 * t:3 * t + 3] = [supervisor + 1, domain, handle]
        return [objects, threads, [x for d in self.domains for slot in d for x in slot]]


def opened(b):
    """The answer to an image, and its state where that is OK: SPEC's sentences in their order."""
    if len(b) < 16:
        return SHORT, None
    if b[:8] != b'WLATCH01':
        return MAGIC, None
    m, n, d, total = struct.unpack('<HBBI', b[8:16])
    if m > 256 or n > 64 or d != 8 or total != 16 + 12 * m + 8 * n + d * 192:
        return VALUE, None
    if len(b) < total:
        return SHORT, None
    state, kind = State(), 1
    for h in range(m):
        kind, flags, zero, word = struct.unpack_from('<BBHQ', b, 16 + 12 * h)
        if zero or kind > 15 or flags > 15 or (kind == 0 and (flags or word)):
            return VALUE, None
        if kind:
            state.objects[h] = (kind, flags, word)
    if kind == 0:
        return VALUE, None
    last, served = -1, set()
    for i in range(n):
        t, supervisor, domain, zero, handle, zeros = struct.unpack_from('<BBBBHH', b, 16 + 12 * m + 8 * i)
        if t > 63 or t <= last or supervisor > 1 or zero or zeros or (domain > 7 and domain != 255):
            return VALUE, None
        if handle not in state.objects or state.objects[handle][0] != 1 or handle in served:
            return VALUE, None
        last = t
        served.add(handle)
        state.threads[t] = (supervisor, domain, handle)
    if any(word >> t & 1 for _, _, word in state.objects.values() for t in range(64) if t not in state.threads):
        return VALUE, None
    at = 16 + 12 * m + 8 * n
    for d in range(8):
        state.domains[d] = [struct.unpack_from('<III', b, at + 192 * d + 12 * k) for k in range(16)]
        if not slots_ok(state.domains[d]):
            return VALUE, None
    return OK, state


def written(tables):
    """The image of three tables of numbers, or None where they break a rule. Type and flags, role, domain and handle as the tables hold them."""
    objects, threads, slots = tables
    state, served = State(), set()
    for t in range(64):
        role, domain, handle = threads[3 * t:3 * t + 3]
        if role == 0:
            if domain or handle:
                return None
            continue
        if role > 2 or (domain > 7 and domain != 255) or handle > 255 or objects[2 * handle] % 256 != 1 or handle in served:
            return None
        served.add(handle)
        state.threads[t] = (role - 1, domain, handle)
    live = sum(1 << t for t in state.threads)
    for h in range(256):
        head, word = objects[2 * h:2 * h + 2]
        if head == 0 and word == 0:
            continue
        if head % 256 == 0 or head % 256 > 15 or head // 256 > 15 or word & ~live:
            return None
        state.objects[h] = (head % 256, head // 256, word)
    state.domains = [[tuple(slots[48 * d + 3 * k:48 * d + 3 * k + 3]) for k in range(16)] for d in range(8)]
    return state.image() if all(slots_ok(d) for d in state.domains) else None


def digest(xs):
    h = 0
    for x in xs:
        h = (h * 131 + x % 2 ** 32 + (x >> 32) * 7 + 1) % 1000000007
    return h


class Log:
    def __init__(self):
        self.steps, self.out = [], []
        self.bytes, self.tables = bytearray(SIZE), State().tables()
        self.answers = {}

    def step(self, op, a=0, b=0, c=0, more=b''):
        self.steps.append(struct.pack('<IIII', op, a, b, c) + more + bytes(-len(more) % 16))

    def load(self, at, data):
        """Runs of one byte are short steps, the rest goes as it is."""
        self.step(2, at, len(data), 0)
        self.bytes[at:at + len(data)] = bytes(len(data))
        i = 0
        while i < len(data):
            if data[i:i + 32] == bytes(len(data[i:i + 32])):
                i += 32
                continue
            j = i
            while j < len(data) and data[j:j + 32] != bytes(len(data[j:j + 32])):
                j += 1
            self.step(0, at + i, j - i, 0, data[i:j])
            self.bytes[at + i:at + j] = data[i:j]
            i = j

    def byte(self, at, v):
        self.step(1, at, v)
        self.bytes[at] = v

    def number(self, table, i, v):
        self.step(8 + table, i, v % 2 ** 32, v >> 32)
        self.tables[table][i] = v

    def read(self, n, short=0):
        self.step(16, n, short)
        code, state = opened(bytes(self.bytes[:n])) if short == 0 else (VALUE, None)
        rest = b''
        if code == OK:
            self.tables = state.tables()
            rest = self.bytes[len(state.image()):n]
        self.answers[code] = self.answers.get(code, 0) + 1
        self.say(code, len(rest), rest[0] if rest else 256, *(digest(xs) for xs in self.tables))
        return code

    def write(self, n):
        self.step(17, n)
        data = written(self.tables)
        code = VALUE if data is None else ROOM if n < len(data) else OK
        if code == OK:
            self.bytes[HALF:HALF + len(data)] = data
        self.answers[code] = self.answers.get(code, 0) + 1
        self.say(code, len(data) if code == OK else 0, digest(self.bytes))
        return code

    def back(self, n):
        self.step(3, n)
        self.bytes[:n] = self.bytes[HALF:HALF + n]

    def say(self, *row):
        self.out.append(''.join(f'{x} ' for x in row))

    def with_bytes(self, changes, n):
        """Some bytes changed, read, and put back."""
        old = [(at, self.bytes[at]) for at, _ in changes]
        for at, v in changes:
            self.byte(at, v)
        self.read(n)
        for at, v in old:
            self.byte(at, v)


def small():
    s = State()
    s.objects = {0: (1, 1, 1 << 5), 1: (1, 0, 1), 2: (2, 3, 1 | 1 << 5 | 1 << 63), 4: (1, 15, 0), 6: (15, 8, 1 << 63)}
    s.threads = {0: (1, 255, 0), 5: (0, 7, 1), 63: (0, 0, 4)}
    s.domains[0] = [(4096, 4096, 3), (8192, 16, 5)] + [(0, 0, 0)] * 13 + [(0, 1, 1)]
    s.domains[7] = [(0, 0, 0)] * 15 + [(4294967280, 15, 7)]
    return s


def full(r):
    s = State()
    handles = r.sample(range(256), 64)
    s.threads = {t: (r.randint(0, 1), r.choice((0, 3, 7, 255)), h) for t, h in enumerate(handles)}
    s.objects = {h: (1 if h in handles else r.randint(2, 15), r.randint(0, 15), r.getrandbits(64)) for h in range(256)}
    for d in range(8):
        at = r.randint(0, 1000)
        for k in range(16):
            size = r.choice((1, 32, 4096))
            s.domains[d][k] = (at, size, r.choice((1, 3, 5, 7)))
            at += size + r.choice((0, 0, 1, 100))
    return s


def wide(at, n, v):
    """The n bytes of a number at a place, as changes."""
    return [(at + i, v >> 8 * i & 255) for i in range(n)]


def lengths(log, total):
    """Every truncation around the limits, and bytes behind."""
    for n in (0, 1, 7, 8, 9, 15, 16, 17, 28, 1551, 1552, 1553, total - 193, total - 192, total - 8, total - 1, total, total + 1, total + 2, total + 500):
        log.read(n)


def header_wrong(log, total):
    b = log.bytes
    for at in range(16):
        for v in {b[at] ^ 1, b[at] ^ 128, 0, 255} - {b[at]}:
            log.with_bytes([(at, v)], total + 20)
    m, n = struct.unpack('<HB', b[8:11])
    # counts with the total that fits them, in a buffer that holds it and in one that does not
    for k, j, d in ((m + 1, n, 8), (m - 1, n, 8), (m, n + 1, 8), (m, n - 1, 8), (257, n, 8), (m, 65, 8), (m, n, 7), (m, n, 9), (256, 64, 8), (0, 0, 8), (m + 2, n - 3, 8)):
        t = 16 + 12 * k + 8 * j + 192 * d
        for room in (t - 1, t, 6000):
            log.with_bytes(wide(8, 2, k) + wide(10, 1, j) + wide(11, 1, d) + wide(12, 4, t), room)
    for t in (total - 1, total + 1, total + 12, 0, 1552, 5136, 2 ** 32 - 1):
        log.with_bytes(wide(12, 4, t), total + 20)
    # under 16 bytes SHORT wins over MAGIC; a bad field wins over a short buffer
    log.with_bytes([(0, 0)], 15)
    log.with_bytes([(0, 0)], 16)
    log.with_bytes([(11, 9)], 16)
    log.with_bytes([(12, 0)], 16)


def objects_wrong(log, total, m):
    for h in range(m):
        at = 16 + 12 * h
        for reserved in (2, 3):
            for v in (1, 128):
                log.with_bytes([(at + reserved, v)], total)
        for v in (0, 1, 2, 15, 16, 255):
            log.with_bytes([(at, v)], total)
        for v in (0, 15, 16, 255):
            log.with_bytes([(at + 1, v)], total)
        # bits of threads 0, 1, 5, 6, 62, 63
        for i, v in ((0, 1), (0, 2), (0, 32), (0, 64), (7, 64), (7, 128)):
            log.with_bytes([(at + 4 + i, v)], total)
        # free, and free but for one field
        log.with_bytes(wide(at, 12, 0), total)
        log.with_bytes(wide(at, 12, 256), total)
        log.with_bytes(wide(at, 12, 1 << 32), total)


def threads_wrong(log, total, m, n):
    for i in range(n):
        at = 16 + 12 * m + 8 * i
        for reserved in (3, 6, 7):
            for v in (1, 128):
                log.with_bytes([(at + reserved, v)], total)
        for v in (0, 1, 4, 5, 6, 62, 63, 64, 128, 255):
            log.with_bytes([(at, v)], total)
        for v in (0, 1, 2, 255):
            log.with_bytes([(at + 1, v)], total)
        for v in (0, 7, 8, 254, 255):
            log.with_bytes([(at + 2, v)], total)
        for v in (0, 1, 2, 3, 4, 6, m, 255, 256, 257, 65535):
            log.with_bytes(wide(at + 4, 2, v), total)
    # two records in the wrong order
    a, b = 16 + 12 * m, 16 + 12 * m + 8
    rows = bytes(log.bytes[a:a + 16])
    log.with_bytes(list(zip(range(a, a + 16), rows[8:] + rows[:8])), total)
    log.with_bytes(list(zip(range(b, b + 8), rows[:8])), total)


def slots_wrong(log, total, m, n):
    at = 16 + 12 * m + 8 * n
    for place, start, size, attr in (
            (0, 4096, 4097, 3), (0, 4096, 4095, 3), (1, 8191, 16, 5), (1, 8192, 16, 5), (1, 4095, 1, 5), (1, 4095, 2, 5), (1, 4100, 4, 5),
            (2, 1, 0, 0), (2, 0, 0, 1), (2, 0, 0, 3), (2, 100, 1, 0), (2, 100, 1, 1), (2, 100, 1, 2), (2, 100, 1, 4), (2, 100, 1, 6), (2, 100, 1, 7),
            (2, 100, 1, 8), (2, 100, 1, 9), (2, 100, 1, 257), (2, 100, 1, 2 ** 31 + 1), (14, 4294967279, 16, 1), (14, 4294967280, 16, 1),
            (14, 4294967295, 1, 1), (14, 4294967294, 1, 1), (14, 1, 4294967295, 1), (15, 0, 1, 1), (15, 1, 4095, 1), (15, 1, 4096, 1),
            (16, 4096, 1, 1), (127, 4294967280, 15, 7), (127, 4294967280, 16, 7), (127, 0, 4294967295, 1), (127, 0, 0, 7), (126, 4294967294, 1, 1),
            (126, 4294967279, 1, 1), (64, 5, 5, 5)):
        log.with_bytes(wide(at + 12 * place, 4, start) + wide(at + 12 * place + 4, 4, size) + wide(at + 12 * place + 8, 4, attr), total)


def tables_wrong(log):
    """Numbers of the tables changed, written, and put back: every rule, with room and without."""
    changes = [
        (0, 0, 0), (0, 0, 16), (0, 0, 2), (0, 0, 4097), (0, 0, 65537), (0, 6, 256), (0, 7, 1), (0, 6, 5), (0, 5, 2), (0, 5, 1 << 62), (0, 1, 33), (0, 510, 3),
        (0, 511, 1), (0, 12, 0), (1, 0, 3), (1, 0, 0), (1, 1, 8), (1, 1, 7), (1, 1, 256), (1, 2, 1), (1, 2, 2), (1, 2, 3), (1, 2, 256), (1, 2, 65536),
        (1, 3, 1), (1, 4, 1), (1, 5, 1), (1, 189, 2), (1, 189, 0), (1, 191, 6), (2, 0, 0), (2, 1, 0), (2, 1, 4097), (2, 2, 2), (2, 3, 8191), (2, 6, 1),
        (2, 8, 1), (2, 7, 1), (2, 381, 4294967281), (2, 383, 4294967295)]
    for table, place, value in changes:
        old = log.tables[table][place]
        log.number(table, place, value)
        log.write(6000)
        log.write(100)
        log.number(table, place, old)


def made():
    r, log = random.Random(SEED), Log()
    image = small().image()
    total, m, n = len(image), 7, 3
    log.write(1551)
    log.write(1552)
    log.load(0, image)
    log.byte(total, 77)
    lengths(log, total)
    for short in (1, 2, 3):
        log.read(total, short)
        log.read(3, short)
    for room in (0, total - 1, total, total + 1, HALF):
        log.write(room)
    log.back(total + 9)
    log.read(total + 9)
    tables_wrong(log)
    header_wrong(log, total)
    objects_wrong(log, total, m)
    threads_wrong(log, total, m, n)
    slots_wrong(log, total, m, n)
    # the least and the greatest
    for state in (State(), full(r)):
        image = state.image()
        log.load(0, image)
        for k in (len(image) - 1, len(image), len(image) + 1):
            log.read(k)
        for k in (len(image) - 1, len(image), len(image) + 1):
            log.write(k)
        log.back(len(image) + 1)
        log.read(len(image) + 1)
        for _ in range(12):
            log.with_bytes([(r.randrange(len(image)), r.randrange(256))], len(image) + 1)
    return b''.join(log.steps), '\n'.join(log.out) + '\n', log.answers


def main():
    steps, out, answers = made()
    assert set(answers) == {OK, SHORT, MAGIC, VALUE, ROOM}
    stored.settle(CRATE, steps, out, f'{len(steps)} bytes {len(out.splitlines())} lines {sorted(answers.items())}')


if __name__ == '__main__':
    main()
