#!/usr/bin/env python3
"""The steps of crates/try_tables and what it must print.

    tests/tables/cases.py --write    writes crates/try_tables/stdin and stdout
    tests/tables/cases.py --check    compares the stored files with what it would write

Seeded (SEED below), so both files are the same each time. The answers are worked out here by a model of docs/SPEC.md, 5 and 6, the rules and the
tables, that shares nothing with the Rattle code: records are kept in Python lists, and the rules are written rule by rule. Good states are made
first; from each come states with one number changed, so that one rule is broken (or none: the model says)."""
import os, random, struct, sys

SEED = 20261115
HERE = os.path.dirname(os.path.abspath(__file__))
CRATE = os.path.join(HERE, '..', '..', 'crates', 'try_tables')
sys.dont_write_bytecode = True
sys.path.insert(0, os.path.dirname(HERE))
import stored


class Tables:
    def __init__(self):
        self.objects, self.threads, self.slots = [0] * 512, [0] * 192, [0] * 384


def at(xs, i):
    return xs[i] if i < len(xs) else 0


def overlap(p, q):
    return p[0] + p[1] > q[0] and q[0] + q[1] > p[0]


def domain_ok(ps):
    for p in ps:
        if p[1] == 0:
            if p != (0, 0, 0):
                return False
        elif p[0] + p[1] > 4294967295 or p[2] not in (1, 3, 5, 7):
            return False
    active = [p for p in ps if p[1]]
    return not any(overlap(active[i], active[j]) for i in range(len(active)) for j in range(i))


def partitions(slots, d):
    return [tuple(at(slots, 3 * (16 * d + k) + j) for j in range(3)) for k in range(16)]


def keeps(objects, threads, slots):
    if (len(objects), len(threads), len(slots)) != (512, 192, 384):
        return False
    live = {}
    for t in range(64):
        role, domain, handle = threads[3 * t:3 * t + 3]
        if role == 0:
            if domain or handle:
                return False
            continue
        if role not in (1, 2) or domain not in (0, 1, 2, 3, 4, 5, 6, 7, 255) or handle >= 256:
            return False
        if objects[2 * handle] % 256 != 1 or handle in live.values():
            return False
        live[t] = handle
    for h in range(256):
        head, word = objects[2 * h], objects[2 * h + 1]
        kind, flags = head % 256, head // 256
        if kind > 15 or flags > 15 or (kind == 0 and (flags or word)):
            return False
        if any(word >> t & 1 and t not in live for t in range(64)):
            return False
    return all(domain_ok(partitions(slots, d)) for d in range(8))


class Log:
    def __init__(self):
        self.steps, self.out, self.state = [], [], Tables()

    def step(self, op, a=0, b=0, c=0):
        self.steps.append(struct.pack('<IIII', op, a, b, c))

    def number(self, table, i, v):
        """A number of a table, past the accessors."""
        xs = (self.state.objects, self.state.threads, self.state.slots)[table]
        self.step(table, i, v & 0xFFFFFFFF, v >> 32)
        if i < len(xs):
            xs[i] = v

    def judge(self, o=512, t=192, s=384):
        self.step(3, o, t, s)
        self.out.append('yes' if keeps(self.state.objects[:o], self.state.threads[:t], self.state.slots[:s]) else 'no')

    def show(self, op, a, b=0):
        st = self.state
        self.step(op, a, b)
        if op == 4:
            head = at(st.objects, 2 * a)
            row = (head % 256, head // 256 % 256, at(st.objects, 2 * a + 1))
        elif op == 5:
            row = tuple(at(st.threads, 3 * a + j) for j in range(3))
        elif op == 6:
            row = partitions(st.slots, a)[b] if b < 16 else (0, 0, 0)
        else:
            ps = partitions(st.slots, a)
            self.out.append(f'{sum(1 for p in ps if p[1])} ' + ('yes' if domain_ok(ps) else 'no'))
            return
        self.out.append(''.join(f'{x} ' for x in row))

    def put(self, xs, i, row):
        for j, v in enumerate(row):
            if i + j < len(xs):
                xs[i + j] = v

    def store_object(self, h, kind, flags, word):
        self.step(8, h, kind + 256 * flags, word)
        self.put(self.state.objects, 2 * h, (kind + 256 * flags, word))

    def store_thread(self, t, role, domain, handle):
        self.step(9, t, role, domain + 65536 * handle)
        self.put(self.state.threads, 3 * t, (role, domain, handle))

    def store_slot(self, d, k, start, size):
        self.step(10, 32 * d + k, start, size)
        if k < 16:
            self.put(self.state.slots, 3 * (16 * d + k), (start, size, 3))

    def move_domain(self, a, b):
        self.step(11, a, b)
        for k, p in enumerate(partitions(self.state.slots, a)):
            self.put(self.state.slots, 3 * (16 * b + k), p)

    def clear(self):
        for table, xs in enumerate((self.state.objects, self.state.threads, self.state.slots)):
            for i, v in enumerate(xs):
                if v:
                    self.number(table, i, 0)


def good(log, r, full):
    """A state that keeps the rules: full, or a few records of each kind."""
    threads = range(64) if full else sorted(r.sample(range(64), r.randint(1, 5)))
    handles = r.sample(range(256), len(threads))
    for t, h in zip(threads, handles):
        log.store_thread(t, r.choice((1, 1, 2)), r.choice((0, 3, 7, 255)), h)
        log.store_object(h, 1, r.randint(0, 15), 0)
    for h in (range(256) if full else r.sample(range(256), 6)):
        if h not in handles:
            log.store_object(h, r.randint(2, 15), r.randint(0, 15), 0)
            bits = [t for t in threads if r.random() < 0.3]
            log.number(0, 2 * h + 1, sum(1 << t for t in bits))
    for d in (range(8) if full else r.sample(range(8), 2)):
        at = r.randint(0, 1000)
        for k in (range(16) if full else sorted(r.sample(range(16), r.randint(1, 4)))):
            size = r.choice((1, 32, 4096))
            log.store_slot(d, k, at, size)
            if r.random() < 0.5:
                log.number(2, 3 * (16 * d + k) + 2, r.choice((1, 3, 5, 7)))
            at += size + r.choice((0, 0, 1, 100))


def broken(log, r):
    """One number changed, judged, and put back."""
    st = log.state
    live = [t for t in range(64) if st.threads[3 * t]]
    dead = [t for t in range(64) if not st.threads[3 * t]]
    taken = [h for h in range(256) if st.objects[2 * h]]
    free = [h for h in range(256) if not st.objects[2 * h]]
    slots = [i for i in range(128) if st.slots[3 * i + 1]]
    empty = [i for i in range(128) if not st.slots[3 * i + 1]]
    t, u, h, i = r.choice(live), r.choice(live), r.choice(taken), r.choice(slots)
    changes = [
        (1, 3 * t, 3), (1, 3 * t, 0), (1, 3 * t + 1, 8), (1, 3 * t + 1, 254), (1, 3 * t + 1, 256), (1, 3 * t + 2, 256), (1, 3 * t + 2, h),
        (1, 3 * t + 2, st.threads[3 * u + 2]), (0, 2 * h, 16 + 256), (0, 2 * h, 2 + 256 * 16), (0, 2 * h, 0), (0, 2 * h, st.objects[2 * h] + 65536),
        (2, 3 * i, 4294967295), (2, 3 * i, 4294967295 - st.slots[3 * i + 1]), (2, 3 * i, 4294967296 - st.slots[3 * i + 1]), (2, 3 * i + 1, 0),
        (2, 3 * i + 2, 2), (2, 3 * i + 2, 0), (2, 3 * i + 2, 9), (2, 3 * i + 1, st.slots[3 * i + 1] + 1), (2, 3 * i + 1, 2 ** 31),
    ]
    if dead:
        v = r.choice(dead)
        changes += [(0, 2 * h + 1, st.objects[2 * h + 1] | 1 << v), (1, 3 * v + 1, 255), (1, 3 * v + 2, 1), (1, 3 * v, 1)]
    if free:
        g = r.choice(free)
        changes += [(0, 2 * g, 256), (0, 2 * g + 1, 1 << t), (0, 2 * g, 5)]
    if empty:
        e = r.choice(empty)
        changes += [(2, 3 * e, 7), (2, 3 * e + 2, 1), (2, 3 * e + 1, 1)]
    for table, place, value in changes:
        old = (st.objects, st.threads, st.slots)[table][place]
        log.number(table, place, value)
        log.judge()
        log.number(table, place, old)


def made():
    r, log = random.Random(SEED), Log()
    log.judge()
    for op in (4, 5, 7):
        for a in (0, 63, 64, 255, 256, 8, 4294967295):
            log.show(op, a)
    for n in range(6):
        good(log, r, n == 2)
        log.judge()
        broken(log, r)
        for o, t, s in ((511, 192, 384), (512, 191, 384), (512, 192, 383), (0, 0, 0)):
            log.judge(o, t, s)
        for a in r.sample(range(300), 4):
            log.show(4, a)
            log.show(5, a % 70)
            log.show(6, a % 9, a % 18)
            log.show(7, a % 9)
        log.move_domain(r.randrange(8), r.randrange(8))
        log.judge()
        log.store_slot(7, 16, 1, 1)
        log.store_object(256, 1, 1, 1)
        log.store_thread(64, 1, 1, 1)
        log.judge()
        log.clear()
    return b''.join(log.steps), '\n'.join(log.out) + '\n'


def main():
    steps, out = made()
    stored.settle(CRATE, steps, out, f'{len(steps) // 16} steps {len(out.splitlines())} lines {out.count("yes")} yes')


if __name__ == '__main__':
    main()
