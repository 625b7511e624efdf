#!/usr/bin/env python3
"""The steps of crates/try_calls, what it must print, and which answers and refusals they meet.

    cases.py stored            writes crates/try_calls/stdin and stdout, and coverage.txt beside this file
    cases.py compare PROGRAM   makes the steps anew, compares them with the stored ones byte for byte, feeds them to PROGRAM (target/bin/try_calls)
                               and compares every line; the last line is 'N passed, M failed'

How the log is made (seeded, SEED below): six sound states are written here by hand or drawn. For each operation, calls are drawn on each of them with
fields from the edges (`draw`), and the model says which refusals hold of a call, each judged for itself and not up to the first one. Of each pair of
refusals the call is kept in which the pair's earlier one is the first that holds and as few others hold as were found. What is kept is played as
single calls and again as logs, and each refusal once more on a state that breaks a rule. With them go, per operation, calls that are answered OK, the
state written back after each; before them SPEC's own edges, logs and buffers of all sorts of lengths, each rule broken by itself, each field of a
good call set to numbers around its range's end, and walks, where calls build on each other. `make` has the order.

The model is of docs/SPEC.md, 5 to 7, and shares nothing with the crates: an object's rights are a table of 64 yes/no
entries, threads are records or None, and a memory check walks a sorted list of windows.

Answers that an operation can reach, beside VALUE (a state that breaks a rule) and SHORT (fewer bytes): see REACHABLE. EINVAL and EPERM are open to
all operations (caller number, dead caller). EBADF needs a handle field: 0-2, 16-23. EADDRINUSE: 0 (must not be initialised), 16 (taken), 17 (serves a
live thread), 23 (live already, or the handle serves). ENOSPC is add's alone and ENOENT remove's. An unknown operation is never OK; MAGIC, NOPLAN and
DIFFERS belong to other parts, and ROOM to a log as a whole."""
import os, random, struct, subprocess, sys
from itertools import combinations

SEED = 20261115
HERE = os.path.dirname(os.path.abspath(__file__))
CRATE = os.path.join(HERE, '..', '..', 'crates', 'try_calls')
NAMES = ['OK', 'EINVAL', 'EPERM', 'EBADF', 'EADDRINUSE', 'ENOSPC', 'ENOENT', 'SHORT', 'MAGIC', 'VALUE', 'NOPLAN', 'ROOM', 'DIFFERS']
OK, EINVAL, EPERM, EBADF, EADDRINUSE, ENOSPC, ENOENT, SHORT, MAGIC, VALUE, NOPLAN, ROOM, DIFFERS = range(13)
LAST = 0xFFFFFFFF
INITIALISED, PUBLIC = 1, 2
OPS = {0: 'validate', 1: 'grant', 2: 'release', 3: 'memory check', 4: 'exit', 16: 'create object', 17: 'delete object', 18: 'revoke', 19: 'init',
       20: 'uninit', 21: 'recycle', 22: 'make public', 23: 'create thread', 24: 'end thread', 25: 'inherit', 26: 'assign', 27: 'add partition',
       28: 'remove partition'}
HANDLED = (0, 1, 2, 16, 17, 18, 19, 20, 21, 22, 23)
ROWS = sorted(OPS) + ['unknown']

# ---- the rows and columns that have to be met
REACHABLE = {op: {OK, EINVAL, EPERM, VALUE, SHORT} for op in OPS}
REACHABLE['unknown'] = {EINVAL, EPERM, VALUE, SHORT}
for _op in HANDLED:
    REACHABLE[_op].add(EBADF)
for _op in (0, 16, 17, 23):
    REACHABLE[_op].add(EADDRINUSE)
REACHABLE[27].add(ENOSPC)
REACHABLE[28].add(ENOENT)

# ---- the refusals of each operation, in order
RULE = {0: ['type', 'access', 'not initialised', 'initialised'], 1: ['access', 'dead target', 'target access'], 2: ['access'], 3: ['range', 'uncovered'],
        17: ['serving'], 18: ['dead'], 23: ['live', 'not thread', 'serving'], 24: ['dead'], 25: ['dead parent', 'dead child'], 26: ['dead'],
        27: ['invalid', 'overlap', 'full'], 28: ['size 0', 'no match']}


def order(op):
    names = ['state', 'short', 'long', 'caller number', 'dead caller']
    if op == 'unknown':
        return names + ['unknown']
    if op >= 16:
        names.append('not supervisor')
    names.append('fields')
    if op in HANDLED:
        names += ['handle number', 'taken' if op == 16 else 'free']
    return names + RULE.get(op, [])


# Pairs that cannot hold together on a sound state, with the reason. A number past the table reads as a free record, so that it can lack access too.
APART = {
    ('short', 'long'): 'one length',
    ('caller number', 'dead caller'): 'only a number below 64 names a thread that can be dead',
    ('handle number', 'taken'): 'nothing is taken there',
    ('handle number', 'serving'): 'a live thread has a taken handle',
    ('free', 'serving'): 'a live thread has a taken handle',
    ('not thread', 'serving'): "a live thread's handle is of type Thread",
    ('handle number', 'initialised'): 'a free record has no flags',
    ('free', 'initialised'): 'a free record has no flags',
    ('not initialised', 'initialised'): 'one mode',
    ('dead target', 'target access'): 'a dead thread has no thread object',
}


def shadowed(op, name):
    """Refusals that never hold without a later one of the same answer, so that leaving them out would change no answer."""
    return ((name == 'handle number' and op != 16)  # reads as free
            or (name == 'dead caller' and op != 'unknown' and op >= 16)  # no supervisor either
            or (name == 'caller number' and op == 'unknown') or name == 'size 0')  # no active slot has size 0


def pairs(op):
    return [p for p in combinations(order(op), 2) if p not in APART]


# ---- the state
class State:
    """objects: [type, flags, table of 64 yes/no]; threads: None or [supervisor, domain, handle]; domains: 16 slots of [start, size, attr]."""

    def __init__(self):
        self.objects = [[0, 0, [False] * 64] for _ in range(256)]
        self.threads = [None] * 64
        self.domains = [[(0, 0, 0)] * 16 for _ in range(8)]

    def copy(self):
        s = State()
        s.objects = [[k, f, list(p)] for k, f, p in self.objects]
        s.threads = [t and list(t) for t in self.threads]
        s.domains = [list(d) for d in self.domains]
        return s

    def tables(self):
        """The three tables of numbers, with the rest of the program's room behind them."""
        objects = [n for k, f, p in self.objects for n in (k + 256 * f, sum(1 << t for t in range(64) if p[t]))]
        threads = [n for t in self.threads for n in ((1 + t[0], t[1], t[2]) if t else (0, 0, 0))]
        slots = [n for d in self.domains for p in d for n in p]
        return objects + [0] * 8, threads + [0] * 8, slots + [0] * 8

    def live(self, t):
        return t < 64 and self.threads[t] is not None

    def supervisor(self, t):
        return self.live(t) and self.threads[t][0] == 1

    def object(self, h):
        return self.objects[h] if h < 256 else [0, 0, [False] * 64]

    def access(self, t, h):
        kind, flags, perms = self.object(h)
        return self.supervisor(t) or flags & PUBLIC != 0 or (t < 64 and perms[t])

    def serves(self, h):
        return any(t and t[2] == h for t in self.threads)


def overlaps(p, q):
    return p[0] + p[1] > q[0] and q[0] + q[1] > p[0]


def domain_sound(slots):
    for start, size, attr in slots:
        if size == 0 and (start or attr):
            return False
        if size and (start + size > LAST or attr not in (1, 3, 5, 7)):
            return False
    return not any(overlaps(p, q) for p, q in combinations([p for p in slots if p[1]], 2))


def read(objects, threads, slots):
    """The state that three tables stand for, or None where one of the rules (SPEC 6) is broken."""
    if (len(objects), len(threads), len(slots)) != (512, 192, 384):
        return None
    s = State()
    for t in range(64):
        role, domain, handle = threads[3 * t:3 * t + 3]
        if role > 2 or (role == 0 and (domain or handle)):
            return None
        if role:
            if domain not in (0, 1, 2, 3, 4, 5, 6, 7, 255) or handle > 255 or s.serves(handle) or objects[2 * handle] % 256 != 1:
                return None
            s.threads[t] = [role - 1, domain, handle]
    for h in range(256):
        head, word = objects[2 * h:2 * h + 2]
        if head % 256 > 15 or head // 256 > 15 or (head % 256 == 0 and (head or word)):
            return None
        s.objects[h] = [head % 256, head // 256, [bool(word >> t & 1) for t in range(64)]]
        if any(held and not s.threads[t] for t, held in enumerate(s.objects[h][2])):
            return None
    for d in range(8):
        s.domains[d] = [tuple(slots[3 * (16 * d + k):3 * (16 * d + k) + 3]) for k in range(16)]
        if not domain_sound(s.domains[d]):
            return None
    return s


# ---- a call
def unpack(bs):
    return struct.unpack('<BBHIII', bs[:16].ljust(16, b'\0'))


def row(bs):
    op = bs[0] if bs else None
    return op if op in OPS or op is None else 'unknown'


def fields_ok(op, a, b, c, d):
    """Every field that is no handle: its range, or zero where it is unused (SPEC 7.12)."""
    if op == 0:
        return b <= 15 and c in (0, 1, LAST) and d == 0
    if op in (1, 18):
        return b < 64 and c == 0 and d == 0
    if op in (2, 17, 19, 20, 21, 22):
        return b == c == d == 0
    if op == 3:
        return a == 0 and d <= 1
    if op == 4:
        return a == b == c == d == 0
    if op == 16:
        return 1 <= b <= 15 and c == d == 0
    if op == 23:
        return b < 64 and c <= 1 and d == 0
    if op == 24:
        return a == 0 and b < 64 and c == d == 0
    if op == 25:
        return a == 0 and b < 64 and c < 64 and d == 0
    if op == 26:
        return a == 0 and b < 64 and (c < 8 or c == 255) and d == 0
    if op == 27:
        return a < 8 and d in (1, 3, 5, 7)
    return a < 8 and d == 0


def uncovered(s, caller, address, length, write):
    """The first address that lies in no window of the caller's domain with the right, or None."""
    windows = []
    if s.live(caller) and s.threads[caller][1] != 255:
        right = 2 if write else 1
        windows = sorted((p[0], p[0] + p[1]) for p in s.domains[s.threads[caller][1]] if p[1] and p[2] & right)
    at = address
    for start, end in windows:
        if start <= at < end:
            at = end
    return at if at < address + length else None


def rule(s, op, caller, a, b, c, d):
    """The refusals of the operation's own rule that hold: (name, answer, value)."""
    kind, flags, _ = s.object(a)
    dead = lambda t: t < 64 and not s.live(t)
    found = []
    say = lambda holds, name, code, value=0: holds and found.append((name, code, value))
    if op == 0:
        say(b != 0 and b != kind, 'type', EBADF)
        say(not s.access(caller, a), 'access', EPERM)
        say(c == 0 and not flags & INITIALISED, 'not initialised', EINVAL)
        say(c == LAST and flags & INITIALISED, 'initialised', EADDRINUSE)
    elif op == 1:
        say(not s.access(caller, a), 'access', EPERM)
        say(dead(b), 'dead target', EINVAL)
        say(s.live(b) and not s.access(caller, s.threads[b][2]), 'target access', EPERM)
    elif op == 2:
        say(not s.access(caller, a), 'access', EPERM)
    elif op == 3:
        say(c == 0 or b + c > LAST, 'range', EINVAL)
        first = None if s.supervisor(caller) else uncovered(s, caller, b, c, d == 1)
        say(first is not None, 'uncovered', EPERM, first)
    elif op == 17:
        say(s.serves(a), 'serving', EADDRINUSE)
    elif op in (18, 24, 26):
        say(dead(b), 'dead', EINVAL)
    elif op == 23:
        say(s.live(b), 'live', EADDRINUSE)
        say(kind != 1, 'not thread', EBADF)
        say(s.serves(a), 'serving', EADDRINUSE)
    elif op == 25:
        say(dead(b), 'dead parent', EINVAL)
        say(dead(c), 'dead child', EINVAL)
    elif op == 27:
        slots = s.domains[a] if a < 8 else []
        say(c == 0 or b + c > LAST, 'invalid', EINVAL)
        say(any(p[1] and overlaps(p, (b, c)) for p in slots), 'overlap', EINVAL)
        say(a < 8 and all(p[1] for p in slots), 'full', ENOSPC)
    elif op == 28:
        slots = s.domains[a] if a < 8 else []
        say(c == 0, 'size 0', ENOENT)
        say(not any(p[1] and p[:2] == (b, c) for p in slots), 'no match', ENOENT)
    return found


def refusals(s, bs):
    """Every refusal that holds of the bytes on a sound state, in order; fields that are not there count as zero."""
    op, caller, a, b, c, d = unpack(bs)
    found = []
    say = lambda holds, name, code: holds and found.append((name, code, 0))
    say(len(bs) < 16, 'short', SHORT)
    say(len(bs) > 16, 'long', EINVAL)
    say(caller >= 64, 'caller number', EINVAL)
    say(caller < 64 and not s.live(caller), 'dead caller', EPERM)
    if op not in OPS:
        return found + [('unknown', EINVAL, 0)]
    say(op >= 16 and not s.supervisor(caller), 'not supervisor', EPERM)
    say(not fields_ok(op, a, b, c, d), 'fields', EINVAL)
    if op in HANDLED:
        say(a >= 256, 'handle number', EBADF)
        if op == 16:
            say(s.object(a)[0] != 0, 'taken', EADDRINUSE)
        else:
            say(s.object(a)[0] == 0, 'free', EBADF)
    return found + rule(s, op, caller, a, b, c, d)


def change(s, bs):
    """Does a call that nothing refuses; its value."""
    op, caller, a, b, c, d = unpack(bs)
    o = s.object(a)
    if op == 1:
        o[2][b] = True
    elif op == 2:
        o[2][caller] = False
    elif op in (4, 24):
        t = caller if op == 4 else b
        s.threads[t] = None
        for x in s.objects:
            x[2][t] = False
    elif op == 16:
        s.objects[a] = [b, 0, [False] * 64]
    elif op == 17:
        s.objects[a] = [0, 0, [False] * 64]
    elif op == 18:
        o[2][b] = False
    elif op == 19:
        o[1] |= INITIALISED
    elif op == 20:
        o[1] &= ~INITIALISED
    elif op == 21:
        o[1] |= INITIALISED
        o[2] = [t == caller for t in range(64)]
    elif op == 22:
        o[1] |= PUBLIC
    elif op == 23:
        s.threads[b] = [c, 255, a]
    elif op == 25:
        for x in s.objects:
            x[2][c] = x[2][c] or x[2][b]
    elif op == 26:
        s.threads[b][1] = c
    elif op == 27:
        k = [p[1] for p in s.domains[a]].index(0)
        s.domains[a][k] = (b, c, d)
        return k
    elif op == 28:
        k = [p[:2] for p in s.domains[a]].index((b, c))
        s.domains[a][k] = (0, 0, 0)
        return k
    return 0


def answer(s, bs):
    """Code and value on a sound state, which is changed where the code is OK."""
    found = refusals(s, bs)
    return found[0][1:] if found else (OK, change(s, bs))


# ---- the states that are tried
def bits(*ts):
    return [t in ts for t in range(64)]


def thread(s, t, supervisor, domain, handle, flags=0, holders=()):
    s.threads[t] = [supervisor, domain, handle]
    s.objects[handle] = [1, flags, bits(*holders)]


def plain():
    """Two supervisors, four users, objects of all flags, a domain with neighbours out of order, a full one, an empty one."""
    s = State()
    thread(s, 0, 1, 255, 0, 1)
    thread(s, 63, 1, 7, 255, 1, (1, 63))
    thread(s, 1, 0, 0, 10, 1, (1, 2))
    thread(s, 2, 0, 1, 11, 0, (1,))
    thread(s, 5, 0, 255, 12, 3)
    thread(s, 62, 0, 2, 13, 15, (0, 62))
    s.objects[20] = [1, 0, bits(1)]
    s.objects[21] = [1, 1, bits()]
    for k in range(16):
        s.objects[30 + k] = [2 + k % 14, k, bits(*((1, 2, 5, 62, 0, 63)[j] for j in range(6) if (k * 11 + 5) >> j & 1))]
    s.objects[46] = [3, 0, bits(1, 2, 5)]
    s.objects[47] = [3, 1, bits(1, 2, 5)]
    s.objects[254] = [15, 9, bits(0, 1, 2, 5, 62, 63)]
    s.domains[0] = [(0x2000, 0x1000, 3), (0x1000, 0x1000, 7), (0, 0, 0), (0x3000, 0x800, 1), (0x4000, 16, 5), (0, 16, 3), (LAST - 15, 15, 3)] + [(0, 0, 0)] * 9
    s.domains[1] = [(0x10000 + 64 * ((5 * k) % 16), 64, (3, 1)[k == 7]) for k in range(16)]
    s.domains[7] = [(0, 0, 0)] * 15 + [(1, LAST - 1, 1)]
    return s


def lone():
    """One supervisor and nothing else."""
    s = State()
    thread(s, 0, 1, 255, 0)
    return s


def users():
    """No supervisor: nobody can do what is supervisors' alone."""
    s = State()
    thread(s, 3, 0, 3, 7, 0, (3,))
    thread(s, 4, 0, 255, 8, 2)
    s.objects[9] = [5, 1, bits(4)]
    s.domains[3] = [(100, 1, 1), (101, 1, 3), (102, 1, 1)] + [(0, 0, 0)] * 13
    return s


def full(r):
    """Every thread lives, every handle is taken, every slot is used."""
    s = State()
    handles = r.sample(range(256), 64)
    for h in range(256):
        s.objects[h] = [r.randint(1, 15), r.randint(0, 15), [r.random() < 0.5 for _ in range(64)]]
    for t in range(64):
        thread(s, t, int(r.random() < 0.3), r.choice((0, 1, 2, 3, 4, 5, 6, 7, 255)), handles[t], r.randint(0, 15), r.sample(range(64), 20))
    for d in range(8):
        at = r.randint(0, 1000)
        for k in r.sample(range(16), 16):
            size = r.choice((1, 32, 4096, 1 << 24))
            s.domains[d][k] = (at, size, r.choice((1, 3, 5, 7)))
            at += size + r.choice((0, 0, 1, 64))
    return s


def drawn(r):
    s = State()
    threads = r.sample(range(64), 6)
    for i, (t, h) in enumerate(zip(threads, r.sample(range(256), 6))):
        thread(s, t, int(i < 2), r.choice((0, 1, 255)), h, r.randint(0, 15), [x for x in threads if r.random() < 0.4])
    for h in r.sample([h for h in range(256) if s.objects[h][0] == 0], 12):
        s.objects[h] = [r.randint(1, 5), r.randint(0, 15), bits(*(x for x in threads if r.random() < 0.4))]
    for d in (0, 1):
        at = r.choice((0, 5000))
        for k in r.sample(range(16), 16 if d else 5):
            size = r.choice((1, 48, 4096))
            s.domains[d][k] = (at, size, r.choice((1, 3, 3, 5, 7)))
            at += size + r.choice((0, 0, 0, 32))
    return s


# ---- calls from the edges
JUNK = (1, 2, 63, 64, 255, 256, 65535, 65536, 1 << 24, 1 << 31, LAST)


def pack(op, caller, a=0, b=0, c=0, d=0):
    return struct.pack('<BBHIII', op, caller, a, b, c, d)


def some_thread(s, r):
    kind = r.random()
    if kind < 0.55:
        return r.choice([t for t in range(64) if s.threads[t]] or [0])
    return r.choice((0, 63, r.randint(0, 63), r.randint(0, 63)))


def some_caller(s, r):
    kind = r.random()
    if kind < 0.4:
        return r.choice([t for t in range(64) if s.supervisor(t)] or [0])
    if kind < 0.7:
        return r.choice([t for t in range(64) if s.live(t)] or [0])
    return r.choice((0, 63, 64, 65, 128, 255, r.randint(0, 63), r.randint(0, 63)))


def some_handle(s, r, op):
    kind = r.random()
    if kind < 0.1:
        return r.choice((256, 257, 511, 512, 65535))
    if kind < 0.25 or (op == 16 and kind < 0.7):
        return r.choice([h for h in range(256) if s.objects[h][0] == 0] or [0])
    if kind < 0.45:
        return r.choice([h for h in range(256) if s.objects[h][0] == 1] or [0])
    return r.choice([h for h in range(256) if s.objects[h][0]] or [0])


def some_window(s, r, d):
    """A start and a size: a slot's own, one near a slot's edges, or one at the ends of the address space."""
    active = [p for p in s.domains[d] if p[1]] or [(0, 0, 0)]
    p, q = r.choice(active), r.choice(active)
    kind = r.random()
    if kind < 0.3:
        return p[0], p[1]
    if kind < 0.75:
        start = max(0, p[0] + r.choice((0, 0, 0, -1, 1, p[1] - 1, p[1], p[1] // 2)))
        end = q[0] + q[1] + r.choice((0, 0, -1, 1, r.randint(0, 64)))
        return start, max(0, end - start) if end - start <= LAST else 1
    return r.choice(((0, 0), (0, 1), (0, LAST), (1, LAST), (LAST, 0), (LAST, 1), (LAST - 1, 1), (LAST - 15, 15), (LAST - 15, 16), (LAST - 1, 2),
                     (0x80000000, 0x7FFFFFFF), (0x80000000, 0x80000000), (LAST, LAST), (r.randint(0, 1 << 20), r.randint(0, 300)),
                     (0x90000000 + 64 * r.randint(0, 99), 64), (p[0], LAST - p[0]), (p[0], 0), (p[0], LAST)))


def draw(s, r, op):
    """Sixteen bytes of the operation: fields that are good or at an edge."""
    caller = some_caller(s, r)
    a = b = c = d = 0
    if op == 'unknown':
        op = r.choice([x for x in range(256) if x not in OPS])
        a, b, c, d = (r.choice((0, 0, 1, 40)) for _ in range(4))
    if op in HANDLED:
        a = some_handle(s, r, op)
    if op == 0:
        b = r.choice((0, s.object(a)[0], s.object(a)[0], r.randint(0, 15), r.choice((16, 255, 256, LAST))))
        c = r.choice((0, 1, LAST, 0, 1, LAST, r.choice((2, LAST - 1, 255, 65535, 1 << 31))))
    elif op in (1, 18, 23, 24, 25, 26):
        b = some_thread(s, r) if r.random() < 0.93 else r.choice((64, 65, 255, 256, LAST))
    elif op == 16:
        b = r.randint(1, 15) if r.random() < 0.85 else r.choice((0, 16, 255, 256, 257, LAST))
    if op == 23:
        c = r.choice((0, 1, 0, 1, 0, 1, 2, 256))
    elif op == 25:
        c = some_thread(s, r) if r.random() < 0.93 else r.choice((64, 255, LAST))
    elif op == 26:
        c = r.choice((0, 1, 2, 7, 255, 255, 8, 254, 256))
    elif op == 3:
        own = s.threads[caller][1] if s.live(caller) and s.threads[caller][1] < 8 else r.randint(0, 7)
        b, c = some_window(s, r, own)
        d = r.choice((0, 1, 0, 1, 0, 1, 2))
    elif op in (27, 28):
        a = r.choice((0, 0, 1, 1, 2, 3, 5, 6, 7, 7, r.choice((8, 255, 256, 65535))))
        b, c = some_window(s, r, a % 8)
        d = r.choice((1, 3, 5, 7, 1, 3, 5, 7, r.choice((0, 2, 4, 6, 8, 9, LAST)))) if op == 27 else 0
    if r.random() < 0.2:
        junk, which = r.choice(JUNK), r.choice('abcd')
        a, b, c, d = (junk & 65535 if which == 'a' and op not in HANDLED else a), (junk if which == 'b' else b), (junk if which == 'c' else c), (junk if which == 'd' else d)
    bs = pack(op, caller, a, b, c, d)
    kind = r.random()
    if kind < 0.06:
        return bs[:r.choice((1, 2, 4, 8, 12, 13, 15, 15, 15, r.randint(1, 15)))]
    if kind < 0.12:
        return bs + bytes(r.choice((0, 1, 255)) for _ in range(r.choice((1, 1, 2, 15, 16, 24))))
    return bs


def search(states, r):
    """For each operation: (state, bytes) of each pair's best call and of each refusal's, and calls that are answered OK."""
    refused, good = {}, {}
    for op in ROWS:
        best = {}
        for i, s in enumerate(states):
            for _ in range(1500):
                bs = draw(s, r, op)
                names = [name for name, _, _ in refusals(s, bs)]
                if not names:
                    good.setdefault((op, i), []).append(bs)
                for other in names[1:] or names[:1]:
                    key = (names[0], other)
                    if key not in best or len(names) < best[key][0]:
                        best[key] = (len(names), i, bs)
        refused[op] = best
    return refused, good


# ---- the stream
PRIME, BASE = 281474976710597, 31337


def digest(numbers, d=0):
    for n in numbers:
        d = (d * BASE + n) % PRIME
    return d


WHOLE = (512, 192, 384)


class Stream:
    """The steps, the lines that the program must print, and for each line what the model knows of it."""

    def __init__(self):
        self.steps, self.lines, self.met = [], [], []
        self.tables = [[0] * 520, [0] * 200, [0] * 392, [0] * 256]
        self.known = self.whole = None

    def step(self, number, x=0, y=0, z=0, tail=b''):
        self.steps.append(struct.pack('<IIII', number, x, y, z) + tail)

    def write(self, table, i, v):
        self.step(table, i, v & LAST, v >> 32)
        self.tables[table][i] = v
        self.known = self.whole = None

    def load(self, tables):
        """Writes the numbers in which the program's tables differ from these."""
        for table, numbers in enumerate(tables):
            for i, v in enumerate(numbers):
                if self.tables[table][i] != v:
                    self.write(table, i, v)

    def lent(self, lengths):
        return [xs[:n] for xs, n in zip(self.tables, lengths)]

    def state(self, lengths):
        """The state that is lent, or None; read again only where numbers were written past the calls."""
        if lengths != WHOLE:
            return read(*self.lent(lengths))
        if self.whole is None:
            self.whole = (read(*self.lent(WHOLE)),)
        return self.whole[0]

    def state_digest(self):
        if self.known is None:
            objects, threads, slots, _ = self.tables
            self.known = digest(slots, digest(threads, digest([h for n in objects for h in (n & LAST, n >> 32)])))
        return self.known

    def keep(self, s):
        for table, numbers in enumerate(s.tables()):
            n = WHOLE[table]
            if self.tables[table][:n] != numbers[:n]:
                self.tables[table][:n] = numbers[:n]
                self.known = None

    def call(self, bs, lengths=WHOLE, pretend=None):
        """One call. `pretend`: the sound state that the broken one was made from, to say which refusals would hold beside the state's."""
        s = self.state(lengths)
        names = ([] if s else ['state']) + [name for name, _, _ in (refusals(s or pretend, bs) if s or pretend else [])]
        assert row(bs) is None or names == [name for name in order(row(bs)) if name in names]
        code, value = answer(s, bs) if s else (VALUE, 0)
        if code == OK:
            self.keep(s)
        self.step(4, len(bs), lengths[0] + 65536 * lengths[1], lengths[2], bs)
        self.lines.append(f'call {code} {value} {self.state_digest()} ')
        self.met.append((row(bs), names))

    def run(self, log, room, lengths=WHOLE):
        """A log, with `room` numbers lent for its answers."""
        s, out = self.state(lengths), self.tables[3]
        parts = [log[k:k + 16] for k in range(0, len(log), 16)]
        assert len(log) <= 4096 and room <= 256
        names = ([] if s else ['state']) + (['room'] if room < 2 * len(parts) else [])
        code = VALUE if not s else ROOM if names else OK
        if code == OK:
            for k, part in enumerate(parts):
                out[2 * k:2 * k + 2] = answer(s, part)
            self.keep(s)
        self.step(5, len(log) + 65536 * room, lengths[0] + 65536 * lengths[1], lengths[2], log)
        told = ''.join(f'{n} ' for n in out[:room])
        self.lines.append(f'run {code} {len(parts) if code == OK else 0} {self.state_digest()} {digest(out)} {told}')
        self.met.append(('log', names, [row(p) for p in parts]))

    def refill(self, r):
        """Other numbers in `out`, so that what a log leaves there can be told from what stood there."""
        for i in range(0, 256, 5):
            self.write(3, i, r.randint(1, LAST))


# One broken rule each: table, place, number; on `plain`.
BROKEN = [
    (0, 60, 16), (0, 60, 255), (0, 60, 2 + 256 * 16), (0, 60, 2 + 65536), (0, 60, 2 + (1 << 32)), (0, 60, 2 + (1 << 63)),
    (0, 200, 256), (0, 201, 1), (0, 61, 1 << 3), (0, 61, 1 << 61), (0, 41, (1 << 1) + (1 << 40)),
    (1, 0, 3), (1, 3, LAST), (1, 4, 8), (1, 4, 254), (1, 4, 256), (1, 5, 256), (1, 5, 100), (1, 5, 30), (1, 5, 11), (1, 5, LAST),
    (1, 10, 1), (1, 10, 255), (1, 11, 1), (1, 0, 0), (1, 189, 0),
    (2, 0, LAST), (2, 1, LAST), (2, 2, 0), (2, 2, 2), (2, 2, 4), (2, 2, 6), (2, 2, 8), (2, 2, LAST), (2, 0, 0x1FFF), (2, 4, 0x1001), (2, 6, 1), (2, 8, 1),
    (2, 1, 0), (2, 381, 0xFFFF), (2, 382, LAST), (2, 380, 3),
]
LENGTHS = [(511, 192, 384), (513, 192, 384), (0, 192, 384), (512, 191, 384), (512, 193, 384), (512, 0, 384), (512, 192, 383), (512, 192, 385),
           (512, 192, 0), (0, 0, 0), (520, 200, 392), (510, 189, 381)]


def play_refusals(w, r, i, s, refused):
    """Each kept call, by itself and in a log that ends in a short part; the state stays, so that they can follow each other."""
    w.load(s.tables())
    for op in ROWS:
        kept = sorted({bs for _, at, bs in refused[op].values() if at == i})
        for bs in kept:
            w.call(bs)
        whole = [bs for bs in kept if len(bs) == 16][:127]
        short = max([bs for bs in kept if len(bs) < 16], key=len, default=b'')
        if whole:
            w.run(b''.join(whole) + short, 2 * len(whole) + (2 if short else 0) + r.choice((0, 0, 1, 2)) * (len(whole) < 120))


def play_beside(w, i, s, refused, good):
    """Each refusal, and a call that is answered OK, once more on the state with one number in it raised, so that a rule is broken."""
    w.load(s.tables())
    table, place, more = ((1, 3 * 40 + 1, 8), (2, 3 * (16 * 6 + 9) + 2, 8), (0, 2 * 100, 4096))[i % 3]
    w.write(table, place, w.tables[table][place] + more)
    assert w.state(WHOLE) is None
    for op in ROWS:
        first = {}
        for (name, _), (n, at, bs) in sorted(refused[op].items()):
            if at == i and (name not in first or n < first[name][0]):
                first[name] = (n, bs)
        for bs in [bs for _, bs in first.values()] + good.get((op, i), [])[:1]:
            w.call(bs, pretend=s)


def play_good(w, r, i, s, good):
    """Calls that are answered OK, the state written back after each; where a call changes many numbers, fewer of them."""
    for op in ROWS:
        calls = good.get((op, i), [])
        most = 1 if op in (4, 24, 25) and all(s.threads) else 14
        for bs in sorted(set(r.sample(calls, min(len(calls), most)))):
            w.load(s.tables())
            w.call(bs)
    w.load(s.tables())


def play_broken(w, s):
    """Each rule broken by itself, and tables of other lengths: a call that would be OK, no bytes at all, a log, a log without room."""
    good = pack(0, 0, 254, 0, 1)
    for table, place, v in BROKEN:
        w.load(s.tables())
        w.write(table, place, v)
        assert w.state(WHOLE) is None, (table, place, v)
        w.call(good)
        w.run(good, 4)
    w.run(good * 3, 5)
    w.load(s.tables())
    for lengths in LENGTHS:
        w.call(good, lengths)
        w.call(b'', lengths)
        w.run(good, 2, lengths)
    w.run(good * 3, 5, LENGTHS[0])


def play_edges(w, r, s):
    """SPEC's own edges: grant to 63 and 64, a size at its limit and above, remove of size 0, a check across neighbours; lengths of bytes, logs and `out`."""
    w.load(s.tables())
    for bs in (pack(1, 0, 254, 63), pack(1, 0, 254, 64), pack(27, 0, 4, LAST - 15, 15, 3), pack(27, 0, 5, LAST - 15, 16, 3), pack(28, 0, 0),
               pack(3, 1, 0, 0x1000, 0x2800, 0), pack(3, 1, 0, 0x1000, 0x2801, 0), pack(3, 1, 0, 0x1FFF, 0x1001, 1), pack(3, 1, 0, 0x1FFF, 0x1002, 1),
               pack(3, 5, 0, 0, 1), pack(3, 1, 0, 0, 17), pack(3, 9, 0, 77, 1), pack(0, 0, 31, 0, 1), pack(0, 5, 36, 0, 1)):
        w.call(bs)
    call = pack(0, 1, 254, 15, 0)
    for n in range(41):
        w.call((call * 3)[:n])
    w.refill(r)
    for n in (0, 1, 2, 15, 16, 17, 31, 32, 33, 48, 100, 160):
        need = 2 * ((n + 15) // 16)
        for room in sorted({0, 1, max(0, need - 2), max(0, need - 1), need, need + 1, need + 5}):
            w.run((call * 10)[:n], room)
    w.run(call * 128, 255)
    w.run(call * 128, 256)
    w.run(call * 127 + call[:7], 256)


def play_full(w, s):
    """Every domain is full: a window that meets none of its slots finds no place, and the place of a slot that was removed is found again."""
    w.load(s.tables())
    caller = [s.supervisor(t) for t in range(64)].index(True)
    for d in range(8):
        start, size, attr = s.domains[d][(7 * d + 15) % 16]
        for bs in (pack(27, caller, d, 0x90000000, 64, 3), pack(28, caller, d, start, size), pack(27, caller, d, 0x90000000, 64, 3),
                   pack(27, caller, d, start, size, attr), pack(28, caller, d, 0x90000000, 64), pack(27, caller, d, start, size, attr)):
            w.call(bs)


def play_fields(w, states, good):
    """Of a call that is answered OK, every field in turn set to every number of JUNK and some more: where each field's range ends.
    They go into logs, each ended by a call that is answered OK, so that all of them meet the same state."""
    for op in OPS:
        i = min(i for i in range(len(states)) if (op, i) in good)
        log = []
        for field in range(1, 6):
            for junk in (0, 7, 8, 15, 16) + JUNK:
                fields = list(unpack(good[op, i][0]))
                fields[field] = junk & (255, 65535, LAST, LAST, LAST)[field - 1]
                log.append(pack(*fields))
                if not refusals(states[i], log[-1]):
                    w.load(states[i].tables())
                    w.run(b''.join(log), 2 * len(log))
                    log = []
        w.load(states[i].tables())
        w.run(b''.join(log), 2 * len(log))


def play_walks(w, r, states):
    """Calls that build on each other, by single calls and by logs; of those drawn, most of the ones that are refused are left out."""
    for turn in range(36):
        start = r.choice(states)
        w.load(start.tables())
        s = start.copy()
        if turn % 9 == 0:
            w.refill(r)
        for _ in range(3):
            log = []
            while len(log) < 24:
                bs = draw(s, r, r.choice(ROWS))
                if op_ends(s, bs) and r.random() < 0.7 or (refusals(s, bs) and r.random() < 0.8):
                    continue
                log.append(bs)
                answer(s, bs)
            if r.random() < 0.5:
                for bs in log:
                    w.call(bs)
            else:
                log = [bs for bs in log if len(bs) == 16]
                tail = r.choice((b'', b'', draw(s, r, r.choice(ROWS))[:r.randint(1, 15)]))
                w.run(b''.join(log) + tail, r.choice((2 * len(log) + 2, 64)))
        assert read(*w.lent(WHOLE)) is not None


def op_ends(s, bs):
    return bs[0] in (4, 24) and not refusals(s, bs)


def make():
    r = random.Random(SEED)
    states = [plain(), drawn(r), lone(), users(), State(), full(r)]
    for s in states:
        objects, threads, slots = s.tables()
        assert read(objects[:512], threads[:192], slots[:384]) is not None
    refused, good = search(states, r)
    w = Stream()
    play_edges(w, r, states[0])
    play_broken(w, states[0])
    play_fields(w, states, good)
    play_walks(w, r, states[:4])
    for i, s in enumerate(states):
        play_refusals(w, r, i, s, refused)
        play_beside(w, i, s, refused, good)
        play_good(w, r, i, s, good)
    play_full(w, states[5])
    return w


# ---- what was met
def table(title, rows, counts, columns):
    lines = [title, ' ' * 20 + ''.join(f'{NAMES[c]:>11}' for c in columns)]
    for name in rows:
        label = 'no bytes' if name is None else name if isinstance(name, str) else f'{name:>2} {OPS[name]}'
        lines.append(f'{label:<20}' + ''.join(f'{counts.get((name, c), 0) or "-":>11}' for c in columns))
    return lines


class Met:
    """Counts over the program's lines: answers by operation, pairs of refusals whose earlier one gave the answer, and refusals without which the
    answer would be another."""

    def __init__(self, w, lines):
        self.calls, self.parts, self.logs, self.pairs, self.decides = {}, {}, {}, {}, {}
        for what, line in zip(w.met, lines):
            words = line.split()
            code = int(words[1])
            if words[0] == 'call':
                self.add(self.calls, (what[0], code))
                self.pair(what[0], what[1], code)
            else:
                self.add(self.logs, ('log', code))
                self.pair('log', what[1], code)
                for k, name in enumerate(what[2] if code == OK else []):
                    self.add(self.parts, (name, int(words[5 + 2 * k])))

    def add(self, counts, key):
        counts[key] = counts.get(key, 0) + 1

    def pair(self, op, names, code):
        if names and code == CODE[op, names[0]]:
            for other in names[1:]:
                self.add(self.pairs, (op, names[0], other))
            if names[1:2] == [] or CODE[op, names[1]] != code:
                self.add(self.decides, (op, names[0]))

    def text(self):
        columns = [OK, EINVAL, EPERM, EBADF, EADDRINUSE, ENOSPC, ENOENT, SHORT, VALUE]
        lines = table('single calls: operation by answer', ROWS + [None], self.calls, columns)
        lines += table('calls of logs: operation by answer', ROWS, self.parts, columns)
        lines += table('logs', ['log'], self.logs, [OK, VALUE, ROOM])
        lines += ['pairs of refusals met, the earlier one answering: operation, met, that can hold together, that cannot']
        for op in ROWS + ['log']:
            label = op if isinstance(op, str) else f'{op:>2} {OPS[op]}'
            met = sum(1 for p in all_pairs(op) if (op, *p) in self.pairs)
            apart = sum(1 for p in combinations(order(op), 2) if p in APART) if op != 'log' else 0
            lines.append(f'{label:<20}{met:>11}{len(all_pairs(op)):>11}{apart:>11}')
        return '\n'.join(lines) + '\n'


def all_pairs(op):
    return [('state', 'room')] if op == 'log' else pairs(op)


# the answer of each refusal
CODE = {}
for _op in ROWS:
    for _name in order(_op):
        CODE[_op, _name] = {'state': VALUE, 'short': SHORT, 'dead caller': EPERM, 'not supervisor': EPERM, 'handle number': EBADF, 'taken': EADDRINUSE,
                            'free': EBADF, 'type': EBADF, 'access': EPERM, 'initialised': EADDRINUSE, 'target access': EPERM, 'uncovered': EPERM,
                            'serving': EADDRINUSE, 'live': EADDRINUSE, 'not thread': EBADF, 'full': ENOSPC, 'size 0': ENOENT,
                            'no match': ENOENT}.get(_name, EINVAL)
for _name in ('state', 'short', 'long'):
    CODE[None, _name] = {'state': VALUE, 'short': SHORT, 'long': EINVAL}[_name]
CODE['log', 'state'], CODE['log', 'room'] = VALUE, ROOM


class Tally:
    def __init__(self):
        self.passed = self.failed = 0

    def say(self, good, what):
        if good:
            self.passed += 1
        else:
            self.failed += 1
            if self.failed <= 30:
                print('FAILED', what)


def judge_met(tally, w, lines):
    """Everything that can be reached is met, by calls and by logs; nothing that is said to be out of reach is."""
    met = Met(w, lines)
    for op in ROWS:
        for code in range(13):
            tally.say((code in REACHABLE[op]) == ((op, code) in met.calls), f'call {op} answer {NAMES[code]}: {met.calls.get((op, code), 0)} times')
            tally.say((code in REACHABLE[op] - {VALUE}) == ((op, code) in met.parts), f'in a log {op} answer {NAMES[code]}: {met.parts.get((op, code), 0)} times')
    for code in (OK, VALUE, ROOM):
        tally.say(('log', code) in met.logs, f'log answer {NAMES[code]}')
    for op in ROWS + ['log']:
        for pair in all_pairs(op):
            tally.say((op, *pair) in met.pairs, f'{op}: {pair[0]} before {pair[1]} not met')
    for op in ROWS:
        for name in order(op):
            tally.say(((op, name) in met.decides) != shadowed(op, name), f'{op}: {name} decides {met.decides.get((op, name), 0)} times')
    for op, names, *_ in w.met:
        for pair in combinations(names, 2):
            if pair in APART and names[0] != 'state':
                tally.say(False, f'{op}: {pair} hold together, against "{APART[pair]}"')
    return met


def judge_stays(tally, lines, w):
    """A refusal leaves the tables, and a refused log `out`: read off the program's own digests. Only steps 0 to 3 come between."""
    state = out = None
    at = 0
    for step in w.steps:
        number, x, y, _ = struct.unpack('<IIII', step[:16])
        if number < 4:
            state, out = (state, None) if number == 3 else (None, out)
            continue
        words = lines[at].split()
        refused = words[1] != '0'
        if state is not None and refused:
            tally.say(words[3] == state, f'line {at + 1}: a refusal changed the state')
        state = words[3]
        if words[0] == 'run':
            if out is not None and refused:
                tally.say(words[4] == out, f'line {at + 1}: a refused log changed out')
            out = words[4]
        at += 1


def stored(name):
    with open(name, 'rb') as f:
        return f.read()


def compare(program):
    tally, w = Tally(), make()
    stream, text = b''.join(w.steps), '\n'.join(w.lines) + '\n'
    tally.say(stored(os.path.join(CRATE, 'stdin')) == stream, 'the stored steps are not what the seed makes')
    tally.say(stored(os.path.join(CRATE, 'stdout')) == text.encode(), 'the stored lines are not what the model says')
    got = subprocess.run([program], input=stream, capture_output=True, timeout=60).stdout.decode().split('\n')[:-1]
    tally.say(len(got) == len(w.lines), f'{len(got)} lines, {len(w.lines)} wanted')
    for k, (mine, line) in enumerate(zip(w.lines, got)):
        tally.say(mine == line, f'line {k + 1} {w.met[k][:2]}: program {line[:80]!r}, model {mine[:80]!r}')
    if len(got) == len(w.lines):
        met = judge_met(tally, w, got)
        judge_stays(tally, got, w)
        print(met.text(), end='')
        tally.say(stored(os.path.join(HERE, 'coverage.txt')) == met.text().encode(), 'the coverage table is not the stored one')
    print(f'{tally.passed} passed, {tally.failed} failed')
    return tally.failed == 0


def store():
    w = make()
    for name, text in ((os.path.join(CRATE, 'stdin'), b''.join(w.steps)), (os.path.join(CRATE, 'stdout'), ('\n'.join(w.lines) + '\n').encode()),
                       (os.path.join(HERE, 'coverage.txt'), Met(w, w.lines).text().encode())):
        with open(name, 'wb') as f:
            f.write(text)


if __name__ == '__main__':
    if sys.argv[1:] == ['stored']:
        store()
    elif len(sys.argv) == 3 and sys.argv[1] == 'compare':
        sys.exit(0 if compare(sys.argv[2]) else 1)
    else:
        sys.exit(__doc__)
