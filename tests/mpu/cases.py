#!/usr/bin/env python3
"""Cases for the checker and the planner, and their answers by a model of docs/SPEC.md, 10.

  cases.py stored          writes crates/try_mpu/stdin and crates/try_mpu/stdout, which rt ci compares
  cases.py compare PROGRAM [COUNT]
                           feeds COUNT (120000) seeded cases to PROGRAM (target/bin/try_mpu) and compares each answer;
                           the last line is 'N passed, M failed'

The model shares nothing with the crates: it is written from what was asked for alone, and asks at each edge of each slot and
region, one below it, one above it, and at the last address. Python 3's standard library alone; seed 20261115.
"""
import random, struct, subprocess, sys

OK, EINVAL, VALUE, NOPLAN, ROOM, DIFFERS = 0, 1, 9, 10, 11, 12
LENT = 34
LAST = 0xFFFFFFFF


def sound(slots, count):
    """The rules of a domain record: SPEC 3.32 and 3.33."""
    active = [s for s in slots if s[1] != 0]
    for start, size, attr in slots:
        if size == 0 and (start, attr) != (0, 0):
            return False
    for start, size, attr in active:
        if start + size > LAST or attr not in (1, 3, 5, 7):
            return False
    spans = sorted((s[0], s[0] + s[1]) for s in active)
    return count == len(active) and all(a[1] <= b[0] for a, b in zip(spans, spans[1:]))


def field(word, high, low):
    return word >> low & (1 << high - low + 1) - 1


def well_formed(plan):
    if len(plan) % 2 or len(plan) > 32:
        return False
    for place in range(len(plan) // 2):
        rbar, rasr = plan[2 * place], plan[2 * place + 1]
        size = 2 ** (field(rasr, 5, 1) + 1)
        reserved = [field(rasr, 31, 29), field(rasr, 27, 27), field(rasr, 23, 22), field(rasr, 7, 6)]
        if field(rbar, 4, 4) != 1 or field(rbar, 3, 0) != place or any(reserved) or field(rasr, 15, 8):
            return False
        if field(rasr, 26, 24) == 4 or field(rasr, 5, 1) < 4 or (rbar & ~31) % size:
            return False
    return True


# what unprivileged code may do under each AP; 4 is reserved
ACCESS = {0: '', 1: '', 2: 'r', 3: 'rw', 5: '', 6: 'r', 7: 'r'}


def plan_rights(plan, address):
    for place in reversed(range(len(plan) // 2)):
        rbar, rasr = plan[2 * place], plan[2 * place + 1]
        base = rbar & ~31
        if rasr & 1 and base <= address < base + 2 ** (field(rasr, 5, 1) + 1):
            rights = set(ACCESS[field(rasr, 26, 24)])
            if 'r' in rights and field(rasr, 28, 28) == 0:
                rights.add('x')
            return rights
    return set()


def domain_rights(slots, address):
    for start, size, attr in slots:
        if start <= address < start + size:
            return {name for bit, name in ((1, 'r'), (2, 'w'), (4, 'x')) if attr & bit}
    return set()


def check(slots, count, plan):
    if not sound(slots, count) or not well_formed(plan):
        return VALUE
    asked = {0, LAST}
    for start, size, _ in slots:
        asked |= {start - 1, start, start + 1, start + size - 1, start + size, start + size + 1}
    for rbar, rasr in zip(plan[::2], plan[1::2]):
        base = rbar & ~31
        top = base + 2 ** (field(rasr, 5, 1) + 1)
        asked |= {base - 1, base, base + 1, top - 1, top, top + 1}
    same = all(plan_rights(plan, a) == domain_rights(slots, a) for a in asked if 0 <= a <= LAST)
    return OK if same else DIFFERS


def region(slot, place):
    start, size, attr = slot
    access = 3 if attr & 2 else 6
    never = 0 if attr & 4 else 1
    return [start | 16 | place, never << 28 | access << 24 | 1 << 17 | size.bit_length() - 2 << 1 | 1]


def can_be_region(slot):
    start, size, _ = slot
    return size >= 32 and size & (size - 1) == 0 and start % size == 0


def plan(slots, count, regions, lent):
    """The answer, its value, and the lent words afterwards."""
    if not sound(slots, count):
        return VALUE, 0, lent
    if regions > 16:
        return EINVAL, 0, lent
    active = [s for s in slots if s[1]]
    if len(active) > regions or not all(map(can_be_region, active)):
        return NOPLAN, 0, lent
    words = [w for place, s in enumerate(active) for w in region(s, place)]
    if len(words) > len(lent):
        return ROOM, 0, lent
    return OK, len(words), words + lent[len(words):]


def padded(words):
    return (words + [0xA5A5A5A5] * LENT)[:LENT]


def case(op, slots, count, regions, words):
    """A case's bytes, and the line that must come back."""
    lent = words[:LENT]
    flat = [op, len(lent), regions, count] + [n for s in slots for n in s] + padded(lent)
    if op == 1:
        line = 'check %d 0 ' % check(slots, count, lent)
    else:
        code, value, after = plan(slots, count, regions, lent)
        line = 'plan %d %d ' % (code, value) + ''.join('%d ' % w for w in padded(after))
    return struct.pack('<86I', *flat), line


def full(active):
    return (active + [(0, 0, 0)] * 16)[:16]


def checked(active, words, count=None):
    return case(1, full(active), len([s for s in active if s[1]]) if count is None else count, 0, words)


def again(active, words, rounds):
    """The bytes of a check that is done a number of times, for bench/mpu."""
    flat = [3, len(words), rounds, len(active)] + [n for s in full(active) for n in s] + padded(words)
    return struct.pack('<86I', *flat)


def planned(active, regions, room, count=None):
    lent = [0x1000 + k for k in range(room)]
    return case(2, full(active), len([s for s in active if s[1]]) if count is None else count, regions, lent)


def words_of(active):
    return [w for place, s in enumerate(active) for w in region(s, place)]


THREE = [(0x08000000, 0x10000, 5), (0x20000000, 4096, 3), (0x20001000, 4096, 3)]
MANY = [(0x10000 * (k + 1), 32 << (k % 12), (1, 3, 5, 7)[k % 4]) for k in range(16)]


def stored():
    """Named cases: those of SPEC 10.38, then the limits of each field."""
    three = words_of(THREE)
    yield checked(THREE, three)
    less = list(three)
    less[5] = 0x16020017
    yield checked(THREE, less)
    for bit in range(64):
        flipped = list(three)
        flipped[4 + bit // 32] ^= 1 << bit % 32
        yield checked(THREE, flipped)
    for n in range(17):
        yield checked(MANY[:n], words_of(MANY[:n]))
        yield planned(MANY[:n], 16, 34)
        yield planned(MANY[:n], n, 2 * n)
        if n:
            yield planned(MANY[:n], n - 1, 34)
            yield planned(MANY[:n], n, 2 * n - 1)
    yield checked(MANY, words_of(MANY) + region((0x40000000, 32, 1), 0))
    yield checked(MANY, words_of(MANY)[:-1])
    # overlaps: a hole cut by a later region, the same by an earlier one, and two that add up
    whole, hole = (0x20000000, 0x1000, 3), (0x20000800, 0x100, 0)
    for order in ([whole, hole], [hole, whole]):
        over = [w for place, s in enumerate(order) for w in region(s, place)]
        for k, s in enumerate(order):
            if s is hole:
                over[2 * k + 1] &= ~(7 << 24)
        yield checked([(0x20000000, 0x800, 3), (0x20000900, 0x700, 3)], over)
        yield checked([whole], over)
    yield checked([(0x20000000, 0x180, 3)], words_of([(0x20000000, 0x100, 3), (0x20000100, 0x80, 3)]))
    yield checked([(0x20000000, 0x100, 3), (0x20000100, 0x80, 3)], words_of([(0x20000000, 0x200, 3)]))
    # the last address, and 4 GiB
    top = (0xFFFFFFE0, 0x1F, 3)
    yield checked([top], words_of([(0xFFFFFFE0, 32, 3)]))
    yield planned([top], 16, 34)
    yield checked([(0xFFFFFFC0, 32, 3)], words_of([(0xFFFFFFC0, 32, 3)]))
    for access in range(8):
        everything = [16, 1 << 28 | access << 24 | 31 << 1 | 1]
        yield checked([], everything)
        yield checked([], everything + region((0, 0x80000000, 1), 1))
    nothing = [16, 31 << 1 | 1]
    yield checked([(0, 0x80000000, 7)], nothing + region((0, 0x80000000, 7), 1))
    yield checked([(0, 0x80000000, 7)], region((0, 0x80000000, 7), 0) + [17, 31 << 1 | 1])
    yield checked([(0, 0xFFFFFFFF, 7)], [16, 3 << 24 | 31 << 1 | 1])
    # records that break a rule, and refusals in their order
    for bad in ([(0, 0, 1)], [(5, 0, 0)], [(64, 32, 2)], [(64, 32, 0)], [(64, 32, 8)], [(64, 32, 3), (95, 32, 3)], [(0xFFFFFFE0, 32, 3)]):
        yield checked(bad, [])
        yield planned(bad, 17, 0)
    yield checked(THREE, three, count=2)
    yield planned(THREE, 17, 34, count=4)
    yield planned(THREE, 17, 0)
    yield planned([(64, 48, 3)], 17, 34)
    yield planned([(64, 48, 3)], 16, 0)
    for s in ((64, 16, 3), (64, 48, 3), (48, 32, 3), (0, 0x80000000, 3), (0x80000000, 0x40000000, 7), (0, 32, 1), (32, 64, 5)):
        yield planned([s], 16, 34)
        yield planned([(0x90000000, 32, 3), s], 1, 0)


def slot(rng):
    """A slot that likely is a region, near few places so that edges meet."""
    size = 32 << rng.choice([0, 0, 1, 1, 2, 3, 5, 12, 26])
    start = rng.choice([0, 0x20000000, 0xFFFFF000]) + size * rng.randrange(8)
    if rng.random() < 0.05:
        size += rng.choice([-1, 1, 16])
    if rng.random() < 0.05:
        start += rng.choice([1, 16, 32])
    return start & LAST, size, rng.choice([1, 3, 5, 7] if rng.random() < 0.98 else [0, 2, 4, 8])


def random_case(rng):
    slots, active = [(0, 0, 0)] * 16, []
    for k in sorted(rng.sample(range(16), rng.choice([0, 1, 1, 2, 2, 3, 4, 6, 16]))):
        s = slot(rng)
        clash = any(s[0] < a[0] + a[1] and a[0] < s[0] + s[1] for a in active) or s[0] + s[1] > LAST
        if not clash or rng.random() < 0.02:
            slots[k] = s
            active.append(s)
    count = len(active) if rng.random() < 0.98 else rng.randrange(18)
    if rng.random() < 0.15:
        room = rng.choice([2 * len(active), 34, rng.randrange(35)])
        regions = rng.choice([16, len(active), rng.randrange(20)])
        return case(2, slots, count, regions, [rng.getrandbits(32) for _ in range(min(room, LENT))])
    words = [w for place, s in enumerate(active) for w in region(s, place)] if all(map(can_be_region, active)) else []
    for _ in range(rng.choice([0, 0, 1, 2, 4])):
        change(rng, words)
    return case(1, slots, count, 0, words)


def change(rng, words):
    """One change to a plan: a bit, an access, a region more, a region off, two regions exchanged or a word less."""
    what = rng.randrange(10)
    n = len(words) // 2
    if what == 0 and words:
        words[rng.randrange(len(words))] ^= 1 << rng.randrange(32)
    elif what <= 2 and n:
        k = 2 * rng.randrange(n) + 1
        words[k] = words[k] & ~(7 << 24) | rng.choice([0, 1, 2, 3, 5, 6, 7]) << 24
    elif what == 3 and n:
        words[2 * rng.randrange(n) + 1] ^= rng.choice([1, 1 << 28, 1 << 16, 1 << 19])
    elif what == 4 and n > 1:
        i, j = rng.sample(range(n), 2)
        bases = words[2 * i] & ~15, words[2 * j] & ~15
        words[2 * i], words[2 * j] = bases[1] | i & 15, bases[0] | j & 15
        words[2 * i + 1], words[2 * j + 1] = words[2 * j + 1], words[2 * i + 1]
    elif what == 5 and words:
        words.pop()
    elif n < 16:
        s = slot(rng)
        if can_be_region(s):
            words.extend(region(s, n))
            if rng.random() < 0.3:
                words[-1] &= ~(7 << 24)
        elif rng.random() < 0.2:
            words.extend([16 | n, rng.choice([0, 3, 6]) << 24 | 1 << 28 | 31 << 1 | 1])


def store():
    cases = list(stored())
    with open('crates/try_mpu/stdin', 'wb') as f:
        f.write(b''.join(c[0] for c in cases))
    with open('crates/try_mpu/stdout', 'w') as f:
        f.write(''.join(c[1] + '\n' for c in cases))
    print(len(cases), 'cases stored')


def compare(program, count):
    rng = random.Random(20261115)
    cases = [random_case(rng) for _ in range(count)]
    got = subprocess.run([program], input=b''.join(c[0] for c in cases), capture_output=True).stdout.decode().split('\n')
    passed, seen = 0, {}
    for n, (_, want) in enumerate(cases):
        if n < len(got) and got[n] == want:
            passed += 1
            name = ' '.join(want.split()[:2])
            seen[name] = seen.get(name, 0) + 1
        elif n - passed < 5:
            print('case %d: got %r, want %r' % (n, got[n] if n < len(got) else None, want))
    print(', '.join('%s: %d' % s for s in sorted(seen.items())))
    print('%d passed, %d failed' % (passed, count - passed))
    return passed == count and count > 0


if __name__ == '__main__':
    if sys.argv[1:] == ['stored']:
        store()
    elif len(sys.argv) in (3, 4) and sys.argv[1] == 'compare':
        sys.exit(0 if compare(sys.argv[2], int(sys.argv[3]) if len(sys.argv) == 4 else 120000) else 1)
    else:
        sys.exit(__doc__)
