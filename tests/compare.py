#!/usr/bin/env python3
"""Holds a plancheck, a trycheck or a whycheck program against the model.

    python3 tests/compare.py PROGRAM [COUNT] [SEED]
    python3 tests/compare.py --ranges PROGRAM [COUNT] [SEED]
    python3 tests/compare.py --subcarriers PROGRAM [COUNT] [SEED]

Makes COUNT plans (3000 if not given), sound ones near the limits and hostile
ones, gives each to PROGRAM on standard input and compares the whole of its
standard output with the model's line.  With --ranges the program is given a
range by chance too, with --subcarriers a subcarrier and a phase, as two words.
Prints the differences, a histogram of the lines and the number compared, and
exits 1 on any difference.
"""

import random
import subprocess
import sys
from collections import Counter
from pathlib import Path

sys.dont_write_bytecode = True

import model
import plans
from plans import entries, outside, plan, record, singles

SHOWN = 20          # differences printed in full
TIMEOUT = 60        # seconds for one plan
RECORD_MAX = 65535  # the largest number that a record can hold


# --- plans by chance -------------------------------------------------------

def spans(rng):
    """L and the ends of an active stretch around the PLC window."""
    l = rng.choice([rng.randint(204, 3885), rng.randint(204, 3885),
                    204, 205, 3884, 3885, 972])
    below = rng.choice([0, 1, 60, 200, 320, 321, rng.randint(0, 3700)])
    a = max(148, l - 56 - below)
    need = rng.choice([438, 439, 440, 440, 440, 441, 460, 600, 1200, 3800])
    b = min(3948, max(l + 63, a + need - 1))
    if b - a + 1 < need and need < 3000:
        a = max(148, min(a, b - need + 1))
    return l, a, b


def free(rng, l, a, b):
    """A subcarrier of a+1 to b-1, mostly outside the PLC window."""
    for _ in range(20):
        k = rng.randint(a + 1, b - 1)
        if not l - 56 <= k <= l + 63:
            return k
    return k


def sound(rng):
    """A plan with a good chance of being accepted: (L, M, ranges, pilots)."""
    l, a, b = spans(rng)
    ranges = outside(a, b)
    for _ in range(rng.choice([0, 0, 1, 2, 4, 8])):
        k = free(rng, l, a, b)
        ranges.append((k, min(k + rng.choice([0, 0, 0, 1, 2, 3]), 4095)))
    if rng.random() < 0.3:
        k = free(rng, l, a, b)
        ranges.append((k, min(k + rng.choice([19, 19, 20, 30, 60]), 4095)))
    pilots = []
    count = rng.choice([0, 0, 1, 2, 5])
    if b - a > 3700:
        count = rng.choice([38, 39, 40, 41, 119, 120])
    while len(pilots) < count:
        k = rng.randint(a, b)
        if rng.random() < 0.002 or not (k in pilots or l <= k <= l + 7
                                        or k in model.predefined(l)
                                        or any(x <= k <= y for x, y in ranges)):
            pilots.append(k)
    return l, rng.choice([1, 2, 3, 4, 16, 31, 32]), ranges, pilots


def shuffled(rng, l, m, ranges, pilots):
    """The plan with ranges and pilots in any order, and often with records
    off the chain between them."""
    items = entries(l, m, ranges, pilots)
    rest = items[1:]
    rng.shuffle(rest)
    items = [items[0]] + rest
    total = len(items)
    if rng.random() < 0.5:
        total += rng.choice([1, 2, 5, 40, 512 - len(items) if len(items) < 512 else 0])
    total = min(total, 512)
    places = [0] + sorted(rng.sample(range(1, total), len(items) - 1))
    filler = [rng.choice([plans.RUBBISH, bytes(8), record(3, 0, rng.randint(0, 5000), 0),
                          record(2, rng.randint(0, 600), rng.randint(0, 4095), 4095),
                          rng.randbytes(8)]) for _ in range(total)]
    return plans.spread(items, places, total, filler)


def good(rng):
    return shuffled(rng, *sound(rng))


def length(rng):
    data = good(rng)
    if rng.random() < 0.5:
        return data[:rng.randint(0, len(data))]
    more = rng.choice([1, 7, 8, 4088 - len(data), 4096 - len(data), 4097 - len(data),
                       4104 - len(data), 5000])
    return data + rng.randbytes(max(0, more))


def one_field(rng):
    """A sound plan with one field of one record changed."""
    data = good(rng)
    i = rng.choice([0, 0, 1, 2, rng.randrange(len(data) // 8)])
    i = min(i, len(data) // 8 - 1)
    value = rng.choice([0, 1, 2, i, i + 1, i - 1 if i else 0, len(data) // 8,
                        len(data) // 8 - 1, 203, 204, 3885, 3886, 32, 33, 4095, 4096,
                        32768, 65535, rng.randint(0, 65535), rng.randint(0, 4095)])
    change = rng.choice([plans.kind, plans.byte1, plans.next_index, plans.next_index,
                         plans.first, plans.second, plans.first, plans.second])
    if change in (plans.kind, plans.byte1):
        value = rng.choice([0, 1, 2, 3, 4, 255])
    return change(data, i, value)


def flipped(rng):
    data = bytearray(rng.choice([plans.PLAN_A, plans.LARGEST, good(rng), good(rng)]))
    for _ in range(rng.choice([1, 1, 1, 2, 3, 8])):
        at = rng.randrange(min(len(data), rng.choice([24, 64, len(data)])))
        data[at] = rng.choice([data[at] ^ 1 << rng.randrange(8), rng.randrange(256)])
    return bytes(data)


def plausible(rng):
    """Records by chance, most of them of a sound kind."""
    total = rng.choice([1, 2, 3, 5, 10, 50, 512])
    out = b''
    for i in range(total):
        kind = 1 if i == 0 else rng.choice([2, 2, 2, 3])
        if rng.random() < 0.02:
            kind = rng.randrange(256)
        following = i + 1 if i + 1 < total else 0
        if rng.random() < 0.1:
            following = rng.choice([0, i, i + 2, total, rng.randint(0, total + 3)])
        a, b = rng.randint(0, 4095), rng.randint(0, 4095)
        if kind == 1:
            a, b = rng.randint(200, 3890), rng.randint(0, 34)
        elif kind == 3:
            b = 0 if rng.random() < 0.95 else b
        elif rng.random() < 0.97:
            a, b = min(a, b), max(a, b)
        out += record(kind, following, a, b, byte1=1 if rng.random() < 0.01 else 0)
    return out


def noise(rng):
    return rng.randbytes(rng.choice([0, 1, 7, 8, 9, 16, 24, 800, 4096, 4097]))


def many_pilots(rng):
    l, a, b = 2000, 148, 3948
    taken = set(range(l, l + 8)) | set(model.predefined(l))
    pilots = rng.sample([k for k in range(a, b + 1) if k not in taken],
                        rng.choice([39, 40, 118, 119, 120, 121, 122, 140]))
    if rng.random() < 0.3:
        pilots[rng.randrange(len(pilots))] = rng.choice([l, l + 7, l - 15, l + 22, 147, 3949,
                                                         4096, pilots[0]])
    return shuffled(rng, l, rng.randint(1, 32), outside(a, b), pilots)


def many_ranges(rng):
    """Up to 511 ranges that overlap and together leave one stretch or more."""
    l, a, b = spans(rng)
    ranges = []
    for low, high in outside(a, b):
        at = low
        size = max(1, (high - low + 1) // rng.choice([1, 3, 20, 200]))
        while at <= high and len(ranges) < 500:
            ranges.append((max(low, at - rng.randint(0, 30)), min(high, at + size)))
            at += size
        ranges.append((min(at, high), high))
    for _ in range(rng.choice([0, 0, 3, 30])):
        k = free(rng, l, a, b)
        ranges.append((k, k))
    return shuffled(rng, l, 4, ranges[:511], [])


# Plans aimed at one ground each, on both sides of its limit.

def near_6(rng):
    l, a, b = spans(rng)
    a, b = rng.choice([(147, b), (148, b), (a, 3949), (a, 3948), (a, b)])
    ranges = outside(a, b)
    if rng.random() < 0.4:
        k = rng.choice([0, 1, 146, 147, 3949, 4094, 4095, rng.randint(0, 147)])
        ranges = [(x, y) for low, high in ranges
                  for x, y in ((low, min(high, k - 1)), (max(low, k + 1), high)) if x <= y]
    return plan(l, 4, ranges)


def near_7(rng):
    l, m, ranges, pilots = sound(rng)
    k = rng.choice([l - 57, l - 56, l - 55, l, l + 7, l + 62, l + 63, l + 64,
                    rng.randint(l - 60, l + 66)])
    return shuffled(rng, l, m, ranges + singles(k), pilots)


def near_8(rng):
    l, m, ranges, pilots = sound(rng)
    k = rng.choice([l - 1, l, l + 7, l + 8, ranges[0][1], ranges[0][1] + 1,
                    ranges[1][0] - 1, ranges[1][0], 0, 4095, 4096]
                   + model.predefined(l) + [p + 1 for p in model.predefined(l)]
                   + pilots[:4] * 3)
    return shuffled(rng, l, m, ranges, pilots[:110] + [k])


def two_or_three_bands(rng, widths, gaps):
    """A band of width 440 or so, and one or two others above it."""
    b = 1239 + rng.choice([0, 0, 0, 0, 1, 200])
    ranges = [(0, 799)]
    found = [(800, b)]
    for _ in range(rng.choice([1, 1, 2])):
        a = b + 1 + rng.choice(gaps)
        ranges.append((b + 1, a - 1))
        b = a + rng.choice(widths) - 1
        found.append((a, b))
    return ranges + [(b + 1, 4095)], found


def near_9(rng):
    ranges, _ = two_or_three_bands(rng, [1, 2, 38, 39, 39, 40, 40, 41, 100], [19, 20, 20, 21, 40])
    return plan(972, 4, ranges)


def near_10(rng):
    a = rng.choice([800, 700, 916])
    b = a + rng.choice([438, 439, 439, 440, 441]) - 1
    ranges = outside(a, b)
    if rng.random() < 0.5:
        top = b + 20 + rng.choice([438, 439, 440])
        ranges = [(0, a - 1), (b + 1, b + 20), (top + 1, 4095)]
    if rng.random() < 0.3:
        k = rng.randint(a + 1, b - 1)
        ranges.append((k, k + rng.choice([18, 19, 20])))
    return plan(972, 4, ranges)


def near_11(rng):
    # 4 x gap = 441 + width is equality
    gap = rng.randint(121, 300)
    width = max(1, 4 * gap - 441 + rng.choice([-2, -1, -1, 0, 0, 1, 5]))
    ranges = [(0, 799), (1241, 1240 + gap), (1241 + gap + width, 4095)]
    for _ in range(rng.choice([0, 0, 1, 2])):
        ranges += singles(rng.randint(1040, 1239))
    return plan(972, 4, ranges)


def near_12(rng):
    ranges, found = two_or_three_bands(rng, [40, 59, 60, 79, 80, 99, 100, 119, 120, 140],
                                       [20, 25])
    for a, b in found[1:]:
        count = (b - a + 1) // 20 + rng.choice([-1, 0, 0, 1])
        ranges += singles(*rng.sample(range(a + 1, b), max(0, count)))
    return plan(972, 4, ranges)


def clustered(rng, size, count):
    """Exclusions of which the first and the last are about `size` apart."""
    at = rng.choice([1001, 1002, 1320 - size, rng.randint(1001, 1300), rng.randint(1600, 1850),
                     1999 - size, 2000 - size, 1998 - size])
    last = at + size + rng.choice([-2, -1, 0, 0, 1])
    inner = rng.sample(range(at + 1, last), count - 2)
    return [k for k in [at, last] + inner if 1001 <= k <= 1999 and not 1444 <= k <= 1563]


def near_13(rng):
    ranges = outside(1000, 2000)
    for _ in range(rng.choice([1, 1, 2])):
        ranges += singles(*clustered(rng, 119, rng.choice([6, 7, 7, 8])))
    if rng.random() < 0.3:
        ranges += [(1300, 1319)]
    return plan(1500, 1, ranges)


def near_14(rng):
    ranges = outside(1000, 2000)
    for _ in range(rng.choice([1, 1, 2])):
        ranges += singles(*clustered(rng, 19, rng.choice([4, 5, 5, 6])))
    if rng.random() < 0.3:
        ranges += [(1300, 1319)]
    return plan(1500, 1, ranges)


def near_15(rng):
    off = rng.choice([0, 10, 20])
    count = 40 - off + rng.choice([-2, -1, 0, 0, 1])
    ranges = outside(148 + off, 3948)
    alone = rng.randint(0, count)
    ranges += singles(*range(200, 200 + 25 * alone, 25))
    pilots = rng.sample(range(2100, 3900), count - alone)
    return shuffled(rng, 2000, 32, ranges, pilots)


WEIGHTS = (
    (good, 10), (length, 6), (one_field, 12), (flipped, 8), (plausible, 8), (noise, 2),
    (many_pilots, 10), (many_ranges, 4), (near_6, 5), (near_7, 5), (near_8, 6),
    (near_9, 6), (near_10, 6), (near_11, 7), (near_12, 7), (near_13, 8), (near_14, 8),
    (near_15, 8))


def inputs(count, seed):
    """(where from, bytes) of every plan to be compared."""
    yield 'nothing', b''
    for size in (4096, 4097, 1000000):
        yield '%d zeros' % size, bytes(size)
        yield '%d ones' % size, b'\1' * size
    yield 'plan A and a million zeros', plans.PLAN_A + bytes(1000000)
    for name, data, _ in plans.all_cases():
        yield 'case ' + name, data
    rng = random.Random(seed)
    makers = [maker for maker, weight in WEIGHTS for _ in range(weight)]
    for _ in range(count):
        maker = rng.choice(makers)
        yield maker.__name__, maker(rng)


def some_range(rng, data):
    """A range beside one of the plan, the PLC or a limit, or anywhere."""
    whole = len(data) // 8 * 8
    words = [int.from_bytes(data[i:i + 2], 'big') for i in range(0, whole, 2)] or [0] * 4
    first = rng.choice((rng.choice(words[2::4]) - 1, rng.choice(words[3::4]) + 1, words[2] - 57,
                        words[2] + 63, 0, 147, 3949, rng.randrange(4096), rng.randrange(4096)))
    first = min(max(first, 0), RECORD_MAX)
    return first, first + rng.choice((0, 0, 0, 1, 3, 4, 18, 19, 40, 400))


def trials(count, seed):
    """(where from, bytes, first, last) of every plan and range to be compared."""
    rng = random.Random(seed)
    for source, data in inputs(count, seed):
        first, last = some_range(rng, data[:4104])
        yield source, data, first, min(last, RECORD_MAX)


def some_subcarrier(rng, data):
    """A subcarrier at or beside an end of a range, a pilot, the PLC or a distance, or anywhere."""
    whole = len(data) // 8 * 8
    words = [int.from_bytes(data[i:i + 2], 'big') for i in range(0, whole, 2)] or [0] * 4
    l = words[2]
    k = rng.choice((rng.choice(words[2::4]), rng.choice(words[3::4]), l + rng.randrange(-60, 70),
                    l - rng.choice((15, 24, 35, 47)), l + 7 + rng.choice((15, 24, 35, 47)),
                    rng.randrange(4100), rng.randrange(4096)))
    return max(k + rng.choice((0, 0, 0, 0, -1, 1)), 0)


def questions(count, seed):
    """(where from, bytes, subcarrier, phase) of every plan and subcarrier to be compared, at a phase by chance, at that
    of the pattern, and past the last."""
    rng = random.Random(seed)
    for source, data in inputs(count, seed):
        k = some_subcarrier(rng, data[:4104])
        l = int.from_bytes(data[4:6], 'big')
        yield source, data, k, rng.choice((rng.randrange(128), (k - l - 8) % 128, (k - l - 8) % 128, rng.randrange(131)))


# What a program of an option is given, and the line that the model has for it.
GIVEN = {None: (inputs, model.line), '--ranges': (trials, model.trial_line), '--subcarriers': (questions, model.why_line)}


def answer(program, data, *words):
    """What the program prints, and its status (negative if it was ended by a
    signal or did not end)."""
    try:
        run = subprocess.run([program, *map(str, words)], input=data, stdout=subprocess.PIPE,
                             timeout=TIMEOUT)
    except subprocess.TimeoutExpired:
        return b'', -1
    return run.stdout, run.returncode


def main():
    given = [word for word in sys.argv[1:] if word not in GIVEN]
    option = next((word for word in sys.argv[1:] if word in GIVEN), None)
    if not 1 <= len(given) <= 3:
        sys.exit(__doc__)
    program = given[0]
    if Path(program).exists():
        program = str(Path(program).resolve())
    count = int(given[1]) if len(given) > 1 else 3000
    seed = int(given[2]) if len(given) > 2 else 1
    counts, compared, differences = Counter(), 0, 0
    made, line_of = GIVEN[option]
    for source, data, *words in made(count, seed):
        want = line_of(data, *words)
        counts[want.split()[1] if want.startswith('refused') else want.split()[0]] += 1
        printed, status = answer(program, data, *words)
        compared += 1
        if printed != (want + '\n').encode() or status < 0:
            differences += 1
            if differences <= SHOWN:
                print('differs (%s, %d bytes%s): model %r, program %r, status %d\n  %s'
                      % (source, len(data), ', words %d and %d' % tuple(words) if words else '', want,
                         printed[:80], status, data[:4096].hex()))
    for key in sorted(counts, key=lambda key: (key.isdigit(), int(key) if key.isdigit() else 0, key)):
        print('  %-10s %5d' % (key, counts[key]))
    print('%d compared, %d differences' % (compared, differences))
    sys.exit(1 if differences else 0)


if __name__ == '__main__':
    main()
