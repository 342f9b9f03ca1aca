#!/usr/bin/env python3
"""A second model of the points for the modulator, written from source document
000 and request 04 alone: whole-number points, the way back, the numbers under
the root, scaled points, what stands on the line, a modulator symbol filled as
docs/MODULATOR.md says.  Like the other models it is kept plain: every rule is a
small method that can be held against the papers, and that a test can bend.
Numbers in single precision are their 32 bits.

    python3 tests/points.py             writes crates/pointcases/stdout and
                                        crates/modulatecases/stdin and stdout
    python3 tests/points.py --check     holds the model to what the papers say of
                                        every load and compares those files, exits
                                        1 on a difference
    python3 tests/points.py --mutants   bends the model in many ways, each of which
                                        must change a line of each program that
                                        shows it; exits 1 if one does not

pointcases reads nothing.  It prints for each load 0 to 16, 262, 65542 and
4294967295 the load and four checksums, mix(sum, v) = (sum * 48271 + v) %
2147483647, a refusal being its number and place:

- from 0, of the points of the values 0 to 16400, 65536 and 4294967295: of each
  coordinate 1 if it is below 0, else 0, and its absolute value
- from the number under the root, or the checksum of its refusal, of the scaled
  points of the same values
- from 0, of the values of the points (x, y), x the slower, each -130 to 130,
  -2147483648 and 2147483647
- from 0, of what stands on the line for the cells 32766 to 32775, 65535, 0 and 1,
  each with plus and with minus: 1 silent, 2 open, 3 and a scaled point, 4 and a
  pilot's amplitude

stdin of modulatecases holds, for each case, eleven numbers of four bytes, high
byte first: the seed of the generator; how many cells, loads, sign bytes and
numbers are lent; two changes, each a subcarrier, its cell and its load.  From the
seed x comes for each subcarrier the next x = x * 48271 % 2147483647 and
r = x % 16384.  Its load is the one at r % 12 of the twelve listed; its sign byte
by r // 108 % 10 one of 0, 1, 2, 4, 8, 16, 32, 64, 128 and 255; its cell by
r // 12 % 9 the value 0, the value 1, the last value, the value of the lowest bits
of r, or one of the five marks.
There are 4,097 of each, and 8,194 numbers, all 0.75 before the first case; each
case finds them as the last one left them.  A line has the number, place and
subcarrier of the refusal, or 0 0 0, and the checksum of all 8,194 numbers.
"""

import re
import struct
import sys
from fractions import Fraction
from functools import lru_cache

sys.dont_write_bytecode = True

import stored
from stored import PRIME, mix, mix_cells

SCATTERED, FILLER, EXCLUDED, CONTINUOUS, PLC = MARKS = range(0x8000, 0x8005)
SUBCARRIERS = 4096


def number(bits):
    """The number in single precision of 32 bits, exactly."""
    return Fraction(struct.unpack('>f', struct.pack('>I', bits))[0])


def bits_of(x):
    """The 32 bits of the nearest number in single precision, ties to even, of a
    number that double precision has exactly."""
    assert Fraction(float(x)) == x
    return int.from_bytes(struct.pack('>f', float(x)), 'big')


@lru_cache(maxsize=None)
def nearest(d):
    """The bits of the number in single precision nearest to 1 over the root of d,
    by exact comparison."""
    bits = bits_of(Fraction(struct.unpack('>f', struct.pack('>f', d ** -0.5))[0]))
    while d * ((number(bits) + number(bits + 1)) / 2) ** 2 < 1:
        bits += 1
    while d * ((number(bits) + number(bits - 1)) / 2) ** 2 > 1:
        bits -= 1
    return bits


def sign(a):
    return 1 if a >= 0 else -1


# --- the model -------------------------------------------------------------

class Points:
    loads = (1, 2, 4, *range(6, 15))
    # under the root of the factors, Table XX-1, for 1 to 14 bits
    roots = (1, 2, 5, 10, 20, 42, 82, 170, 330, 682, 1322, 2730, 5290, 10922)
    amplitude = 2

    def __init__(self):
        self.constellations = {}
        self.coordinates = {}

    # --- whole-number points -----------------------------------------------

    def gray(self, m, x):
        """1.2.1.  The inner Gray value takes the bits above x0 (request 04)."""
        if m == 1:
            return 1 - 2 * x
        return (1 - 2 * (x % 2)) * (2 ** (m - 1) + self.gray(m - 1, x // 2))

    def square(self, n, v):
        """1.1.3, 2n bits: first coordinate of the lower half, second of the upper."""
        return self.gray(n, v % 2 ** n), self.gray(n, v // 2 ** n)

    def rectangle(self, n, v):
        """1.1.4, 2n + 1 bits: first coordinate of the upper n + 1, second of the lower n."""
        return self.gray(n + 1, v // 2 ** n), self.gray(n, v % 2 ** n)

    def eight(self, i, q):
        """1.1.4.1, three bits: no load of ours, but one of the table's fourteen."""
        return (i + 1, q) if i < 3 else (3 - i, sign(q) * (abs(q) + 2))

    def cross(self, s, i, q):
        """1.1.3.1, 2n + 1 bits from 5 on, s = 2^(n-1)."""
        if abs(i) < 3 * s:
            return i, q
        if abs(q) > s:
            return sign(i) * (abs(i) - 2 * s), sign(q) * (4 * s - abs(q))
        return sign(i) * (4 * s - abs(i)), sign(q) * (abs(q) + 2 * s)

    def point(self, m, v):
        n = m // 2
        if m == 1:                              # 1.1.2
            return self.gray(1, v), 0
        if m % 2 == 0:
            return self.square(n, v)
        if m == 3:
            return self.eight(*self.rectangle(n, v))
        return self.cross(2 ** (n - 1), *self.rectangle(n, v))

    def constellation(self, m):
        """The points of all values of m bits, and the value of each point."""
        if m not in self.constellations:
            points = [self.point(m, v) for v in range(2 ** m)]
            self.constellations[m] = points, {p: v for v, p in enumerate(points)}
        return self.constellations[m]

    # --- scaled ------------------------------------------------------------

    def factor(self, m):
        return nearest(self.roots[m - 1])

    def product(self, c, factor):
        """A whole coordinate times a factor, rounded once."""
        return bits_of(c * number(factor))

    def scaled(self, m, point):
        def coordinate(c):
            if (m, c) not in self.coordinates:
                self.coordinates[m, c] = self.product(c, self.factor(m))
            return self.coordinates[m, c]
        return tuple(map(coordinate, point))

    # --- what the entries answer -------------------------------------------

    def listed(self, load):
        return load in self.loads

    def refusal(self, load, value):
        """22, then 23."""
        if not self.listed(load):
            return 'refused', 22, load
        if value >= 2 ** load:
            return 'refused', 23, value
        return None

    def point_of(self, load, value):
        return self.refusal(load, value) or ('point', *self.constellation(load)[0][value])

    def value_of(self, load, x, y):
        """22, then 24."""
        if not self.listed(load):
            return 'refused', 22, load
        value = self.constellation(load)[1].get((x, y))
        return ('refused', 24, 0) if value is None else ('value', value)

    def root_of(self, load):
        return ('root', self.roots[load - 1]) if self.listed(load) else ('refused', 22, load)

    def scaled_of(self, load, value):
        answer = self.point_of(load, value)
        return ('point', *self.scaled(load, answer[1:])) if answer[0] == 'point' else answer

    # --- on the line -------------------------------------------------------

    def mark_line(self, mark, minus):
        if mark in (FILLER, EXCLUDED):
            return ('silent',)
        if mark == PLC:
            return ('open',)
        return 'pilot', bits_of(-self.amplitude if minus else self.amplitude)

    def on_line(self, cell, load, minus):
        """22 is tried of every cell, 23 of those that are no mark."""
        if not self.listed(load):
            return 'refused', 22, load
        return self.mark_line(cell, minus) if cell in MARKS else self.scaled_of(load, cell)

    # --- a modulator symbol ------------------------------------------------

    def is_minus(self, byte):
        return byte != 0

    def fits(self, symbol, loads, minus, numbers):
        return (len(symbol) == len(loads) == len(minus) == SUBCARRIERS
                and len(numbers) == 2 * SUBCARRIERS)

    def written(self, numbers, k, line):
        """The two numbers of subcarrier k, first coordinate first."""
        if line[0] == 'silent':
            numbers[2 * k:2 * k + 2] = 0, 0
        elif line[0] == 'point':
            numbers[2 * k:2 * k + 2] = line[1:]
        elif line[0] == 'pilot':
            numbers[2 * k:2 * k + 2] = line[1], 0

    def first_refusal(self, lines):
        """That of the lowest subcarrier, and the subcarrier."""
        return next(((*line, k) for k, line in enumerate(lines) if line[0] == 'refused'), None)

    def modulate(self, symbol, loads, minus, numbers):
        """Fills the numbers, of which a refusal changes none.  17, place 0; then 22 and 23
        of the lowest subcarrier that gives one, with place and subcarrier."""
        if not self.fits(symbol, loads, minus, numbers):
            return 'refused', 17, 0, 0
        lines = [self.on_line(cell, load, self.is_minus(byte))
                 for cell, load, byte in zip(symbol, loads, minus)]
        refusal = self.first_refusal(lines)
        if refusal:
            return refusal
        for k, line in enumerate(lines):
            self.written(numbers, k, line)
        return ('modulated',)


# --- what the papers say ---------------------------------------------------

def near(d, c, bits):
    """y has the sign of c, and d y y differs from c c by at most c c / 2^21."""
    y = number(bits)
    return (y > 0) == (c > 0) and (y < 0) == (c < 0) and 2 ** 21 * abs(d * y * y - c * c) <= c * c


def one_bit(a, b):
    return bin(a ^ b).count('1') == 1


def furthest(m):
    """The end of a coordinate's range."""
    n = m // 2
    return 2 ** n - 1 if m % 2 == 0 else max(3 * 2 ** (n - 1) - 1, 1) if m != 3 else 3


def check_gray(model):
    for m in range(1, 9):
        top = 2 ** m - 1
        bits = {model.gray(m, x): x for x in range(2 ** m)}
        assert sorted(bits) == list(range(-top, top + 1, 2)), m         # each odd number once
        assert bits[top] == 0 and bits[-top] == 1, m
        assert all(one_bit(bits[c], bits[c + 2]) for c in range(-top, top, 2)), m


def check_constellation(model, m):
    points, values = model.constellation(m)
    assert len(values) == 2 ** m, m                                     # one value a point
    assert sum(x * x + y * y for x, y in points) == model.roots[m - 1] * 2 ** m, m
    if m != 3:
        top = furthest(m)
        for coordinates in list(zip(*points))[:2 if m > 1 else 1]:
            assert min(coordinates) == -top and max(coordinates) == top, m
            assert all(c % 2 for c in coordinates), m
        if m % 2 and m > 1:                                             # the square without its corners
            odd, s = range(-top, top + 1, 2), 2 ** (m // 2 - 1)
            assert set(values) == {(x, y) for x in odd for y in odd
                                   if abs(x) < 2 * s or abs(y) < 2 * s}, m
    if m % 2 == 0 or m == 1:
        assert all(one_bit(v, values[q]) for (x, y), v in values.items()
                   for q in ((x + 2, y), (x, y + 2)) if q in values), m


def check_scaled(model, m):
    d = model.roots[m - 1]
    f = number(model.factor(m))
    step = number(model.factor(m) + 1) - f
    assert d * (f - step / 2) ** 2 < 1 < d * (f + step / 2) ** 2, m     # the nearest, above a power of 2 too
    for c in range(-furthest(m), furthest(m) + 1):
        assert near(d, c, *model.scaled(m, (c,))), (m, c)


def check_papers():
    """What document 000 and request 04 say, of every load."""
    model = Points()
    check_gray(model)
    assert model.constellation(1)[0] == [(1, 0), (-1, 0)]
    for m in range(1, 15):
        check_constellation(model, m)
        check_scaled(model, m)
    for load in model.loads:
        points, values = model.constellation(load)
        assert all(model.value_of(load, *p) == ('value', v) for v, p in enumerate(points))
        assert model.point_of(load, 2 ** load) == ('refused', 23, 2 ** load)
        assert model.value_of(load, 0, 0) == ('refused', 24, 0)
        for mark in (SCATTERED, CONTINUOUS):
            assert [number(model.on_line(mark, load, b)[1]) for b in (0, 1)] == [2, -2]
        assert model.on_line(FILLER, load, 0) == ('silent',)
    for load in {*range(300)} - {*model.loads}:
        for answer in (model.point_of(load, 2 ** 20), model.value_of(load, 0, 0),
                       *(model.on_line(cell, load, 0) for cell in (0, *MARKS, 0xFFFF))):
            assert answer == ('refused', 22, load)
    return '%d loads, %d points' % (len(model.loads), sum(2 ** m for m in model.loads))


# --- pointcases ------------------------------------------------------------

ASKED_LOADS = (*range(17), 262, 65542, 4294967295)
ASKED_VALUES = (*range(16401), 65536, 4294967295)
ASKED_COORDINATES = (*range(-130, 131), -2 ** 31, 2 ** 31 - 1)
ASKED_CELLS = (*range(32766, 32776), 65535, 0, 1)


def point_numbers(answer):
    if answer[0] == 'refused':
        return answer[1:]
    return [n for c in answer[1:] for n in (int(c < 0), abs(c))]


def line_numbers(answer):
    kind = ('refused', 'silent', 'open', 'point', 'pilot').index(answer[0])
    return answer[1:] if kind == 0 else (kind, *answer[1:])


def mix_all(total, lists):
    return mix(total, (n for numbers in lists for n in numbers))


def load_line(model, load):
    points = mix_all(0, (point_numbers(model.point_of(load, v)) for v in ASKED_VALUES))
    kind, *root = model.root_of(load)
    scaled = mix_all(root[0] if kind == 'root' else mix(0, root),
                     (model.scaled_of(load, v)[1:] for v in ASKED_VALUES))
    values = mix_all(0, (model.value_of(load, x, y)[1:]
                         for x in ASKED_COORDINATES for y in ASKED_COORDINATES))
    lines = mix_all(0, (line_numbers(model.on_line(cell, load, minus))
                        for cell in ASKED_CELLS for minus in (False, True)))
    return '%d %d %d %d %d' % (load, points, scaled, values, lines)


def point_lines(model, mutant=None):
    """(name, line) of each load.  For a mutant those come first that are likely to change:
    a load that its name has, then 7 and those beside it."""
    def late(load):
        return not re.search(r'load %d\b' % load, mutant), abs(load - 7)
    for load in sorted(ASKED_LOADS, key=late) if mutant else ASKED_LOADS:
        yield 'load %d' % load, attempt(load_line, model, load)


def attempt(line, *given):
    """The line; a bent model may also fail."""
    try:
        return line(*given)
    except (IndexError, ValueError, OverflowError) as error:
        return 'failed: %r' % error


# --- modulatecases ---------------------------------------------------------

ROOM = SUBCARRIERS + 1
NUMBERS = 2 * ROOM
BEFORE = bits_of(Fraction(3, 4))
SIGNS = (0, 1, 2, 4, 8, 16, 32, 64, 128, 255)
FIT = (SUBCARRIERS, SUBCARRIERS, SUBCARRIERS, 2 * SUBCARRIERS)
NO_CHANGE = (4294967295, 0, 0)


@lru_cache(maxsize=None)
def drawn(seed):
    """The cells, loads and sign bytes that come from a seed."""
    symbol, loads, minus = [], [], []
    x = seed
    for _ in range(ROOM):
        x = x * 48271 % PRIME
        r = x % 16384
        load = Points.loads[r % 12]
        kind = r // 12 % 9
        symbol.append((0, 1, 2 ** load - 1, r % 2 ** load, *MARKS)[kind])
        loads.append(load)
        minus.append(SIGNS[r // 108 % 10])
    return symbol, loads, minus


def modulate_cases():
    """(name, seed, the four lengths, the changes, the answer worked out by hand)."""
    cases = []

    def case(name, want='0 0 0', changes=(), lengths=FIT):
        cases.append((name, len(cases) + 1, lengths, changes, want))

    last = SUBCARRIERS - 1
    case('no refusal')
    case('no refusal, the numbers as the last case left them')
    # one refusal
    for k in (0, 1, 2048, last - 1, last):
        case('load 5 at %d' % k, '22 5 %d' % k, [(k, 0, 5)])
        case('the value 64 with load 6 at %d' % k, '23 64 %d' % k, [(k, 64, 6)])
        case('no refusal, after those at %d' % k)
    for load in (0, 3, 15, 16, 128, 255):
        case('load %d' % load, '22 %d 77' % load, [(77, 0, load)])
    for mark in MARKS:
        case('load 0 of the mark %x' % mark, '22 0 1000', [(1000, mark, 0)])
    for load in Points.loads:
        case('a value too high with load %d' % load, '23 %d 3000' % 2 ** load, [(3000, 2 ** load, load)])
    for cell in (0x7FFF, 0x8005, 0xFFFF):
        case('the cell %x' % cell, '23 %d 99' % cell, [(99, cell, 14)])
    # several
    case('22 and a value too high in one', '22 3 5', [(5, 9999, 3)])
    case('23 below 22', '23 16 7', [(7, 16, 4), (8, 0, 0)])
    case('22 below 23', '22 0 7', [(7, 0, 0), (8, 16, 4)])
    case('23 far below 22', '23 4 0', [(0, 4, 2), (last, 0, 5)])
    case('22 far below 23', '22 5 0', [(last, 4, 2), (0, 0, 5)])
    case('22 twice', '22 3 2047', [(2048, 0, 5), (2047, 0, 3)])
    case('23 twice', '23 8192 100', [(100, 8192, 13), (4000, 2, 1)])
    case('a refusal past the last subcarrier', changes=[(SUBCARRIERS, 0, 0)])
    # lengths
    for n, what in enumerate(('cells', 'loads', 'signs', 'numbers')):
        for step in (-1, 1, *((-2, 2) if what == 'numbers' else ())):
            lengths = [size + step * (i == n) for i, size in enumerate(FIT)]
            case('%+d %s' % (step, what), '17 0 0', (), lengths)
        case('no ' + what, '17 0 0', (), [size * (i != n) for i, size in enumerate(FIT)])
    case('a subcarrier more of all', '17 0 0', (), (ROOM, ROOM, ROOM, NUMBERS))
    case('a subcarrier less of all', '17 0 0', (), (last, last, last, 2 * last))
    case('nothing', '17 0 0', (), (0, 0, 0, 0))
    case('a number for each subcarrier', '17 0 0', (), (*FIT[:3], SUBCARRIERS))
    case('17 before 22', '17 0 0', [(0, 0, 5)], (*FIT[:3], NUMBERS))
    case('17 before 23', '17 0 0', [(0, 64, 6)], (*FIT[:2], ROOM, FIT[3]))
    case('no refusal, at the end')
    return cases


def modulate_line(model, seed, lengths, changes, numbers):
    """The line of a case; the numbers are filled."""
    symbol, loads, minus = map(list, drawn(seed))
    for k, cell, load in changes:
        symbol[k], loads[k] = cell, load
    lent = numbers[:lengths[3]]
    kind, *refusal = model.modulate(symbol[:lengths[0]], loads[:lengths[1]], minus[:lengths[2]], lent)
    numbers[:lengths[3]] = lent
    return '%d %d %d %d' % (*(refusal if kind == 'refused' else (0, 0, 0)), mix_cells(0, numbers))


def modulate_lines(model, _=None):
    """(name, line) of each case."""
    model.on_line = lru_cache(maxsize=None)(model.on_line)
    numbers = [BEFORE] * NUMBERS
    for name, seed, lengths, changes, _ in modulate_cases():
        yield name, attempt(modulate_line, model, seed, lengths, changes, numbers)


def modulate_input():
    return b''.join(n.to_bytes(4, 'big')
                    for _, seed, lengths, changes, _ in modulate_cases()
                    for n in (seed, *lengths, *sum([*changes, NO_CHANGE, NO_CHANGE][:2], ())))


def check_drawn():
    """Each seed has each load with each kind of cell, and each pilot with each sign byte."""
    for _, seed, _, _, _ in modulate_cases():
        cells = set(zip(*(part[:SUBCARRIERS] for part in drawn(seed))))
        for load in Points.loads:
            for cell in (0, 1, 2 ** load - 1, *MARKS):
                assert any((cell, load, byte) in cells for byte in SIGNS), (seed, load, cell)
        assert all(any((mark, load, byte) in cells for load in Points.loads)
                   for mark in MARKS for byte in SIGNS), seed


# --- mutants ---------------------------------------------------------------

BOTH = (point_lines, modulate_lines)
EQUIVALENT = {
    'cross: 3s itself stays': 'Both coordinates of the rectangle are odd, and s is even from load 7 on.',
    'cross: s itself is far out': 'Both coordinates of the rectangle are odd, and s is even from load 7 on.',
}


def bent(**changed):
    """A model of which some methods or tables are others."""
    return type('Bent', (Points,), changed)()


def gray_mutants():
    def other(name, gray):
        return 'Gray: ' + name, bent(gray=gray), BOTH
    yield other('the inner value of the bits below', lambda self, m, x: (
        1 - 2 * x if m == 1 else (1 - 2 * (x % 2)) * (2 ** (m - 1) + self.gray(m - 1, x % 2 ** (m - 1)))))
    yield other('the sign of the highest bit', lambda self, m, x: (
        1 - 2 * x if m == 1
        else (1 - 2 * (x >> m - 1)) * (2 ** (m - 1) + self.gray(m - 1, x % 2 ** (m - 1)))))
    yield other('0 makes the lowest', lambda self, m, x: -Points.gray(self, m, x))
    yield other('no Gray bit', lambda self, m, x: 2 ** m - 1 - 2 * x)
    yield other('the inner value subtracted', lambda self, m, x: (
        1 - 2 * x if m == 1 else (1 - 2 * (x % 2)) * (2 ** (m - 1) - self.gray(m - 1, x // 2))))


def swapped(v, i, j):
    """The value with two of its bits exchanged."""
    return v ^ (1 << i | 1 << j) if (v >> i ^ v >> j) & 1 else v


def point_mutants():
    yield 'even: halves exchanged', bent(
        square=lambda self, n, v: Points.square(self, n, v)[::-1]), BOTH
    yield 'even: a bit from the wrong half', bent(
        square=lambda self, n, v: Points.square(self, n, swapped(v, n - 1, n))), BOTH
    yield 'even: both coordinates of the lower half', bent(
        square=lambda self, n, v: (self.gray(n, v % 2 ** n),) * 2), BOTH
    yield 'odd: the first coordinate of the lower bits', bent(
        rectangle=lambda self, n, v: (self.gray(n + 1, v % 2 ** (n + 1)), self.gray(n, v >> n + 1))), BOTH
    yield 'odd: a bit from the wrong part', bent(
        rectangle=lambda self, n, v: Points.rectangle(self, n, swapped(v, n - 1, n))), BOTH
    yield 'odd: coordinates exchanged', bent(
        cross=lambda self, s, i, q: Points.cross(self, s, i, q)[::-1]), BOTH
    for n in range(2):
        yield 'load 1: %s' % ('coordinates exchanged', 'second coordinate as the first')[n], bent(
            point=lambda self, m, v, n=n: Points.point(self, m, v) if m > 1
            else (((0, self.gray(1, v)), (self.gray(1, v),) * 2)[n])), BOTH


def cross_mutants():
    def far(rule):
        """Another rule for what lies far out, of s, the signs and the absolute values."""
        return bent(cross=lambda self, s, i, q: (i, q) if abs(i) < 3 * s
                    else rule(s, sign(i), abs(i), sign(q), abs(q)))
    rules = {
        'not moved': lambda s, t, a, u, b: (t * a, u * b),
        'the first sign turned': lambda s, t, a, u, b:
            (-t * (a - 2 * s), u * (4 * s - b)) if b > s else (-t * (4 * s - a), u * (b + 2 * s)),
        'the second sign turned': lambda s, t, a, u, b:
            (t * (a - 2 * s), -u * (4 * s - b)) if b > s else (t * (4 * s - a), -u * (b + 2 * s)),
        'the signs exchanged': lambda s, t, a, u, b:
            (u * (a - 2 * s), t * (4 * s - b)) if b > s else (u * (4 * s - a), t * (b + 2 * s)),
        'the first sign turned near the axis': lambda s, t, a, u, b:
            (t * (a - 2 * s), u * (4 * s - b)) if b > s else (-t * (4 * s - a), u * (b + 2 * s)),
        'the two rules exchanged': lambda s, t, a, u, b:
            (t * (a - 2 * s), u * (4 * s - b)) if b <= s else (t * (4 * s - a), u * (b + 2 * s)),
        'one rule': lambda s, t, a, u, b: (t * (a - 2 * s), u * (4 * s - b)),
        'the other rule': lambda s, t, a, u, b: (t * (4 * s - a), u * (b + 2 * s)),
        's itself is far out': lambda s, t, a, u, b:
            (t * (a - 2 * s), u * (4 * s - b)) if b >= s else (t * (4 * s - a), u * (b + 2 * s)),
    }
    for name, rule in rules.items():
        yield 'cross: ' + name, far(rule), BOTH
    yield 'cross: 3s itself stays', bent(
        cross=lambda self, s, i, q: (i, q) if abs(i) <= 3 * s else Points.cross(self, s, i, q)), BOTH
    yield 'cross: s twice as large', bent(
        cross=lambda self, s, i, q: Points.cross(self, 2 * s, i, q)), BOTH


def load_mutants():
    for load in (0, 3, 5, 15, 16):
        yield 'load %d taken' % load, bent(
            loads=(*Points.loads, load), roots=(*Points.roots, 21162, 43690),
            point=lambda self, m, v: Points.point(self, m, v) if m else (0, 0)), BOTH
    for load in Points.loads:
        yield 'load %d refused' % load, bent(
            loads=tuple(m for m in Points.loads if m != load)), BOTH
    for bits in (8, 16):
        yield '%d bits of the load' % bits, bent(**{
            name: lambda self, load, *given, name=name, low=1 << bits:
            getattr(Points, name)(self, load % low, *given)
            for name in ('point_of', 'value_of', 'root_of', 'scaled_of')}), (point_lines,)


def ground_mutants():
    def other(name, refusal):
        return name, bent(refusal=refusal), (point_lines,)
    yield other('23 before 22', lambda self, load, value: (
        ('refused', 23, value) if value >= 2 ** min(load, 64) else Points.refusal(self, load, value)))
    yield other('place of 22 the value', lambda self, load, value: (
        ('refused', 22, value) if not self.listed(load) else Points.refusal(self, load, value)))
    yield other('place of 23 the load', lambda self, load, value: (
        Points.refusal(self, load, value) and ('refused', Points.refusal(self, load, value)[1], load)))
    yield other('23 for 22', lambda self, load, value: (
        Points.refusal(self, load, value) and ('refused', 23, Points.refusal(self, load, value)[2])))
    yield 'the last value refused', bent(refusal=lambda self, load, value: (
        ('refused', 23, value) if self.listed(load) and value == 2 ** load - 1
        else Points.refusal(self, load, value))), BOTH
    for bits in (14, 15, 16):
        yield other('%d bits of the value' % bits, lambda self, load, value, low=1 << bits: (
            Points.refusal(self, load, value) if Points.refusal(self, load, value % low) else None))
    yield 'value 2 to the load taken', bent(
        refusal=lambda self, load, value: None if self.listed(load) and value == 2 ** load
        else Points.refusal(self, load, value),
        constellation=lambda self, m: (Points.constellation(self, m)[0] + [(1, 1)],
                                       Points.constellation(self, m)[1])), BOTH


def back_mutants():
    def other(name, value_of):
        return 'way back: ' + name, bent(value_of=value_of), (point_lines,)

    def beside(dx, dy):
        """The value of a neighbour, where there is one."""
        def value_of(self, load, x, y):
            sound = Points.value_of(self, load, x, y)
            neighbour = Points.value_of(self, load, x + dx, y + dy)
            return neighbour if sound[0] == neighbour[0] == 'value' else sound
        return value_of
    for dx, dy in ((2, 0), (-2, 0), (0, 2), (0, -2)):
        yield other('of the neighbour at %d, %d' % (dx, dy), beside(dx, dy))
    yield other('coordinates exchanged', lambda self, load, x, y: Points.value_of(self, load, y, x))
    yield other('the lowest bit 0', lambda self, load, x, y: (
        answer if (answer := Points.value_of(self, load, x, y))[0] == 'refused'
        else ('value', answer[1] // 2 * 2)))
    yield other('an even coordinate as the odd one above', lambda self, load, x, y: (
        Points.value_of(self, load, x | 1, y)))
    yield other('of load 1 whatever the second coordinate', lambda self, load, x, y: (
        Points.value_of(self, load, x, 0 if load == 1 else y)))
    yield other('31 bits of a coordinate', lambda self, load, x, y: (
        Points.value_of(self, load, *(c % 2 ** 31 if c < -2 ** 30 or c > 2 ** 30 else c for c in (x + 1, y + 1)))
        if max(abs(x), abs(y)) > 2 ** 30 else Points.value_of(self, load, x, y)))
    yield other('a corner of the square', lambda self, load, x, y: (
        ('value', 0) if load == 7 and abs(x) == abs(y) == 11 else Points.value_of(self, load, x, y)))
    yield other('place of 24 one', lambda self, load, x, y: (
        Points.value_of(self, load, x, y) if Points.value_of(self, load, x, y)[1] != 24
        or Points.value_of(self, load, x, y)[0] == 'value' else ('refused', 24, 1)))
    yield other('23 for 24', lambda self, load, x, y: (
        ('refused', 23, 0) if Points.value_of(self, load, x, y) == ('refused', 24, 0)
        else Points.value_of(self, load, x, y)))
    yield other('24 before 22', lambda self, load, x, y: (
        ('refused', 24, 0) if x % 2 == 0 else Points.value_of(self, load, x, y)))


def scale_mutants():
    for load in Points.loads:
        for step in (-1, 1):
            yield 'factor of load %d one step %s' % (load, ('down', 'up')[step > 0]), bent(
                factor=lambda self, m, load=load, step=step:
                Points.factor(self, m) + step * (m == load)), BOTH
        yield 'root of load %d one more' % load, bent(
            root_of=lambda self, m, load=load: ('root', Points.roots[m - 1] + 1) if m == load
            else Points.root_of(self, m)), (point_lines,)
    yield 'factor of the load above', bent(
        factor=lambda self, m: Points.factor(self, min(m + 1, 14))), BOTH
    yield 'the product rounded towards 0', bent(
        product=lambda self, c, factor: (lambda bits: bits - (abs(number(bits)) > abs(c * number(factor))))(
            Points.product(self, c, factor))), BOTH
    yield 'minus 0', bent(
        product=lambda self, c, factor: Points.product(self, c, factor) if c else 0x80000000), BOTH
    yield 'the sign lost', bent(
        product=lambda self, c, factor: Points.product(self, abs(c), factor)), BOTH


def line_mutants():
    names = {SCATTERED: 'scattered', FILLER: 'filler', EXCLUDED: 'excluded', CONTINUOUS: 'continuous',
             PLC: 'PLC'}
    kinds = {'silent': ('silent',), 'open': ('open',), 'a pilot': ('pilot', bits_of(2))}
    for mark, name in names.items():
        for kind, line in kinds.items():
            if Points().mark_line(mark, False)[0] != line[0]:
                yield '%s is %s' % (name, kind), bent(
                    mark_line=lambda self, cell, minus, mark=mark, line=line:
                    line if cell == mark else Points.mark_line(self, cell, minus)), BOTH
    yield 'the sign bit turned', bent(
        mark_line=lambda self, cell, minus: Points.mark_line(self, cell, not minus)), BOTH
    yield 'the sign bit not looked at', bent(
        mark_line=lambda self, cell, minus: Points.mark_line(self, cell, False)), BOTH
    yield 'minus for continuous pilots only', bent(
        mark_line=lambda self, cell, minus: Points.mark_line(self, cell, minus and cell == CONTINUOUS)), BOTH
    for amplitude in (1, 4):
        yield 'amplitude %d' % amplitude, bent(amplitude=amplitude), BOTH
    yield '22 not tried of marks', bent(
        on_line=lambda self, cell, load, minus: self.mark_line(cell, minus) if cell in MARKS
        else Points.on_line(self, cell, load, minus)), BOTH
    for cell in (0x7FFF, 0x8005, 0xFFFF):
        yield 'the cell %x a mark' % cell, bent(
            on_line=lambda self, c, load, minus, cell=cell: ('silent',)
            if c == cell and self.listed(load) else Points.on_line(self, c, load, minus)), BOTH
    for mark, name in names.items():
        yield 'the mark of %s unmarked' % name, bent(
            on_line=lambda self, c, load, minus, mark=mark: Points.scaled_of(self, load, c)
            if c == mark else Points.on_line(self, c, load, minus)), BOTH


def symbol_mutants():
    def other(name, **changed):
        return 'symbol: ' + name, bent(**changed), (modulate_lines,)

    def writing(change):
        """Numbers written otherwise: `change` is given the line and what stood there, and
        answers the two numbers, or None for the sound ones."""
        def written(self, numbers, k, line):
            before = numbers[2 * k:2 * k + 2]
            Points.written(self, numbers, k, line)
            numbers[2 * k:2 * k + 2] = change(line, before) or numbers[2 * k:2 * k + 2]
        return written
    yield other('open written', written=writing(lambda line, old: line[0] == 'open' and [0, 0]))
    yield other('second number of open written', written=writing(
        lambda line, old: line[0] == 'open' and [old[0], 0]))
    yield other('silent not written', written=writing(lambda line, old: line[0] == 'silent' and old))
    yield other('second number of silent not written', written=writing(
        lambda line, old: line[0] == 'silent' and [0, old[1]]))
    yield other("pilot's second number not written", written=writing(
        lambda line, old: line[0] == 'pilot' and [line[1], old[1]]))
    yield other("pilot's second number as its first", written=writing(
        lambda line, old: line[0] == 'pilot' and [line[1], line[1]]))
    yield other("pilot's numbers exchanged", written=writing(
        lambda line, old: line[0] == 'pilot' and [0, line[1]]))
    yield other('coordinates exchanged', written=writing(
        lambda line, old: line[0] == 'point' and [line[2], line[1]]))
    for k in (0, 1, 2047, 4095):
        yield other('subcarrier %d not written' % k, written=lambda self, numbers, n, line, k=k: (
            Points.written(self, numbers, n, line) if n != k else None))
    bytes_ = {'only 1 is minus': lambda b: b == 1, 'only 255 is minus': lambda b: b == 255,
              '0 is minus': lambda b: b == 0,
              **{'bit %d is the sign' % n: lambda b, n=n: b >> n & 1 for n in range(8)},
              **{'bit %d not looked at' % n: lambda b, n=n: b & ~(1 << n) for n in range(8)}}
    for name, test in bytes_.items():
        yield other('sign byte: ' + name, is_minus=lambda self, b, test=test: test(b))

    def firsts(choose):
        """Another refusal of all, each with its subcarrier."""
        return lambda self, lines: choose([(*line, k) for k, line in enumerate(lines) if line[0] == 'refused'])
    yield other('the highest refusal', first_refusal=firsts(lambda all_: all_[-1] if all_ else None))
    for ground in (22, 23):
        yield other('%d of any subcarrier first' % ground, first_refusal=firsts(
            lambda all_, ground=ground: min(all_, key=lambda r: (r[1] != ground, r[3])) if all_ else None))
    yield other('the lowest place first', first_refusal=firsts(
        lambda all_: min(all_, key=lambda r: r[2]) if all_ else None))
    for k in (0, 4095):
        yield other('refusal of subcarrier %d not seen' % k, first_refusal=firsts(
            lambda all_, k=k: next((r for r in all_ if r[3] != k), None)))
    yield other('subcarrier one more', first_refusal=firsts(
        lambda all_: (*all_[0][:3], all_[0][3] + 1) if all_ else None))
    yield other('place the subcarrier', first_refusal=firsts(
        lambda all_: (*all_[0][:2], all_[0][3], all_[0][2]) if all_ else None))

    def too_early(self, symbol, loads, minus, numbers):
        answer = Points.modulate(self, symbol, loads, minus, numbers)
        for k in range(answer[3] if answer[0] == 'refused' else 0):
            self.written(numbers, k, self.on_line(symbol[k], loads[k], self.is_minus(minus[k])))
        return answer
    yield other('written up to the refusal', modulate=too_early)
    yield other('17 after 22 and 23', modulate=lambda self, symbol, loads, minus, numbers: (
        self.first_refusal([self.on_line(*at, False) for at in zip(symbol, loads)])
        or Points.modulate(self, symbol, loads, minus, numbers)))
    yield other('place of 17 one', modulate=lambda self, *lent: (
        Points.modulate(self, *lent) if self.fits(*lent) else ('refused', 17, 1, 0)))
    for n, what in enumerate(('cells', 'loads', 'signs', 'numbers')):
        for wrong in ('few', 'many'):
            yield other('too %s %s' % (wrong, what), fits=lambda self, *lent, n=n, wrong=wrong: (
                all(len(part) == size for i, (part, size) in enumerate(zip(lent, FIT)) if i != n)
                and (len(lent[n]) <= FIT[n] if wrong == 'few' else len(lent[n]) >= FIT[n])))


def all_mutants():
    for made in (gray_mutants, point_mutants, cross_mutants, load_mutants, ground_mutants, back_mutants,
                 scale_mutants, line_mutants, symbol_mutants):
        for name, model, programs in made():
            for lines in programs:
                yield name, model, lines


def try_mutants():
    sound = {lines: dict(lines(Points())) for lines in BOTH}

    def change_of(name, bent_and_lines):
        model, lines = bent_and_lines
        return next((where for where, got in lines(model, name) if got != sound[lines][where]), None)

    def named(name, lines):
        return '%s, %s' % (name, {point_lines: 'pointcases', modulate_lines: 'modulatecases'}[lines])
    return stored.try_mutants(
        ((named(name, lines), (model, lines)) for name, model, lines in all_mutants()), change_of,
        {named(name, lines): why for name, why in EQUIVALENT.items() for lines in BOTH},
        sum(map(len, sound.values())))


# --- the run ---------------------------------------------------------------

def make():
    """The stored files, and how many cases there are."""
    points = list(point_lines(Points()))
    symbols = list(modulate_lines(Points()))
    assert len({name for name, _ in symbols}) == len(symbols), 'two cases of one name'
    for (name, line), (*_, want) in zip(symbols, modulate_cases()):
        assert line.startswith(want + ' '), '%s: by hand %s, model %s' % (name, want, line)

    def text(lines):
        return ''.join(line + '\n' for _, line in lines).encode()
    return {'crates/pointcases/stdout': text(points), 'crates/modulatecases/stdin': modulate_input(),
            'crates/modulatecases/stdout': text(symbols)}, len(points), len(symbols)


def main():
    said = check_papers()
    check_drawn()
    files, loads, symbols = make()
    print('points.py: %s as the papers say; %d loads asked, %d modulator symbols' % (said, loads, symbols))
    wrong = stored.keep(files)
    if '--mutants' in sys.argv[1:]:
        wrong += try_mutants()
    sys.exit(1 if wrong else 0)


if __name__ == '__main__':
    main()
