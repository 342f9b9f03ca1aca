#!/usr/bin/env python3
"""Makes the test data of lampcases and lampcheck from the second model of the lamp.

    python3 tests/lamps.py              writes crates/lampcases/stdin and stdout, and what
                                        crates/lampcheck is run on: args, data/, stdin, stdout
    python3 tests/lamps.py --check      compares them, exits 1 on a difference
    python3 tests/lamps.py --mutants    bends the model in many ways, each of which must
                                        change a line of lampcases; exits 1 if one does not

stdin of lampcases holds cases one after the other.  Every number is four bytes, high byte first:

    the plan's length P, the record's length R, the cells of the symbol C, from 0 to 4,097, the
    number of symbols T, the fill F, the number of changes N; then the plan, the record, and N
    changes of three numbers each, t, k and v

What the program does with a case:

- The symbol has C cells, all F.  For t from 0 to T - 1: each change with this t, in the order
  given, sets cell k to v, if k is below C, and the cell stays so until it is changed again.  Then
  the lamp is given the C cells and the record as it left it.
- `sum` is the checksum, 1 at the start of a case: mix(sum, x) = (sum * 48271 + x) % 2147483647.
  It takes in first what `pilots` answers of the plan, 1 and the count or 2, number and place, and
  its 128 numbers; then after each step the answer of the lamp likewise, the 128 lights, and the R
  bytes of the record as the lamp left it.
- The case's line tells of the last step: `lit L of n sum`, L being how many of the lights are 1,
  or `refused number place sum`.

lampcheck is run on symbols as an emitter sends them, some of whose cells are then others.
"""

import random
import sys
from functools import lru_cache
from itertools import chain
from typing import NamedTuple, Optional

sys.dont_write_bytecode = True

import lamp
import stored
from emitter import Emitter
from lamp import EIGHT, FIFTEEN, MARK, MOST, NEARLY, PLAN_128, PLAN_15, Lamp, LampLimits
from make_plans import all_plans
from mutants import off_chain
from plans import LARGEST, PLAN_A, entries, full, near_a, next_index, outside, pilots_of_full, plan, record, spread
from stored import mix_cells

MOST_BYTES = 300000
MOST_CASES = 250
MOST_SYMBOLS = 400
MOST_CHANGES = 2048
MOST_RECORD = 256
CELLS = 4096
LENGTHS = (1, 2, 127, 128, 129, 300)


class Case(NamedTuple):
    name: str
    plan: bytes
    record: list
    cells: int
    symbols: int
    fill: int
    changes: list               # of (t, k, v)
    want: Optional[str]         # the line without its checksum, worked out by hand, or None


def run(name, data, want, symbols=1, changes=(), record=None, cells=CELLS, fill=MARK):
    """Without a record it is fresh, and fits the plan; that of a refused step has nine counts."""
    if record is None:
        n = int(want.split()[-1]) if want.startswith('lit') else 8
        record = [0] * (n + 1)
    return Case(name, data, list(record), cells, symbols, fill, list(changes), want)


def lit(l, n=8):
    return 'lit %d of %d' % (l, n)


def lost(k, t, until=None, cell=0):
    """The mark at k is lost at symbol t; with a second number it is back at that one."""
    return [(t, k, cell)] + ([] if until is None else [(until, k, MARK)])


# --- runs under Plan A -------------------------------------------------------

def lengths():
    """Runs of several lengths: all held, none held, one mark lost at the first, at the last or in
    the middle, and held again from the next symbol on."""
    cases = []
    for count in LENGTHS:
        name = 'run of %d, ' % count
        cases.append(run(name + 'all held', PLAN_A, lit(8), count))
        cases.append(run(name + 'lost at the last', PLAN_A, lit(7), count, lost(1026, count - 1)))
    for count, l in ((1, 7), (2, 7), (127, 7), (128, 7), (129, 8), (300, 8)):
        cases.append(run('run of %d, lost at the first' % count, PLAN_A, lit(l), count, lost(925, 0, 1)))
    for count, at, l in ((3, 1, 7), (127, 63, 7), (128, 64, 7), (129, 64, 7), (300, 150, 8)):
        cases.append(run('run of %d, lost in the middle' % count, PLAN_A, lit(l), count, lost(957, at, at + 1)))
    for count in (1, 2, 129):
        cases.append(run('run of %d, none held' % count, PLAN_A, lit(0), count, fill=0))
    return cases


def lit_again():
    """A pilot is lit again with the 128th symbol after the one that lost its mark."""
    cases = []
    for k, at in ((994, 100), (937, 1), (948, 127), (925, 128)):
        for more, l in ((127, 7), (128, 8)):
            cases.append(run('%d lost at %d, %d more' % (k, at, more), PLAN_A, lit(l), at + 1 + more,
                             lost(k, at, at + 1)))
    for more, l in ((127, 7), (128, 8)):
        cases.append(run('lost at 0 and 127, %d more' % more, PLAN_A, lit(l), 128 + more,
                         lost(925, 0, 1) + lost(925, 127, 128)))
        cases.append(run('lost at 10 to 12, %d more' % more, PLAN_A, lit(l), 13 + more, lost(925, 10, 13)))
        cases.append(run('all lost at 50, %d more' % more, PLAN_A, lit(8 * (l - 7)), 51 + more,
                         chain(*(lost(k, 50, 51) for k in EIGHT))))
    return cases


def several():
    """Several pilots lost at different times.  Pilot i loses its mark at symbol i, or finds it
    there, or loses it for good at symbol 10 i."""
    once = list(chain(*(lost(k, i, i + 1) for i, k in enumerate(EIGHT))))
    found = [(i, k, MARK) for i, k in enumerate(EIGHT)]
    gone = list(chain(*(lost(k, 10 * i) for i, k in enumerate(EIGHT))))
    cases = [run('each lost once, %d symbols' % count, PLAN_A, lit(l), count, once)
             for count, l in ((5, 3), (8, 0), (128, 0), (129, 1), (132, 4), (136, 8))]
    cases += [run('set one by one, %d symbols' % count, PLAN_A, lit(l), count, found, fill=0)
              for count, l in ((1, 1), (8, 1), (128, 1), (129, 2), (134, 7), (135, 8))]
    cases += [run('lost for good, %d symbols' % count, PLAN_A, lit(l), count, gone)
              for count, l in ((10, 7), (11, 6), (40, 4), (71, 0), (400, 0))]
    every = [(t, k, MARK if t % 2 else 0) for t in range(20) for k in EIGHT]
    cases.append(run('all lost at every other symbol', PLAN_A, lit(0), 20, every))
    some = [(t, k, MARK if t % (i + 2) else 0) for t in range(40) for i, k in enumerate(EIGHT)]
    return cases + [run('each lost in its own time', PLAN_A, lit(0), 40, some)]


# --- cells -------------------------------------------------------------------

def one_pilot():
    """Each pilot alone: only it is dark, or only it is lit."""
    cases = [run('only %d lost' % k, PLAN_A, lit(7), 2, lost(k, 0)) for k in EIGHT]
    return cases + [run('only %d held' % k, PLAN_A, lit(1), 2, [(0, k, MARK)], fill=0) for k in EIGHT]


def nearly():
    """Cells that are nearly the mark, at a pilot and everywhere else."""
    cases = []
    for cell in (*NEARLY, 0x8000, 0x8001, 0x8103, 0xFFFF):
        cases.append(run('0x%04X at a pilot' % cell, PLAN_A, lit(7), 1, lost(948, 0, cell=cell)))
    for cell in (*NEARLY, 0xFFFF):
        cases.append(run('0x%04X everywhere else' % cell, PLAN_A, lit(8), 1, [(0, k, MARK) for k in EIGHT], fill=cell))
    bits = [(t, 994, MARK ^ 1 << t) for t in range(16)]
    return cases + [run('the mark with one bit changed', PLAN_A, lit(7), 16, bits)]


def others():
    """Cells that are no pilot's: losing the mark there changes nothing, holding it helps nothing."""
    beside = sorted({k + side for k in EIGHT for side in (-1, 1)})
    far = sorted({*range(972, 980), *range(128), *(k ^ 1024 for k in EIGHT), *(k // 2 for k in EIGHT), 4095})
    marks = [(0, k, MARK) for k in EIGHT]
    return [
        run('neighbours lost', PLAN_A, lit(8), 3, [(1, k, 0) for k in beside]),
        run('only neighbours held', PLAN_A, lit(0), 3, [(0, k, MARK) for k in beside], fill=0),
        run('others lost', PLAN_A, lit(8), 3, [(1, k, 0) for k in far]),
        run('only others held', PLAN_A, lit(0), 3, [(0, k, MARK) for k in far], fill=0),
        run('the PLC lost', PLAN_A, lit(8), 1, [(0, k, 0x8004) for k in range(972, 980)]),
        run('only the pilots held', PLAN_A, lit(8), 1, marks, fill=0),
        run('only the pilots held, the rest the PLC mark', PLAN_A, lit(8), 130, marks, fill=0x8004),
    ]


def changes():
    """How the changes of a case are read."""
    return [
        run('two changes of one cell, the second the mark', PLAN_A, lit(8), 2, [(0, 925, 0), (0, 925, MARK)]),
        run('two changes of one cell, the first the mark', PLAN_A, lit(7), 2, [(0, 925, MARK), (0, 925, 0)]),
        run('a change past the last symbol', PLAN_A, lit(8), 5, lost(925, 5)),
        run('changes not in the order of time', PLAN_A, lit(7), 4, [(3, 925, MARK), (1, 925, 0)]),
        run('a change of cell 4096', PLAN_A, lit(8), 2, lost(4096, 0)),
        run('a change of cell 4095 and of 0', PLAN_A, lit(8), 2, lost(4095, 0) + lost(0, 1)),
    ]


# --- records -----------------------------------------------------------------

FIVE = [5, 5, 5, 5, 3, 5, 0, 5, 5]
DIFFERENT = [100, 100, 99, 50, 28, 27, 1, 0, 100]


def started():
    """Records that are not fresh."""
    cases = [run('five heard, %d more' % more, PLAN_A, lit(l), more, record=FIVE)
             for more, l in ((1, 6), (123, 6), (125, 7), (127, 7), (128, 8))]
    cases += [run('all counts different, %d more' % more, PLAN_A, lit(l), more, record=DIFFERENT)
              for more, l in ((1, 2), (28, 2), (29, 3), (128, 8))]
    cases += [run('one heard, none held, %d more' % more, PLAN_A, lit(l), more, record=[1] + [0] * 8)
              for more, l in ((127, 0), (128, 8))]
    cases += [run('128 heard, none held, %d more' % more, PLAN_A, lit(l), more, record=[128] + [0] * 8)
              for more, l in ((1, 0), (127, 0), (128, 8))]
    some = [(0, k, 0) for k in (925, 948, 994, 1014, 1026)]
    return cases + [
        run('five heard, one lost', PLAN_A, lit(5), 1, lost(925, 0), FIVE),
        run('all counts different, five lost', PLAN_A, lit(0), 1, some, DIFFERENT),
        run('127 heard', PLAN_A, lit(8), 1, record=[127] * 9),
        run('127 heard, one short of it', PLAN_A, lit(7), 1, record=[127] * 8 + [126]),
        run('127 heard, one short of it, two more', PLAN_A, lit(8), 2, record=[127] * 8 + [126]),
        run('128 heard', PLAN_A, lit(8), 1, record=[128] * 9),
        run('128 heard, one lost', PLAN_A, lit(7), 1, lost(1026, 0), [128] * 9),
        run('128 heard, all lost', PLAN_A, lit(0), 1, record=[128] * 9, fill=0),
        run('128 heard, one short of 128', PLAN_A, lit(8), 1, record=[128, 127] + [128] * 7),
        run('128 heard, two short of 128', PLAN_A, lit(7), 1, record=[128, 126] + [128] * 7),
        run('128 heard, two short of 128, two more', PLAN_A, lit(8), 2, record=[128, 126] + [128] * 7),
    ]


WRONG_RECORDS = {
    'one byte short': [0] * 8, 'one byte long': [0] * 10, 'empty': [], 'of 128 pilots': [0] * 129,
    '128 bytes long': [0] * 137, '256 bytes': [0] * 256, 'one byte long, 128 heard': [128] * 10,
    'one byte long, the last 255': [5] * 9 + [255],
    'all 129': [129] * 9, 'all 255': [255] * 9, 'a first of 129': [129] + [0] * 8,
    'a first of 129, all 128': [129] + [128] * 8, 'a first of 200, all 150': [200] + [150] * 8,
    '129 at the first pilot': [128, 129] + [0] * 7, '129 at the last pilot': [128] * 8 + [129],
    '255 at the last pilot': [5] * 8 + [255], 'one above the first at the first pilot': [5, 6] + [0] * 7,
    'one above the first at the last pilot': [5] * 8 + [6],
    'one above the first in the middle': [5, 5, 5, 5, 6, 5, 5, 5, 5], 'two above the first': [5] * 8 + [7],
    'one above 0 at the first pilot': [0, 1] + [0] * 7, 'one above 0 at the last pilot': [0] * 8 + [1],
    '128 above 127': [127] * 8 + [128], '128 above 0': [0] + [128] * 8,
}
# Each with how many are lit after one symbol.
RIGHT_RECORDS = {
    'at the first, 5': ([5] * 9, 8), 'at the first, at the first pilot': ([5, 5] + [4] * 7, 1),
    'at the first, at the last pilot': ([5] + [4] * 7 + [5], 1),
    'at 128, at the first pilot': ([128, 128] + [0] * 7, 1), 'at 128, at the last pilot': ([128] + [0] * 7 + [128], 1),
}


def wrong_records():
    """Ground 28, and what is just right."""
    cases = [run('record: ' + name, PLAN_A, 'refused 28 0', 2, record=counts) for name, counts in WRONG_RECORDS.items()]
    return cases + [run('record: ' + name, PLAN_A, lit(l), 1, record=counts)
                    for name, (counts, l) in RIGHT_RECORDS.items()]


# --- symbols, and the order of the grounds -----------------------------------

def wrong_symbols():
    """Ground 17, after 28."""
    cases = [run('%d cells' % cells, PLAN_A, 'refused 17 0', 2, cells=cells) for cells in (0, 1, 1027, 4095, 4097)]
    cases += [run('%d cells, five heard' % cells, PLAN_A, 'refused 17 0', 1, record=FIVE, cells=cells)
              for cells in (0, 4095, 4097)]
    cases.append(run('4095 cells, a change of cell 4095', PLAN_A, 'refused 17 0', 1, lost(4095, 0), cells=4095))
    for name, cells in (('one byte short', 4095), ('empty', 0), ('all 129', 4097), ('a first of 129', 4095),
                        ('one above the first at the last pilot', 0), ('one byte long', 4097)):
        cases.append(run('record: %s, %d cells' % (name, cells), PLAN_A, 'refused 28 0', 1,
                         record=WRONG_RECORDS[name], cells=cells))
    return cases


def refused_plans():
    """Grounds 1 to 15 before 28 and 17, with right and with wrong records and symbols."""
    given = (([0] * 9, CELLS), ([], 0), ([129] * 9, CELLS), ([0] * 9, 4095), ([5] * 8 + [6], 4097))
    cases = []
    for n, (name, data, want, _) in enumerate(all_plans()):
        if want.startswith('refused') and not name.startswith('plan-a'):
            counts, cells = given[n % 5]
            cases.append(run('%s, %d counts, %d cells' % (name, len(counts), cells), data, want, 1 + n % 2,
                             record=counts, cells=cells))
    return cases


# --- other plans -------------------------------------------------------------

SOME_15 = [90, 90, 0, 90, 1, 90, 2, 90, 90, 89, 90, 3, 90, 90, 4, 90]


def fifteen():
    """Pilots of kind 3 below, between and above the predefined ones, not named in rising order."""
    once = list(chain(*(lost(k, i, i + 1) for i, k in enumerate(FIFTEEN))))
    cases = [run('15 pilots, all held', PLAN_15, lit(15, 15), 2),
             run('15 pilots, none held', PLAN_15, lit(0, 15), 2, fill=0x0380),
             run('15 pilots, each lost once', PLAN_15, lit(0, 15), 15, once),
             run('15 pilots, each lost once, 136 symbols', PLAN_15, lit(8, 15), 136, once),
             run('15 pilots, 90 heard', PLAN_15, lit(9, 15), 1, record=SOME_15),
             run('15 pilots, 90 heard, three lost', PLAN_15, lit(7, 15), 1, [(0, k, 0) for k in (810, 900, 1200)], SOME_15),
             run('15 pilots, the predefined lost', PLAN_15, lit(7, 15), 1, [(0, k, 0) for k in EIGHT]),
             run('15 pilots, the predefined held', PLAN_15, lit(8, 15), 1, [(0, k, MARK) for k in EIGHT], fill=0)]
    for k in (810, 930, 1000, 1200):
        cases.append(run('15 pilots, only %d lost' % k, PLAN_15, lit(14, 15), 1, lost(k, 0)))
        cases.append(run('15 pilots, only %d held' % k, PLAN_15, lit(1, 15), 1, [(0, k, MARK)], fill=0))
    return cases + [run('15 pilots, a record of 8', PLAN_15, 'refused 28 0', 1, record=[0] * 9),
                    run('15 pilots, 15 counts', PLAN_15, 'refused 28 0', 1, record=[0] * 15),
                    run('15 pilots, 17 counts', PLAN_15, 'refused 28 0', 1, record=[0] * 17)]


def placed():
    """Pilots at both ends of what is active, beside the PLC, and off the chain; other L; the longest plan,
    and one that is too long."""
    both_ends = near_a(pilots=[1240, 800])
    beside = near_a(pilots=[980, 971])
    skipped = next_index(near_a(pilots=[902, 901, 900]), 3, 5)      # 901 is off the chain
    apart = spread(entries(972, 4, outside(800, 1240), [900]), [0, 2, 4, 6], 9, record(3, 0, 910, 0))
    low, high = plan(204, 4, outside(148, 588)), plan(3885, 4, outside(3508, 3948))
    cases = []
    for name, data, n, pilots, none in (
            ('both ends', both_ends, 10, (800, 1240), (799, 1241)), ('beside the PLC', beside, 10, (971, 980), (972, 979)),
            ('one skipped', skipped, 10, (900, 902), (901,)), ('off the chain', apart, 9, (900,), (910,)),
            ('L 204', low, 8, (157, 258), (156, 259)), ('L 3885', high, 8, (3838, 3939), (3837, 3940))):
        some = [(0, k, 0) for k in pilots]
        cases.append(run(name + ', pilots lost', data, lit(n - len(pilots), n), 1, some))
        cases.append(run(name + ', others lost', data, lit(n, n), 1, [(0, k, 0) for k in none]))
    return cases + [run('4096 bytes', PLAN_A + bytes(4072), lit(7), 1, lost(937, 0)),
                    run('4104 bytes', PLAN_A + bytes(4080), 'refused 1 0', 1)]


def many():
    """48, 127 and 128 pilots."""
    edges = full(pilots=[3948, 148] + pilots_of_full(38))
    row = near_a(pilots=[*range(1060, 1180)], M=5)          # 120 pilots in a row
    once = list(chain(*(lost(200 + 10 * i, i, i + 1) for i in range(40))))
    return [
        run('48 pilots, all held', LARGEST, lit(48, 48), 2),
        run('48 pilots, each further one lost once', LARGEST, lit(8, 48), 40, once),
        run('48 pilots, each further one lost once, 150 symbols', LARGEST, lit(30, 48), 150, once),
        run('48 pilots, the last lost', LARGEST, lit(47, 48), 1, lost(2054, 0)),
        run('48 pilots, 48 counts', LARGEST, 'refused 28 0', 1, record=[0] * 48),
        run('48 pilots at the edges, both lost', edges, lit(46, 48), 1, [(0, k, 0) for k in (148, 3948)]),
        run('127 pilots, all held', full(pilots=pilots_of_full(119)), lit(127, 127), 1),
        run('128 pilots, all held', PLAN_128, lit(128, 128), 1),
        run('128 pilots, all held, 129 symbols', PLAN_128, lit(128, 128), 129),
        run('128 pilots, none held', PLAN_128, lit(0, 128), 2, fill=0x8004),
        run('128 pilots, the first and the last lost', PLAN_128, lit(126, 128), 1, [(0, k, 0) for k in (200, 2054)]),
        run('128 pilots, only the first and the last held', PLAN_128, lit(2, 128), 1, [(0, k, MARK) for k in (200, 2054)], fill=0),
        run('128 pilots, set one by one', PLAN_128, lit(4, 128), 131, [(i, 200 + 10 * i, MARK) for i in range(40)], fill=0),
        run('128 pilots, 128 counts', PLAN_128, 'refused 28 0', 1, record=[0] * 128),
        run('128 pilots, 130 counts', PLAN_128, 'refused 28 0', 1, record=[0] * 130),
        run('128 pilots, 129 at the last', PLAN_128, 'refused 28 0', 1, record=[128] * 128 + [129]),
        run('128 pilots, one above the first at the last', PLAN_128, 'refused 28 0', 1, record=[7] * 128 + [8]),
        run('128 pilots, counts rising', PLAN_128, lit(1, 128), 1, record=[128] + [*range(127)] + [128]),
        run('128 pilots, 4095 cells', PLAN_128, 'refused 17 0', 1, record=[3] * 129, cells=4095),
        run('120 pilots in a row, every second lost', row, lit(68, 128), 2, [(0, k, 0) for k in range(1060, 1180, 2)]),
    ]


# --- at random ---------------------------------------------------------------

def at_random():
    """Runs that lose and find marks at random, from any record that is right."""
    rng = random.Random(128)
    cases = []
    for n, data in enumerate((PLAN_A, PLAN_A, PLAN_15, LARGEST, PLAN_128, PLAN_15)):
        pilots = lamp.MODEL.plan_pilots(data)
        first = (0, 77, 0, 128, 100, 128)[n]
        counts = [rng.choice((first, rng.randrange(first + 1))) for _ in pilots]
        count = rng.randrange(150, 300)
        some = []
        for k in rng.sample(pilots, len(pilots) * 2 // 3):
            for _ in range(rng.choice((1, 1, 2))):
                t = rng.randrange(count)
                some += lost(k, t, min(t + rng.choice((1, 1, 5)), count - 1), rng.choice(NEARLY))
        cases.append(Case('at random, %d pilots, %d heard, %d more' % (len(pilots), first, count), data,
                          [first, *counts], CELLS, count, MARK, some, None))
    return cases


def all_cases():
    return [*lengths(), *lit_again(), *several(), *one_pilot(), *nearly(), *others(), *changes(), *started(), *wrong_records(),
            *wrong_symbols(), *refused_plans(), *fifteen(), *placed(), *many(), *at_random()]


# --- the lines ---------------------------------------------------------------

def numbers_of(answer):
    """An answer in the checksum."""
    return [2 if answer[0] == 'refused' else 1, *answer[1:]]


def symbols_of(case):
    """The symbols of a case, one after the other; all are the same list, changed."""
    symbol, at = [case.fill] * case.cells, {}
    for t, k, cell in case.changes:
        at.setdefault(t, []).append((k, cell))
    for t in range(case.symbols):
        for k, cell in at.get(t, ()):
            if k < case.cells:
                symbol[k] = cell
        yield symbol


def line_of(model, case):
    """The line of a case."""
    answer, numbers = model.pilots(case.plan)
    total = mix_cells(1, [*numbers_of(answer), *numbers])
    counts = list(case.record)
    for symbol in symbols_of(case):
        answer, lights = model.lamp(case.plan, symbol, counts)
        total = mix_cells(total, [*numbers_of(answer), *lights, *counts])
    if answer[0] == 'refused':
        return 'refused %d %d %d' % (*answer[1:], total)
    return 'lit %d of %d %d' % (lights.count(1), answer[1], total)


def bytes_of(case):
    """The case as it stands in stdin."""
    numbers = (len(case.plan), len(case.record), case.cells, case.symbols, case.fill, len(case.changes))
    some = chain(*case.changes)
    return (b''.join(map(lamp.four_bytes, numbers)) + case.plan + bytes(case.record) + b''.join(map(lamp.four_bytes, some)))


def check_case(case, line):
    """The line against what was worked out by hand and, from a fresh record on, against the lights
    worked out afresh; and the limits of the program."""
    assert case.want is None or line.startswith(case.want + ' '), '%s: by hand %s, model %s' % (case.name, case.want, line)
    assert len(case.record) <= MOST_RECORD and case.cells <= CELLS + 1 and len(case.changes) <= MOST_CHANGES, case.name
    assert 1 <= case.symbols <= MOST_SYMBOLS and all(k <= CELLS and cell < 65536 for _, k, cell in case.changes), case.name
    if line.startswith('lit') and not any(case.record):
        pilots = lamp.MODEL.plan_pilots(case.plan)
        heard = [list(symbol) for symbol in symbols_of(case)]
        assert line.startswith('lit %d of %d ' % (sum(lamp.lights_afresh(pilots, heard)), len(pilots))), case.name


def make():
    """The cases, their lines, and the bytes of stdin and stdout."""
    cases, model = all_cases(), Lamp()
    assert len({case.name for case in cases}) == len(cases) <= MOST_CASES
    lines = [line_of(model, case) for case in cases]
    for case, line in zip(cases, lines):
        check_case(case, line)
    given = b''.join(map(bytes_of, cases))
    assert len(given) <= MOST_BYTES
    return cases, lines, given, ''.join(x + '\n' for x in lines).encode()


# --- lampcheck ---------------------------------------------------------------

ONE_PILOT = near_a(pilots=[900])
NINE = [900, *EIGHT]
# What is put into each of six symbols, and the line after it, by hand.
HIT = (
    ((), 'all lit'),
    (((1003, 0x8001),), 'dark 1003'),
    (((925, 0), (900, 0x8002)), 'dark 900 925 1003'),
    ((), 'dark 900 925 1003'),
    (((899, 0), (901, 0), (924, MARK), (972, 0), (979, 0), (0, 0), (4095, 5)), 'dark 900 925 1003'),
    (tuple((k, 0x0003) for k in NINE), 'dark ' + ' '.join(map(str, NINE))),
)


def sent_symbols(data, count):
    """Symbols as a fresh emitter sends them from phase 0 on."""
    model = Emitter()
    at = model.layout(data)
    store, phase, x = [0] * model.places(at).length, 0, 1
    model.fresh(data, phase, store)
    for _ in range(count):
        cells, symbol = [], [0] * CELLS
        for _ in range(model.count(at, phase)):
            x = x * 48271 % stored.PRIME
            cells.append(x % 16384)
        _, phase = model.step(data, phase, store, cells, symbol)
        yield symbol


def lampcheck_files():
    """What crates/lampcheck is run on, and what it must print."""
    given, wanted = b'', [line for _, line in HIT]
    for symbol, (cells, _) in zip(sent_symbols(ONE_PILOT, len(HIT)), HIT):
        for k, cell in cells:
            symbol[k] = cell
        given += lamp.bytes_of(symbol)
    assert lamp.lampcheck(ONE_PILOT, given) == (wanted, None)
    files = {'args': b'one-pilot.plan\n', 'data/one-pilot.plan': ONE_PILOT, 'stdin': given,
             'stdout': ''.join(line + '\n' for line in wanted).encode()}
    return {'crates/lampcheck/' + name: data for name, data in files.items()}


# --- mutants -----------------------------------------------------------------

EQUIVALENT = {
    'nothing': 'The model that the others bend, as it is.',
    'lit: with nothing heard': 'Lights are given after a step only, and the first count is then 1 or more.',
    'lit: count at least the first': 'Ground 28 lets no count above the first, and a step raises none more than it.',
    '28: only the first tried against 128': 'A count that is not above the first is then not above 128 either.',
    **dict.fromkeys(('pilots: at phase 64', "the lamp's pilots: at phase 64"), 'A continuous pilot is one at every phase.'),
}


@lru_cache(maxsize=None)
def pilots_once(data):
    return Lamp().plan_pilots(data)


@lru_cache(maxsize=None)
def judged(data):
    return Lamp().judge(data)


class Total(Lamp):
    """The model that is bent.  Whatever the bend, it answers, as a program does: a cell that it is
    not given reads 0, a count that it is not given is not written, and there are 128 lights.  The
    pilots are found once for all bends that do not touch them."""

    def plan_pilots(self, data):
        return pilots_once(data)

    def holds(self, symbol, k):
        return self.is_mark(symbol[k] if k < len(symbol) else 0)

    def after(self, pilots, symbol, record):
        if not record:
            return []
        counts = Lamp.after(self, pilots, symbol, record)
        return (counts + record[len(counts):])[:len(record)]

    def lights_of(self, record):
        return Lamp.lights_of(self, record)[:MOST] if record else []

    def pilots(self, data):
        answer, numbers = Lamp.pilots(self, data)
        return answer, numbers[:MOST]


def bent(**methods):
    """A model of which some methods are others."""
    return type('Bent', (Total,), methods)()


# --- counts

def count_mutants():
    """Counts capped elsewhere, or not, or raised otherwise: the first, those of the pilots, or both."""
    counts = {
        'capped at 126': lambda c: min(126, c + 1), 'capped at 127': lambda c: min(127, c + 1),
        'capped at 129': lambda c: min(129, c + 1), 'capped at 255': lambda c: min(255, c + 1),
        'not capped': lambda c: c + 1, '0 after 128': lambda c: (c + 1) % 129, '1 after 128': lambda c: c % 128 + 1,
        'not raised': lambda c: c, 'raised by two': lambda c: min(128, c + 2), 'falling': lambda c: max(c - 1, 0),
        'always 128': lambda c: 128, 'not raised at 0': lambda c: min(128, c + (c > 0)),
    }
    for name, count in counts.items():
        yield 'counts ' + name, bent(raised=lambda self, c, count=count: count(c))
        yield 'first count ' + name, bent(heard=lambda self, c, count=count: count(c))
        yield "pilots' counts " + name, bent(in_a_row=lambda self, c, held, count=count: count(c) if held else 0)
    for cap in (127, 129):
        yield 'limit cap 128 -> %d' % cap, Total(LampLimits(cap=cap))


def lost_mutants():
    """Another count after a lost mark."""
    counts = {
        'only halts the count': lambda c: c, 'halves the count': lambda c: c // 2, 'takes one off': lambda c: max(c - 1, 0),
        'leaves 1': lambda c: 1, 'leaves 127 of 128': lambda c: 127 if c == 128 else 0,
        'halts a count of 128': lambda c: c if c == 128 else 0, 'halts a count below 128': lambda c: c if c < 128 else 0,
        'raises the count too': lambda c: min(128, c + 1), 'leaves the low bit': lambda c: c % 2,
    }
    for name, count in counts.items():
        yield 'a lost mark ' + name, bent(
            in_a_row=lambda self, c, held, count=count: self.raised(c) if held else count(c))


def after_mutants():
    """Another record after a step, made of the sound one, of which marks were held, and of the old one."""
    records = {
        'heard only where a mark was held': lambda new, held, old: [new[0] if any(held) else old[0]] + new[1:],
        'heard only where all marks were held': lambda new, held, old: [new[0] if all(held) else old[0]] + new[1:],
        'the first count 0 where all are lost': lambda new, held, old: [new[0] if any(held) else 0] + new[1:],
        'all counts 0 where one mark is lost': lambda new, held, old: new if all(held) else new[:1] + [0] * len(held),
        'a held mark sets the count to the first': lambda new, held, old: new[:1] + [new[0] * h for h in held],
        'the last pilot not counted': lambda new, held, old: new[:-1] + old[-1:],
        'the first pilot not counted': lambda new, held, old: new[:1] + old[1:2] + new[2:],
        'counts one place on': lambda new, held, old: new[:1] + new[-1:] + new[1:-1],
        'the first count last': lambda new, held, old: new[1:] + new[:1],
        'the record not written': lambda new, held, old: old,
        'only the first count written': lambda new, held, old: new[:1] + old[1:],
    }
    for name, change in records.items():
        yield name, bent(after=lambda self, pilots, symbol, record, change=change: change(
            Total.after(self, pilots, symbol, record), [self.holds(symbol, k) for k in pilots], list(record)))


# --- lights and answers

def lit_mutants():
    tests = {
        'with nothing heard': lambda f, c: c == f, 'count at least the first': lambda f, c: f > 0 and c >= f,
        'count at least the first less one': lambda f, c: c >= f - 1, 'a count above 0': lambda f, c: c > 0,
        'a count of 128': lambda f, c: c == 128, 'a count of 127 or more': lambda f, c: c == f or c >= 127,
        'with two heard': lambda f, c: f > 1 and c == f, 'with 128 heard': lambda f, c: f == 128 and c == f,
        'below 128 heard': lambda f, c: 0 < f < 128 and c == f, 'seven bits alike': lambda f, c: f % 128 == c % 128,
        'count at least half of the first': lambda f, c: 2 * c >= f, 'dark for lit': lambda f, c: c != f,
        'always': lambda f, c: True, 'never': lambda f, c: False, 'count above the first': lambda f, c: c > f,
        'while fewer than 128 a count above 0': lambda f, c: c == f or 0 < c and f < 128,
    }
    for name, test in tests.items():
        yield 'lit: ' + name, bent(is_lit=lambda self, f, c, test=test: test(f, c))
    lights = {
        'falling': lambda some: some[::-1], 'one place on': lambda some: [0] + some[:-1],
        'lit is 2': lambda some: [2 * x for x in some], 'lit is 255': lambda some: [255 * x for x in some],
        'the first alone': lambda some: some[:1], 'the last missing': lambda some: some[:-1] + [0],
        'the one past the last lit': lambda some: (some + [1])[:MOST],
        'all past the last lit': lambda some: some + [1] * (MOST - len(some)),
    }
    for name, change in lights.items():
        yield 'lights: ' + name, bent(lights_of=lambda self, counts, change=change: change(Total.lights_of(self, counts)))


def padded(lights):
    return lights + [0] * (MOST - len(lights))


def lamping(change, refused):
    """Other answers of accepted or of refused steps: `change` is given the model, the answer, the
    lights, and the record before the step and after it."""
    def step(self, data, symbol, counts):
        before = list(counts)
        answer, lights = Total.lamp(self, data, symbol, counts)
        if (answer[0] == 'refused') != refused:
            return answer, lights
        return change(self, answer, lights, before, counts)
    return bent(lamp=step)


def answer_mutants():
    yield 'lights of the record before the step', lamping(
        lambda self, answer, lights, before, after: (answer, padded(Total.lights_of(self, before))), False)
    yield 'lights of the record before the step, lit with nothing heard', lamping(
        lambda self, answer, lights, before, after: (answer, padded([int(c == before[0]) for c in before[1:]])), False)
    counts = {'one more': lambda n, lights: n + 1, 'one less': lambda n, lights: n - 1, 'always 8': lambda n, lights: 8,
              'always 128': lambda n, lights: 128, 'how many are lit': lambda n, lights: lights.count(1)}
    for name, count in counts.items():
        yield 'count: ' + name, lamping(lambda self, answer, lights, before, after, count=count: (
            ('count', count(answer[1], lights)), lights), False)
    yield 'lights of a refused step all lit', lamping(
        lambda self, answer, lights, before, after: (answer, [1] * MOST), True)
    yield 'lights of a refused step those of the record', lamping(
        lambda self, answer, lights, before, after: (answer, padded(Total.lights_of(self, after))), True)


def refused_mutants():
    """Refused steps that change the record."""
    records = {
        'a refused step is heard': lambda n, c: [min(128, x + 1) for x in c[:1]] + c[1:],
        'a refused step raises all counts': lambda n, c: [min(255, x + 1) for x in c],
        'a refused step makes the record fresh': lambda n, c: [0] * len(c),
        'a step refused by 28 makes the record fresh': lambda n, c: [0] * len(c) if n == 28 else c,
        'a step refused by 28 caps the counts': lambda n, c: [min(128, x) for x in c],
        'a step refused by 17 loses all marks': lambda n, c: c[:1] + [0] * len(c[1:]) if n == 17 else c,
        'a step refused by 17 is heard': lambda n, c: [c[0] + 1] + c[1:] if n == 17 else c,
        'a step refused by the plan makes the record fresh': lambda n, c: [0] * len(c) if n < 16 else c,
    }
    for name, change in records.items():
        def changed(self, answer, lights, before, after, change=change):
            after[:] = change(answer[1], list(after))
            return answer, lights
        yield name, lamping(changed, True)


# --- grounds

def length_mutants():
    """Ground 28 asks for other lengths."""
    lengths = {
        'length n allowed': lambda n, r: r not in (n, n + 1), 'length n + 2 allowed': lambda n, r: r not in (n + 1, n + 2),
        'a longer record allowed': lambda n, r: r < n + 1, 'a shorter record allowed': lambda n, r: r > n + 1,
        'an empty record allowed': lambda n, r: r not in (0, n + 1), 'no length tried': lambda n, r: False,
        'length n asked for': lambda n, r: r != n, 'length n + 2 asked for': lambda n, r: r != n + 2,
        'length 129 asked for': lambda n, r: r != 129, 'length 9 asked for': lambda n, r: r != 9,
        'length 9 allowed': lambda n, r: r not in (9, n + 1), 'length 129 allowed': lambda n, r: r not in (129, n + 1),
        'length by seven bits': lambda n, r: r % 128 != (n + 1) % 128,
    }
    for name, wrong in lengths.items():
        yield '28: ' + name, bent(
            wrong_length=lambda self, pilots, counts, wrong=wrong: wrong(len(pilots), len(counts)))


def above(most):
    """A test: of a record, whether one of these counts is above a limit or above the first."""
    return lambda c, counts: any(x > most or x > c[0] for x in counts)


def record_mutants():
    """Ground 28 tries other counts."""
    sound = above(128)
    tests = {
        'no count tried': lambda c: False,
        'a count above the first allowed': lambda c: max(c) > 128,
        'a count above 128 allowed': lambda c: max(c) > c[0],
        'only the first tried against 128': lambda c: c[0] > 128 or max(c) > c[0],
        'a first above 128 allowed': lambda c: sound(c, c[1:]),
        'above 127 refused': lambda c: above(127)(c, c),
        'up to 129 allowed': lambda c: above(129)(c, c),
        'up to 254 allowed': lambda c: above(254)(c, c),
        'equal to the first refused': lambda c: sound(c, c) or c[0] in c[1:],
        'equal to a first above 0 refused': lambda c: sound(c, c) or c[0] > 0 and c[0] in c[1:],
        'one above the first allowed': lambda c: max(c) > 128 or max(c) > c[0] + 1,
        'the first pilot not tried': lambda c: sound(c, c[:1] + c[2:]),
        'the last pilot not tried': lambda c: sound(c, c[:1] + c[1:-1]),
        'only the first pilot tried': lambda c: sound(c, c[:2]),
        'only the last pilot tried': lambda c: sound(c, c[:1] + c[-1:]),
        'only the first tried': lambda c: c[0] > 128,
        'a first of 0 refused': lambda c: c[0] == 0 or sound(c, c),
        'against the count before': lambda c: max(c) > 128 or any(x > before for x, before in zip(c[1:], c)),
        'a count below the first refused': lambda c: c[0] > 128 or set(c) != {c[0]},
    }
    for name, wrong in tests.items():
        yield '28: ' + name, bent(wrong_count=lambda self, counts, wrong=wrong: bool(counts) and wrong(counts))


def saying(change):
    """A model that refuses otherwise: `change` is given number and place, the symbol and the record."""
    def refusal(self, data, symbol, counts):
        found = Total.refusal(self, data, symbol, counts)
        return found and ('refused', *change(*found[1:], symbol, counts))
    return bent(refusal=refusal)


def said_mutants():
    """Other numbers and places."""
    for ground in (28, 17):
        for other in (16, 45 - ground, 27, 29):
            yield '%d said %d' % (ground, other), saying(
                lambda n, place, s, c, a=ground, b=other: (b if n == a else n, place))
    for ground in (*range(1, 16), 17, 28):
        yield 'place of %d one higher' % ground, saying(lambda n, place, s, c, a=ground: (n, place + (n == a)))
    yield '28 with the length as place', saying(lambda n, place, s, c: (n, len(c) if n == 28 else place))
    yield '28 with the wrong count as place', saying(lambda n, place, s, c: (
        n, next((i for i, x in enumerate(c) if x > 128 or x > c[0]), 0) if n == 28 else place))
    yield '17 with the length as place', saying(lambda n, place, s, c: (n, len(s) if n == 17 else place))
    yield 'number and place exchanged', saying(lambda n, place, s, c: (place, n))


def order_mutants():
    """Another order, and other lengths that ground 17 asks for."""
    for name, order in (('17 before 28', (17, 28)), ('28 not tried', (17,)), ('17 not tried', (28,)), ('neither tried', ())):
        yield name, bent(lamp_order=order)
    first = {
        '28 before the plan: an empty record': (28, lambda s, c: not c),
        '28 before the plan: a count above 128': (28, lambda s, c: any(x > 128 for x in c)),
        '28 before the plan: a count above the first': (28, lambda s, c: any(x > c[0] for x in c)),
        '17 before the plan': (17, lambda s, c: len(s) != CELLS),
    }
    for name, (number, test) in first.items():
        yield name, bent(refusal=lambda self, data, symbol, counts, number=number, test=test: (
            ('refused', number, 0) if test(symbol, counts) else Total.refusal(self, data, symbol, counts)))
    lengths = {
        '4095 allowed': lambda n: n not in (4095, 4096), '4097 allowed': lambda n: n not in (4096, 4097),
        '0 allowed': lambda n: n not in (0, 4096), 'longer allowed': lambda n: n < 4096,
        'shorter allowed': lambda n: n > 4096, '4096 refused': lambda n: n == 4096,
        'up to the last pilot of Plan A': lambda n: n < 1027,
    }
    for name, wrong in lengths.items():
        yield '17: ' + name, bent(ground_17=lambda self, pilots, s, c, wrong=wrong: 0 if wrong(len(s)) else None)
    for cells in (4095, 4097):
        yield 'limit cells 4096 -> %d' % cells, Total(LampLimits(cells=cells))


# --- cells and pilots

def mark_mutants():
    """Another mark."""
    marks = {
        'by its low byte': lambda v: v % 256 == 3, 'by its high byte': lambda v: v // 256 == 0x80,
        'low byte first': lambda v: v == 0x0380, 'either byte first': lambda v: v in (MARK, 0x0380),
        'any mark': lambda v: 0x8000 <= v <= 0x8004, 'bit 15 alone': lambda v: v >= 0x8000,
        'its bits set': lambda v: v & MARK == MARK, 'at least the mark': lambda v: v >= MARK,
        'at most the mark': lambda v: v <= MARK, 'the PLC mark': lambda v: v == 0x8004, 'no data': lambda v: v > 16383,
        'by 14 bits': lambda v: v % 16384 == 3, 'by 12 bits': lambda v: v % 4096 == 3, 'any cell but 0': lambda v: v != 0,
    }
    for bit in range(16):
        marks['bit %d not tried' % bit] = lambda v, bit=bit: (v ^ MARK) & ~(1 << bit) == 0
    for name, cell in (('the PLC mark', 0x8004), ('the excluded mark', 0x8002), ('the scattered mark', 0x8000),
                       ('filler', 0x8001), ('0', 0), ('0xFFFF', 0xFFFF)):
        marks[name + ' too'] = lambda v, cell=cell: v in (MARK, cell)
    for name, test in marks.items():
        yield 'mark: ' + name, bent(is_mark=lambda self, v, test=test: test(v))


def cell_mutants():
    """The mark looked for in another cell.  `at` is the test of a subcarrier."""
    reads = {
        'one above': lambda at, k: at(k + 1), 'one below': lambda at, k: at(k - 1),
        'a neighbour too': lambda at, k: at(k) or at(k + 1), 'the lower neighbour too': lambda at, k: at(k) or at(k - 1),
        'and one above': lambda at, k: at(k) and at(k + 1), 'and one below': lambda at, k: at(k) and at(k - 1),
        'ten bits': lambda at, k: at(k % 1024), 'half': lambda at, k: at(k // 2), 'bit 10 changed': lambda at, k: at(k ^ 1024),
        'one above from 1024 on': lambda at, k: at(k + (k > 1023)), 'from above': lambda at, k: at(4095 - k),
        'the mark not looked for': lambda at, k: True,
    }
    for name, cells in reads.items():
        yield 'cell: ' + name, bent(holds=lambda self, symbol, k, cells=cells: cells(
            lambda i: Total.holds(self, symbol, i), k))
    yield 'cell: by the number of the pilot', bent(after=lambda self, pilots, symbol, counts: Total.after(
        self, range(len(pilots)), symbol, counts))


@lru_cache(maxsize=None)
def sound_list(data):
    return Lamp().pilots(data)


def finding(name, pilots_of, judge=judged):
    """Models with other pilots: `pilots_of` is given the model and the Map of a good plan.  The list of
    the second is the sound one."""
    methods = {'judge': lambda self, data: judge(data), 'plan_pilots': Lamp.plan_pilots, 'pilots_of': pilots_of}
    yield 'pilots: ' + name, bent(**methods)
    yield "the lamp's pilots: " + name, bent(pilots=lambda self, data: sound_list(data), **methods)


def further(p):
    """The pilots of kind 3, along the chain."""
    return [k for _, k in p.pilots]


def rising(self, p):
    return sorted(self.predefined(p.l) + further(p))


def order_of_pilots():
    others = {
        'falling': lambda self, p: rising(self, p)[::-1],
        'predefined, then along the chain': lambda self, p: self.predefined(p.l) + further(p),
        'along the chain, then predefined': lambda self, p: further(p) + self.predefined(p.l),
        'predefined, then further ones rising': lambda self, p: self.predefined(p.l) + sorted(further(p)),
        'further ones rising, then predefined': lambda self, p: sorted(further(p)) + self.predefined(p.l),
    }
    for name, pilots_of in others.items():
        yield from finding(name, pilots_of)


def pilot_mutants():
    distances = (15, 24, 35, 47)
    others = {
        'predefined only': lambda self, p: self.predefined(p.l), 'kind 3 only': lambda self, p: sorted(further(p)),
        'the PLC too': lambda self, p: sorted(rising(self, p) + [*range(p.l, p.l + 8)]),
        'the lowest PLC subcarrier too': lambda self, p: sorted(rising(self, p) + [p.l]),
        'scattered at phase 0 too': lambda self, p: sorted(rising(self, p) + self.scattered_of(p, 0)),
        'without the lowest': lambda self, p: rising(self, p)[1:],
        'without the highest': lambda self, p: rising(self, p)[:-1],
        'without the first of the chain': lambda self, p: sorted(self.predefined(p.l) + further(p)[1:]),
        'without the last of the chain': lambda self, p: sorted(self.predefined(p.l) + further(p)[:-1]),
        'the first 127': lambda self, p: rising(self, p)[:127], 'the first 64': lambda self, p: rising(self, p)[:64],
        'the first 47': lambda self, p: rising(self, p)[:47],
        'below the PLC only': lambda self, p: [k for k in rising(self, p) if k < p.l],
        'above the PLC only': lambda self, p: [k for k in rising(self, p) if k > p.l],
        'one higher': lambda self, p: [k + 1 for k in rising(self, p)],
        'one lower': lambda self, p: [k - 1 for k in rising(self, p)],
        'predefined counted above from L': lambda self, p: sorted(
            [p.l - d for d in distances] + [p.l + d for d in distances] + further(p)),
        'at phase 64': lambda self, p: [k for k in range(CELLS) if self.role_of(p, k, 64) == 'continuous'],
    }
    for name, pilots_of in others.items():
        yield from finding(name, pilots_of)
    yield from finding('those of kind 3 off the chain too', rising, off_chain((3,)).judge)


def list_mutants():
    """Another list than the lamp's pilots."""
    lists = {
        'numbers one higher': lambda some: [k + 1 for k in some], 'falling': lambda some: some[::-1],
        'not filled up with zeros': lambda some: [k or max(some) for k in some],
        'low bytes': lambda some: [k % 256 for k in some], 'only the first eight': lambda some: some[:8] + [0] * 120,
        'zeros first': lambda some: sorted(some), 'of a refused plan those of Plan A': lambda some: (
            some if any(some) else EIGHT + [0] * 120),
    }
    for name, change in lists.items():
        def pilots(self, data, change=change):
            answer, numbers = Total.pilots(self, data)
            return answer, change(numbers)
        yield 'list: ' + name, bent(pilots=pilots)

    def one_more(self, data):
        answer, numbers = Total.pilots(self, data)
        return answer if answer[0] == 'refused' else ('count', answer[1] + 1), numbers
    yield 'list: one more counted', bent(pilots=one_more)


def try_mutants(cases, lines):
    mutants = chain([('nothing', bent())], count_mutants(), lost_mutants(), after_mutants(), lit_mutants(), answer_mutants(),
                    refused_mutants(), length_mutants(), record_mutants(), said_mutants(), order_mutants(), mark_mutants(),
                    cell_mutants(), order_of_pilots(), pilot_mutants(), list_mutants())

    def change_of(_, model):
        return next((case.name for case, line in zip(cases, lines) if line_of(model, case) != line), None)
    return stored.try_mutants(mutants, change_of, EQUIVALENT, len(cases))


# --- the run -----------------------------------------------------------------

def main():
    cases, lines, given, wanted = make()
    print('%d cases, %d bytes; %d symbols for lampcheck' % (len(cases), len(given), len(HIT)))
    files = {'crates/lampcases/stdin': given, 'crates/lampcases/stdout': wanted, **lampcheck_files()}
    wrong = stored.keep(files)
    if '--mutants' in sys.argv[1:]:
        wrong += try_mutants(cases, lines)
    sys.exit(1 if wrong else 0)


if __name__ == '__main__':
    main()
