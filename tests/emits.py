#!/usr/bin/env python3
"""Makes the test data of emitcases from the second models of both emitters.

    python3 tests/emits.py              writes crates/emitcases/stdin and stdout
    python3 tests/emits.py --check      compares them, exits 1 on a difference
    python3 tests/emits.py --mutants    bends the models in many ways, each of
                                        which must change a line of stdout;
                                        exits 1 if one does not

stdin holds, for each case, a head of four numbers, each of 4 bytes, high byte
first: the plan's length (its upper two bytes zero), the starting phase, the number
of steps (its upper two bytes zero), and which emitter: 1 for the first, 2 for the
second, on the literal store (tests/figure.py); any other number counts as 1.  Then
the plan, then one byte for each step.  The end of the input ends the list.

What the program does with a case:

- `x` is the generator: x starts at 1 for each case; the next is
  x = x * 48271 % 2147483647; a data cell is x % 16384 of the new x.
- `sum` is the checksum, 0 at the start of a case:
  mix(sum, v) = (sum * 48271 + v) % 2147483647.
- The store is 60,000 cells, all 43981 at the start of each case.  The symbol
  buffer is 4,097 cells, all 43981 at the start of each case.  The data buffer
  is 4,096 cells.
- `need` is how many cells a store of the plan has at least, M being plan byte 7 and
  N_I from the judge: of the first emitter the sum of p mod M over the cells p below
  N_I, of the second J * M * (M - 1) / 2 with J the ceiling of N_I / M; 0 of a refused
  plan.  Fresh starts and steps below are those of the case's emitter; N_D is the same.
- First N_D: for each phase 0 to 128 and then 4294967295: mix 1 and N_D, or mix
  2, number and place of the refusal.
- Then a short fresh start: at the starting phase, with only the first need - 1 cells
  of the store, none if `need` is 0.  Its answer is mixed as below, then the first 16
  cells of the store.  After it another with exactly the first `need` cells; its answer
  is mixed, and the next is done all the same.
- Then the fresh start at the starting phase with the whole store: mix 1 and the phase
  of the state it gives, or mix 2, number and place; if it was refused, no step is
  taken.
- Then the steps, in order.  Each is given the state that the last one sent left, except
  where said; `nd` is N_D at the state's phase.  The cells that a step names are
  generated before it, also for a step that is refused.  Unless it says otherwise, a
  step is given the whole store, and as symbol the first 4,096 cells of the symbol
  buffer:
     0  emit with nd generated cells
     1  flush
     2  emit with nd - 1 generated cells
     3  emit with nd + 1 generated cells
     4  emit with nd generated cells, of which the one at nd // 2 is then put to
        16384 and the last to 65535 (if both are the same cell: 65535)
     5  emit with nd generated cells and phase + 128
     6  flush with phase 128
     7  emit with nd generated cells and only the first need - 1 cells of the store,
        none if `need` is 0
     8  flush with the first 4,095 cells of the symbol buffer
     9  flush with all 4,097 cells of the symbol buffer
    10  emit with nd generated cells and exactly the first `need` cells of the
        store (accepted)
    11  flush with phase 4294967295
    12  emit with no cells, phase + 128 and the first 4,095 cells of the symbol
        buffer (ground 16 comes first)
    13  emit with nd - 1 generated cells, of which cell 0 is then put to 16384 (18
        comes before 19)
    14  emit with nd - 1 generated cells and only the first need - 1 cells of the
        store, none if `need` is 0 (17, of the second emitter 27, comes before 18)
    15  emit with nd - 1 generated cells, of which cell 0 is then put to 32768, and
        the first 4,095 cells of the symbol buffer (17 comes before 18 and 19)
    16  flush with only the first need - 1 cells of the store, none if `need` is 0
    17  emit with nd generated cells, of which cell 0 is then put to 32768 (19 at
        place 0)
    18  flush with exactly the first `need` cells of the store (accepted)
    19  flush with only the first need - 1 cells of the store, none if `need` is 0, and
        the first 4,095 cells of the symbol buffer (17 comes before 27)
    20  emit with nd generated cells, phase + 128 and only the first need - 1 cells of
        the store, none if `need` is 0 (16 comes before 17 and 27)
    21  emit with nd generated cells, of which cell 0 is then put to 32768, and only the
        first need - 1 cells of the store, none if `need` is 0 (17 and 27 come before 19)
  A step with another number, 22 or more, counts as 1.  At depth 1, where `need` is 0, 7
  and 16 are sent, 14 is refused by 18 and 21 by 19.  After each step: mix 1 and the next
  phase if it was sent; else mix 2, number, place, and the phase handed back; then mix the
  first 4,096 cells of the symbol buffer (also after a refused step: nothing may have
  changed).
- At the end of the case, also if the fresh start was refused, mix all 60,000
  cells of the store.

The case's line: `sent refused sum`, decimal, single spaces: how many steps were
sent, how many refused, the checksum.  If the fresh start was refused:
`refused number place sum`, the first being that word.
"""

import sys
from dataclasses import fields, replace
from itertools import chain, permutations, repeat

sys.dont_write_bytecode = True

import emitter
import figure
import plans
import stored
from emitter import Emitter, EmitterLimits, Places, emitter_length
from figure import Figure, literal_length
from make_plans import all_plans
from model import Limits
from plans import (PLAN_A, band_below, entries, near_a, near_b, outside, plan,
                   second, singles, spread)
from stored import PRIME, mix, mix_cells

STORE = 60000
SYMBOL = 4096
UNTOUCHED = 43981
TOP = 4294967295
FIGURE = 'figure: '             # begins the names of the second emitter's cases and mutants
ASKED = (*range(129), TOP)      # phases whose N_D is asked
REFUSED = (2, 3, 4, 5, 6, 7, 8, 9, 11, 12, 13, 14, 15, 16, 17)
EVERY = (*REFUSED, 19, 20, 21)  # the last three are not drawn for the first emitter


# --- the cases -------------------------------------------------------------

def refused_kinds(m):
    """The steps that are refused at a depth: at 1 no store is too short."""
    return [kind for kind in EVERY if m > 1 or kind not in (7, 16)]


def steps_of(seed, m, sent, opening=(), closing=(), kinds=REFUSED):
    """The opening, then steps in no order, so many of which are sent and among
    which each of these refused kinds is, then the closing."""
    steps = []
    refused = refused_kinds(m)
    x = seed
    drawn = 0
    while drawn < sent:
        x = x * 48271 % PRIME
        draw, which = x // 64 % 100, x // 8192
        if draw < 48:
            kind = 0
        elif draw < 62:
            kind = 1
        elif draw < 64:
            kind = 18
        elif draw < 66:
            kind = (22, 77, 128, 255)[which % 4]    # these count as 1
        elif draw < 72:
            kind = 10
        else:
            kind = kinds[which % len(kinds)]
        drawn += kind not in refused
        steps.append(kind)
    for kind in kinds:
        if kind not in steps:
            x = x * 48271 % PRIME
            steps.insert(x // 64 % len(steps), kind)
    return bytes([*opening, *steps, *closing])


def all_cases():
    """(name, plan, phase, steps, want) of the first emitter.  `want` is worked out by
    hand: N_I of an accepted plan, or the line's first words of a refused start."""
    cases = []

    def case(name, data, phase, ranks, sent=160, opening=(), flushed=False):
        """A run; a flushed one ends with M - 1 flushes."""
        closing = [1] * (data[7] - 1) if flushed else []
        cases.append((name, data, phase, steps_of(len(cases) + 1, data[7], sent, opening, closing), ranks))

    # Short runs.  If nothing is sent, the fresh store stays as it was filled.
    cases.append(('depth 2, nearly every step refused', near_a(M=2), 126,
                  bytes((*REFUSED, 0, *REFUSED[::-1], 10, 1, 13, 4, 2)), 425))
    cases.append(('depth 3, every step refused', near_a(M=3), 127, bytes(REFUSED), 425))
    cases.append(('depth 3, a few steps over the wrap', near_a(M=3), 126,
                  bytes((0, 10, 1, 4, 0, 0, 7, 1, 10)), 425))
    cases.append(('depth 32, a few steps, pilots and an exclusion',
                  near_a(singles(852), [980, 900], M=32), 6,
                  bytes((6, 0, 0, 3, 1, 0, 10, 8, 0, 1, 1, 0, 0, 9, 0)), 422))
    for depth, phase in ((4, 5), (1, 0), (3, 0), (32, 127)):
        cases.append(('depth %d, no steps' % depth, near_a(M=depth), phase, b'', 425))

    # Refused at the start, by the phase (the low bits are sound) and by the plan.
    for phase in (128, 255, 65536, TOP - 127, TOP):
        cases.append(('plan A, phase %d' % phase, PLAN_A, phase, b'\0\1', 'refused 16 0'))
    for n, (name, data, want, _) in enumerate(all_plans()):
        if want.startswith('refused'):
            cases.append((name, data, (0, 127, 128, TOP)[n % 4], b'\0\1', want))

    # Plan A at many depths.
    case('plan A', PLAN_A, 0, 425, opening=(5, 0, 4, 6))
    case('depth 3 from 0 and over the wrap', near_a(M=3), 0, 425, 270, (12,), True)
    case('depth 1 from 127', near_a(M=1), 127, 425, opening=(0, 5, 0))
    case('depth 2 from 64', near_a(M=2), 64, 425)
    case('depth 3 from 125', near_a(M=3), 125, 425)
    case('depth 7 from 1', near_a(M=7), 1, 425, flushed=True)
    case('depth 31 from 64', near_a(M=31), 64, 425)
    case('depth 32 from 125', near_a(M=32), 125, 425, 160, (6, 11, 0), True)

    # M divides N_I.
    case('depth 3, 3 x 141 ranks', near_a(singles(852, 1108), M=3), 125, 423)
    case('depth 32, 32 x 13 ranks',
         near_a(singles(810, 840, 870, 1070, 1100, 1130, 1160, 1190, 1220), M=32), 1, 416, 165)
    case('depth 8, 384 ranks: three whole columns', near_a(pilots=range(801, 883, 2), M=8),
         120, 384)

    # Pilots and exclusions.
    case('pilots on all of the grid, an exclusion, depth 4, 4 x 105 ranks',
         near_a(singles(1100), [852, 980, 1108, 1236]), 127, 420)
    case('120 pilots, depth 5, 5 x 61 ranks', near_a(pilots=range(1060, 1180), M=5), 127, 305)
    case('22 single exclusions, depth 31, 31 x 13 ranks',
         near_a(singles(*plans.TWENTY_TWO), L=1017, M=31), 64, 403)
    # 440 subcarriers, 22 excluded, 8 of the PLC, 8 and 120 pilots.
    case('the fewest ranks that a plan can have, depth 32',
         plan(1017, 32, outside(800, 1239) + singles(*plans.TWENTY_TWO),
              [*range(825, 921), *range(1125, 1149)]), 100, 282)
    case('off the chain: 0xFF, depth 16',
         spread(entries(972, 16, outside(800, 1240)), [0, 3, 7], 9), 64, 425)

    # Bands.
    case('a band below, depth 2, 2 x 233 ranks', second(band_below(700, 740), 0, 2), 1, 466)
    case('two bands with single exclusions, depth 6',
         second(near_b([(1300, 1319)] + singles(1240, 1250, 1260, 1270, 1280, 1290,
                                                1325, 1335, 1345, 1355, 1365, 1375)), 0, 6),
         125, 953)
    case('four bands, depth 20',
         plan(800, 20, [(0, 199)] + [(600 + 420 * n, 619 + 420 * n) for n in range(3)]
              + [(1901, 4095)]), 0, 1625)

    # L at both ends.
    case('L 204, a wide band, depth 7, 7 x 191 ranks', plan(204, 7, outside(148, 1500)), 64, 1337)
    case('L 3885, a wide band, depth 31', plan(3885, 31, outside(2000, 3948), [2037]), 0, 1932,
         165)

    # The largest plan.
    case('largest, depth 3', second(plans.LARGEST, 0, 3), 1, 3745)
    case('largest', plans.LARGEST, 0, 3745, 160, (5, 6), True)
    return cases


def figure_cases():
    """The same of the second emitter."""
    cases = []

    def case(name, data, phase, ranks, sent=0, opening=(), flushed=False):
        """A run of 2 M + 4 symbols or more over the wrap; a flushed one ends with M - 1 flushes."""
        m = data[7]
        closing = [1] * (m - 1) if flushed else []
        steps = steps_of(len(cases) + 1, m, max(sent, 2 * m + 4), opening, closing, EVERY)
        cases.append((FIGURE + name, data, phase, steps, ranks))

    # Short runs.
    cases.append((FIGURE + 'depth 3, nearly every step refused', near_a(M=3), 126,
                  bytes((*EVERY, 0, *EVERY[::-1], 10, 1, 13, 4, 18)), 425))
    cases.append((FIGURE + 'depth 2, every step refused', near_a(M=2), 127, bytes(EVERY), 425))
    for depth, phase in ((4, 2), (1, 0), (32, 127)):
        cases.append((FIGURE + 'depth %d, no steps' % depth, near_a(M=depth), phase, b'', 425))

    # Refused at the start, by the phase (16 before 27) and by the plan.
    for phase in (128, TOP):
        cases.append((FIGURE + 'plan A, phase %d' % phase, PLAN_A, phase, b'\0\1', 'refused 16 0'))
    cases.append((FIGURE + 'empty', b'', 128, b'\0\1', 'refused 1 0'))
    cases.append((FIGURE + '850 to 854 excluded', near_a([(850, 854)]), 127, b'\0\1', 'refused 14 835'))
    cases.append((FIGURE + '39 pilots', plans.ONE_PILOT_FEWER, TOP, b'\0\1', 'refused 15 0'))

    # Each depth with dummies and without.
    case('depth 1', near_a(M=1), 125, 425)
    case('depth 2, a dummy', near_a(M=2), 126, 425, 12, flushed=True)
    case('depth 2, 2 x 212 ranks', near_a(singles(852), M=2), 124, 424, 12)
    case('depth 3, a dummy, over the wrap twice', near_a(M=3), 120, 425, 140)
    case('depth 3, 3 x 141 ranks', near_a(singles(852, 1108), M=3), 125, 423, 12, flushed=True)
    case('plan A, three dummies', PLAN_A, 123, 425, 24, (20, 19, 21, 0, 7), True)
    case('depth 4, 4 x 105 ranks', near_a(singles(1100), [852, 980, 1108, 1236]), 120, 420)
    case('depth 7, two dummies', near_a(M=7), 120, 425, flushed=True)
    case('depth 7, 7 x 191 ranks', plan(204, 7, outside(148, 1500)), 126, 1337)
    case('depth 31, nine dummies', near_a(M=31), 100, 425, flushed=True)
    case('depth 31, 31 x 13 ranks', near_a(singles(*plans.TWENTY_TWO), L=1017, M=31), 120, 403)
    case('depth 32, 32 x 13 ranks',
         near_a(singles(810, 840, 870, 1070, 1100, 1130, 1160, 1190, 1220), M=32), 101, 416)
    case('the fewest ranks that a plan can have, depth 32, six dummies',
         plan(1017, 32, outside(800, 1239) + singles(*plans.TWENTY_TWO),
              [*range(825, 921), *range(1125, 1149)]), 90, 282)
    case('largest, 31 dummies', plans.LARGEST, 96, 3745)
    return cases


def other_cases():
    """Other numbers than 1 and 2 in the head: they count as 1.  (number, case)."""
    steps = bytes((0, 7, 19, 10, 20, 1, 21, 14, 18, 16, 0))
    for number in (0, 3, 258, TOP):
        yield number, ('emitter %d' % number, near_a(M=3), 126, steps, 425)


# --- the lines -------------------------------------------------------------

class Generator:
    """The data cells of a case."""

    def __init__(self):
        self.x = 1

    def take(self, count):
        cells = []
        x = self.x
        for _ in range(count):
            x = x * 48271 % PRIME
            cells.append(x % 16384)
        self.x = x
        return cells


def given_to(kind, phase, nd, need, cells):
    """Phase, how much of the store, data (None is a flush) and how much of the symbol
    buffer a step is given."""
    store, data, symbol = STORE, None, SYMBOL
    if kind in (0, 4, 5, 7, 10, 17, 20, 21):
        data = cells.take(nd)
    if kind in (2, 13, 14, 15):
        data = cells.take(nd - 1)
    if kind == 3:
        data = cells.take(nd + 1)
    if kind == 12:
        data = []
    if kind == 4:
        put(data, nd // 2, 16384)
        put(data, nd - 1, 65535)
    if kind == 13:
        put(data, 0, 16384)
    if kind in (15, 17, 21):
        put(data, 0, 32768)
    if kind in (5, 12, 20):
        phase += 128
    if kind == 6:
        phase = 128
    if kind == 11:
        phase = TOP
    if kind in (7, 14, 16, 19, 20, 21):
        store = max(need - 1, 0)
    if kind in (10, 18):
        store = need
    if kind in (8, 12, 15, 19):
        symbol = SYMBOL - 1
    if kind == 9:
        symbol = SYMBOL + 1
    return phase, store, data, symbol


def put(cells, i, cell):
    """Puts a cell that is there; N_D of a bent model may be 0."""
    if 0 <= i < len(cells):
        cells[i] = cell


def mix_answer(total, answer):
    """Mixes what a fresh start or a step answers."""
    return mix(total, (2 if answer[0] == 'refused' else 1, *answer[1:]))


def need_of(model, data):
    """How many cells a store of the plan has at least; 0 of a refused plan."""
    at = model.layout(data)
    if isinstance(at, tuple):
        return 0
    return (literal_length if isinstance(model, Figure) else emitter_length)(at.n, data[7])


def line_of(model, data, start, steps):
    """The line of a case."""
    total = 0
    counts = {}
    for phase in ASKED:
        count = model.data_count(data, phase)
        counts[phase] = 0 if isinstance(count, tuple) else count
        total = mix(total, (2, *count[1:]) if isinstance(count, tuple) else (1, count))
    store = [UNTOUCHED] * STORE
    need = need_of(model, data)
    for spare in (1, 0):
        part = store[:max(need - spare, 0)]
        size = len(part)
        total = mix_answer(total, model.fresh(data, start, part))
        assert len(part) == size
        store[:size] = part
        if spare:
            total = mix_cells(total, store[:16])
    answer = model.fresh(data, start, store)
    total = mix_answer(total, answer)
    if answer[0] == 'refused':
        return 'refused %d %d %d' % (*answer[1:], mix_cells(total, store))
    _, phase = answer
    buffer = [UNTOUCHED] * (SYMBOL + 1)
    cells = Generator()
    sent = 0
    for kind in steps:
        asked, held, lent, size = given_to(kind, phase, counts.get(phase, 0), need, cells)
        part = store if held == STORE else store[:held]
        symbol = buffer[:size]
        answer = model.step(data, asked, part, lent, symbol)
        assert len(part) == held and len(symbol) == size
        if part is not store:
            store[:held] = part
        buffer[:size] = symbol
        if answer[0] == 'sent':
            _, phase = answer
            sent += 1
        total = mix_cells(mix_answer(total, answer), buffer[:SYMBOL])
    return '%d %d %d' % (sent, len(steps) - sent, mix_cells(total, store))


def check_case(case, line):
    """The line against what was worked out by hand."""
    name, data, _, steps, want = case
    if isinstance(want, int):
        assert Emitter().layout(data).n == want, name
        refused = sum(map(steps.count, refused_kinds(data[7])))
        want = '%d %d' % (len(steps) - refused, refused)
    assert line.startswith(want + ' '), '%s: by hand %s, model %s' % (name, want, line)


def make():
    """The cases, each with the number of its emitter at the end, their lines, and the bytes of
    stdin and stdout."""
    numbered = [*((1, case) for case in all_cases()), *((2, case) for case in figure_cases()), *other_cases()]
    first, second = Emitter(), Figure()
    given = b''
    lines = []
    sample = Generator().take(10000)
    assert mix_cells(5, sample) == mix(5, sample)
    assert len({case[0] for _, case in numbered}) == len(numbered), 'two cases of one name'
    for which, case in numbered:
        _, data, phase, steps, _ = case
        lines.append(line_of(second if which == 2 else first, data, phase, steps))
        check_case(case, lines[-1])
        given += b''.join(n.to_bytes(4, 'big') for n in (len(data), phase, len(steps), which))
        given += data + steps
    cases = [(*case, which) for which, case in numbered]
    return cases, lines, given, ''.join(x + '\n' for x in lines).encode()


# --- mutants ---------------------------------------------------------------

EQUIVALENT = {
    'nothing': 'The model that the others bend, as it is.',
    'emitted phase not taken modulo 128':
        'The grid repeats every 128 subcarriers, so it is the same at phase j and j + 128.',
    FIGURE + 'nothing': 'The model that the others bend, as it is.',
    **{FIGURE + name: why for name, why in figure.NO_DIFFERENT.items()},
    FIGURE + 'a dummy too many': 'It goes into line 0, comes out at once and is thrown away.',
}


class Total(Emitter):
    """The model that is bent.  Whatever the bend, it answers, as a program does:
    a cell that it is not given reads 0, one that has no place is not written, and
    a rank is below N_I."""

    def ranks_of_cells(self, n):
        return [min(rank or 0, n - 1) for rank in Emitter.ranks_of_cells(self, n)]

    def input_symbol(self, at, phase, data):
        return Emitter.input_symbol(
            self, at, phase, None if data is None else chain(data, repeat(0)))

    def move(self, places, store, cells):
        if len(store) >= places.length:
            return Emitter.move(self, places, store, cells)
        longer = store + [0] * (places.length - len(store))
        oldest = Emitter.move(self, places, longer, cells)
        store[:] = longer[:len(store)]
        return oldest

    def send(self, at, cells, symbol):
        line = []
        Emitter.send(self, at, cells, line)
        symbol[:len(line)] = line[:len(symbol)]

    def fill(self, store, cells):
        Emitter.fill(self, store, cells[:len(store)])


def bent(**methods):
    """A model of which some methods are others."""
    return type('Bent', (Total,), methods)()


def limited(model=Total, **limits):
    return model(replace(EmitterLimits(), **limits))


def limit_mutants(model=Total):
    """Each limit one lower and one higher."""
    own = {field.name for field in fields(EmitterLimits)} - {field.name for field in fields(Limits)}
    for name in sorted(own | {'scattered_from', 'scattered_step'}):
        value = getattr(EmitterLimits(), name)
        for other in (value - 1, value + 1):
            yield 'limit %s %d -> %d' % (name, value, other), limited(model, **{name: other})
    for other in (-1, 1):
        class Other(model):
            def limit(self, load, other=other):
                return model.limit(self, load) + other
        yield 'limit of load 14 %d -> %d' % (16383, 16383 + other), Other()


def scattered_at(self, at, phase):
    """The cells whose subcarriers are scattered at the phase."""
    return [self.on_grid(at.map, k, phase) for k in at.carriers]


class CountedInCells(Total):
    """The delays go on from symbol to symbol, though M does not divide N_I."""

    def step(self, plan, phase, store, data, symbol):
        at = self.layout(plan)
        if not isinstance(at, tuple):
            at.places['emitter'] = Places([(phase * at.n + p) % at.m for p in range(at.n)])
        answer = Total.step(self, plan, phase, store, data, symbol)
        if not isinstance(at, tuple):
            del at.places['emitter']
        return answer


class FirstOnly(Total):
    """Interleaves the first symbol of a run, and sends the others some other way."""

    def fresh(self, plan, phase, store):
        self.first = None
        return Total.fresh(self, plan, phase, store)

    def move(self, places, store, cells):
        self.given = cells
        return Total.move(self, places, store, cells)

    def send(self, at, cells, symbol):
        if self.first is None:
            Total.send(self, at, cells, symbol)
            self.first = list(symbol)
        else:
            symbol[:] = at.marks
            self.other(at, cells, symbol)


class FirstThenCopies(FirstOnly):
    def other(self, at, cells, symbol):
        for k, cell in zip(at.subcarriers, self.given):
            symbol[k] = cell


class FirstThenDelays(FirstOnly):
    def other(self, at, cells, symbol):
        for k, cell in zip(at.subcarriers, cells):
            symbol[k] = cell


class FirstThenPlaces(FirstOnly):
    def other(self, at, cells, symbol):
        for k, cell in zip(at.carriers, self.given):
            symbol[k] = cell


class FirstAgain(FirstOnly):
    def other(self, at, cells, symbol):
        symbol[:] = self.first


class Silent(Total):
    """Its steps answer as they should."""

    def step(self, plan, phase, store, data, symbol):
        return Total.step(self, plan, phase, list(store), data, list(symbol))


def nothing(*given):
    """Instead of a method that writes."""


def unmoved(self, places, store, cells):
    """Answers the oldest cells and leaves the store."""
    return Total.move(self, places, list(store), cells)


def shortcut_mutants():
    yield 'N_D counted from the emitted symbol', bent(
        count=lambda self, at, phase: at.n - sum(scattered_at(self, at, phase)))
    yield 'placeholders of the emitted symbol', bent(placeholders=scattered_at)
    yield 'delay counted in cells', CountedInCells()
    yield 'scattered pilots referred to subcarrier 0', bent(
        on_grid=lambda self, p, k, phase: (k - phase) % 128 == 0)
    yield 'writes nothing', bent(move=unmoved, fill=nothing, send=nothing)
    yield 'steps write nothing', Silent()
    yield 'writes the store only', bent(send=nothing)
    yield 'writes the symbol only', bent(move=unmoved, fill=nothing)
    yield 'steps write the symbol only', bent(move=unmoved)
    yield 'interleaves the first symbol, then copies', FirstThenCopies()
    yield 'interleaves the first symbol, then only delays', FirstThenDelays()
    yield 'interleaves the first symbol, then only places', FirstThenPlaces()
    yield 'sends the first symbol again', FirstAgain()
    yield 'invented N_D', bent(count=lambda self, at, phase: at.n - at.n // 128)
    yield 'N_D of one phase later', bent(
        count=lambda self, at, phase: Total.count(self, at, (phase + 1) % 128))
    yield 'N_D is N_I', bent(count=lambda self, at, phase: at.n)


def refused_mutants(model, bent, grounds):
    """`model` is the one that is bent, of the first emitter or the second."""
    def after(ground, change):
        """A model that does more when a step is refused by the ground (0: by any)."""
        def step(self, plan, phase, store, data, symbol):
            answer = model.step(self, plan, phase, store, data, symbol)
            if answer[0] == 'refused' and ground in (0, answer[1]):
                return change(answer, store, symbol) or answer
            return answer
        return bent(step=step)

    def raised(cells, i):
        if i < len(cells):
            cells[i] += 1

    changes = {
        'moves the phase': lambda a, store, symbol: (*a[:3], (a[3] + 1) % 128),
        'hands back phase 0': lambda a, store, symbol: (*a[:3], 0),
        'writes the first cell of the symbol': lambda a, store, symbol: raised(symbol, 0),
        'writes a cell of the symbol': lambda a, store, symbol: raised(symbol, 1000),
        'writes the last cell of the symbol': lambda a, store, symbol: raised(symbol, -1),
        'writes the first cell of the store': lambda a, store, symbol: raised(store, 0),
        'writes a cell of the store': lambda a, store, symbol: raised(store, 101),
    }
    for name, change in changes.items():
        for ground in (0, *grounds):
            by = 'any ground' if ground == 0 else 'ground %d' % ground
            yield 'a step refused by %s %s' % (by, name), after(ground, change)
    yield 'a refused step hands back the phase modulo 128', after(
        0, lambda a, store, symbol: (*a[:3], a[3] % 128))

    def fresh_after(which):
        """A model whose fresh start writes a cell when it is refused by such a
        ground.  What one refused by 17 or 27 writes, the next writes over."""
        def fresh(self, plan, phase, store):
            answer = model.fresh(self, plan, phase, store)
            if answer[0] == 'refused' and which(answer[1]):
                raised(store, 0)
            return answer
        return bent(fresh=fresh)
    yield 'a fresh start refused by any ground writes the store', fresh_after(lambda n: True)
    yield 'a fresh start refused by ground 16 writes the store', fresh_after(lambda n: n == 16)
    yield 'a fresh start refused by the plan writes the store', fresh_after(lambda n: n < 16)


def fresh_mutants():
    def places(change):
        """Other places of a fresh store: `change` is given the sound ones."""
        return bent(fresh_places=lambda self, at, phase: change(
            self, at, phase, Total.fresh_places(self, at, phase)))

    def back(phase_of, only=lambda r, count: True):
        """The place r steps back without data, at another phase."""
        def fresh_places(self, at, phase):
            symbols = {r: self.input_symbol(at, phase_of(phase, r) % 128, None) for r in range(1, 33)}
            made = Total.fresh_places(self, at, phase)
            return [[symbols[r][p] if only(r, len(cells)) else cells[len(cells) - r]
                     for r in range(len(cells), 0, -1)] for p, cells in enumerate(made)]
        return bent(fresh_places=fresh_places)

    for which, only in (('places', lambda r, count: True), ('newest place', lambda r, count: r == 1),
                        ('oldest place', lambda r, count: r == count)):
        yield 'fresh %s one phase early' % which, back(lambda j, r: j - r - 1, only)
        yield 'fresh %s one phase late' % which, back(lambda j, r: j - r + 1, only)
        yield 'fresh %s ahead' % which, back(lambda j, r: j + r, only)
    yield 'fresh places at the phase', back(lambda j, r: j)
    yield 'fresh places M steps back', bent(fresh_places=lambda self, at, phase: [
        [self.input_symbol(at, (phase - at.m) % 128, None)[p]] * (p % at.m) for p in range(at.n)])
    yield 'fresh places the newest first', places(
        lambda self, at, phase, made: [cells[::-1] for cells in made])
    yield 'fresh places of the next cell', places(
        lambda self, at, phase, made: [(made + made)[p + 1][:1] * len(made[p]) for p in range(at.n)])
    yield 'fresh places all filler', places(
        lambda self, at, phase, made: [[0x8001] * len(cells) for cells in made])
    yield 'fresh places all placeholders', places(
        lambda self, at, phase, made: [[0x8000] * len(cells) for cells in made])
    yield 'fresh data zero', places(
        lambda self, at, phase, made: [[0 if cell == 0x8001 else cell for cell in cells]
                                       for cells in made])
    yield 'fresh store left as it was', bent(fill=nothing)
    yield 'fresh store without its last cell', places(
        lambda self, at, phase, made: made[:-1] + [made[-1][:-1]])
    yield 'fresh phase gone round at 127', back(lambda j, r: (j - r) % 127)
    yield 'fresh phase not gone round', back(lambda j, r: max(j - r, 0))

    def fresh_state(change):
        def fresh(self, plan, phase, store):
            answer = Total.fresh(self, plan, phase, store)
            return change(answer) if answer[0] == 'fresh' else answer
        return bent(fresh=fresh)
    yield 'fresh phase one later', fresh_state(lambda a: ('fresh', (a[1] + 1) % 128))
    yield 'fresh phase 0', fresh_state(lambda a: ('fresh', 0))


def reading_mutants():
    def order(reading_order):
        return bent(reading_order=reading_order)

    def columns_of(n):
        return range((n + 127) // 128)

    yield 'bits not reversed', bent(row_read=lambda self, i: i)
    yield 'six bits of 64 rows', limited(rows=64, row_bits=6)
    yield 'eight bits of 256 rows', limited(rows=256, row_bits=8)
    yield 'bits reversed and turned over', bent(
        row_read=lambda self, i: 127 - Total.row_read(self, i))
    yield 'two lowest bits reversed only', bent(
        row_read=lambda self, i: (i & 124) + (i & 1) * 2 + (i >> 1 & 1))
    yield 'columns read first', order(
        lambda self, n: [p for c in columns_of(n) for i in range(128)
                         for p in [128 * c + self.row_read(i)] if p < n])
    yield 'rows read from right to left', order(
        lambda self, n: [p for i in range(128)
                         for p in reversed(range(self.row_read(i), n, 128))])
    yield 'rows filled one after the other', order(
        lambda self, n: [p for i in range(128) for c in columns_of(n)
                         for p in [self.row_read(i) * len(columns_of(n)) + c] if p < n])
    yield 'missing places counted', bent(
        ranks_of_cells=lambda self, n: [
            min(self.row_read(p % 128) * len(columns_of(n)) + p // 128, n - 1)
            for p in range(n)])
    yield 'rank and cell exchanged', bent(
        ranks_of_cells=lambda self, n: Total.reading_order(self, n))
    yield 'no frequency interleaving', order(lambda self, n: list(range(n)))
    yield 'ranks falling', bent(
        ranks_of_cells=lambda self, n: [n - 1 - r for r in Total.ranks_of_cells(self, n)])
    yield 'first and last rank exchanged', bent(
        ranks_of_cells=lambda self, n: [
            {0: n - 1, n - 1: 0}.get(r, r) for r in Total.ranks_of_cells(self, n)])


def delay_mutants():
    delays = {
        'p div M': lambda at, p: p // at.m,
        'p div J': lambda at, p: p // -(-at.n // at.m),
        'M-1 - p mod M': lambda at, p: at.m - 1 - p % at.m,
        'p + 1 mod M': lambda at, p: (p + 1) % at.m,
        'rank mod M': lambda at, p: at.ranks[p] % at.m,
        'p mod M but at most 15': lambda at, p: min(p % at.m, 15),
        'p mod M but at most 30': lambda at, p: min(p % at.m, 30),
        'p mod 128 mod M': lambda at, p: p % 128 % at.m,
        'none': lambda at, p: 0,
    }
    for name, delay in delays.items():
        yield 'delay: %s' % name, bent(delay=lambda self, at, p, delay=delay: delay(at, p))
        yield 'delay of the store: %s' % name, bent(
            emitter_places=lambda self, at, p, delay=delay: delay(at, p))
        yield 'delay of the placeholders: %s' % name, bent(
            is_placeholder=lambda self, at, p, phase, delay=delay:
            self.on_grid(at.map, at.carriers[p], phase + delay(at, p)))
    yield 'a place more', bent(emitter_places=lambda self, at, p: p % at.m + 1)
    yield 'a place less', bent(emitter_places=lambda self, at, p: max(p % at.m - 1, 0))
    yield 'M - 1 places for each cell', bent(emitter_places=lambda self, at, p: at.m - 1)
    yield 'placeholders at an earlier phase', bent(
        is_placeholder=lambda self, at, p, phase:
        self.on_grid(at.map, at.carriers[p], phase - p % at.m))
    yield 'emitted phase not taken modulo 128', bent(
        is_placeholder=lambda self, at, p, phase:
        self.on_grid(at.map, at.carriers[p], phase + p % at.m))
    yield 'placeholder of the rank p', bent(
        is_placeholder=lambda self, at, p, phase:
        self.on_grid(at.map, at.subcarriers[p], phase + p % at.m))
    yield 'placeholder of the subcarrier p', bent(
        is_placeholder=lambda self, at, p, phase: self.on_grid(at.map, p, phase + p % at.m))


def mark_mutants():
    marks = {'scattered': 0x8000, 'filler': 0x8001, 'excluded': 0x8002,
             'continuous': 0x8003, 'plc': 0x8004}
    for name in marks:
        for other in marks:
            if name != other:
                yield ('mark of %s for %s' % (other, name),
                       limited(**{name + '_mark': marks[other]}))

    def kept(test):
        """Some subcarriers without a rank keep what the symbol held before."""
        def send(self, at, cells, symbol):
            before = list(symbol)
            Total.send(self, at, cells, symbol)
            for k in set(range(4096)) - set(at.carriers):
                if test(self, at, k):
                    symbol[k] = before[k]
        return bent(send=send)
    yield 'excluded left unwritten', kept(lambda self, at, k: at.map.excluded[k])
    yield 'PLC left unwritten', kept(lambda self, at, k: self.is_plc(at.map, k))
    yield 'predefined pilots left unwritten', kept(
        lambda self, at, k: k in self.predefined(at.map.l))
    yield 'further pilots left unwritten', kept(
        lambda self, at, k: k in [pilot for _, pilot in at.map.pilots])
    yield 'subcarrier 0 left unwritten', kept(lambda self, at, k: k == 0)
    yield 'subcarrier 4095 left unwritten', kept(lambda self, at, k: k == 4095)
    yield 'single exclusions marked as continuous', bent(
        mark=lambda self, p, k: 0x8003 if p.excluded[k] and p.excluded.find(0) < k
        < p.excluded.rfind(0) else Total.mark(self, p, k))
    yield 'PLC of nine', bent(
        mark=lambda self, p, k: 0x8004 if k == p.l + 8 else Total.mark(self, p, k))
    yield 'PLC of seven', bent(
        mark=lambda self, p, k: 0x8003 if k == p.l + 7 else Total.mark(self, p, k))
    for name, test in (('continuous', lambda cell: cell == 0x8003),
                       ('PLC', lambda cell: cell == 0x8004),
                       ('excluded', lambda cell: cell == 0x8002)):
        def step(self, plan, phase, store, data, symbol, test=test):
            answer = Total.step(self, plan, phase, store, data, symbol)
            if answer[0] == 'sent':
                at = self.layout(plan)
                for k, cell in enumerate(symbol):
                    if test(cell) and self.on_grid(at.map, k, phase):
                        symbol[k] = 0x8000
            return answer
        yield 'scattered before %s' % name, bent(step=step)

    def placeholder(cell):
        return bent(input_symbol=lambda self, at, phase, data: [
            cell if held else given for held, given in zip(
                self.placeholders(at, phase), Total.input_symbol(self, at, phase, data))])
    yield 'placeholder mark missing: filler', placeholder(0x8001)
    yield 'placeholder mark missing: zero', placeholder(0)


def data_mutants():
    def filled(order):
        """The data in another order of the cells."""
        def input_symbol(self, at, phase, data):
            cells = Total.input_symbol(self, at, phase, None)
            free = [p for p in order(at) if cells[p] != 0x8000]
            for p, cell in zip(free, data or []):
                cells[p] = cell
            return cells
        return bent(input_symbol=input_symbol)

    def changed(change):
        """Other data; None is a flush."""
        return bent(input_symbol=lambda self, at, phase, data: Total.input_symbol(
            self, at, phase, change(data, at.n)))

    yield 'data in falling p', filled(lambda at: range(at.n - 1, -1, -1))
    yield 'data in rising rank', filled(lambda at: sorted(range(at.n), key=at.ranks.__getitem__))
    yield 'data under the placeholders lost', bent(
        input_symbol=lambda self, at, phase, data: [
            0x8000 if held else 0x8001 if data is None or p >= len(data) else data[p]
            for p, held in enumerate(self.placeholders(at, phase))])
    yield 'data is filler', changed(lambda data, n: None)
    yield 'data is zero', changed(lambda data, n: data and [0] * n)
    yield 'data of 13 bits', changed(lambda data, n: data and [cell % 8192 for cell in data])
    yield 'data 0 is filler', changed(lambda data, n: data and [cell or 0x8001 for cell in data])
    yield 'last data cell lost', changed(lambda data, n: data and [*data[:-1], 0])
    yield 'first data cell lost', changed(lambda data, n: data and [0, *data[1:]])
    yield 'flush of data zeros', changed(lambda data, n: [0] * n if data is None else data)
    yield 'flush of placeholders', changed(lambda data, n: [0x8000] * n if data is None else data)
    yield 'flush without placeholders', bent(
        input_symbol=lambda self, at, phase, data: [0x8001] * at.n if data is None
        else Total.input_symbol(self, at, phase, data),
        fresh_places=lambda self, at, phase: Emitter().fresh_places(at, phase))

    def flushing(change):
        def step(self, plan, phase, store, data, symbol):
            before = list(store)
            answer = Total.step(self, plan, phase, store, data, symbol)
            if answer[0] == 'sent' and data is None:
                return change(answer, phase, store, before)
            return answer
        return bent(step=step)

    def unwritten(answer, phase, store, before):
        store[:] = before
        return answer
    yield 'a flush leaves the store', flushing(unwritten)
    yield 'a flush leaves the phase', flushing(
        lambda answer, phase, store, before: ('sent', phase))


def newest_first(self, places, store, cells):
    """Moves the cells with the newest in the first place."""
    oldest = []
    for first, count, cell in zip(places.first, places.counts, cells):
        kept = [cell, *store[first:first + count]]
        oldest.append(kept.pop())
        for i, cell in enumerate(kept):
            put(store, first + i, cell)
    return oldest


def move_mutants(model, bent):
    """Other ways to move the cells of a store; what they answer is what goes out.  `model` is the one
    that is bent, of an emitter or a receiver."""
    def moving(change):
        """`change` is given the places of a cell as they were and the cell that comes, and answers what
        goes out and the places."""
        def move(self, places, store, cells):
            oldest = []
            for first, count, cell in zip(places.first, places.counts, cells):
                out, kept = change(store[first:first + count], cell)
                oldest.append(out)
                for i, cell in enumerate(kept[:count]):
                    put(store, first + i, cell)
            return oldest
        return bent(move=move)

    yield 'the newest goes out', moving(
        lambda kept, cell: (kept[-1], kept[:-1] + [cell]) if kept else (cell, []))
    yield 'the second goes out', moving(
        lambda kept, cell: ((kept + [cell])[min(1, len(kept))], kept[1:] + [cell]))
    yield 'the newest first in the store', bent(move=newest_first)
    yield 'the cell put before the others', moving(
        lambda kept, cell: ((kept + [cell])[0], [cell] + kept[1:]))
    yield 'the oldest kept', moving(lambda kept, cell: ((kept + [cell])[0], kept[:-1] + [cell]))
    yield 'the places not moved', moving(lambda kept, cell: ((kept + [cell])[0], kept))
    yield 'the cell comes out at once', moving(lambda kept, cell: (cell, kept[1:] + [cell]))
    yield 'cells without a place come out as filler', moving(
        lambda kept, cell: ((kept + [0x8001])[0], kept[1:] + [cell]))

    def unmoved_cell(which):
        """The places of one cell are left as they are."""
        def move(self, places, store, cells):
            p = which(places, len(cells))
            first, count = places.first[p], places.counts[p]
            was = store[first:first + count]
            oldest = model.move(self, places, store, cells)
            store[first:first + count] = was[:len(store[first:first + count])]
            return oldest
        return bent(move=move)
    yield 'the places of cell 0 or 1 not moved', unmoved_cell(lambda places, n: int(places.counts[0] == 0))
    yield 'the places of the last cells not moved', unmoved_cell(
        lambda places, n: max(p for p in range(n) if places.counts[p] or p == 0))

    def ordered(order):
        """The same places, other cells first: `order` of the cells."""
        def move(self, places, store, cells):
            first = dict(zip(order(len(cells)), Places(
                [places.counts[p] for p in order(len(cells))]).first))
            turned = Places(places.counts)
            turned.first = [first[p] for p in range(len(cells))]
            return model.move(self, turned, store, cells)
        return bent(move=move)
    yield 'cells in falling p', ordered(lambda n: range(n - 1, -1, -1))
    yield 'even cells before odd ones', ordered(lambda n: [*range(0, n, 2), *range(1, n, 2)])


def store_mutants():
    yield from move_mutants(Total, bent)
    yield 'the newest first, in a fresh store too', bent(
        move=newest_first, fresh_places=lambda self, at, phase: [
            cells[::-1] for cells in Total.fresh_places(self, at, phase)])

    def sent(change):
        """A model whose sent steps change the store further."""
        def step(self, plan, phase, store, data, symbol):
            answer = Total.step(self, plan, phase, store, data, symbol)
            if answer[0] == 'sent':
                change(self.places(self.layout(plan)), store)
            return answer
        return bent(step=step)

    yield 'steps write the cell past the places', sent(
        lambda places, store: put(store, places.length, 0x8001))
    yield 'steps write the last cell of the store', sent(
        lambda places, store: put(store, STORE - 1, 0x8001))
    yield 'steps write the first place', sent(lambda places, store: put(store, 0, 0x8001))
    yield 'steps write the last place', sent(
        lambda places, store: put(store, places.length - 1, 0x8001))

    def fresh(self, plan, phase, store):
        answer = Total.fresh(self, plan, phase, store)
        if answer[0] == 'fresh':
            put(store, self.places(self.layout(plan)).length, 0x8001)
        return answer
    yield 'the fresh start writes the cell past the places', bent(fresh=fresh)

    def filled(self, plan, phase, store):
        if not self.refusal(plan, emitter.Given(phase, store)):
            store[:] = [0x8001] * len(store)
        return Total.fresh(self, plan, phase, store)
    yield 'the fresh start fills the whole store', bent(fresh=filled)


def state_mutants():
    phases = {
        'goes round at 127': lambda j: (j + 1) % 127,
        'goes round at 64': lambda j: (j + 1) % 64,
        'goes round at 256': lambda j: (j + 1) % 256,
        'stays': lambda j: j,
        'falls': lambda j: (j - 1) % 128,
        'goes up by two': lambda j: (j + 2) % 128,
        'stops at 127': lambda j: min(j + 1, 127),
    }
    for name, after in phases.items():
        yield 'phase %s' % name, bent(next_phase=lambda self, j, after=after: after(j))


def ground_mutants():
    grounds = (16, 17, 18, 19)      # 25 is tried before them; the profile is 14 everywhere
    for order in permutations(grounds):
        if order != grounds:
            yield 'order: %d, %d, %d, %d' % order, bent(step_order=(25, *order))
    for ground in grounds:
        name = 'ground_%d' % ground
        yield 'ground %d not tried' % ground, bent(
            step_order=tuple(x for x in Emitter.step_order if x != ground))
        yield 'place of %d one higher' % ground, bent(**{
            name: lambda self, at, given, name=name:
            None if getattr(Emitter, name)(self, at, given) is None
            else getattr(Emitter, name)(self, at, given) + 1})

    def holds(ground, test):
        """A ground of place 0 that holds by another test."""
        return bent(**{'ground_%d' % ground: lambda self, at, given:
                       0 if test(self, at, given) else None})

    yield 'ground 16: phase 128 good', holds(16, lambda self, at, g: g.phase > 128)
    yield 'ground 16: phase 128 good in a step', holds(
        16, lambda self, at, g: g.phase > (127 if g.symbol is None else 128))
    yield 'ground 16: phase not tried in a step', holds(
        16, lambda self, at, g: g.phase > 127 and g.symbol is None)
    yield 'ground 16: phase not tried in an emit', holds(
        16, lambda self, at, g: g.phase > 127 and g.data is None)
    yield 'ground 16: phase not tried in a flush', holds(
        16, lambda self, at, g: g.phase > 127 and (g.data is not None or g.symbol is None))
    yield 'ground 16: phase not tried in a fresh start', holds(
        16, lambda self, at, g: g.phase > 127 and (g.symbol is not None or g.store is None))
    yield 'ground 16: phase 127 bad', holds(16, lambda self, at, g: g.phase > 126)
    yield 'ground 16: phase by its low byte', holds(16, lambda self, at, g: g.phase % 256 > 127)

    def short(at, given, need):
        return given.store is not None and len(given.store) < need

    def odd(given):
        return given.symbol is not None and len(given.symbol) != 4096

    def triangle(m):
        return m * (m - 1) // 2

    def needed(at):
        return emitter_length(at.n, at.m)

    lengths = {
        'with <=': lambda at, g: needed(at) + 1,
        'one cell too few is good': lambda at, g: needed(at) - 1,
        "the receiver's length": lambda at, g: at.n * (at.m - 1) - needed(at),
        'M x N_I cells': lambda at, g: at.m * at.n,
        '(M - 1) x N_I cells': lambda at, g: (at.m - 1) * at.n,
        '(M - 1) x N_I / 2 cells': lambda at, g: (at.m - 1) * at.n // 2,
        'the groups of M cells that are whole': lambda at, g: at.n // at.m * triangle(at.m),
        'the last group of M cells as if whole': lambda at, g: -(-at.n // at.m) * triangle(at.m),
        'p mod M counted from 1': lambda at, g: needed(at) + at.n,
        'as at depth 32': lambda at, g: emitter_length(at.n, 32),
        'a place less in an emit': lambda at, g: needed(at) - (g.data is not None),
        'a place less in a flush': lambda at, g: needed(at) - (
            g.symbol is not None and g.data is None),
        'a place less in a fresh start': lambda at, g: needed(at) - (g.symbol is None),
        'not tried in an emit': lambda at, g: 0 if g.data is not None else needed(at),
        'not tried in a flush': lambda at, g: 0 if g.symbol is not None and g.data is None
        else needed(at),
        'not tried in a fresh start': lambda at, g: 0 if g.symbol is None else needed(at),
        'not tried': lambda at, g: 0,
    }
    for name, length in lengths.items():
        yield 'ground 17: store: ' + name, holds(
            17, lambda self, at, g, length=length: short(at, g, length(at, g)) or odd(g))
    yield 'ground 17: symbol not tried', holds(
        17, lambda self, at, g: short(at, g, needed(at)))
    yield 'ground 17: short symbol good', holds(
        17, lambda self, at, g: short(at, g, needed(at)) or odd(g) and len(g.symbol) > 4096)
    yield 'ground 17: long symbol good', holds(
        17, lambda self, at, g: short(at, g, needed(at)) or odd(g) and len(g.symbol) < 4096)

    def late(part):
        """The ground that speaks of a part of what is given, tried after the others."""
        return bent(refusal=lambda self, plan, given: Total.refusal(
            self, plan, given._replace(**{part: None})) or Total.refusal(self, plan, given))
    yield 'ground 17: store tried last', late('store')
    yield 'ground 17: symbol tried last', late('symbol')

    yield 'the fresh start tries 17 before 16', bent(
        fresh=lambda self, plan, phase, store:
        self.refusal(plan, emitter.Given(phase % 128, store))
        or Total.fresh(self, plan, phase, store))

    def wrong_count(test):
        return holds(18, lambda self, at, g: g.data is not None
                     and test(len(g.data), self.count(at, g.phase), at.n))
    yield 'ground 18: more cells good', wrong_count(lambda given, count, n: given < count)
    yield 'ground 18: fewer cells good', wrong_count(lambda given, count, n: given > count)
    yield 'ground 18: up to N_I cells good', wrong_count(
        lambda given, count, n: not count <= given <= n)
    yield 'ground 18: a flush has no cells', holds(
        18, lambda self, at, g: g.symbol is not None
        and len(g.data or []) != self.count(at, g.phase))

    def wrong_cell(place):
        """Ground 19 with another place, given the cells and the positions of
        those that are too high."""
        def ground_19(self, at, given):
            return place(self, at, given, [i for i, cell in enumerate(given.data or [])
                                           if cell > 16383])
        return bent(ground_19=ground_19)

    def cell_of(self, at, given, i):
        free = [p for p, held in enumerate(self.placeholders(at, given.phase)) if not held]
        return free[i]
    yield 'ground 19: place is the highest', wrong_cell(
        lambda self, at, g, high: high[-1] if high else None)
    yield 'ground 19: place is 0', wrong_cell(lambda self, at, g, high: 0 if high else None)
    yield 'ground 19: place is the cell', wrong_cell(
        lambda self, at, g, high: cell_of(self, at, g, high[0]) if high else None)
    yield 'ground 19: place is the subcarrier', wrong_cell(
        lambda self, at, g, high: at.carriers[cell_of(self, at, g, high[0])] if high else None)
    yield 'ground 19: last cell only', wrong_cell(
        lambda self, at, g, high: high[-1] if high and high[-1] == len(g.data) - 1 else None)
    yield 'ground 19: first cell only', wrong_cell(
        lambda self, at, g, high: 0 if 0 in high else None)
    yield 'ground 19: bit 14 alone', wrong_cell(
        lambda self, at, g, high: next((i for i in high if g.data[i] & 16384), None))
    yield 'ground 19: bit 15 alone', wrong_cell(
        lambda self, at, g, high: next((i for i in high if g.data[i] & 32768), None))
    yield 'ground 19: 32768 good', wrong_cell(
        lambda self, at, g, high: next((i for i in high if g.data[i] != 32768), None))
    yield 'ground 19: the first cell not tried', wrong_cell(
        lambda self, at, g, high: next((i for i in high if i > 0), None))

    # The plan comes first, and every entry hands on what the judge says.
    def early(self, plan, given):
        at = self.layout(plan)
        if isinstance(at, tuple) and given.phase >= 128:
            return ('refused', 16, 0)
        return Total.refusal(self, plan, given)
    yield 'ground 16 before the plan', bent(refusal=early)

    yield from stored.refusal_mutants(Total, bent)
    for bits in (7, 8, 16):
        yield '%d bits of the phase' % bits, bent(
            refusal=lambda self, plan, given, low=1 << bits: Total.refusal(
                self, plan, given._replace(phase=given.phase % low)))


class TotalFigure(Total, Figure):
    """The second emitter's model that is bent."""


def bent_figure(**methods):
    return type('Bent', (TotalFigure,), methods)()


class FigureFirstThenCopies(TotalFigure):
    """Passes the first symbol of a run through the lines, and sends the others as they come."""

    def fresh(self, plan, phase, store):
        self.first = True
        return TotalFigure.fresh(self, plan, phase, store)

    def step(self, plan, phase, store, data, symbol):
        answer = TotalFigure.step(self, plan, phase, store, data, symbol)
        if answer[0] == 'sent':
            if not self.first:
                at = self.layout(plan)
                self.send(at, self.input_symbol(at, phase, data), symbol)
            self.first = False
        return answer


class SilentFigure(TotalFigure):
    """Its steps answer as they should."""

    def step(self, plan, phase, store, data, symbol):
        return TotalFigure.step(self, plan, phase, list(store), data, list(symbol))


def figure_order_mutants():
    """The grounds with one of them moved before an earlier one."""
    grounds = (16, 17, 27, 18, 19)      # 25 is tried before them; the profile is 14 everywhere
    for i, ground in enumerate(grounds):
        for before in grounds[:i]:
            order = [other for other in grounds if other != ground]
            order.insert(order.index(before), ground)
            yield 'ground %d moved before %d' % (ground, before), bent_figure(step_order=(25, *order))


def figure_mutants():
    yield 'nothing', bent_figure()
    for name, methods in figure.bends():
        yield name, bent_figure(**methods)
    yield from figure_order_mutants()
    yield from refused_mutants(TotalFigure, bent_figure, (16, 17, 27, 18, 19))
    yield 'the first emitter on its own store', bent_figure(fresh=Emitter.fresh, step=Emitter.step)
    yield 'passes the first symbol through the lines, then copies', FigureFirstThenCopies()
    yield 'steps write nothing', SilentFigure()
    yield 'writes the store only', bent_figure(send=nothing)
    yield 'the store left as it is', bent_figure(fill=nothing)
    yield 'no frequency interleaving', bent_figure(reading_order=lambda self, n: list(range(n)))
    yield 'N_D is N_I', bent_figure(count=lambda self, at, phase: at.n)
    yield 'placeholders of the emitted symbol', bent_figure(placeholders=scattered_at)


def all_mutants():
    yield 'nothing', bent()
    for mutants in (limit_mutants, shortcut_mutants,
                    lambda: refused_mutants(Total, bent, (16, 17, 18, 19)), fresh_mutants,
                    reading_mutants, delay_mutants, mark_mutants, data_mutants, store_mutants,
                    state_mutants, ground_mutants):
        yield from mutants()
    for name, model in figure_mutants():
        yield FIGURE + name, model


def try_mutants(cases, lines):
    """Each on the cases of its emitter.  The equivalent ones of the first are tried on its first 40 cases,
    which come before the larger plans."""
    tried = {which: [(case, line) for case, line in zip(cases, lines) if case[-1] == which] for which in (1, 2)}

    def change_of(name, model):
        some = tried[2] if isinstance(model, Figure) else tried[1][:40 if name in EQUIVALENT else None]
        return stored.first_change(line_of, *zip(*some), model)
    return stored.try_mutants(all_mutants(), change_of, EQUIVALENT, len(cases))


# --- the run ---------------------------------------------------------------

def main():
    emitter.check_facts()
    figure.check_facts()
    cases, lines, given, wanted = make()
    print('%d cases, %d steps, %d bytes'
          % (len(cases), sum(len(case[3]) for case in cases), len(given)))
    stored.run('emitcases', given, wanted, lambda: try_mutants(cases, lines))


if __name__ == '__main__':
    main()
