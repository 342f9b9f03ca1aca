#!/usr/bin/env python3
"""A second model of the emitter, written from the scope paper and requests 03 and 07 alone.

It knows the frequency and the time interleaver, the placeholders of an input
symbol, N_D, the store, the load profile, the fresh start and one step, with grounds
25 and 16 to 19 after the plan's own.  Like the model of the plans, on which it stands,
it is kept plain: every rule is a small method that can be held against the paper,
and that a test can bend.  What follows from the bytes of a plan or of a profile alone
is worked out once and kept.  A step that is given no profile has FULL, 14 everywhere.

    python3 tests/emitter.py

holds the model against what the paper says of Plan A, and against the claims
it makes of every plan: N_D over 128 phases, the place of each cell, and the
role of each subcarrier of a sent symbol.
"""

import sys
from dataclasses import dataclass
from itertools import accumulate, chain, repeat
from typing import NamedTuple, Optional

sys.dont_write_bytecode = True

import plans
from model import Limits, Model


@dataclass(frozen=True)
class EmitterLimits(Limits):
    """Every number of the emitter's rules, beside those of the plans."""
    phases: int = 128               # ground 16, and the phases go round
    rows: int = 128                 # rows of the frequency interleaver ...
    row_bits: int = 7               # ... whose numbers have so many bits
    cells: int = 4096               # ground 17: cells of a symbol
    profile: int = 4096             # ground 25: bytes of a profile
    scattered_mark: int = 0x8000
    filler_mark: int = 0x8001
    excluded_mark: int = 0x8002
    continuous_mark: int = 0x8003
    plc_mark: int = 0x8004


class Given(NamedTuple):
    """What an entry is given beside the plan; None is not given."""
    phase: int
    store: Optional[list] = None
    data: Optional[list] = None     # a flush is given none
    symbol: Optional[list] = None
    heard: Optional[int] = None     # this and the rest only by a receive step
    arriving: Optional[list] = None
    buffer: Optional[list] = None
    end: str = 'emitter'            # whose store it is
    profile: Optional[bytes] = None     # a flush and a fresh start are given none
    stream: Optional[bytes] = None  # this and the start only by filling and the way back
    start: int = 0                  # the bit of the stream


FULL = bytes([14]) * 4096           # a profile: a data cell is 0 to 16383


class Places:
    """The places of a store: so many for each cell, cells in rising p."""

    def __init__(self, counts):
        self.counts = counts
        *self.first, self.length = accumulate(counts, initial=0)    # first: of each cell


class Layout:
    """What follows from the bytes of an accepted plan."""

    def __init__(self, emitter, p):
        self.map = p
        self.m = p.m
        self.subcarriers = emitter.ranks_of(p)              # of each rank
        self.ranked = set(self.subcarriers)
        self.n = len(self.subcarriers)                      # N_I
        self.ranks = emitter.ranks_of_cells(self.n)         # of each cell
        self.carriers = [self.subcarriers[rank] for rank in self.ranks]     # of each cell
        self.marks = [emitter.mark(p, k) for k in range(len(p.excluded))]
        self.placeholders = {}      # by phase
        self.places = {}            # by end, of its store
        self.marks_at = {}          # by phase, of the arriving symbol
        self.loads = {}             # by profile, of each cell


class Emitter(Model):
    step_order = (25, 16, 17, 18, 19)
    loads = (0, 4, 6, 7, 8, 9, 10, 11, 12, 13, 14)      # that a profile may have

    def __init__(self, limits=EmitterLimits()):
        super().__init__(limits)
        self.layouts = {}
        self.profiles = {}          # of each profile the place at which 25 refuses it, or None

    def layout(self, plan):
        """The Layout of a plan, or its refusal ('refused', number, place)."""
        if plan not in self.layouts:
            p = self.judge(plan)
            self.layouts[plan] = p if isinstance(p, tuple) else Layout(self, p)
        return self.layouts[plan]

    # --- frequency ---------------------------------------------------------

    def row_read(self, i):
        """The i-th row that is read: i with its seven bits reversed."""
        row = 0
        for _ in range(self.limits.row_bits):
            row = 2 * row + i % 2
            i = i // 2
        return row

    def reading_order(self, n):
        """Cells 0 to n - 1 as they are read.  Cell p stands in row p mod 128,
        column p div 128; a row is read from left to right, and a place past
        the last cell is skipped."""
        order = []
        for i in range(self.limits.rows):
            order += range(self.row_read(i), n, self.limits.rows)
        return order

    def ranks_of_cells(self, n):
        """The rank of each cell: how many cells are read before it."""
        ranks = [None] * n
        for before, p in enumerate(self.reading_order(n)):
            ranks[p] = before
        return ranks

    def mark(self, p, k):
        """The mark that subcarrier k carries if it has no rank."""
        if p.excluded[k]:
            return self.limits.excluded_mark
        if self.is_plc(p, k):
            return self.limits.plc_mark
        return self.limits.continuous_mark

    # --- time --------------------------------------------------------------

    def delay(self, at, p):
        """By how many symbols cell p is delayed."""
        return p % at.m

    def emitter_places(self, at, p):
        """How many places cell p has in the store: one for each symbol of delay."""
        return self.delay(at, p)

    def places(self, at, end='emitter'):
        """The places of the store of an end."""
        if end not in at.places:
            count = getattr(self, end + '_places')
            at.places[end] = Places([count(at, p) for p in range(at.n)])
        return at.places[end]

    # --- the input symbol --------------------------------------------------

    def is_placeholder(self, at, p, phase):
        """Is cell p of an input symbol at this phase a placeholder?  The
        subcarrier of a rank is scattered exactly where it is on the grid."""
        emitted = (phase + self.delay(at, p)) % self.limits.phases
        return self.on_grid(at.map, at.carriers[p], emitted)

    def placeholders(self, at, phase):
        if phase not in at.placeholders:
            at.placeholders[phase] = [self.is_placeholder(at, p, phase) for p in range(at.n)]
        return at.placeholders[phase]

    def count(self, at, phase):
        """N_D."""
        return at.n - sum(self.placeholders(at, phase))

    def input_symbol(self, at, phase, data):
        """The data in rising p between the placeholders; of a flush, filler."""
        cells = repeat(self.limits.filler_mark) if data is None else iter(data)
        return [self.limits.scattered_mark if held else next(cells)
                for held in self.placeholders(at, phase)]

    # --- loads -------------------------------------------------------------

    def is_listed(self, load):
        return load in self.loads

    def limit(self, load):
        """The highest data cell of a load: below 2 to the load; with load 0 it is 0 or 1."""
        return 1 if load == 0 else 2 ** load - 1

    def cell_loads(self, at, profile):
        """The load of each cell: that of the subcarrier it is emitted on."""
        if profile not in at.loads:
            at.loads[profile] = [profile[k] for k in at.carriers]
        return at.loads[profile]

    def data_loads(self, at, profile, phase):
        """The loads of the data cells of an input symbol, in rising p."""
        loads = self.cell_loads(at, profile)
        return [load for load, held in zip(loads, self.placeholders(at, phase)) if not held]

    def lowest_unlisted(self, profile):
        """The lowest load byte that is not listed, or None."""
        for k, load in enumerate(profile):
            if not self.is_listed(load):
                return k
        return None

    # --- store and symbol --------------------------------------------------

    def move(self, places, store, cells):
        """Puts each cell behind its places, which hold the oldest first.  Answers the oldest
        of each cell, which goes: where there is no place, the cell itself."""
        oldest = []
        for first, count, cell in zip(places.first, places.counts, cells):
            kept = [*store[first:first + count], cell]
            oldest.append(kept.pop(0))
            store[first:first + count] = kept
        return oldest

    def send(self, at, cells, symbol):
        """Writes the symbol on the line."""
        line = list(at.marks)
        for k, cell in zip(at.carriers, cells):
            line[k] = cell
        symbol[:] = line

    def fresh_places(self, at, phase):
        """The places of each cell in a fresh store: those of cell p hold cell p of the symbols
        without data of the last p mod M steps, oldest first."""
        counts = self.places(at).counts
        back = {r: self.input_symbol(at, (phase - r) % self.limits.phases, None)
                for r in range(1, max(counts) + 1)}
        return [[back[r][p] for r in range(count, 0, -1)] for p, count in enumerate(counts)]

    def fill(self, store, cells):
        """Writes the store from its first place on."""
        store[:len(cells)] = cells

    def next_phase(self, phase):
        return (phase + 1) % self.limits.phases

    # --- grounds -----------------------------------------------------------
    # Each answers its place, or None if it does not hold.

    def ground_25(self, at, given):
        profile = given.profile
        if profile is None:
            return None
        if profile not in self.profiles:
            wrong = len(profile) != self.limits.profile
            self.profiles[profile] = 0 if wrong else self.lowest_unlisted(profile)
        return self.profiles[profile]

    def ground_16(self, at, given):
        return 0 if given.phase >= self.limits.phases else None

    def ground_17(self, at, given):
        if given.store is not None and len(given.store) < self.places(at, given.end).length:
            return 0
        if given.symbol is not None and len(given.symbol) != self.limits.cells:
            return 0
        return None

    def ground_18(self, at, given):
        if given.data is not None and len(given.data) != self.count(at, given.phase):
            return 0
        return None

    def ground_19(self, at, given):
        if given.data is not None:
            limits = {load: self.limit(load) for load in set(given.profile)}
            loads = self.data_loads(at, given.profile, given.phase)
            for i, (cell, load) in enumerate(zip(given.data, loads)):
                if cell > limits[load]:
                    return i
        return None

    def refusal(self, plan, given, order=None):
        """('refused', number, place) by the first ground that holds, or None.  Those of a
        step are tried in its order, after the plan's own."""
        at = self.layout(plan)
        if isinstance(at, tuple):
            return at
        for ground in order or self.step_order:
            place = getattr(self, 'ground_%d' % ground)(at, given)
            if place is not None:
                return ('refused', ground, place)
        return None

    # --- the entries -------------------------------------------------------

    def data_count(self, plan, phase):
        """N_D at the phase, or ('refused', number, place)."""
        return self.refusal(plan, Given(phase)) or self.count(self.layout(plan), phase)

    def fresh(self, plan, phase, store):
        """Fills the store: ('fresh', phase); or ('refused', number, place)."""
        refused = self.refusal(plan, Given(phase, store))
        if refused:
            return refused
        self.fill(store, list(chain(*self.fresh_places(self.layout(plan), phase))))
        return ('fresh', phase)

    def step(self, plan, phase, store, data, symbol, profile=FULL):
        """One step; data None is a flush, which has no profile.  ('sent', next phase), with
        store and symbol written; or ('refused', number, place, phase), with nothing changed."""
        profile = None if data is None else profile
        refused = self.refusal(plan, Given(phase, store, data, symbol, profile=profile))
        if refused:
            return (*refused, phase)
        at = self.layout(plan)
        self.send(at, self.move(self.places(at), store, self.input_symbol(at, phase, data)), symbol)
        return ('sent', self.next_phase(phase))


# --- what the paper says ---------------------------------------------------

def check_plan_a():
    """The starred numbers."""
    emitter = Emitter()
    a = emitter.layout(plans.PLAN_A)
    assert (a.n, a.m) == (425, 4)
    assert [a.ranks[p] for p in (0, 128, 256, 384, 64, 32, 1)] == [0, 1, 2, 3, 4, 7, 213]
    assert a.carriers[1] == 1029
    assert [j for j in range(128) if emitter.is_placeholder(a, 1, j)] == [48]
    assert emitter.places(a).length == 636
    store, symbol = [0] * 636, [0] * 4096
    # The emitted symbol that shows cell 1 of the input at phase 48 has phase 49.
    _, phase = emitter.fresh(plans.PLAN_A, 48, store)
    shown = []
    for _ in range(3):
        answer = emitter.step(plans.PLAN_A, phase, store, None, symbol)
        shown.append((phase, symbol[1029]))
        _, phase = answer
    assert shown == [(48, 0x8001), (49, 0x8000), (50, 0x8001)]


def emitter_length(n, m):
    """The length of an emitter's store in closed form: whole groups of M cells, and the rest."""
    rest = n % m
    return n // m * (m * (m - 1) // 2) + rest * (rest - 1) // 2


def check_lengths():
    """The closed form, and the length that is enough for every plan."""
    emitter = Emitter()
    for plan in (plans.PLAN_A, plans.near_a(M=1), plans.near_a(M=3), plans.LARGEST):
        at = emitter.layout(plan)
        assert emitter.places(at).length == emitter_length(at.n, at.m)
    for m in range(1, 33):
        for n in (1, m, 10 * m, 10 * m + 1, 11 * m - 1):
            assert emitter_length(n, m) == sum(p % m for p in range(n))
    longest = max(emitter_length(n, m) for n in range(3746) for m in range(1, 33))
    assert longest == emitter_length(3745, 32) == 58032


def check_counts(plan):
    """Every rank is taken once; N_D over 128 phases adds up to 127 times N_I."""
    emitter = Emitter()
    at = emitter.layout(plan)
    assert sorted(at.ranks) == list(range(at.n))
    assert sum(emitter.data_count(plan, j) for j in range(128)) == 127 * at.n


def check_run(plan, start, steps):
    """A run whose every data cell is known by its number: cell p of input t is
    found at its place, the symbols show the roles, and the places of cell p hold what it
    was in the last p mod M inputs, those before the start without data."""
    emitter = Emitter()
    at = emitter.layout(plan)
    length = emitter_length(at.n, at.m)
    store = [7] * (length + 2)
    assert emitter.fresh(plan, start, store) == ('fresh', start)
    phase = start
    inputs = [emitter.input_symbol(at, (start - r) % 128, None) for r in range(at.m - 1, 0, -1)]
    sent = []
    for t in range(steps):
        assert phase == (start + t) % 128
        count = emitter.data_count(plan, phase)
        data = None if t % 5 == 3 else [(1000 * t + i) % 16384 for i in range(count)]
        symbol = [7] * 4096
        answer = emitter.step(plan, phase, store, data, symbol)
        assert answer[0] == 'sent'
        inputs.append(emitter.input_symbol(at, phase, data))
        sent.append(symbol)
        _, phase = answer
        kept = [cells[p] for p in range(at.n) for cells in inputs[len(inputs) - p % at.m:]]
        assert store == kept + [7, 7]
    marks = {'excluded': 0x8002, 'plc': 0x8004, 'continuous': 0x8003, 'scattered': 0x8000}
    judged = emitter.judge
    emitter.judge = lambda _, p=judged(plan): p
    for t, symbol in enumerate(sent):
        for k, cell in enumerate(symbol):
            role = emitter.role(plan, k, (start + t) % 128)
            assert cell == marks[role] if role != 'data' else cell < 16384 or cell == 0x8001
    for t, cells in enumerate(inputs, 1 - at.m):
        for p, cell in enumerate(cells):
            if 0 <= t + p % at.m < steps:
                assert sent[t + p % at.m][at.carriers[p]] == cell


def check_grounds():
    """Grounds 25 and 16 to 19 in order, at their limits, and nothing changed."""
    emitter = Emitter()
    a = plans.PLAN_A
    count = emitter.data_count(a, 5)
    good = [3] * count
    bad = [3] * (count - 1) + [16384]
    need = 636

    def step(want, phase=5, size=need, data=good, cells=4096, plan=a, profile=FULL):
        store, symbol, lent = [9] * size, [9] * cells, None if data is None else list(data)
        answer = emitter.step(plan, phase, store, lent, symbol, profile)
        if want == 'sent':
            assert answer == ('sent', (phase + 1) % 128)
        else:
            assert answer == ('refused', *want, phase), answer
            assert store == [9] * size and symbol == [9] * cells
        assert lent == (None if data is None else data)

    step('sent')
    step('sent', size=need + 5)
    step('sent', data=None)
    step('sent', data=[16383] * count)
    step((1, 0), plan=b'', phase=128, size=0, data=bad[1:], cells=0)
    step((16, 0), phase=128, size=0, data=bad[1:], cells=0)
    step((16, 0), phase=128, data=None)
    step((16, 0), phase=2 ** 32 - 1, data=bad)
    step((17, 0), size=need - 1)
    step((17, 0), cells=4095, data=None)
    step((17, 0), cells=4097)
    step((17, 0), cells=4097, data=bad)
    step((17, 0), cells=4095, data=[32768] + good[1:])
    step((17, 0), size=need - 1, data=good[1:])
    step((18, 0), data=[])
    step((18, 0), data=good + [3])
    step((18, 0), data=bad[1:])
    step((19, count - 1), data=bad)
    step((19, 0), data=[16384] + bad[1:])
    step((19, 0), data=[32768] + good[1:])
    wrong = FULL[:700] + bytes([5]) + FULL[701:]
    step((1, 0), plan=b'', profile=b'')
    for profile, place in ((b'', 0), (FULL[1:], 0), (FULL + FULL[:1], 0), (wrong, 700)):
        step((25, place), profile=profile)
        step((25, place), profile=profile, phase=128, size=0, data=bad[1:], cells=0)
        step('sent', profile=profile, data=None)
    # Data cell 1 at phase 5 is cell 1, which goes to subcarrier 1029.
    for load in emitter.loads:
        profile, most = FULL[:1029] + bytes([load]) + FULL[1030:], emitter.limit(load)
        assert most == {0: 1}.get(load, 2 ** load - 1)
        step('sent', profile=profile, data=[16383, most] + good[2:] if load else [16383, 0] + good[2:])
        step('sent', profile=profile, data=[16383, most] + good[2:])
        step((19, 1), profile=profile, data=[16383, most + 1] + good[2:])
        step((19, 1), profile=profile, data=[16383, most + 1] + bad[2:])
    assert emitter.fresh(a, 128, []) == ('refused', 16, 0)
    assert emitter.fresh(a, 127, [9] * (need - 1)) == ('refused', 17, 0)
    assert emitter.fresh(a, 127, [9] * need) == ('fresh', 127)
    assert emitter.fresh(plans.near_a(M=1), 127, []) == ('fresh', 127)     # no cell is delayed
    assert emitter.fresh(b'', 128, []) == ('refused', 1, 0)
    assert emitter.data_count(a, 128) == ('refused', 16, 0)
    assert emitter.data_count(b'', 128) == ('refused', 1, 0)


def check_facts():
    check_plan_a()
    check_counts(plans.PLAN_A)
    check_counts(plans.LARGEST)
    check_counts(plans.SINGLES_150)
    check_lengths()
    check_run(plans.PLAN_A, 0, 9)
    check_run(plans.near_a(M=3), 125, 9)
    check_run(plans.near_a(M=1), 127, 3)
    check_run(plans.near_a([(850, 853)], [900], M=31), 100, 64)
    check_grounds()


if __name__ == '__main__':
    check_facts()
    print('the model agrees with the paper')
