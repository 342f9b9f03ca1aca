#!/usr/bin/env python3
"""The second emitter, written from the drawing of document 003 and request 09, beside the first.

    python3 tests/figure.py

The drawing: M delay lines, which are queues here, line r of r x J cells; a commutator, which puts a cell
into the line it stands on, takes the oldest out and moves on to the next line; dummies, which are added
at the end of a symbol, and of which nothing is sent.  What is not the time interleaver is that of the
first emitter's model (tests/emitter.py).

From a fresh start both emitters give the same: the same steps, refused ones among them, are answered
alike and send the same symbols; a store that is too short is ground 17 of the first and 27 of the
second.  That is compared here, over random plans of several depths, N_I a multiple of the depth and not,
from phases before the wrap from 127 to 0; with it, that nothing but filler is thrown away, that the lines
hold what the first emitter's store holds, and how long the literal store is.  Then the second model is
bent in turn, and some run has to notice.
"""

import random
import sys
from array import array
from collections import deque
from typing import NamedTuple

sys.dont_write_bytecode = True

import plans
from emitter import FULL, Emitter, Given, emitter_length
from longstore import DEPTHS, some_plan

SCATTERED, FILLER = 0x8000, 0x8001
SPARE = [7, 7]                      # cells of the store past its places
FAULTS = ('profile', 'phase', 'symbol', 'store', 'a cell too few', 'a cell too high')
FLUSH_FAULTS = ('phase', 'symbol', 'store')


# --- the drawing -------------------------------------------------------------

class Commutator:
    """The switch at the input and the one at the output, which stand on the same line."""

    def __init__(self, lines):
        self.lines = lines
        self.stands_on = 0

    def clock(self, cell):
        """A cell goes into the line, and the oldest comes out; of a line that holds none, the cell itself."""
        line = self.lines[self.stands_on]
        line.append(cell)
        return line.popleft()

    def move_on(self):
        """To the next line; from the one with the largest delay to the one with none."""
        self.stands_on = (self.stands_on + 1) % len(self.lines)


class Drawing:
    """The time interleaver for symbols of n cells at depth m."""
    commutator = Commutator

    def __init__(self, n, m):
        self.n, self.m = n, m
        self.j = self.ceiling()

    def ceiling(self):
        """J, the ceiling of N_I / M: so many cells of a symbol go into each line."""
        return -(-self.n // self.m)

    def dummies(self):
        """How many make the cells of a symbol a multiple of M."""
        return self.j * self.m - self.n

    def line_length(self, r):
        return r * self.j

    def length(self):
        return sum(map(self.line_length, range(self.m)))

    def lines_in(self, store):
        """The lines, which stand side by side in the store from line 0 on, the oldest cell first."""
        lines, first = [], 0
        for r in range(self.m):
            lines.append(deque(store[first:first + self.line_length(r)]))
            first += self.line_length(r)
        return lines

    def side_by_side(self, lines):
        return [cell for line in lines for cell in line]

    def with_dummies(self, cells, dummy):
        return [*cells, *[dummy] * self.dummies()]

    def begin(self, lines):
        """The commutator at the start of a symbol: the first cell goes through line 0."""
        return self.commutator(lines)

    def through(self, lines, cells):
        """What comes out as these cells go in."""
        commutator = self.begin(lines)
        out = []
        for cell in cells:
            out.append(commutator.clock(cell))
            commutator.move_on()
        return out

    def kept(self, out):
        """Of what comes out, the cells that are sent."""
        return out[:self.n]

    def thrown(self, out):
        """What comes out for the dummies."""
        return out[self.n:]


# --- the second emitter ------------------------------------------------------

class Figure(Emitter):
    step_order = (25, 16, 17, 27, 18, 19)
    drawing = Drawing
    thrown = ()                     # what the last step threw away

    def __init__(self, *limits):
        super().__init__(*limits)
        self.drawings = {}          # by N_I and M

    def drawing_of(self, at):
        if (at.n, at.m) not in self.drawings:
            self.drawings[at.n, at.m] = self.drawing(at.n, at.m)
        return self.drawings[at.n, at.m]

    def dummy(self):
        return self.limits.filler_mark

    # Each ground answers its place, or None if it does not hold.

    def ground_17(self, at, given):
        """Its other part: the symbol."""
        return Emitter.ground_17(self, at, given._replace(store=None))

    def ground_27(self, at, given):
        if given.store is not None and len(given.store) < self.drawing_of(at).length():
            return 0
        return None

    def phase_back(self, phase, b):
        return (phase - b) % self.limits.phases

    def fresh_lines(self, at, phase):
        """What the M - 1 symbols before leave in the lines.  They are flushes."""
        drawing = self.drawing_of(at)
        lines = drawing.lines_in([self.limits.filler_mark] * drawing.length())
        for b in range(at.m - 1, 0, -1):
            before = self.input_symbol(at, self.phase_back(phase, b), None)
            drawing.through(lines, drawing.with_dummies(before, self.dummy()))
        return lines

    def fresh(self, plan, phase, store):
        """Fills the store: ('fresh', phase); or ('refused', number, place)."""
        refused = self.refusal(plan, Given(phase, store))
        if refused:
            return refused
        at = self.layout(plan)
        self.fill(store, self.drawing_of(at).side_by_side(self.fresh_lines(at, phase)))
        return ('fresh', phase)

    def step(self, plan, phase, store, data, symbol, profile=FULL):
        """One step; data None is a flush, which has no profile.  ('sent', next phase), with
        store and symbol written; or ('refused', number, place, phase), with nothing changed."""
        profile = None if data is None else profile
        refused = self.refusal(plan, Given(phase, store, data, symbol, profile=profile))
        if refused:
            return (*refused, phase)
        at = self.layout(plan)
        drawing = self.drawing_of(at)
        lines = drawing.lines_in(store)
        given = drawing.with_dummies(self.input_symbol(at, phase, data), self.dummy())
        out = drawing.through(lines, given)
        self.fill(store, drawing.side_by_side(lines))
        self.send(at, drawing.kept(out), symbol)
        self.thrown = drawing.thrown(out)
        return ('sent', self.next_phase(phase))


def literal_length(n, m):
    """The length of the literal store in closed form."""
    return -(-n // m) * m * (m - 1) // 2


# --- what the papers say -----------------------------------------------------

def check_lengths():
    """The closed form, Plan A, the largest plan, and the length that is enough for every plan."""
    for m in range(1, 33):
        for n in (1, m, 10 * m, 10 * m + 1, 11 * m - 1, 3745):
            drawing = Drawing(n, m)
            assert drawing.length() == literal_length(n, m)
            assert 0 <= drawing.dummies() < m
            assert literal_length(n, m) >= emitter_length(n, m)
            assert n % m or literal_length(n, m) == emitter_length(n, m)
    a, largest = Drawing(425, 4), Drawing(3745, 32)
    assert (a.j, a.dummies(), a.length()) == (107, 3, 642)
    assert [a.line_length(r) for r in range(4)] == [0, 107, 214, 321]
    assert (largest.j, largest.dummies(), largest.length()) == (118, 31, 58528)
    assert max(literal_length(n, m) for n in range(3746) for m in range(1, 33)) == 58528


def check_delays():
    """Every cell is known by its symbol and its place: cell p comes out p mod M symbols later, at the place
    at which it went in, and what is thrown away are dummies."""
    for m in range(1, 9):
        for n in (1, 2, m, 3 * m, 3 * m + 1, 4 * m - 1):
            drawing = Drawing(n, m)
            lines = drawing.lines_in([None] * drawing.length())
            for t in range(2 * m + 2):
                cells = drawing.with_dummies([(t, p) for p in range(n)], 'dummy of %d' % t)
                out = drawing.through(lines, cells)
                assert drawing.kept(out) == [(t - p % m, p) if p % m <= t else None for p in range(n)]
                assert drawing.thrown(out) == ['dummy of %d' % (t - p % m) if p % m <= t else None
                                               for p in range(n, drawing.j * m)]


def check_fresh(plan, phase):
    """Line r of a fresh store holds J cells of each of the symbols r to 1 steps back, oldest first.  The
    M - 1 flushes before leave that, whatever the lines held."""
    model = Figure()
    at = model.layout(plan)
    drawing = Drawing(at.n, at.m)
    store = [5] * drawing.length() + SPARE
    assert model.fresh(plan, phase, store) == ('fresh', phase)
    want = []
    for r in range(at.m):
        for b in range(r, 0, -1):
            symbol = model.input_symbol(at, (phase - b) % 128, None) + [FILLER] * drawing.dummies()
            want += [symbol[q * at.m + r] for q in range(drawing.j)]
    assert store == want + SPARE
    other = [5] * drawing.length() + SPARE
    for b in range(at.m - 1, 0, -1):
        assert model.step(plan, (phase - b) % 128, other, None, [9] * 4096)[0] == 'sent'
    assert other == store


def check_grounds():
    """Grounds 25, 16, 17, 27, 18 and 19 in order, at their limits, and nothing changed."""
    model, a, need = Figure(), plans.PLAN_A, 642
    count = model.data_count(a, 5)
    good, bad = [3] * count, [3] * (count - 1) + [16384]

    def step(want, phase=5, size=need, data=good, cells=4096, plan=a, profile=FULL):
        store, symbol = [9] * size, [9] * cells
        answer = model.step(plan, phase, store, data, symbol, profile)
        if want == 'sent':
            assert answer == ('sent', (phase + 1) % 128)
        else:
            assert answer == ('refused', *want, phase), answer
            assert store == [9] * size and symbol == [9] * cells

    for size in (need, need + 5):
        step('sent', size=size)
        step('sent', size=size, data=None)
    step((1, 0), plan=b'', profile=b'', phase=128, cells=0, size=0, data=bad[1:])
    step((25, 0), profile=b'', phase=128, cells=0, size=0, data=bad[1:])
    step((25, 700), profile=FULL[:700] + b'\5' + FULL[701:], size=0)
    step('sent', profile=b'', data=None)
    for data in (bad[1:], bad, good, None):
        step((16, 0), phase=128, cells=0, size=0, data=data)
        step((16, 0), phase=128, size=need - 1, data=data)
        step((17, 0), cells=4095, size=need - 1, data=data)
        step((17, 0), cells=4097, size=0, data=data)
        step((27, 0), size=need - 1, data=data)
        step((27, 0), size=0, data=data)
    step((18, 0), data=bad[1:])
    step((19, count - 1), data=bad)
    assert model.fresh(b'', 128, []) == ('refused', 1, 0)
    assert model.fresh(a, 128, []) == ('refused', 16, 0)
    assert model.fresh(a, 127, [9] * (need - 1)) == ('refused', 27, 0)
    assert model.fresh(a, 127, [9] * need) == ('fresh', 127)
    assert model.fresh(plans.near_a(M=1), 127, []) == ('fresh', 127)        # no cell is delayed


def check_facts():
    check_lengths()
    check_delays()
    check_fresh(plans.PLAN_A, 0)
    check_fresh(plans.near_a(M=3), 127)
    check_fresh(plans.near_a(M=1), 5)
    check_grounds()


# --- what is asked -----------------------------------------------------------

class Send(NamedTuple):
    """A step: a flush or not, what is wrong with it, a number to make data of, and how many cells the store
    has past its places."""
    flush: bool
    faults: tuple
    seed: int
    spare: int


class Run(NamedTuple):
    name: str
    plan: bytes
    start: int
    sends: list


def some_sends(rng, m, accepted):
    """Emits and flushes, so many without a fault.  At depth 1 no store is too short."""
    sends, sound = [], 0
    while sound < accepted:
        flush, count = rng.random() < 0.25, rng.choice((0, 0, 0, 0, 1, 1, 2, 2, 3))
        faults = rng.sample([fault for fault in (FLUSH_FAULTS if flush else FAULTS) if m > 1 or fault != 'store'],
                            min(count, 2) if flush else count)
        sends.append(Send(flush, tuple(faults), rng.randrange(1, 2 ** 30), rng.choice((0, 2))))
        sound += not faults
    return sends


def some_runs():
    rng = random.Random(9)
    for m in DEPTHS:
        for divides in (True,) if m == 1 else (True, False):
            for start in (127, rng.randrange(96, 127)):
                yield Run('depth %d, a multiple of it: %s, phase %d' % (m, divides, start),
                          some_plan(rng, m, divides), start, some_sends(rng, m, 2 * m + 6))
    yield Run('plan A from phase 1', plans.PLAN_A, 1, some_sends(rng, 4, 20))
    yield Run('depth 32 from phase 5', plans.near_a(M=32), 5, some_sends(rng, 32, 40))
    yield Run('depth 3 over two wraps', plans.near_a(M=3), 120, some_sends(rng, 3, 140))
    yield Run('largest', plans.LARGEST, 100, some_sends(rng, 32, 36))


def given_to(model, at, phase, send, need):
    """Phase, how much of the store, data, symbol and profile."""
    count = model.count(at, phase) - ('a cell too few' in send.faults)
    data = [(send.seed + i * 48271) % 16384 for i in range(count)]
    if 'a cell too high' in send.faults:
        data[send.seed % count] = 16384 + send.seed % 49152
    held = need - 1 if 'store' in send.faults else need + send.spare
    cells = 4096 + (send.seed % 2 * 2 - 1) * ('symbol' in send.faults)
    profile = FULL
    if 'profile' in send.faults:
        k = send.seed % 4096
        profile = FULL[1:] if send.seed % 3 == 0 else FULL[:k] + bytes([15]) + FULL[k + 1:]
    return phase + 128 * ('phase' in send.faults), held, None if send.flush else data, [9] * cells, profile


# --- what comes of it --------------------------------------------------------

def cells_of(cells):
    return array('H', cells).tobytes()


def outcomes(model, run, need):
    """Of each fresh start and step: what was wrong, the answer, the symbol, and the store, of `need` places and
    two cells."""
    at = model.layout(run.plan)
    store = [7] * need + SPARE
    for more, held in ((128, need), (128, max(need - 1, 0)), (0, max(need - 1, 0)), (0, need + 2)):
        part = store[:held]
        answer = model.fresh(run.plan, run.start + more, part)
        store[:held] = part
        yield ('store',), answer, [], store
    phase = run.start
    for send in run.sends:
        asked, held, data, symbol, profile = given_to(model, at, phase, send, need)
        part = store[:held]
        answer = model.step(run.plan, asked, part, data, symbol, profile)
        store[:held] = part
        if answer[0] == 'sent':
            phase = answer[1]
        yield send.faults, answer, symbol, store


def wanted(run):
    """What the second emitter has to give, made of what the first gives: the answer, in which 27 stands for 17
    where only the store is at fault; the symbol; what is thrown away; and the store."""
    first = Emitter()
    at = first.layout(run.plan)
    drawing, places = Drawing(at.n, at.m), first.places(at)
    found = []
    for faults, answer, symbol, store in outcomes(first, run, places.length):
        if answer[:2] == ('refused', 17) and 'symbol' not in faults:
            answer = ('refused', 27, *answer[2:])
        lines = [[store[places.first[p] + i] if p < at.n else FILLER
                  for i in range(r) for p in range(r, drawing.j * at.m, at.m)] for r in range(at.m)]
        if len(found) < 3:          # no fresh start so far
            lines = [[7] * literal_length(at.n, at.m)]
        thrown = [FILLER] * drawing.dummies() if answer[0] == 'sent' else []
        found.append((answer, cells_of(symbol), thrown, cells_of(drawing.side_by_side(lines) + SPARE)))
    return found


def given_by(model, run):
    """The same of a second emitter."""
    at = model.layout(run.plan)
    for _, answer, symbol, store in outcomes(model, run, literal_length(at.n, at.m)):
        thrown = list(model.thrown) if answer[0] == 'sent' else []
        yield answer, cells_of(symbol), thrown, cells_of(store)


def differs(model, run, want):
    return any(got != right for got, right in zip(given_by(model, run), want))


# --- bent models -------------------------------------------------------------

NO_DIFFERENT = {
    'the commutator goes on from where the last symbol left it':
        'With the dummies a symbol is J whole turns, so it was left on line 0.',
}


def drawn(**methods):
    """A second emitter of another drawing."""
    return {'drawing': type('Bent', (Drawing,), methods)}


def switched(**methods):
    """A second emitter with another commutator."""
    return drawn(commutator=type('Bent', (Commutator,), methods))


def moving(line_after):
    """A commutator that moves on otherwise, given the line and how many there are."""
    def move_on(self):
        self.stands_on = line_after(self.stands_on, len(self.lines))
    return switched(move_on=move_on)


def clocked(change):
    """A commutator that takes another cell out, given the line and the cell."""
    return switched(clock=lambda self, cell: change(self.lines[self.stands_on], cell))


def goes_on(self, lines):
    """The commutator begins where it was left."""
    commutator = Commutator(lines)
    commutator.stands_on = self.last.stands_on if hasattr(self, 'last') else 0
    self.last = commutator
    return commutator


def on_line_1(self, lines):
    commutator = Commutator(lines)
    commutator.move_on()
    return commutator


def turns_of_j(self, lines, cells):
    """J cells after one another go into one line."""
    commutator, out = Commutator(lines), []
    for p, cell in enumerate(cells):
        commutator.stands_on = p // self.j % self.m
        out.append(commutator.clock(cell))
    return out


def to_and_fro(self):
    """A commutator that turns back at the last line and at the first."""
    self.step = getattr(self, 'step', 1)
    if not 0 <= self.stands_on + self.step < len(self.lines):
        self.step = -self.step
    self.stands_on = max(0, min(self.stands_on + self.step, len(self.lines) - 1))


def one_behind(self, cell):
    """The output stands one line behind."""
    self.lines[self.stands_on].append(cell)
    line = self.lines[self.stands_on - 1]
    return line.popleft() if line else FILLER


def last_out(line, cell):
    """A stack."""
    if not line:
        return cell
    out = line.pop()
    line.append(cell)
    return out


def put_first(line, cell):
    """The cell is put before the others."""
    line.append(cell)
    out = line.popleft()
    line.rotate(1)
    return out


def not_moved(line, cell):
    return line[0] if line else cell


def filler_out(line, cell):
    line.append(cell)
    return line.popleft() if len(line) > 1 else FILLER


def in_store(turn):
    """The lines stand in the store turned: `turn` is its own way back and takes a list."""
    def lines_in(self, store):
        lines, first = [None] * self.m, 0
        for r in turn(list(range(self.m))):
            lines[r] = deque(store[first:first + self.line_length(r)])
            first += self.line_length(r)
        return lines
    return drawn(lines_in=lines_in, side_by_side=lambda self, lines: [cell for line in turn(list(lines)) for cell in line])


def newest_first():
    """The newest cell of a line stands first in the store."""
    return drawn(lines_in=lambda self, store: [deque(reversed(line)) for line in Drawing.lines_in(self, store)],
                 side_by_side=lambda self, lines: [cell for line in lines for cell in reversed(line)])


def commutator_bends():
    yield 'the commutator stands still', moving(lambda r, m: r)
    yield 'the commutator goes the other way', moving(lambda r, m: (r - 1) % m)
    yield 'the commutator moves on by two lines', moving(lambda r, m: (r + 2) % m)
    yield 'the commutator goes back to line 1', moving(lambda r, m: r + 1 if r + 1 < m else min(1, m - 1))
    yield 'the commutator stops at the last line', moving(lambda r, m: min(r + 1, m - 1))
    yield 'the commutator goes to and fro', switched(move_on=to_and_fro)
    yield 'the commutator begins on line 1', drawn(begin=on_line_1)
    yield 'the commutator moves on after J cells', drawn(through=turns_of_j)
    yield 'the output stands one line behind', switched(clock=one_behind)
    yield 'the commutator goes on from where the last symbol left it', drawn(begin=goes_on)
    yield 'no dummies, and the commutator goes on from where the last symbol left it', drawn(
        begin=goes_on, dummies=lambda self: 0)


def line_bends():
    lengths = {
        'r x J - 1': lambda self, r: max(r * self.j - 1, 0),
        'r x J + 1': lambda self, r: r * self.j + 1,
        '(r + 1) x J': lambda self, r: (r + 1) * self.j,
        '(r - 1) x J': lambda self, r: max(r - 1, 0) * self.j,
        '(M - 1 - r) x J': lambda self, r: (self.m - 1 - r) * self.j,
        'M - 1 times J': lambda self, r: (self.m - 1) * self.j,
        'r': lambda self, r: r,
        'J': lambda self, r: self.j,
        'r times N_I / M, rounded down,': lambda self, r: r * (self.n // self.m),
        'r x N_I / M, rounded up,': lambda self, r: -(-r * self.n // self.m),
        'no': lambda self, r: 0,
    }
    for name, length in lengths.items():
        yield 'line r holds %s cells' % name, drawn(line_length=length)
    yield 'the last line holds a cell less', drawn(
        line_length=lambda self, r: max(r * self.j - (r == self.m - 1), 0))
    yield 'line 1 holds a cell less', drawn(line_length=lambda self, r: r * self.j - (r == 1))
    yield 'J rounded down', drawn(ceiling=lambda self: self.n // self.m)
    yield 'J one more', drawn(ceiling=lambda self: Drawing.ceiling(self) + 1)
    yield 'J is N_I / M rounded down, and one more', drawn(ceiling=lambda self: self.n // self.m + 1)
    yield 'the last come goes first', clocked(last_out)
    yield 'the cell put before the others', clocked(put_first)
    yield 'the cell comes out at once', clocked(lambda line, cell: cell)
    yield 'the lines do not move', clocked(not_moved)
    yield 'line 0 gives filler', clocked(filler_out)
    yield 'the newest first in the store', newest_first()
    yield 'the lines in falling order in the store', in_store(lambda lines: lines[::-1])
    yield 'lines 1 and 2 exchanged in the store', in_store(lambda lines: lines[:1] + lines[1:3][::-1] + lines[3:])
    yield 'the lines not written back', drawn(side_by_side=lambda self, lines: [])
    yield 'the last cell not written back', drawn(side_by_side=lambda self, lines: Drawing.side_by_side(self, lines)[:-1])
    yield 'a cell written past the lines', drawn(
        side_by_side=lambda self, lines: Drawing.side_by_side(self, lines) + [FILLER])


def front(self, cells, dummy):
    return [dummy] * self.dummies() + cells


def dummy_bends():
    yield 'dummies sent, and the first cells not', drawn(kept=lambda self, out: out[len(out) - self.n:])
    yield 'dummies at the front', drawn(with_dummies=front, kept=lambda self, out: out[len(out) - self.n:],
                                        thrown=lambda self, out: out[:len(out) - self.n])
    yield 'dummies at the front, and the last cells not sent', drawn(with_dummies=front)
    yield 'no dummies', drawn(dummies=lambda self: 0)
    yield 'a dummy too few', drawn(dummies=lambda self: max(Drawing.dummies(self) - 1, 0))
    yield 'a dummy too many', drawn(dummies=lambda self: Drawing.dummies(self) + 1)
    yield 'two dummies too many', drawn(dummies=lambda self: Drawing.dummies(self) + 2)
    yield 'a turn of dummies too many', drawn(dummies=lambda self: Drawing.dummies(self) + self.m)
    yield 'M - 1 dummies', drawn(dummies=lambda self: self.m - 1)
    yield 'dummies are placeholders', {'dummy': lambda self: SCATTERED}
    yield 'dummies are 0', {'dummy': lambda self: 0}
    yield 'dummies are the last cell again', drawn(
        with_dummies=lambda self, cells, dummy: cells + [cells[-1]] * self.dummies())
    yield 'dummies do not move the lines', drawn(
        through=lambda self, lines, cells: Drawing.through(self, lines, cells[:self.n]) + cells[self.n:])


def ordered(*order):
    return {'step_order': order}


def short_of(length):
    """27 asks for another length, given N_I and M."""
    return {'ground_27': lambda self, at, given:
            0 if given.store is not None and len(given.store) < length(at.n, at.m) else None}


def not_tried(in_entry):
    """27 is not tried in an entry, which is told by what it is given."""
    return {'ground_27': lambda self, at, given: None if in_entry(given) else Figure.ground_27(self, at, given)}


def ground_bends():
    yield '27 before 25', ordered(27, 25, 16, 17, 18, 19)
    yield '27 before 16', ordered(25, 27, 16, 17, 18, 19)
    yield '27 before 17', ordered(25, 16, 27, 17, 18, 19)
    yield '27 after 18', ordered(25, 16, 17, 18, 27, 19)
    yield '27 after 19', ordered(25, 16, 17, 18, 19, 27)
    yield '27 not tried', ordered(25, 16, 17, 18, 19)
    yield '17 before 16', ordered(25, 17, 16, 27, 18, 19)
    yield '17 after 18', ordered(25, 16, 27, 18, 17, 19)
    yield '17 not tried', ordered(25, 16, 27, 18, 19)
    yield '19 before 18', ordered(25, 16, 17, 27, 19, 18)
    yield '27 with place 1', {'ground_27': lambda self, at, given: (
        1 if Figure.ground_27(self, at, given) == 0 else None)}
    yield '27 with the number 17', {'ground_17': lambda self, at, given: (
        Figure.ground_17(self, at, given) if Figure.ground_27(self, at, given) is None else 0)}
    yield "17 asks for the first emitter's length too", {'ground_17': Emitter.ground_17}
    lengths = {
        "the first emitter's length": emitter_length,
        'a cell more': lambda n, m: literal_length(n, m) + 1,
        'a cell less': lambda n, m: literal_length(n, m) - 1,
        'M x N_I cells': lambda n, m: n * m,
        'J x M x M / 2 cells': lambda n, m: -(-n // m) * m * m // 2,
        'J x M x (M + 1) / 2 cells': lambda n, m: -(-n // m) * m * (m + 1) // 2,
        '(M - 1) x N_I / 2 cells': lambda n, m: n * (m - 1) // 2,
        'the length at depth 32': lambda n, m: literal_length(n, 32),
    }
    for name, length in lengths.items():
        yield '27 asks for ' + name, short_of(length)
    yield '27 not tried in an emit', not_tried(lambda given: given.data is not None)
    yield '27 not tried in a flush', not_tried(lambda given: given.symbol is not None and given.data is None)
    yield '27 not tried in a fresh start', not_tried(lambda given: given.symbol is None)


def back(phase_back):
    """The symbols before a fresh start at other phases."""
    return {'phase_back': lambda self, phase, b: phase_back(phase, b)}


def fresh_of(change):
    """Another fresh store: `change` is given each line and J."""
    return {'fresh_lines': lambda self, at, phase: [
        change(list(line), self.drawing_of(at).j) for line in Figure.fresh_lines(self, at, phase)]}


def fresh_bends():
    yield 'a fresh store of filler only', fresh_of(lambda line, j: [FILLER] * len(line))
    yield 'a fresh store of placeholders only', fresh_of(lambda line, j: [SCATTERED] * len(line))
    yield 'a fresh store with the newest first', fresh_of(lambda line, j: line[::-1])
    yield 'a fresh store with the newest symbol first', fresh_of(
        lambda line, j: [cell for i in range(len(line) - j, -1, -j) for cell in line[i:i + j]])
    yield 'a fresh store turned by a cell', fresh_of(lambda line, j: line[1:] + line[:1])
    yield 'a fresh store whose oldest symbol is filler', fresh_of(lambda line, j: [FILLER] * len(line[:j]) + line[j:])
    yield 'a fresh store whose newest symbol is filler', fresh_of(lambda line, j: line[:-j] + [FILLER] * len(line[-j:]))
    yield 'fresh phases one early', back(lambda phase, b: (phase - b - 1) % 128)
    yield 'fresh phases one late', back(lambda phase, b: (phase - b + 1) % 128)
    yield 'fresh phases ahead', back(lambda phase, b: (phase + b) % 128)
    yield 'fresh phases all the same', back(lambda phase, b: phase)
    yield 'fresh phases go round at 127', back(lambda phase, b: (phase - b) % 127)
    yield 'fresh phases do not go round', back(lambda phase, b: max(phase - b, 0))


def passes_on(self, plan, phase, store, data, symbol, profile=FULL):
    """A refused step passes a symbol on."""
    answer = Figure.step(self, plan, phase, store, data, symbol, profile)
    if answer[0] == 'refused' and answer[1] in (18, 19):
        Figure.step(self, plan, phase, store, None, list(symbol))
    return answer


def flush_keeps(self, plan, phase, store, data, symbol, profile=FULL):
    """A flush leaves the lines as they are."""
    return Figure.step(self, plan, phase, list(store) if data is None else store, data, symbol, profile)


def step_bends():
    yield 'a refused step passes a symbol through the lines', {'step': passes_on}
    yield 'a flush leaves the lines', {'step': flush_keeps}
    yield 'the phase goes round at 127', {'next_phase': lambda self, phase: (phase + 1) % 127}
    yield 'the phase stays', {'next_phase': lambda self, phase: phase}


def bends():
    """(name, methods of the second emitter that are others)."""
    for some in (commutator_bends, line_bends, dummy_bends, ground_bends, fresh_bends, step_bends):
        yield from some()


# --- the run -----------------------------------------------------------------

def main():
    check_facts()
    for depth in DEPTHS:
        check_fresh(plans.near_a(M=depth), 4 * depth - 1)
    wrong, sent, refused, by_27, thrown = 0, 0, 0, 0, 0
    runs = []
    for run in some_runs():
        want = wanted(run)
        runs.append((run, want))
        steps = want[4:]
        sent += sum(answer[0] == 'sent' for answer, *_ in steps)
        refused += sum(answer[0] == 'refused' for answer, *_ in steps)
        by_27 += sum(answer[:2] == ('refused', 27) for answer, *_ in steps)
        thrown += sum(len(cells) for _, _, cells, _ in steps)
        if differs(Figure(), run, want):
            print('differs: ' + run.name)
            wrong += 1
    noticed = 0
    for name, methods in bends():
        model = type('Bent', (Figure,), methods)()
        seen = any(differs(model, run, want) for run, want in runs)
        noticed += seen
        if seen != (name not in NO_DIFFERENT):
            print(('noticed, though no different: ' if seen else 'not noticed: ') + name)
            wrong += 1
    print('%d runs from fresh starts, %d symbols sent, %d steps refused, %d of them by 27: the same from both emitters; '
          '%d cells thrown away, all filler; %d bent models noticed, %d no different'
          % (len(runs), sent, refused, by_27, thrown, noticed, len(NO_DIFFERENT)))
    sys.exit(1 if wrong else 0)


if __name__ == '__main__':
    main()
