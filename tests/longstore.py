#!/usr/bin/env python3
"""The long store of the scope paper beside the short one of request 03.

    python3 tests/longstore.py

The scope paper keeps M rows of N_I cells, and the row of the next step in the state.  From a fresh
start the short store gives the same: the same steps, refused ones among them, send the same symbols
and are answered alike, and the same arrivals are answered alike and hand out the same data.  That is
compared here, over random plans of several depths, N_I a multiple of the depth and not, from phases
before the wrap from 127 to 0.  Then each of the two models is bent in turn, and some run has to notice.
"""

import random
import sys
from typing import NamedTuple

sys.dont_write_bytecode = True

import plans
from emitter import FULL, Given
from receiver import Receiver

DEPTHS = (1, 2, 3, 4, 7, 31, 32)
SENDS = ('emit', 'emit', 'emit', 'flush', 'a cell too few', 'a cell too high', 'phase', 'symbol', 'store')
ARRIVALS = ('sent', 'sent', 'sent', 'other data', 'a wrong mark', 'the symbol before', 'phase', 'heard',
            'symbol', 'store', 'buffer')


# --- the long store ----------------------------------------------------------

class Long(Receiver):
    """The model with M rows of N_I cells.  The row stands behind the phase in every state."""

    def emitter_places(self, at, p):
        """A place in each row; ground 17 asks how many there are."""
        return at.m

    receiver_places = emitter_places

    def place(self, at, row, p):
        """Cell p of a row: row after row."""
        return row % at.m * at.n + p

    def write(self, at, row, store, cells):
        for p, cell in enumerate(cells):
            store[self.place(at, row, p)] = cell

    def back(self, at, row, store, rows):
        """Each cell p from so many rows back, around the ring."""
        return [store[self.place(at, row - rows(p), p)] for p in range(at.n)]

    def next_row(self, at, phase, row):
        return (row + 1) % at.m

    def fresh_rows(self, at, phase):
        """Row 0 is filler; row M - r holds the symbol r steps back, without data."""
        filler = [self.limits.filler_mark] * at.n
        return [filler] + [self.input_symbol(at, (phase - r) % self.limits.phases, None)
                           for r in range(at.m - 1, 0, -1)]

    def fresh(self, plan, phase, store):
        refused = self.refusal(plan, Given(phase, store))
        if refused:
            return refused
        at = self.layout(plan)
        for row, cells in enumerate(self.fresh_rows(at, phase)):
            self.write(at, row, store, cells)
        return ('fresh', phase, 0)

    def step(self, plan, phase, row, store, data, symbol):
        refused = self.refusal(plan, Given(phase, store, data, symbol, profile=FULL))
        if refused:
            return (*refused, phase, row)
        at = self.layout(plan)
        self.write(at, row, store, self.input_symbol(at, phase, data))
        self.send(at, self.back(at, row, store, lambda p: self.delay(at, p)), symbol)
        return ('sent', self.next_phase(phase), self.next_row(at, phase, row))

    def listen(self, plan, phase, store):
        refused = self.refusal(plan, Given(phase, store, end='receiver'))
        if refused:
            return refused
        at = self.layout(plan)
        self.fill(store, [self.limits.filler_mark] * (at.m * at.n))
        return ('fresh', phase, 0, 0)

    def receive(self, plan, phase, row, heard, store, symbol, buffer):
        refused = self.refusal(plan, Given(phase, store, heard=heard, arriving=symbol, buffer=buffer,
                                           end='receiver', profile=FULL))
        if refused:
            return (*refused, phase, row, heard)
        at = self.layout(plan)
        self.write(at, row, store, self.arriving_cells(at, symbol))
        after = (self.next_phase(phase), self.next_row(at, phase, row), self.next_heard(at, heard))
        if self.is_warming(at, heard):
            return ('warming', *after)
        cells = self.back(at, row, store, lambda p: at.m - 1 - self.delay(at, p))
        data = self.handed(at, phase, cells)
        self.hand_out(buffer, data)
        return ('data', len(data), *after)


# --- what is asked -----------------------------------------------------------

class Run(NamedTuple):
    """A plan, a starting phase, what an emitter is asked and what arrives at a receiver."""
    name: str
    plan: bytes
    start: int
    sends: list         # (kind, a number to make data of)
    arrivals: list      # (kind, symbol)


def some_plan(rng, m, divides):
    """A plan of this depth near Plan A, with N_I a multiple of it or not."""
    model = Receiver()
    while True:
        low = rng.randrange(860, 1176)
        pilots = rng.sample([k for k in range(800, 1241) if not low - 56 <= k < low + 64], rng.randrange(60))
        plan = plans.near_a(plans.singles(*rng.sample(range(800, 1241), rng.randrange(4))), pilots, L=low, M=m)
        at = model.layout(plan)
        if not isinstance(at, tuple) and (at.n % m == 0) == divides:
            return plan


def sends_of(rng, m, accepted):
    """Emits and flushes, so many accepted, refused ones between.  At depth 1 no store is too short."""
    sends = []
    while sum(kind in ('emit', 'flush') for kind, _ in sends) < accepted:
        kind = rng.choice(SENDS)
        if m > 1 or kind != 'store':
            sends.append((kind, rng.randrange(1, 2 ** 30)))
    return sends


def arrivals_of(rng, at, symbols):
    """The symbols, and others that are refused or taken in their place."""
    arrivals, before = [], symbols[0]
    for symbol in symbols:
        kind = rng.choice(ARRIVALS)
        other = list(symbol)
        if kind == 'other data':
            for k in rng.sample(at.subcarriers, 5):
                if other[k] != 0x8000:
                    other[k] = rng.choice((0, 16383, 0x8001, rng.randrange(16384)))
        if kind == 'a wrong mark':
            other[rng.randrange(4096)] ^= 0x8004
        if kind == 'the symbol before':
            other = before
        if at.m > 1 or kind != 'store':
            arrivals.append((kind, other))
        if kind not in ('sent', 'other data'):
            arrivals.append(('sent', symbol))
        before = symbol
    return arrivals


def some_run(rng, name, plan, start, accepted):
    model = Receiver()
    sends = sends_of(rng, plan[7], accepted)
    symbols = [symbol for answer, symbol in sent(model, plan, start, sends)[1:] if answer[0] == 'sent']
    return Run(name, plan, start, sends, arrivals_of(rng, model.layout(plan), symbols))


def some_runs():
    rng = random.Random(3)
    for m in DEPTHS:
        for divides in (True,) if m == 1 else (True, False):
            for start in (127, rng.randrange(96, 127)):
                yield some_run(rng, 'depth %d, a multiple of it: %s, phase %d' % (m, divides, start),
                               some_plan(rng, m, divides), start, 2 * m + 6)
    yield some_run(rng, 'depth 3 over two wraps', plans.near_a(M=3), 120, 140)
    yield some_run(rng, 'largest', plans.LARGEST, 100, 40)


# --- what comes of it --------------------------------------------------------

def without_row(model, answer, numbers):
    """An answer, whose last numbers are the state; the long store has the row as the second of them."""
    if not isinstance(model, Long):
        return answer
    row = len(answer) - numbers + 1
    return answer[:row] + answer[row + 1:]


def sent(model, plan, start, sends):
    """(answer, symbol) of each step from a fresh start."""
    at = model.layout(plan)
    numbers = 1 + isinstance(model, Long)
    store = [7] * model.places(at).length
    answer = model.fresh(plan, start, store)
    state, seen = answer[1:], [(without_row(model, answer, numbers), [])]
    for kind, seed in sends:
        count = model.count(at, state[0])
        data = [(seed + i * 48271) % 16384 for i in range(count - (kind == 'a cell too few'))]
        if kind == 'a cell too high':
            data[seed % count] = 16384
        symbol = [9] * (4096 - (kind == 'symbol'))
        lent = store[:-1] if kind == 'store' else store
        given = (state[0] + 128, *state[1:]) if kind == 'phase' else state
        answer = model.step(plan, *given, lent, None if kind == 'flush' else data, symbol)
        if answer[0] == 'sent':
            state = answer[1:]
        seen.append((without_row(model, answer, numbers), symbol))
    return seen


def received(model, plan, start, arrivals):
    """(answer, data buffer) of each receive step from a fresh start."""
    at = model.layout(plan)
    numbers = 2 + isinstance(model, Long)
    store = [7] * model.places(at, 'receiver').length
    answer = model.listen(plan, start, store)
    state, seen = answer[1:], [(without_row(model, answer, numbers), [])]
    for kind, symbol in arrivals:
        buffer = [9] * (0 if kind == 'buffer' else 4096)
        given = list(state)
        given[0] += 128 * (kind == 'phase')
        given[-1] += at.m * (kind == 'heard')
        lent = store[:-1] if kind == 'store' else store
        answer = model.receive(plan, *given, lent, symbol[kind == 'symbol':], buffer)
        if answer[0] != 'refused':
            state = answer[-numbers:]
        seen.append((without_row(model, answer, numbers), buffer))
    return seen


def outcomes(model, run):
    return sent(model, run.plan, run.start, run.sends), received(model, run.plan, run.start, run.arrivals)


# --- bent models -------------------------------------------------------------

def bent(model, **methods):
    return type('Bent', (model,), methods)()


def refused_moves(self, plan, phase, store, data, symbol):
    answer = Receiver.step(self, plan, phase, store, data, symbol)
    if answer[0] == 'refused' and answer[1] > 17:
        at = self.layout(plan)
        self.move(self.places(at), store, self.input_symbol(at, phase, None))
    return answer


def warming_keeps(self, plan, phase, heard, store, symbol, buffer):
    was = list(store)
    answer = Receiver.receive(self, plan, phase, heard, store, symbol, buffer)
    if answer[0] == 'warming':
        store[:] = was
    return answer


def newest(self, places, store, cells):
    """Moves as if the newest stood first."""
    out = []
    for first, count, cell in zip(places.first, places.counts, cells):
        kept = [cell, *store[first:first + count]]
        out.append(kept[0] if count == 0 else kept[1])
        store[first:first + count] = kept[:count]
    return out


def all_bent():
    short = {
        'the newest goes out': {'move': newest},
        'a place more for each cell': {'emitter_places': lambda self, at, p: p % at.m + 1},
        'a place less': {'emitter_places': lambda self, at, p: max(p % at.m - 1, 0)},
        'places by rank': {'emitter_places': lambda self, at, p: at.ranks[p] % at.m},
        'places by M - 1 - p mod M': {'emitter_places': lambda self, at, p: at.m - 1 - p % at.m},
        'receiver with the places of the emitter': {'receiver_places': lambda self, at, p: p % at.m},
        'receiver with a place more': {'receiver_places': lambda self, at, p: at.m - p % at.m},
        'receiver with places by rank': {'receiver_places': lambda self, at, p: at.m - 1 - at.ranks[p] % at.m},
        'fresh places all filler': {'fresh_places': lambda self, at, phase: [
            [0x8001] * (p % at.m) for p in range(at.n)]},
        'fresh places one phase late': {'fresh_places': lambda self, at, phase: Receiver.fresh_places(
            self, at, (phase + 1) % 128)},
        'fresh places the newest first': {'fresh_places': lambda self, at, phase: [
            places[::-1] for places in Receiver.fresh_places(self, at, phase)]},
        'the phase goes round at 127': {'next_phase': lambda self, phase: (phase + 1) % 127},
        'a refused step moves the store': {'step': refused_moves},
        'a warming step leaves the store': {'receive': warming_keeps},
    }
    long = {
        'long: the row is phase mod M': {'next_row': lambda self, at, phase, row: (phase + 1) % 128 % at.m},
        'long: the row stays': {'next_row': lambda self, at, phase, row: row},
        'long: the ring goes backwards': {'next_row': lambda self, at, phase, row: (row - 1) % at.m},
        'long: a row more back': {'back': lambda self, at, row, store, rows: Long.back(
            self, at, row, store, lambda p: rows(p) + 1)},
        'long: fresh rows the other way round': {'fresh_rows': lambda self, at, phase: [
            Long.fresh_rows(self, at, phase)[-row] for row in range(at.m)]},
        'long: fresh rows all filler': {'fresh_rows': lambda self, at, phase: [[0x8001] * at.n] * at.m},
    }
    for name, methods in short.items():
        yield name, bent(Receiver, **methods)
    for name, methods in long.items():
        yield name, bent(Long, **methods)


# --- the run -----------------------------------------------------------------

def main():
    wrong = 0
    runs = []
    for run in some_runs():
        want = outcomes(Receiver(), run)
        runs.append((run, want))
        if outcomes(Long(), run) != want:
            print('differs: ' + run.name)
            wrong += 1
    noticed = 0
    for name, model in all_bent():
        if any(outcomes(model, run) != want for run, want in runs):
            noticed += 1
        else:
            print('not noticed: ' + name)
            wrong += 1
    kinds = [answer[0] for _, want in runs for seen in want for answer, _ in seen[1:]]
    print('%d runs from fresh starts, %d symbols sent, %d handed out, %d warming, %d refused: the same from both stores; '
          '%d bent models noticed' % (len(runs), *map(kinds.count, ('sent', 'data', 'warming', 'refused')), noticed))
    sys.exit(1 if wrong else 0)


if __name__ == '__main__':
    main()
