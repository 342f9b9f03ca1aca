#!/usr/bin/env python3
"""Makes the test data of receivecases from the second model of the receiver.

    python3 tests/receives.py              writes crates/receivecases/stdin and stdout
    python3 tests/receives.py --check      compares them, exits 1 on a difference
    python3 tests/receives.py --mutants    bends the model in many ways, each of
                                           which must change a line of stdout;
                                           exits 1 if one does not

A number here is four bytes, high byte first.  stdin holds, for each case: the
plan's length (the upper two bytes zero), the starting phase, `need` and the number
of acts; then the plan; then the acts, a byte each, of which an act 3 has 28 bytes
more.  The end of the input ends the list.  `need` is how many cells a receiver's store
has at least, the sum of M - 1 - (p mod M) over the cells p below N_I; 0 of a refused
plan.  A case whose fresh start is refused has no acts.

What the program does with a case:

- `x` is the generator: x starts at 1 for each case; the next is
  x = x * 48271 % 2147483647; a data cell is x % 16384 of the new x.
- `sum` is the checksum, 0 at the start of a case:
  mix(sum, v) = (sum * 48271 + v) % 2147483647.
- All cells are 43981 at the start of each case: the emitter's store and the
  receiver's, 60,000 cells each; the line, 4,097 cells; the data buffer, 4,096 cells.
- First two fresh receivers at the starting phase: the first with only the first
  need - 1 cells of the receiver's store, none if `need` is 0, after which the first 16
  cells of the store are mixed; the second with exactly the first `need` cells.  Their
  answers are mixed: 1, then phase and heard of the state; or 2, number and place.
- Then the fresh receiver of the case, at the starting phase, with the whole
  store; its answer is mixed in the same way.  If it was refused, the case ends here.
- Then the fresh emitter at the starting phase, with its whole store.  Nothing of
  what the emitter answers is mixed.
- Then the acts, in order:
     0  emit with N_D generated cells, N_D being that of the emitter's phase, into
        the first 4,096 cells of the line
     1  flush into the first 4,096 cells of the line
     2  receive: the state as the run has it, the whole store, the first 4,096 cells
        of the line, the whole data buffer
     3  receive with seven numbers, which follow in the input:
          phase, heard        added to those of the state, modulo 2^32
          store               how many cells of the store are lent, from the first
                              (at most 60,000)
          symbol              how many cells of the line are given, from the first
                              (at most 4,097)
          buffer              how many cells of the data buffer are lent, from the
                              first (at most 4,096)
          change, change      upper two bytes a place, lower two a cell: the symbol
                              has that cell at that place of the line; place 65535
                              is none.  The line itself is as before after the act.
  An act with another number, 4 or more, counts as 2.
- After each act 2 or 3 the answer is mixed: of warming 1, of data 3 and the
  count, of a refusal 2, number and place; each time then phase and heard of the state
  that is handed back; then all 4,096 cells of the data buffer.  The run goes on with
  the state handed back by warming or data; after a refusal it goes on with the state
  as it was before the act, without what was added.
- At the end of the case, also if the fresh start was refused, mix all 60,000 cells of
  the receiver's store.

The case's line: `warmed handed refused sum`, decimal, single spaces: how many
acts answered warming, data, a refusal; the checksum.  If the fresh start was refused:
`refused number place sum`, the first being that word.
"""

import struct
import sys
from array import array
from functools import lru_cache
from itertools import chain, permutations

sys.dont_write_bytecode = True

import emits
import receiver
import stored
from emits import STORE, SYMBOL, TOP, UNTOUCHED, Generator
from emitter import Emitter, Given, emitter_length
from receiver import Receiver, receiver_length
from stored import PRIME, mix, mix_cells

EMIT, FLUSH, RECEIVE, RECEIVE_WITH = b'\0', b'\1', b'\2', b'\3'
NOWHERE = (65535, 0)
# Cells that are wrong for some role.
CELLS = (0, 5, 16383, 16384, 32767, 0x8000, 0x8001, 0x8002, 0x8003, 0x8004, 0x8005, 0xC001, 65535)


# --- the acts --------------------------------------------------------------

def receive_with(phase=0, heard=0, store=STORE, symbol=SYMBOL, buffer=SYMBOL, changes=()):
    """Act 3 with its numbers."""
    first, second = (*changes, NOWHERE, NOWHERE)[:2]
    numbers = [n % (TOP + 1) for n in (phase, heard, store, symbol, buffer)]
    numbers += [place * 65536 + cell for place, cell in (first, second)]
    return RECEIVE_WITH + struct.pack('>7I', *numbers)


class Acts:
    """The acts of a case, and how many should answer what: the state goes with them,
    and roles and N_D are those of the model."""
    sound = Receiver()

    def __init__(self, seed, plan, start):
        self.at = self.sound.layout(plan)
        self.need = receiver_length(self.at.n, self.at.m)
        self.x = seed
        self.acts = []
        self.on_line = {}       # by phase, the subcarriers of each mark
        self.phase, self.heard = start, 0
        self.warmed = self.handed = self.refused = 0

    def draw(self, n):
        self.x = self.x * 48271 % PRIME
        return self.x // 64 % n

    def one_of(self, things):
        return things[self.draw(len(things))]

    def warming(self):
        return self.heard < self.at.m - 1

    def count(self):
        """The count of the symbol that comes out now."""
        return self.sound.count(self.at, (self.phase - self.at.m + 1) % 128)

    # What stands on the line.

    def carriers(self):
        """The subcarriers that carry each mark, or under None data."""
        if self.phase not in self.on_line:
            carriers = self.on_line[self.phase] = {}
            for k, mark in enumerate(self.sound.marks_at(self.at, self.phase)):
                carriers.setdefault(mark, []).append(k)
        return self.on_line[self.phase]

    def some_carrier(self, mark):
        """The first, the last or another one."""
        carriers = self.carriers()[mark]
        return self.one_of((carriers[0], carriers[-1], self.one_of(carriers)))

    def wrong_cells(self):
        """Every pair of a role's mark and a cell that is wrong for it."""
        return [(mark, cell) for mark in self.carriers() for cell in CELLS
                if cell != mark and (mark is not None or cell > 16383 and cell != 0x8001)]

    def a_wrong_cell(self):
        mark, cell = self.one_of(self.wrong_cells())
        return self.some_carrier(mark), cell

    def another_symbol(self, phase):
        """Is a symbol at another phase refused now?"""
        return (self.sound.marks_at(self.at, phase % 128)
                != self.sound.marks_at(self.at, self.phase))

    # What a refused step is given.

    def out_of_range(self):
        """By 16; then several at once, 16 before 17 and 20."""
        m, bad = self.at.m, (self.a_wrong_cell(),)
        beyond = [{'phase': n} for n in (128 - self.phase, 128, 256, 65536, -128, TOP - self.phase)]
        beyond += [{'heard': n} for n in (m - self.heard, 32, 256, 65536, TOP - self.heard)]
        return beyond + [
            {'phase': 128, 'heard': 32},
            {'phase': 128, 'store': 0},
            {'phase': 128, 'symbol': 4095},
            {'phase': 128, 'changes': bad},
            {'heard': m - self.heard, 'store': 0},
            {'heard': m - self.heard, 'buffer': 0},
            {'heard': 32, 'changes': bad},
            {'heard': 32, 'symbol': 4097, 'changes': bad}]

    def too_short(self):
        """By 17; then 17 before 20.  At depth 1 no store is too short."""
        bad, m = (self.a_wrong_cell(),), self.at.m
        short = [{'store': n} for n in (self.need - 1, emitter_length(self.at.n, m), 0) if 0 <= n < self.need]
        short += [{'symbol': 4095}, {'symbol': 4097}, {'symbol': 0}]
        if not self.warming():
            short += [{'buffer': self.count() - 1}, {'buffer': 0}]
        return short + [{**given, 'changes': bad} for given in short]

    def wrong_symbol(self):
        """By 20."""
        cells = [{'changes': ((self.some_carrier(mark), cell),)}
                 for mark, cell in self.wrong_cells()]
        pairs = [{'changes': (self.a_wrong_cell(), self.a_wrong_cell())} for _ in range(12)]
        return cells + pairs + [
            {'phase': n} for n in (1, -1, 64 - self.phase)
            if 0 <= self.phase + n < 128 and self.another_symbol(self.phase + n)]

    def refuse(self, given):
        self.acts.append(receive_with(**given))
        self.refused += 1

    def refuse_all(self):
        for given in (*self.out_of_range(), *self.too_short(), *self.wrong_symbol()):
            self.refuse(given)

    def refuse_some(self):
        kind = self.one_of((self.out_of_range, self.too_short, self.wrong_symbol))
        self.refuse(self.one_of(kind()))

    def refuse_again(self):
        """The symbol that was accepted last, once more."""
        if self.another_symbol(self.phase - 1):
            self.acts.append(RECEIVE)
            self.refused += 1

    # What an accepted step is given.

    def plain(self):
        """A state as the run has it, a sent symbol as it is."""
        buffer = 0 if self.warming() else self.count()
        return ({'store': self.need}, {'buffer': buffer}, {'store': self.need, 'buffer': buffer})

    def strange(self):
        """Other data or filler, another heard that is in range."""
        m, (k, other) = self.at.m, (self.some_carrier(None), self.some_carrier(None))
        buffer = 0 if self.warming() else self.count() - 1
        strange = [{'changes': ((k, cell),)} for cell in (0, 16383, 0x8001)]
        strange += [{'changes': ((k, 0x8001), (other, 7))},
                    {'heard': m - 1 - self.heard},
                    {'heard': m - 1 - self.heard, 'changes': ((k, 0x8001),)}]
        if m > 1:
            strange += [{'heard': max(m - 2 - self.draw(2), 0) - self.heard, 'buffer': buffer},
                        {'heard': m - 2 - self.heard, 'buffer': 0}]
        return strange

    def send(self):
        self.acts.append(FLUSH if self.draw(5) == 0 else EMIT)

    def accept(self, given=None):
        """None is a receive step without numbers."""
        plain = RECEIVE if self.draw(20) else bytes([self.one_of((4, 77, 128, 255))])
        self.acts.append(plain if given is None else receive_with(**given))
        self.phase += (given or {}).get('phase', 0)
        self.heard += (given or {}).get('heard', 0)
        self.warmed += self.warming()
        self.handed += not self.warming()
        self.heard += self.warming()
        self.phase = (self.phase + 1) % 128

    def skip(self):
        """Symbols that do not come: the receiver is given the phase of the one after them, and so hands out
        placeholders for a while."""
        missed = 1 + self.draw(3)
        for _ in range(missed + 1):
            self.send()
        self.accept({'phase': (self.phase + missed) % 128 - self.phase})

    def step(self, strange):
        """A symbol sent, given to the receiver until it is accepted."""
        if strange and self.draw(8) == 0:
            self.skip()
        self.send()
        while self.draw(3) == 0:
            self.refuse_some()
        how = self.draw(10)
        if strange and how < 3:
            self.accept(self.one_of(self.strange()))
        else:
            self.accept(self.one_of(self.plain()) if how > 7 else None)
        if self.draw(12) == 0:
            self.refuse_again()


# --- the cases -------------------------------------------------------------

def run_of(seed, plan, start, steps, strange, every):
    """So many accepted steps, refused ones between; with `every`, all kinds of
    refusal before the first and after the last.  At the end a symbol is left out."""
    run = Acts(seed, plan, start)
    run.send()
    if every:
        run.refuse_all()
    run.accept()
    for _ in range(steps - 1):
        run.step(strange)
    run.send()
    if every:
        run.refuse_all()
    if run.another_symbol(run.phase + 1):
        run.send()
        run.acts.append(RECEIVE)
        run.refused += 1
    return run


def all_cases():
    """(name, plan, phase, acts, want): the plans and phases of the emitter's
    cases.  `want` is the line's first words: by hand of a refused start, of the others
    counted as the acts were made."""
    cases = []
    for n, (name, plan, phase, _, want) in enumerate(emits.all_cases()):
        assert isinstance(want, str) or Acts.sound.layout(plan).n == want, name
        if isinstance(want, str) or name.endswith('no steps'):
            want = want if isinstance(want, str) else '0 0 0'
            cases.append((name, plan, phase, [], want))
            continue
        # The first are short, with every kind of refusal, and so is Plan A's; some
        # are longer than 128 steps; every third is strange.
        steps = 2 + n if n < 4 else 140 if n % 8 in (4, 5) else 28 + 2 * plan[7]
        run = run_of(n + 1, plan, phase, steps, n % 3 == 1, n < 4 or name == 'plan A')
        cases.append((name, plan, phase, run.acts,
                      '%d %d %d' % (run.warmed, run.handed, run.refused)))
    return cases


# --- the lines -------------------------------------------------------------

def need_of(plan):
    at = Acts.sound.layout(plan)
    return 0 if isinstance(at, tuple) else receiver_length(at.n, at.m)


@lru_cache(maxsize=None)
def sent_by(plan, start, sends):
    """The symbols that a sound emitter sends, of the acts that send."""
    emitter, cells, store, line = Emitter(), Generator(), [UNTOUCHED] * STORE, [0] * SYMBOL
    _, phase = emitter.fresh(plan, start, store)
    sent = []
    for act in sends:
        data = None if act == FLUSH else cells.take(emitter.data_count(plan, phase))
        _, phase = emitter.step(plan, phase, store, data, line)
        sent.append(array('H', line))
    return sent


def given_to(act, state):
    """State, how much of the store, the line and the buffer, and the changes that a
    receive step is given."""
    if act[:1] != RECEIVE_WITH:
        return state, STORE, SYMBOL, SYMBOL, ()
    *added, store, symbol, buffer, first, second = struct.unpack('>7I', act[1:])
    state = tuple((n + more) % (TOP + 1) for n, more in zip(state, added))
    return state, store, symbol, buffer, (divmod(first, 65536), divmod(second, 65536))


def mix_answer(total, answer):
    """Mixes what a fresh start or a step answers."""
    code = {'fresh': 1, 'warming': 1, 'refused': 2, 'data': 3}[answer[0]]
    return mix(total, (code, *answer[1:]))


def start_of(model, plan, start, store):
    """The fresh starts of a case: the checksum, and what the last one answers."""
    need, total = need_of(plan), 0
    for spare in (1, 0):
        part = store[:max(need - spare, 0)]
        size = len(part)
        total = mix_answer(total, model.listen(plan, start, part))
        assert len(part) == size
        store[:size] = part
        if spare:
            total = mix_cells(total, store[:16])
    answer = model.listen(plan, start, store)
    return mix_answer(total, answer), answer


def received(model, plan, state, act, store, line, buffer):
    """What a receive step answers."""
    given, room, width, size, changes = given_to(act, state)
    lent, into = store if room == STORE else store[:room], buffer[:size]
    symbol = line[:width]
    for place, cell in changes:
        emits.put(symbol, place, cell)
    answer = model.receive(plan, *given, lent, symbol, into)
    assert len(lent) == room and len(into) == size
    if lent is not store:
        store[:room] = lent
    buffer[:size] = into
    return answer


def line_of(model, plan, start, acts):
    """The line of a case."""
    store, buffer = [UNTOUCHED] * STORE, [UNTOUCHED] * SYMBOL
    total, answer = start_of(model, plan, start, store)
    if answer[0] == 'refused':
        return 'refused %d %d %d' % (*answer[1:], mix_cells(total, store))
    state, line = answer[1:], []
    counts = {'warming': 0, 'data': 0, 'refused': 0}
    sent = iter(sent_by(plan, start, tuple(act for act in acts if act in (EMIT, FLUSH))))
    for act in acts:
        if act in (EMIT, FLUSH):
            line = [*next(sent), UNTOUCHED]
            continue
        answer = received(model, plan, state, act, store, line, buffer)
        counts[answer[0]] += 1
        if answer[0] != 'refused':
            state = answer[-2:]
        total = mix_cells(mix_answer(total, answer), buffer)
    return '%d %d %d %d' % (*counts.values(), mix_cells(total, store))


def make():
    """The cases, their lines, and the bytes of stdin and stdout."""
    cases = all_cases()
    given = b''
    lines = []
    model = Receiver()
    assert len({case[0] for case in cases}) == len(cases), 'two cases of one name'
    for name, plan, phase, acts, want in cases:
        line = line_of(model, plan, phase, acts)
        assert line.startswith(want + ' '), '%s: expected %s, model %s' % (name, want, line)
        lines.append(line)
        given += struct.pack('>4I', len(plan), phase, need_of(plan), len(acts))
        given += plan + b''.join(acts)
    return cases, lines, given, ''.join(x + '\n' for x in lines).encode()


# --- mutants ---------------------------------------------------------------

EQUIVALENT = {
    'nothing': 'The model that the others bend, as it is.',
    'phase of the input not taken modulo 128':
        'The grid repeats every 128 subcarriers, so it is the same at phase j and j + 128.',
    'heard after data is M - 1': 'No other heard is in range and answers data.',
}


class Total(emits.Total, Receiver):
    """The model that is bent.  Whatever the bend, it answers, as a program does:
    a cell that it is not given reads 0, one that has no place is not written."""

    def arriving_cells(self, at, symbol):
        return Receiver.arriving_cells(self, at, symbol + [0] * (SYMBOL - len(symbol)))

    def hand_out(self, buffer, data):
        buffer[:] = (data + buffer[len(data):])[:len(buffer)]


def bent(**methods):
    """A model of which some methods are others."""
    return type('Bent', (Total,), methods)()


def fresh_mutants():
    def fresh(change):
        """Another fresh start: `change` is given the layout, the store and the state,
        and answers the state."""
        def listen(self, plan, phase, store):
            answer = Total.listen(self, plan, phase, store)
            if answer[0] == 'refused':
                return answer
            return ('fresh', *change(self, self.layout(plan), store, *answer[1:]))
        return bent(listen=listen)

    def stores(change):
        def changed(self, at, store, *state):
            change(self, at, store, state[0])
            return state
        return fresh(changed)

    def fill(store, first, end, cell):
        store[first:end] = [cell] * len(store[first:end])

    def length(self, at):
        return self.places(at, 'receiver').length

    yield 'fresh: heard 1', fresh(lambda self, at, store, j, heard: (j, 1))
    yield 'fresh: heard M - 1', fresh(lambda self, at, store, j, heard: (j, at.m - 1))
    yield 'fresh: the phase after', fresh(
        lambda self, at, store, j, heard: ((j + 1) % 128, heard))
    yield 'fresh: phase 0', fresh(lambda self, at, store, j, heard: (0, heard))
    for cell in (0, 0x8000, UNTOUCHED):
        yield 'fresh: store all %d' % cell, stores(
            lambda self, at, store, j, cell=cell: fill(store, 0, length(self, at), cell))
    yield 'fresh: places of the last cell not written', stores(
        lambda self, at, store, j: fill(store, self.places(at, 'receiver').first[-1],
                                        length(self, at), UNTOUCHED))
    yield 'fresh: first place not written', stores(
        lambda self, at, store, j: emits.put(store, 0, UNTOUCHED))
    yield 'fresh: last place not written', stores(
        lambda self, at, store, j: emits.put(store, length(self, at) - 1, UNTOUCHED))
    yield 'fresh: the whole store written', stores(
        lambda self, at, store, j: fill(store, 0, STORE, 0x8001))
    yield 'fresh: the cell past the places written', stores(
        lambda self, at, store, j: emits.put(store, length(self, at), 0x8001))
    yield 'fresh: the last three places not written', bent(
        fill=lambda self, store, cells: fill(store, 0, len(cells) - 3, 0x8001))
    yield "fresh: the emitter's store", stores(
        lambda self, at, store, j: self.fill(store, list(chain(*self.fresh_places(at, j)))))


def delay_mutants():
    counts = {
        'p mod M places': lambda at, p: p % at.m,
        'M - p mod M places': lambda at, p: at.m - p % at.m,
        'M - 2 - p mod M places': lambda at, p: max(at.m - 2 - p % at.m, 0),
        'no places': lambda at, p: 0,
        'M - 1 places': lambda at, p: at.m - 1,
        'places as at depth 32': lambda at, p: 31 - p % at.m,
        'places by column': lambda at, p: at.m - 1 - p // 128 % at.m,
        'places by rank': lambda at, p: at.m - 1 - at.ranks[p] % at.m,
        'places by subcarrier': lambda at, p: at.m - 1 - at.carriers[p] % at.m,
        'places counted in cells': lambda at, p: at.m - 1 - p // -(-at.n // at.m),
        'places by p mod 128 mod M': lambda at, p: at.m - 1 - p % 128 % at.m,
    }
    for name, count in counts.items():
        yield name, bent(receiver_places=lambda self, at, p, count=count: count(at, p))
    phases = {
        'the arriving one': lambda at, j: j,
        'M back': lambda at, j: (j - at.m) % 128,
        'M - 2 back': lambda at, j: (j - at.m + 2) % 128,
        'M - 1 on': lambda at, j: (j + at.m - 1) % 128,
        '0 below 0': lambda at, j: max(j - at.m + 1, 0),
        'modulo 127': lambda at, j: (j - at.m + 1) % 127,
    }
    for name, phase in phases.items():
        yield 'phase of the input: ' + name, bent(
            input_phase=lambda self, at, j, phase=phase: phase(at, j))
    yield 'phase of the input not taken modulo 128', bent(
        input_phase=lambda self, at, j: j - at.m + 1)
    yield 'placeholders of the arriving symbol', bent(
        is_placeholder=lambda self, at, p, j: self.on_grid(
            at.map, at.carriers[p], j + at.m - 1))
    yield 'placeholders without delay', bent(
        is_placeholder=lambda self, at, p, j: self.on_grid(at.map, at.carriers[p], j))
    yield 'placeholders by the mark in the store', bent(
        handed=lambda self, at, phase, cells: [cell for cell in cells if cell != 0x8000])
    yield 'no row reading order', bent(row_read=lambda self, i: i)
    yield 'rows read from right to left', bent(
        reading_order=lambda self, n: [
            p for i in range(128) for p in reversed(range(self.row_read(i), n, 128))])


def data_mutants():
    def handed(change):
        """Other data: `change` is given them and what handed is given."""
        return bent(handed=lambda self, *given: change(self, Total.handed(self, *given), *given))

    yield 'data falling', handed(lambda self, data, *_: data[::-1])
    yield 'the first data cell missing', handed(lambda self, data, *_: data[1:])
    yield 'the last data cell missing', handed(lambda self, data, *_: data[:-1])
    yield 'the last data cell filler', handed(lambda self, data, *_: data[:-1] + [0x8001])
    yield 'the first data cell filler', handed(lambda self, data, *_: [0x8001] + data[1:])
    yield 'one cell more', handed(lambda self, data, *_: data + [0x8001])
    yield 'filler handed out as 0', handed(
        lambda self, data, *_: [0 if cell == 0x8001 else cell for cell in data])
    yield 'no filler handed out', handed(
        lambda self, data, *_: [cell for cell in data if cell != 0x8001])
    yield '14 bits of the data', handed(lambda self, data, *_: [cell % 16384 for cell in data])
    yield '13 bits of the data', handed(
        lambda self, data, *_: [cell if cell > 16383 else cell % 8192 for cell in data])
    yield 'placeholders in the store handed out as filler', handed(
        lambda self, data, *_: [0x8001 if cell == 0x8000 else cell for cell in data])
    yield 'all data filler', handed(lambda self, data, *_: [0x8001] * len(data))
    yield 'placeholders handed out', bent(
        handed=lambda self, at, phase, cells: list(cells))
    yield 'data by rank', bent(
        handed=lambda self, at, phase, cells: [
            cells[p] for p in self.reading_order(at.n)
            if not self.placeholders(at, self.input_phase(at, phase))[p]])

    def out(change):
        return bent(hand_out=lambda self, buffer, data: change(buffer, data))
    yield 'cells past the count cleared', out(
        lambda buffer, data: put_all(buffer, data + [0] * len(buffer)))
    yield 'the cell past the count filler', out(
        lambda buffer, data: put_all(buffer, data + [0x8001]))
    yield 'data written from 1', out(lambda buffer, data: put_all(buffer, [0] + data))
    yield 'data written to the end', out(
        lambda buffer, data: put_all(buffer, buffer[:max(len(buffer) - len(data), 0)] + data))
    yield 'no data written', out(lambda buffer, data: None)


def put_all(buffer, cells):
    """The cells from the start, as far as there is place."""
    buffer[:] = (cells + buffer[len(cells):])[:len(buffer)]


def answering(change):
    """Other answers of accepted steps: `change` is given the answer, what receive
    is given and store and buffer as they were."""
    def receive(self, *given):
        store, buffer = list(given[3]), list(given[5])
        answer = Total.receive(self, *given)
        if answer[0] == 'refused':
            return answer
        return change(self, answer, *given, store, buffer)
    return bent(receive=receive)


def warming_mutants():
    tests = {
        'up to M - 1': lambda at, heard: heard <= at.m - 1,
        'below M - 2': lambda at, heard: heard < at.m - 2,
        'while heard is 0': lambda at, heard: heard == 0 and at.m > 1,
        'always': lambda at, heard: True,
        'never': lambda at, heard: False,
        'below 31': lambda at, heard: heard < 31,
    }
    for name, test in tests.items():
        yield 'warming: ' + name, bent(
            is_warming=lambda self, at, heard, test=test: test(at, heard))
    heard = {
        'stays': lambda self, at, h: h,
        'goes up by two': lambda self, at, h: min(h + 2, at.m - 1),
        'goes up always': lambda self, at, h: h + 1,
        'goes round at M': lambda self, at, h: (h + 1) % at.m,
        'is M - 1 at once': lambda self, at, h: at.m - 1,
        'is 0 after data': lambda self, at, h: h + 1 if self.is_warming(at, h) else 0,
        'falls': lambda self, at, h: max(h - 1, 0),
    }
    for name, after in heard.items():
        yield 'heard ' + name, bent(next_heard=after)
    yield 'heard after data is M - 1', bent(
        next_heard=lambda self, at, h: h + 1 if self.is_warming(at, h) else at.m - 1)

    def warm(change):
        """Other answers of warming steps."""
        return answering(lambda self, answer, plan, phase, heard, store, symbol, buffer, *was:
                         change(self, self.layout(plan), answer, phase, store, symbol, buffer, was)
                         if answer[0] == 'warming' else answer)

    def restored(self, at, answer, phase, store, symbol, buffer, was):
        store[:] = was[0]
        return answer

    def handing(self, at, answer, phase, store, symbol, buffer, was):
        cells = self.move(self.places(at, 'receiver'), was[0], self.arriving_cells(at, symbol))
        self.hand_out(buffer, self.handed(at, phase, cells))
        return answer

    def filling(self, at, answer, phase, store, symbol, buffer, was):
        buffer[:] = [0x8001] * len(buffer)
        return answer

    def one_cell(self, at, answer, phase, store, symbol, buffer, was):
        emits.put(buffer, 0, 0x8001)
        return answer
    yield 'warming stores nothing', warm(restored)
    yield 'warming hands out', warm(handing)
    yield 'warming fills the buffer', warm(filling)
    yield 'warming writes a cell', warm(one_cell)
    yield 'warming leaves the phase', warm(
        lambda self, at, answer, phase, *_: ('warming', phase, answer[2]))
    yield 'warming leaves heard', warm(
        lambda self, at, answer, phase, *_: ('warming', answer[1], answer[2] - 1))


def store_mutants():
    yield from emits.move_mutants(Total, bent)

    def storing(change):
        def changed(self, answer, plan, phase, heard, store, *_):
            change(self.places(self.layout(plan), 'receiver'), store)
            return answer
        return answering(changed)

    yield 'steps write the cell past the places', storing(
        lambda places, store: emits.put(store, places.length, 0x8001))
    yield 'steps write the last cell of the store', storing(
        lambda places, store: emits.put(store, STORE - 1, 0x8001))
    yield 'steps write the first place', storing(lambda places, store: emits.put(store, 0, 0x8001))
    yield 'steps write the last place', storing(
        lambda places, store: emits.put(store, places.length - 1, 0x8001))
    arriving = {
        'by rank': lambda at, symbol: [symbol[k] for k in at.subcarriers],
        'from subcarrier 0 up': lambda at, symbol: symbol[:at.n],
        'falling': lambda at, symbol: [symbol[k] for k in reversed(at.carriers)],
        'placeholders as filler': lambda at, symbol: [
            0x8001 if symbol[k] == 0x8000 else symbol[k] for k in at.carriers],
        'filler as placeholders': lambda at, symbol: [
            0x8000 if symbol[k] == 0x8001 else symbol[k] for k in at.carriers],
    }
    for name, cells in arriving.items():
        yield 'stored ' + name, bent(
            arriving_cells=lambda self, at, symbol, cells=cells: cells(
                at, symbol + [0] * (SYMBOL - len(symbol))))


def state_mutants():
    phases = {
        'goes round at 127': lambda j: (j + 1) % 127,
        'goes round at 256': lambda j: (j + 1) % 256,
        'stays': lambda j: j,
        'falls': lambda j: (j - 1) % 128,
        'stops at 127': lambda j: min(j + 1, 127),
    }
    for name, after in phases.items():
        yield 'phase %s' % name, bent(next_phase=lambda self, j, after=after: after(j))
    def refused(change):
        """Other answers of refused steps."""
        def receive(self, *given):
            answer = Total.receive(self, *given)
            at = self.layout(given[0])
            return answer if answer[0] != 'refused' else change(self, at, answer, *given)
        return bent(receive=receive)

    def storing(self, at, answer, plan, phase, heard, store, symbol, buffer):
        self.move(self.places(at, 'receiver'), store, self.arriving_cells(at, symbol))
        return answer

    def handing(self, at, answer, plan, phase, heard, store, symbol, buffer):
        cells = self.move(self.places(at, 'receiver'), list(store), self.arriving_cells(at, symbol))
        self.hand_out(buffer, self.handed(at, phase, cells))
        return answer

    def clearing(self, at, answer, plan, phase, heard, store, symbol, buffer):
        emits.put(buffer, 0, 0)
        return answer
    yield 'a refused step stores', refused(storing)
    yield 'a refused step hands out', refused(handing)
    yield 'a refused step writes a cell of the buffer', refused(clearing)
    yield 'a refused step hands back the next phase', refused(
        lambda self, at, answer, *_: (*answer[:3], (answer[3] + 1) % 128, answer[4]))
    yield 'a refused step hands back the next heard', refused(
        lambda self, at, answer, *_: (*answer[:4], answer[4] + 1))
    yield 'a refused step hands back zeros', refused(
        lambda self, at, answer, *_: (*answer[:3], 0, 0))
    yield 'a refused step hands back a state in range', refused(
        lambda self, at, answer, *_: (*answer[:3], answer[3] % 128, answer[4] % at.m))
    yield 'a refused step hands back phase and heard exchanged', refused(
        lambda self, at, answer, *_: (*answer[:3], answer[4], answer[3]))


def holds(ground, test):
    """A ground of place 0 that holds by another test."""
    return bent(**{'ground_%d' % ground: lambda self, at, given:
                   0 if test(self, at, given) else None})


def order_mutants():
    for order in permutations((16, 17, 20)):
        if order != (16, 17, 20):
            yield 'order: %d, %d, %d' % order, bent(step_order=(25, *order))
    for ground in (16, 17, 20):
        name = 'ground_%d' % ground
        yield 'ground %d not tried' % ground, bent(
            step_order=tuple(x for x in (25, 16, 17, 20) if x != ground))
        yield 'place of %d one higher' % ground, bent(**{
            name: lambda self, at, given, name=name:
            None if getattr(Receiver, name)(self, at, given) is None
            else getattr(Receiver, name)(self, at, given) + 1})

    def late(part):
        """The grounds that speak of a part of what is given, tried after the others."""
        return bent(refusal=lambda self, plan, given: Total.refusal(
            self, plan, given._replace(**{part: None})) or Total.refusal(self, plan, given))
    for part in ('store', 'buffer'):
        yield part + ' tried last', late(part)

    def early(self, plan, given):
        if isinstance(self.layout(plan), tuple) and given.phase >= 128:
            return ('refused', 16, 0)
        return Total.refusal(self, plan, given)
    yield 'ground 16 before the plan', bent(refusal=early)
    yield 'the fresh start tries 17 before 16', bent(
        listen=lambda self, plan, phase, store:
        self.refusal(plan, Given(phase % 128, store, end='receiver'))
        or Total.listen(self, plan, phase, store))

    yield from stored.refusal_mutants(Total, bent)


def range_mutants():
    def out(name, at, given):
        limit = 128 if name == 'phase' else at.m
        return getattr(given, name) is not None and getattr(given, name) >= limit

    names = ('phase', 'heard')
    for name in names:
        others = [other for other in names if other != name]
        yield 'ground 16: %s not tried' % name, holds(
            16, lambda self, at, g, others=others: any(out(other, at, g) for other in others))
        for bits in (7, 8, 16):
            def low(self, plan, given, name=name, bits=bits):
                value = getattr(given, name)
                return Total.refusal(self, plan, given if value is None else given._replace(
                    **{name: value % (1 << bits)}))
            yield 'ground 16: %d bits of the %s' % (bits, name), bent(refusal=low)
    yield 'ground 16: all must be out', holds(
        16, lambda self, at, g: all(out(name, at, g) for name in names if
                                    getattr(g, name) is not None))
    limits = {
        'heard M good': lambda at, g: g.heard > at.m,
        'heard M - 1 bad': lambda at, g: g.heard >= max(at.m - 1, 1),
        'heard up to 31 good': lambda at, g: g.heard > 31,
        'phase 128 good': lambda at, g: g.phase > 128,
        'phase 127 bad': lambda at, g: g.phase > 126,
    }
    for name, test in limits.items():
        others = [other for other in names if other != name.split()[0]]
        yield 'ground 16: ' + name, holds(
            16, lambda self, at, g, test=test, others=others:
            any(out(other, at, g) for other in others) or g.heard is not None and test(at, g))


def length_mutants():
    def short(given, need):
        return given.store is not None and len(given.store) < need

    def odd(given):
        return given.arriving is not None and len(given.arriving) != 4096

    def full(self, at, given):
        """The data buffer is too short."""
        return (given.buffer is not None and not self.is_warming(at, given.heard)
                and len(given.buffer) < self.count(at, self.input_phase(at, given.phase)))

    def needed(at):
        return receiver_length(at.n, at.m)

    def triangle(m):
        return m * (m - 1) // 2

    stores = {
        'with <=': lambda at, g: needed(at) + 1,
        'one cell too few is good': lambda at, g: needed(at) - 1,
        "the emitter's length": lambda at, g: emitter_length(at.n, at.m),
        'M x N_I cells': lambda at, g: at.m * at.n,
        '(M - 1) x N_I cells': lambda at, g: (at.m - 1) * at.n,
        '(M - 1) x N_I / 2 cells': lambda at, g: (at.m - 1) * at.n // 2,
        'the groups of M cells that are whole': lambda at, g: at.n // at.m * triangle(at.m),
        'the last group of M cells as if whole': lambda at, g: -(-at.n // at.m) * triangle(at.m),
        'as at depth 32': lambda at, g: receiver_length(at.n, 32),
        'not tried': lambda at, g: 0,
        'not tried by the fresh start': lambda at, g: 0 if g.heard is None else needed(at),
        'one cell too few is good for the fresh start': lambda at, g: needed(at) - (g.heard is None),
        'not tried by a step': lambda at, g: needed(at) if g.heard is None else 0,
        'one cell too few is good for a step': lambda at, g: needed(at) - (g.heard is not None),
        'not tried while warming': lambda at, g: needed(at) if g.heard is None or g.heard == at.m - 1
        else 0,
    }
    for name, length in stores.items():
        yield 'ground 17: store: ' + name, holds(
            17, lambda self, at, g, length=length: short(g, length(at, g)) or odd(g)
            or full(self, at, g))
    symbols = {
        'symbol not tried': lambda g: False,
        'short symbol good': lambda g: odd(g) and len(g.arriving) > 4096,
        'long symbol good': lambda g: odd(g) and len(g.arriving) < 4096,
    }
    for name, test in symbols.items():
        yield 'ground 17: ' + name, holds(
            17, lambda self, at, g, test=test: short(g, needed(at)) or test(g)
            or full(self, at, g))
    buffers = {
        'not tried': lambda self, at, g, size: False,
        'tried while warming': lambda self, at, g, size: size < self.count(
            at, self.input_phase(at, g.phase)),
        'with <=': lambda self, at, g, size: not self.is_warming(at, g.heard)
        and size <= self.count(at, self.input_phase(at, g.phase)),
        'of one cell too few is good': lambda self, at, g, size: not self.is_warming(at, g.heard)
        and size < self.count(at, self.input_phase(at, g.phase)) - 1,
        'of N_I cells': lambda self, at, g, size: not self.is_warming(at, g.heard) and size < at.n,
        'of 4,096 cells': lambda self, at, g, size: not self.is_warming(at, g.heard)
        and size < 4096,
        'of N_D at the arriving phase': lambda self, at, g, size: not self.is_warming(at, g.heard)
        and size < self.count(at, g.phase),
        'empty': lambda self, at, g, size: not self.is_warming(at, g.heard) and size == 0,
        'tried once heard goes up': lambda self, at, g, size: not self.is_warming(at, g.heard + 1)
        and size < self.count(at, self.input_phase(at, g.phase)),
    }
    for name, test in buffers.items():
        yield 'ground 17: buffer ' + name, holds(
            17, lambda self, at, g, test=test: short(g, needed(at)) or odd(g)
            or g.buffer is not None and test(self, at, g, len(g.buffer)))


def cell_mutants():
    def wrong(self, at, given):
        """The subcarriers of the wrong cells."""
        if given.arriving is None:
            return []
        marks = self.marks_at(at, given.phase)
        return [k for k, (cell, mark) in enumerate(zip(given.arriving, marks))
                if cell != mark and (mark is not None or not self.is_data(cell, 16383))]

    def found(place):
        """Ground 20 with another place: of the model, the layout, what is given and
        the wrong subcarriers."""
        return bent(ground_20=lambda self, at, given: place(
            self, at, given, wrong(self, at, given)))

    places = {
        'the highest': lambda self, at, g, bad: bad[-1] if bad else None,
        '0': lambda self, at, g, bad: 0 if bad else None,
        'the rank': lambda self, at, g, bad: (
            at.subcarriers.index(bad[0]) if bad[0] in at.ranked else bad[0]) if bad else None,
        'the cell': lambda self, at, g, bad: (
            at.carriers.index(bad[0]) if bad[0] in at.ranked else bad[0]) if bad else None,
        'the arriving cell': lambda self, at, g, bad: g.arriving[bad[0]] if bad else None,
        'a rank first': lambda self, at, g, bad: min(
            bad, key=lambda k: (k not in at.ranked, k), default=None),
        'a mark first': lambda self, at, g, bad: min(
            bad, key=lambda k: (k in at.ranked, k), default=None),
        'the lowest cell p': lambda self, at, g, bad: min(
            bad, key=lambda k: at.carriers.index(k) if k in at.ranked else -1, default=None),
    }
    for name, place in places.items():
        yield 'ground 20: place is ' + name, found(place)
    tried = {
        'not at subcarrier 0': lambda self, at, g, k: k > 0,
        'not at subcarrier 4095': lambda self, at, g, k: k < 4095,
        'at ranks only': lambda self, at, g, k: k in at.ranked,
        'without ranks only': lambda self, at, g, k: k not in at.ranked,
        'not while warming': lambda self, at, g, k: not self.is_warming(at, g.heard),
        'only while warming': lambda self, at, g, k: self.is_warming(at, g.heard),
        'at active subcarriers only': lambda self, at, g, k: not at.map.excluded[k],
        'not at the last of the PLC': lambda self, at, g, k: k != at.map.l + 7,
        'not at further pilots': lambda self, at, g, k: k not in [x for _, x in at.map.pilots],
        'not at predefined pilots': lambda self, at, g, k: k not in self.predefined(at.map.l),
    }
    for name, test in tried.items():
        yield 'ground 20 tried ' + name, found(
            lambda self, at, g, bad, test=test: next(
                (k for k in bad if test(self, at, g, k)), None))
    for mark, role in ((None, 'data'), (0x8000, 'scattered'), (0x8002, 'excluded'),
                       (0x8003, 'continuous'), (0x8004, 'PLC')):
        def others(self, at, g, bad, mark=mark):
            return [k for k in bad if self.marks_at(at, g.phase)[k] != mark]
        yield 'ground 20 not tried: ' + role, found(
            lambda self, at, g, bad, others=others: next(iter(others(self, at, g, bad)), None))
        for cell in CELLS:
            if cell == mark or mark is None and (cell < 16384 or cell == 0x8001):
                continue
            def but(self, at, g, bad, mark=mark, cell=cell):
                return next((k for k in bad if self.marks_at(at, g.phase)[k] != mark
                             or g.arriving[k] != cell), None)
            yield 'ground 20: %d good where %s' % (cell, role), found(but)
    yield 'ground 20: filler bad', bent(is_data=lambda self, cell, limit: cell <= limit)
    yield 'ground 20: 16383 bad', bent(is_data=lambda self, cell, limit: cell < limit or cell == 0x8001)
    yield 'ground 20: data 0 bad', bent(is_data=lambda self, cell, limit: Total.is_data(self, cell, limit)
                                        and cell != 0)
    yield 'ground 20: any mark for another', bent(
        ground_20=lambda self, at, g: next(
            (k for k in wrong(self, at, g) if g.arriving[k] < 0x8000
             or self.marks_at(at, g.phase)[k] is None), None))


def role_mutants():
    for name, phase in (('after', 1), ('before', -1)):
        yield 'roles of the phase ' + name, bent(
            mark_at=lambda self, at, k, j, more=phase: Total.mark_at(self, at, k, j + more))
    yield 'roles of the phase of the input', bent(
        mark_at=lambda self, at, k, j: Total.mark_at(self, at, k, self.input_phase(at, j)))
    yield 'scattered before continuous', bent(
        mark_at=lambda self, at, k, j: 0x8000 if self.on_grid(at.map, k, j)
        and at.marks[k] == 0x8003 and k not in at.ranked else Total.mark_at(self, at, k, j))
    yield 'scattered before PLC', bent(
        mark_at=lambda self, at, k, j: 0x8000 if self.on_grid(at.map, k, j)
        and self.is_plc(at.map, k) else Total.mark_at(self, at, k, j))
    yield 'scattered before excluded', bent(
        mark_at=lambda self, at, k, j: 0x8000 if self.on_grid(at.map, k, j)
        and at.map.excluded[k] else Total.mark_at(self, at, k, j))
    yield 'scattered from subcarrier 0', bent(
        on_grid=lambda self, p, k, phase: (k - phase) % 128 == 0)


def all_mutants():
    return chain([('nothing', bent())], emits.limit_mutants(Total), *(mutants() for mutants in (
        fresh_mutants, delay_mutants, data_mutants, warming_mutants, store_mutants,
        state_mutants, order_mutants, range_mutants, length_mutants, cell_mutants,
        role_mutants)))


def try_mutants(cases, lines):
    """The equivalent ones are tried on the cases before the larger plans."""
    def change_of(name, model):
        tried = cases[:45] if name in EQUIVALENT else cases
        return stored.first_change(line_of, tried, lines, model)
    return stored.try_mutants(all_mutants(), change_of, EQUIVALENT, len(cases))


# --- the run ---------------------------------------------------------------

def main():
    receiver.check_facts()
    cases, lines, given, wanted = make()
    print('%d cases, %d receive steps, %d bytes' % (
        len(cases), sum(act not in (EMIT, FLUSH) for case in cases for act in case[3]),
        len(given)))
    stored.run('receivecases', given, wanted, lambda: try_mutants(cases, lines))


if __name__ == '__main__':
    main()
