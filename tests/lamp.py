#!/usr/bin/env python3
"""A second model of the pilot lamp, written from the scope paper and requests 01 and 10 alone.

It knows the continuous pilots of an accepted plan, the lamp's record and its step, the lights of
a record, grounds 28 and 17 after the plan's own, and the two calls for C over bytes, with ground
21.  The roles are those of the model of the plans, on which it stands.  Beside it, and without
the record, stand the lights worked out afresh from the list of all symbols heard.

    python3 tests/lamp.py

holds the model against what the request says: over random lists of symbols, with lost marks and
refused symbols among them, the lights of the record are those worked out afresh, and the record
is what can be counted in the list; then what is worked out by hand of Plan A, the grounds in
their order, and the calls.

    python3 tests/lamp.py FILE < SYMBOLS

prints what lampcheck prints under the plan of the file, and tells what it tells.
"""

import random
import sys
from array import array
from collections import Counter
from dataclasses import dataclass
from pathlib import Path
from typing import NamedTuple

sys.dont_write_bytecode = True

import plans
from model import Limits, Model

MOST = 128              # an accepted plan has 8 pilots and at most 120 further ones
ANSWER = 16             # bytes of an answer
LIGHTS = 128            # bytes of the lights of a call ...
LIST = 256              # ... and of its list of pilots, two for each
SYMBOL = 8192           # bytes of a symbol
MARK = 0x8003
NEARLY = (0x8002, 0x8004, 0x0003, 0x0380, 0)        # cells that are nearly the mark


@dataclass(frozen=True)
class LampLimits(Limits):
    """Every number of the lamp's rules, beside those of the plans."""
    cap: int = 128                  # a count goes no higher, and ground 28
    cells: int = 4096               # ground 17: cells of a symbol
    continuous_mark: int = MARK


class Lamp(Model):
    lamp_order = (28, 17)

    def __init__(self, limits=LampLimits()):
        super().__init__(limits)
        self.known = {}             # of each plan its pilots, or its refusal

    # --- the pilots --------------------------------------------------------

    def pilots_of(self, p):
        """Every subcarrier whose role is continuous, in rising order.  That role is the same
        at every phase."""
        return [k for k in range(self.limits.last_subcarrier + 1)
                if self.role_of(p, k, 0) == 'continuous']

    def plan_pilots(self, plan):
        """The pilots of an accepted plan, or the refusal."""
        if plan not in self.known:
            p = self.judge(plan)
            self.known[plan] = p if isinstance(p, tuple) else self.pilots_of(p)
        return self.known[plan]

    # --- the record --------------------------------------------------------

    def raised(self, count):
        return min(self.limits.cap, count + 1)

    def is_mark(self, cell):
        return cell == self.limits.continuous_mark

    def holds(self, symbol, k):
        """Does the cell of subcarrier k hold the mark?"""
        return self.is_mark(symbol[k])

    def heard(self, first):
        """The first count after one symbol more."""
        return self.raised(first)

    def in_a_row(self, count, held):
        """The count of a pilot after a symbol that held its mark, or did not."""
        return self.raised(count) if held else 0

    def after(self, pilots, symbol, record):
        """The record after one symbol more."""
        first, *counts = record
        return [self.heard(first), *(self.in_a_row(count, self.holds(symbol, k))
                                     for k, count in zip(pilots, counts))]

    # --- the lights --------------------------------------------------------

    def is_lit(self, first, count):
        return first > 0 and count == first

    def lights_of(self, record):
        """1 for each pilot that is lit, 0 for each that is dark."""
        first, *counts = record
        return [int(self.is_lit(first, count)) for count in counts]

    # --- grounds -----------------------------------------------------------
    # Each answers its place, or None if it does not hold.

    def wrong_length(self, pilots, record):
        return len(record) != len(pilots) + 1

    def wrong_count(self, record):
        return any(count > self.limits.cap or count > record[0] for count in record)

    def ground_28(self, pilots, symbol, record):
        return 0 if self.wrong_length(pilots, record) or self.wrong_count(record) else None

    def ground_17(self, pilots, symbol, record):
        return 0 if len(symbol) != self.limits.cells else None

    def refusal(self, plan, symbol, record):
        """('refused', number, place) by the first ground that holds, or None: the plan's own,
        then those of the lamp in their order."""
        pilots = self.plan_pilots(plan)
        if isinstance(pilots, tuple):
            return pilots
        for ground in self.lamp_order:
            place = getattr(self, 'ground_%d' % ground)(pilots, symbol, record)
            if place is not None:
                return ('refused', ground, place)
        return None

    # --- the entries -------------------------------------------------------

    def pilots(self, plan):
        """('count', n) or ('refused', number, place), and the list of 128: the pilots, rising,
        then zeros; all zeros of a refused plan."""
        found = self.plan_pilots(plan)
        if isinstance(found, tuple):
            return found, [0] * MOST
        return ('count', len(found)), found + [0] * (MOST - len(found))

    def lamp(self, plan, symbol, record):
        """Hears one symbol: ('count', n), with the record written; or ('refused', number, place),
        with nothing changed.  And the 128 lights, zeros past the last pilot and of a refusal."""
        refused = self.refusal(plan, symbol, record)
        if refused:
            return refused, [0] * MOST
        pilots = self.plan_pilots(plan)
        record[:] = self.after(pilots, symbol, record)
        lights = self.lights_of(record)
        return ('count', len(pilots)), lights + [0] * (MOST - len(lights))


# --- worked out afresh, by counting in the list ------------------------------

def held_at(k, heard):
    """Of each symbol heard whether its cell of subcarrier k held the mark, the latest last."""
    return [symbol[k] == 0x8003 for symbol in heard]


def lights_afresh(pilots, heard):
    """A pilot is lit if at least one symbol was heard, and its cell held the mark in each of
    the last 128 heard, or in all heard while there are fewer."""
    last = heard[-128:] if len(heard) > 128 else heard
    return [int(len(heard) >= 1 and held_at(k, last).count(True) == len(last)) for k in pilots]


def row_afresh(k, heard):
    """How many symbols in a row, up to the latest, held the mark."""
    row = 0
    while row < len(heard) and heard[len(heard) - 1 - row][k] == 0x8003:
        row += 1
    return row


def record_afresh(pilots, heard):
    """The record that a lamp has after these symbols, from a fresh one on."""
    return [min(128, len(heard)), *(min(128, row_afresh(k, heard)) for k in pilots)]


# --- the calls for C ---------------------------------------------------------

class PilotsCall(NamedTuple):
    """What headend_pilots returns, and the buffers as it leaves them."""
    number: int
    pilots: bytes
    answer: bytes


class LampCall(NamedTuple):
    """The same of headend_lamp."""
    number: int
    record: bytes
    lights: bytes
    answer: bytes


MODEL = Lamp()


def four_bytes(number):
    return number.to_bytes(4, 'big')


def said(answer, place=0, value=0):
    """The answer buffer: place, phase, heard and value, then what stood there."""
    return b''.join(map(four_bytes, (place, 0, 0, value))) + bytes(answer[ANSWER:])


def cells_of(data):
    """The cells of an even number of bytes, high byte first."""
    cells = array('H', bytes(data))
    cells.byteswap()
    return cells


def bytes_of(cells):
    data = array('H', cells)
    data.byteswap()
    return data.tobytes()


def pilots_call(plan, pilots, answer):
    """headend_pilots on these buffers."""
    plan, pilots, answer = bytes(plan), bytes(pilots), bytes(answer)
    if len(answer) < ANSWER:
        return PilotsCall(21, pilots, answer)
    if len(pilots) < LIST:
        return PilotsCall(21, pilots, said(answer))
    found, numbers = MODEL.pilots(plan)
    if found[0] == 'refused':
        return PilotsCall(found[1], pilots, said(answer, place=found[2]))
    return PilotsCall(0, bytes_of(numbers) + pilots[LIST:], said(answer, value=found[1]))


def lamp_call(plan, symbol, record, lights, answer):
    """headend_lamp on these buffers."""
    plan, symbol, record, lights, answer = map(bytes, (plan, symbol, record, lights, answer))
    if len(answer) < ANSWER:
        return LampCall(21, record, lights, answer)
    if len(symbol) % 2 or len(lights) < LIGHTS:
        return LampCall(21, record, lights, said(answer))
    counts = bytearray(record)
    given, lit = MODEL.lamp(plan, cells_of(symbol), counts)
    if given[0] == 'refused':
        return LampCall(given[1], record, lights, said(answer, place=given[2]))
    return LampCall(0, bytes(counts), bytes(lit) + lights[LIGHTS:], said(answer, value=given[1]))


# --- the lines of lampcheck --------------------------------------------------

# What it tells on standard error, after its name.
ONE_WORD = 'one word is expected, the name of a file with a plan, as in: lampcheck my.plan'
NO_PLAN = 'the file of the plan cannot be read'
NO_INPUT = 'standard input cannot be read'
NO_SYMBOL = 'no symbol on standard input, 8192 bytes each'
WITHIN = 'the input ends within a symbol, which has 8192 bytes'
NO_OUTPUT = 'standard output cannot be written'
TOLD = (ONE_WORD, NO_PLAN, NO_INPUT, NO_SYMBOL, WITHIN, NO_OUTPUT)


def line_of(pilots, lights):
    dark = ['%d' % k for k, light in zip(pilots, lights) if light == 0]
    return 'dark ' + ' '.join(dark) if dark else 'all lit'


def lampcheck(plan, given, model=MODEL):
    """The lines that lampcheck prints, and what it tells or None, of a plan and of all bytes on
    standard input."""
    pilots = model.plan_pilots(plan)
    if isinstance(pilots, tuple):
        return ['refused %d %d' % pilots[1:]], None
    if len(given) == 0:
        return [], NO_SYMBOL
    record, lines = [0] * (len(pilots) + 1), []
    for at in range(0, len(given) - SYMBOL + 1, SYMBOL):
        _, lights = model.lamp(plan, cells_of(given[at:at + SYMBOL]), record)
        lines.append(line_of(pilots, lights))
    return lines, WITHIN if len(given) % SYMBOL else None


# --- what the papers say -----------------------------------------------------

# The eight predefined pilots of Plan A, and with further ones below, between and above them, which
# the chain does not name in rising order.
EIGHT = [925, 937, 948, 957, 994, 1003, 1014, 1026]
FURTHER = [1200, 810, 1000, 930, 1100, 900, 950]
FIFTEEN = [810, 900, 925, 930, 937, 948, 950, 957, 994, 1000, 1003, 1014, 1026, 1100, 1200]
PLAN_15 = plans.near_a(pilots=FURTHER)
# 128 pilots: 200, 210 up to 1390, named from the last on, and 1953, 1965 up to 2054.
PLAN_128 = plans.full(pilots=plans.pilots_of_full(120)[::-1])


def check_pilots():
    """Plan A's, those of plans with further ones, and how many there are under every plan."""
    model = Lamp()
    assert model.plan_pilots(plans.PLAN_A) == EIGHT
    assert model.plan_pilots(PLAN_15) == FIFTEEN
    eight = [1953, 1965, 1976, 1985, 2022, 2031, 2042, 2054]
    assert model.plan_pilots(plans.LARGEST) == [*range(200, 600, 10), *eight]
    assert model.plan_pilots(PLAN_128) == [*range(200, 1400, 10), *eight]
    assert model.pilots(PLAN_128) == (('count', 128), [*range(200, 1400, 10), *eight])
    assert model.pilots(plans.PLAN_A) == (('count', 8), EIGHT + [0] * 120)
    assert model.pilots(b'') == (('refused', 1, 0), [0] * 128)
    accepted = 0
    for name, data, want in plans.all_cases():
        found = model.plan_pilots(data)
        if want.startswith('refused'):
            assert 'refused %d %d' % found[1:] == want, name
            continue
        further = [r.first for _, r in model.chain(data) if r.kind == 3]
        assert found == sorted(set(model.predefined(model.judge(data).l) + further)), name
        assert 8 <= len(found) == 8 + len(further) <= 128, name
        accepted += 1
    return accepted


def marked(pilots, lost=(), other=0):
    """A symbol with the mark in the cells of the pilots, but for those that lost it."""
    cells = array('H', [other]) * 4096
    for k in pilots:
        cells[k] = MARK if k not in lost else other
    return cells


def check_by_hand():
    """Plan A, symbol by symbol."""
    model, record = Lamp(), [0] * 9

    def hear(lost, want, lit):
        answer, lights = model.lamp(plans.PLAN_A, marked(EIGHT, lost), record)
        assert (answer, record, lights) == (('count', 8), want, lit + [0] * 120), record

    hear((), [1] * 9, [1] * 8)
    hear((925, 1026), [2, 0, 2, 2, 2, 2, 2, 2, 0], [0, 1, 1, 1, 1, 1, 1, 0])
    hear((937,), [3, 1, 0, 3, 3, 3, 3, 3, 1], [0, 0, 1, 1, 1, 1, 1, 0])
    for n in range(4, 128):
        hear((), [n, n - 2, n - 3, n, n, n, n, n, n - 2], [0, 0, 1, 1, 1, 1, 1, 0])
    hear((), [128, 126, 125, 128, 128, 128, 128, 128, 126], [0, 0, 1, 1, 1, 1, 1, 0])
    hear((), [128, 127, 126, 128, 128, 128, 128, 128, 127], [0, 0, 1, 1, 1, 1, 1, 0])
    # the second symbol was the 129th from the end
    hear((), [128, 128, 127, 128, 128, 128, 128, 128, 128], [1, 0, 1, 1, 1, 1, 1, 1])
    hear((), [128] * 9, [1] * 8)
    hear((), [128] * 9, [1] * 8)
    hear(EIGHT, [128] + [0] * 8, [0] * 8)
    hear((), [128] + [1] * 8, [0] * 8)


def check_grounds():
    """28 and 17 after the plan's own, in this order, at their limits; and nothing changed."""
    model, good = Lamp(), marked(EIGHT)

    def lamp(want, record, symbol=good, plan=plans.PLAN_A):
        given, cells = list(record), array('H', symbol)
        answer, lights = model.lamp(plan, cells, given)
        assert answer == (('count', 8) if want is None else ('refused', want, 0)), (answer, record)
        assert cells == array('H', symbol)
        if want is not None:
            assert given == list(record) and lights == [0] * 128

    for record in ([0] * 9, [128] * 9, [5] * 9, [5, 0, 5, 4, 3, 2, 1, 0, 5], [128] + [0] * 8, [1] + [0] * 8):
        lamp(None, record)
        for symbol in (good[:4095], good + good[:1], good[:0]):
            lamp(17, record, symbol)
    wrong = [[], [0] * 8, [0] * 10, [128] * 10, [129] * 9, [129] + [0] * 8, [255] * 9, [128] * 8 + [129],
             [128, 129] + [0] * 7, [5] * 8 + [6], [5, 6] + [0] * 7, [0] * 8 + [1], [127] * 8 + [128]]
    for record in wrong:
        lamp(28, record)
        lamp(28, record, good[:4095])
        lamp(28, record, good[:0])
        lamp(1, record, plan=b'')
        lamp(1, record, good[:0], plan=b'')
    for cell in NEARLY:
        lamp(None, [0] * 9, marked((), (), cell))


def check_cells():
    """The mark alone counts, and only at the pilots."""
    model, symbol = Lamp(), marked(EIGHT)
    for cell in range(65536):
        symbol[925] = cell
        assert model.lamp(plans.PLAN_A, symbol, [0] * 9)[1][:8] == [int(cell == MARK)] + [1] * 7
    symbol = marked(EIGHT, (), MARK)
    for k in range(4096):
        symbol[k] = 7
        assert model.lamp(plans.PLAN_A, symbol, [0] * 9)[1][:8] == [int(k != pilot) for pilot in EIGHT]
        symbol[k] = MARK


# --- random lists of symbols --------------------------------------------------

def some_symbols(rng, pilots, count):
    """Symbols in which marks are lost at random: by most pilots hardly ever, by some often, by all
    for a while.  The other cells hold anything, the mark among it."""
    cells = array('H', rng.randbytes(8192))
    often = {k: rng.choice((0, 0, 0.004, 0.02, 0.5)) for k in pilots}
    until = -1
    for t in range(count):
        cells = array('H', cells)
        cells[rng.randrange(4096)] = MARK
        if rng.random() < 0.004:
            until = t + rng.randrange(3)
        for k in pilots:
            cells[k] = rng.choice(NEARLY) if t <= until or rng.random() < often[k] else MARK
        yield cells


def refuse_some(rng, model, plan, symbol, record):
    """Steps that are refused and change nothing, some of several; answers how many."""
    before = list(record)
    steps = (((17, 0), plan, symbol[:4095], record), ((17, 0), plan, symbol + symbol[:1], record),
             ((28, 0), plan, symbol, record[1:]), ((28, 0), plan, symbol[1:], record + [0]),
             ((28, 0), plan, symbol, [129, *record[1:]]), ((1, 0), plan[1:], symbol, record))
    tried = rng.sample(steps, rng.choice((0, 0, 0, 1, 2)))
    for want, *given in tried:
        assert model.lamp(*given) == (('refused', *want), [0] * 128)
        assert record == before
    return len(tried)


def check_run(rng, plan, count, counts):
    """One list of symbols from a fresh record on.  Counts what happened."""
    model = Lamp()
    pilots = model.plan_pilots(plan)
    record, heard, before = [0] * (len(pilots) + 1), [], [0] * MOST
    assert lights_afresh(pilots, heard) == model.lights_of(record) == [0] * len(pilots)
    for symbol in some_symbols(rng, pilots, count):
        counts['refused'] += refuse_some(rng, model, plan, symbol, record)
        answer, lights = model.lamp(plan, symbol, record)
        heard.append(symbol)
        assert answer == ('count', len(pilots))
        assert lights == lights_afresh(pilots, heard) + [0] * (MOST - len(pilots))
        assert record == record_afresh(pilots, heard)
        counts['dark'] += sum(was > light for was, light in zip(before, lights))
        counts['again'] += sum(was < light for was, light in zip(before, lights)) if len(heard) > 1 else 0
        before = lights
    counts.update(runs=1, heard=count)


def check_runs():
    """Answers what happened in all runs."""
    rng, counts = random.Random(10), Counter()
    for plan, lengths in ((plans.PLAN_A, (1, 2, 127, 128, 129, 300, 300)), (PLAN_15, (127, 128, 129, 300)),
                          (plans.LARGEST, (129, 300)), (PLAN_128, (129, 300))):
        for count in lengths:
            check_run(rng, plan, count, counts)
    assert counts['again'] > 0
    return counts


# --- the calls, and the lines of lampcheck ------------------------------------

def check_calls():
    """21 before all others; what is written, and what stays."""
    a, good = plans.PLAN_A, bytes_of(marked(EIGHT, (925,)))
    old = {'pilots': b'\7' * 260, 'record': b'\5' * 9, 'lights': b'\7' * 130, 'answer': b'\7' * 18}
    zeros, value = bytes(16) + b'\7\7', bytes(15) + b'\x08\7\7'
    listed = bytes_of(EIGHT) + bytes(240) + b'\7' * 4
    assert pilots_call(a, old['pilots'], old['answer']) == (0, listed, value)
    assert pilots_call(a, b'\7' * 256, b'\7' * 16) == (0, listed[:256], value[:16])
    assert pilots_call(a, b'\7' * 255, old['answer']) == (21, b'\7' * 255, zeros)
    assert pilots_call(b'', b'', b'\7' * 15) == (21, b'', b'\7' * 15)
    place = four_bytes(835) + bytes(12) + b'\7\7'
    assert pilots_call(plans.near_a([(850, 854)]), old['pilots'], old['answer']) == (14, old['pilots'], place)

    def lamp(plan=a, symbol=good, record=old['record'], lights=old['lights'], answer=old['answer']):
        return lamp_call(plan, symbol, record, lights, answer)

    lit = bytes([0, *[1] * 7, *[0] * 120]) + b'\7\7'
    assert lamp() == (0, bytes([6, 0, *[6] * 7]), lit, value)
    left = old['record'], old['lights']
    assert lamp(answer=b'\7' * 15) == (21, *left, b'\7' * 15)
    assert lamp(answer=b'', symbol=b'\0', plan=b'') == (21, *left, b'')
    assert lamp(symbol=good[1:]) == lamp(symbol=good + b'\0', plan=b'') == (21, *left, zeros)
    assert lamp(lights=b'\7' * 127, record=b'') == (21, b'', b'\7' * 127, zeros)
    assert lamp(lights=b'', plan=b'') == (21, old['record'], b'', zeros)
    assert lamp(plan=plans.near_a([(850, 854)]), symbol=b'') == (14, *left, place)
    assert lamp(symbol=good[2:]) == lamp(symbol=b'') == lamp(symbol=good + b'\0\0') == (17, *left, zeros)
    for record in (b'\5' * 8, b'\5' * 10, b'', b'\5' * 8 + b'\6', b'\x81' * 9):
        assert lamp(record=record, symbol=b'') == (28, record, old['lights'], zeros)
    assert lamp(lights=b'\7' * 128).lights == lit[:128]


def check_lines():
    a, one = plans.PLAN_A, bytes_of(marked(EIGHT, (925, 1003)))
    all_lit = bytes_of(marked(EIGHT))
    assert lampcheck(a, all_lit * 2) == (['all lit'] * 2, None)
    assert lampcheck(a, all_lit + one + all_lit) == (['all lit'] + ['dark 925 1003'] * 2, None)
    assert lampcheck(a, one + all_lit * 128) == (['dark 925 1003'] * 128 + ['all lit'], None)
    assert lampcheck(a, all_lit + one[1:]) == (['all lit'], WITHIN)
    assert lampcheck(a, b'\0') == ([], WITHIN)
    assert lampcheck(a, b'') == ([], NO_SYMBOL)
    assert lampcheck(b'', b'') == lampcheck(b'', all_lit + b'\0') == (['refused 1 0'], None)


def main():
    if len(sys.argv) > 1:
        lines, told = lampcheck(Path(sys.argv[1]).read_bytes(), sys.stdin.buffer.read())
        sys.stdout.write(''.join(line + '\n' for line in lines))
        sys.stderr.write('lampcheck: %s\n' % told if told else '')
        return
    accepted = check_pilots()
    check_by_hand()
    check_grounds()
    check_cells()
    check_calls()
    check_lines()
    counts = check_runs()
    print('the lamp: %d plans with 8 to 128 pilots; %d runs from a fresh record, %d symbols heard, %d steps refused, %d times '
          'a pilot went dark and %d times it was lit again: lights and record as worked out afresh'
          % (accepted, *(counts[name] for name in ('runs', 'heard', 'refused', 'dark', 'again'))))


if __name__ == '__main__':
    main()
