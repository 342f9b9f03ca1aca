#!/usr/bin/env python3
"""Makes the cases of the host tests: calls of include/headend.h, and what each has to give.

    python3 tests/host.py FILE             writes all cases
    python3 tests/host.py --small FILE     writes fewer, for a run under valgrind
    python3 tests/host.py --example PLAN   prints what examples/modulate.c has to print of a plan
    python3 tests/host.py --link PLAN      prints what examples/link.c has to print of a plan
    python3 tests/host.py --lamp PLAN      prints what examples/lamp.c has to print of a plan

Every number and byte that is expected comes from the second model (model.py, emitter.py,
receiver.py, loads.py, lamp.py, points.py), read as change request 01 says: two bytes a cell, high byte
first, ground 21 before all others, four numbers of four bytes in the answer.

A case file is a list of items; a number is four bytes, high byte first.  Slots 0 to 15 hold the
buffers: 0 the plan, 1 an emitter's store, 2 a receiver's, 3 data to be sent, 4 the symbol, 5 data
received, 6 the answer, 7 the loads, 8 the signs of the pilots, 9 the modulator symbol as the
machine has it, four bytes a number, 10 the profile, 11 the stream, 12 the stream that comes back,
13 the list of pilots, 14 the lamp's record, 15 its lights.

    1, number, bytes                    the name of the cases that follow, so many bytes
    2, slot, number                     the slot has so many bytes: the last are left out, or zeros added
    3, slot, number, number, bytes      from an offset on so many bytes of the slot are these
    4, call, numbers, slots, number, number of changes, then as after a 3 for each
                                        a call: its place in CALLS, its numbers, a start in eight bytes,
                                        and its buffers in the order of headend.h, what it returns, what
                                        changes in the slots
    5, number, bytes, number            a name of the header, so many bytes, and its value
    6, helper, slot, slot, number, number, number
                                        a helper: its place in HELPERS, the bytes it is given, two
                                        numbers, what it answers
    7, slot, number, bytes              the slot has so many bytes, and they are these
    0, number, number, eight bytes, number
                                        the end: how many calls there were; which numbers were
                                        returned, bit n for n; which buffers were empty, bit n for
                                        the n-th of all buffers of all calls; how many items of 5
                                        and 6
"""

import random
import re
import sys
from array import array
from collections import Counter, defaultdict
from functools import lru_cache

sys.dont_write_bytecode = True

import compare
import lamp
import loss
import plans
import points
from compare import RECORD_MAX
from emitter import FULL, emitter_length
from loads import LISTED, Filling, all_bits, some_profile
from receiver import receiver_length
from stored import ROOT

ANSWER = 16
SYMBOL = 4096
TOP = 2 ** 32 - 1
FAR = 2 ** 64 - 1                           # the last start
ODD_NUMBERS = (0x12345678, 0x9ABCDEF0)      # no byte as another
BLOCK = 256
PLAN, SENDING, LISTENING, GIVEN, LINE, HANDED, SAID, LOADS, SIGNS, NUMBERS, PROFILE, STREAM, BACK, LIST, RECORD, LIGHTS = range(16)
OF_CELLS = ('store', 'data', 'symbol')
ROLES = ('excluded', 'plc', 'continuous', 'scattered', 'data')
# The values of why from 1 on: the role and the kind of its reason, as the model says them, and the name in the header.
WHYS = {('excluded', 'record'): 'EXCLUDED', ('plc', 'record'): 'PLC', ('continuous', 'below'): 'PILOT_BELOW',
        ('continuous', 'above'): 'PILOT_ABOVE', ('continuous', 'record'): 'PILOT_RECORD', ('scattered', 'phase'): 'SCATTERED',
        ('data', 'phase'): 'DATA'}
WHY_ROLES = (0, 1, 2, 3, 3, 3, 4, 5)        # of each value the role, as the call of that name gives it; 0 is no value

# Of each call: how many numbers it takes, its buffers, how many of its numbers are a state, its grounds.  Fill and unfill
# take a start after their numbers.
CALLS = {
    'judge': (0, 'plan answer', 0, {*range(1, 16), 21}),
    'try': (2, 'plan answer', 0, {*range(1, 16), 21}),
    'role': (2, 'plan answer', 0, {*range(1, 17), 21}),
    'why': (2, 'plan answer', 0, {*range(1, 17), 21}),
    'data_count': (1, 'plan answer', 0, {*range(1, 17), 21}),
    'pilots': (0, 'plan pilots answer', 0, {*range(1, 16), 21}),
    'fresh_emitter': (1, 'plan store answer', 0, {*range(1, 18), 21}),
    'fresh_receiver': (1, 'plan store answer', 0, {*range(1, 18), 21}),
    'emit': (1, 'plan profile store data symbol answer', 1, {*range(1, 20), 21, 25}),
    'flush': (1, 'plan store symbol answer', 1, {*range(1, 18), 21}),
    'receive': (2, 'plan profile store symbol data answer', 2, {*range(1, 18), 20, 21, 25}),
    'fill': (1, 'plan profile stream data answer', 0, {*range(1, 17), 18, 21, 25, 26}),
    'unfill': (1, 'plan profile data stream answer', 0, {*range(1, 17), 18, 19, 21, 25, 26}),
    'lamp': (0, 'plan symbol record lights answer', 0, {*range(1, 16), 17, 21, 28}),
    'modulate': (0, 'symbol loads minus numbers answer', 0, {17, 21, 22, 23}),
}

STARTED = ('fill', 'unfill')
LEAST = {'pilots': lamp.LIST, 'lights': lamp.LIGHTS}        # bytes of these; with fewer it is 21
NOT_LOADS = [load for load in range(256) if load not in LISTED]
BUFFERS = [(name, key) for name, (_, buffers, *_) in CALLS.items() for key in buffers.split()]
HELPERS = ('number', 'cell', 'put_cell', 'lowest_plc', 'depth', 'emitter_store_bytes', 'receiver_store_bytes',
           'mark', 'symbol_phase', 'point_load', 'why_role', 'lamp_record_bytes')
HEADER = ROOT / 'include' / 'headend.h'
GROUNDS = ('PLAN_LENGTH', 'RECORD_KIND', 'NEXT_INDEX', 'RECORD_NUMBERS', 'PILOT_COUNT', 'ACTIVE_OUTSIDE',
           'EXCLUDED_AROUND_PLC', 'PILOT_TAKEN', 'NARROW_BAND', 'NO_WIDE_BAND', 'EXCLUDED_IN_SPAN',
           'EXCLUDED_IN_BAND', 'WINDOW_OF_120', 'WINDOW_OF_20', 'RANKS', 'OUT_OF_RANGE', 'BUFFER_LENGTH',
           'DATA_COUNT', 'DATA_CELL', 'ARRIVING_CELL', 'BUFFER_BYTES', 'LOAD', 'VALUE', None, 'PROFILE', 'STREAM',
           None, 'LAMP_RECORD')
NUMBERED = {name: 1 + i for i, name in enumerate(GROUNDS) if name}      # 24 and 27 no call gives


def number(n):
    return n.to_bytes(4, 'big')


def to_cells(data):
    cells = array('H', data)
    cells.byteswap()
    return cells.tolist()


def to_bytes(cells):
    data = array('H', cells)
    data.byteswap()
    return data.tobytes()


# --- the interface, by the second model ------------------------------------

class Interface(Filling):
    """The calls, over bytes."""

    def __init__(self):
        super().__init__()
        self.judged = {}
        self.points = points.Points()
        self.points.on_line = lru_cache(maxsize=None)(self.points.on_line)

    def judge(self, plan):
        if plan not in self.judged:
            self.judged[plan] = super().judge(plan)
        return self.judged[plan]

    def call(self, name, numbers, given):
        """What the call returns, and the buffers as they are after it."""
        if name in ('pilots', 'lamp'):
            after = getattr(lamp, name + '_call')(**given)._asdict()
            return after.pop('number'), {**given, **after}
        state = numbers if CALLS[name][2] else ()
        if len(given['answer']) < ANSWER:
            return 21, given
        lent = {key: data for key, data in given.items() if key in OF_CELLS}
        if any(len(data) % 2 for data in lent.values()):
            return 21, self.said(given, state)
        cells = {key: to_cells(data) for key, data in lent.items()}
        singles = {key: array('I', data) for key, data in given.items() if key == 'numbers'}
        streams = {key: bytearray(data) for key, data in given.items() if key == 'stream'}
        others = {key: data for key, data in given.items() if key not in (*OF_CELLS, 'numbers', 'stream', 'answer')}
        answer = getattr(self, 'call_' + name)(*numbers, **others, **cells, **singles, **streams)
        if answer[0] == 'refused':
            return answer[1], self.said(given, state, answer[3] if name == 'modulate' else 0, answer[2])
        left = {key: to_bytes(data) for key, data in cells.items()}
        left.update((key, data.tobytes()) for key, data in singles.items())
        left.update((key, bytes(data)) for key, data in streams.items())
        return 0, self.said({**given, **left}, *answer)

    def said(self, given, state=(), value=0, place=0):
        """The buffers with the answer written."""
        four = [place, *(*state, 0, 0)[:2], value]
        return {**given, 'answer': b''.join(map(number, four)) + given['answer'][ANSWER:]}

    # Each is given cells and answers the model's refusal, or the next state and a value.  That of
    # the modulator is given the numbers as their 32 bits, and its refusal tells the subcarrier.  That
    # of a reason answers a phase or a place beside the value.

    def call_judge(self, plan):
        answer = self.verdict(plan)
        return answer if answer[0] == 'refused' else ((), answer[1])

    def call_try(self, first, last, plan):
        answer = self.trial(plan, first, last)
        return answer if isinstance(answer, tuple) else ((), len(self.ranks_of(answer)))

    def call_role(self, subcarrier, phase, plan):
        answer = self.role(plan, subcarrier, phase)
        return answer if isinstance(answer, tuple) else ((), 1 + ROLES.index(answer))

    def call_why(self, subcarrier, phase, plan):
        answer = self.why(plan, subcarrier, phase)
        if answer[0] == 'refused':
            return answer
        *reason, n = answer
        value = 1 + list(WHYS).index(tuple(reason))
        return ((n,), value) if reason[1] == 'phase' else ((), value, n)

    def call_data_count(self, phase, plan):
        answer = self.data_count(plan, phase)
        return answer if isinstance(answer, tuple) else ((), answer)

    def call_fresh_emitter(self, phase, plan, store):
        answer = self.fresh(plan, phase, store)
        return answer if answer[0] == 'refused' else (answer[1:], 0)

    def call_fresh_receiver(self, phase, plan, store):
        answer = self.listen(plan, phase, store)
        return answer if answer[0] == 'refused' else (answer[1:], 0)

    def call_emit(self, phase, plan, profile, store, data, symbol):
        answer = self.step(plan, phase, store, data, symbol, profile)
        return answer if answer[0] == 'refused' else (answer[1:], 0)

    def call_flush(self, phase, plan, store, symbol):
        return self.call_emit(phase, plan, None, store, None, symbol)

    def call_receive(self, phase, heard, plan, profile, store, symbol, data):
        answer = self.receive(plan, phase, heard, store, symbol, data, profile)
        if answer[0] == 'refused':
            return answer
        return answer[-2:], answer[1] if answer[0] == 'data' else 0

    def call_fill(self, phase, start, plan, profile, stream, data):
        answer = self.fill_symbol(plan, profile, phase, stream, start, data)
        return answer if answer[0] == 'refused' else ((), answer[1])

    def call_unfill(self, phase, start, plan, profile, data, stream):
        answer = self.unfill_symbol(plan, profile, phase, data, start, stream)
        return answer if answer[0] == 'refused' else ((), answer[1])

    def call_modulate(self, symbol, loads, minus, numbers):
        bits = numbers.tolist()
        answer = self.points.modulate(symbol, loads, minus, bits)
        numbers[:] = array('I', bits)
        return answer if answer[0] == 'refused' else ((), 0)


# --- the case file ---------------------------------------------------------

def changes(old, new):
    """(offset, bytes) where two buffers of one length differ, by blocks."""
    if old == new:
        return
    for at in range(0, len(new), BLOCK):
        if old[at:at + BLOCK] != new[at:at + BLOCK]:
            yield at, new[at:at + BLOCK]


class Cases:
    """Writes calls, each with what the model expects of it."""

    def __init__(self, path, bend=None, model=None):
        self.file = open(path, 'wb')
        self.model = model or Interface()
        self.bend = bend                    # changes an expectation: (call's number, returned, buffers)
        self.held = {}                      # of each slot, what tests/host.c has there
        self.calls = 0
        self.reached = defaultdict(set)     # of each call, what it returned
        self.empty = set()                  # (call, buffer) that was empty in some call
        self.names = 0                      # names and helpers

    def name(self, text):
        self.file.write(b'\1' + number(len(text)) + text.encode())

    def hold(self, slot, data):
        """The slot has these bytes before the next call."""
        old = self.held.get(slot, b'')
        if len(old) != len(data):
            self.file.write(bytes([2, slot]) + number(len(data)))
            old = old[:len(data)].ljust(len(data), b'\0')
        for at, part in changes(old, data):
            self.file.write(bytes([3, slot]) + number(at) + number(len(part)) + part)
        self.held[slot] = data

    def call(self, name, *numbers, **given):
        """A call on these buffers.  Answers what it returns and the buffers after it."""
        slots = self.slots(name)
        given.setdefault('answer', bytes([0xA5]) * (ANSWER + self.calls % 3 * 11))
        for key, slot in slots.items():
            self.hold(slot, given[key])
            if not given[key]:
                self.empty.add((name, key))
        returned, after = self.model.call(name, numbers, given)
        self.reached[name].add(returned)
        wanted = self.bend(self.calls, returned, after) if self.bend else (returned, after)
        parts = [bytes([slot]) + number(at) + number(len(part)) + part for key, slot in slots.items()
                 for at, part in changes(given[key], wanted[1][key])]
        takes = CALLS[name][0]
        starts = b''.join(start.to_bytes(8, 'big') for start in numbers[takes:])
        self.file.write(bytes([4, list(CALLS).index(name)]) + b''.join(map(number, numbers[:takes])) + starts
                        + bytes(slots.values()) + number(wanted[0]) + number(len(parts))
                        + b''.join(parts))
        for key, slot in slots.items():
            self.held[slot] = wanted[1][key]
        self.calls += 1
        return returned, after

    def slots(self, name):
        """The slot of each buffer of a call."""
        hears = name in ('receive', 'fresh_receiver', 'unfill')
        of = {'plan': PLAN, 'store': LISTENING if hears else SENDING,
              'data': HANDED if hears else GIVEN, 'symbol': LINE, 'answer': SAID,
              'loads': LOADS, 'minus': SIGNS, 'numbers': NUMBERS, 'profile': PROFILE, 'stream': BACK if hears else STREAM,
              'pilots': LIST, 'record': RECORD, 'lights': LIGHTS}
        return {key: of[key] for key in CALLS[name][1].split()}

    def header_name(self, name, value):
        """A name of the header has this value."""
        self.file.write(b'\5' + number(len(name)) + name.encode() + number(value))
        self.names += 1

    def helper(self, name, slot, a=0, b=0, want=0, other=PLAN):
        """A helper of the header, on the bytes that a slot holds, answers this."""
        self.file.write(bytes([6, HELPERS.index(name), slot, other]) + number(a) + number(b) + number(want))
        self.names += 1

    def put_cell(self, slot, i, cell):
        """The helper that writes a cell, and the bytes that the slot has then."""
        self.helper('put_cell', slot, i, cell)
        self.held[slot] = with_cell(self.held[slot], i, cell % 65536)
        self.file.write(bytes([7, slot]) + number(len(self.held[slot])) + self.held[slot])

    def end(self):
        reached = sum(1 << n for n in set().union(*self.reached.values()))
        empty = sum(1 << n for n, buffer in enumerate(BUFFERS) if buffer in self.empty)
        self.file.write(b'\0' + number(self.calls) + number(reached) + empty.to_bytes(8, 'big') + number(self.names))
        self.file.close()


# --- what is given ---------------------------------------------------------

def some_bytes(rng, cells, spare=0):
    """The bytes of so many cells, of any content, and of some more."""
    return rng.randbytes(2 * (cells + spare))


def some_data(rng, count):
    return to_bytes([x % 16384 for x in array('H', rng.randbytes(2 * count))])


def fitting_data(rng, model, loads):
    """Data within the limits of these loads."""
    return to_bytes([x % (model.limit(load) + 1) for x, load in zip(array('H', rng.randbytes(2 * len(loads))), loads)])


def with_load(profile, k, load):
    return profile[:k] + bytes([load]) + profile[k + 1:]


def with_cell(data, i, cell):
    return data[:2 * i] + cell.to_bytes(2, 'big') + data[2 * i + 2:]


def at_depth(plan, m):
    return plans.second(plan, 0, m)


def value_of(answer):
    """The last of the four numbers."""
    return int.from_bytes(answer[12:16], 'big')


class Link:
    """An emitter and a receiver of one plan and one profile, and the line between."""

    def __init__(self, cases, plan, start, seed, spare=3, profile=FULL):
        self.cases, self.plan, self.profile = cases, plan, profile
        self.rng = random.Random(seed)
        self.at = cases.model.layout(plan)
        self.needs = {end: cases.model.places(self.at, end).length for end in ('emitter', 'receiver')}
        self.symbol = some_bytes(self.rng, SYMBOL)
        store = some_bytes(self.rng, self.needs['emitter'], spare)
        _, after = self.cases.call('fresh_emitter', start, plan=plan, store=store)
        self.sending, self.sender = after['store'], self.next_state(after['answer'], 1)
        self.listen(2 * spare)

    def listen(self, spare):
        """A receiver that hears the symbols sent from here on."""
        store = some_bytes(self.rng, self.needs['receiver'], spare)
        _, after = self.cases.call('fresh_receiver', self.sender[0], plan=self.plan, store=store)
        self.listening, self.state = after['store'], self.next_state(after['answer'], 2)
        self.sent, self.t = [], 0       # inputs, and symbols heard, since

    def next_state(self, answer, numbers):
        return tuple(int.from_bytes(answer[4 * i:4 * i + 4], 'big') for i in range(1, numbers + 1))

    # Each step is the right one but for what is said in `other`.

    def loads(self, phase):
        return self.cases.model.data_loads(self.at, self.profile, phase)

    def emit(self, name='emit', **other):
        given = {'plan': self.plan, 'store': self.sending, 'symbol': self.symbol, **other}
        numbers = given.pop('state', self.sender)
        data = fitting_data(self.rng, self.cases.model, self.loads(self.sender[0]))
        if name == 'emit':
            given.setdefault('data', data)
            given.setdefault('profile', self.profile)
        return self.cases.call(name, *numbers, **given)

    def receive(self, **other):
        count = self.cases.model.count(self.at, self.cases.model.input_phase(self.at, self.state[0]))
        warming = self.state[1] < self.at.m - 1     # then a data buffer of any length will do
        room = self.rng.choice((0, 1, count - 1, count)) if warming else count + self.rng.choice((0, 0, 1, 50))
        given = {'plan': self.plan, 'profile': self.profile, 'store': self.listening, 'symbol': self.symbol, **other}
        given.setdefault('data', some_bytes(self.rng, room))
        numbers = given.pop('state', self.state)
        return self.cases.call('receive', *numbers, **given)

    def send(self, flush=False, **other):
        returned, after = self.emit('flush' if flush else 'emit', **other)
        assert returned == 0
        self.sending, self.symbol = after['store'], after['symbol']
        count = self.cases.model.count(self.at, self.sender[0])
        self.sent.append(b'\x80\x01' * count if flush else after['data'])
        self.sender = self.next_state(after['answer'], 1)

    def hear(self):
        """What is received is what was sent M - 1 symbols before.  Answers the data that was handed out."""
        returned, after = self.receive()
        assert returned == 0
        count = value_of(after['answer'])
        want = self.sent[self.t - self.at.m + 1] if self.t >= self.at.m - 1 else b''
        assert after['data'][:2 * count] == want
        self.listening = after['store']
        self.state = self.next_state(after['answer'], 2)
        self.t += 1
        return after['data'][:2 * count]

    def short_stores(self, end, store):
        """What is wrong with the store of an end: too short, and so not at depth 1, or of odd length."""
        need = self.needs[end]
        if need > 0:
            yield from (({'store': store[:2 * need - 2]}, 17), ({'store': b''}, 17), ({'store': store[:2 * need - 1]}, 21))
        yield {'store': store + b'\0'}, 21

    def wrong_profiles(self):
        """The same of the profile."""
        k, load = self.rng.randrange(SYMBOL), self.rng.choice(NOT_LOADS)
        bad = with_load(self.profile, k, load)
        yield from (({'profile': self.profile[1:]}, 25), ({'profile': self.profile + b'\0'}, 25), ({'profile': b''}, 25),
                    ({'profile': bad}, 25), ({'profile': bad, 'state': (128, 99)}, 25), ({'profile': bad, 'store': b'\0'}, 21),
                    ({'profile': bad, 'symbol': b''}, 25), ({'profile': bad[1:], 'data': b''}, 25))

    def wrong_sends(self):
        """(what is other, the number that refuses it) of an emit."""
        phase, = self.sender
        loads = self.loads(phase)
        count, good = len(loads), fitting_data(self.rng, self.cases.model, loads)
        c = self.rng.randrange(count)
        yield {'data': with_cell(good, c, self.cases.model.limit(loads[c]) + 1)}, 19
        for other, want in self.wrong_profiles():
            yield {key: value[:1] if key == 'state' else value for key, value in other.items()}, want
        yield from self.short_stores('emitter', self.sending)
        yield from (({**short, 'data': good[2:]}, want) for short, want in self.short_stores('emitter', self.sending))
        yield from (({'data': good[2:]}, 18), ({'data': good + b'\0\0'}, 18), ({'data': b''}, 18),
                    ({'data': with_cell(good, count // 2, 16384)}, 19),
                    ({'data': with_cell(good, 0, 0x8001)}, 19),
                    ({'data': with_cell(good, count - 1, 65535)}, 19),
                    ({'state': (128,)}, 16), ({'state': (phase + 128,)}, 16),
                    ({'state': (TOP,), 'data': b''}, 16), ({'state': ODD_NUMBERS[:1]}, 16),
                    ({'symbol': self.symbol[2:]}, 17), ({'symbol': self.symbol + b'\0\0'}, 17),
                    ({'data': with_cell(good[2:], 0, 16384)}, 18),
                    ({'data': good[1:]}, 21),
                    ({'symbol': self.symbol[:-1]}, 21), ({'symbol': b'\0'}, 21),
                    ({'data': good + b'\0', 'state': (128,)}, 21))
        for room in (0, 1, ANSWER - 1):
            yield {'answer': b'\x5A' * room, 'state': (TOP,)}, 21
            yield {'answer': b'\x5A' * room}, 21

    def wrong_receives(self):
        """The same of a receive step."""
        phase, heard = self.state
        m, symbol = self.at.m, self.symbol
        yield from self.wrong_profiles()
        yield from self.short_stores('receiver', self.listening)
        yield from (({'state': (phase, m)}, 16), ({'state': (phase + 128, heard)}, 16),
                    ({'state': (128, heard)}, 16), ({'state': (TOP, TOP)}, 16),
                    ({'state': ODD_NUMBERS}, 16),
                    ({'symbol': symbol[2:]}, 17), ({'symbol': symbol + b'\x80\x02'}, 17),
                    ({'symbol': symbol[:-1]}, 21),
                    ({'data': b'\0'}, 21), ({'data': bytes(9999)}, 21),
                    ({'symbol': b'\0', 'state': (phase, m)}, 21),
                    ({'symbol': with_cell(symbol, 4095, 0x8003)}, 20),
                    ({'symbol': with_cell(with_cell(symbol, 4095, 0), 0, 0x8001)}, 20))
        if heard == m - 1:
            count = self.cases.model.count(self.at, self.cases.model.input_phase(self.at, phase))
            yield {'data': bytes(2 * count - 2)}, 17
            yield {'data': b'', 'symbol': with_cell(symbol, 0, 0)}, 17
        marks = self.cases.model.marks_at(self.at, phase)
        for mark in set(marks):
            cell = self.rng.choice((16384, 65535, 0x8005, 0x8000 if mark != 0x8000 else 0x8001))
            turn = self.rng.randrange(SYMBOL)
            k = (turn + (marks[turn:] + marks[:turn]).index(mark)) % SYMBOL
            yield {'symbol': with_cell(symbol, k, cell)}, 20
        k = self.rng.choice([k for k, mark in enumerate(marks) if mark is None])
        yield {'symbol': with_cell(symbol, k, self.cases.model.limit(self.profile[k]) + 1)}, 20
        for room in (0, 1, ANSWER - 1):
            yield {'answer': b'\x5A' * room, 'state': (TOP, TOP)}, 21
            yield {'answer': b'\x5A' * room}, 21

    def refused(self, step, wrongs, some):
        """Takes refused steps, all of them or so many."""
        wrongs = list(wrongs)
        for other, want in wrongs if some is None else self.rng.sample(wrongs, some):
            returned, _ = step(**other)
            assert returned == want, (returned, want)

    def refused_flush(self, some):
        wrongs = [(other, want) for other, want in self.wrong_sends() if not other.keys() & {'data', 'profile'}]
        self.refused(lambda **other: self.emit('flush', **other), wrongs, some)

    def run(self, symbols, some=2):
        """Sends and receives so many symbols, with refused steps between."""
        for t in range(symbols):
            self.refused(self.emit, self.wrong_sends(), some)
            if t % 3 == 2:
                self.refused_flush(some)
            self.send(t % 3 == 2)
            self.refused(self.receive, self.wrong_receives(), some)
            self.hear()


# --- the cases -------------------------------------------------------------

def names_of(limits):
    """What each name of the header has to be."""
    marks = {'SCATTERED': limits.scattered_mark, 'FILLER': limits.filler_mark, 'EXCLUDED': limits.excluded_mark,
             'CONTINUOUS': limits.continuous_mark, 'PLC': limits.plc_mark, 'DATA_MAX': 2 ** max(LISTED) - 1}
    four = ('PLACE', 'PHASE', 'HEARD', 'VALUE')
    largest = {'EMITTER': emitter_length, 'RECEIVER': receiver_length}
    return {'VERSION': 5, 'ANSWER_BYTES': ANSWER, **{name: 4 * i for i, name in enumerate(four)},
            **{name.upper(): 1 + i for i, name in enumerate(ROLES)},
            **{'WHY_' + name: 1 + i for i, name in enumerate(WHYS.values())},
            **{'CELL_' + name: mark for name, mark in marks.items()},
            'SUBCARRIERS': limits.last_subcarrier + 1, 'PHASES': limits.phases, 'DEPTH_MAX': limits.highest_m,
            'PLAN_BYTES_MAX': limits.longest, 'SYMBOL_BYTES': 2 * limits.cells, 'NUMBERS': 2 * limits.cells,
            'RECORD_NUMBER_MAX': RECORD_MAX, 'PROFILE_BYTES': limits.profile,
            'PILOTS': lamp.MOST, 'PILOTS_BYTES': lamp.LIST, 'LIGHTS_BYTES': lamp.LIGHTS,
            'LAMP_RECORD_BYTES_MAX': lamp.MOST + 1, 'LAMP_COUNT_MAX': lamp.MODEL.limits.cap,
            **{end + '_STORE_BYTES_MAX': 2 * length(limits.most_ranks, limits.highest_m)
               for end, length in largest.items()}, 'DATA_BYTES_MAX': 2 * limits.most_ranks, 'STACK_BYTES': 131072, 'ACCEPTED': 0,
            **{'REFUSED_' + name: n for name, n in NUMBERED.items()}}


def header_names(cases):
    """Every name that the header defines, and no other."""
    cases.name('the names of the header')
    names = {'HEADEND_' + name: value for name, value in names_of(cases.model.limits).items()}
    defined = set(re.findall(r'^#define (HEADEND_\w+) +\w', HEADER.read_text(), re.M)) - {'HEADEND_NOT_IGNORED'}
    assert defined == set(names), defined ^ set(names)
    for name, value in names.items():
        cases.header_name(name, value)


def helpers(cases, phases):
    """The helpers of the header, on bytes that are no palindromes, and on symbols of all phases."""
    cases.name('the helpers of the header')
    rng, model = random.Random(8), cases.model
    cases.hold(SAID, b''.join(map(number, (*ODD_NUMBERS, 0x00FF10EF, 0x0F2E4D6C, TOP))))
    for i, n in enumerate((*ODD_NUMBERS, 0x00FF10EF, 0x0F2E4D6C, TOP)):
        cases.helper('number', SAID, 4 * i, want=n)
    cells = [0, 1, 255, 256, 16383, 16384, 0x8001, 65535, *(rng.randrange(65536) for _ in range(20))]
    cases.hold(GIVEN, to_bytes(cells))
    for i, cell in enumerate(cells):
        cases.helper('cell', GIVEN, i, want=cell)
    for i, cell in enumerate((0x1234, 65535, 0, 0x12345678, TOP, 0x80, 0x8000)):
        cases.put_cell(GIVEN, rng.randrange(len(cells)), cell)
    marks = names_of(model.limits)
    for i, role in enumerate(('EXCLUDED', 'PLC', 'CONTINUOUS', 'SCATTERED', 'FILLER')):
        cases.helper('mark', GIVEN, 1 + i, want=marks['CELL_' + role])
    for load in (*range(256), 256, TOP):
        cases.helper('point_load', GIVEN, load, want=1 if load == 0 else load)
    for value in (*range(9), 255, 256, 257, TOP):
        cases.helper('why_role', GIVEN, value, want=WHY_ROLES[value] if value < len(WHY_ROLES) else 0)
    for pilots in range(8, lamp.MOST + 1):
        cases.helper('lamp_record_bytes', GIVEN, pilots, want=1 + pilots)
    for m in range(1, 33):
        for n in (282, 425, 32 * m, 100 * m + m // 2, 3744, 3745):
            cases.helper('emitter_store_bytes', SAID, n, m, want=2 * sum(p % m for p in range(n)))
            cases.helper('receiver_store_bytes', SAID, n, m, want=2 * sum(m - 1 - p % m for p in range(n)))
    for plan in (plans.PLAN_A, (ROOT / loss.NO_SCATTERED).read_bytes(), at_depth(plans.LARGEST, 31)):
        at = model.layout(plan)
        cases.hold(PLAN, plan)
        cases.helper('lowest_plc', PLAN, want=at.map.l)
        cases.helper('depth', PLAN, want=at.m)
        for phase in phases:
            cases.hold(LINE, to_bytes([7 if mark is None else mark for mark in model.marks_at(at, phase)]))
            some = model.scattered_of(at.map, phase)
            cases.helper('symbol_phase', PLAN, want=phase if some else 128, other=LINE)


def verdicts(cases, some):
    """The example plans, then the plans that compare.py makes, those of cases.py among them."""
    for path in sorted((ROOT / 'plans').glob('*.plan')):
        cases.name('verdict of ' + path.name)
        cases.call('judge', plan=path.read_bytes())
    for source, plan in compare.inputs(some, 1) if some else ():
        cases.name('verdict of %s' % source)
        cases.call('judge', plan=plan)


def roles(cases, subcarriers):
    a, largest, singles = plans.PLAN_A, plans.LARGEST, plans.SINGLES_150
    for plan, phase in ((a, 0), (a, 14), (a, 125), (a, 127), (largest, 77), (singles, 127)):
        cases.name('roles at phase %d' % phase)
        for k in subcarriers:
            cases.call('role', k, phase, plan=plan)
        for k, j in ((4096, 0), (TOP, 0), (0, 128), (4095, TOP), (4096, 128)):
            assert cases.call('role', k, j, plan=plan)[0] == 16


def counts(cases, phases):
    for plan in (plans.PLAN_A, plans.near_a(M=3), plans.near_b(), at_depth(plans.LARGEST, 31),
                 plans.SINGLES_150):
        cases.name('N_D')
        for phase in phases:
            cases.call('data_count', phase, plan=plan)
        for phase in (128, TOP):
            assert cases.call('data_count', phase, plan=plan)[0] == 16


def of_plans():
    """The calls that are given a plan."""
    return [(name, call) for name, call in CALLS.items() if 'plan' in call[1].split()]


def refused_plans(cases):
    """Every call of a plan refused by each of 1 to 15, and by 21 before."""
    rng = random.Random(3)
    for ground in range(1, 16):
        plan = (ROOT / 'plans' / ('refused-%02d.plan' % ground)).read_bytes()
        for name, (takes, buffers, *_) in of_plans():
            cases.name('%s refused by %d' % (name, ground))
            # Good buffers of Plan A, then short ones and numbers out of range.
            takes += name in STARTED
            for cells, n in (({'store': 639, 'data': 421, 'symbol': SYMBOL, 'stream': 400}, 3), ({}, TOP)):
                given = {key: some_bytes(rng, cells.get(key, LEAST.get(key, 4) // 2)) for key in buffers.split()[1:-1]}
                if cells and 'profile' in given:
                    given['profile'] = FULL
                want = 4 if name == 'try' and n == TOP and ground > 5 else ground       # the new record's
                assert cases.call(name, *[n] * takes, plan=plan, **given)[0] == want
            for odd in given:
                bad = {**given, odd: given[odd] + b'\0'}
                assert cases.call(name, *[5] * takes, plan=plan, **bad)[0] == (21 if odd in OF_CELLS else ground)
            for room in (0, 1, ANSWER - 1):
                given['answer'] = b'\x5A' * room
                assert cases.call(name, *[5] * takes, plan=plan, **given)[0] == 21


def lent_rooms(cases):
    """Longer stores and answers than needed, and fresh starts at the limits of 16, 17 and 21."""
    rng = random.Random(4)
    for plan in (plans.PLAN_A, plans.near_a(M=1), plans.near_a([(850, 853)], [900], M=31)):
        cases.name('fresh starts')
        at = cases.model.layout(plan)
        for end in ('emitter', 'receiver'):
            name, need = 'fresh_' + end, cases.model.places(at, end).length
            for phase in (0, 1, at.m - 1, 64, 126, 127):
                for spare in (0, 1, 500):
                    store = some_bytes(rng, need, spare)
                    room = rng.choice((ANSWER, ANSWER + 1, 64, 1000))
                    assert cases.call(name, phase, plan=plan, store=store, answer=rng.randbytes(room))[0] == 0
            store = some_bytes(rng, need)
            short = ((5, store[2:], 17), (5, b'', 17), (5, store[:-1], 21)) if need > 0 else ()
            for phase, lent, want in (*short, (128, store, 16), (TOP, b'', 16), (5, store + b'\0', 21),
                                      (TOP, b'\0', 21)):
                assert cases.call(name, phase, plan=plan, store=lent)[0] == want
            for room in (0, 1, ANSWER - 1):
                assert cases.call(name, 5, plan=plan, store=store, answer=bytes(room))[0] == 21


def store_lengths(cases, depths):
    """Every call that is lent a store, at both sides of the least length of its end, of plans with N_I a
    multiple of M and not."""
    rng = random.Random(10)
    for m in depths:
        for plan in (plans.near_a(M=m), plans.near_a(pilots=range(1060, 1060 + 425 % m), M=m)):
            at, phase = cases.model.layout(plan), rng.randrange(128)
            cases.name('stores at depth %d with N_I %d' % (m, at.n))
            full = {'plan': plan, 'profile': FULL, 'symbol': to_bytes([5 if mark is None else mark
                                                      for mark in cases.model.marks_at(at, phase)])}
            lengths = {end: cases.model.places(at, end).length for end in ('emitter', 'receiver')}
            for name, (takes, buffers, *_) in CALLS.items():
                if 'store' not in buffers:
                    continue
                need = lengths['receiver' if 'receive' in name else 'emitter']
                sizes = {need, need + 1, need - 1, *lengths.values()} - {-1}
                data = some_data(rng, cases.model.count(at, phase)) if name == 'emit' else some_bytes(rng, at.n)
                for size in sorted(sizes):
                    given = {**full, 'data': data, 'store': some_bytes(rng, size), 'answer': bytes(ANSWER)}
                    returned, _ = cases.call(name, *(phase, m - 1)[:takes],
                                             **{key: given[key] for key in buffers.split()})
                    assert returned == (17 if size < need else 0), (name, size, need, returned)


def any_states(cases, depths):
    """Single steps from any state, in stores of any content."""
    rng = random.Random(5)
    for m in depths:
        for plan in (plans.near_a([(850, 853)], [900], M=m), at_depth(plans.SINGLES_150, m)):
            cases.name('any state at depth %d' % m)
            at = cases.model.layout(plan)
            for phase in (0, 127, rng.randrange(128)):
                heard, profile = rng.choice((0, m - 1)), some_profile(rng)
                line = to_bytes([rng.choice((0x8001, rng.randrange(cases.model.limit(load) + 1))) if mark is None else mark
                                 for mark, load in zip(cases.model.marks_at(at, phase), profile)])
                store = some_bytes(rng, receiver_length(at.n, m), 7)    # the longer of the two
                room = some_bytes(rng, SYMBOL)
                data = fitting_data(rng, cases.model, cases.model.data_loads(at, profile, phase))
                assert cases.call('emit', phase, plan=plan, profile=profile, store=store, data=data, symbol=room)[0] == 0
                assert cases.call('flush', phase, plan=plan, store=store, symbol=room)[0] == 0
                assert cases.call('receive', phase, heard, plan=plan, profile=profile, store=store, symbol=line,
                                  data=some_bytes(rng, at.n))[0] == 0


def runs(cases, depths, large, all_wrong, long):
    """Links at these depths: of Plan A's neighbours, also round the wrap of the phases; of large plans;
    with every refused step, and with a receiver that comes late; and a long one at depth 3.  Some with 14
    everywhere, others with mixed loads."""
    mixed = random.Random(21)
    for m in depths:
        for start, profile in ((127 - m // 2, FULL), (37 * m % 128, some_profile(mixed))):
            cases.name('a link of depth %d from phase %d' % (m, start))
            Link(cases, plans.near_a(M=m), start, m, profile=profile).run(2 * m + 3 if start > 100 else m + 2)
    for m in large:
        cases.name('a large link of depth %d' % m)
        Link(cases, at_depth(plans.LARGEST, m), 127 - m // 2, m, 0, FULL if m % 2 else some_profile(mixed)).run(m + 4, 1)
    for m in all_wrong:
        cases.name('every refused step at depth %d' % m)
        Link(cases, plans.near_a([(850, 853)], [900], M=m), 126, m, profile=some_profile(mixed)).run(m + 3, None)
    for m in all_wrong:
        cases.name('a receiver that comes late, at depth %d' % m)
        link = Link(cases, plans.near_a(M=m), 120, m)
        for t in range(m + 2):
            link.send(t % 4 == 3)
        link.listen(1)
        link.run(m + 3, 0)
    cases.name('a long link')
    Link(cases, plans.near_a(M=3), 5, 9, profile=some_profile(mixed, (0, 4, 14))).run(long, 0)


def empty_buffers(cases):
    """Each call of a plan with each of its buffers empty, and with all of them: tests/host.c passes NULL for it."""
    plan, rng = plans.near_a(M=2), random.Random(9)
    link = Link(cases, plan, 60, 3)
    link.send()
    cases.name('empty buffers')
    refused = {'plan': 1, 'profile': 25, 'store': 17, 'symbol': 17, 'data': 18, 'stream': 26, 'pilots': 21, 'record': 28, 'lights': 21,
               'answer': 21}
    for name, (takes, buffers, *_) in of_plans():
        data = some_bytes(rng, link.at.n) if name == 'receive' else some_data(rng, cases.model.count(link.at, 60))
        hears = name in ('receive', 'fresh_receiver')
        full = {'plan': plan, 'profile': FULL, 'store': link.listening if hears else link.sending, 'data': data,
                'symbol': link.symbol, 'stream': rng.randbytes(800), 'pilots': bytes(256), 'record': bytes(9), 'lights': bytes(128),
                'answer': bytes(ANSWER)}
        full = {key: full[key] for key in buffers.split()}
        numbers = (60, 60) if name == 'try' else (60, 0)[:takes + (name in STARTED)]
        assert cases.call(name, *numbers, **full)[0] == 0
        for key in full:
            want = 0 if (name, key) == ('receive', 'data') else refused[key]     # warming, any data buffer will do
            assert cases.call(name, *numbers, **{**full, key: b''})[0] == want
        assert cases.call(name, *numbers, **dict.fromkeys(full, b''))[0] == 21
        want = 21 if full.keys() & LEAST.keys() else 1
        assert cases.call(name, *numbers, **{**dict.fromkeys(full, b''), 'answer': bytes(ANSWER)})[0] == want
        if name == 'receive':
            assert cases.call('receive', 61, 1, **{**full, 'data': b''})[0] == 17     # not warming


def losses(cases):
    """A symbol that is lost, which nobody sees; one that is refused by 20 and left alone; one that is mended; and
    a receiver that starts afresh. tests/loss.py says what comes of each."""
    plan = (ROOT / loss.NO_SCATTERED).read_bytes()
    cases.name('a lost symbol that nobody sees')
    link, wrong, returned = Link(cases, plan, 50, 12), 0, 0
    for t in range(27):
        link.send()
        if t == 16:                                 # of phase 66
            continue
        assert returned == 0
        returned, after = link.receive()
        count = value_of(after['answer'])
        wrong += count > 0 and after['data'][:2 * count] != link.sent[link.t - link.at.m + 1][:2 * count]
        link.listening, link.state, link.t = after['store'], link.next_state(after['answer'], 2), link.t + 1
    assert (returned, wrong, link.state[0]) == (20, 9, 75), (returned, wrong, link.state)
    cases.name('a receiver that starts afresh')
    link.listen(0)
    link.run(6, 0)
    cases.name('a wrong symbol left alone, then mended')
    link.send()
    good, wrong = link.symbol, link.symbol
    for k in (972, 0, 800, 925):                    # PLC, excluded, data, continuous
        wrong = with_cell(wrong, k, 65535)
    link.send()
    for symbol in (wrong, link.symbol):             # the next one is refused too
        assert link.receive(symbol=symbol)[0] == 20
    for want in (0, 800, 925, 972):
        returned, after = link.receive(symbol=wrong)
        assert (returned, int.from_bytes(after['answer'][:4], 'big')) == (20, want)
        mark = cases.model.marks_at(link.at, link.state[0])[want]
        wrong = with_cell(wrong, want, 0x8001 if mark is None else mark)
    assert wrong == with_cell(good, 800, 0x8001)
    for symbol in (wrong, link.symbol):
        returned, after = link.receive(symbol=symbol)
        assert returned == 0
        link.listening, link.state = after['store'], link.next_state(after['answer'], 2)


# --- one more range --------------------------------------------------------

RANGES = ((850, 853), (850, 854), (0, 147), (3949, 4095), (2500, 2500), (1239, 1240), (1182, 1201), (0, 4095), (7, 6), (4095, 4096))
# Refused by 4: the numbers from 65536 on, cut to two bytes, would be good.
BAD = ((7, 6), (4096, 4096), (65536 + 850, 65536 + 853), (850, 65536 + 853), (65536 + 850, 853), (0, TOP), (TOP, TOP))


def attempt(cases, plan, first, last, want=None, **other):
    """A call of try, and what it has to give where that is said: 0 and N_I, or the ground and its place."""
    returned, after = cases.call('try', first, last, plan=plan, **other)
    answer = after['answer']
    given = returned, value_of(answer) if returned == 0 else int.from_bytes(answer[:4], 'big')
    assert want is None or given == want, (first, last, want, given)


def without_last(model, plan):
    """A plan and a range such that a trial of it has this plan as the copy; None where the chain does not end at a last
    record of kind 2."""
    index = len(plan) // 8 - 1
    if model.length_is_bad(len(plan)) or plan[-8:-4] != bytes((2, 0, 0, 0)):
        return None
    for i in (i for i in range(index) if model.read(plan, i).next == index):
        shorter = plans.next_index(plan[:-8], i, 0)
        chain = model.chain(shorter)
        if isinstance(chain, list) and model.last_on_chain(chain) == i:
            return shorter, *to_cells(plan[-4:])
    return None


def trials(cases, ranges, step, some):
    """These ranges on every plan of plans/; on the named cases of plans.py, in steps of `step`, a range by chance, and the last range
    of each on the plan without it: its line was worked out by hand; ranges by chance on `some` plans by chance."""
    rng = random.Random(20)
    for path in sorted((ROOT / 'plans').glob('*.plan')):
        cases.name('ranges tried on ' + path.name)
        for first, last in ranges:
            attempt(cases, path.read_bytes(), first, last)
    for name, plan, want in plans.all_cases()[::step]:
        cases.name('tried on ' + name)
        attempt(cases, plan, *compare.some_range(rng, plan))
        shorter = without_last(cases.model, plan)
        if shorter is not None:
            words = [int(word) for word in want.split()[1:]]
            attempt(cases, *shorter, (0, words[0]) if want.startswith('ok') else tuple(words))
    for _ in range(some):
        cases.name('tried on a plan by chance')
        plan = compare.good(rng)
        for _ in range(3):
            attempt(cases, plan, *compare.some_range(rng, plan))


def limits():
    """(plan, first, last, what comes of it): Plan A and its neighbours, as the paper lists them, then both sides of each limit that
    one more range can break."""
    a, b, six = plans.PLAN_A, plans.near_b, plans.singles(1010, 1030, 1050, 1070, 1090, 1110)
    split, pilots = b([(1100, 1119)]), plans.near_a(pilots=[900, 860])
    two, crowded = plans.two_bands, plans.two_bands(1300, 1339, plans.singles(1310, 1330))
    wide = plans.plan(972, 4, [(0, 799), (1699, 4095)])
    return ((a, 1240, 1240, (0, 424)), (a, 1239, 1240, (10, 0)), (a, 850, 854, (14, 835)), (a, 850, 853, (0, 421)),
            (plans.near_a(plans.singles(*range(810, 861, 10))), 870, 870, (13, 800)),
            (a, 1182, 1201, (9, 1202)), (a, 1181, 1200, (10, 0)), (a, 1180, 1199, (10, 0)), (a, 839, 858, (9, 800)),
            (a, 840, 859, (10, 0)), (plans.ONE_PILOT_FEWER, 1000, 1000, (0, 3745)), (plans.LARGEST, 1000, 1000, (0, 3744)),
            (a, 0, 799, (0, 425)), (a, 799, 800, (0, 424)), (a, 800, 801, (10, 0)), (a, 4095, 4095, (0, 425)),
            (a, 4095, 4096, (4, 3)), (a, 4096, 4095, (4, 3)), (a, 801, 800, (4, 3)), (a, 1, 0, (4, 3)),
            (a, 915, 915, (0, 424)), (a, 916, 916, (7, 916)), (a, 1035, 1035, (7, 1035)), (a, 1036, 1036, (0, 424)),
            (a, 915, 917, (7, 916)), (a, 0, 4095, (7, 916)), (a, 979, 1100, (7, 979)),
            (pilots, 899, 899, (0, 422)), (pilots, 900, 900, (8, 3)), (pilots, 860, 860, (8, 4)), (pilots, 860, 900, (8, 3)),
            (split, 1159, 1178, (9, 1120)), (split, 1160, 1179, (0, 945)), (b(), 1020, 1039, (9, 1000)), (b(), 1040, 1059, (0, 965)),
            (wide, 1239, 1258, (0, 863)), (wide, 1240, 1259, (0, 863)), (wide, 1239, 1259, (10, 0)), (wide, 1240, 1258, (13, 1127)),
            (two(1362, 1404), 1100, 1100, (11, 0)), (two(1362, 1409), 1100, 1100, (0, 472)), (two(1362, 1408), 1100, 1100, (11, 0)),
            (crowded, 1330, 1330, (0, 463)), (crowded, 1320, 1320, (12, 1300)), (plans.equal_12(), 870, 870, (12, 800)),
            (b(six), 1128, 1128, (13, 1009)), (b(six), 1129, 1129, (13, 1010)), (b(six), 1130, 1130, (0, 978)),
            (b([(1100, 1103)]), 1118, 1118, (14, 1099)), (b([(1100, 1103)]), 1119, 1119, (14, 1100)),
            (b([(1100, 1103)]), 1120, 1120, (0, 980)), (b(), 1100, 1118, (13, 1000)), (b(), 1100, 1119, (0, 965)),
            (plans.full(pilots=plans.pilots_of_full(120)), 3000, 3000, (0, 3664)))


def mended():
    """(a refused plan, its ground, first, last, what comes of it): what the range mends, and what it does not."""
    low, high = plans.plan(204, 4, plans.outside(147, 588)), plans.plan(3885, 4, plans.outside(3508, 3949))
    holes = plans.plan(972, 4, [(0, 99), (101, 119), (121, 799), (1241, 4095)])
    alone, full, two, b = plans.record(1, 0, 972, 4), plans.full, plans.two_bands, plans.near_b
    crowded = two(1300, 1339, plans.singles(1310, 1320, 1330))
    return ((low, 6, 147, 147, (0, 425)), (low, 6, 146, 146, (6, 147)), (high, 6, 3949, 3949, (0, 425)),
            (high, 6, 3950, 3950, (6, 3949)), (holes, 6, 100, 100, (6, 120)), (holes, 6, 100, 120, (0, 425)),
            (alone, 6, 0, 799, (6, 3949)), (alone, 6, 0, 4095, (7, 916)), (alone, 6, 7, 6, (4, 1)),
            (plans.next_index(plans.PLAN_A, 1, 0), 6, 1241, 4095, (0, 425)),
            (plans.near_a(plans.singles(972)), 7, 850, 850, (7, 972)), (plans.near_a(plans.singles(972)), 7, 916, 916, (7, 916)),
            (plans.near_a(pilots=[972]), 8, 850, 850, (8, 3)), (plans.near_a(pilots=[850, 972]), 8, 850, 850, (8, 3)),
            (two(1300, 1338), 9, 1300, 1338, (0, 425)), (two(1300, 1338), 9, 1300, 1337, (9, 1338)),
            (plans.plan(972, 4, plans.outside(800, 1238)), 10, 2000, 2000, (10, 0)),
            (two(1362, 1403), 11, 1362, 1403, (0, 425)), (two(1362, 1403), 11, 2000, 2000, (11, 0)),
            (crowded, 12, 1300, 1339, (0, 425)), (crowded, 12, 1330, 1330, (12, 1300)),
            (b([(1100, 1118)]), 13, 1119, 1119, (0, 965)), (b([(1100, 1118)]), 13, 1099, 1099, (0, 965)),
            (b([(1100, 1118)]), 13, 1118, 1118, (13, 1000)), (b([(1100, 1104)]), 14, 1105, 1119, (0, 965)),
            (b([(1100, 1104)]), 14, 1106, 1119, (13, 1000)),
            (full(), 15, 148, 187, (0, 3745)), (full(), 15, 148, 186, (15, 0)), (full(), 15, 1000, 1039, (0, 3745)))


def tried_limits(cases):
    cases.name('neighbours of Plan A, and limits that a range can break')
    for trial in limits():
        attempt(cases, *trial)
    cases.name('what a range mends')
    for plan, ground, first, last, want in mended():
        assert cases.model.judge(plan)[1] == ground
        attempt(cases, plan, first, last, want)


def tried_chains(cases):
    """Full plans, and plans with room for one record; records off the chain behind its end, some of which point at the new one."""
    items = plans.entries(972, 4, plans.outside(800, 1240))
    many = plans.plan(972, 4, [(n, 799) for n in range(510)] + [(1241, 4095)])
    full_14 = plans.plan(972, 4, [(n, 799) for n in range(509)] + [(1241, 4095), (850, 854)])
    cases.name('full plans')
    for plan in (many, full_14, plans.PLAN_A + bytes(4072), plans.PLAN_A + b'\xA5' * 4072):
        for first, last in ((850, 853), (850, 854), *BAD):
            attempt(cases, plan, first, last, (1, 0))
    for plan, want in ((plans.next_index(many, 511, 512), (3, 511)), (plans.kind(many, 511, 4), (2, 511))):
        for first, last in ((850, 853), (850, 854), *BAD):
            attempt(cases, plan, first, last, want)
    cases.name('records off the chain')
    fillers = (bytes(8), plans.RUBBISH, plans.record(1, 0, 972, 4), plans.record(2, 0, 860, 863), plans.record(2, 6, 860, 863),
               plans.record(2, 0, 972, 972), plans.record(3, 0, 900, 0), plans.record(3, 6, 900, 0))
    chains = [plans.spread(items, [0, 2, 4], 6, filler) for filler in fillers]
    chains += [plans.spread(items, [0, 3, 7], 9), plans.spread(items, [0, 1, 256], 300), plans.spread(items, [0, 1, 2], 257)]
    for plan in (*chains, plans.OVERLAPPING_510, plans.PLAN_A + bytes(4064)):
        attempt(cases, plan, 850, 853, (0, 421))
        attempt(cases, plan, 850, 854, (14, 835))
        for first, last in BAD:
            attempt(cases, plan, first, last, (4, len(plan) // 8))
    short = plans.spread(items[:2], [0, 1], 3, plans.record(2, 0, 1241, 4095))
    attempt(cases, short, 1241, 4095, (0, 425))
    attempt(cases, short, 850, 853, (6, 3949))


def tried_numbers(cases):
    """Every pair of ends below and above what a subcarrier and a record can be; plans refused by 1 to 5, which is tried before the
    range; and answers of all lengths."""
    ends = (0, 850, 853, 4095, 4096, RECORD_MAX, 65536, 65536 + 850, 65536 + 853, 2 ** 31 + 850, TOP)
    a = plans.PLAN_A
    cases.name('the numbers of a range')
    for first in ends:
        for last in ends:
            attempt(cases, a, first, last, None if first <= last <= 4095 else (4, 3))
    cases.name('ranges tried on plans refused by 1 to 5')
    broken = [a[:0], a[:7], a[:8], a[:12], a + b'\0', a + bytes(4071), a + bytes(4073), a + bytes(4080),
              plans.kind(a, 0, 2), plans.kind(a, 1, 1), plans.kind(a, 2, 4), plans.byte1(a, 2, 1), plans.next_index(a, 2, 3),
              plans.next_index(a, 2, 2), plans.next_index(a, 1, 1), plans.next_index(a, 0, 3), plans.second(a, 2, 4096),
              plans.first(a, 1, 800), plans.first(a, 0, 203), plans.second(a, 0, 33),
              plans.full(pilots=plans.pilots_of_full(121))]
    for plan in broken:
        own = cases.model.judge(plan)[1:]
        assert own[0] <= 5
        for first, last in ((850, 853), (850, 854), *BAD):
            attempt(cases, plan, first, last, own)
    cases.name('answers of a trial')
    for plan in (a, a[:0], broken[-1], plans.near_a([(850, 854)]), a + bytes(4072)):
        for first, last in ((850, 853), (7, 6), (TOP, 0)):
            for room in (0, 1, ANSWER - 1):
                assert cases.call('try', first, last, plan=plan, answer=b'\x5A' * room)[0] == 21
            for room in (ANSWER, ANSWER + 1, 999):
                attempt(cases, plan, first, last, answer=b'\x5A' * room)


# --- the reason of a role --------------------------------------------------

# Ranges that overlap or lie in one another, with pilots between them.  Five records are off the chain, and each would be a reason.
ON_CHAIN = {0: (1, 972, 4), 2: (2, 0, 700), 3: (3, 900, 0), 5: (2, 600, 799), 6: (2, 1241, 4095), 8: (2, 850, 852), 9: (2, 851, 853),
            11: (3, 860, 0), 12: (2, 850, 853), 13: (2, 3000, 3100)}
OFF_CHAIN = {1: plans.record(2, 2, 0, 799), 4: plans.record(3, 5, 860, 0), 7: plans.record(2, 8, 850, 853),
             10: plans.record(2, 0, 1200, 4095), 14: plans.record(2, 0, 0, 4095)}
MIXED = plans.spread(list(ON_CHAIN.values()), list(ON_CHAIN), 15, [OFF_CHAIN.get(i) for i in range(15)])
# A pilot's record at the last place that there is.
LAST_PLACE = plans.spread(plans.entries(972, 4, plans.outside(800, 1240), [900]), [0, 256, 257, 511], 512)


def known():
    """(plan, phase, value, its record, distance or phase, subcarriers), worked out by hand."""
    a, many, largest, singles = plans.PLAN_A, plans.OVERLAPPING_510, plans.LARGEST, plans.SINGLES_150
    low, high = plans.plan(204, 4, plans.outside(148, 588)), plans.plan(3885, 4, plans.outside(3508, 3948))
    return ((a, 0, 1, 1, (0, 1, 148, 799)), (a, 127, 1, 2, (1241, 3949, 4095)), (a, 125, 2, 0, range(972, 980)),
            # the eight predefined pilots, each at the phase at which the pattern meets it
            (a, 73, 3, 47, (925,)), (a, 85, 3, 35, (937,)), (a, 96, 3, 24, (948,)), (a, 105, 3, 15, (957,)),
            (a, 14, 4, 15, (994,)), (a, 23, 4, 24, (1003,)), (a, 34, 4, 35, (1014,)), (a, 46, 4, 47, (1026,)),
            (a, 0, 6, 0, (852, 980, 1108, 1236)), (a, 14, 6, 14, (866, 1122)), (a, 125, 6, 125, (849, 1105, 1233)),
            (a, 127, 6, 127, (851, 1107, 1235)), (a, 1, 7, 0, (852, 980, 1108, 1236)), (a, 127, 7, 0, (852, 980, 1108, 1236)),
            (a, 13, 7, 14, (866, 1122)), (a, 15, 7, 14, (866, 1122)), (a, 126, 7, 125, (849, 1105, 1233)),
            (a, 0, 7, 127, (851, 1107, 1235)), (a, 0, 7, 76, (800,)), (a, 0, 7, 119, (971,)), (a, 0, 7, 4, (1240,)),
            # the lowest L and the highest
            (low, 5, 1, 1, (0, 147)), (low, 5, 1, 2, (589, 4095)), (low, 5, 2, 0, (204, 211)), (low, 5, 3, 47, (157,)),
            (low, 5, 3, 15, (189,)), (low, 5, 4, 15, (226,)), (low, 5, 4, 47, (258,)), (low, 64, 6, 64, (148,)),
            (low, 63, 7, 64, (148,)), (low, 121, 7, 120, (588,)),
            (high, 9, 1, 1, (3507,)), (high, 9, 1, 2, (3949,)), (high, 9, 2, 0, (3885, 3892)), (high, 9, 3, 47, (3838,)),
            (high, 9, 3, 15, (3870,)), (high, 9, 4, 15, (3907,)), (high, 9, 4, 47, (3939,)), (high, 127, 6, 127, (3508,)),
            (high, 0, 7, 127, (3508,)), (high, 55, 6, 55, (3948,)), (high, 56, 7, 55, (3948,)),
            # the first record on the chain, never one off it
            (MIXED, 64, 1, 2, (0, 599, 600, 700)), (MIXED, 64, 1, 5, (701, 799)), (MIXED, 64, 1, 6, (1241, 3000, 3100, 4095)),
            (MIXED, 64, 1, 8, (850, 851, 852)), (MIXED, 64, 1, 9, (853,)), (MIXED, 64, 5, 3, (900,)), (MIXED, 64, 5, 11, (860,)),
            (MIXED, 64, 7, 92, (1200,)), (MIXED, 92, 6, 92, (1200,)), (MIXED, 64, 7, 125, (849,)), (MIXED, 2, 6, 2, (854,)),
            # the pattern meets the pilots 900 and 860 at 48 and 8, and 850 at 126
            (MIXED, 48, 5, 3, (900,)), (MIXED, 8, 5, 11, (860,)), (MIXED, 126, 1, 8, (850,)),
            # records with two bytes
            (many, 3, 1, 1, (0, 37)), (many, 3, 1, 2, (38, 40)), (many, 3, 1, 3, (41,)), (many, 3, 1, 255, (797, 799)),
            (many, 3, 1, 256, (1241, 1301)), (many, 3, 1, 257, (1302, 1312)), (many, 3, 1, 258, (1313,)),
            (many, 3, 1, 510, (4085, 4095)), (LAST_PLACE, 0, 1, 256, (0, 799)), (LAST_PLACE, 0, 1, 257, (1241, 4095)),
            (LAST_PLACE, 0, 5, 511, (900,)),
            # 40 pilots, and 150 singles
            (largest, 77, 5, 3, (200,)), (largest, 77, 5, 42, (590,)), (largest, 77, 1, 1, (147,)), (largest, 77, 1, 2, (3949,)),
            (singles, 127, 1, 3, (160,)), (singles, 127, 1, 4, (184,)), (singles, 127, 1, 77, (1936,)),
            (singles, 127, 1, 78, (2070,)), (singles, 127, 1, 152, (3846,)))


def reason(cases, plan, k, phase, want=None):
    """A call of why, and what it has to give where that is said: the value, and the record, the distance or the phase.  The
    role of the value is the one that the call of role gives.  Answers the value."""
    returned, after = cases.call('why', k, phase, plan=plan)
    place, said, heard, value = (int.from_bytes(after['answer'][at:at + 4], 'big') for at in range(0, ANSWER, 4))
    role = cases.model.call('role', (k, phase), {'plan': plan, 'answer': bytes(ANSWER)})[1]['answer']
    assert (returned, WHY_ROLES[value]) == (0, value_of(role)), (k, phase, returned, value)
    if want is not None:
        n, other = (said, place) if value >= 6 else (place, said)
        assert (value, n, other, heard) == (*want, 0, 0), (k, phase, want, value, place, said)
    return value


def ends_of(model, plan):
    """The subcarriers at which a reason of this plan may begin or end, and those beside them."""
    l = model.judge(plan).l
    ends = {0, SYMBOL - 1, l, l + 7, *model.predefined(l)}
    ends.update(k for _, record in model.chain(plan)[1:] for k in (record.first, record.second))
    return sorted({k + beside for k in ends for beside in (-1, 0, 1)} & set(range(SYMBOL)))


def some_accepted(rng, model):
    """An accepted plan by chance."""
    plan = compare.good(rng)
    while isinstance(model.judge(plan), tuple):
        plan = compare.good(rng)
    return plan


def whys(cases, step, thin, phases, some):
    """Reasons that are known; of several plans the subcarriers in steps of `step`, and of those at the ends of records one in
    `thin`; a subcarrier of each role at these phases; `some` plans by chance."""
    a, rng = plans.PLAN_A, random.Random(22)
    for plan, phase, value, n, subcarriers in known():
        cases.name('known reasons')
        for k in subcarriers:
            reason(cases, plan, k, phase, (value, n))
    for plan, phase in ((a, 0), (a, 14), (a, 125), (a, 127), (plans.LARGEST, 77), (plans.SINGLES_150, 127), (MIXED, 64),
                        (plans.OVERLAPPING_510, 3)):
        cases.name('reasons at phase %d' % phase)
        every = 10 * thin if plan == plans.OVERLAPPING_510 else thin        # that one has 2,300 ends
        for k in sorted({*range(0, SYMBOL, step), *ends_of(cases.model, plan)[::every]}):
            reason(cases, plan, k, phase)
    for k, value, met in ((0, 1, None), (975, 2, None), (994, 4, None), (860, 5, None), (1029, 7, 49), (1200, 7, 92)):
        cases.name('reasons of %d at all phases' % k)
        for phase in phases:
            assert reason(cases, MIXED, k, phase) == (6 if phase == met else value)
    for _ in range(some):
        cases.name('reasons of a plan by chance')
        plan = some_accepted(rng, cases.model)
        for k in rng.sample(ends_of(cases.model, plan), 4):
            reason(cases, plan, k, rng.randrange(128))


def why_grounds(cases):
    """16 of a subcarrier and of a phase, some of which would be good with fewer bits, and after 14; 21 before both; answers of
    all lengths."""
    a, refused = plans.PLAN_A, plans.near_a([(850, 854)])
    far = ((4096, 0), (TOP, 0), (0, 128), (4095, TOP), (4096, 128), (TOP, TOP), ODD_NUMBERS,
           (4096 + 866, 14), (65536 + 866, 14), (2 ** 31 + 866, 14), (866, 128 + 14), (866, 256 + 14), (866, 2 ** 31 + 14))
    cases.name('the grounds of a reason')
    for plan, want in ((a, (16, 0)), (MIXED, (16, 0)), (plans.LARGEST, (16, 0)), (refused, (14, 835))):
        for k, phase in far:
            returned, after = cases.call('why', k, phase, plan=plan)
            assert (returned, after['answer'][:ANSWER]) == (want[0], number(want[1]) + bytes(12))
    for plan in (a, MIXED, refused, b''):
        for k, phase in ((866, 14), (4096, 0), (0, TOP)):
            for room in (0, 1, ANSWER - 1):
                assert cases.call('why', k, phase, plan=plan, answer=b'\x5A' * room)[0] == 21
            for room in (ANSWER, ANSWER + 1, 999):
                cases.call('why', k, phase, plan=plan, answer=b'\x5A' * room)


# --- the pilot lamp --------------------------------------------------------

# Cells that are not the mark: other marks, data, its bytes the other way round, each of its bits turned.
NO_MARKS = (0x8000, 0x8001, 0x8002, 0x8004, 0x8005, 0, 16383, 65535, 0x0380, 0x0303, 0x8080, *(lamp.MARK ^ 1 << bit for bit in range(16)))
EIGHT = [925, 937, 948, 957, 994, 1003, 1014, 1026]         # the pilots of Plan A
OF_2000 = [1953, 1965, 1976, 1985, 2022, 2031, 2042, 2054]  # the predefined ones of L 2000
MOST_PILOTS = [148 + 31 * i for i in range(119)] + [3948]
# 128 pilots, from the lowest active subcarrier to the highest; the chain names them from the highest down.
PLAN_128 = plans.full(pilots=MOST_PILOTS[::-1])


def known_pilots():
    """(plan, its continuous pilots), worked out by hand; then with the PLC at one subcarrier after the other."""
    yield from ((plans.PLAN_A, EIGHT), (plans.OVERLAPPING_510, EIGHT), (MIXED, [860, 900, *EIGHT]), (LAST_PLACE, [900, *EIGHT]),
                (plans.near_a(pilots=[1100, 900, 1000, 801]), [801, 900, *EIGHT[:5], 1000, *EIGHT[5:], 1100]),
                (plans.near_a(pilots=[1027, 924, 971, 980, 800, 1240]), [800, 924, *EIGHT[:4], 971, 980, *EIGHT[4:], 1027, 1240]),
                (plans.plan(204, 4, plans.outside(148, 588)), [157, 169, 180, 189, 226, 235, 246, 258]),
                (plans.plan(3885, 4, plans.outside(3508, 3948)), [3838, 3850, 3861, 3870, 3907, 3916, 3927, 3939]),
                (plans.SINGLES_150, OF_2000), (plans.LARGEST, [*range(200, 600, 10), *OF_2000]),
                (plans.full(pilots=plans.pilots_of_full(120)), [*range(200, 1400, 10), *OF_2000]),
                (PLAN_128, sorted(MOST_PILOTS + OF_2000)))
    for l in (856, *range(945, 970), 1016, 1177):
        yield plans.near_a(L=l), [l - 47, l - 35, l - 24, l - 15, l + 22, l + 31, l + 42, l + 54]


def pilot_lists(cases, some):
    """Lists that are known, in longer buffers too; of `some` plans by chance; and short buffers."""
    rng = random.Random(40)
    cases.name('lists of pilots')
    for plan, want in known_pilots():
        returned, after = cases.call('pilots', plan=plan, pilots=rng.randbytes(rng.choice((256, 257, 300))))
        assert (returned, value_of(after['answer'])) == (0, len(want))
        assert to_cells(after['pilots'][:256]) == want + [0] * (128 - len(want))
    for _ in range(some):
        cases.call('pilots', plan=some_accepted(rng, cases.model), pilots=rng.randbytes(256))
    cases.name('the buffers of a list')
    for plan, want in ((plans.PLAN_A, 0), (PLAN_128, 0), (plans.near_a([(850, 854)]), 14), (b'', 1)):
        for room in (0, 1, 2 * 8, 128, 254, 255, 256, 257, 258, 999):
            pilots = rng.randbytes(room)
            assert cases.call('pilots', plan=plan, pilots=pilots)[0] == (want if room >= 256 else 21)
            for short in (0, 1, ANSWER - 1):
                assert cases.call('pilots', plan=plan, pilots=pilots, answer=b'\x5A' * short)[0] == 21
        for room in (ANSWER, ANSWER + 1, 999):
            assert cases.call('pilots', plan=plan, pilots=rng.randbytes(256), answer=b'\x5A' * room)[0] == want


class Lamp:
    """A lamp under a plan.  Its record goes from call to call; the cells beside the pilots hold anything."""

    def __init__(self, cases, plan, seed, record=None):
        self.cases, self.plan, self.rng = cases, plan, random.Random(seed)
        self.pilots = lamp.MODEL.plan_pilots(plan)
        self.n = len(self.pilots)
        self.record = bytes(self.n + 1) if record is None else record
        self.beside = some_bytes(self.rng, SYMBOL)

    def symbol(self, lost=()):
        """The mark at each pilot but those that lost it."""
        cells = bytearray(self.beside)
        for k in self.pilots:
            cells[2 * k:2 * k + 2] = (self.rng.choice(NO_MARKS) if k in lost else lamp.MARK).to_bytes(2, 'big')
        return bytes(cells)

    def call(self, want, **other):
        """A step that is right but for what is said in `other`, and what it has to return."""
        given = {'plan': self.plan, 'symbol': self.beside, 'record': self.record,
                 'lights': self.rng.randbytes(self.rng.choice((128, 128, 129, 300))), **other}
        returned, after = self.cases.call('lamp', **given)
        assert returned == want, (returned, want)
        if returned == 0:
            assert value_of(after['answer']) == self.n
        return after

    def hear(self, lost=(), **other):
        """The lights after one symbol more."""
        after = self.call(0, **{'symbol': self.symbol(lost), **other})
        self.record = after['record']
        return list(after['lights'][:128])

    def lit(self, dark=()):
        """Lights, of which these pilots are dark."""
        return [int(k not in dark) for k in self.pilots] + [0] * (128 - self.n)


def wrong_records(n, places):
    """Records that 28 refuses under a plan with n pilots: of other lengths, with counts above 128, and above the first at these
    places."""
    for size in sorted({0, 1, 8, 9, n - 1, n, n + 2, n + 3, 2 * n, 129, 130, 256, 257} - {n + 1}):
        yield bytes(size)
        yield bytes([min(size, 128)]) * size
    for first in (129, 130, 255):
        yield from (bytes([first]) + bytes(n), bytes([first]) * (n + 1))
    for first, count in ((0, 1), (0, 255), (5, 6), (126, 127), (127, 128), (128, 129), (128, 255), (1, 128)):
        for i in places:
            yield bytes([first] * i + [count] + [0] * (n - i))


def lamp_lengths(one):
    """(what is other of a step, the number that refuses it) by the lengths of its buffers."""
    for size, want in ((0, 17), (1, 21), (2, 17), (8190, 17), (8191, 21), (8193, 21), (8194, 17), (16384, 17)):
        yield {'symbol': (one.symbol() * 2)[:size]}, want
    yield from (({'lights': one.rng.randbytes(size)}, 21) for size in (0, 1, 8, 126, 127))
    yield from (({'answer': b'\x5A' * size}, 21) for size in (0, 1, ANSWER - 1))


def lamp_grounds(cases, given_plans):
    """The lengths of all buffers, and wrong records; of two or three wrong things the first to be tried: the answer, 21, the plan, 28,
    17."""
    for seed, plan in enumerate(given_plans):
        cases.name('the grounds of the lamp')
        refused = (({'plan': b''}, 1), ({'plan': plans.near_a([(850, 854)])}, 14), ({'plan': plans.ONE_PILOT_FEWER}, 15))
        one = Lamp(cases, plan, seed)
        one.record = bytes([9, *(one.rng.randrange(10) for _ in one.pilots)])
        records = list(wrong_records(one.n, (1, one.n // 2, one.n)))
        for other, want in lamp_lengths(one):
            one.call(want, **other)
            one.call(28 if want == 17 else 21, **other, record=one.rng.choice(records))
            for bad, ground in refused if 'answer' in other or seed == 0 else ():
                one.call(ground if want == 17 else 21, **other, **bad)
                one.call(ground if want == 17 else 21, **other, **bad, record=one.rng.choice(records))
        for bad, ground in refused:
            one.call(ground, **bad)
        for record in records:
            one.call(28, record=record)
        for record in records[::5]:
            one.call(28, record=record, symbol=b'')
            one.call(14, record=record, **refused[1][0])
            one.call(21, record=record, lights=bytes(127))
        for size in (128, 129, 130, 300):
            one.hear(lights=one.rng.randbytes(size))
        for size in (ANSWER, ANSWER + 1, 999):
            one.hear(answer=one.rng.randbytes(size))


def lamp_counts(cases, given_plans, firsts):
    """From records with these symbols heard: every mark held, some lost, all lost; all counts up to the first, none, and by chance."""
    for seed, plan in enumerate(given_plans):
        for first in firsts:
            cases.name('a lamp that has heard %d' % first)
            one = Lamp(cases, plan, 50 + seed)
            below = bytes([first, *(max(first - 1 - i % 3, 0) for i in range(one.n))])
            chance = bytes([first, *(one.rng.choice((0, first, max(first - 1, 0), one.rng.randrange(first + 1))) for _ in one.pilots)])
            for record in (bytes([first] * (one.n + 1)), bytes([first] + [0] * one.n), below, chance):
                for lost in ((), one.pilots, one.rng.sample(one.pilots, one.n // 2)):
                    one.record = record
                    one.hear(lost)
                    one.hear()


def lamp_cells(cases, given_plans):
    """Each pilot alone without the mark, and alone with it; each cell that is nearly the mark; marks everywhere but at the pilots."""
    for seed, plan in enumerate(given_plans):
        cases.name('marks of single pilots')
        one = Lamp(cases, plan, 60 + seed)
        for k in one.pilots:
            one.record = bytes([3] * (one.n + 1))
            assert one.hear([k]) == one.lit([k])
            one.record = bytes(one.n + 1)
            assert one.hear(set(one.pilots) - {k}) == one.lit(set(one.pilots) - {k})
    one = Lamp(cases, plans.PLAN_A, 70)
    cases.name('cells that are nearly the mark')
    for i, cell in enumerate(NO_MARKS):
        k = EIGHT[i % 8]
        one.record = bytes([128] * 9)
        assert one.hear(symbol=with_cell(one.symbol(), k, cell)) == one.lit([k])
    for beside in (lamp.MARK, 0, 65535):
        one.beside, one.record = to_bytes([beside] * SYMBOL), bytes(9)
        assert one.hear() == one.lit()
        assert one.hear(EIGHT) == one.lit(EIGHT)
        assert one.hear(symbol=one.beside) == one.lit(EIGHT)


def lamp_run(cases, plan, seed, symbols, losses, some):
    """So many symbols from a fresh record on; `losses` has the numbers of symbols and which pilots lost the mark in them.  A pilot is lit
    again 128 symbols later.  Before one symbol in `some` comes a step that is refused."""
    one, last = Lamp(cases, plan, seed), {}
    cases.name('a lamp that hears %d symbols' % symbols)
    wrongs = [*lamp_lengths(one), ({'plan': plan[:-1]}, 1), *(({'record': record}, 28) for record in wrong_records(one.n, (1, one.n)))]
    for t in range(symbols):
        if t % some == some - 1:
            other, want = one.rng.choice(wrongs)
            one.call(want, **other)
        lost = [one.pilots[i] for i in losses.get(t, ())]
        last.update(dict.fromkeys(lost, t))
        lights = one.hear(lost)
        assert lights == one.lit([k for k in last if t - last[k] < 128]), t
    assert one.record[0] == min(symbols, 128)


def lamp_runs(cases, given):
    """Runs, some of them of symbols that an emitter sends."""
    for seed, (plan, symbols, losses, some) in enumerate(given):
        lamp_run(cases, plan, 80 + seed, symbols, losses, some)
    for plan, start in ((plans.near_a(M=3), 126), (at_depth(plans.LARGEST, 2), 64)):
        cases.name('a lamp on the line')
        link, one = Link(cases, plan, start, 41), Lamp(cases, plan, 42)
        for t in range(4):
            link.send(t == 2)
            assert one.hear(symbol=link.symbol) == one.lit()


def lamps(cases, small):
    """The cases of both calls."""
    nine, largest, rng = plans.near_a(pilots=[900]), plans.LARGEST, random.Random(43)
    late = {5: [0], 127: [7], 128: [3], 150: [2], 200: [2], 260: range(8), 261: [1]}
    pilot_lists(cases, 2 if small else 40)
    lamp_grounds(cases, (plans.PLAN_A,) if small else (plans.PLAN_A, nine, largest, PLAN_128))
    lamp_counts(cases, (nine,) if small else (plans.PLAN_A, nine, largest, PLAN_128),
                (0, 126, 127, 128) if small else (0, 1, 2, 63, 126, 127, 128))
    lamp_cells(cases, (plans.PLAN_A,) if small else (plans.PLAN_A, largest, PLAN_128))
    lamp_runs(cases, ((nine, 131, {1: [0, 8], 2: [4]}, 9),) if small else
              ((plans.PLAN_A, 300, late, 7), (nine, 127, {0: [0, 8], 1: [3]}, 9), (largest, 128, {0: [0], 1: [47], 2: [5]}, 9),
               (PLAN_128, 129, {0: [0, 127], 1: [64], 2: [99]}, 9), (plans.PLAN_A, 131, {0: range(8), 1: [0], 2: [7]}, 9)))
    for seed in range(4 if small else 60):
        cases.name('a lamp under a plan by chance')
        one = Lamp(cases, some_accepted(rng, cases.model), seed)
        first = rng.randrange(129)
        one.record = bytes([first, *(rng.choice((0, first, rng.randrange(first + 1))) for _ in one.pilots)])
        for _ in range(3):
            one.hear([k for k in one.pilots if rng.random() < 0.2])
        one.hear(symbol=some_bytes(rng, SYMBOL))


# --- loads and streams -----------------------------------------------------

LOADED = ('emit', 'receive', 'fill', 'unfill')      # the calls that are given a profile


class Loaded:
    """What the four calls are given, all of it right but for what is said in `other`: of a plan at a phase under a profile.  The
    receiver is not warming, and the stream has just enough bytes from the start on."""

    def __init__(self, cases, plan, phase, profile, seed, start=0):
        self.cases, self.rng, self.at = cases, random.Random(seed), cases.model.layout(plan)
        self.model, self.phase, self.start = cases.model, phase, start
        self.loads = self.model.data_loads(self.at, profile, phase)
        self.limits = [self.model.limit(load) for load in self.loads]
        self.need = sum(self.loads)
        self.good = {'plan': plan, 'profile': profile, 'data': fitting_data(self.rng, self.model, self.loads),
                     'stream': self.rng.randbytes(-(-(start + self.need) // 8)), 'symbol': some_bytes(self.rng, SYMBOL)}
        marks = self.model.marks_at(self.at, phase)
        self.line = to_bytes([self.model.limit(load) if mark is None else mark for mark, load in zip(marks, profile)])
        self.carriers = [k for k, mark in enumerate(marks) if mark is None]     # of data, in the arriving symbol
        self.stores = {end: some_bytes(self.rng, self.model.places(self.at, end).length) for end in ('emitter', 'receiver')}

    def call(self, name, want, **other):
        """What the call has to return, and its place where it refuses; where it does not, its value.  Answers the buffers."""
        given = {**self.good, 'answer': self.rng.randbytes(ANSWER + self.rng.choice((0, 5)))}
        given['store'] = self.stores['receiver' if name == 'receive' else 'emitter']
        if name == 'receive':
            given.update(symbol=self.line, data=some_bytes(self.rng, self.at.n))
        if name == 'fill':
            given['data'] = some_bytes(self.rng, len(self.loads))       # of any content
        numbers = {'emit': (self.phase,), 'receive': (self.phase, self.at.m - 1)}.get(name, (self.phase, self.start))
        given.update(other)
        numbers = given.pop('numbers', numbers)
        returned, after = self.cases.call(name, *numbers, **{key: given[key] for key in CALLS[name][1].split()})
        answer = after['answer']
        if len(answer) >= ANSWER and returned != 21:
            got = returned, int.from_bytes(answer[:4], 'big') if returned else value_of(answer)
            assert got == (*want, 0)[:2] or want == (0,) == got[:1], (name, want, got)
        assert returned == want[0], (name, want, returned)
        return after

    def value(self, name):
        """What the call gives when nothing is wrong."""
        return (0, self.need) if name in STARTED else (0,)


def of_each_role(model, at, phase):
    """A subcarrier of each role at the phase, and the first and the last of all."""
    marks = model.marks_at(at, phase)
    return sorted({0, 4095, *(marks.index(mark) for mark in set(marks)), 4095 - marks[::-1].index(None)})


def profiles(cases, values):
    """25: other lengths, each byte that is not listed, at every role; the lowest of several; 25 after 15, and before 16 to 20 and 26."""
    rng = random.Random(30)
    for plan, phase in ((plans.PLAN_A, 5), (plans.near_a([(850, 853)], [900], M=7), 127)):
        profile = some_profile(rng)
        given = Loaded(cases, plan, phase, profile, 31)
        for name in LOADED:
            cases.name('profiles of %s' % name)
            given.call(name, given.value(name))
            for bad in (b'', profile[:1], profile[1:], profile + b'\0', profile * 2, b'\5', b'\5' * 4095, b'\5' * 4097):
                given.call(name, (25, 0), profile=bad)
            roles = of_each_role(cases.model, given.at, phase)
            for k in roles:
                for load in (1, 2, 3, 5, 15, 16, 255):
                    given.call(name, (25, k), profile=with_load(profile, k, load))
            for load in values:
                k = rng.randrange(SYMBOL)
                given.call(name, (25, k), profile=with_load(profile, k, load))
            for load in LISTED:
                for k in (0, 4095):                                 # excluded: the load does not matter
                    given.call(name, given.value(name), profile=with_load(profile, k, load))
            for low, high in ((0, 4095), (1, 2), (15, 16), (2047, 2048), (799, 800)):
                given.call(name, (25, low), profile=with_load(with_load(profile, low, 255), high, 5))
            bad = with_load(profile, 4000, 5)
            far = (128, 99)[:CALLS[name][0]] if name not in STARTED else (128, FAR)
            for other in ({'numbers': far}, {'store': b''}, {'symbol': b''}, {'data': b''}, {'stream': b''},
                          {'numbers': far, 'store': b'', 'symbol': b'', 'data': b'', 'stream': b''}):
                given.call(name, (25, 4000), profile=bad, **other)
                given.call(name, (25, 0), profile=bad[1:], **other)
            given.call(name, (14, 835), profile=bad, plan=plans.near_a([(850, 854)]))
            given.call(name, (15, 0), profile=b'', plan=plans.ONE_PILOT_FEWER)
            given.call(name, (21,), profile=bad, data=b'\0')
            for room in (0, 1, ANSWER - 1):
                given.call(name, (21,), profile=bad, answer=b'\x5A' * room)


def loads_limits(cases, plan_phases):
    """The limit of each load, and one more, at the first, the middle and the last data cell of emit and unfill, and at the first, the
    middle and the last subcarrier with data of receive.  With load 0 the cell is 0 or 1."""
    for plan, phase in plan_phases:
        for turn in range(len(LISTED)):
            profile = bytes(LISTED[(k + turn) % len(LISTED)] for k in range(SYMBOL))
            given = Loaded(cases, plan, phase, profile, turn)
            cases.name('limits of loads at phase %d' % phase)
            top = to_bytes(given.limits)
            for name in ('emit', 'unfill'):
                given.call(name, given.value(name), data=top)
                for c in (0, len(given.loads) // 2, len(given.loads) - 1):
                    given.call(name, given.value(name), data=with_cell(top, c, 0))
                    given.call(name, (19, c), data=with_cell(top, c, given.limits[c] + 1))
                    given.call(name, (19, c), data=with_cell(top, c, 0x8001))
                    given.call(name, (19, c), data=with_cell(with_cell(top, len(given.loads) - 1, 65535), c, given.limits[c] + 1))
            given.call('receive', (0,))
            carriers = given.carriers
            for k in (carriers[0], carriers[len(carriers) // 2], carriers[-1]):
                most = cases.model.limit(profile[k])
                for cell in (0, 1, most, 0x8001):
                    given.call('receive', (0,), symbol=with_cell(given.line, k, cell))
                for cell in (most + 1, 2 * most + 1, 16384, 0x8000, 0x8005):
                    if cell > most:
                        given.call('receive', (20, k), symbol=with_cell(given.line, k, cell))
                given.call('receive', (20, k), symbol=with_cell(with_cell(given.line, k, most + 1), 4095, 0))
    cases.name('load 0')
    for cells, want in (((0,), None), ((1,), None), ((0, 1), None), ((2,), 0), ((1, 1, 2), 2), ((0, 0, 0, 3), 3)):
        given = Loaded(cases, plans.PLAN_A, 9, bytes(SYMBOL), 32)
        count = len(given.loads)
        data = to_bytes([cells[i % len(cells)] for i in range(count)])
        for name in ('emit', 'unfill'):
            given.call(name, given.value(name) if want is None else (19, want), data=data)
        for k, cell in ((800, 0), (800, 1), (1240, 1), (800, 2), (1240, 3)):
            given.call('receive', (0,) if cell < 2 else (20, k), symbol=with_cell(given.line, k, cell))


def starts_of(given):
    """Of a stream of so many bytes: starts of which the symbol's bits remain, and some of which they do not, up to the last number."""
    bits = 8 * len(given.good['stream'])
    last = bits - given.need
    good = {s for s in (0, 1, 7, 8, last - 1, last) if 0 <= s <= last}
    bad = {last + 1, last + 8, bits - 1, bits, bits + 1, 2 ** 32, 2 ** 32 + last, 2 ** 61, 2 ** 61 + 1, 2 ** 63, 2 ** 63 + last,
           FAR, FAR - 7, FAR + 1 - given.need, FAR + 1 - given.need + last, FAR + 1 - 8 * (given.need // 8)} - {0}
    return sorted(good), sorted(s for s in bad if last < s <= FAR)


def fillings(cases, given_plans, seed):
    """Symbols filled and taken back: from every bit of a byte, with bytes before and behind, with exactly enough bits and one too few."""
    rng = random.Random(seed)
    for plan, phase, loads in given_plans:
        profile = bytes(rng.choice(loads) for _ in range(SYMBOL))
        cases.name('streams of loads %s' % (loads,))
        for start in (*range(9), 15, 16, 77):
            given = Loaded(cases, plan, phase, profile, start, start)
            for spare in (b'', rng.randbytes(1), rng.randbytes(9)):
                stream = given.good['stream'] + spare
                after = given.call('fill', (0, given.need), stream=stream)
                other = rng.randbytes(len(stream))
                back = given.call('unfill', (0, given.need), data=after['data'], stream=other)
                bits, was, now = all_bits(stream), all_bits(other), all_bits(back['stream'])
                end = start + given.need
                assert now == was[:start] + bits[start:end] + was[end:]
            for stream in (given.good['stream'][:-1], given.good['stream'][:len(given.good['stream']) // 2], b'\0', b''):
                for name in STARTED if given.need else ():
                    given.call(name, (26, 0), stream=stream)
        given = Loaded(cases, plan, phase, profile, 5, 13)
        good, bad = starts_of(given)
        for name in STARTED:
            for start in good:
                given.call(name, (0, given.need), numbers=(phase, start))
            for start in bad if given.need else ():
                given.call(name, (26, 0), numbers=(phase, start))


def no_bits(cases):
    """Symbols whose loads add up to 0, for which no start is too far, and symbols of which one cell carries bits."""
    rng = random.Random(33)
    cases.name('symbols without bits')
    given = Loaded(cases, plans.PLAN_A, 77, bytes(SYMBOL), 33)
    for start in (0, 1, 7, 8, 9, 800, 801, 2 ** 32, FAR - 7, FAR):
        for size in (0, 1, 100):
            stream = rng.randbytes(size)
            assert not any(given.call('fill', (0, 0), numbers=(77, start), stream=stream)['data'])
            given.call('unfill', (0, 0), numbers=(77, start), stream=stream)
            given.call('unfill', (19, 3), numbers=(77, start), stream=stream, data=with_cell(given.good['data'], 3, 2))
    cases.name('symbols of which one cell carries bits')
    at, count = given.at, len(given.loads)
    free = [p for p, held in enumerate(cases.model.placeholders(at, 77)) if not held]
    for c in (0, 1, count // 2, count - 1):
        for load in (4, 6, 14):
            profile = with_load(bytes(SYMBOL), at.carriers[free[c]], load)
            given = Loaded(cases, plans.PLAN_A, 77, profile, c)
            for size, start in ((1, 0), (1, 2), (1, 4), (1, 5), (2, 2), (2, 3), (2, 4), (2, 8), (3, 7), (3, 9), (3, 10), (3, 11)):
                want = (0, load) if start + load <= 8 * size else (26, 0)
                for name in STARTED:
                    given.call(name, want, numbers=(77, start), stream=rng.randbytes(size))
            for cell in (0, 1, 2 ** load - 1):
                given.call('unfill', (0, load), data=with_cell(given.good['data'], c, cell))


def stream_grounds(cases):
    """The order of grounds of fill and unfill, odd data, short answers, and a flush that was handed out."""
    rng = random.Random(34)
    for plan, phase in ((plans.PLAN_A, 3), (plans.near_a(M=1), 127)):
        given = Loaded(cases, plan, phase, some_profile(rng), 34, 2)
        good, count = given.good['data'], len(given.loads)
        cases.name('the grounds of streams')
        high = with_cell(good, 0, 65535)
        for name in STARTED:
            for phases in (128, 129, phase + 128, 65536 + phase, TOP):
                given.call(name, (16, 0), numbers=(phases, 2))
                given.call(name, (16, 0), numbers=(phases, FAR), data=b'', stream=b'')
            for data in (b'', good[2:], good[:-2], good + b'\0\0', high[:-2], bytes(2 * given.at.n), bytes(2 * SYMBOL)):
                given.call(name, (18, 0), data=data)
                given.call(name, (18, 0), data=data, stream=b'')
                given.call(name, (18, 0), data=data, numbers=(phase, FAR))
            given.call(name, (26, 0), data=high, stream=b'')
            given.call(name, (26, 0), data=b'\x80\x01' * count, numbers=(phase, FAR))
            for data in (b'\0', good[1:], good + b'\0'):
                given.call(name, (21,), data=data)
                given.call(name, (21,), data=data, numbers=(128, FAR), stream=b'', plan=b'')
            for room in (0, 1, ANSWER - 1):
                given.call(name, (21,), answer=b'\x5A' * room)
                given.call(name, (21,), answer=b'\x5A' * room, data=b'\0', stream=b'')
            given.call(name, (0, given.need), answer=b'\x5A' * 999)
        given.call('fill', (0, given.need), data=high)                          # 19 is not tried
        given.call('unfill', (19, 0), data=high)
        given.call('unfill', (19, 0), data=b'\x80\x01' * count)                 # a flush
        given.call('unfill', (19, count - 1), data=with_cell(good, count - 1, 0x8001))
        for mark in (0x8000, 0x8002, 0x8003, 0x8004):
            given.call('unfill', (19, 1), data=with_cell(good, 1, mark))


def stream_run(cases, plan, start, seed, profile, symbols, first):
    """A stream through a link and back, each symbol's bits from where the last one's ended; a flush now and then, which has none and
    is refused on the way back."""
    link = Link(cases, plan, start, seed, profile=profile)
    m, at, rng = link.at.m, link.at, link.rng
    inputs = [t % 4 != 2 for t in range(symbols)] + [False] * (m - 1)
    size = sum(sum(link.loads((start + t) % 128)) for t, is_data in enumerate(inputs) if is_data)
    stream = rng.randbytes(-(-(first + size) // 8) + 2)
    back = was = rng.randbytes(len(stream))
    position = returned = first
    for t, is_data in enumerate(inputs):
        if is_data:
            number, after = cases.call('fill', link.sender[0], position, plan=plan, profile=profile, stream=stream,
                                       data=some_bytes(rng, cases.model.count(at, link.sender[0])))
            assert number == 0
            link.send(data=after['data'])
            position += value_of(after['answer'])
        else:
            link.send(flush=True)
        data = link.hear()
        if t >= m - 1:
            number, after = cases.call('unfill', (start + t - m + 1) % 128, returned, plan=plan, profile=profile, data=data, stream=back)
            enough = 8 * len(back) - returned >= sum(link.loads((start + t - m + 1) % 128))
            assert number == (0 if inputs[t - m + 1] else 19 if enough else 26)
            back, returned = after['stream'], returned + value_of(after['answer'])
    assert position == returned == first + size
    assert all_bits(back) == all_bits(was)[:first] + all_bits(stream)[first:position] + all_bits(was)[position:]


def stream_runs(cases, depths, large):
    rng = random.Random(35)
    for m in depths:
        for loads in ((14,), LISTED, (0, 0, 6)):
            cases.name('a stream through a link of depth %d' % m)
            stream_run(cases, plans.near_a(M=m), 127 - m // 2, m, some_profile(rng, loads), 7, rng.randrange(20))
    for m in large:
        cases.name('a stream through a large link of depth %d' % m)
        stream_run(cases, at_depth(plans.LARGEST, m), 126, m, some_profile(rng), 3, 5)


# --- the modulator ---------------------------------------------------------

UNLISTED = (0, 3, 5, 15, 16, 17, 32, 38, 128, 255)
# Numbers that a call has to leave as they are: both zeros, the least, infinities, NaNs of both kinds.
ODD_SINGLES = (0, 0x80000000, 1, 0x807FFFFF, 0x7F800000, 0xFF800000, 0x7FC00000, 0xFFC12345, 0x7F800001, 0xFFBFFFFF, 0x3F400000)


def some_singles(rng, count=2 * SYMBOL):
    """So many numbers of any bits, one in four of them an odd one."""
    bits = array('I', rng.randbytes(4 * count))
    for i in range(0, count, 4):
        bits[i + rng.randrange(min(4, count - i))] = rng.choice(ODD_SINGLES)
    return bits.tobytes()


def some_line(rng, marks=0.3):
    """What modulate is given: each subcarrier with some load, a value below 2 to it or a mark, and a sign."""
    loads = bytes(rng.choice(points.Points.loads) for _ in range(SYMBOL))
    cells = [rng.choice(points.MARKS) if rng.random() < marks else rng.choice((0, 2 ** m - 1, rng.randrange(2 ** m)))
             for m in loads]
    return {'symbol': to_bytes(cells), 'loads': loads, 'minus': bytes(rng.choice((0, 0, 1, 2, 128, 255)) for _ in loads),
            'numbers': some_singles(rng)}


def with_line(given, k, cell=None, load=None):
    """With another cell or load at subcarrier k."""
    symbol = given['symbol'] if cell is None else with_cell(given['symbol'], k, cell)
    loads = given['loads'] if load is None else given['loads'][:k] + bytes([load]) + given['loads'][k + 1:]
    return {**given, 'symbol': symbol, 'loads': loads}


def modulate(cases, want, given):
    """A call, and what it has to return, with place and subcarrier where it is refused."""
    returned, after = cases.call('modulate', **given)
    answer = after['answer']
    if len(answer) >= ANSWER:
        assert (returned, int.from_bytes(answer[:4], 'big'), value_of(answer)) == (*want, 0, 0, 0)[:3], (want, returned)
    assert returned == want[0] and (returned == 0 or after['numbers'] == given['numbers']), (want, returned)


def every_point(rng):
    """Lines with every value of every load."""
    all_values = [(value, load) for load in points.Points.loads for value in range(2 ** load)]
    all_values += [(0x8000 + i % 5, 6) for i in range(-len(all_values) % SYMBOL)]
    for i in range(0, len(all_values), SYMBOL):
        cells, loads = zip(*all_values[i:i + SYMBOL])
        yield {**some_line(rng), 'symbol': to_bytes(cells), 'loads': bytes(loads)}


def modulations(cases, some, every):
    """Symbols on the line of all marks and loads; every value of every load; what an emitter sends."""
    rng = random.Random(14)
    cases.name('modulator symbols')
    for i in range(some):
        modulate(cases, (0,), some_line(rng, (0.3, 0.02, 0.9)[i % 3]))
    for mark in points.MARKS:
        modulate(cases, (0,), {**some_line(rng), 'symbol': to_bytes([mark] * SYMBOL)})
    for line in every_point(rng) if every else ():
        modulate(cases, (0,), line)
    cases.name('modulator symbols of emitted ones')
    for plan, start in ((plans.near_a(M=3), 126), (at_depth(plans.LARGEST, 2), 64)):
        link = Link(cases, plan, start, 15)
        for t in range(4):
            link.send(t == 2)
            given = {**some_line(rng), 'symbol': link.symbol, 'loads': bytes([14] * SYMBOL)}
            modulate(cases, (0,), given)
            k, cell = rng.choice([(k, cell) for k, cell in enumerate(to_cells(link.symbol)) if cell not in points.MARKS])
            short = [load for load in points.Points.loads if 2 ** load <= cell]
            modulate(cases, (0,), with_line(given, k, load=points.Points.loads[len(short)]))
            for load in short[-1:]:
                modulate(cases, (23, cell, k), with_line(given, k, load=load))


def refused_lines(cases, subcarriers):
    """22 and 23 at these subcarriers, of each load and each kind of cell, and several in one symbol."""
    rng, good = random.Random(15), {**some_line(random.Random(16)), 'answer': bytes(ANSWER)}
    for k in subcarriers:
        cases.name('refused at subcarrier %d' % k)
        load, bad = rng.choice(points.Points.loads), rng.choice(UNLISTED)
        modulate(cases, (22, bad, k), with_line(good, k, 0, bad))
        modulate(cases, (22, bad, k), with_line(good, k, rng.choice(points.MARKS), bad))
        modulate(cases, (22, bad, k), with_line(good, k, 0x8005, bad))                      # 22 before 23
        modulate(cases, (23, 2 ** load, k), with_line(good, k, 2 ** load, load))
        modulate(cases, (23, 0x8005, k), with_line(good, k, 0x8005, load))
    cases.name('each load that is not listed, each mark, and each limit')
    for load in UNLISTED:
        modulate(cases, (22, load, 99), with_line(good, 99, 0, load))
    for mark in points.MARKS:
        modulate(cases, (22, 3, 1000), with_line(good, 1000, mark, 3))
    for load in points.Points.loads:
        k = rng.randrange(SYMBOL)
        modulate(cases, (0,), with_line(good, k, 2 ** load - 1, load))
        modulate(cases, (23, 2 ** load, k), with_line(good, k, 2 ** load, load))
    for cell in (16384, 0x7FFF, 0x8005, 0x8010, 0x9000, 65535):
        modulate(cases, (23, cell, 2000), with_line(good, 2000, cell, 14))
    cases.name('several refusals in one symbol')
    for a, b in ((0, 4095), (7, 8), (15, 16), (2047, 3000)):
        modulate(cases, (22, 5, a), with_line(with_line(good, a, 0, 5), b, 64, 6))
        modulate(cases, (23, 64, a), with_line(with_line(good, b, 0, 5), a, 64, 6))
        modulate(cases, (22, 3, a), with_line(with_line(good, a, 0, 3), b, 0, 5))
        modulate(cases, (23, 9999, a), with_line(with_line(good, a, 9999, 13), b, 2, 1))
    modulate(cases, (22, 0, 0), {**good, 'loads': bytes(SYMBOL)})
    modulate(cases, (23, 65535, 0), {**good, 'symbol': b'\xFF' * 2 * SYMBOL})


def modulate_lengths(cases):
    """Each buffer one longer, one shorter and empty; 21 before 17, 17 before 22 and 23; short answers."""
    good = some_line(random.Random(17))
    bad = with_line(with_line(good, 0, 65535, 6), 1, 0, 5)
    cases.name('the lengths of what modulate is given')
    steps = {'symbol': 2, 'loads': 1, 'minus': 1, 'numbers': 4}
    for given in (good, bad):
        for key, step in steps.items():
            for data in (given[key][:-step], given[key] + bytes(step), b'', given[key] * 2, given[key][:len(given[key]) // 2]):
                modulate(cases, (17,), {**given, key: data})
        for data in (given['symbol'][:-1], given['symbol'] + b'\0', b'\0'):
            modulate(cases, (21,), {**given, 'symbol': data})
            modulate(cases, (21,), {**given, 'symbol': data, 'loads': b'', 'numbers': b''})
        for room in (0, 1, ANSWER - 1):
            for other in ({}, {'symbol': b'\0'}, {'minus': b''}):
                modulate(cases, (21,), {**given, **other, 'answer': b'\x5A' * room})
    empty = dict.fromkeys(steps, b'')
    modulate(cases, (17,), {**empty, 'answer': bytes(ANSWER)})
    modulate(cases, (21,), {**empty, 'answer': b''})
    modulate(cases, (0,), {**good, 'answer': b'\x5A' * 999})


def example(path):
    """What examples/modulate.c prints of a plan."""
    model, plan = Interface(), open(path, 'rb').read()
    at, phase = model.layout(plan), 125
    store, symbol = bytes(2 * emitter_length(at.n, at.m)), bytes(2 * SYMBOL)
    store = model.call('fresh_emitter', (phase,), {'plan': plan, 'store': store, 'answer': bytes(ANSWER)})[1]['store']
    profile = bytes(0 if k % 10 == 9 else 6 + k % 9 for k in range(SYMBOL))
    given = {'loads': bytes(load or 1 for load in profile), 'minus': bytes(k % 2 for k in range(SYMBOL)),
             'numbers': bytes(8 * SYMBOL), 'answer': bytes(ANSWER)}
    for t in range(at.m):
        stream = bytes((t * 77 + i * i * 31 + i // 3) % 256 for i in range(7490))
        loaded = {'plan': plan, 'profile': profile, 'answer': bytes(ANSWER)}
        data = model.call('fill', (phase, 0), {**loaded, 'stream': stream, 'data': bytes(2 * model.count(at, phase))})[1]['data']
        after = model.call('emit', (phase,), {**loaded, 'store': store, 'data': data, 'symbol': symbol})[1]
        store, symbol = after['store'], after['symbol']
        lines = [model.points.on_line(*line) for line in zip(to_cells(symbol), given['loads'], given['minus'])]
        kinds = Counter(line[0] if line[0] != 'pilot' else points.number(line[1]) for line in lines)
        print('phase %d: %d silent, %d open, %d pilots plus and %d minus, %d points'
              % (phase, kinds['silent'], kinds['open'], kinds[2], kinds[-2], kinds['point']))
        phase = (phase + 1) % 128
    k, (_, x, y) = next((k, line) for k, line in enumerate(lines) if line[0] == 'point')
    print('subcarrier %d, load %d, value %d: %.9g %.9g'
          % (k, given['loads'][k], to_cells(symbol)[k], points.number(x), points.number(y)))
    returned, after = model.call('modulate', (), with_line({**given, 'symbol': symbol}, k, load=5))
    print('load 5: refused by %d at %d, subcarrier %d'
          % (returned, int.from_bytes(after['answer'][:4], 'big'), value_of(after['answer'])))


def link_example(path):
    """What examples/link.c prints of a plan."""
    model, plan = Interface(), open(path, 'rb').read()
    at, symbols = model.layout(plan), 10
    profile = bytes((14, 14, 0, 14, 4, 14, 9, 14)[k % 8] for k in range(SYMBOL))
    bits = sum(sum(model.data_loads(at, profile, (125 + t) % 128)) for t in range(symbols))
    print('%s: accepted, N_I %d, depth %d' % (path, at.n, at.m))
    print('both ends started at phase 125, with stores of %d and %d bytes'
          % tuple(2 * model.places(at, end).length for end in ('emitter', 'receiver')))
    print('one cell of data alone: refused by 18 at 0, the state still phase 125')
    print('sent %d symbols of data and %d flushes: %d bits from bit 3 on, came back as sent' % (symbols, at.m - 1, bits))


def lamp_example(path):
    """The lines that examples/lamp.c prints of a plan."""
    model, plan = Interface(), (ROOT / path).read_bytes()
    at, pilots = model.layout(plan), lamp.MODEL.plan_pilots(plan)
    damaged, record, lights, dark = pilots[len(pilots) // 2], bytes(len(pilots) + 1), bytes(128), 0
    yield '%s: accepted, N_I %d, depth %d' % (path, at.n, at.m)
    yield '%d continuous pilots: %s' % (len(pilots), ' '.join(map(str, pilots)))
    for t in range(150):
        symbol = to_bytes([0 if mark is None else mark for mark in model.marks_at(at, (125 + t) % 128)])
        given = {'plan': plan, 'record': record, 'lights': bytes(128), 'answer': bytes(ANSWER),
                 'symbol': with_cell(symbol, damaged, 0) if t == 10 else symbol}
        if t == 0:
            returned, after = model.call('lamp', (), {**given, 'record': record[1:]})
            yield 'a record one byte short: refused by %d at %d' % (returned, int.from_bytes(after['answer'][:4], 'big'))
        before, (_, after) = lights, model.call('lamp', (), given)
        record, lights = after['record'], after['lights']
        dark += lights[pilots.index(damaged)] == 0
        if lights != before:
            yield 'symbol %d: %s' % (t, lamp.line_of(pilots, lights))
    yield '150 symbols heard: pilot %d, damaged in symbol 10, was dark after %d of them' % (damaged, dark)


# --- the pages -------------------------------------------------------------

def check_words():
    """docs/C-HOST.md has the header's names of the grounds, with the same words and in their order."""
    header = re.findall(r'/\* ((?:[^*]|\*[^/])*) \*/\n#define HEADEND_REFUSED_(\w+) (\d+)u', HEADER.read_text())
    assert [(name, int(n)) for _, name, n in header] == list(NUMBERED.items())
    page = (ROOT / 'docs' / 'C-HOST.md').read_text()
    for words, name, n in header:
        words = ' '.join(words.replace('\n *', ' ').split()).replace(' * ', ' × ')
        shown = '%s. `HEADEND_REFUSED_%s`. %s' % (n, name, words)
        assert shown in ' '.join(page.split()), 'docs/C-HOST.md should have ' + shown


def check_page():
    """The fifteen answers that docs/C-HOST.md shows, its table of the reasons, and its examples of a stream and of a lamp."""
    model, a, page = Interface(), plans.PLAN_A, (ROOT / 'docs' / 'C-HOST.md').read_text()
    count = model.data_count(a, 126)
    steps = {'plan': a, 'profile': FULL, 'store': bytes(2 * 636), 'symbol': bytes(2 * SYMBOL)}
    data = bytes(2 * count)
    filling = {'plan': a, 'profile': FULL, 'stream': bytes(1000), 'data': data}
    heard = {'symbol': bytes(2 * SYMBOL), 'record': bytes(49), 'lights': bytes(128)}
    line = {'symbol': to_bytes([64 if k == 900 else 0x8002 for k in range(SYMBOL)]), 'loads': bytes([6] * SYMBOL),
            'minus': bytes(SYMBOL), 'numbers': bytes(8 * SYMBOL)}
    for name, numbers, given in (('judge', (), {'plan': a}),
                                 ('judge', (), {'plan': plans.near_a([(850, 854)])}),
                                 ('try', (850, 853), {'plan': a}),
                                 ('why', (948, 0), {'plan': a}), ('why', (4095, 0), {'plan': a}), ('why', (1029, 48), {'plan': a}),
                                 ('emit', (126,), {**steps, 'data': with_cell(data, 7, 16384)}),
                                 ('emit', (126,), {**steps, 'data': data}),
                                 ('emit', (126,), {**steps, 'data': data, 'profile': with_load(FULL, 905, 5)}),
                                 ('fill', (126, 5), filling), ('fill', (126, 2107), filling),
                                 ('pilots', (), {'plan': a, 'pilots': bytes(256)}), ('lamp', (), {'plan': plans.LARGEST, **heard}),
                                 ('lamp', (), {'plan': a, **heard}), ('modulate', (), line)):
        returned, after = model.call(name, numbers, {**given, 'answer': bytes(ANSWER)})
        shown = '| %d | `%s`' % (returned, after['answer'].hex(' ', 4).upper())
        assert shown in page, 'docs/C-HOST.md should have ' + shown
    for value, ((role, _), name) in enumerate(WHYS.items(), 1):
        shown = '| %d | `HEADEND_WHY_%s` | %s |' % (value, name, role.replace('plc', 'PLC'))
        assert shown in page, 'docs/C-HOST.md should have ' + shown
    check_stream(page)
    check_lamp(page)


def check_stream(page):
    """The example of a stream in docs/C-HOST.md."""
    model, a, first = Interface(), plans.PLAN_A, bytes.fromhex('B469D2')
    at = model.layout(a)
    assert [p for p, held in enumerate(model.placeholders(at, 0)) if not held][:4] == [0, 1, 2, 3]
    profile = FULL
    for k, load in zip(at.carriers, (4, 0, 6)):
        profile = with_load(profile, k, load)
    bits, start = sum(model.data_loads(at, profile, 0)), 3
    data, cells = [9] * model.count(at, 0), (6, 0, 19)
    assert model.fill_symbol(a, profile, 0, first + bytes(999), start, data) == ('bits', bits)
    assert tuple(data[:3]) == cells
    said = ['N_D %d data cells' % len(data), 'subcarriers %d, %d and %d' % tuple(at.carriers[:3]), 'takes %s bits' % format(bits, ','),
            'bytes `%s`' % first.hex(' ').upper(), 'begins `%s`' % to_bytes(cells).hex(' ', 2).upper(),
            'writes %s bits' % format(bits, ','), 'all from %s on' % format(start + bits, ',')]
    in_order = ' '.join(map(str, all_bits(first)))
    said += ['| in their order | %s | | %s | %s .. |' % (in_order[6:13], in_order[14:25], in_order[26:]),
             '| bits of the stream | 3 to 6 | none | 7 to 12 | 13 to 26 |', '| its value | %d | %d | %d | |' % cells]
    for words in said:
        assert words in ' '.join(page.split()), 'docs/C-HOST.md should have ' + words
    for cell, want in ((1, ('bits', bits)), (2, ('refused', 19, 1))):
        assert model.unfill_symbol(a, profile, 0, [data[0], cell, *data[2:]], start, bytearray(1000)) == want


def check_lamp(page):
    """The example of a lamp in docs/C-HOST.md, and what it says that examples/lamp.c prints."""
    record, lines = bytes(9), page.splitlines()
    shown = ['| 0, fresh | `%s` | |' % record.hex(' ')]
    for t in range(1, 132):
        symbol = lamp.bytes_of(lamp.marked(EIGHT, (937,) if t == 2 else ()))
        _, record, lights, _ = lamp.lamp_call(plans.PLAN_A, symbol, record, bytes(128), bytes(ANSWER))
        if t in (1, 2, 3, 128, 129, 130, 131):
            shown.append('| %d | `%s` | `%s` |' % (t, record.hex(' ').upper(), lights[:8].hex(' ').upper()))
    for shown in (shown, ['    ' + line for line in lamp_example('plans/plan-a.plan')]):
        at = lines.index(shown[0])
        assert lines[at:at + len(shown)] == shown, 'docs/C-HOST.md should have ' + '\n'.join(shown)


def check_rows():
    """The rows of docs/MODULATOR.md: each is what the model says of the cell, the load and the sign byte, and there is one for
    each load, each mark, each sign of a pilot, 22 and 23.  The table of the loads is the model's too."""
    page, model, shown = (ROOT / 'docs' / 'MODULATOR.md').read_text(), points.Points(), set()
    for cell, load, byte, first, second in re.findall(r'^\| `(\w{4})` [^|]*\| (\d+) \| (\d+) \| ([^|]*) \| ([^|]*) \|', page, re.M):
        kind, *wanted = model.on_line(int(cell, 16), int(load), int(byte) != 0)
        if kind == 'refused':
            shown.add(wanted[0])
            wanted = ['refused by %d, place %d' % tuple(wanted), '\u2013']
        else:
            shown.add((kind, {'point': load, 'pilot': cell + ('-' if int(byte) else '+')}.get(kind, cell)))
            bits = {'silent': (0, 0), 'open': None, 'pilot': (*wanted, 0)}.get(kind, wanted)
            wanted = ['%.9g `%08X`' % (points.number(b), b) for b in bits] if bits else ['as it was'] * 2
        assert [first, second] == wanted, (cell, load, wanted)
    assert shown == {22, 23, ('silent', '8001'), ('silent', '8002'), ('open', '8004'),
                     *(('pilot', mark + byte) for mark in ('8000', '8003') for byte in '+-'),
                     *(('point', str(load)) for load in model.loads)}, shown
    for load in model.loads:
        ends = model.point(load, 0), model.point(load, 2 ** load - 1)
        row = '| %d | %d | %d | `%08X` | %s | %s |' % (load, model.roots[load - 1], points.furthest(load), model.factor(load), *ends)
        assert row in page, 'docs/MODULATOR.md should have ' + row


def check_reached(cases):
    """Each call gave every ground that headend.h says it can give, and no other."""
    for name, (*_, grounds) in CALLS.items():
        assert cases.reached[name] == {0} | grounds, (name, cases.reached[name] ^ ({0} | grounds))
    assert cases.empty == set(BUFFERS)


def write(path, small):
    cases = Cases(path)
    header_names(cases)
    helpers(cases, range(0, 128, 5) if small else range(128))
    verdicts(cases, 0 if small else 600)
    roles(cases, range(0, 4096, 127) if small else range(4096))
    whys(cases, 512 if small else 11, 7 if small else 1, (0, 48, 49, 50, 92, 127) if small else range(128), 5 if small else 100)
    why_grounds(cases)
    lamps(cases, small)
    counts(cases, (0, 1, 63, 127) if small else range(128))
    refused_plans(cases)
    lent_rooms(cases)
    store_lengths(cases, (1, 2, 31) if small else (1, 2, 3, 4, 7, 31, 32))
    empty_buffers(cases)
    losses(cases)
    trials(cases, RANGES[::4] if small else RANGES, 8 if small else 1, 5 if small else 200)
    tried_limits(cases)
    tried_chains(cases)
    tried_numbers(cases)
    modulations(cases, 3 if small else 30, not small)
    refused_lines(cases, (0, 15, 4095) if small else (0, 1, 7, 8, 15, 16, 255, 2047, 2048, 4094, 4095))
    modulate_lengths(cases)
    profiles(cases, NOT_LOADS[::40] if small else NOT_LOADS)
    loads_limits(cases, ((plans.PLAN_A, 5),) if small else ((plans.PLAN_A, 0), (plans.near_a([(850, 853)], [900], M=31), 127),
                                                            (at_depth(plans.LARGEST, 32), 64)))
    mixed = (plans.near_a(M=3), 125, LISTED)
    fillings(cases, (mixed,) if small else (mixed, (plans.PLAN_A, 0, (14,)), (plans.PLAN_A, 1, (0, 4)), (plans.near_b(), 64, LISTED),
                                            (plans.near_a(M=32), 99, (8,)), (plans.PLAN_A, 3, (0,)), (plans.SINGLES_150, 7, LISTED)), 36)
    no_bits(cases)
    stream_grounds(cases)
    stream_runs(cases, (1, 4) if small else (1, 2, 3, 4, 7, 31, 32), () if small else (1, 2, 4))
    any_states(cases, (1, 31) if small else (1, 2, 3, 4, 7, 16, 31, 32))
    runs(cases, (1, 3, 4) if small else range(1, 33), (2,) if small else (1, 2, 3, 4, 7, 31, 32),
         (1, 4) if small else (1, 2, 4, 7), 5 if small else 140)
    check_reached(cases)
    check_page()
    check_rows()
    check_words()
    if not small:
        thousands = '%d,000 calls' % (cases.calls // 1000)
        assert thousands in (ROOT / 'docs' / 'C-HOST.md').read_text(), 'docs/C-HOST.md should have ' + thousands
    cases.end()
    print('%d calls written' % cases.calls)


def main():
    arguments = sys.argv[1:]
    if len(arguments) == 2 and arguments[0] == '--small':
        write(arguments[1], True)
    elif len(arguments) == 2 and arguments[0] == '--example':
        example(arguments[1])
    elif len(arguments) == 2 and arguments[0] == '--link':
        link_example(arguments[1])
    elif len(arguments) == 2 and arguments[0] == '--lamp':
        print('\n'.join(lamp_example(arguments[1])))
    elif len(arguments) == 1 and not arguments[0].startswith('-'):
        write(arguments[0], False)
    else:
        sys.exit(__doc__)


if __name__ == '__main__':
    main()
