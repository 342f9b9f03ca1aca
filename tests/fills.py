#!/usr/bin/env python3
"""Makes the test data of fillcases from the second model of loads, filling and the way back (request 07).

    python3 tests/fills.py              writes crates/fillcases/stdin and stdout
    python3 tests/fills.py --check      compares them, exits 1 on a difference
    python3 tests/fills.py --mutants    bends the model in many ways, each of which must change a
                                        line of stdout; exits 1 if one does not

A number here is four bytes, high byte first.  stdin holds, for each case, six numbers: the plan's
length, the starting phase, `step`, `turn`, `seed` and the number of acts; then the plan; then the
acts, nine numbers each.  The end of the input ends the list.

What the program does with a case:

- The profile has 4,097 bytes.  Byte k is the load of index (k * step + turn) % 11, where index 0
  is load 0, index 1 load 4 and index i from 2 on load i + 4: 0, 4, 6, 7, .. 14.
- The stream has 8,192 bytes.  With seed 0 each is 255; else x starts as the seed, and each byte
  is x % 256 of the next x = x * 48271 % 2147483647.
- `back`, the stream that is written, has 8,192 bytes, each 165.  The data, what is handed out, and
  the line have 4,096 cells each, and the two stores 60,000 each, all 43981.
- `sum` is the checksum, 0 at the start: mix(sum, v) = (sum * 48271 + v) % 2147483647.
- First a fresh emitter and a fresh receiver at the starting phase, each with its whole store.
  Where one is refused, its state is the starting phase, and heard 0.  Nothing is mixed.
- Then the acts, in order.  The nine numbers of an act:
     kind      what it does, see below; 6 and more count as 5
     phase     of 0 to 2 the phase; of 3 to 5 added to that of the state, modulo 2^32
     profile   how many bytes of the profile are given, from the first (at most 4,097)
     load      upper two bytes a place, lower two a load: the profile has that byte (its lower eight
               bits) at that place; place 65535 is none
     cells     how many cells of the data, or of what was handed out, are lent, from the first (at
               most 4,096); 3 has it too, 4 and 5 do not look at it
     cell      upper two bytes a place, lower two a cell: of 1 and 3 the data, of 2 what was handed
               out, of 5 the line has that cell at that place; place 65535 is none
     room      of 0 how many bytes of the stream are given, of 1 and 2 of back (at most 8,192); of 3
               to 5 how many cells of the store (at most 60,000)
     high, low of 0 to 2 the start: high * 2^32 + low
  The profile, the data, what was handed out and the line are after the act as they were before it,
  but for what the entry writes.  A change of the data in an act 0 is not made.
     0  fill the data from the stream
     1  the way back of the data into back
     2  the way back of what was handed out into back
     3  emit the data onto the line, with the emitter's store
     4  flush onto the line, with the emitter's store; no profile is given
     5  receive the line, with the receiver's store and all 4,096 cells of what is handed out
- After each act its answer is mixed: of 0 to 2 for a count 1 and the count, for a refusal 2, number
  and place; of 3 and 4 for a sent symbol 1 and the phase, for a refusal 2, number, place and
  phase; of 5 for warming 1, for data 3 and the count, for a refusal 2, number and place, each time
  then phase and heard.  Then what it may have written: of 0 the data, of 1 and 2 back, byte by
  byte, of 3 and 4 the line, of 5 what is handed out, all of it.  The run goes on with the state of
  an answer that is no refusal.

The case's line: `accepted refused bits sum`, decimal, single spaces: how many acts were not
refused and how many were; what the counts of the acts 0 to 2 add up to, modulo 2^32; the checksum.
"""

import struct
import sys

sys.dont_write_bytecode = True

import loads
import plans
import receives
import stored
from loads import LISTED, Filling
from stored import PRIME, mix, mix_cells

FILL, UNFILL, UNFILL_HANDED, EMIT, FLUSH, RECEIVE = range(6)
PROFILE, CELLS, STREAM, STORE = 4097, 4096, 8192, 60000
TOP, FAR = 2 ** 32 - 1, 2 ** 64 - 1
UNTOUCHED, BEFORE = 43981, 165
NONE = 65535 * 65536
BAD_LOADS = (1, 2, 3, 5, 15, 16, 255)


# --- what is generated -----------------------------------------------------

def profile_of(step, turn):
    return bytes(LISTED[(k * step + turn) % 11] for k in range(PROFILE))


def stream_of(seed):
    if seed == 0:
        return b'\xff' * STREAM
    stream, x = bytearray(), seed
    for _ in range(STREAM):
        x = x * 48271 % PRIME
        stream.append(x % 256)
    return bytes(stream)


def change(place, value):
    return place * 65536 + value


def act(kind, phase=0, profile=4096, load=NONE, cells=CELLS, cell=NONE, room=STREAM, start=0):
    return kind, phase % (TOP + 1), profile, load, cells, cell, room, start >> 32, start & TOP


# --- the cases -------------------------------------------------------------

class Case:
    """The acts of a case, as they are made, and what each has to answer: 0, or the ground and its place."""
    sound = Filling()

    def __init__(self, name, plan, start, step, turn, seed):
        self.name, self.plan, self.start = name, plan, start
        self.step, self.turn, self.seed = step, turn, seed
        self.profile = profile_of(step, turn)[:4096]
        self.at = self.sound.layout(plan)
        self.acts, self.wants = [], []

    # Of a phase: the loads of the data cells, how many there are, how many bits they take, and their limits.

    def loads(self, phase):
        return self.sound.data_loads(self.at, self.profile, phase)

    def count(self, phase):
        return self.sound.count(self.at, phase)

    def need(self, phase):
        return sum(self.loads(phase))

    def limits(self, phase):
        return [self.sound.limit(load) for load in self.loads(phase)]

    def carriers(self, phase):
        """The subcarriers with a data role in a symbol on the line."""
        return [k for k, mark in enumerate(self.sound.marks_at(self.at, phase)) if mark is None]

    def do(self, kind, want=0, phase=None, **other):
        """An act, right but for what is said; of 0 to 2 the phase is the starting one unless it is said."""
        if kind <= UNFILL_HANDED:
            phase = self.start if phase is None else phase
            if 'cells' not in other:
                other['cells'] = self.count(phase % 128) if not isinstance(self.at, tuple) else 421
        else:
            phase = phase or 0
            other.setdefault('room', STORE)
        if kind == EMIT and 'cells' not in other:
            other['cells'] = self.count(self.sender)
        self.acts.append(act(kind, phase, **other))
        self.wants.append(want)
        return self

    sender = property(lambda self: (self.start + sum(a[0] in (EMIT, FLUSH) and want == 0
                                                     for a, want in zip(self.acts, self.wants))) % 128)


def some_positions(n):
    return sorted({0, 1, n // 2, n - 2, n - 1})


def one_load(index):
    """One load everywhere, at M = 1, where what is sent comes back at once: cells at the limit, one above it and at 0, in emit, receive
    and the way back, at the first, the last and some other data cell."""
    load = LISTED[index]
    case = Case('load %d everywhere' % load, plans.near_a(M=1), 127 - 9 * index, 0, index, 0)
    most, count = case.sound.limit(load), case.count(case.start)
    case.do(FILL)
    for c in some_positions(count):
        for cell, want in ((most, 0), (0, 0), (most + 1, (19, c)), (0x8001, (19, c))):
            case.do(UNFILL, want, cell=change(c, cell))
        case.do(EMIT, (19, c), cell=change(c, most + 1))
    if load == 0:
        case.do(UNFILL, cell=change(3, 1)).do(UNFILL, (19, 3), cell=change(3, 2)).do(EMIT, (19, 3), cell=change(3, 2))
    case.do(EMIT, cell=change(1, most))
    carriers = case.carriers(case.start)
    for k in some_positions(len(carriers)):
        for cell in (most + 1, 0x8000, 16384):
            case.do(RECEIVE, (20, carriers[k]), cell=change(carriers[k], cell))
    case.do(RECEIVE, cell=change(carriers[0], most)).do(UNFILL_HANDED, start=3)
    case.do(UNFILL_HANDED, (19, 5), cell=change(5, most + 1))
    return case


def mixed_limits(plan, start, step, turn):
    """The limit of each of the first data cells, of each load at least once, and one more, in emit, the way back and receive."""
    case = Case('limits of mixed loads, %d and %d' % (step, turn), plan, start, step, turn, 0)
    limits, count = case.limits(start), case.count(start)
    case.do(FILL, start=5)
    shown = sorted({*range(12), count // 2, count - 1, *(case.loads(start).index(load) for load in set(case.loads(start)))})
    for c in shown:
        case.do(UNFILL, (19, c), cell=change(c, limits[c] + 1))
        case.do(EMIT, (19, c), cell=change(c, limits[c] + 1))
    for c in shown[:3]:
        case.do(UNFILL, cell=change(c, limits[c]), start=c)
        case.do(UNFILL, cell=change(c, 0), start=c)
    case.do(EMIT)
    carriers = case.carriers(start)
    for k in [carriers[i] for i in (*range(12), len(carriers) // 2, -1)]:
        case.do(RECEIVE, (20, k), cell=change(k, case.sound.limit(case.profile[k]) + 1))
    return case.do(RECEIVE)


def stream_run(name, plan, start, step, turn, seed, symbols, first):
    """A stream through a link and back, each symbol's bits from where the last one's ended.  Every fourth input is a flush, which is
    refused on the way back by 19 at 0."""
    case = Case(name, plan, start, step, turn, seed)
    m, sent, returned = case.at.m, first, first
    for t in range(symbols + m - 1):
        phase, handed = (start + t) % 128, (start + t - m + 1) % 128
        if t < symbols and t % 4 != 3:
            case.do(FILL, phase=phase, start=sent).do(EMIT)
            sent += case.need(phase)
        else:
            case.do(FLUSH)
        case.do(RECEIVE)
        if t >= m - 1:
            is_data = (t - m + 1) % 4 != 3
            case.do(UNFILL_HANDED, 0 if is_data else (19, 0), phase=handed, start=returned)
            returned += case.need(handed) if is_data else 0
    return case


def starts_and_rooms(name, plan, start, step, turn, seed):
    """Fill and the way back from every bit of a byte, with just enough bytes and one too few; with exactly enough bits, and one too few;
    from starts past the end, up to the last; streams shorter than a symbol."""
    case = Case(name, plan, start, step, turn, seed)
    need = case.need(start)
    for bit in range(9):
        room = -(-(bit + need) // 8)
        for kind in (FILL, UNFILL):
            case.do(kind, start=bit, room=room)
            case.do(kind, (26, 0), start=bit, room=room - 1)
    room = 800
    for kind in (FILL, UNFILL):
        case.do(kind, start=8 * room - need, room=room)
        for late in (8 * room - need + 1, 8 * room - 1, 8 * room, 8 * room + 1, TOP, TOP + 1, TOP + 1 + 3, 2 ** 61 + 3, 2 ** 63,
                     FAR - 7, FAR, FAR + 1 - need, FAR + 1 - need + 8):
            case.do(kind, (26, 0), start=late, room=room)
        for short in (0, 1, need // 16, need // 8 - 1):
            case.do(kind, (26, 0), room=short)
    return case


def without_bits():
    """Loads that add up to 0: no start is too far, no stream too short; cells are 0 or 1, and 2 is refused."""
    case = Case('no bits at all', plans.PLAN_A, 77, 0, 0, 9)
    case.do(FILL)
    for start in (0, 1, 7, 65536, TOP, TOP + 9, FAR - 1, FAR):
        for room in (0, 1, 700):
            case.do(FILL, start=start, room=room).do(UNFILL, start=start, room=room)
    case.do(UNFILL, cell=change(0, 1)).do(UNFILL, cell=change(420, 1), start=FAR, room=0)
    case.do(UNFILL, (19, 0), cell=change(0, 2)).do(UNFILL, (19, 420), cell=change(420, 2), start=FAR, room=0)
    return case


def one_cell():
    """One subcarrier carries bits, the others have load 0."""
    case = Case('one cell with bits', plans.PLAN_A, 40, 0, 0, 31)
    free = [p for p, held in enumerate(case.sound.placeholders(case.at, 40)) if not held]
    for c in (0, 200, len(free) - 1):
        place = case.at.carriers[free[c]]
        for load in (4, 9, 14):
            given = {'load': change(place, load)}
            case.do(FILL, **given, room=3, start=1).do(UNFILL, **given, room=3, start=2)
            case.do(FILL, **given, room=2, start=16 - load).do(FILL, (26, 0), **given, room=2, start=17 - load)
            case.do(UNFILL, (26, 0), **given, room=2, start=17 - load)
            case.do(UNFILL, (19, c), **given, cell=change(c, 2 ** load))
            case.do(EMIT, (19, c), **given, cell=change(c, 2 ** load))
            case.do(UNFILL, **given, cell=change(c, 2 ** load - 1), start=9, room=4)
    return case


def profile_cases():
    """25: lengths, loads that are not listed at subcarriers of every role, and its place in the order."""
    case = Case('profiles that are refused', plans.near_a([(850, 853)], [900], M=2), 14, 3, 5, 77)
    marks = case.sound.marks_at(case.at, 14)
    roles = [0, 4095, 850, 900, *(marks.index(mark) for mark in (0x8000, 0x8003, 0x8004, None))]
    case.do(FILL)
    for kind in (FILL, UNFILL, EMIT, RECEIVE):
        for length in (0, 1, 4095, 4097):
            case.do(kind, (25, 0), profile=length)
        for i, place in enumerate(roles):
            case.do(kind, (25, place), load=change(place, BAD_LOADS[i % 7]))
        for i, load in enumerate(BAD_LOADS):
            case.do(kind, (25, 2000 + i), load=change(2000 + i, load))
        bad = {'load': change(4095, 5)}
        case.do(kind, (25, 4095), **bad, **({'phase': 128, 'cells': 0, 'room': 0} if kind < EMIT else {'phase': 128, 'room': 0}))
        case.do(kind, (25, 0), profile=4095, load=change(9, 5), room=0)
        case.do(kind, (25, 0), profile=4097, load=change(4094, 255))
        case.do(kind, (25, 4095), **bad, cell=change(0, 65535))
    case.do(FLUSH, profile=0, load=change(3, 3))
    for load in LISTED:
        case.do(UNFILL, load=change(4095, load)).do(FILL, load=change(0, load))
    case.do(EMIT, (19, 0), cell=change(0, 65535))
    return case


def order_cases():
    """16, 18, 26 and 19 in their order, of fill and the way back; 25, 16, 17 and 18, 19, 20 of a step."""
    case = Case('the order of the grounds', plans.near_a(M=3), 127, 4, 2, 5)
    count = case.count(127)
    case.do(FILL)
    high = {'cell': change(0, 65535)}
    for kind in (FILL, UNFILL):
        for phase in (128, 129, 255, 65536, TOP):
            case.do(kind, (16, 0), phase=phase, cells=count)
            case.do(kind, (16, 0), phase=phase, cells=1, room=0, **high)
        for cells in (0, 1, count - 1, count + 1, CELLS):
            case.do(kind, (18, 0), cells=cells)
            case.do(kind, (18, 0), cells=cells, room=0, start=FAR, **high)
        case.do(kind, (26, 0), room=0, **high)
        case.do(kind, (26, 0), start=FAR, **high)
    case.do(FILL, **high).do(UNFILL, (19, 0), **high)
    for cells in (0, count - 1, count + 1):
        case.do(EMIT, (18, 0), cells=cells, **high).do(EMIT, (17, 0), cells=cells, room=0, **high)
        case.do(EMIT, (16, 0), phase=128, cells=cells, room=0, **high)
    case.do(EMIT, (19, 0), **high)
    case.do(EMIT)
    case.do(RECEIVE, (20, 0), **high).do(RECEIVE, (17, 0), room=0, **high).do(RECEIVE, (16, 0), phase=128, room=0, **high)
    return case


def refused_plan(name, plan, want):
    """A plan that is refused: before 25, 16, 18 and 26."""
    case = Case('refused plan: ' + name, plan, 3, 1, 0, 4)
    for kind in (FILL, UNFILL, EMIT, RECEIVE):
        for other in ({}, {'profile': 0}, {'load': change(7, 5)}, {'phase': 128}):
            case.do(kind, want, **other, **({'cells': 0} if kind == EMIT else {}))
    return case.do(FLUSH, want)


def flush_handed():
    """What is handed out for a flush has no way back; a load 0 cell is no exception."""
    case = Case('a flush handed out', plans.near_a(M=1), 64, 5, 0, 8)
    case.do(FLUSH).do(RECEIVE).do(UNFILL_HANDED, (19, 0))
    case.do(UNFILL_HANDED, (26, 0), room=0)
    case.do(UNFILL_HANDED, (19, 1), cell=change(0, 0))
    case.do(UNFILL_HANDED, (18, 0), cells=case.count(64) - 1)
    return case


def all_cases():
    cases = [one_load(index) for index in range(11)]
    cases += [mixed_limits(plans.PLAN_A, 0, 1, 0), mixed_limits(plans.near_a([(850, 853)], [900], M=31), 127, 7, 3),
              mixed_limits(plans.near_a(M=1), 48, 10, 4)]
    cases += [stream_run('a stream, depth 4', plans.PLAN_A, 126, 1, 3, 11, 8, 0),
              stream_run('a stream, depth 3', plans.near_a(M=3), 125, 6, 8, 12, 9, 3),
              stream_run('a stream, depth 1', plans.near_a(M=1), 60, 9, 1, 13, 9, 7),
              stream_run('a stream, 14 everywhere', plans.near_a(M=2), 47, 0, 10, 14, 6, 1),
              stream_run('a stream, depth 31', plans.near_a([(850, 853)], [900], M=31), 100, 2, 6, 15, 5, 12),
              stream_run('a stream of the largest plan', plans.second(plans.LARGEST, 0, 2), 127, 8, 2, 16, 1, 6)]
    cases += [starts_and_rooms('starts, mixed loads', plans.PLAN_A, 5, 3, 1, 17),
              starts_and_rooms('starts, load 4', plans.PLAN_A, 99, 0, 1, 18),
              starts_and_rooms('starts, load 13', plans.near_a(M=3), 127, 0, 9, 19)]
    cases += [without_bits(), one_cell(), profile_cases(), order_cases(), flush_handed(), refused_plan('no bytes', b'', (1, 0)),
              refused_plan('14', plans.near_a([(850, 854)]), (14, 835)), refused_plan('15', plans.ONE_PILOT_FEWER, (15, 0))]
    return cases


# --- the lines -------------------------------------------------------------

class Run:
    """A case as the program takes it."""

    def __init__(self, model, plan, start, step, turn, seed):
        self.model, self.plan = model, plan
        self.profile, self.stream = bytearray(profile_of(step, turn)), stream_of(seed)
        self.back = bytearray([BEFORE]) * STREAM
        self.data, self.handed, self.line = ([UNTOUCHED] * CELLS for _ in range(3))
        self.sending, self.listening = [UNTOUCHED] * STORE, [UNTOUCHED] * STORE
        answer = model.fresh(plan, start, self.sending)
        self.sender = answer[1] if answer[0] == 'fresh' else start
        answer = model.listen(plan, start, self.listening)
        self.state = answer[1:] if answer[0] == 'fresh' else (start, 0)
        self.sum = self.accepted = self.refused = self.bits = 0

    def take(self, kind, phase, profile, load, cells, cell, room, high, low):
        kind = min(kind, RECEIVE)
        given = bytearray(self.profile)
        if load >> 16 < len(given):
            given[load >> 16] = load % 256
        profile, start = bytes(given[:profile]), high * 2 ** 32 + low
        changed = {UNFILL: self.data, UNFILL_HANDED: self.handed, EMIT: self.data, RECEIVE: self.line}.get(kind, [])
        place, old = cell >> 16, None
        if place < len(changed):
            old, changed[place] = changed[place], cell % 65536
        answer, written = getattr(self, 'act_%d' % kind)(phase, profile, cells, room, start)
        if old is not None:
            changed[place] = old
        self.told(kind, answer)
        self.sum = mix_cells(self.sum, written)

    def told(self, kind, answer):
        self.accepted += answer[0] != 'refused'
        self.refused += answer[0] == 'refused'
        code = {'refused': 2, 'data': 3}.get(answer[0], 1)
        self.sum = mix(self.sum, (code, *answer[1:]))
        if answer[0] == 'bits':
            self.bits = (self.bits + answer[1]) % (TOP + 1)
        elif kind in (EMIT, FLUSH) and answer[0] != 'refused':
            self.sender = answer[1]
        elif kind == RECEIVE and answer[0] != 'refused':
            self.state = answer[-2:]

    def lent(self, cells, count, entry):
        """Calls an entry on the first cells, which it may write."""
        part = cells[:count]
        answer = entry(part)
        assert len(part) == min(count, len(cells))
        cells[:len(part)] = part
        return answer

    def act_0(self, phase, profile, cells, room, start):
        fill = self.model.fill_symbol
        answer = self.lent(self.data, cells, lambda part: fill(self.plan, profile, phase, self.stream[:room], start, part))
        return answer, self.data

    def way_back(self, source, phase, profile, cells, room, start):
        unfill = self.model.unfill_symbol
        answer = self.lent(self.back, room, lambda part: unfill(self.plan, profile, phase, source[:cells], start, part))
        return answer, list(self.back)

    def act_1(self, *given):
        return self.way_back(self.data, *given)

    def act_2(self, *given):
        return self.way_back(self.handed, *given)

    def act_3(self, phase, profile, cells, room, start):
        asked, step = (self.sender + phase) % (TOP + 1), self.model.step
        data = self.data[:cells]
        answer = self.lent(self.sending, room, lambda part: step(self.plan, asked, part, data, self.line, profile))
        return answer, self.line

    def act_4(self, phase, profile, cells, room, start):
        asked, step = (self.sender + phase) % (TOP + 1), self.model.step
        answer = self.lent(self.sending, room, lambda part: step(self.plan, asked, part, None, self.line))
        return answer, self.line

    def act_5(self, phase, profile, cells, room, start):
        asked, (now, heard), receive = phase, self.state, self.model.receive
        asked = (now + phase) % (TOP + 1)
        line = list(self.line)
        answer = self.lent(self.listening, room, lambda part: receive(self.plan, asked, heard, part, line, self.handed, profile))
        return answer, self.handed


def line_of(model, case, wants=None):
    """The line of a case; the answers are those of `wants`, where they are given."""
    run = Run(model, case.plan, case.start, case.step, case.turn, case.seed)
    for i, given in enumerate(case.acts):
        if wants:
            run.told = lambda kind, answer, i=i: (check_want(case, i, answer), Run.told(run, kind, answer))
        run.take(*given)
    return '%d %d %d %d' % (run.accepted, run.refused, run.bits, run.sum)


def check_want(case, i, answer):
    want = case.wants[i]
    got = answer[1:3] if answer[0] == 'refused' else 0
    assert got == want, '%s: act %d is %s, answered %s, expected %s' % (case.name, i, case.acts[i], got, want)


def make():
    cases, model = all_cases(), Filling()
    assert len({case.name for case in cases}) == len(cases), 'two cases of one name'
    lines, given = [], b''
    for case in cases:
        lines.append(line_of(model, case, case.wants))
        given += struct.pack('>6I', len(case.plan), case.start, case.step, case.turn, case.seed, len(case.acts)) + case.plan
        given += b''.join(struct.pack('>9I', *numbers) for numbers in case.acts)
    return cases, lines, given, ''.join(line + '\n' for line in lines).encode()


# --- mutants ---------------------------------------------------------------

EQUIVALENT = {
    'nothing': 'The model that the others bend, as it is.',
    'limit of load 0 by the modulator': 'Load 1 has the limit 1, as load 0 has.',
}


class Total(receives.Total, Filling):
    """The model that is bent.  Whatever the bend, it answers, as a program does: a bit past the end reads 0, one that has no
    place is not written, a load past the profile is 0, and cells that are not there are not written."""

    def bit(self, stream, i):
        return Filling.bit(self, stream, i) if i < 8 * len(stream) else 0

    def put_bit(self, stream, i, bit):
        if i < 8 * len(stream):
            stream[i // 8] = stream[i // 8] & ~(1 << i % 8) | bit << i % 8

    def cell_loads(self, at, profile):
        return [self.load_at(at, profile, p) for p in range(at.n)]

    def load_at(self, at, profile, p):
        return self.loaded(profile, at.carriers[p])

    def loaded(self, profile, k):
        return profile[k] if k < len(profile) else 0

    def fill_symbol(self, plan, profile, phase, stream, start, data):
        size = len(data)
        answer = Filling.fill_symbol(self, plan, profile, phase, stream, start, data)
        data[size:] = []
        data += [0] * (size - len(data))
        return answer

    def limit(self, load):
        return Filling.limit(self, min(load, 16))

    def ground_19(self, at, given):
        if given.data is not None:
            loads = self.data_loads(at, given.profile, given.phase)
            for i, (cell, load) in enumerate(zip(given.data, loads)):
                if cell > self.limit(load):
                    return i
        return None

    def ground_20(self, at, given):
        if given.arriving is None:
            return None
        return Filling.ground_20(self, at, given._replace(profile=(given.profile + bytes(CELLS))[:CELLS]))


def bent(**methods):
    return type('Bent', (Total,), methods)()


def load_mutants():
    for load in BAD_LOADS:
        yield 'load %d listed' % load, bent(loads=(*LISTED, load))
    for load in LISTED:
        yield 'load %d not listed' % load, bent(loads=tuple(x for x in LISTED if x != load))
        for other in (-1, 1):
            yield 'limit of load %d %+d' % (load, other), bent(
                limit=lambda self, x, load=load, other=other: Total.limit(self, x) + (other if x == load else 0))
    yield 'load by its low four bits', bent(is_listed=lambda self, load: load % 16 in LISTED)
    yield 'limit of load 0 0', bent(limit=lambda self, load: 2 ** min(load, 16) - 1)
    yield 'limit of load 0 16383', bent(limit=lambda self, load: 16383 if load == 0 else Total.limit(self, load))
    yield 'limit of load 0 by the modulator', bent(limit=lambda self, load: 2 ** max(min(load, 16), 1) - 1)
    yield 'limit 16383', bent(limit=lambda self, load: 16383)
    yield 'limit 2 to the load', bent(limit=lambda self, load: Total.limit(self, load) + 1)

    def limit_in(ground, change):
        """Another limit in one ground alone."""
        name = 'ground_%d' % ground

        def tried(self, at, given):
            self.limit = lambda load: change(Filling.limit(self, load))
            place = getattr(Total, name)(self, at, given)
            del self.limit
            return place
        return bent(**{name: tried})
    for ground in (19, 20):
        yield 'limit of %d 16383' % ground, limit_in(ground, lambda most: 16383)
        yield 'limit of %d one more' % ground, limit_in(ground, lambda most: most + 1)
        yield 'limit of %d one less' % ground, limit_in(ground, lambda most: most - 1)

    places = {
        'the rank': lambda at, p: at.ranks[p], 'the cell': lambda at, p: p,
        'the subcarrier of the cell as a rank': lambda at, p: at.subcarriers[p],
        'the subcarrier above': lambda at, p: at.carriers[p] + 1, 'the subcarrier below': lambda at, p: at.carriers[p] - 1,
        'the next cell': lambda at, p: at.carriers[(p + 1) % at.n], 'subcarrier 0': lambda at, p: 0}
    for name, place in places.items():
        yield 'load of ' + name, bent(load_at=lambda self, at, profile, p, place=place: self.loaded(profile, place(at, p)))
    phases = {'the next phase': lambda self, at, j: self.placeholders(at, (j + 1) % 128),
              'no delay': lambda self, at, j: [self.on_grid(at.map, k, j) for k in at.carriers],
              'phase 0': lambda self, at, j: self.placeholders(at, 0)}
    for name, held in phases.items():
        yield 'loads with the placeholders of ' + name, bent(
            data_loads=lambda self, at, profile, phase, held=held:
            [load for load, placeholder in zip(self.cell_loads(at, profile), held(self, at, phase)) if not placeholder]
            + [0] * at.n)
    yield 'loads of placeholders too', bent(data_loads=lambda self, at, profile, phase: self.cell_loads(at, profile))
    yield 'loads falling', bent(data_loads=lambda self, *given: Total.data_loads(self, *given)[::-1])


def bit_mutants():
    def top(self, i):
        return i // 8 * 8 + 7 - i % 8
    yield 'bits from the top of the byte, fill', bent(bit=lambda self, stream, i: Total.bit(self, stream, top(self, i)))
    yield 'bits from the top of the byte, way back', bent(
        put_bit=lambda self, stream, i, bit: Total.put_bit(self, stream, top(self, i), bit))
    yield 'bits from the top of the cell, fill', bent(cell_of=lambda self, bits: Total.cell_of(self, bits[::-1]))
    yield 'bits from the top of the cell, way back', bent(bits_of=lambda self, cell, load: Total.bits_of(self, cell, load)[::-1])
    yield 'bits from the top of the cell, both', bent(
        cell_of=lambda self, bits: Total.cell_of(self, bits[::-1]),
        bits_of=lambda self, cell, load: Total.bits_of(self, cell, load)[::-1])

    def filled(change_start, taken):
        """Filling from another start, each cell so many bits on."""
        def fill(self, loads, stream, start):
            cells, start = [], change_start(start)
            for load in loads:
                cells.append(self.cell_of([self.bit(stream, start + i) for i in range(load)]))
                start += taken(load)
            return cells
        return bent(filled=fill)

    def unfilled(change_start, taken):
        def unfill(self, loads, cells, stream, start):
            start = change_start(start)
            for load, cell in zip(loads, cells):
                for i, bit in enumerate(self.bits_of(cell, load)):
                    self.put_bit(stream, start + i, bit)
                start += taken(load)
        return bent(unfill=unfill)
    starts = {'not used': lambda start: 0, 'one on': lambda start: start + 1, 'at its byte': lambda start: start // 8 * 8,
              'at its bit': lambda start: start % 8, 'in bytes': lambda start: 8 * start, 'by its low byte': lambda start: start % 256}
    taken = {'one bit on': lambda load: load + 1, 'one bit back': lambda load: load - 1 if load else 0, '14 bits on': lambda load: 14,
             'one bit on for load 0': lambda load: load or 1, 'where it began': lambda load: 0,
             'at the next byte': lambda load: (load + 7) // 8 * 8}
    for way, made in (('fill', filled), ('way back', unfilled)):
        for name, other in starts.items():
            yield '%s: start %s' % (way, name), made(other, lambda load: load)
        for name, other in taken.items():
            yield '%s: next cell %s' % (way, name), made(lambda start: start, other)
    yield 'load 0 filled with 1', bent(filled=lambda self, loads, *given: [
        cell if load else 1 for cell, load in zip(Total.filled(self, loads, *given), loads)])
    yield 'load 0 not filled', bent(fill_symbol=not_filled)
    yield 'load 0 gives a bit back', bent(bits_of=lambda self, cell, load: Total.bits_of(self, cell, load or 1))

    def after(change):
        """Another stream after the way back: the old one, the start and the end."""
        def unfill(self, loads, cells, stream, start):
            old = bytes(stream)
            Total.unfill(self, loads, cells, stream, start)
            change(self, old, stream, start, start + sum(loads))
        return bent(unfill=unfill)

    def put_all(self, stream, bits, value):
        for i in bits:
            self.put_bit(stream, i, value)
    ends = {
        'the bit before the start cleared': lambda self, old, s, a, b: put_all(self, s, range(max(a - 1, 0), a), 0),
        'the bit before the start set': lambda self, old, s, a, b: put_all(self, s, range(max(a - 1, 0), a), 1),
        'the bit behind the end cleared': lambda self, old, s, a, b: put_all(self, s, [b], 0),
        'the bit behind the end set': lambda self, old, s, a, b: put_all(self, s, [b], 1),
        'the first byte cleared before the start': lambda self, old, s, a, b: put_all(self, s, range(a // 8 * 8, a), 0),
        'the last byte cleared behind the end': lambda self, old, s, a, b: put_all(self, s, range(b, -(-b // 8) * 8), 0),
        'the first bit not written': lambda self, old, s, a, b: put_all(self, s, [a], self.bit(old, a)),
        'the last bit not written': lambda self, old, s, a, b: put_all(self, s, [b - 1] if b else [], self.bit(old, b - 1) if b else 0),
        'the last byte not written': lambda self, old, s, a, b: s.__setitem__(slice(b // 8, b // 8 + 1), old[b // 8:b // 8 + 1]),
        'the rest of the stream cleared': lambda self, old, s, a, b: put_all(self, s, range(b, 8 * len(s)), 0),
        'bits only set': lambda self, old, s, a, b: s.__setitem__(slice(None), bytes(x | y for x, y in zip(old, s))),
        'bits only cleared': lambda self, old, s, a, b: s.__setitem__(slice(None), bytes(x & y for x, y in zip(old, s))),
        'nothing written': lambda self, old, s, a, b: s.__setitem__(slice(None), old)}
    for name, other in ends.items():
        yield 'way back: ' + name, after(other)
    for name, method in (('fill', 'fill_symbol'), ('way back', 'unfill_symbol')):
        for what, other in (('cells', lambda self, given, bits: len(given[-1 if name == 'fill' else 3])),
                            ('the next start', lambda self, given, bits: given[4] + bits),
                            ('one bit more', lambda self, given, bits: bits + 1)):
            def counted(self, *given, method=method, other=other):
                answer = getattr(Total, method)(self, *given)
                return answer if answer[0] == 'refused' else ('bits', other(self, given, answer[1]))
            yield '%s: answers %s' % (name, what), bent(**{method: counted})


def not_filled(self, plan, profile, phase, stream, start, data):
    """Leaves cells with load 0 as they are."""
    was = list(data)
    answer = Total.fill_symbol(self, plan, profile, phase, stream, start, data)
    if answer[0] != 'refused':
        loads = self.data_loads(self.layout(plan), profile, phase)
        data[:] = [cell if load else old for cell, old, load in zip(data, was, loads)]
    return answer


def ground_mutants():
    orders = {'step_order': (25, 16, 17, 18, 19, 20), 'fill_order': (25, 16, 18, 26), 'unfill_order': (25, 16, 18, 26, 19)}
    for name, order in orders.items():
        for i in range(len(order) - 1):
            other = (*order[:i], order[i + 1], order[i], *order[i + 2:])
            if {order[i], order[i + 1]} != {19, 20}:        # no entry tries both
                yield '%s: %d before %d' % (name, order[i + 1], order[i]), bent(**{name: other})
        for ground in order:
            yield '%s: %d not tried' % (name, ground), bent(**{name: tuple(x for x in order if x != ground)})
    yield 'fill tries 19', bent(fill_order=(25, 16, 18, 26, 19))
    yield 'fill tries 17', bent(refusal=numbered(18, 17))
    yield '26 as 17', bent(refusal=numbered(26, 17))
    yield '25 as 17', bent(refusal=numbered(25, 17))
    yield 'unfill: 19 before all', bent(unfill_order=(19, 25, 16, 18, 26), data_loads=any_phase)

    def early(self, plan, given, order=None):
        """25 before the plan."""
        if given.profile is not None:
            place = Total.ground_25(self, None, given)
            if place is not None:
                return ('refused', 25, place)
        return Total.refusal(self, plan, given, order)
    yield '25 before the plan', bent(refusal=early)
    yield '25 tried of a flush', bent(step=lambda self, plan, phase, store, data, symbol, profile=b'': (
        ('refused', 25, 0, phase) if data is None else Total.step(self, plan, phase, store, data, symbol, profile)))
    for ground in (18, 19, 20, 25, 26):
        name = 'ground_%d' % ground
        yield 'place of %d one higher' % ground, bent(**{
            name: lambda self, at, given, name=name: None if getattr(Total, name)(self, at, given) is None
            else getattr(Total, name)(self, at, given) + 1})

    def profile(test):
        """25 by another test of the profile."""
        return bent(ground_25=lambda self, at, given: None if given.profile is None else test(self, at, given.profile))

    def lowest(self, profile, tried):
        return next((k for k in tried if k < len(profile) and profile[k] not in LISTED), None)
    every = range(PROFILE)
    yield '25: length not tried', profile(lambda self, at, w: lowest(self, w, range(4096)))
    yield '25: longer profiles good', profile(lambda self, at, w: 0 if len(w) < 4096 else lowest(self, w, range(4096)))
    yield '25: shorter profiles good', profile(lambda self, at, w: 0 if len(w) > 4096 else lowest(self, w, every))
    yield '25: length after the loads', profile(
        lambda self, at, w: lowest(self, w, every) if lowest(self, w, every) is not None else 0 if len(w) != 4096 else None)
    yield '25: place of the length', profile(lambda self, at, w: len(w) if len(w) != 4096 else lowest(self, w, every))
    yield '25: place is the load', profile(
        lambda self, at, w: 0 if len(w) != 4096 else None if lowest(self, w, every) is None else w[lowest(self, w, every)])
    yield '25: place 0', profile(lambda self, at, w: 0 if len(w) != 4096 or lowest(self, w, every) is not None else None)
    parts = {'active': lambda at, k: not at.map.excluded[k], 'with a rank': lambda at, k: k in at.ranked,
             'excluded': lambda at, k: at.map.excluded[k], 'but 0': lambda at, k: k > 0, 'but 4095': lambda at, k: k < 4095,
             'but the PLC': lambda at, k: not at.map.l <= k < at.map.l + 8,
             'but continuous pilots': lambda at, k: k in at.ranked or at.map.excluded[k] or at.map.l <= k < at.map.l + 8}
    for name, tried in parts.items():
        yield '25: only subcarriers ' + name, profile(
            lambda self, at, w, tried=tried: 0 if len(w) != 4096 else lowest(self, w, [k for k in range(4096) if tried(at, k)]))

    def remaining(test):
        """26 by another test: bytes, the start, what is needed."""
        def ground_26(self, at, given):
            need = sum(self.data_loads(at, given.profile, given.phase))
            return 0 if test(len(given.stream), given.start, need) else None
        return bent(ground_26=ground_26)
    tests = {
        'exactly enough is too few': lambda n, a, need: max(8 * n - a, 0) <= need,
        'one bit too few is enough': lambda n, a, need: max(8 * n - a, 0) + 1 < need,
        'in bytes': lambda n, a, need: max(n - a // 8, 0) < -(-need // 8),
        'the start not counted': lambda n, a, need: 8 * n < need,
        'the start cut to 32 bits': lambda n, a, need: max(8 * n - a % 2 ** 32, 0) < need,
        'the end cut to 64 bits': lambda n, a, need: (a + need) % 2 ** 64 > 8 * n,
        'a start past the end refused': lambda n, a, need: a > 8 * n or max(8 * n - a, 0) < need,
        'a start at the end refused': lambda n, a, need: a >= 8 * n or max(8 * n - a, 0) < need,
        'a start past the end good': lambda n, a, need: a <= 8 * n and 8 * n - a < need,
        'no byte refused': lambda n, a, need: n == 0 or max(8 * n - a, 0) < need,
        'the stream a cell buffer': lambda n, a, need: max(8 * (n // 2 * 2) - a, 0) < need}
    for name, test in tests.items():
        yield '26: ' + name, remaining(test)
    yield '26: 14 bits for each cell', bent(ground_26=lambda self, at, g: 0 if max(
        8 * len(g.stream) - g.start, 0) < 14 * self.count(at, g.phase) else None)
    yield '26: loads of N_I cells', bent(ground_26=lambda self, at, g: 0 if max(
        8 * len(g.stream) - g.start, 0) < sum(self.cell_loads(at, g.profile)) else None)

    def count(test):
        return bent(ground_18=lambda self, at, g: None if g.data is None else 0 if test(len(g.data), self.count(at, g.phase)) else None)
    yield '18: more cells good', count(lambda given, n: given < n)
    yield '18: fewer cells good', count(lambda given, n: given > n)

    def cells(place):
        """19 with another place: what is given, and the positions over the limit."""
        def ground_19(self, at, given):
            if given.data is None:
                return None
            over = [i for i, (cell, load) in enumerate(zip(given.data, self.data_loads(at, given.profile, given.phase)))
                    if cell > self.limit(load)]
            return place(self, at, given, over) if over else None
        return bent(ground_19=ground_19)
    yield '19: filler good in the way back', cells(
        lambda self, at, g, over: next((i for i in over if g.stream is None or g.data[i] != 0x8001), None))
    yield '19: not tried of load 0', cells(lambda self, at, g, over: next(
        (i for i in over if self.data_loads(at, g.profile, g.phase)[i]), None))
    yield '19: place is the subcarrier', cells(lambda self, at, g, over: at.carriers[
        [p for p, held in enumerate(self.placeholders(at, g.phase)) if not held][over[0]]])
    yield '19: the last cell not tried', cells(lambda self, at, g, over: next((i for i in over if i + 1 < len(g.data)), None))

    def by_rank(self, at, given):
        """20 with the load of the rank."""
        if given.arriving is None:
            return None
        return Total.ground_20(self, at, given._replace(profile=bytes(
            given.profile[at.subcarriers.index(k)] if k in at.ranked else given.profile[k] for k in range(4096))))
    yield '20: load of the rank', bent(ground_20=by_rank)
    yield '20: load of the subcarrier above', bent(ground_20=lambda self, at, given: None if given.arriving is None else Total.ground_20(
        self, at, given._replace(profile=given.profile[1:] + given.profile[:1])))
    yield '20: filler by the limit', bent(is_data=lambda self, cell, limit: cell <= limit)


def numbered(old, new):
    """A refusal by another number."""
    def refusal(self, plan, given, order=None):
        answer = Total.refusal(self, plan, given, order)
        return (answer[0], new, answer[2]) if answer and answer[1] == old and (given.stream is not None or old == 25) else answer
    return refusal


def any_phase(self, at, profile, phase):
    """The loads at a phase that may be out of its range."""
    return Total.data_loads(self, at, profile, phase % 128)


def writing_mutants():
    def fill(self, plan, profile, phase, stream, start, data):
        answer = Total.fill_symbol(self, plan, profile, phase, stream, start, data)
        if answer[0] == 'refused' and data:
            data[0] = 0
        return answer
    yield 'a refused filling writes a cell', bent(fill_symbol=fill)

    def unfill(self, plan, profile, phase, data, start, stream):
        answer = Total.unfill_symbol(self, plan, profile, phase, data, start, stream)
        if answer[:2] == ('refused', 19):
            loads = self.data_loads(self.layout(plan), profile, phase)[:answer[2]]
            self.unfill(loads, data, stream, start)
        return answer
    yield 'a way back refused by 19 writes what comes before', bent(unfill_symbol=unfill)

    def first(self, plan, profile, phase, data, start, stream):
        answer = Total.unfill_symbol(self, plan, profile, phase, data, start, stream)
        if answer[0] == 'refused' and stream:
            stream[0] ^= 1
        return answer
    yield 'a refused way back writes a bit', bent(unfill_symbol=first)
    yield 'fill writes the stream from 1', bent(fill_symbol=lambda self, *given: rotated(self, *given))

    def mended(self, plan, phase, heard, store, symbol, buffer, profile):
        answer = Total.receive(self, plan, phase, heard, store, symbol, buffer, profile)
        if answer[0] == 'data':
            buffer[:answer[1]] = [min(cell, 16383) for cell in buffer[:answer[1]]]
        return answer
    yield 'filler handed out as data', bent(receive=mended)


def rotated(self, plan, profile, phase, stream, start, data):
    answer = Total.fill_symbol(self, plan, profile, phase, stream, start, data)
    if answer[0] != 'refused':
        data[:] = data[-1:] + data[:-1]
    return answer


def all_mutants():
    yield 'nothing', bent()
    for mutants in (load_mutants, bit_mutants, ground_mutants, writing_mutants):
        yield from mutants()


def try_mutants(cases, lines):
    def change_of(name, model):
        return next((case.name for case, want in zip(cases, lines) if line_of(model, case) != want), None)
    return stored.try_mutants(all_mutants(), change_of, EQUIVALENT, len(cases))


# --- the run ---------------------------------------------------------------

def main():
    loads.check_facts()
    cases, lines, given, wanted = make()
    print('%d cases, %d acts, %d bytes' % (len(cases), sum(len(case.acts) for case in cases), len(given)))
    if '--lines' in sys.argv[1:]:
        for case, line in zip(cases, lines):
            print('%-40s %3d acts: %s' % (case.name, len(case.acts), line))
        return
    stored.run('fillcases', given, wanted, lambda: try_mutants(cases, lines))


if __name__ == '__main__':
    main()
