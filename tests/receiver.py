#!/usr/bin/env python3
"""A second model of the receiver, written from the scope paper and requests 03 and 07 alone.

It knows the fresh start and one receive step, with grounds 25, 16, 17 and 20 after
the plan's own.  The interleavers, the placeholders and N_D are those of the
emitter's model, on which it stands.  Like that model it is kept plain.

    python3 tests/receiver.py

holds the model against what the paper claims of a receiver's run that follows an
emitter's: the first M - 1 symbols warm, step t + M - 1 hands out the data of input t,
and the next symbol is never refused.
"""

import sys

sys.dont_write_bytecode = True

import plans
from emitter import FULL, Emitter, Given, emitter_length


class Receiver(Emitter):
    step_order = (25, 16, 17, 18, 19, 20)

    # --- the arriving symbol -----------------------------------------------

    def mark_at(self, at, k, phase):
        """The mark of the role of subcarrier k, None for a data role."""
        if k not in at.ranked:
            return at.marks[k]
        return self.limits.scattered_mark if self.on_grid(at.map, k, phase) else None

    def marks_at(self, at, phase):
        if phase not in at.marks_at:
            at.marks_at[phase] = [self.mark_at(at, k, phase) for k in range(len(at.marks))]
        return at.marks_at[phase]

    def is_data(self, cell, limit):
        """Is it data within the limit of the subcarrier's load, or filler?"""
        return cell <= limit or cell == self.limits.filler_mark

    def arriving_cells(self, at, symbol):
        """The N_I arriving cells in cell order, by p."""
        return [symbol[k] for k in at.carriers]

    # --- the data ----------------------------------------------------------

    def is_warming(self, at, heard):
        return heard < at.m - 1

    def receiver_places(self, at, p):
        """How many places cell p has in the store: so many symbols it waits for the others of
        its input symbol."""
        return at.m - 1 - self.delay(at, p)

    def input_phase(self, at, phase):
        """The phase of the input symbol that is handed out."""
        return (phase - at.m + 1) % self.limits.phases

    def handed(self, at, phase, cells):
        """The data cells (or filler) among the cells of the input symbol, in rising p."""
        held = self.placeholders(at, self.input_phase(at, phase))
        return [cell for cell, placeholder in zip(cells, held) if not placeholder]

    def hand_out(self, buffer, data):
        """Writes the data buffer."""
        buffer[:len(data)] = data

    def next_heard(self, at, heard):
        return heard + 1 if self.is_warming(at, heard) else heard

    # --- grounds -----------------------------------------------------------
    # Each answers its place, or None if it does not hold.

    def ground_16(self, at, given):
        if given.heard is not None and given.heard >= at.m:
            return 0
        return Emitter.ground_16(self, at, given)

    def ground_17(self, at, given):
        if given.arriving is not None and len(given.arriving) != self.limits.cells:
            return 0
        if given.buffer is not None and not self.is_warming(at, given.heard):
            if len(given.buffer) < self.count(at, self.input_phase(at, given.phase)):
                return 0
        return Emitter.ground_17(self, at, given)

    def ground_20(self, at, given):
        if given.arriving is not None:
            marks = self.marks_at(at, given.phase)
            limits = {load: self.limit(load) for load in set(given.profile)}
            for k, (cell, mark, load) in enumerate(zip(given.arriving, marks, given.profile)):
                if cell != mark and (mark is not None or not self.is_data(cell, limits[load])):
                    return k
        return None

    # --- the entries -------------------------------------------------------

    def listen(self, plan, phase, store):
        """A fresh receiver, the store all filler: ('fresh', phase, heard); or
        ('refused', number, place)."""
        refused = self.refusal(plan, Given(phase, store, end='receiver'))
        if refused:
            return refused
        length = self.places(self.layout(plan), 'receiver').length
        self.fill(store, [self.limits.filler_mark] * length)
        return ('fresh', phase, 0)

    def receive(self, plan, phase, heard, store, symbol, buffer, profile=FULL):
        """One step: ('warming', state) or ('data', count, state) with the next phase and
        heard, store and buffer written; or ('refused', number, place, state) with the
        state as given and nothing changed."""
        refused = self.refusal(plan, Given(phase, store, heard=heard, arriving=symbol,
                                           buffer=buffer, end='receiver', profile=profile))
        if refused:
            return (*refused, phase, heard)
        at = self.layout(plan)
        cells = self.move(self.places(at, 'receiver'), store, self.arriving_cells(at, symbol))
        after = (self.next_phase(phase), self.next_heard(at, heard))
        if self.is_warming(at, heard):
            return ('warming', *after)
        data = self.handed(at, phase, cells)
        self.hand_out(buffer, data)
        return ('data', len(data), *after)


# --- what the paper says ---------------------------------------------------

def receiver_length(n, m):
    """The length of a receiver's store: both stores have M - 1 places for each cell."""
    return n * (m - 1) - emitter_length(n, m)


def check_lengths():
    """The closed form, and the length that is enough for every plan."""
    receiver = Receiver()
    for plan in (plans.PLAN_A, plans.near_a(M=1), plans.near_a(M=3), plans.LARGEST):
        at = receiver.layout(plan)
        assert receiver.places(at, 'receiver').length == receiver_length(at.n, at.m)
    assert receiver_length(425, 4) == 639
    longest = max(receiver_length(n, m) for n in range(3746) for m in range(1, 33))
    assert longest == receiver_length(3745, 32) == 58063


def check_run(plan, start, steps):
    """A receiver's run that follows an emitter's, with refused steps between.  The places of cell p
    hold what it was in the last symbols, oldest first, those before the start all filler."""
    emitter, receiver = Emitter(), Receiver()
    at = receiver.layout(plan)
    sending = [7] * (emitter_length(at.n, at.m) + 2)
    listening = [7] * (receiver_length(at.n, at.m) + 2)
    _, sender = emitter.fresh(plan, start, sending)
    assert receiver.listen(plan, start, listening) == ('fresh', start, 0)
    assert listening == [0x8001] * (len(listening) - 2) + [7, 7]
    state = (start, 0)
    inputs, arrived = [], [[0x8001] * at.n] * (at.m - 1)
    for t in range(steps):
        count = emitter.data_count(plan, sender)
        data = None if t % 5 == 3 else [(1000 * t + i) % 16384 for i in range(count)]
        inputs.append([0x8001] * count if data is None else data)
        symbol, buffer = [7] * 4096, [7] * 4096
        _, sender = emitter.step(plan, sender, sending, data, symbol)
        if t % 3 == 1:
            bent = [*symbol[:972], symbol[972] ^ 1, *symbol[973:]]
            answer = receiver.receive(plan, *state, listening, bent, buffer)
            assert answer == ('refused', 20, 972, *state)
        answer = receiver.receive(plan, *state, listening, symbol, buffer)
        state = answer[-2:]
        assert state == ((start + t + 1) % 128, min(t + 1, at.m - 1))
        if t < at.m - 1:
            assert answer[0] == 'warming' and buffer == [7] * 4096
        else:
            want = inputs[t - at.m + 1]
            assert answer[:2] == ('data', len(want))
            assert buffer == want + [7] * (4096 - len(want))
        arrived.append([symbol[k] for k in at.carriers])
        kept = [cells[p] for p in range(at.n)
                for cells in arrived[len(arrived) - at.m + 1 + p % at.m:]]
        assert listening == kept + [7, 7]


def check_grounds():
    """Grounds 25, 16, 17 and 20 in order, at their limits, and nothing changed."""
    emitter, receiver = Emitter(), Receiver()
    a = plans.PLAN_A
    need = 639
    good = [9] * 4096
    store = [9] * need
    emitter.fresh(a, 5, store)
    emitter.step(a, 5, store, None, good)
    count = emitter.data_count(a, 2)    # the symbol handed out is three phases back

    def step(want, phase=5, heard=3, size=need, symbol=good, buffer=4096, plan=a, profile=FULL):
        lent, given, into = [9] * size, list(symbol), [9] * buffer
        answer = receiver.receive(plan, phase, heard, lent, given, into, profile)
        assert given == symbol
        if want in ('warming', 'data'):
            assert answer[0] == want, answer
        else:
            assert answer == ('refused', *want, phase, heard), answer
            assert lent == [9] * size
        assert want == 'data' or into == [9] * buffer

    def with_cell(k, cell, symbol=good):
        return [*symbol[:k], cell, *symbol[k + 1:]]

    step('data')
    step('data', size=need + 5, buffer=count)
    step('warming', heard=2, buffer=0)
    step('warming', heard=0)
    wrong = with_cell(0, 0)
    step((1, 0), plan=b'', phase=128, heard=4, size=0, symbol=[], buffer=0)
    for out in ({'phase': 128}, {'heard': 4}):
        step((16, 0), **out)
        step((16, 0), **out, symbol=wrong)
        step((16, 0), **out, size=0, symbol=wrong[1:], buffer=0)
    for short in ({'size': need - 1}, {'buffer': count - 1}):
        step((17, 0), **short)
        step((17, 0), **short, symbol=wrong)
    step((17, 0), symbol=good[1:])
    step((17, 0), symbol=wrong + [0x8002], heard=0)
    # At phase 5, 857 is scattered and 853 is data; 925 is continuous, 972 PLC.
    for k, fits in ((0, [0x8002]), (857, [0x8000]), (853, [0x8001, 0, 16383]),
                    (925, [0x8003]), (972, [0x8004]), (4095, [0x8002])):
        for cell in (0, 16383, 16384, 0x8000, 0x8001, 0x8002, 0x8003, 0x8004, 0x8005, 65535):
            step('data' if cell in fits else (20, k), symbol=with_cell(k, cell))
            step('warming' if cell in fits else (20, k), symbol=with_cell(k, cell), heard=1)
    step((20, 853), symbol=with_cell(853, 16384, with_cell(925, 0)))
    bad = FULL[:4095] + bytes([15])
    step((1, 0), plan=b'', profile=b'')
    for profile, place in ((b'', 0), (FULL[1:], 0), (FULL + FULL[:1], 0), (bad, 4095)):
        step((25, place), profile=profile)
        step((25, place), profile=profile, phase=128, heard=4, size=0, symbol=wrong[1:], buffer=0)
    for load in receiver.loads:
        profile, most = FULL[:853] + bytes([load]) + FULL[854:], receiver.limit(load)
        for cell in (0, 1, most, 0x8001):
            step('data', profile=profile, symbol=with_cell(853, cell))
        step((20, 853), profile=profile, symbol=with_cell(853, most + 1))
        step((20, 853), profile=profile, symbol=with_cell(853, most + 1, with_cell(854, 16384)))
    assert receiver.listen(a, 128, []) == ('refused', 16, 0)
    assert receiver.listen(a, 127, [9] * (need - 1)) == ('refused', 17, 0)
    assert receiver.listen(a, 127, [9] * need) == ('fresh', 127, 0)
    assert receiver.listen(plans.near_a(M=1), 127, []) == ('fresh', 127, 0)    # no cell waits
    assert receiver.listen(b'', 128, []) == ('refused', 1, 0)


def check_facts():
    check_lengths()
    check_run(plans.PLAN_A, 0, 9)
    check_run(plans.near_a(M=3), 125, 9)
    check_run(plans.near_a(M=1), 127, 3)
    check_grounds()


def check_all():
    """More than is checked before every run of the tests: all phases of Plan A, and
    every depth."""
    check_facts()
    for start in range(128):
        check_run(plans.PLAN_A, start, 11)
    for depth in range(1, 33):
        check_run(plans.near_a(M=depth), 37 * depth % 128, 2 * depth + 3)
    check_run(plans.near_a([(850, 853)], [900], M=31), 100, 64)
    check_run(plans.PLAN_A, 64, 140)


if __name__ == '__main__':
    check_all()
    print('the model agrees with the paper')
