#!/usr/bin/env python3
"""A second model of filling and the way back, written from request 07 alone.

It knows how a data symbol is filled from a bit stream in bytes and how its bits go back
into one, with grounds 25, 16, 18, 26 and on the way back 19 after the plan's own.  Every
bit is moved by itself.  The profile, the load of a cell and its limit are those of the
emitter's model; ground 20, which has the limit too, is in the receiver's.

    python3 tests/loads.py

holds the model against what the request says: the order of the bits, other bits
untouched, load 0, the way back of a filled symbol, streams through an emitter and a
receiver, and that different streams of whole symbols give different symbols sent.
"""

import random
import sys

sys.dont_write_bytecode = True

import plans
from emitter import FULL, Given, emitter_length
from receiver import Receiver, receiver_length

LISTED = Receiver.loads


class Filling(Receiver):
    fill_order = (25, 16, 18, 26)           # the emitter's 17 and 19 do not judge a filling
    unfill_order = (25, 16, 18, 26, 19)

    # --- bits --------------------------------------------------------------

    def bit(self, stream, i):
        """Bit i of a stream: the first bit of a byte is its least significant."""
        return stream[i // 8] // 2 ** (i % 8) % 2

    def put_bit(self, stream, i, bit):
        stream[i // 8] += (bit - self.bit(stream, i)) * 2 ** (i % 8)

    def cell_of(self, bits):
        """The cell of its bits, the first the least significant; of no bits 0."""
        return sum(bit * 2 ** i for i, bit in enumerate(bits))

    def bits_of(self, cell, load):
        """The bits of a cell, so many as its load; of load 0 none, whatever it holds."""
        return [cell // 2 ** i % 2 for i in range(load)]

    # --- the symbol --------------------------------------------------------

    def filled(self, loads, stream, start):
        """The cells of these loads, each from where the last one's bits ended."""
        cells = []
        for load in loads:
            cells.append(self.cell_of([self.bit(stream, start + i) for i in range(load)]))
            start += load
        return cells

    def unfill(self, loads, cells, stream, start):
        """Writes the bits of the cells into the stream from the start on."""
        for load, cell in zip(loads, cells):
            for bit in self.bits_of(cell, load):
                self.put_bit(stream, start, bit)
                start += 1

    def remaining(self, stream, start):
        """How many bits remain: of a start past the end none."""
        return max(8 * len(stream) - start, 0)

    def ground_26(self, at, given):
        loads = self.data_loads(at, given.profile, given.phase)
        return 0 if self.remaining(given.stream, given.start) < sum(loads) else None

    # --- the entries -------------------------------------------------------

    def fill_symbol(self, plan, profile, phase, stream, start, data):
        """Fills a data symbol: ('bits', how many it takes), with data written; or
        ('refused', number, place), with nothing changed."""
        given = Given(phase, data=data, profile=profile, stream=stream, start=start)
        refused = self.refusal(plan, given, self.fill_order)
        if refused:
            return refused
        loads = self.data_loads(self.layout(plan), profile, phase)
        data[:] = self.filled(loads, stream, start)
        return ('bits', sum(loads))

    def unfill_symbol(self, plan, profile, phase, data, start, stream):
        """The way back: ('bits', how many), with the stream written; or a refusal."""
        given = Given(phase, data=data, profile=profile, stream=stream, start=start)
        refused = self.refusal(plan, given, self.unfill_order)
        if refused:
            return refused
        loads = self.data_loads(self.layout(plan), profile, phase)
        self.unfill(loads, data, stream, start)
        return ('bits', sum(loads))


def some_profile(rng, loads=LISTED):
    return bytes(rng.choice(loads) for _ in range(4096))


# --- what the request says -------------------------------------------------

def all_bits(stream):
    """The bits of a stream in their order, by another way than the model's: the binary
    digits of each byte, last one first."""
    return [int(digit) for byte in stream for digit in reversed(format(byte, '08b'))]


def check_bits():
    """First bit least significant in the cell and in the byte."""
    model = Filling()
    assert model.filled([4, 6, 14], bytes([0x21, 0x43, 0x65]), 0) == [1, 0x32 % 64, 0x6543 >> 2 & 16383]
    assert model.filled([8, 0, 8], bytes([0xAB, 0xCD]), 0) == [0xAB, 0, 0xCD]
    assert model.filled([4, 4, 4], bytes([0x21, 0x43]), 4) == [2, 3, 4]
    assert model.filled([14], bytes([0x80, 0, 0x40]), 7) == [1]
    assert model.filled([14], bytes([0x80, 0, 0x10]), 7) == [8193]
    stream = bytearray(b'\xff\x00\xff')
    model.unfill([6, 0, 8], [0b010101, 1, 0], stream, 3)
    assert all_bits(stream) == [1, 1, 1, 1, 0, 1, 0, 1, 0] + [0] * 8 + [1] * 7


def check_symbols(plan, rng):
    """A symbol filled and taken back: the same bits, no other touched, every cell within its
    limit; and of each cell by the position of its bits."""
    model = Filling()
    at = model.layout(plan)
    for profile in (FULL, some_profile(rng), some_profile(rng, (0, 4)), bytes(4096)):
        phase, start = rng.randrange(128), rng.randrange(20)
        loads = model.data_loads(at, profile, phase)
        need = sum(loads)
        stream = rng.randbytes((start + need) // 8 + 2)
        data = [7] * len(loads)
        assert model.fill_symbol(plan, profile, phase, stream, start, data) == ('bits', need)
        bits, position = all_bits(stream), start
        for cell, load in zip(data, loads):
            assert format(cell, '0%db' % load) == ''.join(map(str, reversed(bits[position:position + load]))) or load == 0
            assert cell <= model.limit(load) and (load or cell == 0)
            position += load
        other = bytearray(rng.randbytes(len(stream)))
        was = all_bits(other)
        given = [rng.randrange(2) if load == 0 else cell for cell, load in zip(data, loads)]
        assert model.unfill_symbol(plan, profile, phase, given, start, other) == ('bits', need)
        assert all_bits(other) == was[:start] + bits[start:start + need] + was[start + need:]


def check_grounds():
    """The grounds in order, at their limits, and nothing changed."""
    model, a, phase = Filling(), plans.PLAN_A, 5
    at = model.layout(a)
    rng = random.Random(1)
    profile = some_profile(rng)
    loads = model.data_loads(at, profile, phase)
    need, count = sum(loads), len(loads)
    data, room = [0] * count, -(-need // 8)
    high = [model.limit(load) for load in loads]

    def both(want, plan=a, profile=profile, phase=phase, cells=data, size=room, start=0, back=None):
        stream = rng.randbytes(size)
        lent, into = list(cells), bytearray(stream)
        answer = model.fill_symbol(plan, profile, phase, stream, start, lent)
        assert answer == (('bits', want) if isinstance(want, int) else ('refused', *want)), answer
        assert isinstance(want, int) or lent == cells
        want = back or want
        answer = model.unfill_symbol(plan, profile, phase, list(cells), start, into)
        assert answer == (('bits', want) if isinstance(want, int) else ('refused', *want)), answer
        assert isinstance(want, int) or into == stream

    both(need)
    both(need, cells=high)
    both(need, cells=[cell + 1 for cell in high], back=(19, 0))
    both(need, cells=[0x8001] * count, back=(19, 0))                    # a flush handed out
    for i in (0, count // 2, count - 1):
        both(need, cells=[*data[:i], high[i] + 1, *data[i + 1:]], back=(19, i))
    both((1, 0), plan=b'', profile=b'')
    bad = profile[:9] + b'\5' + profile[10:]
    both((25, 9), profile=bad, phase=128, cells=[], size=0)
    both((25, 0), profile=bad[1:], phase=128)
    both((16, 0), phase=128, cells=[], size=0)
    both((18, 0), cells=data[1:], size=0)
    both((18, 0), cells=data + [99999])
    both((26, 0), cells=[0x8001] * count, size=0)
    both((26, 0), size=(need - 1) // 8)
    spare = 8 * room - need
    both(need, start=spare)
    both((26, 0), start=spare + 1)
    both((26, 0), start=8 * room + 5)
    both((26, 0), start=2 ** 64 - 1)
    for start in (0, 1, 8 * room, 8 * room + 1, 2 ** 64 - 1):
        both(0, profile=bytes(4096), start=start)
        both(0, profile=bytes(4096), start=start, size=0, cells=[1] * count)
        both(0, profile=bytes(4096), start=start, cells=[1] * (count - 1) + [2], back=(19, count - 1))


def stream_run(model, plan, profile, start, inputs, bits, first):
    """Fills the data symbols of a run from a stream, sends and receives them, with flushes until
    all is back, and takes them back into another.  `inputs` says of each step before them whether
    it is data.  Answers the symbols sent and the stream that came back."""
    at = model.layout(plan)
    sending, listening = [0] * emitter_length(at.n, at.m), [0] * receiver_length(at.n, at.m)
    _, sender = model.fresh(plan, start, sending)
    _, *state = model.listen(plan, start, listening)
    back, position, returned, sent = bytearray(len(bits)), first, first, []
    for t, is_data in enumerate([*inputs, *[False] * (at.m - 1)]):
        data = None
        if is_data:
            data = [9] * model.count(at, sender)
            position += model.fill_symbol(plan, profile, sender, bits, position, data)[1]
        symbol, buffer = [0] * 4096, [0] * at.n
        answer = model.step(plan, sender, sending, data, symbol, profile)
        assert answer[0] == 'sent'
        sender = answer[1]
        sent.append(symbol)
        answer = model.receive(plan, *state, listening, symbol, buffer, profile)
        state = answer[-2:]
        handed = t - at.m + 1
        assert answer[0] == ('data' if handed >= 0 else 'warming')
        if handed >= 0:
            phase, lent = (start + handed) % 128, buffer[:answer[1]]
            taken = model.unfill_symbol(plan, profile, phase, lent, returned, back)
            assert taken == (('bits', taken[1]) if inputs[handed] else ('refused', 19, 0))
            returned += taken[1] if inputs[handed] else 0
    assert position == returned
    return sent, back, position


def check_streams():
    """Streams through a link: the bits of whole symbols come back, and streams that differ in one
    bit of them give different symbols sent."""
    rng, model = random.Random(2), Filling()
    for plan, start, first in ((plans.PLAN_A, 126, 0), (plans.near_a(M=3), 125, 3), (plans.near_a(M=1), 60, 7)):
        for profile in (FULL, some_profile(rng), some_profile(rng, (0, 0, 0, 6))):
            inputs = [True, False, True, True]
            bits = rng.randbytes(2400)
            sent, back, end = stream_run(model, plan, profile, start, inputs, bits, first)
            assert all_bits(back)[first:end] == all_bits(bits)[first:end]
            assert not any(all_bits(back)[:first]) and not any(all_bits(back)[end:])
            for i in (first, end - 1, rng.randrange(first, end)):
                other = bytearray(bits)
                other[i // 8] ^= 1 << i % 8
                assert stream_run(model, plan, profile, start, inputs, other, first)[0] != sent


def check_facts():
    rng = random.Random(3)
    check_bits()
    check_symbols(plans.PLAN_A, rng)
    check_symbols(plans.near_a([(850, 853)], [900], M=31), rng)
    check_grounds()
    check_streams()


if __name__ == '__main__':
    check_facts()
    check_symbols(plans.LARGEST, random.Random(4))
    print('the model agrees with the request')
