#!/usr/bin/env python3
"""The line that linkcheck prints for a plan, worked out with the second model.

    python3 tests/links.py                      writes crates/linkcheck/stdin, which is
                                                Plan A, and stdout
    python3 tests/links.py --check              compares them, exits 1 on a difference
    python3 tests/links.py PROGRAM [FILE ...]   runs linkcheck on the files, or on all of
                                                plans/, and compares the lines; exits 1 on
                                                a difference

What linkcheck does with an accepted plan: for every starting phase s, a fresh
emitter and a fresh receiver, then symbols t = 0 to 2 M + 2.  With kind = (s + t) mod 8,
j the phase and nd = N_D at j, each symbol has four steps:

1. A wrong send: 0 emit nd - 1 cells, 1 emit nd + 1 cells, 2 emit with the cell at
   nd // 2 put to 16384, 3 emit with phase j + 128, 4 flush with phase 128, 5 flush into
   4,095 cells, 6 emit with one cell of the store too few, not tried if M is 1, where none
   is needed, 7 emit with cell 0 put to filler.
2. The right send: a flush if t mod 3 is 2, else an emit.
3. A wrong receive: 0 phase j + 128, 1 heard M, 2 phase 128, 3 a symbol of 4,095 cells, 4
   one cell of the store too few, not tried if M is 1, 5 a buffer one cell short, not tried
   while warming, 6 the lowest scattered cell put to 0, not tried if there is none, 7 the
   lowest data cell put to 16384.
4. The right receive: warming for t below M - 1, else the data of input t - M + 1.

Data cell c of input t is ((131 s + t) 4099 mod q + c) 48271 mod q mod 16384, with
q = 2147483647.
"""

import subprocess
import sys
from collections import Counter
from pathlib import Path

sys.dont_write_bytecode = True

import plans
import stored
from receiver import Receiver
from stored import PRIME, ROOT

PLANS = ROOT / 'plans'
COUNTED = ('phases', 'symbols', 'cells', 'flushes', 'refused')
SEND_GROUNDS = (18, 18, 19, 16, 16, 17, 17, 19)         # by kind
RECEIVE_GROUNDS = (16, 16, 16, 17, 17, 17, 20, 20)


# --- the rules -------------------------------------------------------------

def symbols_of(m):
    """How many symbols are sent from each starting phase."""
    return 2 * m + 3


def is_flush(t):
    return t % 3 == 2


def is_send_tried(at, s, t):
    """Is a wrong send tried?"""
    return (s + t) % 8 != 6 or at.m > 1


def is_tried(model, at, s, t):
    """Is a wrong receive tried?"""
    kind = (s + t) % 8
    if kind == 4:
        return at.m > 1
    if kind == 5:
        return t >= at.m - 1
    if kind == 6:
        return bool(model.scattered_of(at.map, (s + t) % 128))
    return True


def data_of(s, t, count):
    seed = (s * 131 + t) * 4099 % PRIME
    return [(seed + c) * 48271 % PRIME % 16384 for c in range(count)]


# --- the line --------------------------------------------------------------

def counts_of(model, at, starts):
    """What is counted from these starting phases if nothing differs."""
    counts = Counter()
    for s in starts:
        counts['phases'] += 1
        for t in range(symbols_of(at.m)):
            counts['symbols'] += 1
            counts['flushes'] += is_flush(t)
            counts['refused'] += is_send_tried(at, s, t) + is_tried(model, at, s, t)
            if t >= at.m - 1:
                counts['cells'] += model.count(at, (s + t - at.m + 1) % 128)
    return counts


def line(plan):
    """The line that linkcheck prints, without its newline."""
    model = Receiver()
    at = model.layout(plan)
    if isinstance(at, tuple):
        return model.line(plan)
    counts = counts_of(model, at, range(128))
    return 'ok ' + ' '.join('%d %s' % (counts[name], name) for name in COUNTED)


# --- the steps, with the model ---------------------------------------------

def wrong_send(model, plan, at, kind, phase, store, data):
    """The answer to a wrong send."""
    nd = len(data)
    changed = {0: data[:-1], 1: data + [0], 2: [*data[:nd // 2], 16384, *data[nd // 2 + 1:]],
               4: None, 5: None, 7: [0x8001, *data[1:]]}
    return model.step(plan, {3: phase + 128, 4: 128}.get(kind, phase),
                      store[:model.places(at).length - (kind == 6)], changed.get(kind, data),
                      [0] * (4096 - (kind == 5)))


def wrong_receive(model, plan, at, kind, state, store, symbol):
    """The answer to a wrong receive."""
    phase, heard = state
    marks = model.marks_at(at, phase)
    symbol = list(symbol)
    if kind > 5:
        mark, cell = ((0x8000, 0), (None, 16384))[kind - 6]
        symbol[marks.index(mark)] = cell
    count = model.count(at, model.input_phase(at, phase))
    return model.receive(plan, {0: phase + 128, 2: 128}.get(kind, phase),
                         at.m if kind == 1 else heard,
                         store[:model.places(at, 'receiver').length - (kind == 4)],
                         symbol[:4096 - (kind == 3)], [0] * (count - (kind == 5)))


def follow(plan, starts):
    """Takes the steps with the model, and counts: the model answers as linkcheck
    expects."""
    model = Receiver()
    at = model.layout(plan)
    counts = Counter()
    for s in starts:
        sending, listening = ([0] * model.places(at, end).length for end in ('emitter', 'receiver'))
        _, sender = model.fresh(plan, s, sending)
        _, *state = model.listen(plan, s, listening)
        inputs = []
        for t in range(symbols_of(at.m)):
            kind = (s + t) % 8
            data = data_of(s, t, model.count(at, sender))
            send_tried = is_send_tried(at, s, t)
            if send_tried:
                answer = wrong_send(model, plan, at, kind, sender, sending, data)
                assert answer[:2] == ('refused', SEND_GROUNDS[kind])
            inputs.append([0x8001] * len(data) if is_flush(t) else data)
            symbol, buffer = [0] * 4096, [43981] * 4096
            _, sender = model.step(plan, sender, sending, None if is_flush(t) else data, symbol)
            tried = is_tried(model, at, s, t)
            if tried:
                answer = wrong_receive(model, plan, at, kind, state, listening, symbol)
                assert answer[:2] == ('refused', RECEIVE_GROUNDS[kind])
            answer = model.receive(plan, *state, listening, symbol, buffer)
            state = answer[-2:]
            want = inputs[t - at.m + 1] if t >= at.m - 1 else []
            assert answer[:-2] == (('data', len(want)) if want else ('warming',))
            assert buffer == want + [43981] * (4096 - len(want))
            counts.update(symbols=1, cells=len(want), flushes=is_flush(t), refused=send_tried + tried)
        counts['phases'] += 1
    return counts


def check_steps():
    """The steps against the counts.  The last plan has no scattered cell at phase 6."""
    for plan, starts in ((plans.PLAN_A, range(128)), (plans.near_a(M=1), range(0, 128, 5)),
                         (plans.near_a(pilots=[858, 986, 1114], M=3), range(12))):
        model = Receiver()
        assert follow(plan, starts) == counts_of(model, model.layout(plan), starts)


# --- the run ---------------------------------------------------------------

def compare(program, files, line_of=line):
    """Runs the program on the files; answers how many lines differ."""
    wrong = 0
    for path in files:
        plan = path.read_bytes()
        want = line_of(plan) + '\n'
        got = subprocess.run([program], input=plan, capture_output=True).stdout.decode()
        wrong += got != want
        print('%s %s: %s' % ('agrees ' if got == want else 'DIFFERS', path.name, got.rstrip()))
        if got != want:
            print('        model: %s' % want.rstrip())
    return wrong


def main():
    arguments = sys.argv[1:]
    if arguments and not arguments[0].startswith('--'):
        files = [Path(name) for name in arguments[1:]] or sorted(PLANS.glob('*.plan'))
        sys.exit(1 if compare(arguments[0], files) else 0)
    check_steps()
    plan_a = (PLANS / 'plan-a.plan').read_bytes()
    print(line(plan_a))
    stored.run('linkcheck', plan_a, (line(plan_a) + '\n').encode())


if __name__ == '__main__':
    main()
