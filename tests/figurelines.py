#!/usr/bin/env python3
"""The line that figurecheck prints for a plan, worked out with the second models.

    python3 tests/figurelines.py                      writes crates/figurecheck/stdin, which is
                                                      Plan A, and stdout
    python3 tests/figurelines.py --check              compares them, exits 1 on a difference
    python3 tests/figurelines.py PROGRAM [FILE ...]   runs figurecheck on the files, or on all of
                                                      plans/, and compares the lines; exits 1 on
                                                      a difference

What figurecheck does with an accepted plan: for every starting phase s, a fresh first emitter
(tests/emitter.py) and a fresh second (tests/figure.py), then symbols t = 0 to 2 M + 2.  With
kind = (s + t) mod 6, j the phase and nd = N_D at j, each symbol has two steps, given to both:

1. A wrong one: 0 emit nd - 1 cells, 1 emit with the cell at nd // 2 put to 16384, 2 emit with
   phase j + 128, 3 flush with phase 128, 4 flush into 4,095 cells, 5 emit with one cell of the
   store too few, not tried if M is 1, where none is needed.
2. The right one: a flush if t mod 3 is 2, else an emit.

The data is that of linkcheck (tests/links.py).  Answers and symbols of both are compared after
every step.  Plan A is run whole with the models, of other plans the line is counted; second
emitters with a bent commutator are noticed.  docs/FIGURECHECK.md has Plan A's line.
"""

import sys
from pathlib import Path

sys.dont_write_bytecode = True

import figure
import plans
import stored
from emitter import Emitter
from figure import Drawing, Figure
from links import PLANS, compare, data_of, is_flush, symbols_of
from stored import ROOT

RIGHT = 6                                       # the kind of the right steps
SENT = 300
CODES = (118, 119, 116, 116, 117, 117, SENT)    # by kind
SECOND_CODES = (118, 119, 116, 116, 117, 127, SENT)
BEFORE = 43981


# --- the line --------------------------------------------------------------

def is_tried(m, kind):
    return kind != 5 or m > 1


def line_of(at, phases, symbols, refused):
    drawing = Drawing(at.n, at.m)
    return ('same %d phases %d symbols %d refused %d cells a symbol %d lines %d turns a symbol %d cells in lines'
            % (phases, symbols, refused, at.n, at.m, drawing.j, drawing.length()))


def line(plan, starts=range(128)):
    """The line that figurecheck prints, without its newline, if it tries these starting phases."""
    model = Emitter()
    at = model.layout(plan)
    if isinstance(at, tuple):
        return model.line(plan)
    symbols = range(symbols_of(at.m))
    return line_of(at, len(starts), len(starts) * len(symbols),
                   sum(is_tried(at.m, (s + t) % 6) for s in starts for t in symbols))


# --- the steps, with the models --------------------------------------------

def parts(answer):
    """The code, the place and the phase of an answer."""
    if answer[0] == 'refused':
        return 100 + answer[1], answer[2], (*answer, 0)[3]
    return SENT, 0, answer[1]


def difference(codes, answers, symbols):
    """What is told of answers that should have these codes, and of the symbols; or None."""
    for name, want, answer in zip(('first', 'second'), codes, answers):
        if parts(answer)[0] != want:
            return 'answer %d %s %d' % (want, name, parts(answer)[0])
    for name, one, other in zip(('answer', 'place', 'next'), *map(parts, answers)):
        if name != 'answer' and one != other:
            return '%s %d second %d' % (name, one, other)
    for k, (one, other) in enumerate(zip(*symbols)):
        if one != other:
            return 'subcarrier %d first %d second %d' % (k, one, other)
    return None


def given(kind, t, phase, data):
    """Phase, data and symbol of a step."""
    half = len(data) // 2
    flush = kind in (3, 4) or kind == RIGHT and is_flush(t)
    changed = {0: data[:-1], 1: [*data[:half], 16384, *data[half + 1:]]}
    return ({2: phase + 128, 3: 128}.get(kind, phase), None if flush else changed.get(kind, data),
            [BEFORE] * (4096 - (kind == 4)))


def step(model, plan, store, kind, t, phase, data):
    """The answer and the symbol of a step; kind 5 has a cell of the store too few."""
    phase, data, symbol = given(kind, t, phase, data)
    part = store[:-1] if kind == 5 else store
    return model.step(plan, phase, part, data, symbol), symbol


def run(models, plan, s):
    """The steps from a starting phase: the number of the symbol, the kind, None of the fresh start,
    and what differs, or None."""
    at = models[0].layout(plan)
    stores = [0] * models[0].places(at).length, [0] * Drawing(at.n, at.m).length()
    both = list(zip(models, stores))
    yield 0, None, difference((SENT, SENT), [model.fresh(plan, s, store) for model, store in both], ((), ()))
    for t in range(symbols_of(at.m)):
        phase = (s + t) % 128
        data = data_of(s, t, models[0].count(at, phase))
        for kind in ((s + t) % 6, RIGHT):
            if is_tried(at.m, kind):
                done = [step(model, plan, store, kind, t, phase, data) for model, store in both]
                yield t, kind, difference((CODES[kind], SECOND_CODES[kind]), *zip(*done))


def follow(plan, second, starts):
    """The line, from the steps as the first model and a second one take them."""
    models = Emitter(), second
    symbols = refused = 0
    for s in starts:
        for t, kind, told in run(models, plan, s):
            if told:
                return 'differs phase %d symbol %d %s' % (s, t, told)
            symbols += kind == RIGHT
            refused += kind in range(RIGHT)
    return line_of(models[0].layout(plan), len(starts), symbols, refused)


def check_steps():
    """The steps against the counts, and bent commutators, which are noticed."""
    for plan, starts in ((plans.PLAN_A, range(128)), (plans.near_a(M=1), range(0, 128, 5)),
                         (plans.near_a(M=7), range(125, 128))):
        assert follow(plan, Figure(), starts) == line(plan, starts)
    for name, methods in figure.commutator_bends():
        told = follow(plans.PLAN_A, type('Bent', (Figure,), methods)(), range(3))
        assert told.startswith('differs' if name not in figure.NO_DIFFERENT else 'same'), name


# --- the run ---------------------------------------------------------------

def main():
    arguments = sys.argv[1:]
    if arguments and not arguments[0].startswith('--'):
        files = [Path(name) for name in arguments[1:]] or sorted(PLANS.glob('*.plan'))
        sys.exit(1 if compare(arguments[0], files, line) else 0)
    check_steps()
    plan_a = (PLANS / 'plan-a.plan').read_bytes()
    assert ' %s\n' % line(plan_a) in (ROOT / 'docs/FIGURECHECK.md').read_text()
    print(line(plan_a))
    stored.run('figurecheck', plan_a, (line(plan_a) + '\n').encode())


if __name__ == '__main__':
    main()
