#!/usr/bin/env python3
"""Makes the test data of rolecases from the second model.

    python3 tests/roles.py              writes crates/rolecases/stdin and stdout
    python3 tests/roles.py --check      compares them, exits 1 on a difference
    python3 tests/roles.py --mutants    bends the model in many ways, each of
                                        which must change a line of stdout;
                                        exits 1 if one does not

stdin holds, for each case, the plan's length and the phase as four bytes each,
high byte first, and then the plan; the end of the input ends the list.  The
first line of stdout is the checksum of the predefined pilots of every L from 0
to 65535.  Then each case has a line: of the answers for subcarriers 0 to 4096,
66388 and 4294967295, how many were excluded, PLC, continuous, scattered, data
and refused, and the checksum of all in this order.
"""

import sys
from collections import Counter
from dataclasses import replace
from functools import lru_cache
from itertools import chain, permutations

sys.dont_write_bytecode = True

import plans
import stored
from make_plans import all_plans
from model import PHASES, Limits, Map, Model
from mutants import off_chain
from plans import PLAN_A, entries, full, near_a, near_b, outside, plan, record, singles, spread
from stored import mix

KINDS = ('excluded', 'plc', 'continuous', 'scattered', 'data', 'refused')
# Every subcarrier, and three that are none; 66388 is 852 in its low 16 bits.
ASKED = (*range(4097), 66388, 4294967295)
ALL_REFUSED = '0 0 0 0 0 4099'


# --- the cases -------------------------------------------------------------

def all_cases():
    """(name, plan, phase, the six counts worked out by hand)."""
    cases = []

    def case(name, data, phase, want):
        cases.append((name, data, phase, want))

    # Plan A.  994 and 925 are pilots; the PLC, 972 to 979, is on the grid at
    # phases 120 to 127.
    case('plan A', PLAN_A, 0, '3655 8 8 4 421 3')
    case('plan A, 994 on the grid', PLAN_A, 14, '3655 8 8 2 423 3')
    case('plan A, 925 on the grid', PLAN_A, 73, '3655 8 8 2 423 3')
    case('plan A, 977 on the grid', PLAN_A, 125, '3655 8 8 3 422 3')
    case('plan A, the last phase', PLAN_A, 127, '3655 8 8 3 422 3')
    for phase in (128, 65550, 4294967295):    # 65550 is 14 in its low 16 bits
        case('plan A, phase %d' % phase, PLAN_A, phase, ALL_REFUSED)

    # Refused by each ground, at phase 0 or out of range.
    refused = [(name, data) for name, data, _, _ in all_plans() if name.startswith('refused-')]
    for n, (name, data) in enumerate(refused):
        case(name, data, 128 * (n % 2), ALL_REFUSED)

    # The largest plan: 280 is a pilot, 2007 the last of the PLC.
    case('largest', plans.LARGEST, 0, '295 8 48 30 3715 3')
    case('largest, 280 on the grid', plans.LARGEST, 64, '295 8 48 29 3716 3')
    case('largest, 2007 on the grid', plans.LARGEST, 127, '295 8 48 29 3716 3')
    case('120 pilots, 280 and 920 on the grid', full(pilots=plans.pilots_of_full(120)), 64,
         '295 8 128 28 3637 3')

    # Exclusions: overlapping, single, in exclusion bands between bands.
    case('510 overlapping ranges', plans.OVERLAPPING_510, 14, '3655 8 8 2 423 3')
    case('150 single exclusions, four on the grid', plans.SINGLES_150, 0, '445 8 8 26 3609 3')
    case('two bands, 1250 on the grid, single in one of them',
         near_b([(1300, 1319)] + singles(1240, 1250, 1260, 1270, 1280, 1290,
                                         1325, 1335, 1345, 1355, 1365, 1375)), 126,
         '3127 8 8 5 948 3')
    case('eight bands, 1455 on the grid, between two',
         plan(800, 4, [(0, 199)] + [(600 + 420 * n, 619 + 420 * n) for n in range(7)]
              + [(3581, 4095)]), 7, '855 8 8 25 3200 3')

    # Records off the chain.
    items = entries(972, 4, outside(800, 1240))
    case('off the chain: 0xFF', spread(items, [0, 3, 7], 9), 125, '3655 8 8 3 422 3')
    case('off the chain: a sound pilot on the grid, a sound range',
         spread(items, [0, 2, 4], 5, [b'', record(3, 0, 900, 0), b'', record(2, 0, 850, 850), b'']),
         48, '3655 8 8 3 422 3')

    # Further pilots.
    on_grid = near_a(pilots=[852, 980, 1108, 1236])
    case('pilots on all of the grid', on_grid, 0, '3655 8 12 0 421 3')
    case('pilots on all of the grid, one phase later', on_grid, 1, '3655 8 12 4 417 3')
    case('852 excluded, pilots beside the PLC', near_a(singles(852), [971, 980]), 0,
         '3656 8 10 2 420 3')

    # L at both ends: the last of the PLC on the grid, and the grid far from L.
    case('L 204', plan(204, 4, outside(148, 588)), 127, '3655 8 8 2 423 3')
    case('L 204, 148 on the grid', plan(204, 7, outside(148, 2100)), 64, '2143 8 8 16 1921 3')
    case('L 3885', plan(3885, 4, outside(3508, 3948)), 127, '3655 8 8 3 422 3')
    case('L 3885, pilot 1013 on the grid', plan(3885, 7, outside(1000, 3948), [1013]), 64,
         '1147 8 9 22 2910 3')
    return cases


# --- the lines -------------------------------------------------------------

def pilots_line(model):
    """Of an L that ground 4 refuses there are no pilots: eight zeros."""
    x = model.limits
    return '%d' % mix(0, (
        k for l in range(65536)
        for k in (model.predefined(l) if x.lowest_l <= l <= x.highest_l else [0] * 8)))


@lru_cache(maxsize=None)
def numbers_of(answer):
    """An answer in the checksum: its kind, from 1, and of a refusal number and place."""
    return (KINDS.index(answer) + 1,) if isinstance(answer, str) else (len(KINDS), *answer[1:])


def role_line(model, data, phase):
    answers = [numbers_of(model.role(data, k, phase)) for k in ASKED]
    counts = Counter(numbers[0] for numbers in answers)
    return '%s %d' % (' '.join('%d' % counts[n + 1] for n in range(len(KINDS))),
                      mix(0, chain.from_iterable(answers)))


def remembering(model):
    """The model, with what it says of a whole plan kept for the next question."""
    model.judge = lru_cache(maxsize=None)(model.judge)
    model.predefined = lru_cache(maxsize=None)(model.predefined)
    return model


def lines_of(model, cases):
    """The lines of the cases, one after the other, and then the pilots' line."""
    model = remembering(model)
    for _, data, phase, _ in cases:
        yield attempt(role_line, model, data, phase)
    yield attempt(pilots_line, model)


def attempt(line, *given):
    """The line; a bent model may also fail."""
    try:
        return line(*given)
    except (IndexError, ValueError) as error:
        return 'failed: %r' % error


def make():
    """The bytes of stdin and stdout."""
    cases = all_cases()
    *lines, pilots = lines_of(Model(), cases)
    given = b''
    names = set()
    for (name, data, phase, want), line in zip(cases, lines):
        assert name not in names, 'two cases named ' + name
        names.add(name)
        assert line.startswith(want + ' '), '%s: by hand %s, model %s' % (name, want, line)
        given += len(data).to_bytes(4, 'big') + phase.to_bytes(4, 'big') + data
    return given, ''.join(x + '\n' for x in [pilots] + lines).encode(), len(cases)


# --- mutants ---------------------------------------------------------------

NO_PAIR = ('The three never meet on an accepted plan: ground 7 keeps exclusions 56 off the PLC, '
           'the predefined pilots stand 15 to 47 off it, and ground 8 keeps the further ones off all.')


EQUIVALENT = {'order: ' + ', '.join((*order, 'scattered')): NO_PAIR
              for order in permutations(KINDS[:3]) if order != KINDS[:3]}


def bent(**methods):
    """A model of which some methods are others."""
    return type('Bent', (Model,), methods)()


def bent_role(role):
    """A model with another role, which is given the sound one of a (subcarrier,
    phase), what the judge says of the plan, subcarrier and phase."""
    return bent(role=lambda self, data, k, phase: role(
        lambda k, phase: Model.role(self, data, k, phase), self.judge(data), k, phase))


def ordered(order):
    """Role at a phase: the first that applies, in another order."""
    def role(self, data, k, phase):
        answer = Model.role(self, data, k, phase)
        if isinstance(answer, tuple):
            return answer
        p = self.judge(data)
        holds = {'excluded': p.excluded[k], 'plc': self.is_plc(p, k),
                 'continuous': k in self.predefined(p.l) or k in [x for _, x in p.pilots],
                 'scattered': self.on_grid(p, k, phase)}
        return next((name for name in order if holds[name]), 'data')
    return bent(role=role)


def pilot_mutants():
    for field in ('distance_1', 'distance_2', 'distance_3', 'distance_4', 'lowest_l', 'highest_l'):
        value = getattr(Limits(), field)
        for other in (value - 1, value + 1):
            yield ('%s %d -> %d' % (field, value, other),
                   Model(replace(Limits(), **{field: other})))
    for n in range(8):
        for step in (-1, 1):
            def moved(self, l, n=n, step=step):
                eight = Model.predefined(self, l)
                return eight[:n] + [eight[n] + step] + eight[n + 1:]
            yield 'predefined pilot %d moved by %d' % (n, step), bent(predefined=moved)
    yield 'predefined pilots falling', bent(
        predefined=lambda self, l: Model.predefined(self, l)[::-1])
    yield 'predefined pilots above counted from L', bent(
        predefined=lambda self, l: [l - d for d in (47, 35, 24, 15)]
        + [l + d for d in (15, 24, 35, 47)])
    yield 'predefined pilots data', bent_role(
        lambda sound, p, k, j: 'data' if sound(k, j) == 'continuous'
        and k not in [x for _, x in p.pilots] else sound(k, j))
    yield 'further pilots data', bent_role(
        lambda sound, p, k, j: 'data' if sound(k, j) == 'continuous'
        and k in [x for _, x in p.pilots] else sound(k, j))


def grid_mutants():
    tests = {
        'referred to subcarrier 0': lambda p, k, j: (k - j) % 128 == 0,
        'referred to subcarrier 8': lambda p, k, j: (k - 8 - j) % 128 == 0,
        'referred to L': lambda p, k, j: (k - p.l - j) % 128 == 0,
        'referred to L+7': lambda p, k, j: (k - p.l - 7 - j) % 128 == 0,
        'referred to the lowest active': lambda p, k, j: (k - p.excluded.find(0) - j) % 128 == 0,
        'phase one late': lambda p, k, j: (k - p.l - 8 - (j - 1)) % 128 == 0,
        'phase one early': lambda p, k, j: (k - p.l - 8 - (j + 1)) % 128 == 0,
        'phase falling': lambda p, k, j: (k - p.l - 8 + j) % 128 == 0,
        'phase left out': lambda p, k, j: (k - p.l - 8) % 128 == 0,
        'only from L+8 up': lambda p, k, j: k >= p.l + 8 and (k - p.l - 8 - j) % 128 == 0,
        'only up to L+8': lambda p, k, j: k <= p.l + 8 and (k - p.l - 8 - j) % 128 == 0,
        'every 64th': lambda p, k, j: (k - p.l - 8 - j) % 64 == 0,
        'every 127th': lambda p, k, j: (k - p.l - 8 - j) % 127 == 0,
        'every 129th': lambda p, k, j: (k - p.l - 8 - j) % 129 == 0,
        'every 256th': lambda p, k, j: (k - p.l - 8 - j) % 256 == 0,
        'never': lambda p, k, j: False,
    }
    for name, test in tests.items():
        yield 'scattered: ' + name, bent(
            on_grid=lambda self, p, k, phase, test=test: test(p, k, phase))


def map_mutants():
    for low, high in ((0, 8), (-1, 7), (0, 6), (1, 7), (1, 8)):
        yield 'PLC from L%+d to L%+d' % (low, high), bent(
            is_plc=lambda self, p, k, low=low, high=high: p.l + low <= k <= p.l + high)
    yield 'PLC of 9, pilots above counted from its end', Model(replace(Limits(), plc_width=9))
    yield 'single exclusions active', bent_role(
        lambda sound, p, k, j: 'data' if sound(k, j) == 'excluded'
        and in_band(p, k) else sound(k, j))
    yield 'exclusion bands between bands active', bent_role(
        lambda sound, p, k, j: 'data' if sound(k, j) == 'excluded'
        and p.excluded.find(0) < k < p.excluded.rfind(0) and not in_band(p, k) else sound(k, j))
    yield 'every exclusion one higher', bent(
        map_of=lambda self, data, records: shifted(Model.map_of(self, data, records)))
    for name, kinds in (('ranges', (2,)), ('pilots', (3,))):
        yield name + ' off the chain used', off_chain(kinds)
    for order in permutations(KINDS[:4]):
        if order != KINDS[:4]:
            yield 'order: ' + ', '.join(order), ordered(order)


@lru_cache(maxsize=None)
def bands(p):
    return Model().bands(p)


def in_band(p, k):
    return any(a <= k <= b for a, b in bands(p))


def shifted(p):
    """The map with every exclusion one higher."""
    return Map(p.l, p.m, bytearray([p.excluded[0]]) + p.excluded[:-1], p.pilots)


def range_mutants():
    for bits in (12, 16):
        yield '%d bits of the subcarrier' % bits, bent_role(
            lambda sound, p, k, j, low=1 << bits: sound(k % low, j))
    for bits in (7, 8, 16):
        yield '%d bits of the phase' % bits, bent_role(
            lambda sound, p, k, j, low=1 << bits: sound(k, j % low))
    # what is answered instead, of an accepted plan
    answers = {
        'subcarrier 4095 refused': lambda k, j: ('refused', 16, 0) if k == 4095 else None,
        'subcarrier 0 refused': lambda k, j: ('refused', 16, 0) if k == 0 else None,
        'subcarrier 4096 excluded': lambda k, j: 'excluded' if k == 4096 and j < PHASES else None,
        'subcarrier 4294967295 data': lambda k, j: 'data' if k == ASKED[-1] and j < PHASES else None,
        'phase 127 refused': lambda k, j: ('refused', 16, 0) if j == 127 else None,
        'phase 0 refused': lambda k, j: ('refused', 16, 0) if j == 0 else None,
        'place of 16 is the subcarrier': lambda k, j: ('refused', 16, k) if k > 4095 else None,
        'ground 15 for 16': lambda k, j: ('refused', 15, 0) if k > 4095 else None,
    }
    for name, other in answers.items():
        yield name, bent_role(
            lambda sound, p, k, j, other=other:
            sound(k, j) if isinstance(p, tuple) else other(k, j) or sound(k, j))
    yield 'phase 128 is phase 0', bent_role(
        lambda sound, p, k, j: sound(k, 0 if j == 128 else j))
    yield 'phase 4294967295 is the last', bent_role(
        lambda sound, p, k, j: sound(k, 127 if j == 4294967295 else j))
    yield 'ground 16 before the plan: subcarrier', bent_role(
        lambda sound, p, k, j: ('refused', 16, 0) if k > 4095 else sound(k, j))
    yield 'ground 16 before the plan: phase', bent_role(
        lambda sound, p, k, j: ('refused', 16, 0) if j >= PHASES else sound(k, j))
    for ground in range(1, 16):
        def other_place(self, data, ground=ground):
            p = Model.judge(self, data)
            wrong = isinstance(p, tuple) and p[1] == ground
            return ('refused', ground, p[2] + 1) if wrong else p
        yield 'place of %d one higher' % ground, bent(judge=other_place)
    yield 'place for number, number for place', bent_role(
        lambda sound, p, k, j: ('refused', p[2], p[1]) if isinstance(p, tuple) else sound(k, j))


def try_mutants():
    cases = all_cases()
    names = [case[0] for case in cases] + ['the pilots']
    sound = list(lines_of(Model(), cases))

    def change_of(_, model):
        return next((where for where, want, got in zip(names, sound, lines_of(model, cases))
                     if got != want), None)
    mutants = (*pilot_mutants(), *grid_mutants(), *map_mutants(), *range_mutants())
    return stored.try_mutants(mutants, change_of, EQUIVALENT, len(cases))


# --- the run ---------------------------------------------------------------

def main():
    given, wanted, count = make()
    print('%d cases, %d bytes' % (count, len(given)))
    stored.run('rolecases', given, wanted, try_mutants)


if __name__ == '__main__':
    main()
