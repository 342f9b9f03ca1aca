#!/usr/bin/env python3
"""Makes the test data of whycases from the second model.

    python3 tests/whys.py              writes crates/whycases/stdin and stdout
    python3 tests/whys.py --check      compares them, exits 1 on a difference
    python3 tests/whys.py --mutants    bends the model in many ways, each of
                                       which must change a line of stdout;
                                       exits 1 if one does not

stdin holds, for each case, the plan's length, the subcarrier and the phase as
four bytes each, high byte first, and then the plan; the end of the input ends
the list.  stdout holds the line of each case, as whycheck prints it: the role,
the kind of its reason and a number, so `excluded record 1`, `plc record 0`,
`continuous below 24`, `continuous above 15`, `continuous record 7`, `scattered
phase 49` or `data phase 49`; or `refused 14 835` (number, place).
"""

import sys
from dataclasses import fields, replace
from functools import lru_cache
from itertools import chain, combinations, cycle, permutations

sys.dont_write_bytecode = True

import plans
import stored
from make_plans import all_plans
from model import PHASES, Limits, Model, why_line
from mutants import off_chain, rising_chain
from plans import (LARGEST, OVERLAPPING_510, PLAN_A, RUBBISH, SINGLES_150, chained, entries, full,
                   near_a, near_b, next_index, outside, pilots_of_full, plan, record, singles,
                   spread)
from roles import NO_PAIR, grid_mutants, remembering
from tries import ALL_512, FILLERS, ITEMS

LONGEST_PLAN = 5000
MOST_CASES = 4000
MOST_BYTES = 700000
TOP = 4294967295

# --- the cases -------------------------------------------------------------
#
# A case is (name, plan, subcarrier, phase, want).  `want` is the line worked out by
# hand from the papers, or None.  Record 1 of Plan A excludes 0 to 799 and record 2
# 1241 to 4095; near_a, near_b and full have their two outer ranges there too, and what
# is added in records 3 on.

DISTANCES = (15, 24, 35, 47)
# The predefined pilots of Plan A, each with the phase at which the pattern meets it.
EIGHT = ((925, 'below 47', 73), (937, 'below 35', 85), (948, 'below 24', 96),
         (957, 'below 15', 105), (994, 'above 15', 14), (1003, 'above 24', 23),
         (1014, 'above 35', 34), (1026, 'above 47', 46))


def asked(name, data, *rows):
    """The cases of one plan; a row is subcarrier, phase and the line."""
    return [('%s, %d at %d' % (name, k, phase), data, k, phase, want) for k, phase, want in rows]


def at_phases(name, data, phases, *rows):
    """The cases of one plan at each of the phases; a row is a line, which is that of every
    phase, and the subcarriers that have it."""
    return asked(name, data, *((k, phase, want) for want, *subcarriers in rows
                               for k in subcarriers for phase in phases))


def excluded(name, data, *rows):
    """The cases of one plan at phase 0; a row is a record and subcarriers that it excludes."""
    return at_phases(name, data, (0,), *(('excluded record %d' % i, *subcarriers)
                                         for i, *subcarriers in rows))


def meeting(l, k):
    """The phase q for which k - (L+8) - q is a multiple of 128."""
    return (k - (l + 8)) % 128


def pattern(l, k, phase):
    """The line of a subcarrier that has a rank."""
    q = meeting(l, k)
    return '%s phase %d' % ('scattered' if q == phase else 'data', q)


def active(l, k, phase):
    """The line of an active subcarrier that no record names."""
    if l <= k <= l + 7:
        return 'plc record 0'
    for d in DISTANCES:
        if k == l - d:
            return 'continuous below %d' % d
        if k == l + 7 + d:
            return 'continuous above %d' % d
    return pattern(l, k, phase)


# --- Plan A ----------------------------------------------------------------

def ends_of_a():
    """Both ends of each range, the PLC, and what stands beside them.  The pattern meets the
    PLC at phases 120 to 127, 724 and 1364 at 0."""
    cases = at_phases('plan A', PLAN_A, (0, 14, 49, 127),
                      ('excluded record 1', 0, 1, 4, 724, 798, 799),
                      ('excluded record 2', 1241, 1242, 1364, 4094, 4095),
                      ('plc record 0', *range(972, 980)))
    cases += asked('plan A', PLAN_A, *((852 + phase, phase, 'plc record 0')
                                       for phase in range(120, 127)))
    for k, q in ((800, 76), (801, 77), (1239, 3), (1240, 4), (970, 118), (971, 119), (982, 2)):
        cases += asked('plan A', PLAN_A, (k, q, 'scattered phase %d' % q))
        cases += at_phases('plan A', PLAN_A, (q - 1, q + 1, 64, 127), ('data phase %d' % q, k))
    return cases


def starred():
    """The scattered pilots that 01 lists, and others of the first and the last phases: at
    their phase, at the one before and the one after, and far from it."""
    cases = []
    for q, *subcarriers in ((0, 852, 980, 1108, 1236), (125, 849, 1105, 1233), (14, 866, 1122),
                            (49, 1029), (1, 853, 981, 1109, 1237), (126, 850, 1106, 1234),
                            (127, 851, 1107, 1235), (64, 916, 1044, 1172)):
        cases += at_phases('starred', PLAN_A, (q,), ('scattered phase %d' % q, *subcarriers))
        cases += at_phases('starred', PLAN_A, [(q + n) % 128 for n in (-1, 1, 64)],
                           ('data phase %d' % q, *subcarriers))
    return cases + asked('starred', PLAN_A, (977, 125, 'plc record 0'),
                         (994, 14, 'continuous above 15'))


def predefined_of_a():
    """The eight predefined pilots, also at the phase at which the pattern meets them, and the
    subcarriers beside them."""
    cases = []
    for k, where, q in EIGHT:
        cases += at_phases('predefined', PLAN_A, (q - 1, q, q + 1, 0, 127),
                           ('continuous ' + where, k))
        cases += asked('predefined', PLAN_A, (k - 1, q - 1, 'scattered phase %d' % (q - 1)),
                       (k - 1, q, 'data phase %d' % (q - 1)), (k + 1, q, 'data phase %d' % (q + 1)),
                       (k + 1, q + 1, 'scattered phase %d' % (q + 1)))
    return cases


def sweeps_of_a():
    """All that is active at one phase, every seventh at its own; one subcarrier at every
    phase."""
    cases = asked('all', PLAN_A, *((k, 49, active(972, k, 49)) for k in range(800, 1241)))
    cases += asked('at its own', PLAN_A, *((k, meeting(972, k), active(972, k, meeting(972, k)))
                                           for k in range(800, 1241, 7)))
    cases += asked('every phase', PLAN_A, (1029, 49, 'scattered phase 49'))
    return cases + at_phases('every phase', PLAN_A, [j for j in range(128) if j != 49],
                             ('data phase 49', 1029))


# --- ranges ----------------------------------------------------------------

def four(name, ranges, *records):
    """Plan A with ranges in records 3 on that exclude 850 to 853, each by the record given."""
    data = near_a(ranges)
    return (asked(name, data, (849, 0, 'data phase 125'), (854, 0, 'data phase 2'))
            + excluded(name, data, *((i, 850 + n) for n, i in enumerate(records))))


def overlaps():
    """Ranges that overlap, lie in one another, are equal or touch."""
    cases = four('the lower first', [(850, 852), (851, 853)], 3, 3, 3, 4)
    cases += four('the upper first', [(851, 853), (850, 852)], 4, 3, 3, 3)
    cases += four('the outer first', [(850, 853), (851, 852)], 3, 3, 3, 3)
    cases += four('the inner first', [(851, 852), (850, 853)], 4, 3, 3, 4)
    cases += four('the lower half first', [(850, 851), (850, 853)], 3, 3, 4, 4)
    cases += four('the upper half first', [(852, 853), (850, 853)], 4, 4, 3, 3)
    cases += four('the lower half last', [(850, 853), (850, 851)], 3, 3, 3, 3)
    cases += four('the upper half last', [(850, 853), (852, 853)], 3, 3, 3, 3)
    cases += four('equal', [(850, 853), (850, 853)], 3, 3, 3, 3)
    cases += four('equal, three', [(850, 853)] * 3, 3, 3, 3, 3)
    cases += four('touching', [(850, 851), (852, 853)], 3, 3, 4, 4)
    cases += four('touching, the upper first', [(852, 853), (850, 851)], 4, 4, 3, 3)
    cases += four('singles rising', singles(850, 851, 852, 853), 3, 4, 5, 6)
    cases += four('singles falling', singles(853, 852, 851, 850), 6, 5, 4, 3)
    cases += four('two singles, then all', singles(851, 853) + [(850, 853)], 5, 3, 5, 4)
    cases += four('others before', [(700, 799), (1241, 1300), (850, 853)], 5, 5, 5, 5)
    low, high, mid = (850, 852), (851, 853), (851, 852)
    cases += four('three: low, high, mid', [low, high, mid], 3, 3, 3, 4)
    cases += four('three: low, mid, high', [low, mid, high], 3, 3, 3, 5)
    cases += four('three: high, low, mid', [high, low, mid], 4, 3, 3, 3)
    cases += four('three: high, mid, low', [high, mid, low], 5, 3, 3, 3)
    cases += four('three: mid, low, high', [mid, low, high], 4, 3, 3, 5)
    cases += four('three: mid, high, low', [mid, high, low], 5, 3, 3, 4)
    return cases


def band_ends():
    """Overlaps of the exclusion bands: both ends of each range; 0 and 4095."""
    cases = excluded('700 to 800', near_a([(700, 800)]), (1, 0, 699, 700, 799), (3, 800))
    cases += excluded('1240 to 1300', near_a([(1240, 1300)]), (2, 1241, 1300, 1301), (3, 1240))
    cases += excluded('600 to 700 first', plan(972, 4, [(600, 700), (0, 799), (1241, 4095)]),
                      (2, 0, 599, 701, 799), (1, 600, 601, 699, 700), (3, 1241))
    sides = [(0, 700), (600, 799), (1241, 3000), (2000, 4095)]
    cases += excluded('two on each side', plan(972, 4, sides), (1, 0, 599, 600, 700), (2, 701, 799),
                      (3, 1241, 1999, 2000, 3000), (4, 3001, 4095))
    cases += excluded('two on each side, falling', plan(972, 4, sides[::-1]),
                      (1, 2000, 3000, 3001, 4095), (2, 1241, 1999), (3, 600, 700, 701, 799),
                      (4, 0, 599))
    cases += excluded('0 and 4095 first',
                      plan(972, 4, singles(0, 4095) + outside(800, 1240)),
                      (1, 0), (2, 4095), (3, 1, 799), (4, 1241, 4094))
    cases += excluded('0 and 4095 last', near_a(singles(0, 4095)), (1, 0, 1, 799), (2, 1241, 4095))
    cases += excluded('between two bands', near_b([(1305, 1319), (1300, 1309)]),
                      (3, 1305, 1309, 1310, 1319), (4, 1300, 1304), (1, 999), (2, 2001))
    # 20 ranges, each in the one before it, or in the one behind it
    nested = [(n, 799 - n) for n in range(20)]
    cases += excluded('inwards', plan(972, 4, nested + [(1241, 4095)]),
                      (1, 0, 1, 10, 19, 400, 780, 798, 799), (21, 1241))
    cases += excluded('outwards', plan(972, 4, nested[::-1] + [(1241, 4095)]), (20, 0, 799),
                      (19, 1, 798), (10, 10, 789), (1, 19, 400, 780), (21, 1241))
    return cases


# The ranges of OVERLAPPING_510, falling: record 1 excludes 4035 to 4095, record 255 1241 to
# 1301, record 256 762 to 799, record 510 0 to 37.
FALLING_510 = plan(972, 4, [(1241 + 11 * n, 1301 + 11 * n) for n in reversed(range(255))]
                   + [(3 * n, 3 * n + 37) for n in reversed(range(255))])
# 512 records on the chain: records 1 to 510 exclude 509 to 799, 508 to 799 and so on.
OUTWARDS_512 = plan(972, 4, [(509 - n, 799) for n in range(510)] + [(1241, 4095)])
# 512 records on the chain, the last 120 of them pilots.
PILOTS_512 = full([(0, 147)] * 389, pilots_of_full(120))


def many_records():
    """511 and 512 records, all on the chain."""
    cases = excluded('510 ranges', OVERLAPPING_510, (1, 0, 37), (2, 38), (254, 796),
                     (255, 797, 799), (256, 1241, 1301), (257, 1302), (510, 4095))
    cases += excluded('510 ranges, falling', FALLING_510, (510, 0, 2), (509, 3), (257, 761),
                      (256, 762, 799), (255, 1241, 1251), (254, 1252), (1, 4035, 4095))
    cases += excluded('512, outwards', OUTWARDS_512, (510, 0), (257, 253), (256, 254), (255, 255),
                      (1, 509, 799), (511, 1241, 4095))
    cases += excluded('512, inwards', ALL_512, (1, 0, 509, 799), (511, 1241))
    cases += asked('512, 120 pilots', PILOTS_512, (200, 0, 'continuous record 392'),
                   (1390, 0, 'continuous record 511'), (147, 0, 'excluded record 1'),
                   (201, 0, 'data phase 113'))
    cases += excluded('singles', SINGLES_150, (1, 147), (3, 160), (4, 184), (152, 3846), (2, 3949))
    return cases


# --- further pilots --------------------------------------------------------

def further_pilots():
    """Pilots of kind 3 before, between and behind the ranges, in any order; the pattern meets
    900 at phase 48, 852 at 0."""
    mixed = chained([(1, 972, 4), (3, 900, 0), (2, 0, 799), (3, 902, 0), (2, 1241, 4095),
                     (3, 901, 0)])
    cases = at_phases('mixed', mixed, (0, 48, 49, 50), ('continuous record 1', 900),
                      ('continuous record 3', 902), ('continuous record 5', 901))
    cases += excluded('mixed', mixed, (2, 0, 799), (4, 1241, 4095))
    cases += asked('mixed', mixed, (899, 47, 'scattered phase 47'), (903, 47, 'data phase 51'))
    cases += at_phases('falling', near_a(pilots=[905, 904, 903]), (0, 52),
                       ('continuous record 3', 905), ('continuous record 4', 904),
                       ('continuous record 5', 903))
    grid = near_a(pilots=[1236, 852, 980, 1108])
    cases += at_phases('on the grid', grid, (0, 1), ('continuous record 3', 1236),
                       ('continuous record 4', 852), ('continuous record 5', 980),
                       ('continuous record 6', 1108))
    cases += at_phases('at both ends', near_a(pilots=[1240, 800]), (0, 4, 76),
                       ('continuous record 3', 1240), ('continuous record 4', 800),
                       ('excluded record 1', 799), ('excluded record 2', 1241))
    # 900 and 1156 have one low byte, 900 and 899 one high byte
    cases += at_phases('one byte alike', near_a(pilots=[1156, 899, 900]), (0, 48),
                       ('continuous record 3', 1156), ('continuous record 4', 899),
                       ('continuous record 5', 900))
    return cases


def beside_excluded():
    """Pilots of kind 3 beside single exclusions, at the phases of both too."""
    cases = at_phases('beside one excluded', near_a(singles(850), [849, 851]), (0, 125, 126),
                      ('excluded record 3', 850), ('continuous record 4', 849),
                      ('continuous record 5', 851))
    cases += at_phases('beside two excluded', near_a([(850, 851)], [852, 849]), (0, 125, 126),
                       ('excluded record 3', 850, 851), ('continuous record 4', 852),
                       ('continuous record 5', 849))
    return cases + at_phases('between two excluded', near_a(singles(850, 852), [851]), (0, 127),
                             ('excluded record 3', 850), ('continuous record 5', 851),
                             ('excluded record 4', 852))


def beside_predefined():
    """Pilots of kind 3 beside the predefined ones and the PLC, and where one would stand whose
    distance were counted above from L or below from L+7."""
    cases = []
    for k, where, q in EIGHT:
        cases += at_phases('beside %d' % k, near_a(pilots=[k + 1, k - 1]), (0, q),
                           ('continuous ' + where, k), ('continuous record 3', k + 1),
                           ('continuous record 4', k - 1))
    cases += at_phases('beside the PLC', near_a(pilots=[980, 971]), (0, 119),
                       ('continuous record 3', 980), ('continuous record 4', 971),
                       ('plc record 0', 972, 979))
    wrong = [987, 996, 1007, 1019, 964, 955, 944, 932]
    return cases + at_phases('counted otherwise', near_a(pilots=wrong), (0, 7), *(
        ('continuous record %d' % (3 + n), k) for n, k in enumerate(wrong)))


def many_pilots():
    """120 pilots, 200 up to 1390, and 40 up to 590."""
    rising = full(pilots=pilots_of_full(120))
    falling = full(pilots=pilots_of_full(120)[::-1])
    apart = spread(entries(2000, 32, outside(148, 3948), pilots_of_full(120)),
                   [2 * n for n in range(123)], 248, record(3, 0, 2500, 0))
    cases = []
    for n in (0, 1, 59, 118, 119):
        k = 200 + 10 * n
        cases += asked('120 pilots', rising, (k, 0, 'continuous record %d' % (3 + n)),
                       (k, meeting(2000, k), 'continuous record %d' % (3 + n)),
                       (k + 1, 0, pattern(2000, k + 1, 0)), (k - 1, 0, pattern(2000, k - 1, 0)))
        cases += asked('120 pilots, falling', falling, (k, 0, 'continuous record %d' % (122 - n)))
        cases += asked('120 pilots, apart', apart, (k, 0, 'continuous record %d' % (6 + 2 * n)))
    cases += asked('120 pilots, apart', apart, (2500, 108, 'scattered phase 108'))
    return cases + asked('40 pilots', LARGEST, (200, 64, 'continuous record 3'),
                         (590, 118, 'continuous record 42'), (600, 0, 'scattered phase 0'),
                         (600, 80, 'data phase 0'))


# --- records off the chain -------------------------------------------------

# The records of Plan A, then a range and a pilot; and what else may stand off the chain.
APART = entries(972, 4, outside(800, 1240) + [(850, 853)], [900])
MORE_FILLERS = (
    ('the lower range', record(2, 0, 0, 799)), ('the range', record(2, 0, 850, 853)),
    ('a range over the pilot', record(2, 0, 890, 910)), ('a pilot beside', record(3, 0, 854, 0)),
    ('a predefined pilot', record(3, 0, 925, 0)), ('another L', record(1, 0, 1000, 4)))


def off_the_chain():
    """Records off the chain, between and behind its records, are no reason."""
    cases = []
    for name, filler in (*FILLERS, *MORE_FILLERS):
        between = spread(APART, [0, 2, 4, 6, 8], 10, filler)
        cases += at_phases('between and behind: ' + name, between, (0,),
                           ('excluded record 2', 0, 799), ('excluded record 4', 1241, 4095),
                           ('excluded record 6', 850, 853), ('continuous record 8', 900),
                           ('continuous below 47', 925), ('plc record 0', 972),
                           ('data phase 2', 854), ('data phase 8', 860), ('data phase 47', 899))
        cases += at_phases('behind: ' + name, spread(APART, range(5), 8, filler), (0,),
                           ('excluded record 1', 0), ('excluded record 3', 852),
                           ('continuous record 4', 900), ('data phase 8', 860))
    several = spread(APART, [0, 5, 6, 9, 11], 13, [
        b'', record(2, 0, 0, 4095), record(3, 0, 900, 0), record(2, 4, 850, 853),
        record(1, 0, 1000, 4), b'', b'', record(3, 0, 852, 0), record(2, 9, 899, 901), b'',
        RUBBISH, b'', record(2, 0, 0, 4095)])
    return cases + at_phases('several', several, (0, 48, 127),
                             ('excluded record 5', 0, 799), ('excluded record 6', 1241, 4095),
                             ('excluded record 9', 850, 852, 853), ('continuous record 11', 900),
                             ('data phase 47', 899), ('data phase 49', 901), ('data phase 8', 860),
                             ('plc record 0', 972))


def skipped():
    """Records that the chain leaves out, of Plan A with more ranges and pilots."""
    cases = excluded('one of two', next_index(near_a([(850, 853)] * 2), 2, 4), (4, 850, 853))
    cases += excluded('two of three', next_index(near_a([(850, 853)] * 3), 2, 5), (5, 850, 853))
    outer = next_index(near_a([(850, 853), (851, 852)]), 2, 4)
    cases += excluded('the outer', outer, (4, 851, 852))
    cases += asked('the outer', outer, (850, 0, 'data phase 126'), (853, 0, 'data phase 1'))
    cases += asked('all added', next_index(near_a([(850, 853)], [900]), 2, 0),
                   (850, 126, 'scattered phase 126'), (853, 0, 'data phase 1'),
                   (900, 48, 'scattered phase 48'), (900, 0, 'data phase 48'))
    cases += asked('the first of three pilots', next_index(near_a(pilots=[900, 901, 900]), 2, 4),
                   (900, 48, 'continuous record 5'), (901, 0, 'continuous record 4'))
    cases += asked('the last of three pilots', next_index(near_a(pilots=[900, 901, 900]), 4, 0),
                   (900, 48, 'continuous record 3'), (901, 0, 'continuous record 4'))
    # a range and a pilot in it, one of them on the chain
    cases += asked('the range', next_index(near_a([(850, 853)], [852]), 2, 4),
                   (852, 0, 'continuous record 4'), (851, 127, 'scattered phase 127'),
                   (853, 0, 'data phase 1'))
    cases += asked('the pilot behind', next_index(near_a([(850, 853)], [852]), 3, 0),
                   (852, 0, 'excluded record 3'), (851, 127, 'excluded record 3'))
    pilot_first = chained([*ITEMS, (3, 852, 0), (2, 850, 853)])
    cases += asked('the pilot', next_index(pilot_first, 2, 4), (852, 0, 'excluded record 4'),
                   (850, 0, 'excluded record 4'))
    return cases + asked('the range behind', next_index(pilot_first, 3, 0),
                         (852, 0, 'continuous record 3'), (850, 0, 'data phase 126'))


def far_records():
    """The record's index has one byte, or two."""
    cases = []
    for low, high in ((254, 255), (255, 256), (256, 257), (510, 511)):
        for name, filler in (('0xFF', RUBBISH), ('all excluded', record(2, 0, 0, 4095))):
            cases += excluded('records %d and %d, %s' % (low, high, name),
                              spread(ITEMS, [0, low, high], high + 1, filler),
                              (low, 799), (high, 1241))
    for at in (254, 255, 256, 257, 511):
        data = spread(entries(972, 4, outside(800, 1240), [900]), [0, 1, 2, at], at + 1,
                      record(3, 0, 900, 0))
        cases += asked('pilot in record %d' % at, data, (900, 48, 'continuous record %d' % at))
        cases += excluded('pilot in record %d' % at, data, (2, 4095))
    return cases


# --- distances and phases --------------------------------------------------

def around(l):
    """A plan with 441 active subcarriers around the PLC."""
    low = min(max(l - 200, 148), 3508)
    return plan(l, 4, outside(low, low + 440))


def distances():
    """All distances for several L, the subcarriers beside, and where a pilot would stand whose
    distance were counted above from L or below from L+7 or L+8."""
    cases = []
    for l in (204, 205, 251, 300, 512, 1000, 1017, 2047, 2048, 3333, 3884, 3885):
        name, data = 'L %d' % l, around(l)
        for d in DISTANCES:
            low, high = l - d, l + 7 + d
            cases += asked(name, data, (low, meeting(l, low), 'continuous below %d' % d),
                           (high, meeting(l, high), 'continuous above %d' % d))
            cases += asked(name, data, *((k, k % 128, pattern(l, k, k % 128)) for k in (
                low - 1, low + 1, low + 7, low + 8, high - 1, high + 1, high - 7)))
        cases += asked(name, data, (l - 1, 127, 'data phase 119'), (l + 8, 0, 'scattered phase 0'),
                       (l, 120, 'plc record 0'), (l + 7, 127, 'plc record 0'))
    return cases


def phases():
    """Many subcarriers of wide plans, far below and above L, at several phases; every phase
    named once."""
    some = cycle((0, 1, 63, 64, 126, 127))
    cases = []
    for l, low, high, step in ((204, 148, 2100, 19), (3885, 1000, 3948, 29), (2047, 400, 3700, 37)):
        rows = [(k, next(some)) for k in range(low, high + 1, step)]
        cases += asked('from %d' % l, plan(l, 7, outside(low, high)),
                       *((k, phase, active(l, k, phase)) for k, phase in rows))
    wide = plan(204, 7, outside(148, 2100))
    cases += asked('every phase once', wide, *((340 + q, q, 'scattered phase %d' % q)
                                               for q in range(128)))
    # 1013 is a pilot, 1000 scattered at 51, 3948 at 55
    pilot = plan(3885, 7, outside(1000, 3948), [1013])
    cases += asked('from 3885, a pilot', pilot, (1013, 64, 'continuous record 3'),
                   (1000, 51, 'scattered phase 51'), (1000, 0, 'data phase 51'),
                   (3948, 55, 'scattered phase 55'), (3948, 127, 'data phase 55'),
                   (999, 50, 'excluded record 1'), (3949, 56, 'excluded record 2'))
    # eight bands, with 20 excluded between two of them, from 600, 1020 and so on
    eight = plan(800, 4, [(0, 199)] + [(600 + 420 * n, 619 + 420 * n) for n in range(7)]
                 + [(3580, 4095)])
    for n in range(7):
        first, last = 600 + 420 * n, 619 + 420 * n
        cases += excluded('eight bands', eight, (2 + n, first, last))
        cases += asked('eight bands', eight, (first - 1, 0, active(800, first - 1, 0)),
                       (last + 1, 0, active(800, last + 1, 0)))
    return cases + excluded('eight bands', eight, (1, 199), (9, 3580))


# --- refusals --------------------------------------------------------------

def out_of_range():
    """Ground 16: just above the last subcarrier and phase, and 852 and 49 with more bits;
    subcarriers of every role."""
    cases = []
    for k in (4096, 4097, 4948, 8191, 32768, 65535, 65536, 66388, 16777216 + 852,
              2147483648 + 852, TOP):
        cases += at_phases('16', PLAN_A, (0, 127), ('refused 16 0', k))
    for phase in (128, 129, 177, 255, 256, 305, 65536, 65585, 16777216 + 49, 2147483648 + 49, TOP):
        cases += at_phases('16', PLAN_A, (phase,), ('refused 16 0', 0, 799, 852, 925, 972, 1029,
                                                    1241, 4095))
    for k in (4096, 65536, 66388, TOP):
        cases += at_phases('16', PLAN_A, (128, 256, TOP), ('refused 16 0', k))
    for k in (200, 201, 2000, 1985, 1953):
        cases += at_phases('16, 40 pilots', LARGEST, (128, TOP), ('refused 16 0', k))
    return cases


def plan_first():
    """Grounds 1 to 15 come before 16: the refused plans of plans/, with subcarriers and phases
    in and out of range."""
    cases = []
    for name, data, want, _ in all_plans():
        if want.startswith('refused'):
            cases += asked(name, data, (852, 0, want), (4095, 127, want), (4096, 0, want),
                           (852, 128, want), (TOP, TOP, want))
    return cases


QUESTIONS = ((0, 0), (852, 0), (4096, 0), (900, 48), (799, 127), (852, 128), (972, 120), (850, 126),
             (1241, 64), (TOP, TOP), (980, 0), (1014, 34), (1100, 5), (4095, 127), (1040, 60))


def of_plans():
    """The plans of plans.py, each with two questions, the longer ones with one; of a refused
    one the line is its own."""
    questions = cycle(QUESTIONS)
    cases = []
    for name, data, line in plans.all_cases():
        if len(data) > LONGEST_PLAN:
            continue
        want = line if line.startswith('refused') else None
        for _ in range(2 if len(data) <= 1000 else 1):
            k, phase = next(questions)
            out = want is None and (k > 4095 or phase > 127)
            cases += asked('plans.py: ' + name, data, (k, phase, 'refused 16 0' if out else want))
    return cases


def all_cases():
    """Each plan, subcarrier and phase once, as it first stands here; its lines agree."""
    cases = {}
    for case in chain(ends_of_a(), starred(), predefined_of_a(), sweeps_of_a(), overlaps(),
                      band_ends(), many_records(), further_pilots(), beside_excluded(),
                      beside_predefined(), many_pilots(), off_the_chain(), skipped(),
                      far_records(), distances(), phases(), out_of_range(), plan_first(),
                      of_plans()):
        first = cases.setdefault(case[1:4], case)
        assert case[4] in (None, first[4]), '%s: %s; %s: %s' % (*first[::4], *case[::4])
    return list(cases.values())


# --- the lines -------------------------------------------------------------

def line_of(model, data, k, phase):
    """The line of a case; a bent model may also fail."""
    try:
        return model.why_line(data, k, phase)
    except (AssertionError, IndexError, StopIteration, ValueError) as error:
        return 'failed: %r' % error


def make():
    """The cases, their lines, and the bytes of stdin and stdout."""
    cases = all_cases()
    given, lines = b'', []
    names = set()
    for name, data, k, phase, want in cases:
        assert name not in names, 'two cases named ' + name
        names.add(name)
        assert len(data) <= LONGEST_PLAN, name
        got = why_line(data, k, phase)
        assert want in (None, got), '%s: by hand %s, model %s' % (name, want, got)
        given += b''.join(n.to_bytes(4, 'big') for n in (len(data), k, phase)) + data
        lines.append(got)
    assert len(cases) <= MOST_CASES and len(given) <= MOST_BYTES
    return cases, lines, given, ''.join(x + '\n' for x in lines).encode()


# --- mutants ---------------------------------------------------------------

RISES = 'Ground 3 lets the chain only rise, so the first on it has the lowest index.'
NAMED_ONCE = 'Ground 8 refuses a pilot that is named twice on the chain.'
EARLY = ('excluded', 'plc', 'continuous')

EQUIVALENT = {
    'nothing': 'The model that the others bend, as it is.',
    'excluded: the one of the lowest index': RISES,
    'pilot: the one of the lowest index': RISES,
    'pilot: the last': NAMED_ONCE,
    'searched: the chain without record 0': 'Record 0 is of kind 1: it excludes and names nothing.',
    'excluded: of any kind':
        'Record 0 has L, 204 or more, and then M, 32 or less; a pilot record an active subcarrier, '
        'by ground 6 above 0, and then 0: neither is a range that covers any.',
    'pilot: of any kind':
        'Record 0 names L, which is PLC, and a range begins at a subcarrier that is excluded.',
    'order: further pilots before predefined':
        'Ground 8 refuses a further pilot that is predefined.',
    'limit shortest 8 -> 7': 'A length of 7 is no multiple of 8 and stays refused by ground 1.',
    'limit longest 4096 -> 4097':
        'A length of 4097 is no multiple of 8 and stays refused by ground 1.',
    **{'order: ' + ', '.join((*order, 'scattered')): NO_PAIR
       for order in permutations(EARLY) if order != EARLY},
}


@lru_cache(maxsize=None)
def judged(data):
    return Model().judge(data)


@lru_cache(maxsize=None)
def chain_of(data):
    return Model().chain(data)


@lru_cache(maxsize=None)
def phase_of(p, k):
    return Model().scattered_phase(p, k)


class Remembering(Model):
    """The model for bends that touch neither the judging of a plan nor the roles: the verdicts,
    the chains and the phases are found once for all of them."""

    def judge(self, data):
        return judged(data)

    def chain(self, data):
        return chain_of(data)

    def scattered_phase(self, p, k):
        return phase_of(p, k)


def bent(**methods):
    """A model of which some methods are others."""
    return type('Bent', (Remembering,), methods)()


def bent_role(**methods):
    """The same where a role is bent, so that its phase is another too."""
    return bent(scattered_phase=Model.scattered_phase, **methods)


def saying(change):
    """A model that says something else of a good plan: `change` is given the role, the kind of
    reason and the number, and the phase asked."""
    def why(self, data, k, phase):
        answer = Model.why(self, data, k, phase)
        return answer if answer[0] == 'refused' else change(*answer, phase)
    return bent(why=why)


def choice_mutants():
    """Another of the records on the chain that exclude the subcarrier, or name it."""
    def ends(found):
        return found[1].first, found[1].second

    def width(found):
        return found[1].second - found[1].first
    choices = {
        'the last': lambda found, k: found[-1],
        'the last but one': lambda found, k: found[-2:][0],
        'the last of two': lambda found, k: found[1] if len(found) == 2 else found[0],
        'the last of three': lambda found, k: found[2] if len(found) == 3 else found[0],
        'the last of many': lambda found, k: found[-1] if len(found) > 3 else found[0],
        'the last of equal ones': lambda found, k: [
            x for x in found if ends(x) == ends(found[0])][-1],
        'the one of the lowest index': lambda found, k: min(found),
        'the narrowest': lambda found, k: min(found, key=width),
        'the widest': lambda found, k: max(found, key=width),
        'the one that begins lowest': lambda found, k: min(found, key=lambda x: x[1].first),
        'the one that begins highest': lambda found, k: max(found, key=lambda x: x[1].first),
        'the one that ends lowest': lambda found, k: min(found, key=lambda x: x[1].second),
        'the one that ends highest': lambda found, k: max(found, key=lambda x: x[1].second),
        'one that begins there': lambda found, k: max(found, key=lambda x: x[1].first == k),
        'one that ends there': lambda found, k: max(found, key=lambda x: x[1].second == k),
        'one that goes on to both sides': lambda found, k: max(
            found, key=lambda x: x[1].first < k < x[1].second),
        'one of a single subcarrier': lambda found, k: max(found, key=lambda x: width(x) == 0),
    }
    for name, choice in choices.items():
        yield 'excluded: ' + name, bent(
            covering_record=lambda self, records, k, choice=choice: choice(
                [(i, r) for i, r in records if self.covers(r, k)], k)[0])
    for name in ('the last', 'the one of the lowest index'):
        yield 'pilot: ' + name, bent(
            naming_record=lambda self, records, k, choice=choices[name]: choice(
                [(i, r) for i, r in records if self.names(r, k)], k)[0])


def all_records(data):
    """Every record, on the chain or not."""
    return [(i, Model().read(data, i)) for i in range(len(data) // 8)]


class LowByte(Model):
    """Reads the low byte of a next index."""

    def read(self, data, i):
        r = Model.read(self, data, i)
        return r._replace(next=r.next & 255)


def search_mutants():
    """Other records searched than those of the chain."""
    searched = {
        'all records': lambda data, records: all_records(data),
        'all records, from the last': lambda data, records: all_records(data)[::-1],
        'all records up to the end of the chain':
            lambda data, records: all_records(data)[:records[-1][0] + 1],
        'all records behind the first of the chain':
            lambda data, records: records[:2] + all_records(data)[records[:2][-1][0] + 1:],
        'the records off the chain first':
            lambda data, records: [x for x in all_records(data) if x not in records] + records,
        'the chain, from its end': lambda data, records: records[::-1],
        'the chain without record 0': lambda data, records: records[1:],
        'the chain without its second record': lambda data, records: records[:1] + records[2:],
        'the chain without its last record': lambda data, records: records[:-1],
        'as many records as the chain has': lambda data, records: all_records(data)[:len(records)],
        'the first 255 of the chain': lambda data, records: records[:255],
        'the first 511 of the chain': lambda data, records: records[:511],
        'the records of one byte': lambda data, records: [x for x in records if x[0] < 256],
        'the chain of the low bytes': lambda data, records: rising_chain(LowByte(), data),
    }
    for name, records_of in searched.items():
        yield 'searched: ' + name, bent(
            chain=lambda self, data, records_of=records_of: records_of(data, chain_of(data)))
    for kind, of in ((2, 'ranges'), (3, 'pilots')):
        for name, step in (('', 1), (' from the last', -1)):
            yield 'searched: all %s%s' % (of, name), bent(
                chain=lambda self, data, kind=kind, step=step: [
                    x for x in all_records(data)[::step] if x[1].kind == kind]
                + [x for x in chain_of(data) if x[1].kind != kind])
        yield '%s off the chain used' % of, remembering(off_chain((kind,)))


def reading_mutants():
    """The numbers of a record read otherwise in the search."""
    numbers = {
        'low byte': lambda v: v & 255,
        'high byte': lambda v: v & 0xff00,
        'low byte first': lambda v: v % 256 * 256 + v // 256,
        '11 bits': lambda v: v & 2047,
        'one more': lambda v: v + 1,
        'one less': lambda v: v - 1,
    }
    for field in ('first', 'second'):
        for name, of in numbers.items():
            def read(self, data, field=field, of=of):
                return [(i, r._replace(**{field: of(getattr(r, field))}))
                        for i, r in chain_of(data)]
            yield 'searched: %s number, %s' % (field, name), bent(chain=read)
    yield 'searched: first and second number exchanged', bent(chain=lambda self, data: [
        (i, r._replace(first=r.second, second=r.first)) for i, r in chain_of(data)])
    yield 'searched: kinds 2 and 3 exchanged', bent(chain=lambda self, data: [
        (i, r._replace(kind={2: 3, 3: 2}.get(r.kind, r.kind))) for i, r in chain_of(data)])


def test_mutants():
    """Another test of a record."""
    covers = {
        'first left out': lambda r, k: r.kind == 2 and r.first < k <= r.second,
        'last left out': lambda r, k: r.kind == 2 and r.first <= k < r.second,
        'both ends left out': lambda r, k: r.kind == 2 and r.first < k < r.second,
        'from one below': lambda r, k: r.kind == 2 and r.first - 1 <= k <= r.second,
        'to one above': lambda r, k: r.kind == 2 and r.first <= k <= r.second + 1,
        'begins there': lambda r, k: r.kind == 2 and r.first == k,
        'ends there': lambda r, k: r.kind == 2 and r.second == k,
        'begins there or below': lambda r, k: r.kind == 2 and r.first <= k,
        'ends there or above': lambda r, k: r.kind == 2 and k <= r.second,
        'any range': lambda r, k: r.kind == 2,
        'any record behind 0': lambda r, k: r.kind != 1,
        'any record': lambda r, k: True,
        'kind 3': lambda r, k: r.kind == 3 and r.first <= k <= r.second,
        'of any kind': lambda r, k: r.first <= k <= r.second,
        'the length for the end': lambda r, k: r.kind == 2 and r.first <= k < r.first + r.second,
    }
    names = {
        'kind 2': lambda r, k: r.kind == 2 and r.first == k,
        'of any kind': lambda r, k: r.first == k,
        'any pilot': lambda r, k: r.kind == 3,
        'any record behind 0': lambda r, k: r.kind != 1,
        'there or below': lambda r, k: r.kind == 3 and r.first <= k,
        'there or above': lambda r, k: r.kind == 3 and r.first >= k,
        'there or one below': lambda r, k: r.kind == 3 and r.first in (k - 1, k),
        'there or one above': lambda r, k: r.kind == 3 and r.first in (k, k + 1),
        'one low byte': lambda r, k: r.kind == 3 and r.first % 256 == k % 256,
        'one high byte': lambda r, k: r.kind == 3 and r.first // 256 == k // 256,
        'second number': lambda r, k: r.kind == 3 and r.second == k,
    }
    for name, test in covers.items():
        yield 'excluded: ' + name, bent(covers=lambda self, r, k, test=test: test(r, k))
    for name, test in names.items():
        yield 'pilot: ' + name, bent(names=lambda self, r, k, test=test: test(r, k))


def index_mutants():
    """Another number of the record found."""
    numbers = {
        'one less': lambda i, records: i - 1,
        'one more': lambda i, records: i + 1,
        'low byte': lambda i, records: i % 256,
        'high byte': lambda i, records: i // 256,
        'low byte first': lambda i, records: i % 256 * 256 + i // 256,
        'seven bits': lambda i, records: i % 128,
        'at most 255': lambda i, records: min(i, 255),
        'in bytes': lambda i, records: 8 * i,
        'along the chain': lambda i, records: [n for n, _ in records].index(i),
        'along the chain, from 1': lambda i, records: [n for n, _ in records].index(i) + 1,
        'among its kind': lambda i, records: [
            n for n, r in records if r.kind == dict(records)[i].kind].index(i),
        'the one before on the chain': lambda i, records: [n for n, _ in records if n < i][-1],
        'its next index': lambda i, records: dict(records)[i].next,
        'its first number': lambda i, records: dict(records)[i].first,
        '0': lambda i, records: 0,
        '1': lambda i, records: 1,
    }
    for name, number in numbers.items():
        for what, method in (('excluded', 'covering_record'), ('pilot', 'naming_record')):
            yield '%s: record %s' % (what, name), bent(**{
                method: lambda self, records, k, method=method, number=number: number(
                    getattr(Model, method)(self, records, k), records)})


def plc_mutants():
    """Another reason of the PLC, or another PLC."""
    for i in (1, 2):
        yield 'PLC: record %d' % i, saying(
            lambda role, kind, n, phase, i=i: (role, kind, i if role == 'plc' else n))
    yield 'PLC: the phase asked', saying(
        lambda role, kind, n, phase: (role, 'phase', phase) if role == 'plc' else (role, kind, n))

    def distance_said(self, p, records, role, k):
        return (('above', k - p.l) if role == 'plc'
                else Model.reason(self, p, records, role, k))
    yield 'PLC: how far above L', bent(reason=distance_said)
    for low, high in ((0, 8), (-1, 7), (0, 6), (1, 7), (-8, -1)):
        yield 'PLC from L%+d to L%+d' % (low, high), bent_role(
            is_plc=lambda self, p, k, low=low, high=high: p.l + low <= k <= p.l + high)
    for n in range(1, 7):
        yield 'PLC without L+%d' % n, bent_role(
            is_plc=lambda self, p, k, n=n: Model.is_plc(self, p, k) and k != p.l + n)


def distance_mutants():
    """Another distance, or another side."""
    exchanged = {'below': 'above', 'above': 'below'}
    said = {
        'above counted from L': lambda p, k, side, x: (side, k - p.l if side == 'above' else x),
        'above counted from L+8': lambda p, k, side, x: (side, x - (side == 'above')),
        'above counted from L+6': lambda p, k, side, x: (side, x + (side == 'above')),
        'below counted from L+7': lambda p, k, side, x: (side, x + 7 * (side == 'below')),
        'below counted from L-1': lambda p, k, side, x: (side, x - (side == 'below')),
        'below counted from L+1': lambda p, k, side, x: (side, x + (side == 'below')),
        'both one less': lambda p, k, side, x: (side, x - 1),
        'both one more': lambda p, k, side, x: (side, x + 1),
        'from the centre': lambda p, k, side, x: (side, abs(k - (p.l + 4))),
        'from L+8, where the pattern begins': lambda p, k, side, x: (side, abs(k - (p.l + 8))),
        'the sides exchanged': lambda p, k, side, x: (exchanged[side], x),
        'always below': lambda p, k, side, x: ('below', x),
        'always above': lambda p, k, side, x: ('above', x),
        'the four in the other order': lambda p, k, side, x: (
            side, DISTANCES[::-1][DISTANCES.index(x)]),
        'which of the four': lambda p, k, side, x: (side, DISTANCES.index(x) + 1),
        'which of the eight': lambda p, k, side, x: (side, Model().predefined(p.l).index(k)),
        'the subcarrier': lambda p, k, side, x: (side, k),
        'record 0': lambda p, k, side, x: ('record', 0),
        'the phase': lambda p, k, side, x: ('phase', meeting(p.l, k)),
    }
    for d in DISTANCES:
        for which in ('below', 'above'):
            for step in (-1, 1):
                said['%s %d said %d' % (which, d, d + step)] = (
                    lambda p, k, side, x, d=d, which=which, step=step:
                    (side, x + step) if (side, x) == (which, d) else (side, x))
    for name, distance in said.items():
        yield 'distance: ' + name, bent(distance=lambda self, p, k, distance=distance: distance(
            p, k, *Model.distance(self, p, k)))

    def for_further(self, p, records, role, k):
        return (self.distance(p, k) if role == 'continuous'
                else Model.reason(self, p, records, role, k))
    yield 'distance: of further pilots too', bent(reason=for_further)


def predefined_mutants():
    """Other predefined pilots."""
    for n in range(8):
        for step in (-1, 1, None):
            def predefined(self, l, n=n, step=step):
                eight = Model.predefined(self, l)
                return eight[:n] + ([] if step is None else [eight[n] + step]) + eight[n + 1:]
            what = 'missing' if step is None else 'moved by %d' % step
            yield 'predefined pilot %d %s' % (n, what), bent_role(predefined=predefined)
    yield 'predefined pilots above counted from L', bent_role(predefined=lambda self, l: [
        *(l - d for d in DISTANCES), *(l + d for d in DISTANCES)])
    yield 'predefined pilots below counted from L+7', bent_role(predefined=lambda self, l: [
        *(l + 7 - d for d in DISTANCES), *(l + 7 + d for d in DISTANCES)])


def phase_mutants():
    """Another phase said."""
    said = {
        'one more': lambda p, k, q: (q + 1) % 128,
        'one less': lambda p, k, q: (q - 1) % 128,
        'one more, up to 128': lambda p, k, q: q + 1,
        '128 for 0': lambda p, k, q: q or 128,
        '0 for 127': lambda p, k, q: q % 127,
        'modulo 64': lambda p, k, q: q % 64,
        'modulo 32': lambda p, k, q: q % 32,
        'modulo 127': lambda p, k, q: (k - p.l - 8) % 127,
        'modulo 129': lambda p, k, q: (k - p.l - 8) % 129,
        'modulo 256': lambda p, k, q: (k - p.l - 8) % 256,
        'from subcarrier 0': lambda p, k, q: k % 128,
        'from subcarrier 8': lambda p, k, q: (k - 8) % 128,
        'from L': lambda p, k, q: (k - p.l) % 128,
        'from L+7': lambda p, k, q: (k - p.l - 7) % 128,
        'from the lowest active': lambda p, k, q: (k - p.excluded.find(0)) % 128,
        'falling': lambda p, k, q: -q % 128,
        'from 127 down': lambda p, k, q: 127 - q,
        'of the distance from L+8': lambda p, k, q: abs(k - p.l - 8) % 128,
        'negative below L+8': lambda p, k, q: q - 128 if k < p.l + 8 and q else q,
        '0 below L+8': lambda p, k, q: q if k >= p.l + 8 else 0,
        '0 above L+8': lambda p, k, q: q if k <= p.l + 8 else 0,
        'how many periods': lambda p, k, q: (k - p.l - 8) // 128,
        'not reduced': lambda p, k, q: k - p.l - 8,
        'the rank': lambda p, k, q: Model().ranks_of(p).index(k) % 128,
        '0': lambda p, k, q: 0,
    }
    for name, phase in said.items():
        yield 'phase: ' + name, bent(scattered_phase=lambda self, p, k, phase=phase: phase(
            p, k, phase_of(p, k)))


def asked_mutants():
    """Another phase said of data alone or of scattered pilots alone, also by the phase asked."""
    numbers = {
        'one more': lambda q, phase: (q + 1) % 128,
        'one less': lambda q, phase: (q - 1) % 128,
        'how many phases on': lambda q, phase: (q - phase) % 128,
        'how many phases ago': lambda q, phase: (phase - q) % 128,
        '0': lambda q, phase: 0,
    }
    for role in ('data', 'scattered'):
        for name, number in numbers.items():
            yield 'phase of %s: %s' % (role, name), saying(
                lambda said, kind, n, phase, role=role, number=number:
                (said, kind, number(n, phase) if said == role else n))
    yield 'phase of data: the phase asked', saying(
        lambda role, kind, n, phase: (role, kind, phase if role == 'data' else n))


def pattern_mutants():
    """Another pattern, with the roles as well."""
    for name, model in grid_mutants():
        yield name, remembering(model)


def ordered(order):
    """Role at a phase: the first that applies, in another order."""
    def role_of(self, p, k, phase):
        holds = {'excluded': p.excluded[k], 'plc': self.is_plc(p, k),
                 'continuous': k in self.predefined(p.l) or k in [x for _, x in p.pilots],
                 'scattered': self.on_grid(p, k, phase)}
        return next((name for name in order if holds[name]), 'data')
    return bent_role(role_of=role_of)


def word_mutants():
    """Roles in another order; two roles, or two kinds of reason, exchanged."""
    roles = (*EARLY, 'scattered')
    for order in permutations(roles):
        if order != roles:
            yield 'order: ' + ', '.join(order), ordered(order)

    def further_first(self, p, records, role, k):
        if k in [pilot for _, pilot in p.pilots]:
            return ('record', self.naming_record(records, k))
        return Model.reason(self, p, records, role, k)
    yield 'order: further pilots before predefined', bent(reason=further_first)
    for a, b in combinations((*roles, 'data'), 2):
        yield 'roles exchanged: %s, %s' % (a, b), saying(
            lambda role, kind, n, phase, other={a: b, b: a}: (other.get(role, role), kind, n))
    for a, b in combinations(('record', 'below', 'above', 'phase'), 2):
        yield 'kinds exchanged: %s, %s' % (a, b), saying(
            lambda role, kind, n, phase, other={a: b, b: a}: (role, other.get(kind, kind), n))
    yield 'scattered at every phase', saying(
        lambda role, kind, n, phase: ('scattered' if role == 'data' else role, kind, n))
    yield 'scattered at no phase', saying(
        lambda role, kind, n, phase: ('data' if role == 'scattered' else role, kind, n))


def range_mutants():
    """Ground 16 with other limits, or of some bits only."""
    tests = {
        'subcarrier 4095 out': lambda k, j: k > 4094 or j > 127,
        'subcarrier 4096 in': lambda k, j: k > 4096 or j > 127,
        'subcarrier 0 out': lambda k, j: k == 0 or k > 4095 or j > 127,
        'phase 127 out': lambda k, j: k > 4095 or j > 126,
        'phase 128 in': lambda k, j: k > 4095 or j > 128,
        'phase 0 out': lambda k, j: k > 4095 or not 0 < j < 128,
        'the subcarrier not tried': lambda k, j: j > 127,
        'the phase not tried': lambda k, j: k > 4095,
        'only where both are out': lambda k, j: k > 4095 and j > 127,
        'not where both are out': lambda k, j: (k > 4095) != (j > 127),
        'a phase up to 255 in': lambda k, j: k > 4095 or j > 255,
    }
    for name, test in tests.items():
        yield '16: ' + name, bent(out_of_range=lambda self, k, phase, test=test: test(k, phase))
    for bits in (12, 13, 16, 24, 31):
        yield '16: %d bits of the subcarrier' % bits, bent(
            why=lambda self, data, k, phase, low=1 << bits: Model.why(self, data, k % low, phase))
    for bits in (7, 8, 16, 24, 31):
        yield '16: %d bits of the phase' % bits, bent(
            why=lambda self, data, k, phase, low=1 << bits: Model.why(self, data, k, phase % low))


def refusal_mutants():
    """Ground 16 not tried of some roles, or said with another number or place."""
    for role in (*EARLY, 'data', 'scattered'):
        def why(self, data, k, phase, role=role):
            answer = Model.why(self, data, k, phase % PHASES)
            return answer if answer[0] == role else Model.why(self, data, k, phase)
        yield '16: no phase too high where the role is %s' % role, bent(why=why)
    numbers = {
        'number 15': lambda k, phase: (15, 0),
        'number 17': lambda k, phase: (17, 0),
        'place 1': lambda k, phase: (16, 1),
        'place the subcarrier': lambda k, phase: (16, k),
        'place the phase': lambda k, phase: (16, phase),
    }
    for name, said in numbers.items():
        def other(self, data, k, phase, said=said):
            answer = Model.why(self, data, k, phase)
            return ('refused', *said(k, phase)) if answer == ('refused', 16, 0) else answer
        yield '16: ' + name, bent(why=other)


def order_mutants():
    """Ground 16 tried before 1 to 15, or before one of them."""
    def before(test):
        return bent(asked=lambda self, data, k, phase: ('refused', 16, 0)
                    if test(judged(data), k, phase) else Model.asked(self, data, k, phase))
    yield '16 before 1 to 15', before(lambda p, k, j: k > 4095 or j > 127)
    yield '16 before 1 to 15: the subcarrier', before(lambda p, k, j: k > 4095)
    yield '16 before 1 to 15: the phase', before(lambda p, k, j: j > 127)
    for ground in range(1, 16):
        for what, test in (('subcarrier', lambda k, j: k > 4095), ('phase', lambda k, j: j > 127)):
            yield '16 before %d: the %s' % (ground, what), before(
                lambda p, k, j, ground=ground, test=test:
                test(k, j) and isinstance(p, tuple) and p[1] == ground)


def without(ground):
    """A model that does not try this ground of 1 to 15."""
    class Without(Remembering):
        record_order = tuple(g for g in Model.record_order if g != ground)
        map_order = tuple(g for g in Model.map_order if g != ground)
        chain = Model.chain

        def judge(self, data):
            p = judged(data)
            refused = isinstance(p, tuple) and p[1] == ground
            return Model.judge(self, data) if refused else p

        def read(self, data, i):        # the chain must still end
            r = Model.read(self, data, i)
            sound = ground != 3 or i < r.next < len(data) // 8
            return r if sound else r._replace(next=0)

        def length_is_bad(self, length):
            return ground != 1 and Model.length_is_bad(self, length)
    return Without()


def plan_mutants():
    """The plan's own grounds: another number or place, one not tried, a limit moved by one."""
    def judging(change):
        def judge(self, data):
            p = judged(data)
            return change(p) if isinstance(p, tuple) else p
        return bent(judge=judge)
    yield 'number and place exchanged', judging(lambda p: ('refused', p[2], p[1]))
    for ground in range(1, 16):
        for step in (-1, 1):
            yield 'place of %d moved by %d' % (ground, step), judging(
                lambda p, ground=ground, step=step:
                ('refused', ground, p[2] + step) if p[1] == ground else p)
        yield 'ground %d not tried' % ground, without(ground)
    for field in fields(Limits):
        value = field.default
        for other in (value - 1, value + 1):
            yield ('limit %s %d -> %d' % (field.name, value, other),
                   remembering(Model(replace(Limits(), **{field.name: other}))))


def all_mutants():
    return chain([('nothing', bent())], *(mutants() for mutants in (
        choice_mutants, search_mutants, reading_mutants, test_mutants, index_mutants, plc_mutants,
        distance_mutants, predefined_mutants, phase_mutants, asked_mutants, pattern_mutants,
        word_mutants, range_mutants, refusal_mutants, order_mutants, plan_mutants)))


def try_mutants(cases, lines):
    def change_of(_, model):
        return stored.first_change(line_of, cases, lines, model)
    return stored.try_mutants(all_mutants(), change_of, EQUIVALENT, len(cases))


# --- the run ---------------------------------------------------------------

def main():
    cases, lines, given, wanted = make()
    print('%d cases, %d bytes' % (len(cases), len(given)))
    stored.run('whycases', given, wanted, lambda: try_mutants(cases, lines))


if __name__ == '__main__':
    main()
