#!/usr/bin/env python3
"""Makes the test data of trycases from the second model.

    python3 tests/tries.py              writes crates/trycases/stdin and stdout
    python3 tests/tries.py --check      compares them, exits 1 on a difference
    python3 tests/tries.py --mutants    bends the model in many ways, each of
                                        which must change a line of stdout;
                                        exits 1 if one does not

stdin holds, for each case, the plan's length as four bytes, the first and the
last number of the range as two bytes each, high byte first, and then the plan;
the end of the input ends the list.  stdout holds the line of each case, as
trycheck prints it: `ok 421 3` (N_I of the copy, how many are scattered at phase
0) or `refused 14 835` (number, place).
"""

import sys
from dataclasses import fields, replace
from functools import lru_cache
from itertools import chain, cycle

sys.dont_write_bytecode = True

import plans
import stored
from model import Limits, Map, Model, trial_line
from mutants import rising_chain
from plans import (LARGEST, ONE_PILOT_FEWER, OVERLAPPING_510, PLAN_A, RUBBISH, TWENTY_TWO,
                   band_below, byte1, chained, entries, equal_12, first, full, kind, near_a, near_b,
                   next_index, outside, patch, pilots_of_full, plan, record, second, singles,
                   spread, two_bands)

LONGEST_PLAN = 5000
MOST_CASES = 4000
MOST_BYTES = 700000

# --- the cases -------------------------------------------------------------
#
# A case is (name, plan, first, last, want).  `want` is the line worked out by hand
# from the papers, or None.  For the lines that say ok:
#
# - Plan A has 425 ranks; 852, 980, 1108 and 1236 are scattered at phase 0.
# - near_b, 1000 to 2000 active with L 1500, has 985 ranks; 1124, 1252, 1380, 1508,
#   1636, 1764 and 1892 are scattered at phase 0.
# - full, 148 to 3948 active with L 2000, has 3785 ranks; the 30 from 216 to 3928 in
#   steps of 128 are scattered at phase 0, and none of pilots_of_full(40) is one.
# - With L 204 subcarrier 212 is scattered, with L 3885 subcarrier 3893.

RANGES = ((850, 853), (850, 854), (0, 0), (4095, 4095), (4095, 4096), (854, 850))
ITEMS = entries(972, 4, outside(800, 1240))     # the records of Plan A


def tried(name, data, *rows):
    """The cases of one plan; a row is first, last and the line."""
    return [('%s, %d to %d' % (name, begin, end), data, begin, end, want)
            for begin, end, want in rows]


def neighbours():
    """Plan A and its neighbours in 01, widths counted as in request 02, and docs/PLANS.md:
    each made by the range."""
    cases = tried('plan A', PLAN_A,
                  (850, 853, 'ok 421 3'), (850, 854, 'refused 14 835'),
                  (1240, 1240, 'ok 424 4'), (1240, 4095, 'ok 424 4'),            # 440 left
                  (1239, 1240, 'refused 10 0'), (1239, 4095, 'refused 10 0'),    # 439 left
                  (1181, 1200, 'refused 10 0'), (1180, 1199, 'refused 10 0'),
                  (1182, 1201, 'refused 9 1202'),
                  (839, 858, 'refused 9 800'), (840, 859, 'refused 10 0'),
                  (0, 0, 'ok 425 4'), (0, 799, 'ok 425 4'), (1241, 4095, 'ok 425 4'))
    cases += tried('empty', b'', (850, 853, 'refused 1 0'), (854, 850, 'refused 1 0'))
    # the singles 810, 820 up to 870, each tried on the plan with those before it
    for k, want in zip(range(810, 871, 10), ('ok 424 4', 'ok 423 4', 'ok 422 4', 'ok 421 4',
                                             'ok 420 4', 'ok 419 4', 'refused 13 800')):
        cases += tried('singles 810 up to %d' % (k - 10),
                       near_a(singles(*range(810, k, 10))), (k, k, want))
    # the largest plan, N_I 3745, and with 39 pilots, N_I 3746; pilot 590 is record 42
    cases += tried('40 pilots', LARGEST, (0, 0, 'ok 3745 30'), (1000, 1000, 'ok 3744 30'),
                   (216, 216, 'ok 3744 29'), (590, 590, 'refused 8 42'))
    cases += tried('39 pilots', ONE_PILOT_FEWER, (0, 0, 'refused 15 0'), (216, 216, 'ok 3745 29'),
                   (3948, 3948, 'ok 3745 30'), (590, 590, 'ok 3745 30'), (200, 200, 'refused 8 3'))
    return cases


def range_ends():
    """Ground 4 at the new record: the range ends above 4095 or begins above its end."""
    cases = tried('range on plan A', PLAN_A,
                  (4095, 4095, 'ok 425 4'), (4095, 4096, 'refused 4 3'),
                  (4096, 4096, 'refused 4 3'), (4096, 4095, 'refused 4 3'),
                  (0, 4095, 'refused 7 916'), (0, 4096, 'refused 4 3'),
                  (0, 65535, 'refused 4 3'), (65535, 65535, 'refused 4 3'),
                  (65535, 0, 'refused 4 3'), (1, 0, 'refused 4 3'),
                  (800, 800, 'ok 424 4'), (801, 800, 'refused 4 3'), (800, 801, 'refused 10 0'),
                  (853, 850, 'refused 4 3'), (854, 853, 'refused 4 3'), (4095, 0, 'refused 4 3'))
    # one more bit in either number, or in both
    for more in (4096, 8192, 16384, 32768):
        cases += tried('range on plan A', PLAN_A, (850, 853 + more, 'refused 4 3'),
                       (850 + more, 853, 'refused 4 3'),
                       (850 + more, 853 + more, 'refused 4 3'))
    # 0x0352 to 0x0452, and numbers of one byte only
    cases += tried('range on plan A', PLAN_A, (850, 1106, 'refused 7 916'),
                   (0, 255, 'ok 425 4'), (255, 256, 'ok 425 4'), (256, 255, 'refused 4 3'))
    # 4 at the new record before 6 to 15 of the plan or the copy
    for name, data in (('0 active', plan(972, 4, [(1, 799), (1241, 4095)])),
                       ('ground 7', near_a(singles(916))), ('ground 8', near_a(pilots=[972])),
                       ('ground 14', near_a([(850, 854)]))):
        new = len(data) // 8
        cases += tried(name, data, (854, 850, 'refused 4 %d' % new),
                       (0, 4096, 'refused 4 %d' % new))
    return cases


def plc_windows():
    """Ground 7: L-57, L-56, L+63 and L+64, for Plan A 915, 916, 1035 and 1036."""
    cases = tried('PLC window', PLAN_A,
                  (915, 915, 'ok 424 4'), (916, 916, 'refused 7 916'),
                  (915, 916, 'refused 7 916'), (917, 917, 'refused 7 917'),
                  (1034, 1034, 'refused 7 1034'), (1035, 1035, 'refused 7 1035'),
                  (1036, 1036, 'ok 424 4'), (1035, 1036, 'refused 7 1035'),
                  (972, 972, 'refused 7 972'), (979, 979, 'refused 7 979'),
                  (980, 980, 'refused 7 980'), (925, 925, 'refused 7 925'),
                  (0, 915, 'refused 10 0'), (0, 916, 'refused 7 916'),
                  (1036, 4095, 'refused 10 0'), (1035, 4095, 'refused 7 1035'),
                  (912, 915, 'ok 421 4'), (911, 915, 'refused 14 896'),
                  (1036, 1039, 'ok 421 4'), (1036, 1040, 'refused 14 1021'))
    # 980, 1108 and 1236 are scattered; 440 are left, or one too many excluded
    cases += tried('915 to 1355 active', plan(972, 4, outside(915, 1355)),
                   (915, 915, 'ok 424 3'), (0, 915, 'ok 424 3'), (915, 916, 'refused 7 916'))
    cases += tried('595 to 1036 active', plan(972, 4, outside(595, 1036)),
                   (1036, 1036, 'ok 425 4'), (1035, 1036, 'refused 7 1035'))
    # L at both ends: 212, 340 and 468, and 3509, 3637, 3765 and 3893 are scattered
    cases += tried('L 204', plan(204, 4, outside(148, 588)), (0, 147, 'ok 425 3'),
                   (148, 148, 'refused 7 148'), (0, 4095, 'refused 7 148'),
                   (588, 588, 'ok 424 3'))
    cases += tried('L 3885', plan(3885, 4, outside(3508, 3948)), (3949, 4095, 'ok 425 4'),
                   (3948, 3948, 'refused 7 3948'), (3508, 3509, 'refused 10 0'),
                   (3508, 3508, 'ok 424 4'))
    # 7 before 8, and refused by 7 before
    cases += tried('one pilot', near_a(pilots=[1100]), (0, 4095, 'refused 7 916'))
    cases += tried('1000 excluded', near_a(singles(1000)), (1001, 1001, 'refused 7 1000'),
                   (990, 990, 'refused 7 990'))
    return cases


def further_pilots():
    """Ground 8: a pilot of kind 3 in the range; the place is its record."""
    cases = tried('pilot 1100', near_a(pilots=[1100]),
                  (1100, 1100, 'refused 8 3'), (1099, 1099, 'ok 423 4'),
                  (1101, 1101, 'ok 423 4'), (1097, 1100, 'refused 8 3'),
                  (1096, 1099, 'ok 420 4'), (1101, 1104, 'ok 420 4'),
                  (1099, 1101, 'refused 8 3'), (1108, 1108, 'ok 423 3'))
    cases += tried('pilots 900 and 1100', near_a(pilots=[900, 1100]), (900, 900, 'refused 8 3'),
                   (1100, 1100, 'refused 8 4'), (901, 901, 'ok 422 4'))
    # the first on the chain, not the lowest subcarrier
    cases += tried('pilots 853 and 850', near_a(pilots=[853, 850]), (850, 853, 'refused 8 3'),
                   (850, 852, 'refused 8 4'), (851, 852, 'ok 421 3'))
    cases += tried('pilot in record 1', chained([(1, 972, 4), (3, 900, 0), *ITEMS[1:]]),
                   (900, 900, 'refused 8 1'), (850, 853, 'ok 420 3'))
    apart = spread(entries(972, 4, outside(800, 1240), [900, 1100]), [0, 3, 5, 6, 9], 11,
                   record(3, 0, 852, 0))
    cases += tried('pilots in records 6 and 9', apart, (1100, 1100, 'refused 8 9'),
                   (900, 900, 'refused 8 6'), (850, 853, 'ok 419 3'))
    # a pilot of the plan that 8 refuses itself: excluded before, in the PLC, named twice
    cases += tried('pilot 700', near_a(pilots=[700]), (850, 853, 'refused 8 3'))
    cases += tried('pilots 1100 and 972', near_a(pilots=[1100, 972]), (850, 853, 'refused 8 4'),
                   (1100, 1100, 'refused 8 3'))
    cases += tried('pilots 900, 901 and 900', near_a(pilots=[900, 901, 900]),
                   (850, 853, 'refused 8 5'), (901, 901, 'refused 8 4'))
    cases += tried('pilots 852, 980 and 1108', near_a(pilots=[852, 980, 1108]),
                   (1236, 1236, 'ok 421 0'), (1235, 1235, 'ok 421 1'))
    # 120 pilots, 200 up to 1390, and one more record; 984 is scattered and no pilot
    cases += tried('120 pilots', full(pilots=pilots_of_full(120)), (1000, 1000, 'refused 8 83'),
                   (3000, 3000, 'ok 3664 28'), (984, 984, 'ok 3664 27'))
    return cases


def bands():
    """Grounds 9 and 10: a band is left with 39 or 40 subcarriers, none with 440."""
    cases = tried('near B', near_b(),
                  (1040, 1059, 'ok 965 7'), (1039, 1058, 'refused 9 1000'),
                  (1941, 1960, 'ok 965 7'), (1942, 1961, 'refused 9 1962'),
                  (1000, 1018, 'ok 966 7'), (1982, 2000, 'ok 966 7'),
                  (1100, 1119, 'ok 965 7'), (1120, 1139, 'ok 965 6'))
    cases += tried('second band of 40', two_bands(1300, 1339), (1339, 1339, 'refused 9 1300'),
                   (1300, 1300, 'refused 9 1301'), (1340, 1340, 'ok 465 4'))
    cases += tried('second band of 41', two_bands(1300, 1340), (1340, 1340, 'ok 465 4'),
                   (1300, 1300, 'ok 465 4'), (1300, 1301, 'refused 9 1302'),
                   (1300, 1340, 'ok 425 4'))
    # 724 is scattered too
    cases += tried('lower band of 40', band_below(700, 739), (700, 700, 'refused 9 701'),
                   (739, 739, 'refused 9 700'), (700, 739, 'ok 425 4'), (740, 760, 'ok 465 5'))
    # 852, 980, 1108, 1236, 1364, 1492 and 1620 are scattered: bands of 440 and 440, of
    # 439 and 440, of 439 and 439, of 440 and 438
    cases += tried('800 to 1699 active', plan(972, 4, outside(800, 1699)),
                   (1240, 1259, 'ok 864 7'))
    cases += tried('800 to 1698 active', plan(972, 4, outside(800, 1698)),
                   (1239, 1258, 'ok 863 7'))
    cases += tried('800 to 1697 active', plan(972, 4, outside(800, 1697)),
                   (1239, 1258, 'refused 10 0'), (1240, 1259, 'ok 862 7'))
    cases += tried('one band', PLAN_A, (860, 879, 'refused 10 0'), (861, 879, 'refused 13 800'))
    cases += tried('440 active', plan(972, 4, outside(800, 1239)), (800, 800, 'refused 10 0'),
                   (1239, 1239, 'refused 10 0'), (1240, 1240, 'ok 424 4'),
                   (1238, 1238, 'ok 423 4'))
    return cases


def shares():
    """Ground 11, five times the excluded and the span; ground 12, twenty times a band's."""
    # 800 to 1240, 121 excluded, 1362 to 1404: 5 x 121 = 605 = the span; 1364 is scattered
    cases = tried('a fifth', two_bands(1362, 1404),
                  (0, 0, 'ok 468 5'), (1404, 1404, 'refused 11 0'), (800, 800, 'refused 11 0'),
                  (1100, 1100, 'refused 11 0'), (1300, 1310, 'ok 468 5'))
    cases += tried('120 between', two_bands(1361, 1404), (1361, 1361, 'ok 468 5'),
                   (1361, 1362, 'refused 11 0'))
    cases += tried('a span of 610', two_bands(1362, 1409), (1100, 1100, 'ok 472 5'),
                   (1100, 1101, 'refused 11 0'))
    cases += tried('a span of 609', two_bands(1362, 1408), (1100, 1100, 'refused 11 0'))
    # 20 x 2 = 40, 20 x 3 = 60
    cases += tried('one of 40', two_bands(1300, 1339, singles(1310)), (1330, 1330, 'ok 463 4'),
                   (1320, 1321, 'refused 12 1300'))
    cases += tried('two of 40', two_bands(1300, 1339, singles(1310, 1330)),
                   (1320, 1320, 'refused 12 1300'), (1310, 1310, 'ok 463 4'))
    for width, want in ((59, 'refused 12 1300'), (60, 'ok 482 4')):
        cases += tried('two of %d' % width,
                       two_bands(1300, 1299 + width, singles(1310, 1320)), (1330, 1330, want))
    cases += tried('three of 60', two_bands(1300, 1359, singles(1310, 1320, 1330)),
                   (1359, 1359, 'refused 12 1300'), (1300, 1300, 'refused 12 1301'),
                   (1100, 1100, 'ok 481 4'))
    # 20 x 22 = 440; L is 1017, and 897, 1025 and 1153 are scattered
    cases += tried('22 of 440', equal_12(), (870, 870, 'refused 12 800'),
                   (942, 942, 'refused 12 800'), (801, 804, 'ok 402 3'))
    cases += tried('21 of 440', plan(1017, 4, outside(800, 1239) + singles(*TWENTY_TWO[:-1])),
                   (1098, 1098, 'ok 402 3'), (1098, 1099, 'refused 12 800'))
    return cases


def windows():
    """Grounds 13 and 14: the seventh excluded of a window of 120, the fifth of one of 20."""
    # seven from 1010 to 1129, from 1001 to 1110, from 1070 to 1189: the lowest window that
    # holds them
    six = near_b(singles(1010, 1030, 1050, 1070, 1090, 1110))
    cases = tried('six singles', six, (1128, 1128, 'refused 13 1009'),
                  (1129, 1129, 'refused 13 1010'), (1130, 1130, 'ok 978 7'),
                  (1000, 1000, 'ok 978 7'), (1001, 1001, 'refused 13 1000'),
                  (1110, 1110, 'ok 979 7'), (1187, 1190, 'ok 975 7'),
                  (1186, 1189, 'refused 13 1070'))
    # five from 1100 to 1119, from 1084 to 1103
    cases += tried('four together', near_b([(1100, 1103)]), (1118, 1118, 'refused 14 1099'),
                   (1119, 1119, 'refused 14 1100'), (1120, 1120, 'ok 980 7'),
                   (1084, 1084, 'refused 14 1084'), (1083, 1083, 'ok 980 7'))
    # inside the band, then touching the exclusion bands 0 to 999 and 2001 to 4095, then so
    # many that a window of 120 has seven
    cases += tried('together', near_b(), (1100, 1103, 'ok 981 7'), (1100, 1104, 'refused 14 1085'),
                   (1124, 1127, 'ok 981 6'), (1001, 1004, 'ok 981 7'),
                   (1001, 1005, 'refused 14 1000'), (1996, 1999, 'ok 981 7'),
                   (1995, 1999, 'refused 14 1980'), (1000, 1004, 'ok 980 7'),
                   (1996, 2000, 'ok 980 7'), (1100, 1105, 'refused 14 1085'),
                   (1100, 1106, 'refused 13 1000'), (1100, 1118, 'refused 13 1000'))
    cases += tried('850 to 853 excluded', near_a([(850, 853)]), (850, 853, 'ok 421 3'),
                   (851, 852, 'ok 421 3'), (854, 854, 'refused 14 835'),
                   (849, 849, 'refused 14 834'), (849, 854, 'refused 14 834'))
    # refused before, and by another ground or place after
    cases += tried('850 to 854 excluded', near_a([(850, 854)]), (845, 845, 'refused 14 834'),
                   (830, 833, 'refused 13 800'), (916, 916, 'refused 7 916'),
                   (1239, 1240, 'refused 10 0'), (1240, 1240, 'refused 14 835'))
    return cases


def ends_mended():
    """Plans that 6 or 15 refuses and the range mends, or just not."""
    cases = tried('4095 active', plan(972, 4, [(0, 799), (1241, 4094)]),
                  (4095, 4095, 'ok 425 4'), (4094, 4094, 'refused 6 4095'))
    cases += tried('only 0 active', plan(972, 4, [(1, 799), (1241, 4095)]), (0, 0, 'ok 425 4'),
                   (1, 1, 'refused 6 0'))
    cases += tried('100 and 120 active', plan(972, 4, [(0, 99), (101, 119), (121, 799),
                                                       (1241, 4095)]),
                   (100, 120, 'ok 425 4'), (100, 119, 'refused 6 120'), (101, 120, 'refused 6 100'))
    cases += tried('147 active', plan(204, 4, outside(147, 588)), (147, 147, 'ok 425 3'),
                   (146, 146, 'refused 6 147'), (148, 148, 'refused 6 147'),
                   (147, 148, 'refused 7 148'))
    cases += tried('3949 active', plan(3885, 4, outside(3508, 3949)), (3949, 3949, 'ok 425 4'),
                   (3950, 4095, 'refused 6 3949'), (3948, 3949, 'refused 7 3948'))
    # 852 and every 128th up to 3924 are scattered
    cases += tried('no upper range', plan(972, 4, [(0, 799)]), (1241, 4095, 'ok 425 4'),
                   (1242, 4095, 'ok 426 4'), (1241, 4094, 'refused 6 4095'),
                   (1241, 3948, 'refused 6 3949'), (3949, 4095, 'ok 3133 25'),
                   (3948, 4095, 'ok 3132 25'), (3950, 4095, 'refused 6 3949'))
    # 3746 ranks become 3745; of the singles 150, 175 up to 1100 one, 600, stands where 29
    # others are scattered, and above 3909 one more, 3928, would be
    cases += tried('187 to 3948 active', plan(2000, 32, outside(187, 3948)),
                   (187, 187, 'ok 3745 30'), (186, 186, 'refused 15 0'),
                   (2008, 2008, 'refused 7 2008'))
    cases += tried('39 singles', full(singles(*range(150, 1125, 25))),
                   (1125, 1125, 'ok 3745 29'), (1100, 1100, 'refused 15 0'),
                   (2136, 2136, 'ok 3745 28'))
    cases += tried('no pilots', full(), (1000, 1039, 'ok 3745 30'), (1000, 1038, 'refused 15 0'),
                   (148, 187, 'ok 3745 30'), (148, 186, 'refused 15 0'))
    cases += tried('148 to 3909 active', plan(2000, 32, outside(148, 3909)),
                   (3909, 3909, 'ok 3745 29'), (3910, 3910, 'refused 15 0'))
    return cases


def bands_mended():
    """Plans that 9 or 11 to 14 refuses and the range mends; runs of 19 become 20."""
    cases = tried('second band of 39', two_bands(1300, 1338), (1300, 1338, 'ok 425 4'),
                  (1299, 1339, 'ok 425 4'), (1300, 1337, 'refused 9 1338'),
                  (1301, 1338, 'refused 9 1300'), (1339, 1339, 'refused 9 1300'))
    # 1119 alone between two of 20
    cases += tried('band of 1', near_b([(1099, 1118), (1120, 1139)]), (1119, 1119, 'ok 944 6'),
                   (1118, 1118, 'refused 9 1119'))
    cases += tried('more than a fifth', two_bands(1362, 1403), (1362, 1403, 'ok 425 4'),
                   (1362, 1362, 'refused 11 0'), (1362, 1364, 'refused 9 1365'))
    # 1311 to 1358 with two of 48
    cases += tried('three of 59', two_bands(1300, 1358, singles(1310, 1320, 1330)),
                   (1300, 1310, 'ok 471 4'), (1358, 1358, 'refused 12 1300'))
    cases += tried('run of 19', near_b([(1100, 1118)]), (1119, 1119, 'ok 965 7'),
                   (1099, 1099, 'ok 965 7'), (1099, 1119, 'ok 964 7'),
                   (1120, 1120, 'refused 13 1000'), (1098, 1098, 'refused 13 1000'),
                   (1118, 1118, 'refused 13 1000'), (1000, 1099, 'ok 866 7'))
    cases += tried('runs of 9 and 10', near_b([(1100, 1108), (1110, 1119)]),
                   (1109, 1109, 'ok 965 7'), (1104, 1104, 'refused 13 1000'),
                   (1120, 1120, 'refused 13 1000'))
    # the run of 20 leaves 1000 to 1019; all of it excluded, 1039 to 2000 are left
    cases += tried('run of 19 near the end', near_b([(1020, 1038)]),
                   (1039, 1039, 'refused 9 1000'), (1000, 1019, 'ok 946 7'),
                   (1000, 1018, 'refused 13 1019'))
    # with 1000 the run touches the exclusion band 0 to 999
    cases += tried('1001 to 1004 excluded', near_b([(1001, 1004)]), (1000, 1000, 'ok 980 7'),
                   (1005, 1005, 'refused 14 1000'))
    cases += tried('five together', near_b([(1100, 1104)]), (1105, 1119, 'ok 965 7'),
                   (1105, 1118, 'refused 13 1000'), (1085, 1099, 'ok 965 7'),
                   (1086, 1099, 'refused 13 1000'), (1104, 1104, 'refused 14 1085'))
    return cases


def refused_1():
    """(name, plan, line) of plans that ground 1 refuses."""
    for length in (1, 7, 12, 20, 23):
        yield 'first %d bytes of plan A' % length, PLAN_A[:length], 'refused 1 0'
    yield 'zeros, 9', bytes(9), 'refused 1 0'
    yield '25 bytes', PLAN_A + b'\0', 'refused 1 0'
    yield '28 bytes', PLAN_A + b'\0' * 4, 'refused 1 0'
    yield '4097 bytes', PLAN_A + b'\0' * 4073, 'refused 1 0'
    yield '513 records', PLAN_A + b'\0' * 4080, 'refused 1 0'


def refused_2_3():
    """(name, plan, line) of plans that 2 or 3 refuses, at several records."""
    pilot = near_a(pilots=[900])
    apart = spread(ITEMS, [0, 3, 7], 9)
    for i, value in ((0, 2), (0, 0), (1, 1), (1, 4), (2, 1), (2, 4)):
        yield 'kind of record %d is %d' % (i, value), kind(PLAN_A, i, value), 'refused 2 %d' % i
    for i in (0, 1, 2):
        yield 'byte 1 of record %d' % i, byte1(PLAN_A, i, 1), 'refused 2 %d' % i
    yield 'second number of a pilot', second(pilot, 3, 1), 'refused 2 3'
    yield 'rubbish on the chain', next_index(apart, 7, 8), 'refused 2 8'
    for i, value in ((0, 3), (1, 1), (1, 3), (1, 65535)):
        yield ('next of record %d is %d' % (i, value), next_index(PLAN_A, i, value),
               'refused 3 %d' % i)
    # the next index of the last chain record, which the copy would set
    for value in (1, 2, 3, 4, 256, 768, 65535):
        yield 'next of the last is %d' % value, next_index(PLAN_A, 2, value), 'refused 3 2'
    yield 'next of the pilot is 4', next_index(pilot, 3, 4), 'refused 3 3'
    yield 'next of record 0 alone is 1', record(1, 1, 972, 4), 'refused 3 0'
    yield 'chain back from 7 to 5', next_index(apart, 7, 5), 'refused 3 7'
    yield 'chain from 7 past the end', next_index(apart, 7, 9), 'refused 3 7'


def refused_4_5():
    """(name, plan, line) of plans that 4 or 5 refuses, and of two grounds at once."""
    many = full(pilots=pilots_of_full(122))
    for value in (203, 3886, 4096):
        yield 'L %d' % value, first(PLAN_A, 0, value), 'refused 4 0'
    for value in (0, 33):
        yield 'M %d' % value, second(PLAN_A, 0, value), 'refused 4 0'
    yield 'range of record 1 backwards', first(PLAN_A, 1, 800), 'refused 4 1'
    yield 'range of record 2 ends at 4096', second(PLAN_A, 2, 4096), 'refused 4 2'
    yield 'pilot 4096', near_a(pilots=[4096]), 'refused 4 3'
    yield '122 pilots', many, 'refused 5 123'
    # two of them: that of the first record, or the lower one
    yield '2 and 3 in a record', next_index(kind(PLAN_A, 2, 4), 2, 3), 'refused 2 2'
    yield '3 and 4 in a record', next_index(second(PLAN_A, 2, 4096), 2, 3), 'refused 3 2'
    yield '2, then 3', kind(next_index(PLAN_A, 2, 3), 1, 4), 'refused 2 1'
    yield '4, then 3', second(next_index(PLAN_A, 2, 3), 1, 4096), 'refused 4 1'
    yield '5, then 2', kind(many, 124, 9), 'refused 5 123'


def plan_first():
    """Grounds 1 to 5 of the plan come first, whatever the range is.  Of the longer plans
    one range is tried, a bad one."""
    cases = []
    for name, data, want in chain(refused_1(), refused_2_3(), refused_4_5()):
        ranges = ((850, 853), (4095, 4096), (854, 850)) if len(data) < 500 else ((854, 850),)
        cases += tried(name, data, *((begin, end, want) for begin, end in ranges))
    return cases


# 512 records, all of them on the chain
ALL_512 = plan(972, 4, [(n, 799) for n in range(510)] + [(1241, 4095)])


def no_room():
    """Plans of 512 records: the copy is refused by 1, with a bad range too, unless 2 to 5
    refuses the plan."""
    short = PLAN_A + RUBBISH * 509
    cases = tried('512 on the chain', ALL_512, (850, 853, 'refused 1 0'), (854, 850, 'refused 1 0'))
    cases += tried('512, three on the chain', short, (850, 853, 'refused 1 0'),
                   (850, 854, 'refused 1 0'), (854, 850, 'refused 1 0'),
                   (4095, 4096, 'refused 1 0'))
    cases += tried('512, the last on the chain', spread(ITEMS, [0, 510, 511], 512),
                   (850, 853, 'refused 1 0'))
    cases += tried('512, record 0 alone', record(1, 0, 972, 4) + bytes(4088),
                   (0, 799, 'refused 1 0'))
    cases += tried('512, refused by 14', near_a([(850, 854)]) + RUBBISH * 508,
                   (1240, 1240, 'refused 1 0'))
    for name, data, want in (
            ('kind of record 511', kind(ALL_512, 511, 4), 'refused 2 511'),
            ('kind of record 0', kind(ALL_512, 0, 2), 'refused 2 0'),
            ('kind of record 2 of three', kind(short, 2, 4), 'refused 2 2'),
            ('record 511 to 512', next_index(ALL_512, 511, 512), 'refused 3 511'),
            ('record 511 to itself', next_index(ALL_512, 511, 511), 'refused 3 511'),
            ('record 2 of three to 512', next_index(short, 2, 512), 'refused 3 2'),
            ('range of record 256 backwards', first(ALL_512, 256, 800), 'refused 4 256'),
            ('range of record 511', second(ALL_512, 511, 4096), 'refused 4 511'),
            ('M 33', second(short, 0, 33), 'refused 4 0'),
            ('121 pilots', full(pilots=pilots_of_full(121)) + RUBBISH * 388, 'refused 5 123')):
        assert len(data) == 4096
        cases += tried('512, ' + name, data, (854, 850, want))
    return cases


def room_for_one():
    """Plans of 511 records, and of 510."""
    cases = tried('511 on the chain', OVERLAPPING_510, (850, 853, 'ok 421 3'),
                  (850, 854, 'refused 14 835'), (854, 850, 'refused 4 511'),
                  (4095, 4096, 'refused 4 511'))
    cases += tried('511, three on the chain', PLAN_A + RUBBISH * 508, (850, 853, 'ok 421 3'),
                   (850, 854, 'refused 14 835'), (854, 850, 'refused 4 511'))
    cases += tried('511, the last on the chain', spread(ITEMS, [0, 509, 510], 511),
                   (850, 853, 'ok 421 3'), (854, 850, 'refused 4 511'))
    cases += tried('511, record 0 alone', record(1, 0, 972, 4) + RUBBISH * 510,
                   (0, 799, 'refused 6 3949'), (0, 4095, 'refused 7 916'),
                   (801, 800, 'refused 4 511'))
    cases += tried('511, a pilot in record 510', spread(entries(972, 4, outside(800, 1240), [900]),
                                                        [0, 1, 2, 510], 511),
                   (900, 900, 'refused 8 510'), (850, 853, 'ok 420 3'))
    cases += tried('511, no upper range', spread(ITEMS[:2], [0, 1], 511), (1241, 4095, 'ok 425 4'))
    cases += tried('511, the last to 511', next_index(OVERLAPPING_510, 510, 511),
                   (850, 853, 'refused 3 510'))
    cases += tried('510, three on the chain', PLAN_A + RUBBISH * 507, (850, 853, 'ok 421 3'),
                   (854, 850, 'refused 4 510'))
    return cases


FILLERS = (
    ('zeros', bytes(8)), ('0xFF', RUBBISH), ('kind 1', record(1, 0, 972, 4)),
    ('kind 4', record(4, 0, 1, 1)), ('byte 1', record(2, 0, 1, 1, byte1=1)),
    ('a range in the PLC', record(2, 0, 972, 972)),
    ('a range of everything', record(2, 0, 0, 4095)),
    ('a sound range', record(2, 0, 860, 860)), ('a range backwards', record(2, 0, 9, 3)),
    ('a range past the end', record(2, 0, 9, 4096)), ('a sound pilot', record(3, 0, 900, 0)),
    ('a pilot in the range', record(3, 0, 852, 0)), ('a pilot in the PLC', record(3, 0, 972, 0)),
    ('a pilot with a second number', record(3, 0, 900, 1)),
    ('a next index of 1', record(2, 1, 1, 1)), ('a next index of 6', record(2, 6, 1, 1)),
    ('a next index past the end', record(2, 65535, 1, 1)))


def off_chain():
    """Records off the chain, between and behind its records, hold anything."""
    cases = []
    # three places of the chain of Plan A in six records
    for name, filler in FILLERS:
        cases += tried('between and behind: ' + name, spread(ITEMS, [0, 2, 4], 6, filler),
                       (850, 853, 'ok 421 3'), (854, 850, 'refused 4 6'))
        cases += tried('behind: ' + name, PLAN_A + filler * 3, (850, 853, 'ok 421 3'),
                       (850, 854, 'refused 14 835'), (4095, 4096, 'refused 4 6'))
        cases += tried('between: ' + name, spread(ITEMS, [0, 3, 5], 6, filler),
                       (850, 853, 'ok 421 3'), (854, 850, 'refused 4 6'))
    return cases


def chain_ends():
    """Where the chain ends: at record 0, before the last record, at it; in a pilot."""
    alone = record(1, 0, 972, 4)
    cases = []
    for name, data, new in (('alone', alone, 1), ('of three', alone + PLAN_A[8:], 3)):
        cases += tried('record 0 ' + name, data, (0, 799, 'refused 6 3949'),
                       (1241, 4095, 'refused 6 0'), (0, 0, 'refused 6 1'),
                       (0, 4095, 'refused 7 916'), (801, 800, 'refused 4 %d' % new),
                       (4096, 4096, 'refused 4 %d' % new))
    cases += tried('chain 0 1 of three', next_index(PLAN_A, 1, 0), (1241, 4095, 'ok 425 4'),
                   (1242, 4095, 'ok 426 4'), (1241, 4094, 'refused 6 4095'),
                   (850, 853, 'refused 6 3949'), (854, 850, 'refused 4 3'))
    cases += tried('chain 0 2 of three', next_index(PLAN_A, 0, 2), (0, 799, 'ok 425 4'),
                   (0, 798, 'ok 426 4'), (1, 799, 'refused 6 0'), (850, 853, 'refused 6 0'),
                   (854, 850, 'refused 4 3'))
    for places, total in (([0, 5, 9], 12), ([0, 5, 9], 10), ([0, 1, 9], 30), ([0, 28, 29], 30)):
        cases += tried('chain %s of %d' % (places, total), spread(ITEMS, places, total),
                       (850, 853, 'ok 421 3'), (850, 854, 'refused 14 835'),
                       (801, 800, 'refused 4 %d' % total))
    # the last chain record is a pilot
    ends_in_pilot = spread(entries(972, 4, outside(800, 1240), [900]), [0, 2, 3, 5], 7)
    cases += tried('the last is a pilot', near_a(pilots=[900]), (850, 853, 'ok 420 3'),
                   (850, 854, 'refused 14 835'), (854, 850, 'refused 4 4'))
    cases += tried('the last is a pilot, of seven', ends_in_pilot, (850, 853, 'ok 420 3'),
                   (900, 900, 'refused 8 5'), (854, 850, 'refused 4 7'))
    # the plan with the range, tried again: the chain grows record by record
    cases += tried('twice', near_a([(850, 851)]), (852, 853, 'ok 421 3'),
                   (852, 854, 'refused 14 835'))
    cases += tried('three times', near_a([(850, 851), (852, 852)]), (853, 853, 'ok 421 3'),
                   (853, 854, 'refused 14 835'))
    return cases


def long_indices():
    """The new record's index has one byte, or two: plans of 254 to 258 and more records, a
    sound range, rubbish or zeros off the chain."""
    cases = []
    for total in (254, 255, 256, 257, 258, 300):
        filler = record(2, 0, 860, 860)
        cases += tried('%d records' % total, PLAN_A + filler * (total - 3),
                       (850, 853, 'ok 421 3'), (854, 850, 'refused 4 %d' % total))
        cases += tried('%d records, the last on the chain' % total,
                       spread(ITEMS, [0, 1, total - 1], total), (850, 853, 'ok 421 3'))
    for total in (255, 256, 257):
        ranges = [(n, 799) for n in range(total - 2)] + [(1241, 4095)]
        cases += tried('%d on the chain' % total, plan(972, 4, ranges), (850, 853, 'ok 421 3'),
                       (854, 850, 'refused 4 %d' % total))
    cases += tried('384 records, zeros', PLAN_A + bytes(8 * 381), (850, 853, 'ok 421 3'),
                   (4095, 4096, 'refused 4 384'))
    return cases


def of_plans(before):
    """The plans of plans.py with six ranges, the longer ones with two, but for what stands
    before; the lines are the model's."""
    done = {case[1:4] for case in before}
    pairs = cycle((RANGES[:2], RANGES[2:4], RANGES[4:]))
    cases = []
    for name, data, _ in plans.all_cases():
        if len(data) > LONGEST_PLAN:
            continue
        for begin, end in RANGES if len(data) <= 1000 else next(pairs):
            if (data, begin, end) not in done:
                done.add((data, begin, end))
                cases += tried('plans.py: ' + name, data, (begin, end, None))
    return cases


def all_cases():
    cases = list(chain(neighbours(), range_ends(), plc_windows(), further_pilots(), bands(),
                       shares(), windows(), ends_mended(), bands_mended(), plan_first(),
                       no_room(), room_for_one(), off_chain(), chain_ends(), long_indices()))
    return cases + of_plans(cases)


# --- the lines -------------------------------------------------------------

def line_of(model, data, begin, end):
    """The line of a case; a bent model may also fail."""
    try:
        return model.line_of(model.trial(data, begin, end))
    except (IndexError, ValueError, OverflowError) as error:
        return 'failed: %r' % error


def make():
    """The cases, their lines, and the bytes of stdin and stdout."""
    cases = all_cases()
    given, lines = b'', []
    names = set()
    for name, data, begin, end, want in cases:
        assert name not in names, 'two cases named ' + name
        names.add(name)
        assert len(data) <= LONGEST_PLAN, name
        got = trial_line(data, begin, end)
        assert want in (None, got), '%s: by hand %s, model %s' % (name, want, got)
        given += (len(data).to_bytes(4, 'big') + begin.to_bytes(2, 'big')
                  + end.to_bytes(2, 'big') + data)
        lines.append(got)
    assert len(cases) <= MOST_CASES and len(given) <= MOST_BYTES
    return cases, lines, given, ''.join(x + '\n' for x in lines).encode()


# --- mutants ---------------------------------------------------------------

KEPT = 'The plan passed this ground, and so does the copy: '

EQUIVALENT = {
    'nothing': 'The model that the others bend, as it is.',
    'pointing: the highest on the chain':
        'Ground 3 lets the chain only rise, so its last record is its highest.',
    'ground 2 of the copy not tried':
        KEPT + 'the new record is of kind 2, not record 0, and its byte 1 is zero.',
    'ground 3 of the copy not tried':
        KEPT + 'the one changed next index is the number of records of the plan, above '
        "every record's own and below the number of records of the copy; the new one is zero.",
    'ground 5 of the copy not tried': KEPT + 'it has no more kind 3 records.',
    'copy: limit shortest 8 -> 7': 'A copy has 16 bytes or more.',
    'copy: limit shortest 8 -> 9': 'A copy has 16 bytes or more.',
    'copy: limit longest 4096 -> 4097': 'The length of a copy is a multiple of 8.',
    'copy: limit lowest_l 204 -> 203': KEPT + 'it has the same L.',
    'copy: limit highest_l 3885 -> 3886': KEPT + 'it has the same L.',
    'copy: limit lowest_m 1 -> 0': KEPT + 'it has the same M.',
    'copy: limit highest_m 32 -> 33': KEPT + 'it has the same M.',
    'copy: limit pilot_records 120 -> 121': KEPT + 'it has no more kind 3 records.',
}


@lru_cache(maxsize=None)
def said(data):
    """The line of a plan, kept for all bent models."""
    return Model().line(data)


class Remembering(Model):
    """The model for bends that do not touch the judging of a whole plan, which is done
    once for all of them: a refusal, or ('ok', N_I, scattered at phase 0)."""

    def judge(self, data):
        word, *numbers = said(data).split()
        return (word, *map(int, numbers))

    def line_of(self, answer):
        return '%s %d %d' % answer


def bent(**methods):
    """A model of which some methods are others."""
    return type('Bent', (Remembering,), methods)()


def pointing_mutants():
    """Another record than the last on the chain points at the new one."""
    pointing = {
        'record 0': lambda records: 0,
        'the second on the chain': lambda records: records[:2][-1][0],
        'the last but one on the chain': lambda records: records[-2:][0][0],
        'the last on the chain but for pilots':
            lambda records: [i for i, r in records if r.kind != 3][-1],
        'the last range on the chain': lambda records: max(
            (i for i, r in records if r.kind == 2), default=0),
        'the highest on the chain': lambda records: max(i for i, _ in records),
        'as many as the chain has': lambda records: len(records) - 1,
    }
    for name, which in pointing.items():
        yield 'pointing: ' + name, bent(
            last_on_chain=lambda self, records, which=which: which(records))
    ends = {'the last record': lambda data: range(len(data) // 8),
            'the last record of next index zero': ends_in,
            'the first record of next index zero': lambda data: ends_in(data)[::-1]}
    for name, which in ends.items():
        yield 'pointing: ' + name, copying(
            lambda data, last, n, new, which=which: next_index(data, which(data)[-1], n) + new)


def ends_in(data):
    """The records whose next index is zero, on the chain or not."""
    return [i for i in range(len(data) // 8) if data[8 * i + 2:8 * i + 4] == bytes(2)]


def copying(make_copy):
    """A model with another copy, made of the plan, the index of the last chain record, the
    number of records and the new record."""
    return bent(copy=lambda self, data, records, begin, end: make_copy(
        data, self.last_on_chain(records), len(data) // 8, self.new_record(begin, end)))


def index_mutants():
    """Another next index in the last chain record."""
    yield 'next index as it was', copying(lambda data, last, n, new: data + new)
    other = {
        'one less': lambda last, n: n - 1,
        'one more': lambda last, n: n + 1,
        'its low byte': lambda last, n: n % 256,
        'its high byte': lambda last, n: n // 256 * 256,
        'its low byte first': lambda last, n: n % 256 * 256 + n // 256,
        'of the record behind': lambda last, n: last + 1,
        'its own': lambda last, n: last,
        'in bytes': lambda last, n: 8 * n,
    }
    for name, index in other.items():
        yield 'next index ' + name, copying(lambda data, last, n, new, index=index: next_index(
            data, last, index(last, n)) + new)
    for at in (1, 3, 4, 6):
        yield 'next index in byte %d' % at, copying(lambda data, last, n, new, at=at: patch(
            data, 8 * last + at, n >> 8, n & 255) + new)
    yield 'next index the length of the chain', bent(
        copy=lambda self, data, records, begin, end: next_index(
            data, records[-1][0], len(records)) + self.new_record(begin, end))


def order_mutants():
    """The new record in another place, or other records beside it."""
    copies = {
        'before the last': lambda data, last, n, new: (
            next_index(data, last, n - 1)[:-8] + new + next_index(data, last, n - 1)[-8:]),
        'for the last': lambda data, last, n, new: next_index(data, last, n - 1)[:-8] + new,
        'behind the chain': lambda data, last, n, new: (
            next_index(data, last, last + 1)[:8 * last + 8] + new + data[8 * last + 8:]),
        'for the one behind the chain': lambda data, last, n, new: (
            next_index(data, last, last + 1)[:8 * last + 8] + new + data[8 * last + 16:]),
        'behind the chain, where the plan ends': lambda data, last, n, new: (
            next_index(data, last, last + 1)[:8 * last + 8] + new),
        'first': lambda data, last, n, new: new + next_index(data, last, n),
        'and another': lambda data, last, n, new: next_index(data, last, n) + new + new,
        'and a byte': lambda data, last, n, new: next_index(data, last, n) + new + b'\0',
        'left out': lambda data, last, n, new: data,
        'left out, but pointed at': lambda data, last, n, new: next_index(data, last, n),
    }
    for name, make_copy in copies.items():
        yield 'new record ' + name, copying(make_copy)
    yield 'new record for the last where there is no room', copying(
        lambda data, last, n, new: next_index(data, last, 511)[:4088] + new
        if n == 512 and last < 511 else next_index(data, last, n) + new)
    yield 'the chain alone copied', bent(
        copy=lambda self, data, records, begin, end: chained(
            [(r.kind, r.first, r.second) for _, r in records] + [(2, begin, end)]))


def record_mutants():
    """Another new record."""
    new = {
        'ends exchanged': lambda a, b: record(2, 0, b, a),
        'ends in order': lambda a, b: record(2, 0, min(a, b), max(a, b)),
        'byte 1 is 1': lambda a, b: record(2, 0, a, b, byte1=1),
        'kind 3, no second number': lambda a, b: record(3, 0, a, 0),
        'first number twice': lambda a, b: record(2, 0, a, a),
        'second number twice': lambda a, b: record(2, 0, b, b),
        'from 0': lambda a, b: record(2, 0, 0, b),
        'one longer below': lambda a, b: record(2, 0, max(a - 1, 0), b),
        'one shorter below': lambda a, b: record(2, 0, min(a + 1, 65535), b),
        'one longer above': lambda a, b: record(2, 0, a, min(b + 1, 65535)),
        'one shorter above': lambda a, b: record(2, 0, a, max(b - 1, 0)),
        'end at most 4095': lambda a, b: record(2, 0, a, min(b, 4095)),
        'the length for the end': lambda a, b: record(2, 0, a, max(b - a + 1, 0)),
    }
    for value in (0, 1, 3, 4):
        new['kind %d' % value] = lambda a, b, value=value: record(value, 0, a, b)
    for value in (1, 256, 65535):
        new['next index %d' % value] = lambda a, b, value=value: record(2, value, a, b)
    for name, of in (('low byte', lambda v: v & 255), ('high byte', lambda v: v & 0xff00),
                     ('12 bits', lambda v: v & 4095), ('13 bits', lambda v: v & 8191),
                     ('15 bits', lambda v: v & 32767),
                     ('low byte first', lambda v: v % 256 * 256 + v // 256)):
        new['first number, ' + name] = lambda a, b, of=of: record(2, 0, of(a), b)
        new['second number, ' + name] = lambda a, b, of=of: record(2, 0, a, of(b))
        new['both numbers, ' + name] = lambda a, b, of=of: record(2, 0, of(a), of(b))
    for name, make_record in new.items():
        yield 'new record: ' + name, bent(
            new_record=lambda self, begin, end, make_record=make_record: make_record(begin, end))


def without(*grounds):
    """A model that does not try these grounds of the plan itself: the copy is made of the
    chain as far as it goes."""
    class Without(Remembering):
        record_order = tuple(g for g in Model.record_order if g not in grounds)

        def read(self, data, i):        # the chain must still end
            r = Model.read(self, data, i)
            sound = 3 not in grounds or i < r.next < len(data) // 8
            return r if sound else r._replace(next=0)

        def length_is_bad(self, length):
            return 1 not in grounds and Model.length_is_bad(self, length)
    return Without()


def own_mutants():
    """The plan's own grounds not tried, or more of them tried first."""
    yield 'grounds 1 to 5 of the plan not tried', without(1, 2, 3, 4, 5)
    yield 'grounds 2 to 5 of the plan not tried', without(2, 3, 4, 5)
    for ground in range(1, 6):
        yield 'ground %d of the plan not tried' % ground, without(ground)
    yield 'the verdict of the plan', bent(trial=lambda self, data, begin, end: self.judge(data))

    def first_of(*grounds):
        def trial(self, data, begin, end):
            answer = self.judge(data)
            tried_first = answer[0] == 'refused' and answer[1] in grounds
            return answer if tried_first else Model.trial(self, data, begin, end)
        return bent(trial=trial)
    yield 'grounds 1 to 15 of the plan first', first_of(*range(1, 16))
    for ground in range(6, 16):
        yield 'ground %d of the plan first' % ground, first_of(ground)


def when(test, answer):
    """A model that answers otherwise of the plans and ranges of a test."""
    return bent(trial=lambda self, data, begin, end: answer(self, data)
                if test(data, begin, end) else Model.trial(self, data, begin, end))


def of_plan(self, data):
    """The plan's verdict: the range is left out."""
    return self.judge(data)


def one(self, data):
    return ('refused', 1, 0)


def four(self, data):
    return ('refused', 4, len(data) // 8)


def bad_range(data, begin, end):
    return begin > end or end > 4095


def range_mutants():
    """1 of the copy and 4 of the range tried in another order, or not tried, or of others."""
    def sound_chain(data):
        return not isinstance(Model().chain(data), tuple)
    yield '1 of the copy before 2 to 5 of the plan', when(
        lambda data, begin, end: len(data) == 4096, one)
    yield '4 of the range before the plan', when(bad_range, four)
    yield '4 of the range before 2 to 5 of the plan', when(
        lambda data, begin, end: bad_range(data, begin, end) and len(data) % 8 == 0
        and 0 < len(data) < 4096, four)
    yield '4 of the range before 1 of the copy', when(
        lambda data, begin, end: bad_range(data, begin, end) and len(data) == 4096
        and sound_chain(data), four)
    for name, test, answer in (
            ('a bad range left out', bad_range, of_plan),
            ('a range that ends at 4096 left out', lambda d, a, b: a <= b == 4096, of_plan),
            ('a range that ends at 65535 left out', lambda d, a, b: a <= b == 65535, of_plan),
            ('a range that begins one above its end left out', lambda d, a, b: a == b + 1, of_plan),
            ('a range that begins far above its end left out', lambda d, a, b: a > b + 1, of_plan),
            ('a range that ends at 4095 refused', lambda d, a, b: a <= b == 4095, four),
            ('a range of one subcarrier refused', lambda d, a, b: a == b < 4096, four),
            ('a range from 0 refused', lambda d, a, b: a == 0 and b < 4096, four),
            ('no room behind 511 records', lambda d, a, b: len(d) == 4088, one),
            ('no room behind 510 records', lambda d, a, b: len(d) == 4080, one)):
        yield name, when(test, answer)


def special_mutants():
    """The range left out of some plans, or some ranges."""
    def good(test):
        """The test, asked of plans that pass 1 to 5 and their chains."""
        def asked(data, begin, end):
            records = () if Model().length_is_bad(len(data)) else Model().chain(data)
            return isinstance(records, list) and test(len(data) // 8, records)
        return asked
    for name, test in (
            ('the chain is record 0 alone', lambda n, records: len(records) == 1),
            ('the chain has two records', lambda n, records: len(records) == 2),
            ('the chain ends in a pilot', lambda n, records: records[-1][1].kind == 3),
            ('the chain ends in the last record', lambda n, records: records[-1][0] == n - 1),
            ('the chain ends in the last but one', lambda n, records: records[-1][0] == n - 2),
            ('the chain ends further in front', lambda n, records: records[-1][0] < n - 2),
            ('all records are on the chain', lambda n, records: len(records) == n > 3),
            ('the chain leaves one out', lambda n, records: len(records) <= records[-1][0]),
            ('there are 255 records', lambda n, records: n == 255),
            ('there are 256 records', lambda n, records: n == 256),
            ('there are 257 records', lambda n, records: n == 257),
            ('there are 511 records', lambda n, records: n == 511),
            ('there is one pilot', lambda n, records: [r.kind for _, r in records].count(3) == 1),
            ('there are 120 pilots',
             lambda n, records: [r.kind for _, r in records].count(3) == 120)):
        yield 'left out where ' + name, when(good(test), of_plan)
    for name, test in (('one subcarrier', lambda d, a, b: a == b), ('0', lambda d, a, b: a == 0),
                       ('4095', lambda d, a, b: b == 4095), ('852', lambda d, a, b: a <= 852 <= b),
                       ('20 or more', lambda d, a, b: b - a > 18),
                       ('all subcarriers', lambda d, a, b: (a, b) == (0, 4095))):
        yield 'left out if the range has ' + name, when(test, of_plan)


def map_mutants():
    """The range in the copy's map, the last of its chain, read otherwise; a ground tried on
    the map of the plan."""
    def mapping(change):
        class Mapping(Model):
            def map_of(self, data, records):
                return change(self, data, records)
        return Mapping()

    def flipped(self, data, records):
        p = Model.map_of(self, data, records[:-1])
        r = records[-1][1]
        flags = [flag ^ (r.first <= k <= r.second) for k, flag in enumerate(p.excluded)]
        return Map(p.l, p.m, bytearray(flags), p.pilots)
    yield 'map: overlaps active again', mapping(flipped)
    yield 'map: the range alone', mapping(
        lambda self, data, records: Model.map_of(self, data, [records[0], records[-1]]))
    yield 'map: without the pilots', mapping(lambda self, data, records: Model.map_of(
        self, data, [(i, r) for i, r in records if r.kind != 3]))
    yield 'map: without the last of the plan', mapping(lambda self, data, records: Model.map_of(
        self, data, records[:-2] + records[-1:] if len(records) > 2 else records))
    for ground in Model.map_order:
        name = 'ground_%d' % ground

        class OfPlan(Model):
            def trial(self, data, begin, end):
                records = self.chain(data) if len(data) >= 8 else ()
                self.plan = isinstance(records, list) and self.map_of(data, records)
                return Model.trial(self, data, begin, end)
        setattr(OfPlan, name, lambda self, p, name=name: getattr(Model, name)(self, self.plan))
        yield 'ground %d on the map of the plan' % ground, OfPlan()


def copy_judged(other):
    """A model that judges the copy as another one does, but not the plan by 1 to 5."""
    return bent(judge=lambda self, data: other.judge(data),
                line_of=lambda self, answer: other.line_of(answer))


def copy_mutants():
    """The copy's grounds not tried; its limits moved by one."""
    class NoLength(Model):
        def length_is_bad(self, length):
            return False
    yield 'ground 1 of the copy not tried', copy_judged(NoLength())
    for order in ('record_order', 'map_order'):
        for ground in getattr(Model, order):
            others = tuple(g for g in getattr(Model, order) if g != ground)
            yield ('ground %d of the copy not tried' % ground,
                   copy_judged(type('Not', (Model,), {order: others})()))
    for field in fields(Limits):
        value = field.default
        for other in (value - 1, value + 1):
            yield ('copy: limit %s %d -> %d' % (field.name, value, other),
                   copy_judged(Model(replace(Limits(), **{field.name: other}))))


def place_mutants():
    """Another number or place of a refusal."""
    def saying(change):
        def trial(self, data, begin, end):
            answer = Model.trial(self, data, begin, end)
            return change(answer, data) if answer[0] == 'refused' else answer
        return bent(trial=trial)
    yield 'number and place exchanged', saying(lambda answer, data: ('refused', *answer[:0:-1]))
    for ground in range(1, 16):
        for step in (-1, 1):
            yield 'place of %d moved by %d' % (ground, step), saying(
                lambda answer, data, ground=ground, step=step:
                ('refused', ground, answer[2] + step) if answer[1] == ground else answer)
    places = {
        '0': lambda data: 0,
        'on the chain': lambda data: len(rising_chain(Model(), data)),
        'the last chain record': lambda data: rising_chain(Model(), data)[-1][0],
        'behind the chain': lambda data: rising_chain(Model(), data)[-1][0] + 1,
        'in bytes': len,
        'low byte': lambda data: len(data) // 8 % 256,
    }
    for name, place in places.items():
        yield 'place of 4 of the range: ' + name, saying(
            lambda answer, data, place=place:
            ('refused', 4, place(data)) if answer[1:] == (4, len(data) // 8) else answer)
    yield 'place of 1 of the copy: 512', saying(
        lambda answer, data: ('refused', 1, 512) if len(data) == 4096 and answer[1] == 1
        else answer)


def count_mutants():
    """Another N_I or scattered count of a good copy."""
    def counting(line):
        """`line` is given the model, the maps of plan and copy and the range's length; it is
        asked only where the plan is good too."""
        class Counting(Model):
            def trial(self, data, begin, end):
                self.plan, self.length = self.judge(data), end - begin + 1
                return Model.trial(self, data, begin, end)

            def line_of(self, p):
                if isinstance(p, tuple) or isinstance(self.plan, tuple):
                    return Model.line_of(self, p)
                return 'ok %d %d' % line(self, self.plan, p, self.length)
        return Counting()

    def n_i(m, p):
        return len(m.ranks_of(p))

    def scattered(m, p, phase=0):
        return len(m.scattered_of(p, phase))
    yield 'N_I of the plan', counting(lambda m, p, q, n: (n_i(m, p), scattered(m, q)))
    yield 'N_I of the plan less the range', counting(
        lambda m, p, q, n: (n_i(m, p) - n, scattered(m, q)))
    yield 'scattered of the plan', counting(lambda m, p, q, n: (n_i(m, q), scattered(m, p)))
    yield 'N_I and scattered exchanged', counting(lambda m, p, q, n: (scattered(m, q), n_i(m, q)))
    for phase in (1, 127):
        yield 'scattered at phase %d' % phase, counting(
            lambda m, p, q, n, phase=phase: (n_i(m, q), scattered(m, q, phase)))


def all_mutants():
    return chain([('nothing', bent())], *(mutants() for mutants in (
        pointing_mutants, index_mutants, order_mutants, record_mutants, own_mutants, range_mutants,
        special_mutants, map_mutants, copy_mutants, place_mutants, count_mutants)))


def try_mutants(cases, lines):
    def change_of(_, model):
        return stored.first_change(line_of, cases, lines, model)
    return stored.try_mutants(all_mutants(), change_of, EQUIVALENT, len(cases))


# --- the run ---------------------------------------------------------------

def main():
    cases, lines, given, wanted = make()
    print('%d cases, %d bytes' % (len(cases), len(given)))
    stored.run('trycases', given, wanted, lambda: try_mutants(cases, lines))


if __name__ == '__main__':
    main()
