#!/usr/bin/env python3
"""Makes the example plans and the page about them.

    python3 tests/make_plans.py            writes plans/*.plan and docs/PLANS.md
    python3 tests/make_plans.py --check    compares them, exits 1 on a difference
"""

import sys
from pathlib import Path

sys.dont_write_bytecode = True

import model
import plans
from plans import entries, outside, pilots_of_full, singles

ROOT = Path(__file__).resolve().parent.parent
A = outside(800, 1240)
FULL = outside(148, 3948)
# What phases 64 to 99 scatter of 852 to 1207, but for three predefined pilots: further pilots.
FREE = [k + 128 * i for k in range(916, 952) for i in range(3) if k + 128 * i not in (925, 937, 948)]


def text(ranges, pilots, ranges_text=None, pilots_text=None):
    """How a plan was made, for the page."""
    if ranges_text is None:
        ranges_text = ', '.join('%d-%d' % r if r[0] != r[1] else '%d' % r[0]
                                for r in ranges) or 'none'
    if pilots_text is None:
        pilots_text = ', '.join('%d' % k for k in pilots) or 'none'
    return ranges_text, pilots_text


def built(name, L, M, ranges, pilots=(), want=None, ranges_text=None, pilots_text=None):
    """A plan chained one record after the other."""
    return (name, plans.plan(L, M, ranges, pilots), want,
            (str(L), str(M)) + text(ranges, pilots, ranges_text, pilots_text))


def all_plans():
    """(file, plan, the line worked out by hand, (L, M, ranges, pilots))."""
    made = [
        ('empty', b'', 'refused 1 0', ('-', '-', 'no bytes at all', '-')),
        built('plan-a', 972, 4, A, want='ok 425 4'),
        built('plan-a-active-800-1239', 972, 4, outside(800, 1239), want='ok 424 4'),
        built('plan-a-active-800-1238', 972, 4, outside(800, 1238), want='refused 10 0'),
        built('plan-a-excluded-850-854', 972, 4, A + [(850, 854)], want='refused 14 835'),
        built('plan-a-excluded-850-853', 972, 4, A + [(850, 853)], want='ok 421 3'),
        built('plan-a-singles-810-870', 972, 4, A + singles(*range(810, 871, 10)),
              want='refused 13 800'),
        built('plan-a-excluded-1182-1201', 972, 4, A + [(1182, 1201)], want='refused 9 1202'),
        built('plan-a-excluded-1181-1200', 972, 4, A + [(1181, 1200)], want='refused 10 0'),
        built('plan-a-excluded-1180-1199', 972, 4, A + [(1180, 1199)], want='refused 10 0'),
        built('largest', 2000, 32, FULL, pilots_of_full(40), want='ok 3745 30',
              pilots_text='40: 200, 210 up to 590'),
        built('largest-39-pilots', 2000, 32, FULL, pilots_of_full(39), want='refused 15 0',
              pilots_text='39: 200, 210 up to 580'),
        ('overlapping-510', plans.OVERLAPPING_510, 'ok 425 4',
         ('972', '4', '510: 3n to 3n+37, then 1241+11n to 1301+11n, n from 0 to 254', 'none')),
        ('singles-150', plans.SINGLES_150, 'ok 3635 26',
         ('2000', '32', '0-147, 3949-4095, and 150 single: 160, 184 up to 1936, '
          '2070, 2094 up to 3846', 'none')),
        ('off-chain', plans.spread(entries(972, 4, A), [0, 3, 7], 9), 'ok 425 4',
         ('972', '4', '0-799 in record 3, 1241-4095 in record 7, 0xFF in every byte of '
          'the six records off the chain', 'none')),
        ('refused-01', plans.PLAN_A[:12], 'refused 1 0',
         ('972', '4', 'the first 12 bytes of Plan A', 'none')),
        ('refused-02', plans.kind(plans.PLAN_A, 2, 4), 'refused 2 2',
         ('972', '4', '0-799, then a record of kind 4', 'none')),
        ('refused-03', plans.next_index(plans.PLAN_A, 1, 3), 'refused 3 1',
         ('972', '4', '0-799 with next index 3 of 3 records', 'none')),
        built('refused-04', 972, 4, A + [(851, 850)], want='refused 4 3'),
        built('refused-05', 2000, 32, FULL, pilots_of_full(121), want='refused 5 123',
              pilots_text='121: 200, 210 up to 1400'),
        built('refused-06', 972, 4, outside(147, 1240), want='refused 6 147'),
        built('refused-07', 972, 4, A + [(916, 916)], want='refused 7 916'),
        built('refused-08', 972, 4, A, [900, 901, 900], want='refused 8 5'),
        built('refused-09', 972, 4, A[:1] + [(1241, 1299), (1339, 4095)], want='refused 9 1300'),
        built('refused-10', 972, 4, outside(850, 1288), want='refused 10 0'),
        built('refused-11', 972, 4, A[:1] + [(1241, 1361), (1404, 4095)], want='refused 11 0'),
        built('refused-12', 972, 4, A[:1] + [(1241, 1299), (1359, 4095)]
              + singles(1310, 1320, 1330), want='refused 12 1300'),
        built('refused-13', 1500, 1, outside(1000, 2000)
              + singles(1010, 1030, 1050, 1070, 1090, 1110, 1129), want='refused 13 1010'),
        built('refused-14', 1500, 1, outside(1000, 2000) + [(1100, 1103), (1119, 1119)],
              want='refused 14 1100'),
        built('refused-15', 2000, 32, FULL, want='refused 15 0'),
        built('limit-09', 972, 4, A[:1] + [(1241, 1299), (1340, 4095)], want='ok 465 4'),
        built('limit-10', 972, 4, outside(850, 1289), want='ok 424 4'),
        built('limit-11', 972, 4, A[:1] + [(1241, 1361), (1405, 4095)], want='ok 468 5'),
        built('limit-12', 972, 4, A[:1] + [(1241, 1299), (1360, 4095)]
              + singles(1310, 1320, 1330), want='ok 482 4'),
        ('limit-09-to-12', plans.AT_LIMITS, 'ok 460 5',
         ('972', '4', '0-799, 1395-4095, 1240-1354, 810-811, 1360-1361', 'none')),
        built('no-scattered-64-to-75', 972, 4, A, FREE, want='ok 320 4',
              pilots_text='105: k, k+128 and k+256, k from 916 to 951, but for 925, 937 and 948'),
    ]
    return made


PAGE = """# Example plans

The files of `plans/`, made by `python3 tests/make_plans.py`, which also makes
this page; with `--check` it compares both. A plan is the PLC record, then one
record for each range, then one for each further pilot, chained in this order,
unless the table says otherwise. The last column is what `plancheck` prints:
`ok`, N_I and the number of subcarriers scattered at phase 0, or `refused`, the
ground and the place. `limit-09` to `limit-12` stand right at the limits that
`refused-09` to `refused-12` just miss: a second band of 40 subcarriers, a widest
band of 440, a fifth of the span excluded, a twentieth of a band excluded;
`limit-09-to-12` stands at all four. Under `no-scattered-64-to-75` no subcarrier
is scattered at phases 64 to 75, so a receiver does not notice at once that a
symbol of phase 64 to 74 was lost: docs/C-HOST.md, "A lost symbol".

Widths are counted since request 02, so two neighbours of Plan A read otherwise
than in 01: active 800 to 1239 is accepted with N_I 424 (there: 10), and excluding
1181 to 1200 is refused by 10 (there: 9 at 1201). Just beyond the limits are now
active 800 to 1238 (10) and excluding 1182 to 1201 (9 at 1202).

| File | Bytes | L | M | Excluded ranges | Further pilots | Line |
|---|---|---|---|---|---|---|
"""


def main():
    files = {}
    page = PAGE
    for name, data, want, (l, m, ranges, pilots) in all_plans():
        line = model.line(data)
        assert line == want, '%s: by hand %s, model %s' % (name, want, line)
        files['plans/%s.plan' % name] = data
        page += '| `%s.plan` | %d | %s | %s | %s | %s | `%s` |\n' % (
            name, len(data), l, m, ranges, pilots, line)
    files['docs/PLANS.md'] = page.encode()
    there = {'plans/' + p.name for p in (ROOT / 'plans').glob('*.plan')}
    if '--check' in sys.argv[1:]:
        wrong = [name for name, data in files.items()
                 if not (ROOT / name).exists() or (ROOT / name).read_bytes() != data]
        wrong += sorted(there - set(files))
        for name in wrong:
            print('differs: ' + name)
        print('%d files compared, %d differ' % (len(files), len(wrong)))
        sys.exit(1 if wrong else 0)
    for name, data in files.items():
        (ROOT / name).parent.mkdir(parents=True, exist_ok=True)
        (ROOT / name).write_bytes(data)
    print('%d files written' % len(files))


if __name__ == '__main__':
    main()
