#!/usr/bin/env python3
"""Holds the table of the small device (crates/rules/specs/Small.antt) to the second model: every verdict, the pilots, the scattered
subcarriers, the ranks and the cells. Every row of the table is looked at.

    python3 tests/small.py
"""
import re
import sys
from pathlib import Path

from model import Limits, Model

SMALL = Limits(lowest_l=16, highest_l=72, highest_m=32, last_subcarrier=95, lowest_active=4, highest_active=91, clear_below=10, clear_above=13,
               distance_1=2, distance_2=4, distance_3=7, distance_4=9, plc_width=4, exclusion_band=5, narrow=10, wide=40, long_window=20,
               long_excluded=2, short_window=6, short_excluded=1, most_ranks=60, scattered_from=4)
BITS = 3


def plan(records):
    """Records in a chain, as `chained` writes them."""
    out = []
    for i, (kind, a, b) in enumerate(records):
        follow = i + 1 if i + 1 < len(records) else 0
        out += [kind, 0, 0, follow, 0, a, 0, b]
    return bytes(out)


def between(a, b, more):
    return plan([(1, 30, 4), (2, 0, a), (2, b, 95), *more])


def numbers(text):
    return [int(x) for x in re.findall(r'\d+', text)]


def main():
    table = (Path(__file__).parent.parent / 'crates/rules/specs/Small.antt').read_text().split('Small =')[1]
    model = Model(SMALL)
    wrong = rows = 0

    def row(what, said, is_):
        nonlocal wrong, rows
        rows += 1
        if said != is_:
            wrong += 1
            print(f'small.py: {what}: the table says {said}, the second model {is_}')

    for a, b, more, answer, rest in re.findall(r'verdict small \(between (\d+) (\d+) (.*?)\) ≡ (Ok|refused_by) ([\d ]+)\)', table):
        records = [tuple(map(int, r)) for r in re.findall(r'\((\d+), (\d+), (\d+)\)', more)]
        said = ('ok', *numbers(rest)) if answer == 'Ok' else ('refused', *numbers(rest))
        row(f'between {a} {b} {more}', said, tuple(model.verdict(between(int(a), int(b), records))))
    p = model.judge(between(7, 80, []))
    ranks = model.ranks_of(p)
    row('predefined', numbers(re.search(r'predefined small 30 ≡ (.*?) \[\]', table).group(1)), model.predefined(30))
    asked, said = re.search(r'scattered small small_a j\) 0 96\) \((.*?) \[\]\) ≡ (.*)\)\n', table).groups()
    row('scattered', numbers(said), [k for j in numbers(asked) for k in model.scattered_of(p, j)])
    asked, said = re.search(r'rank_of small small_a\) \((.*?) \[\]\) ≡ (.*) \[\]\)', table).groups()
    row('ranks', numbers(said), [ranks.index(k) for k in numbers(asked)])

    def key(q):
        return int(format(q % 2 ** BITS, f'0{BITS}b')[::-1], 2), q // 2 ** BITS

    order = sorted(range(len(ranks)), key=key)
    asked, said = re.search(r'cell_rank small_frame\) \((.*?) \[\]\) ≡ (.*) \[\]\)', table).groups()
    row('cells', numbers(said), [order.index(q) for q in numbers(asked)])
    q, said = map(int, re.search(r'spot small_frame (\d+) ≡ (\d+)', table).groups())
    spot = ranks[order.index(q)]
    row('spot', said, spot)
    j, q, phase = map(int, re.search(r'sent_phase small_frame (\d+) (\d+) ≡ (\d+)', table).groups())
    row('sent_phase', phase, (j + q % 4) % 128)
    held = re.search(r'held small_frame (\d+) (\d+) ≡ (true|false)', table).groups()
    row('held', held, (str(j), str(q), str(model.on_grid(p, spot, phase)).lower()))
    if rows != table.count('≡'):
        wrong += 1
        print(f'small.py: the table has {table.count("≡")} rows, {rows} were looked at')
    if not wrong:
        print(f'small.py: {rows} rows as the second model says')
    return 1 if wrong else 0


sys.exit(main())
