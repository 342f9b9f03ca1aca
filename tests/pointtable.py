#!/usr/bin/env python3
"""Holds the table of ends and points (crates/points/specs/Table.antt) to the second model: every row, every end, every point.

    python3 tests/pointtable.py
"""
import re
import sys
from pathlib import Path

from points import Points


def signed(word, size):
    return int(size) if word == 'pos' else -int(size)


def main():
    table = (Path(__file__).parent.parent / 'crates/points/specs/Table.antt').read_text().split('PointTable =')[1]
    model = Points()
    wrong = points = 0
    loads = []
    for load, end, values, named in re.findall(r'Row (\d+) (\d+) \((.*?) ∷ \[\]\)\s+\((.*?) ∷ \[\]\)', table):
        load, end = int(load), int(end)
        loads.append(load)
        made = model.constellation(load)[0]
        ends = {f(p[i] for p in made) for i in range(1 if load == 1 else 2) for f in (min, max)}
        values = [int(v) for v in re.findall(r'\d+', values)]
        said = [(signed(a, b), signed(c, d)) for a, b, c, d in re.findall(r'at \((pos|minus) (\d+)\) \((pos|minus) (\d+)\)', named)]
        points += len(said)
        if ends != {end, -end} or said != [made[v] for v in values]:
            wrong += 1
            print(f'pointtable.py: load {load}: the table says {end}, {said}, the second model {sorted(ends)}, {[made[v] for v in values]}')
    if loads != list(model.loads) or points != table.count('at ('):
        wrong += 1
        print(f'pointtable.py: loads {loads} and {points} points were looked at, the table has {table.count("at (")} points')
    if not wrong:
        print(f'pointtable.py: {len(loads)} loads, {points} points as the second model says')
    return 1 if wrong else 0


if __name__ == '__main__':
    sys.exit(main())
