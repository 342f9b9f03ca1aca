#!/usr/bin/env python3
"""Makes one table of several runs of the benchmark: of each line the median over the runs and, of the library and of
best C, the lowest run, in microseconds a call; and how far the ratios spread. Of best and of plain C the compiler that did
better in a run is taken. Where a library of version 3 ran beside them, its time and the ratio to it stand in columns of their own.

    python3 bench/table.py RUN.tsv...
"""

import statistics
import sys

REAL_TIME = 21.25   # microseconds a symbol


def read(path):
    """The lines that begin with #, and the numbers of each line by implementation."""
    head, lines, names = [], {}, []
    for text in open(path):
        fields = text.rstrip('\n').split('\t')
        if text.startswith('# plan'):
            names = fields[2:]
        elif text.startswith('#'):
            head.append(text.rstrip('\n'))
        else:
            lines[fields[0], fields[1]] = dict(zip(names, map(float, fields[2:])))
    return head, lines


def better(numbers, kind):
    """The time of the compiler that did better, and which it was."""
    return min((time, name[len(kind) + 1:]) for name, time in numbers.items() if name.startswith(kind))


def to_before(numbers):
    """The columns of a library of version 3, if it ran."""
    if 'before' not in numbers[0]:
        return ''
    if numbers[0]['before'] == 0:                     # a call that version 3 has not
        return '%8s %10s %-13s ' % ('', '', '')
    ratios = [n['library'] / n['before'] for n in numbers]
    mid = statistics.median
    return '%8.2f %10.2f %-13s ' % (mid(n['before'] for n in numbers), mid(ratios), '%.2f..%.2f' % (min(ratios), max(ratios)))


def main():
    runs = [read(path) for path in sys.argv[1:]]
    print('\n'.join(runs[0][0]))
    before = any('before' in numbers for numbers in runs[0][1].values())
    form = '%-16s %-19s %8s %8s %8s %8s %-6s %8s %-6s %9s %-13s %9s %-13s %s%s'
    print(form % ('plan', 'call', 'library', 'lowest', 'best C', 'lowest', 'by', 'plain C', 'by', 'lib/best', 'spread', 'lib/plain',
                  'spread', '%8s %10s %-13s ' % ('before', 'lib/before', 'spread') if before else '', 'real time'))
    for line in runs[0][1]:
        of = [lines[line] for _, lines in runs]
        library = [n['library'] for n in of]
        best, plain = [better(n, 'best') for n in of], [better(n, 'plain') for n in of]
        to_best = [a / b for a, (b, _) in zip(library, best)]
        to_plain = [a / b for a, (b, _) in zip(library, plain)]
        mid = statistics.median
        print(form % (
            *line, '%.2f' % mid(library), '%.2f' % min(library), '%.2f' % mid(b for b, _ in best), '%.2f' % min(best)[0], best[0][1],
            '%.2f' % mid(b for b, _ in plain), plain[0][1],
            '%.2f' % mid(to_best), '%.2f..%.2f' % (min(to_best), max(to_best)),
            '%.2f' % mid(to_plain), '%.2f..%.2f' % (min(to_plain), max(to_plain)), to_before(of),
            '' if line[1] in ('judge', 'try', 'why', 'pilots') else 'ok' if mid(library) <= REAL_TIME else 'over'))


if __name__ == '__main__':
    main()
