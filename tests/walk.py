#!/usr/bin/env python3
"""The walk from cell to cell (request 06) by a step written from the request's words, beside the ranks of the second model.

    python3 tests/walk.py             writes the tables of docs/WALK.md
    python3 tests/walk.py --check     compares them, and the table of crates/walk, and exits 1 on a difference
    python3 tests/walk.py --mutants   bends the step and the start in many ways, each of which must be noticed

The step leads along the row, else to the first cell of the next row in the reversed
order that has one.  From the cell with rank i it must lead to the one with rank i + 1,
from rank 0 on to rank N_I - 1 and no further, in one to 256 rows; ranks are counted
here by 01's words, and for 128 rows they are also those of tests/emitter.py.
"""

import re
import sys
from pathlib import Path

sys.dont_write_bytecode = True

from emitter import Emitter

ROOT = Path(__file__).resolve().parent.parent
PAGE = ROOT / 'docs' / 'WALK.md'
TABLE = ROOT / 'crates' / 'walk' / 'specs' / 'Table.antt'
BITS = range(9)             # one row to 256
FIRST, LAST = 8, 2          # rows of Plan A that the page shows


class Walk:
    """Cells 0 to n - 1 in 2 to the power of `bits` rows: cell p stands in row p mod rows."""

    def __init__(self, bits, n):
        self.bits, self.rows, self.n = bits, 2 ** bits, n

    def row(self, i):
        """The i-th row that is read: i with its bits reversed."""
        return int(format(i, '0%db' % self.bits)[::-1], 2) if self.bits else 0

    def start(self):
        return 0 if self.n else None

    def along(self, p):
        """The next cell of p's row, or None."""
        return p + self.rows if p + self.rows < self.n else None

    def other_row(self, p):
        """The first cell of the next row read that has one, or None."""
        here = self.row(p % self.rows)      # reversing twice gives the number back
        for i in range(here + 1, self.rows):
            if self.row(i) < self.n:
                return self.row(i)
        return None

    def step(self, p):
        following = self.along(p)
        return self.other_row(p) if following is None else following

    def cells(self):
        """The cells of the walk; a walk that does not end is cut off."""
        found, p = [], self.start()
        while p is not None and len(found) <= self.n + 1:
            found.append(p)
            p = self.step(p)
        return found


def ranks(bits, n):
    """01: the rank of a cell is the count of cells read before it.  Rows are read in the
    order whose i-th row is i with its bits reversed, each from left to right."""
    rows = 2 ** bits
    order = []
    for i in range(rows):
        row = sum(2 ** (bits - 1 - bit) for bit in range(bits) if i // 2 ** bit % 2)
        order += [p for p in range(n) if p % rows == row]
    return {p: before for before, p in enumerate(order)}


def samples():
    """(bits, n, rank of each cell): no cell, empty rows, full columns and one short of and past them."""
    second = Emitter()
    for bits in BITS:
        rows = 2 ** bits
        few = range(3 * rows + 2) if bits < 5 else sorted({0, 1, 2, 3, rows // 2, rows // 2 + 1, rows - 1, rows, rows + 1, 3 * rows + 5})
        for n in few:
            yield bits, n, ranks(bits, n)
    for n in [*range(0, 640, 7), 425, 3745, 4096]:
        yield 7, n, dict(enumerate(second.ranks_of_cells(n)))


SAMPLES = list(samples())


def wrong_walk(walk):
    """What a walk does wrong, or None."""
    for bits, n, rank in SAMPLES:
        w = walk(bits, n)
        cells = w.cells()
        if [rank.get(p) for p in cells] != list(range(n)):
            return '%d cells in %d rows are walked as %s' % (n, w.rows, cells[:9])
        for p in range(n):
            after = w.step(p)
            if (None if after is None else rank.get(after)) != (rank[p] + 1 if rank[p] + 1 < n else None):
                return 'of %d cells in %d rows, the step from %d leads to %s' % (n, w.rows, p, after)
    return None


# --- the page and the crate's table ------------------------------------------

def numbers(xs):
    return ', '.join(str(x) for x in xs) or '–'


def rows_of(w, subcarriers):
    """The line of each row, in the order of reading: the cells of the walk that stand in it, with their numbers."""
    walked = list(enumerate(w.cells()))
    for i in range(w.rows):
        row = w.row(i)
        here = [(r, p) for r, p in walked if p % w.rows == row]
        bits = format(i, '0%db' % w.bits), format(row, '0%db' % w.bits)
        shown = [str(i), *bits, str(row), numbers(p for _, p in here), numbers(r for r, _ in here)]
        if subcarriers:
            shown.append(numbers(subcarriers[r] for r, _ in here))
        yield '| %s |' % ' | '.join(shown)


def page_tables():
    """The two tables of the page, as lists of lines."""
    at = Emitter().layout((ROOT / 'plans' / 'plan-a.plan').read_bytes())
    lines = list(rows_of(Walk(7, at.n), at.subcarriers))
    head = '| row read | its bits | reversed | row | cells, in order | their ranks |'
    rule = '|---|---|---|---|---|---|'
    plan_a = [head + ' subcarriers |', rule + '---|', *lines[:FIRST], '| … |', *lines[-LAST:]]
    return plan_a, [head, rule, *rows_of(Walk(3, 6), None)]


def blocks(text):
    """The tables of a page that begin with a row read, each as (first line, last line + 1)."""
    lines = text.split('\n')
    starts = [i for i, line in enumerate(lines) if line.startswith('| row read')]
    ends = [next(j for j in range(i, len(lines)) if not lines[j].startswith('|')) for i in starts]
    return lines, list(zip(starts, ends))


def write_page():
    lines, found = blocks(PAGE.read_text())
    for (start, end), table in reversed(list(zip(found, page_tables()))):
        lines[start:end] = table
    PAGE.write_text('\n'.join(lines))


def wrong_page(text):
    lines, found = blocks(text)
    return [lines[start:end] for start, end in found] != [*page_tables()]


def wrong_table(text):
    """What the crate's table says otherwise than the model; and whether every row was looked at."""
    body = text.split('WalkTable =')[1]
    looked, wrong = 0, []
    for b, n, k, list_ in re.findall(r'\(walk_list (\d+) (\d+) (\d+) ≡ (.*?)\[\]\)', body):
        looked += 1
        if Walk(int(b), int(n)).cells()[:int(k)] != [int(x) for x in re.findall(r'\d+', list_)]:
            wrong.append('walk_list %s %s %s' % (b, n, k))
    for b, n, p, found, after in re.findall(r'\(next_cell (\d+) (\d+) straight (\d+) ≡ (None|Some (\d+))\)', body):
        looked += 1
        if Walk(int(b), int(n)).step(int(p)) != (int(after) if after else None):
            wrong.append('next_cell %s %s %s' % (b, n, p))
    if not looked or looked != body.count('≡'):
        wrong.append('%d rows of %d were looked at' % (looked, body.count('≡')))
    return wrong


# --- mutants -------------------------------------------------------------------

def mutants():
    def bent(**methods):
        return type('Bent', (Walk,), methods)

    yield 'rows in plain order', bent(other_row=lambda w, p: next((i for i in range(p % w.rows + 1, w.rows) if i < w.n), None))
    yield 'a row begun at its second cell', bent(
        other_row=lambda w, p: (lambda q: q if q is None or q + w.rows >= w.n else q + w.rows)(Walk.other_row(w, p)))
    yield 'the first row begun at its second cell', bent(start=lambda w: w.rows if w.rows < w.n else Walk.start(w))
    yield "a row's last cell dropped", bent(along=lambda w, p: p + w.rows if p + 2 * w.rows < w.n else None)
    yield 'an empty row that ends the walk', bent(
        other_row=lambda w, p: (lambda i: w.row(i) if i < w.rows and w.row(i) < w.n else None)(w.row(p % w.rows) + 1))
    yield 'an empty row not passed over', bent(
        other_row=lambda w, p: (lambda i: w.row(i) if i < w.rows else None)(w.row(p % w.rows) + 1))
    yield 'one cell too long', bent(along=lambda w, p: p + w.rows if p + w.rows <= w.n else None)
    yield 'the next cell and not the next of the row', bent(along=lambda w, p: p + 1 if p + 1 < w.n else None)
    yield 'the same row again', bent(other_row=lambda w, p: p % w.rows)
    yield 'the last row left out', bent(
        other_row=lambda w, p: (lambda q: None if q == w.row(w.rows - 1) else q)(Walk.other_row(w, p)))
    yield 'a row read twice', bent(
        other_row=lambda w, p: w.row(0) if Walk.other_row(w, p) is None and p % w.rows else Walk.other_row(w, p))
    yield 'bits not reversed', bent(row=lambda w, i: i)
    yield 'one bit less reversed', bent(row=lambda w, i: Walk(w.bits - 1, w.n).row(i // 2) * 2 + i % 2 if w.bits else 0)
    yield 'begins with cell 1', bent(start=lambda w: 1 if w.n > 1 else Walk.start(w))
    yield 'begins where there is no cell', bent(start=lambda w: 0)
    yield 'never ends', bent(step=lambda w, p: Walk.step(w, p) if Walk.step(w, p) is not None else 0)


def larger(text, of=r'\d+'):
    """A text with each of its numbers in turn one larger."""
    for number in re.finditer(of, text):
        yield text[:number.start()] + str(int(number.group()) + 1) + text[number.end():]


def bent_page(page):
    for table in page_tables():
        text = '\n'.join(table)
        for bent in [*larger(text), *('\n'.join(table[:i] + table[i + 1:]) for i in range(len(table)))]:
            yield page.replace(text, bent)


def bent_table(text):
    """Each number that the table says of a walk one larger, and each end of a walk no end."""
    head, body = text.split('WalkTable =')
    on = (body[:end.start()] + 'Some 0' + body[end.end():] for end in re.finditer('None', body))
    for bent in [*larger(body, r'(?<=≡ )\d+|(?<=∷ )\d+|(?<=Some )\d+'), *on]:
        yield head + 'WalkTable =' + bent


def main():
    bad = []
    if '--check' not in sys.argv and '--mutants' not in sys.argv:
        write_page()
    wrong = wrong_walk(Walk)
    if wrong:
        bad.append(wrong)
    page, table = PAGE.read_text(), TABLE.read_text()
    if wrong_page(page):
        bad.append('a table of docs/WALK.md is not the second model\'s')
    bad += ['crates/walk/specs/Table.antt: ' + w for w in wrong_table(table)]
    tried = 0
    if '--mutants' in sys.argv:
        for name, walk in mutants():
            tried += 1
            if not wrong_walk(walk):
                bad.append('not noticed: ' + name)
        texts = [*((wrong_page, text) for text in bent_page(page)), *((wrong_table, text) for text in bent_table(table))]
        for look, text in texts:
            tried += 1
            if not look(text):
                bad.append('a changed table is not noticed')
    for line in bad:
        print('walk.py: ' + line)
    if not bad:
        print('walk.py: %d walks, the page and the table of crates/walk as the second model says%s'
              % (len(SAMPLES), ', %d changes noticed' % tried if tried else ''))
    return 1 if bad else 0


if __name__ == '__main__':
    sys.exit(main())
