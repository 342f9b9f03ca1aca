#!/usr/bin/env python3
"""Draws the commutator, and makes the tables of docs/FIGURE.md, from the queues of tests/figure.py.

    python3 tests/commutator.py           writes docs/commutator.svg and the tables of docs/FIGURE.md
    python3 tests/commutator.py --check   compares them, exits 1 on a difference

A symbol of ten cells goes through four delay lines, so J is 3, and two dummies are added.  Symbols a to e
are followed, after x, y and z, which went in before the start: with e the last cell of b has come out.
Each cell is known by its symbol and its position; a dummy has position 10 or 11.  Symbol a is also what
crates/figure/specs/Worked.antt works out; its lists and lengths are held to the queues, too.
"""

import re
import sys
from typing import NamedTuple

sys.dont_write_bytecode = True

import stored
from emitter import Emitter, emitter_length
from figure import Commutator, Drawing

N, M = 10, 4
BEFORE, SYMBOLS, FOLLOWED = 'xyz', 'abcde', 'ab'
PAGE = 'docs/FIGURE.md'
WORKED = 'crates/figure/specs/Worked.antt'
PICTURE = 'docs/commutator.svg'
BEGIN, END = '<!-- %s: made by tests/commutator.py -->', '<!-- end of %s -->'


# --- what the queues do ------------------------------------------------------

class Cell(NamedTuple):
    symbol: str
    p: int

    def is_dummy(self):
        return self.p >= N

    def name(self):
        return '–' if self.is_dummy() else '%s%d' % self


class Watched(Commutator):
    """A commutator that keeps which cell went into which line, and which came out for it."""

    def __init__(self, lines):
        super().__init__(lines)
        self.seen = []

    def clock(self, cell):
        r = self.stands_on
        out = super().clock(cell)
        self.seen.append((cell, r, out))
        return out


class Watching(Drawing):
    def begin(self, lines):
        self.last = Watched(lines)
        return self.last


class Passed(NamedTuple):
    """A symbol that has gone through: what went in and came out, dummies included, what of that is sent
    and thrown away, the line of each cell, what the lines then hold, and where the commutator stands."""
    given: list
    out: list
    sent: list
    thrown: list
    lines_of: dict
    lines: list
    stands_on: int


def passed():
    """What the lines hold before a, and each symbol from a on."""
    drawing = Watching(N, M)
    lines = drawing.lines_in([None] * drawing.length())
    found = {}
    begun = None
    for symbol in BEFORE + SYMBOLS:
        if symbol == SYMBOLS[0]:
            begun = [list(line) for line in lines]
        cells = drawing.with_dummies([Cell(symbol, p) for p in range(N)], None)
        given = [cell or Cell(symbol, p) for p, cell in enumerate(cells)]
        out = drawing.through(lines, given)
        found[symbol] = Passed(given, out, drawing.kept(out), drawing.thrown(out),
                               {cell: r for cell, r, _ in drawing.last.seen},
                               [list(line) for line in lines], drawing.last.stands_on)
    return begun, {symbol: found[symbol] for symbol in SYMBOLS}


BEGUN, PASSED = passed()


def comes_out(cell):
    """The symbol with which a cell comes out, and the position at which it does."""
    [place] = [(symbol, p) for symbol, through in PASSED.items() for p, out in enumerate(through.out) if out == cell]
    return place


def check():
    """What the picture and the tables rest on."""
    for symbol in SYMBOLS:
        through = PASSED[symbol]
        assert not any(cell.is_dummy() for cell in through.sent)
        assert all(cell.is_dummy() for cell in through.thrown)
    for symbol in FOLLOWED:
        for cell in PASSED[symbol].given:
            late, position = comes_out(cell)
            assert SYMBOLS.index(late) == SYMBOLS.index(symbol) + cell.p % M and position == cell.p


# --- the symbol that the definitions work out ------------------------------------

def worked_lists():
    """The lists of symbol a, in the words of the definitions."""
    def words(cells):
        return ' ∷ '.join('filler' if cell.is_dummy() else cell.name() for cell in cells) + ' ∷ []'

    through = PASSED[SYMBOLS[0]]
    drawing = Drawing(N, M)
    return {'given': words(through.given[:N]), 'before': words(drawing.side_by_side(BEGUN)),
            'afterwards': words(drawing.side_by_side(through.lines)),
            'sent': words(through.sent), 'thrown': words(through.thrown)}


def wrong_worked(text):
    """What is wrong with the symbol and the lengths worked out."""
    wrong = [name for name, cells in worked_lists().items() if text.count('  %s = %s\n' % (name, cells)) != 1]
    sizes = re.findall(r'(?:figure_store|figure_cells|thrown_away) (\d+) (\d+) before given', text)
    wrong += [] if sizes == [(str(M), str(N))] * 3 else ['the sizes are %s' % sizes]
    lengths = re.findall(r'line_begins \(ceiling (\d+) (\d+)\) (\d+) ≡ (\d+)', text)
    wrong += [' '.join(found) for found in lengths
              if found[1] != found[2] or Drawing(int(found[0]), int(found[1])).length() != int(found[3])]
    return wrong if len(lengths) == 2 else wrong + ['%d lengths' % len(lengths)]


def check_worked():
    text = (stored.ROOT / WORKED).read_text(encoding='utf-8')
    assert not wrong_worked(text), wrong_worked(text)
    for name, cells in worked_lists().items():      # two cells exchanged, in each list
        first, second, rest = cells.split(' ∷ ', 2)
        bent = ' ∷ '.join((second, first, rest)) if first != second else ' ∷ '.join((first, rest))
        assert wrong_worked(text.replace('  %s = %s' % (name, cells), '  %s = %s' % (name, bent))), name
    for number in ('642', '58528', '425', '3745', 'cells 4', 'store 4'):
        assert wrong_worked(text.replace(number, number + '0')), number


# --- the tables --------------------------------------------------------------

def rows(head, lines):
    return ['| %s |' % ' | '.join(head), '|' + '---|' * len(head), *('| %s |' % ' | '.join(line) for line in lines)]


def numbered(cells, join=', '):
    return join.join(cell.name() for cell in cells) or 'none'


def places_of(cells):
    """Where some cells that went into one line come out."""
    data = [cell for cell in cells if not cell.is_dummy()]
    [late] = {comes_out(cell)[0] for cell in cells}
    at = ', '.join(str(comes_out(cell)[1]) for cell in data)
    return 'symbol %s, at %s%s' % (late, at, '; the dummy is thrown away' if len(data) < len(cells) else '')


def places_table():
    """Where each cell of the first two symbols goes."""
    lines = []
    for r in range(M):
        line = [str(r)]
        for symbol in FOLLOWED:
            cells = [cell for cell, of in PASSED[symbol].lines_of.items() if of == r]
            line += [numbered(cells), places_of(cells)]
        lines.append(line)
    head = ['line']
    for symbol in FOLLOWED:
        head += ['of symbol %s there go in' % symbol, 'and come out in']
    return rows(head, lines)


def lines_table():
    """What the lines hold after each of them, and what was sent."""
    head = ['after', *('line %d' % r for r in range(M)), 'sent', 'thrown away']
    return rows(head, [['symbol ' + symbol, *(numbered(line, ' ') for line in PASSED[symbol].lines),
                        numbered(PASSED[symbol].sent, ' '), numbered(PASSED[symbol].thrown, ' ')]
                       for symbol in FOLLOWED])


def lengths_table():
    """The lengths of the lines and of both emitters' stores."""
    def line(name, n, m):
        drawing = Drawing(n, m)
        first, *_, last = map(drawing.line_length, range(1, m))
        lines = '0, %s up to %s' % (format(first, ','), format(last, ','))
        return [name, *(format(x, ',') for x in (n, m, drawing.j, drawing.dummies())), lines,
                *(format(x, ',') for x in (drawing.length(), emitter_length(n, m)))]

    def of_plan(name, file):
        at = Emitter().layout((stored.ROOT / 'plans' / file).read_bytes())
        return line('%s (`plans/%s`)' % (name, file), at.n, at.m)
    return rows(['', 'N_I', 'M', 'J', 'dummies', 'lines hold', 'literal store', "first emitter's store"],
                [line('the symbol above', N, M), of_plan('Plan A', 'plan-a.plan'),
                 of_plan('the largest plan', 'largest.plan')])


def page(text):
    """The page with its tables as they should be."""
    for name, table in (('places', places_table()), ('lines', lines_table()), ('lengths', lengths_table())):
        before, rest = text.split(BEGIN % name + '\n')
        _, after = rest.split(END % name + '\n')
        text = before + '\n'.join([BEGIN % name, '', *table, '', END % name]) + '\n' + after
    return text


# --- the picture -------------------------------------------------------------

WIDTH = 760
BOX, TALL, GAP = 36, 26, 2          # a cell
PITCH = 40                          # from line to line
LEFT = 130                          # where the rows of boxes begin, and the lines
LINE_END = LEFT + 110 + (M - 1) * -(-N // M) * (BOX + GAP)
FILLS = dict(zip(FOLLOWED, (('#cfe3f7', '#036'), ('#fde0c5', '#b40'))))      # blue, orange


def text(x, y, words, size=13, **more):
    extra = ''.join(' %s="%s"' % (key.replace('_', '-'), value) for key, value in more.items())
    return '<text x="%d" y="%d" font-size="%d"%s>%s</text>' % (x, y, size, extra, words)


def box(x, y, cell):
    """A cell; a dummy has a broken edge."""
    if cell.is_dummy():
        fill, edge, broken = '#fff', '#888', ' stroke-dasharray="4 3"'
    else:
        fill, edge = FILLS.get(cell.symbol, ('#eee' if cell.symbol in BEFORE else '#fff', '#888'))
        broken = ''
    yield '<rect x="%d" y="%d" width="%d" height="%d" fill="%s" stroke="%s"%s/>' % (x, y, BOX, TALL, fill, edge, broken)
    yield text(x + BOX // 2, y + 18, cell.name(), 13, font_family='monospace')


def row(y, label, cells, said):
    """The cells of a symbol in rising position, the dummies apart."""
    yield text(LEFT - 12, y + 18, label, 13, text_anchor='end')
    for p, cell in enumerate(cells):
        yield from box(LEFT + p * (BOX + GAP) + (14 if p >= N else 0), y, cell)
    yield text(LEFT + len(cells) * (BOX + GAP) + 22, y + 18, said, 13, text_anchor='start')


def wire(d, **more):
    extra = ''.join(' %s="%s"' % (key.replace('_', '-'), value) for key, value in more.items())
    return '<path stroke="#333" fill="none" d="%s"%s/>' % (d, extra)


def switch(x, to, y, stands_on, name):
    """A switch at x with its contacts at `to`, one for each line; the arrow shows how it moves on."""
    def at(r):
        return y + r * PITCH + TALL // 2
    middle = (at(0) + at(M - 1)) // 2
    side = 1 if to > x else -1
    far, head = (x - side * 50, x - 8) if side > 0 else (x, x + 50)
    yield wire('M%d %dH%dm-7 -4l7 4l-7 4' % (min(far, x), middle, head))
    yield wire('M%d %dL%d %d' % (x, middle, to - side * 4, at(stands_on)), stroke_width=3)
    yield '<circle cx="%d" cy="%d" r="5"/>' % (x, middle)
    for r in range(M):
        yield '<circle cx="%d" cy="%d" r="4" fill="#fff" stroke="#333"/>' % (to, at(r))
    turn = to - side * 14
    yield wire('M%d %dV%dm-4 -7l4 7l4 -7' % (turn, at(0) + 14, at(M - 1)))
    yield text(x - side * 28, middle - 8, name)


def lines_held(y, through):
    """The drawing: the switches and the lines, whose oldest cell stands nearest the output."""
    into, out_of = LEFT, LINE_END + 24
    yield from switch(into - 62, into, y, through.stands_on, 'in')
    yield from switch(out_of + 62, out_of, y, through.stands_on, 'out')
    for r, line in enumerate(through.lines):
        middle = y + r * PITCH + TALL // 2
        first = LINE_END - len(line) * (BOX + GAP)
        yield wire('M%d %dH%d' % (into + 4, middle, first))
        yield wire('M%d %dH%d' % (LINE_END - GAP, middle, out_of - 4))
        yield text(into + 10, middle - 5, 'line %d: %s' % (r, '%d cells' % len(line) if line else 'no cells'), 12,
                   text_anchor='start')
        for i, cell in enumerate(reversed(line)):
            yield from box(first + i * (BOX + GAP), y + r * PITCH, cell)


def panel(y, symbol):
    """A symbol that goes in, the lines after it, and what came out."""
    through = PASSED[symbol]
    yield text(20, y, 'Symbol %s goes in. The lines after it, the oldest cell nearest the output:' % symbol, 15,
               text_anchor='start')
    yield from row(y + 16, symbol + ' goes in', through.given, 'dummies')
    yield from lines_held(y + 66, through)
    yield from row(y + 66 + M * PITCH + 10, symbol + ' is sent', through.out, 'thrown away')


def height_of_panel():
    return 66 + M * PITCH + 10 + TALL + 44


def picture_lines():
    drawing = Drawing(N, M)
    title = 'The commutator: M = %d, N_I = %d, J = %d, %d dummies' % (M, N, drawing.j, drawing.dummies())
    later = [symbol for symbol in SYMBOLS if symbol not in FOLLOWED]
    top = 124
    below = top + len(FOLLOWED) * height_of_panel()
    height = below + 16 + len(later) * (TALL + 10) + 16
    yield ('<svg xmlns="http://www.w3.org/2000/svg" viewBox="0 0 %d %d" font-family="sans-serif" text-anchor="middle">'
           % (WIDTH, height))
    yield '<title>%s</title>' % title
    yield '<rect width="%d" height="%d" fill="#fff"/>' % (WIDTH, height)
    yield text(WIDTH // 2, 28, title, 18)
    for i, said in enumerate((
            'One cell goes in, the oldest comes out, and both switches move on to the next line, from line %d to line 0.' % (M - 1),
            'Blue: symbol %s. Orange: symbol %s. Grey: symbols %s, %s and %s, before the start.' % (*FOLLOWED, *BEFORE),
            'White: later symbols. Broken edge: dummies.')):
        yield text(WIDTH // 2, 50 + 18 * i, said, 12)
    for i, symbol in enumerate(FOLLOWED):
        yield from panel(top + i * height_of_panel(), symbol)
    yield text(20, below, 'The cells of a and b that are left come out with the next symbols.', 15, text_anchor='start')
    for i, symbol in enumerate(later):
        yield from row(below + 16 + i * (TALL + 10), symbol + ' is sent', PASSED[symbol].out, 'thrown away')
    yield '</svg>'


def main():
    check()
    check_worked()
    picture = ''.join(line + '\n' for line in picture_lines()).encode()
    text_now = (stored.ROOT / PAGE).read_text(encoding='utf-8')
    differing = stored.keep({PICTURE: picture, PAGE: page(text_now).encode()})
    print('commutator.py: a picture of %d bytes, %d symbols followed, 3 tables' % (len(picture), len(FOLLOWED)))
    sys.exit(1 if differing else 0)


if __name__ == '__main__':
    main()
