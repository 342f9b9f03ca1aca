#!/usr/bin/env python3
"""Draws points with their values, from the second model of the points.

    python3 tests/pictures.py           writes docs/points-64.svg and docs/cross-128.svg
    python3 tests/pictures.py --check   compares them, exits 1 on a difference
"""

import sys

sys.dont_write_bytecode = True

import points
import stored

STEP = 34                       # between a coordinate and the next whole number
LEFT, ABOVE, BELOW, RIGHT = 64, 64, 76, 24


class Picture:
    """The points of a load, first coordinate to the right, second upwards."""

    def __init__(self, load):
        self.load = load
        self.model = points.Points()
        self.points = self.model.constellation(load)[0]
        self.end = points.furthest(load)
        self.width = LEFT + (2 * self.end + 2) * STEP + RIGHT
        self.height = ABOVE + (2 * self.end + 2) * STEP + BELOW

    def x(self, c):
        return LEFT + (self.end + 1 + c) * STEP

    def y(self, c):
        return ABOVE + (self.end + 1 - c) * STEP

    def label(self, value):
        """The bits of a value, those of either coordinate apart."""
        bits = format(value, '0%db' % self.load)
        low = self.load // 2
        return bits[:-low] + ' ' + bits[-low:]

    def moved(self, value):
        """Whether the cross rule moves the point."""
        return (self.load % 2 == 1
                and self.model.rectangle(self.load // 2, value) != self.points[value])

    def dots(self, values, style):
        path = ''.join('M%d %dh.01' % (self.x(x), self.y(y)) for x, y in map(self.points.__getitem__, values))
        return '<path %s stroke-width="9" stroke-linecap="round" d="%s"/>' % (style, path)

    def axes(self):
        low, high = -self.end - 1, self.end + 1
        yield '<path stroke="#999" fill="none" d="M%d %dH%dm-7 -4l7 4l-7 4M%d %dV%dm-4 7l4 -7l4 7"/>' % (
            self.x(low), self.y(0), self.x(high), self.x(0), self.y(low), self.y(high))
        yield '<g font-size="13" fill="#555">'
        for c in range(-self.end, self.end + 1, 2):
            text = str(c).replace('-', '−')
            yield '<text x="%d" y="%d">%s</text>' % (self.x(c), self.y(low) + 18, text)
            yield '<text x="%d" y="%d">%s</text>' % (self.x(low) - 18, self.y(c) + 5, text)
        yield '</g>'

    def words(self, title, said):
        yield '<text x="%d" y="26" font-size="18">%s</text>' % (self.width // 2, title)
        yield '<text x="%d" y="48" font-size="13">%s</text>' % (self.width // 2, said)
        yield '<text x="%d" y="%d" font-size="14">first coordinate</text>' % (self.x(0), self.height - 28)
        yield '<text transform="translate(20 %d) rotate(-90)" font-size="14">second coordinate</text>' % self.y(0)

    def lines(self, title, said):
        yield ('<svg xmlns="http://www.w3.org/2000/svg" viewBox="0 0 %d %d" font-family="sans-serif" text-anchor="middle">'
               % (self.width, self.height))
        yield '<title>%s</title>' % title
        yield '<rect width="%d" height="%d" fill="#fff"/>' % (self.width, self.height)
        yield from self.words(title, said)
        yield from self.axes()
        values = range(2 ** self.load)
        yield self.dots([v for v in values if not self.moved(v)], 'stroke="#036"')
        if any(map(self.moved, values)):
            yield self.dots([v for v in values if self.moved(v)], 'stroke="#c50"')
        yield '<g font-family="monospace" font-size="12.5">'
        for value, (x, y) in enumerate(self.points):
            yield '<text x="%d" y="%d">%s</text>' % (self.x(x), self.y(y) + 21, self.label(value))
        yield '</g>'
        yield '</svg>'


def picture(load, title, said):
    return ''.join(line + '\n' for line in Picture(load).lines(title, said)).encode()


def main():
    files = {
        'docs/points-64.svg': picture(
            6, '64 points, load 6',
            'Values in binary. Upper three bits: second coordinate; lower three: first.'),
        'docs/cross-128.svg': picture(
            7, '128 points in a cross, load 7',
            'Values in binary. Upper four bits: first coordinate of the rectangle; lower three: second. '
            'Orange: moved by the cross rule.'),
    }
    print('pictures.py: %d pictures, %d bytes' % (len(files), sum(map(len, files.values()))))
    sys.exit(1 if stored.keep(files) else 0)


if __name__ == '__main__':
    main()
