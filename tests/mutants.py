#!/usr/bin/env python3
"""Are the cases sharp enough?

Every limit of the model is moved by one, up and down, and every rule of it is
bent in some way; at least one line of the cases must change for each.  Prints
a table and exits 1 if a mutant survives that is not listed, with its proof,
as equivalent (or if a listed one does change a line).
"""

import sys
from dataclasses import fields, replace
from itertools import accumulate

sys.dont_write_bytecode = True

import plans
from model import Limits, Map, Model

MUTANTS = []        # (name, model)

EQUIVALENT = {
    'limit shortest 8 -> 7':
        'A length of 7 is no multiple of 8 and stays refused by ground 1.',
    'limit longest 4096 -> 4097':
        'A length of 4097 is no multiple of 8 and stays refused by ground 1.',
    'bands: a run touching an end needs 20 too':
        'After ground 6 the runs touching 0 and 4095 hold 148 and 147 or more.',
    'window 13: the last window of a band not tried':
        'b is active, so the window one lower holds as many; it is in the band '
        'unless the band has exactly 120 subcarriers, and then 7 excluded are '
        'refused by ground 12 (140 > 120).',
    'window 14: the last window of a band not tried':
        'b is active, so the window one lower holds as many; it is in the band '
        'as ground 9 leaves no band below 40 subcarriers.',
    'window 13: a shorter band is one window':
        'With 7 excluded such a band is refused by ground 12 (140 > 119).',
    'pair: 15 named where 10 holds':
        'Ground 15 needs 3746 + 16 active of the 3801 that ground 6 leaves, so '
        'at most 39 are excluded between them: at most one exclusion band, '
        'two bands, and the larger has 1881 subcarriers or more.',
    'pair: 15 named where 11 holds':
        'As above at most 39 are excluded, and 195 is below any such span.',
}


def add(name, model):
    MUTANTS.append((name, model))


def mutant(name):
    """Registers a variant class of the model."""
    def register(cls):
        add(name, cls())
        return cls
    return register


# --- limits ----------------------------------------------------------------

def add_limits():
    for field in fields(Limits):
        value = field.default
        for other in (value - 1, value + 1):
            add('limit %s %d -> %d' % (field.name, value, other),
                Model(replace(Limits(), **{field.name: other})))


def add_pilot_distances():
    for n in range(8):
        for step in (-1, 1, None):
            class Pilots(Model):
                def predefined(self, l, n=n, step=step):
                    eight = Model.predefined(self, l)
                    if step is None:
                        return eight[:n] + eight[n + 1:]
                    eight[n] += step
                    return eight
            what = 'missing' if step is None else 'moved by %d' % step
            add('predefined pilot %d %s' % (n, what), Pilots())


# --- clauses left out ------------------------------------------------------

GROUND_1 = {
    'below 8': lambda n: n < 8,
    'above 4096': lambda n: n > 4096,
    'not a multiple of 8': lambda n: n % 8 != 0,
}
GROUND_2 = {
    'kind 0': lambda i, r: r.kind == 0,
    'kind above 3': lambda i, r: r.kind > 3,
    'record 0 of kind 2 or 3': lambda i, r: i == 0 and r.kind in (2, 3),
    'later record of kind 1': lambda i, r: i != 0 and r.kind == 1,
    'byte 1 of kind 1': lambda i, r: r.kind == 1 and r.byte1 != 0,
    'byte 1 of kind 2': lambda i, r: r.kind == 2 and r.byte1 != 0,
    'byte 1 of kind 3': lambda i, r: r.kind == 3 and r.byte1 != 0,
    'second of kind 3, high byte': lambda i, r: r.kind == 3 and r.second > 255,
    'second of kind 3, low byte': lambda i, r: r.kind == 3 and 0 < r.second < 256,
}
GROUND_4 = {
    'L low': lambda r: r.kind == 1 and r.first < 204,
    'L high': lambda r: r.kind == 1 and r.first > 3885,
    'M low': lambda r: r.kind == 1 and r.second < 1,
    'M high': lambda r: r.kind == 1 and r.second > 32,
    'range end': lambda r: r.kind == 2 and r.second > 4095 and r.first <= r.second,
    'range order': lambda r: r.kind == 2 and r.first > r.second,
    'pilot': lambda r: r.kind == 3 and r.first > 4095,
}
GROUND_8 = {
    'excluded': lambda m, p, k, named: p.excluded[k],
    'in the PLC': lambda m, p, k, named: m.is_plc(p, k),
    'predefined': lambda m, p, k, named: k in m.predefined(p.l),
    'named earlier': lambda m, p, k, named: k in named,
}


def add_clauses():
    for left_out in GROUND_1:
        class One(Model):
            def length_is_bad(self, length, left_out=left_out):
                return any(c(length) for n, c in GROUND_1.items() if n != left_out)
        add('ground 1 without: ' + left_out, One())
    for left_out in GROUND_2:
        class Two(Model):
            def ground_2(self, i, r, left_out=left_out):
                return any(c(i, r) for n, c in GROUND_2.items() if n != left_out)
        add('ground 2 without: ' + left_out, Two())
    for left_out in GROUND_4:
        class Four(Model):
            def ground_4(self, r, left_out=left_out):
                return any(c(r) for n, c in GROUND_4.items() if n != left_out)
        add('ground 4 without: ' + left_out, Four())
    for left_out in GROUND_8:
        class Eight(Model):
            def ground_8(self, p, left_out=left_out):
                named = set()
                for i, k in p.pilots:
                    if any(c(self, p, k, named) for n, c in GROUND_8.items()
                           if n != left_out):
                        return i
                    named.add(k)
                return None
        add('ground 8 without: ' + left_out, Eight())
    for ground in (2, 3, 4, 5):
        class NoRecordGround(Model):
            record_order = tuple(g for g in (2, 3, 4, 5) if g != ground)

            def read(self, data, i):    # the chain must still end
                r = Model.read(self, data, i)
                sound = i < r.next < len(data) // 8
                return r if sound else r._replace(next=0)
        if ground != 3:
            NoRecordGround.read = Model.read
        add('ground %d never tried' % ground, NoRecordGround())
    for ground in Model.map_order:
        class NoMapGround(Model):
            map_order = tuple(g for g in Model.map_order if g != ground)
        add('ground %d never tried' % ground, NoMapGround())

    # A chain that would go back, stay or leave the file is taken as ended.
    for name, bad in (('going back', lambda i, n, total: n < i),
                      ('staying', lambda i, n, total: n == i),
                      ('one past the end', lambda i, n, total: n == total),
                      ('far past the end', lambda i, n, total: n > total)):
        class Three(Model):
            def read(self, data, i, bad=bad):
                r = Model.read(self, data, i)
                return r._replace(next=0) if bad(i, r.next, len(data) // 8) else r
        add('ground 3 without: ' + name, Three())


# --- reading ---------------------------------------------------------------

def add_reading():
    for field in ('next', 'first', 'second'):
        class LowByte(Model):
            def read(self, data, i, field=field):
                r = Model.read(self, data, i)
                return r._replace(**{field: getattr(r, field) & 255})

        class Swapped(Model):
            def read(self, data, i, field=field):
                r = Model.read(self, data, i)
                v = getattr(r, field)
                return r._replace(**{field: (v & 255) << 8 | v >> 8})
        add('reading: low byte only of ' + field, LowByte())
        add('reading: low byte first in ' + field, Swapped())


    for name, kind in (('L', 1), ('M', 1), ('a range', 2), ('a pilot', 3)):
        for bits in (8, 12, 13, 15):
            low = (1 << bits) - 1

            class FewBits(Model):
                def read(self, data, i, kind=kind, name=name, low=low):
                    r = Model.read(self, data, i)
                    if r.kind != kind:
                        return r
                    if name in ('L', 'a pilot', 'a range'):
                        r = r._replace(first=r.first & low)
                    if name in ('M', 'a range'):
                        r = r._replace(second=r.second & low)
                    return r
            add('reading: %d bits of %s' % (bits, name), FewBits())


@mutant('length judged after the chain')
class LengthLate(Model):
    def judge(self, data):
        if len(data) >= 8:
            chain = self.chain(data)
            if isinstance(chain, tuple):
                return chain
        return Model.judge(self, data)


# --- the chain -------------------------------------------------------------

@mutant('chain: all records, in file order')
class FileOrder(Model):
    def chain(self, data):
        total = len(data) // 8
        chain = []
        for i in range(total):
            r = self.read(data, i)
            for ground in self.record_order:
                if self.record_is_bad(ground, i, r, total, chain):
                    return ('refused', ground, i)
            chain.append((i, r))
        return chain


@mutant('chain: the next record whenever the next index is not zero')
class NextRecord(Model):
    def read(self, data, i):
        r = Model.read(self, data, i)
        return r._replace(next=i + 1) if i < r.next < len(data) // 8 else r


@mutant('chain: the last record is not used')
class LastUnused(Model):
    def map_of(self, data, chain):
        return Model.map_of(self, data, chain[:-1] if len(chain) > 1 else chain)


def off_chain(kinds):
    """Sound records of these kinds off the chain are used in the map too."""
    class OffChain(Model):
        def map_of(self, data, chain):
            on = dict(chain)
            total = len(data) // 8
            used = []
            for i in range(total):
                r = self.read(data, i)
                if i in on or (r.kind in kinds and not self.ground_2(i, r)
                               and not self.ground_4(r)):
                    used.append((i, r))
            return Model.map_of(self, data, used)
    return OffChain()


@mutant('chain: pilots off the chain count for ground 5')
class OffChainFive(Model):
    def chain(self, data):
        answer = Model.chain(self, data)
        if isinstance(answer, tuple):
            return answer
        count = 0
        for i in range(len(data) // 8):
            if self.read(data, i).kind == 3:
                count += 1
                if count == 121:
                    return ('refused', 5, i)
        return answer


@mutant('chain: pilots off the chain count as named earlier')
class OffChainNamed(Model):
    def map_of(self, data, chain):
        p = Model.map_of(self, data, chain)
        self.file = [self.read(data, i) for i in range(len(data) // 8)]
        return p

    def ground_8(self, p):
        place = Model.ground_8(self, p)
        for i, k in p.pilots:
            if place is not None and place <= i:
                return place
            if any(r.kind == 3 and r.first == k for r in self.file[:i]):
                return i
        return place


@mutant('chain: tried ground by ground, not record by record')
class GroundByGround(Model):
    def chain(self, data):
        total = len(data) // 8
        walk = rising_chain(self, data)
        for ground in self.record_order:
            for n, (i, r) in enumerate(walk):
                if self.record_is_bad(ground, i, r, total, walk[:n]):
                    return ('refused', ground, i)
        return walk


def rising_chain(model, data):
    """The chain as far as the next index rises and stays in the file."""
    total = len(data) // 8
    walk, i = [], 0
    while True:
        r = model.read(data, i)
        walk.append((i, r))
        if r.next <= i or r.next >= total:
            return walk
        i = r.next


@mutant('ranges: the end is not included')
class OpenEnd(Model):
    def map_of(self, data, chain):
        return Model.map_of(self, data, [
            (i, r._replace(second=r.second - 1)) if r.kind == 2 and r.second > r.first
            else (i, r) for i, r in chain])


@mutant('ranges: overlaps counted twice')
class Multiple(Model):
    def map_of(self, data, chain):
        p = Model.map_of(self, data, chain)
        times = [0] * 4096
        for _, r in chain:
            if r.kind == 2:
                for k in range(r.first, r.second + 1):
                    times[k] += 1
        p.sums = list(accumulate(times, initial=0))
        return p


@mutant('ranges: an overlap is active again')
class Toggled(Model):
    def map_of(self, data, chain):
        p = Model.map_of(self, data, chain)
        flags = bytearray(4096)
        for _, r in chain:
            if r.kind == 2:
                for k in range(r.first, r.second + 1):
                    flags[k] ^= 1
        return Map(p.l, p.m, flags, p.pilots)


# --- places ----------------------------------------------------------------

def add_places():
    for ground in range(1, 16):
        class Other(Model):
            def judge(self, data, ground=ground):
                answer = Model.judge(self, data)
                if isinstance(answer, tuple) and answer[1] == ground:
                    return ('refused', ground, 0 if answer[2] else 1)
                return answer
        add('place %d: zero for another, one for zero' % ground, Other())
    for ground in (2, 3, 4, 5, 8):
        class Position(Model):
            def judge(self, data, ground=ground):
                answer = Model.judge(self, data)
                if isinstance(answer, tuple) and answer[1] == ground:
                    on = [i for i, _ in rising_chain(self, data)]
                    return ('refused', ground, on.index(answer[2]))
                return answer
        add('place %d: position on the chain' % ground, Position())
    for ground in (2, 4, 5):
        class LastRecord(Model):
            def chain(self, data, ground=ground):
                answer = Model.chain(self, data)
                if isinstance(answer, tuple) and answer[1] == ground:
                    walk = rising_chain(self, data)
                    total = len(data) // 8
                    return ('refused', ground, max(
                        i for n, (i, r) in enumerate(walk)
                        if self.record_is_bad(ground, i, r, total, walk[:n])))
                return answer
        add('place %d: highest' % ground, LastRecord())


@mutant('place 3: highest')
class LastThree(Model):
    # A chain holds one bad next index at most, so the file is searched.
    def chain(self, data):
        answer = Model.chain(self, data)
        if isinstance(answer, tuple) and answer[1] == 3:
            total = len(data) // 8
            return ('refused', 3, max(i for i in range(total)
                                      if self.ground_3(i, self.read(data, i), total)))
        return answer


@mutant('place 3: the next index')
class NextThree(Model):
    def chain(self, data):
        answer = Model.chain(self, data)
        if isinstance(answer, tuple) and answer[1] == 3:
            return ('refused', 3, self.read(data, answer[2]).next)
        return answer


@mutant('place 5: the last kind 3 allowed')
class FiveBefore(Model):
    def chain(self, data):
        answer = Model.chain(self, data)
        if isinstance(answer, tuple) and answer[1] == 5:
            return ('refused', 5, [i for i, r in rising_chain(self, data)
                                   if r.kind == 3 and i < answer[2]][-1])
        return answer


@mutant('place 6: highest')
class Six(Model):
    def ground_6(self, p):
        bad = [k for k in range(4096) if (k < 148 or k > 3948) and not p.excluded[k]]
        return bad[-1] if bad else None


@mutant('place 7: highest')
class Seven(Model):
    def ground_7(self, p):
        bad = [k for k in range(p.l - 56, p.l + 64) if p.excluded[k]]
        return bad[-1] if bad else None


def bad_pilots(model, p):
    """(record, subcarrier) of every bad further pilot, in chain order."""
    named, bad = set(), []
    for i, k in p.pilots:
        if any(c(model, p, k, named) for c in GROUND_8.values()):
            bad.append((i, k))
        named.add(k)
    return bad


@mutant('place 8: highest')
class Eight(Model):
    def ground_8(self, p):
        bad = bad_pilots(self, p)
        return bad[-1][0] if bad else None


@mutant('place 8: record of the lowest bad subcarrier')
class EightSubcarrier(Model):
    def ground_8(self, p):
        bad = bad_pilots(self, p)
        return min(bad, key=lambda x: x[1])[0] if bad else None


@mutant('place 8: the subcarrier')
class EightK(Model):
    def ground_8(self, p):
        bad = bad_pilots(self, p)
        return bad[0][1] if bad else None


@mutant('place 8: the earlier record of a pilot named twice')
class EightEarlier(Model):
    def ground_8(self, p):
        bad = bad_pilots(self, p)
        return next(i for i, k in p.pilots if k == bad[0][1]) if bad else None


@mutant('place 8: repeated pilots last')
class EightRepeated(Model):
    def ground_8(self, p):
        bad = bad_pilots(self, p)
        alone = [i for i, k in bad if p.excluded[k] or self.is_plc(p, k)
                 or k in self.predefined(p.l)]
        return alone[0] if alone else bad[0][0] if bad else None


def add_band_places():
    class Nine(Model):
        def ground_9(self, p):
            bad = [a for a, b in self.bands(p) if self.width(a, b) < 40]
            return bad[-1] if bad else None

    class NineTop(Model):
        def ground_9(self, p):
            bad = [b for a, b in self.bands(p) if self.width(a, b) < 40]
            return bad[0] if bad else None

    class Twelve(Model):
        def ground_12(self, p):
            bad = [a for a, b in self.bands(p) if 20 * p.count(a, b) > self.width(a, b)]
            return bad[-1] if bad else None

    class TwelveTop(Model):
        def ground_12(self, p):
            bad = [b for a, b in self.bands(p) if 20 * p.count(a, b) > self.width(a, b)]
            return bad[0] if bad else None
    add('place 9: highest', Nine())
    add('place 9: upper end of the band', NineTop())
    add('place 12: highest', Twelve())
    add('place 12: upper end of the band', TwelveTop())


# --- windows ---------------------------------------------------------------

def add_windows():
    for ground, size, most in ((13, 120, 6), (14, 20, 4)):

        def variant(name, find, ground=ground, size=size, most=most):
            class Window(Model):
                def bent(self, p):
                    return find(self, p, size, most)
            setattr(Window, 'ground_%d' % ground, Window.bent)
            add('window %d: %s' % (ground, name), Window())

        def full(m, p, size, most):
            return [w for a, b in m.bands(p) for w in range(a, b - size + 2)
                    if p.count(w, w + size - 1) > most]

        def highest(m, p, size, most):
            return max(full(m, p, size, most), default=None)

        def highest_in_lowest_band(m, p, size, most):
            for a, b in m.bands(p):
                bad = [w for w in full(m, p, size, most) if a <= w <= b]
                if bad:
                    return bad[-1]
            return None

        def lowest_in_highest_band(m, p, size, most):
            for a, b in reversed(m.bands(p)):
                bad = [w for w in full(m, p, size, most) if a <= w <= b]
                if bad:
                    return bad[0]
            return None

        def last_subcarrier(m, p, size, most):
            bad = full(m, p, size, most)
            return bad[0] + size - 1 if bad else None

        def first_excluded(m, p, size, most):
            bad = full(m, p, size, most)
            return p.excluded.find(1, bad[0]) if bad else None

        def from_excluded(m, p, size, most):
            bad = [w for w in full(m, p, size, most) if p.excluded[w]]
            return bad[0] if bad else None

        def any_between(m, p, size, most):
            low, high = p.excluded.find(0), p.excluded.rfind(0)
            for w in range(low, high - size + 2):
                if p.count(w, w + size - 1) > most:
                    return w
            return None

        def straddling(m, p, size, most):
            # across bands, counting single exclusions only
            low, high = p.excluded.find(0), p.excluded.rfind(0)
            flags = bytearray(len(p.excluded))
            for a, b in m.bands(p):
                flags[a:b + 1] = p.excluded[a:b + 1]
            for w in range(low, high - size + 2):
                if sum(flags[w:w + size]) > most:
                    return w
            return None

        def overrunning_top(m, p, size, most):
            for a, b in m.bands(p):
                for w in range(a, b + 1):
                    if p.count(w, min(w + size - 1, 4095)) > most:
                        return w
            return None

        def from_below(m, p, size, most):
            for a, b in m.bands(p):
                for w in range(a - 1, b - size + 2):
                    if p.count(w, w + size - 1) > most:
                        return w
            return None

        def first_band(m, p, size, most):
            a, b = m.bands(p)[0]
            return min((w for w in full(m, p, size, most) if w <= b), default=None)

        def last_band(m, p, size, most):
            a, b = m.bands(p)[-1]
            return min((w for w in full(m, p, size, most) if w >= a), default=None)

        def widest_band(m, p, size, most):
            a, b = max(m.bands(p), key=lambda x: x[1] - x[0])
            return min((w for w in full(m, p, size, most) if a <= w <= b), default=None)

        def without_first(m, p, size, most):
            starts = [a for a, b in m.bands(p)]
            return min((w for w in full(m, p, size, most) if w not in starts), default=None)

        def without_last(m, p, size, most):
            lasts = [b - size + 1 for a, b in m.bands(p)]
            return min((w for w in full(m, p, size, most) if w not in lasts), default=None)

        def without_two_last(m, p, size, most):
            lasts = [b - size + 1 - n for a, b in m.bands(p) for n in (0, 1)]
            return min((w for w in full(m, p, size, most) if w not in lasts), default=None)

        def steps(m, p, size, most):
            # windows side by side only
            return min((w for a, b in m.bands(p) for w in range(a, b - size + 2, size)
                        if p.count(w, w + size - 1) > most), default=None)

        def plc_left_out(m, p, size, most):
            return min((w for w in full(m, p, size, most)
                        if w + size - 1 < p.l - 56 or w > p.l + 63), default=None)

        variant('highest', highest)
        variant('highest of the lowest band', highest_in_lowest_band)
        variant('lowest of the highest band', lowest_in_highest_band)
        variant('place is its last subcarrier', last_subcarrier)
        variant('place is its first excluded', first_excluded)
        variant('only from an excluded subcarrier', from_excluded)
        variant('anywhere, all excluded counted', any_between)
        variant('across bands, single exclusions counted', straddling)
        variant('running over the top of a band', overrunning_top)
        variant('starting below a band', from_below)
        variant('lowest band only', first_band)
        variant('highest band only', last_band)
        variant('widest band only', widest_band)
        variant('the first window of a band not tried', without_first)
        variant('the last window of a band not tried', without_last)
        variant('the last two windows of a band not tried', without_two_last)
        variant('windows side by side', steps)
        variant('none that meets the PLC window', plc_left_out)
        if ground == 13:
            def short_band(m, p, size, most):
                for a, b in m.bands(p):
                    if b - a + 1 < size:
                        if p.count(a, b) > most:
                            return a
                    for w in range(a, b - size + 2):
                        if p.count(w, w + size - 1) > most:
                            return w
                return None
            variant('a shorter band is one window', short_band)


# --- bands -----------------------------------------------------------------

@mutant('bands: a run touching 0 is no exclusion band')
class NotAtZero(Model):
    def is_exclusion_band(self, first, last):
        return first != 0 and Model.is_exclusion_band(self, first, last)


@mutant('bands: a run touching 4095 is no exclusion band')
class NotAtTop(Model):
    def is_exclusion_band(self, first, last):
        return last != 4095 and Model.is_exclusion_band(self, first, last)


@mutant('bands: a run touching an end needs 20 too')
class TouchingLong(Model):
    def is_exclusion_band(self, first, last):
        return last - first + 1 >= 20


@mutant('bands: every excluded run is an exclusion band')
class EveryRun(Model):
    def is_exclusion_band(self, first, last):
        return True


@mutant('bands: only the runs touching an end are exclusion bands')
class EndsOnly(Model):
    def is_exclusion_band(self, first, last):
        return first == 0 or last == 4095


def add_widths():
    """Width and span in steps, as they once were, or one too many: in one ground, or in
    all four."""
    for what, less in (('in steps', 1), ('one too many', -1)):
        class Other(Model):
            def width(self, a, b, less=less):
                return Model.width(self, a, b) - less
        add('grounds 9 to 12: width ' + what, Other())
        for ground in (9, 10, 11, 12):
            class InOne(Model):
                pass
            name = 'ground_%d' % ground
            setattr(InOne, name, getattr(Other(), name))
            add('ground %d: width %s' % (ground, what), InOne())


def add_bands():
    class NineFirst(Model):
        def ground_9(self, p):
            a, b = self.bands(p)[0]
            return a if self.width(a, b) < 40 else None

    class NineLast(Model):
        def ground_9(self, p):
            a, b = self.bands(p)[-1]
            return a if self.width(a, b) < 40 else None

    class NineActive(Model):
        def ground_9(self, p):
            return next((a for a, b in self.bands(p)
                         if self.width(a, b) - p.count(a, b) < 40), None)

    class TenFirst(Model):
        def ground_10(self, p):
            a, b = self.bands(p)[0]
            return None if self.width(a, b) >= 440 else 0

    class TenLast(Model):
        def ground_10(self, p):
            a, b = self.bands(p)[-1]
            return None if self.width(a, b) >= 440 else 0

    class TenPlc(Model):
        def ground_10(self, p):
            return None if any(self.width(a, b) >= 440 for a, b in self.bands(p)
                               if a <= p.l <= b) else 0

    class TenActive(Model):
        def ground_10(self, p):
            return None if any(self.width(a, b) - p.count(a, b) >= 440
                               for a, b in self.bands(p)) else 0

    class TenEvery(Model):
        def ground_10(self, p):
            return None if all(self.width(a, b) >= 440 for a, b in self.bands(p)) else 0

    class ElevenSingles(Model):
        def ground_11(self, p):
            low, high = p.excluded.find(0), p.excluded.rfind(0)
            n = sum(p.count(a, b) for a, b in self.bands(p))
            return 0 if 5 * n > self.width(low, high) else None

    class ElevenBands(Model):
        def ground_11(self, p):
            low, high = p.excluded.find(0), p.excluded.rfind(0)
            n = p.count(low, high) - sum(p.count(a, b) for a, b in self.bands(p))
            return 0 if 5 * n > self.width(low, high) else None

    class ElevenAll(Model):
        def ground_11(self, p):
            low, high = p.excluded.find(0), p.excluded.rfind(0)
            return 0 if 5 * p.count(0, 4095) > self.width(low, high) else None

    class ElevenWidths(Model):
        def ground_11(self, p):
            low, high = p.excluded.find(0), p.excluded.rfind(0)
            return 0 if 5 * p.count(low, high) > sum(
                self.width(a, b) for a, b in self.bands(p)) else None

    class TwelveFirst(Model):
        def ground_12(self, p):
            a, b = self.bands(p)[0]
            return a if 20 * p.count(a, b) > self.width(a, b) else None

    class TwelveLast(Model):
        def ground_12(self, p):
            a, b = self.bands(p)[-1]
            return a if 20 * p.count(a, b) > self.width(a, b) else None

    class TwelveTogether(Model):
        def ground_12(self, p):
            bands = self.bands(p)
            n = sum(p.count(a, b) for a, b in bands)
            return bands[0][0] if 20 * n > sum(self.width(a, b) for a, b in bands) else None

    class TwelveAny(Model):
        def ground_12(self, p):
            bands = self.bands(p)
            n = sum(p.count(a, b) for a, b in bands)
            return next((a for a, b in bands if 20 * n > self.width(a, b)), None)

    for name, cls in (
            ('ground 9: lowest band only', NineFirst),
            ('ground 9: highest band only', NineLast),
            ('ground 9: width less the excluded', NineActive),
            ('ground 10: lowest band only', TenFirst),
            ('ground 10: highest band only', TenLast),
            ('ground 10: the band of the PLC', TenPlc),
            ('ground 10: width less the excluded', TenActive),
            ('ground 10: every band', TenEvery),
            ('ground 11: single exclusions only', ElevenSingles),
            ('ground 11: exclusion bands only', ElevenBands),
            ('ground 11: all excluded', ElevenAll),
            ('ground 11: widths for the span', ElevenWidths),
            ('ground 12: lowest band only', TwelveFirst),
            ('ground 12: highest band only', TwelveLast),
            ('ground 12: all bands together', TwelveTogether),
            ('ground 12: the excluded of all bands', TwelveAny)):
        add(name, cls())


# --- the checking order ----------------------------------------------------

def add_order():
    """Where ground i is the first to hold and j holds too, j is named."""
    for n, i in enumerate(Model.record_order):
        for j in Model.record_order[n + 1:]:
            class RecordPair(Model):
                def chain(self, data, i=i, j=j):
                    answer = Model.chain(self, data)
                    if isinstance(answer, tuple) and answer[1] == i:
                        at = answer[2]
                        before = [(k, r) for k, r in rising_chain(self, data) if k < at]
                        if self.record_is_bad(j, at, self.read(data, at),
                                              len(data) // 8, before):
                            return ('refused', j, at)
                    return answer
            add('pair: %d named where %d holds' % (j, i), RecordPair())
    for n, i in enumerate(Model.map_order):
        for j in Model.map_order[n + 1:]:
            class MapPair(Model):
                def judge(self, data, i=i, j=j):
                    answer = Model.judge(self, data)
                    if isinstance(answer, tuple) and answer[1] == i:
                        p = self.map_of(data, self.chain(data))
                        place = getattr(self, 'ground_%d' % j)(p)
                        if place is not None:
                            return ('refused', j, place)
                    return answer
            add('pair: %d named where %d holds' % (j, i), MapPair())


# --- ranks and scattered pilots --------------------------------------------

def add_ranks():
    class NoPlc(Model):
        def ranks_of(self, p):
            return sorted(Model.ranks_of(self, p) + list(range(p.l, p.l + 8)))

    class NoPredefined(Model):
        def ranks_of(self, p):
            return sorted(Model.ranks_of(self, p) + self.predefined(p.l))

    class NoFurther(Model):
        def ranks_of(self, p):
            return sorted(Model.ranks_of(self, p) + [k for _, k in p.pilots])

    def grid(name, test):
        class Grid(Model):
            def on_grid(self, p, k, phase):
                return test(p, k, phase)
        add('scattered: ' + name, Grid())

    class Continuous(Model):
        def scattered_of(self, p, phase):
            return [k for k in range(4096) if self.on_grid(p, k, phase)
                    and not p.excluded[k]]

    class Excluded(Model):
        def scattered_of(self, p, phase):
            return [k for k in range(4096) if self.on_grid(p, k, phase)]

    class Singles(Model):
        def scattered_of(self, p, phase):
            single = [k for a, b in self.bands(p) for k in range(a, b + 1)
                      if p.excluded[k]]
            return [k for k in self.ranks_of(p) + single if self.on_grid(p, k, phase)]

    add('ranks: the PLC has ranks', NoPlc())
    add('ranks: predefined pilots have ranks', NoPredefined())
    add('ranks: further pilots have ranks', NoFurther())
    grid('referred to subcarrier 0', lambda p, k, j: (k - j) % 128 == 0)
    grid('referred to subcarrier 8', lambda p, k, j: (k - 8 - j) % 128 == 0)
    grid('referred to L', lambda p, k, j: (k - p.l - j) % 128 == 0)
    grid('referred to the lowest active',
         lambda p, k, j: (k - p.excluded.find(0) - j) % 128 == 0)
    grid('only from L+8 up',
         lambda p, k, j: k >= p.l + 8 and (k - p.l - 8 - j) % 128 == 0)
    grid('only below and at L+8',
         lambda p, k, j: k <= p.l + 8 and (k - p.l - 8 - j) % 128 == 0)
    grid('at phase 1', lambda p, k, j: (k - p.l - 8 - 1) % 128 == 0)
    grid('in the last phase', lambda p, k, j: (k - p.l - 8 + 1) % 128 == 0)
    add('scattered: continuous pilots counted', Continuous())
    add('scattered: excluded counted', Excluded())
    add('scattered: single exclusions counted', Singles())


# --- the run ---------------------------------------------------------------

def line(model, data):
    try:
        return model.line(data)
    except (IndexError, ValueError, StopIteration) as error:
        return 'failed: %r' % error


def main():
    add_limits()
    add_pilot_distances()
    add_clauses()
    add_reading()
    for name, kinds in (('ranges', (2,)), ('pilots', (3,)), ('ranges and pilots', (2, 3))):
        add('chain: %s off the chain are used' % name, off_chain(kinds))
    add_places()
    add_band_places()
    add_windows()
    add_widths()
    add_bands()
    add_order()
    add_ranks()

    sound = Model()
    cases = [(name, data, sound.line(data)) for name, data, _ in plans.all_cases()]
    names = [name for name, _ in MUTANTS]
    assert len(set(names)) == len(names), 'two mutants of one name'
    assert set(EQUIVALENT) <= set(names), 'an equivalent that is no mutant'

    killed = survived = wrong = 0
    for name, model in MUTANTS:
        for case, data, want in cases:
            got = line(model, data)
            if got != want:
                killed += 1
                print('killed      %-58s %s: %s, not %s' % (name, case, got, want))
                if name in EQUIVALENT:
                    print('            but listed as equivalent')
                    wrong += 1
                break
        else:
            if name in EQUIVALENT:
                print('equivalent  %-58s %s' % (name, EQUIVALENT[name]))
            else:
                survived += 1
                print('SURVIVED    %s' % name)
    print('%d mutants, %d killed, %d equivalent, %d survived; %d cases'
          % (len(MUTANTS), killed, len(MUTANTS) - killed - survived, survived, len(cases)))
    sys.exit(1 if survived or wrong else 0)


if __name__ == '__main__':
    main()
