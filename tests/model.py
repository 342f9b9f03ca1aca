#!/usr/bin/env python3
"""A second model of the plan rules, written from the papers alone: 01, and requests 02, 05 and 08.

It judges a plan (any bytes) by grounds 1 to 15, in checking order, knows the
roles of the subcarriers, tries one more excluded range (change request 05) and
gives the reason of a role (change request 08).  It is kept plain on purpose: it
is compared with the head end's own program, so it must be easy to hold against
the paper.

    python3 tests/model.py < plan

prints the line that plancheck prints.
"""

import sys
from dataclasses import dataclass
from itertools import accumulate, groupby
from typing import NamedTuple

PHASES = 128        # a phase is 0 to 127


@dataclass(frozen=True)
class Limits:
    """Every number of the plan rules, so that a test can change one."""
    record_bytes: int = 8        # ground 1: the length is a multiple of this
    shortest: int = 8            # ground 1: bytes
    longest: int = 4096          # ground 1: bytes
    lowest_l: int = 204          # ground 4
    highest_l: int = 3885        # ground 4
    lowest_m: int = 1            # ground 4
    highest_m: int = 32          # ground 4
    last_subcarrier: int = 4095  # ground 4, and the end of the map
    pilot_records: int = 120     # ground 5: kind 3 records on the chain
    lowest_active: int = 148     # ground 6
    highest_active: int = 3948   # ground 6
    clear_below: int = 56        # ground 7: L-56 ...
    clear_above: int = 63        # ground 7: ... to L+63
    distance_1: int = 15         # predefined pilots, below L and above L+7
    distance_2: int = 24
    distance_3: int = 35
    distance_4: int = 47
    plc_width: int = 8           # the PLC is L to L+7
    exclusion_band: int = 20     # a run this long is an exclusion band
    narrow: int = 40             # ground 9: least width of a band, in subcarriers
    wide: int = 440              # ground 10: width that one band must have
    times_span: int = 5          # ground 11
    times_width: int = 20        # ground 12
    long_window: int = 120       # ground 13
    long_excluded: int = 6       # ground 13
    short_window: int = 20       # ground 14
    short_excluded: int = 4      # ground 14
    most_ranks: int = 3745       # ground 15
    scattered_from: int = 8      # scattered pilots are counted from L+8 ...
    scattered_step: int = 128    # ... in steps of 128


class Record(NamedTuple):
    kind: int
    byte1: int
    next: int
    first: int
    second: int


class Map:
    """What a chain of good records says."""

    def __init__(self, l, m, excluded, pilots):
        self.l = l                  # lowest PLC subcarrier
        self.m = m                  # depth
        self.excluded = excluded    # one byte for each subcarrier, 1 if excluded
        self.pilots = pilots        # (record, subcarrier), in chain order
        # sums[k] is the number of excluded subcarriers below k
        self.sums = list(accumulate(excluded, initial=0))

    def count(self, a, b):
        """Number of excluded subcarriers of a to b, both included."""
        return self.sums[b + 1] - self.sums[a]


class Model:
    record_order = (2, 3, 4, 5)
    map_order = (6, 7, 8, 9, 10, 11, 12, 13, 14, 15)

    def __init__(self, limits=Limits()):
        self.limits = limits

    # --- reading -----------------------------------------------------------

    def read(self, data, i):
        """Record i.  Two-byte numbers have the high byte first."""
        at = self.limits.record_bytes * i
        b = data[at:at + 8].ljust(8, b'\0')
        return Record(b[0], b[1], b[2] * 256 + b[3], b[4] * 256 + b[5],
                      b[6] * 256 + b[7])

    def length_is_bad(self, length):
        """Ground 1."""
        x = self.limits
        return (length < x.shortest or length > x.longest
                or length % x.record_bytes != 0)

    def chain(self, data):
        """The chain as a list of (index, record), or a refusal by 2 to 5."""
        number_of_records = len(data) // self.limits.record_bytes
        chain = []
        i = 0
        while True:
            record = self.read(data, i)
            for ground in self.record_order:
                if self.record_is_bad(ground, i, record, number_of_records, chain):
                    return ('refused', ground, i)
            chain.append((i, record))
            if record.next == 0:
                return chain
            i = record.next

    def record_is_bad(self, ground, i, record, number_of_records, before):
        if ground == 2:
            return self.ground_2(i, record)
        if ground == 3:
            return self.ground_3(i, record, number_of_records)
        if ground == 4:
            return self.ground_4(record)
        return self.ground_5(record, before)

    def ground_2(self, i, r):
        if r.kind < 1 or r.kind > 3:
            return True
        if i == 0 and r.kind != 1:
            return True
        if i != 0 and r.kind == 1:
            return True
        if r.byte1 != 0:
            return True
        if r.kind == 3 and r.second != 0:
            return True
        return False

    def ground_3(self, i, r, number_of_records):
        if r.next != 0 and r.next <= i:
            return True
        if r.next >= number_of_records:
            return True
        return False

    def ground_4(self, r):
        x = self.limits
        if r.kind == 1:
            if r.first < x.lowest_l or r.first > x.highest_l:
                return True
            if r.second < x.lowest_m or r.second > x.highest_m:
                return True
        if r.kind == 2:
            if r.second > x.last_subcarrier:
                return True
            if r.first > r.second:
                return True
        if r.kind == 3:
            if r.first > x.last_subcarrier:
                return True
        return False

    def ground_5(self, r, before):
        if r.kind != 3:
            return False
        earlier = sum(1 for _, e in before if e.kind == 3)
        return earlier >= self.limits.pilot_records

    def map_of(self, data, chain):
        l, m = chain[0][1].first, chain[0][1].second
        excluded = bytearray(self.limits.last_subcarrier + 1)
        pilots = []
        for i, r in chain:
            if r.kind == 2:
                excluded[r.first:r.second + 1] = b'\1' * (r.second + 1 - r.first)
            if r.kind == 3:
                pilots.append((i, r.first))
        return Map(l, m, excluded, pilots)

    # --- the map -----------------------------------------------------------

    def predefined(self, l):
        """The predefined continuous pilots, rising."""
        x = self.limits
        distances = (x.distance_1, x.distance_2, x.distance_3, x.distance_4)
        top = l + x.plc_width - 1
        return sorted([l - d for d in distances] + [top + d for d in distances])

    def is_plc(self, p, k):
        return p.l <= k <= p.l + self.limits.plc_width - 1

    def exclusion_bands(self, p):
        """(first, last) of every exclusion band, rising."""
        found = []
        k = 0
        for flag, run in groupby(p.excluded):
            length = len(list(run))
            if flag and self.is_exclusion_band(k, k + length - 1):
                found.append((k, k + length - 1))
            k += length
        return found

    def is_exclusion_band(self, first, last):
        return (last - first + 1 >= self.limits.exclusion_band
                or first == 0 or last == self.limits.last_subcarrier)

    def bands(self, p):
        """(a, b) of every band, rising."""
        edges = self.exclusion_bands(p)
        return [(low[1] + 1, high[0] - 1) for low, high in zip(edges, edges[1:])]

    def width(self, a, b):
        """The width of a band a to b, and the span from a to b: subcarriers are
        counted, both ends included."""
        return b - a + 1

    def window(self, p, size, most):
        """First subcarrier of the lowest window with more than most excluded."""
        for a, b in self.bands(p):
            for w in range(a, b - size + 2):
                if p.sums[w + size] - p.sums[w] > most:
                    return w
        return None

    # Each of grounds 6 to 15 answers its place, or None if it does not hold.

    def ground_6(self, p):
        x = self.limits
        for k in range(x.last_subcarrier + 1):
            if (k < x.lowest_active or k > x.highest_active) and not p.excluded[k]:
                return k
        return None

    def ground_7(self, p):
        x = self.limits
        for k in range(p.l - x.clear_below, p.l + x.clear_above + 1):
            if p.excluded[k]:
                return k
        return None

    def ground_8(self, p):
        named = set()
        predefined = self.predefined(p.l)
        for i, k in p.pilots:
            if p.excluded[k] or self.is_plc(p, k) or k in predefined or k in named:
                return i
            named.add(k)
        return None

    def ground_9(self, p):
        for a, b in self.bands(p):
            if self.width(a, b) < self.limits.narrow:
                return a
        return None

    def ground_10(self, p):
        for a, b in self.bands(p):
            if self.width(a, b) >= self.limits.wide:
                return None
        return 0

    def ground_11(self, p):
        lowest = p.excluded.find(0)
        highest = p.excluded.rfind(0)
        if self.limits.times_span * p.count(lowest, highest) > self.width(lowest, highest):
            return 0
        return None

    def ground_12(self, p):
        # Inside a band every excluded subcarrier is individually excluded.
        for a, b in self.bands(p):
            if self.limits.times_width * p.count(a, b) > self.width(a, b):
                return a
        return None

    def ground_13(self, p):
        return self.window(p, self.limits.long_window, self.limits.long_excluded)

    def ground_14(self, p):
        return self.window(p, self.limits.short_window, self.limits.short_excluded)

    def ground_15(self, p):
        if len(self.ranks_of(p)) > self.limits.most_ranks:
            return 0
        return None

    # --- roles -------------------------------------------------------------

    def ranks_of(self, p):
        """The subcarriers of ranks 0, 1, ... : neither excluded, PLC nor
        continuous, in rising order."""
        taken = bytearray(p.excluded)
        for k in range(p.l, p.l + self.limits.plc_width):
            taken[k] = 1
        for k in self.predefined(p.l):
            taken[k] = 1
        for _, k in p.pilots:
            taken[k] = 1
        return [k for k in range(len(taken)) if not taken[k]]

    def on_grid(self, p, k, phase):
        x = self.limits
        return (k - (p.l + x.scattered_from) - phase) % x.scattered_step == 0

    def scattered_of(self, p, phase):
        return [k for k in self.ranks_of(p) if self.on_grid(p, k, phase)]

    # --- the entries -------------------------------------------------------

    def judge(self, data):
        """A refusal ('refused', number, place), or the Map of a good plan."""
        if self.length_is_bad(len(data)):
            return ('refused', 1, 0)
        chain = self.chain(data)
        if isinstance(chain, tuple):
            return chain
        p = self.map_of(data, chain)
        for ground in self.map_order:
            place = getattr(self, 'ground_%d' % ground)(p)
            if place is not None:
                return ('refused', ground, place)
        return p

    def verdict(self, data):
        p = self.judge(data)
        if isinstance(p, tuple):
            return p
        return ('ok', len(self.ranks_of(p)))

    def role(self, data, k, phase):
        p = self.asked(data, k, phase)
        return p if isinstance(p, tuple) else self.role_of(p, k, phase)

    def asked(self, data, k, phase):
        """A refusal by 1 to 15, then by 16, or the Map of a good plan."""
        p = self.judge(data)
        if isinstance(p, tuple):
            return p
        if self.out_of_range(k, phase):
            return ('refused', 16, 0)
        return p

    def out_of_range(self, k, phase):
        """Ground 16, of a subcarrier and a phase."""
        return not 0 <= k <= self.limits.last_subcarrier or not 0 <= phase < PHASES

    def role_of(self, p, k, phase):
        """The role on a good plan: the first that applies."""
        if p.excluded[k]:
            return 'excluded'
        if self.is_plc(p, k):
            return 'plc'
        if k in self.predefined(p.l) or k in [pilot for _, pilot in p.pilots]:
            return 'continuous'
        if self.on_grid(p, k, phase):
            return 'scattered'
        return 'data'

    def line(self, data):
        return self.line_of(self.judge(data))

    def line_of(self, p):
        """The line of a refusal, or of the Map of a good plan."""
        if isinstance(p, tuple):
            return 'refused %d %d' % (p[1], p[2])
        return 'ok %d %d' % (len(self.ranks_of(p)), len(self.scattered_of(p, 0)))

    # --- trying an exclusion (change request 05) -----------------------------

    def last_on_chain(self, chain):
        """The index of the last chain record."""
        return chain[-1][0]

    def new_record(self, first, last):
        """Of kind 2, with that range and next index zero."""
        return bytes((2, 0, 0, 0)) + first.to_bytes(2, 'big') + last.to_bytes(2, 'big')

    def copy(self, data, chain, first, last):
        """The plan with a new last record, at which the last chain record points."""
        at = self.limits.record_bytes * self.last_on_chain(chain) + 2
        index = len(data) // self.limits.record_bytes
        return data[:at] + index.to_bytes(2, 'big') + data[at + 2:] + self.new_record(first, last)

    def trial(self, data, first, last):
        """The refusal of the plan by 1 to 5, else what judging the copy gives.  A number
        above 65535, which no record can hold, is 4 at the new record."""
        if self.length_is_bad(len(data)):
            return ('refused', 1, 0)
        chain = self.chain(data)
        if isinstance(chain, tuple):
            return chain
        if max(first, last) > 65535:
            if self.length_is_bad(len(data) + self.limits.record_bytes):
                return ('refused', 1, 0)
            return ('refused', 4, len(data) // self.limits.record_bytes)
        return self.judge(self.copy(data, chain, first, last))

    # --- the reason of a role (change request 08) -----------------------------

    def why(self, data, k, phase):
        """The refusal that the role has, or (role, kind of reason, number)."""
        p = self.asked(data, k, phase)
        if isinstance(p, tuple):
            return p
        role = self.role_of(p, k, phase)
        return (role, *self.reason(p, self.chain(data), role, k))

    def reason(self, p, chain, role, k):
        """A record, a predefined distance below or above, or the one phase."""
        if role == 'excluded':
            return ('record', self.covering_record(chain, k))
        if role == 'plc':
            return ('record', 0)
        if role == 'continuous' and k in self.predefined(p.l):
            return self.distance(p, k)
        if role == 'continuous':
            return ('record', self.naming_record(chain, k))
        return ('phase', self.scattered_phase(p, k))

    def covers(self, r, k):
        """The record excludes subcarrier k."""
        return r.kind == 2 and r.first <= k <= r.second

    def names(self, r, k):
        """The record makes subcarrier k a pilot."""
        return r.kind == 3 and r.first == k

    def covering_record(self, chain, k):
        """The first on the chain that excludes subcarrier k."""
        return next(i for i, r in chain if self.covers(r, k))

    def naming_record(self, chain, k):
        """The first on the chain that makes subcarrier k a pilot."""
        return next(i for i, r in chain if self.names(r, k))

    def distance(self, p, k):
        """How far a predefined pilot stands below L, or above L+7."""
        if k < p.l:
            return ('below', p.l - k)
        return ('above', k - (p.l + self.limits.plc_width - 1))

    def scattered_phase(self, p, k):
        """The one phase at which the role is scattered."""
        phases = [phase for phase in range(PHASES) if self.role_of(p, k, phase) == 'scattered']
        assert len(phases) == 1, 'scattered at %d phases: %d' % (len(phases), k)
        return phases[0]

    def why_line(self, data, k, phase):
        return '%s %s %d' % self.why(data, k, phase)


def verdict(data, limits=Limits()):
    """('ok', N_I) or ('refused', number, place)."""
    return Model(limits).verdict(data)


def role(data, k, phase, limits=Limits()):
    """A refusal, or excluded, plc, continuous, scattered or data."""
    return Model(limits).role(data, k, phase)


def predefined(l, limits=Limits()):
    """The eight predefined pilots, rising."""
    return Model(limits).predefined(l)


def scattered(data, phase, limits=Limits()):
    """The subcarriers whose role at the phase is scattered, rising; of a
    refused plan, the refusal."""
    model = Model(limits)
    p = model.judge(data)
    return p if isinstance(p, tuple) else model.scattered_of(p, phase)


def ranks(data, limits=Limits()):
    """The subcarriers of ranks 0 to N_I - 1; of a refused plan, the refusal."""
    model = Model(limits)
    p = model.judge(data)
    return p if isinstance(p, tuple) else model.ranks_of(p)


def line(data, limits=Limits()):
    """The line that plancheck prints, without its newline."""
    return Model(limits).line(data)


def trial_line(data, first, last, limits=Limits()):
    """The line that trycheck prints, without its newline."""
    model = Model(limits)
    return model.line_of(model.trial(data, first, last))


def why_line(data, k, phase, limits=Limits()):
    """The line that whycheck prints, without its newline."""
    return Model(limits).why_line(data, k, phase)


if __name__ == '__main__':
    print(line(sys.stdin.buffer.read()))
