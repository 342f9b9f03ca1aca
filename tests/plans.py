"""Builders of plans, and the list of named cases.

A case is (name, plan, want).  `want` is the line worked out by hand from the
scope paper, or the first words of it ('ok 421' leaves the scattered count
open).  cases.py holds the model against every `want`.
"""

RUBBISH = b'\xff' * 8


# --- builders --------------------------------------------------------------

def record(kind, next_index, first, second, byte1=0):
    """One record of eight bytes, two-byte numbers high byte first."""
    return (bytes([kind, byte1]) + next_index.to_bytes(2, 'big')
            + first.to_bytes(2, 'big') + second.to_bytes(2, 'big'))


def entries(L, M, ranges=(), pilots=()):
    """(kind, first, second) of a plan: PLC, then ranges, then pilots."""
    return ([(1, L, M)] + [(2, a, b) for a, b in ranges]
            + [(3, k, 0) for k in pilots])


def spread(items, places, total, filler=RUBBISH):
    """The items, chained, at the given record places of a file of `total`
    records; every other record is filler (one record, or a list by place)."""
    out = [filler] * total if isinstance(filler, bytes) else list(filler)
    for n, (kind, first, second) in enumerate(items):
        next_index = places[n + 1] if n + 1 < len(items) else 0
        out[places[n]] = record(kind, next_index, first, second)
    return b''.join(out)


def chained(items):
    """The items, chained one after the other."""
    return spread(items, range(len(items)), len(items))


def plan(L, M, ranges=(), pilots=()):
    return chained(entries(L, M, ranges, pilots))


def outside(a, b):
    """The two ranges that leave a to b active."""
    return [(0, a - 1), (b + 1, 4095)]


def singles(*subcarriers):
    return [(k, k) for k in subcarriers]


def patch(data, at, *values):
    """The plan with the bytes from `at` on replaced."""
    return data[:at] + bytes(values) + data[at + len(values):]


def kind(data, i, value):
    return patch(data, 8 * i, value)


def byte1(data, i, value):
    return patch(data, 8 * i + 1, value)


def next_index(data, i, value):
    return patch(data, 8 * i + 2, value >> 8, value & 255)


def first(data, i, value):
    return patch(data, 8 * i + 4, value >> 8, value & 255)


def second(data, i, value):
    return patch(data, 8 * i + 6, value >> 8, value & 255)


# --- plans that many cases start from --------------------------------------

PLAN_A = bytes.fromhex('0100000103CC0004' '020000020000031F' '0200000004D90FFF')


def near_a(ranges=(), pilots=(), L=972, M=4):
    """Plan A with more ranges (records 3 on) and then pilots."""
    return plan(L, M, outside(800, 1240) + list(ranges), pilots)


def near_b(ranges=(), pilots=()):
    """L 1500, M 1, active 1000 to 2000: 985 ranks, PLC window 1444 to 1563."""
    return plan(1500, 1, outside(1000, 2000) + list(ranges), pilots)


def full(ranges=(), pilots=(), L=2000, M=32):
    """Active 148 to 3948: 3785 ranks less the pilots and exclusions."""
    return plan(L, M, outside(148, 3948) + list(ranges), pilots)


def two_bands(a, b, ranges=(), pilots=()):
    """Plan A with a second band a to b above it."""
    return plan(972, 4, [(0, 799), (1241, a - 1), (b + 1, 4095)] + list(ranges),
                pilots)


def band_below(a, b, ranges=(), pilots=()):
    """Plan A with a second band a to b below it."""
    return plan(972, 4, [(0, a - 1), (b + 1, 799), (1241, 4095)] + list(ranges),
                pilots)


def pilots_of_full(count):
    """Further pilots clear of the PLC window 1944 to 2063 of `full`."""
    return [200 + 10 * n for n in range(count)]


LARGEST = full(pilots=pilots_of_full(40))
ONE_PILOT_FEWER = full(pilots=pilots_of_full(39))

# 510 ranges, each overlapping the next, that together exclude what Plan A does.
OVERLAPPING_510 = plan(972, 4,
                       [(3 * n, 3 * n + 37) for n in range(255)]
                       + [(1241 + 11 * n, 1301 + 11 * n) for n in range(255)])

# 150 single exclusions, 24 steps apart, below and above the PLC window.
SINGLES_150 = full(singles(*range(160, 1940, 24), *range(2070, 3870, 24)))

# 22 single exclusions in a band 800 to 1239, no window too full.  L is 1017.
LEFT = [801, 802, 803, 804, 821, 822, 921, 922, 923, 924, 941]
TWENTY_TWO = LEFT + [2039 - k for k in LEFT]


def equal_12(extra=()):
    return plan(1017, 4, outside(800, 1239) + singles(*TWENTY_TWO, *extra))


def three_bands(ranges=()):
    """Plan A with a band of 40 subcarriers below it and one above it."""
    return plan(972, 4, [(0, 699), (740, 799), (1241, 1299), (1340, 4095)] + list(ranges))


# At the limits of grounds 9 to 12 at once: bands of 440 and 40 subcarriers, 5 x 119 = 595 = the
# span, 20 x 2 = 40.
AT_LIMITS = plan(972, 4, [(0, 799), (1395, 4095), (1240, 1354), (810, 811), (1360, 1361)])


def odd(start, count):
    """`count` single exclusions, two steps apart."""
    return singles(*range(start, start + 2 * count, 2))


def stack(ground):
    """A plan on which `ground` is the first of 6 to 14 to hold, and every
    later one of them holds too."""
    low = [(0, 879)]
    top = [(1181, 4095)]
    pilots = [972]
    plc = singles(1000)
    if ground == 6:
        low = [(0, 99), (101, 879)]
    if ground >= 8:
        plc = []
    if ground >= 9:
        pilots = []
    if ground >= 10:
        top = [(1191, 4095)]
    # 880 to 1079 with eleven exclusions, then a band 1150 to 1180 (or 1190)
    full_windows = [(1040, 1044)] + odd(1050, 6)
    if ground <= 10:
        return plan(972, 4, low + [(1080, 1149)] + top + full_windows + plc, pilots)
    if ground == 11:    # 880 to 1320, then 1600 to 1640 with three exclusions
        return plan(972, 4, low + [(1321, 1599), (1641, 4095)] + full_windows
                    + singles(1610, 1620, 1630))
    if ground == 12:
        return two_bands(1300, 1340, full_windows + singles(1310, 1320, 1330))
    if ground == 13:
        return near_a([(1100, 1104)] + singles(1130, 1150))
    return near_a([(1100, 1104)])


# --- the cases -------------------------------------------------------------

def all_cases():
    cases = []

    def case(name, data, want):
        cases.append((name, data, want))

    # Plan A and its neighbours, as the paper lists them.
    case('plan A', PLAN_A, 'ok 425 4')
    case('plan A built', near_a(), 'ok 425 4')
    case('empty', b'', 'refused 1 0')
    case('plan A active 800 to 1239', plan(972, 4, outside(800, 1239)), 'ok 424 4')
    case('plan A active 800 to 1238', plan(972, 4, outside(800, 1238)), 'refused 10 0')
    case('plan A without 850 to 854', near_a([(850, 854)]), 'refused 14 835')
    case('plan A without 850 to 853', near_a([(850, 853)]), 'ok 421 3')
    case('plan A singles 810 to 870', near_a(singles(*range(810, 871, 10))), 'refused 13 800')
    case('plan A without 1182 to 1201', near_a([(1182, 1201)]), 'refused 9 1202')
    case('plan A without 1181 to 1200', near_a([(1181, 1200)]), 'refused 10 0')
    case('plan A without 1180 to 1199', near_a([(1180, 1199)]), 'refused 10 0')
    case('plan A without 839 to 858', near_a([(839, 858)]), 'refused 9 800')
    case('plan A without 840 to 859', near_a([(840, 859)]), 'refused 10 0')
    case('active 148 to 3948, 40 pilots', LARGEST, 'ok 3745 30')
    case('active 148 to 3948, 39 pilots', ONE_PILOT_FEWER, 'refused 15 0')

    # Ground 1: the length.
    for length in (1, 4, 7):
        case('first %d bytes of plan A' % length, PLAN_A[:length], 'refused 1 0')
    case('first 8 bytes of plan A', PLAN_A[:8], 'refused 3 0')
    case('one record alone', record(1, 0, 972, 4), 'refused 6 0')
    case('one record and a byte', record(1, 0, 972, 4) + b'\0', 'refused 1 0')
    case('one record and a half', PLAN_A[:12], 'refused 1 0')
    case('15 bytes', PLAN_A[:15], 'refused 1 0')
    case('16 bytes, all excluded', plan(972, 4, [(0, 4095)]), 'refused 7 916')
    case('16 bytes, chain runs out', PLAN_A[:16], 'refused 3 1')
    case('17 bytes', PLAN_A[:17], 'refused 1 0')
    case('23 bytes', PLAN_A[:23], 'refused 1 0')
    case('25 bytes', PLAN_A + b'\0', 'refused 1 0')
    case('31 bytes', PLAN_A + b'\0' * 7, 'refused 1 0')
    case('32 bytes, plan A and zeros', PLAN_A + b'\0' * 8, 'ok 425 4')
    case('4088 bytes', PLAN_A + b'\0' * 4064, 'ok 425 4')
    case('4095 bytes', PLAN_A + b'\0' * 4071, 'refused 1 0')
    case('4096 bytes', PLAN_A + b'\0' * 4072, 'ok 425 4')
    case('4096 bytes, rubbish after the chain', PLAN_A + b'\xa5' * 4072, 'ok 425 4')
    case('4097 bytes', PLAN_A + b'\0' * 4073, 'refused 1 0')
    case('4104 bytes', PLAN_A + b'\0' * 4080, 'refused 1 0')
    case('8192 bytes', PLAN_A + b'\0' * 8168, 'refused 1 0')
    case('60000 bytes', PLAN_A + b'\0' * 59976, 'refused 1 0')
    case('zeros, 8', bytes(8), 'refused 2 0')
    case('zeros, 4096', bytes(4096), 'refused 2 0')
    case('ones, 4096', b'\x01' * 4096, 'refused 2 0')
    case('0xFF, 4096', b'\xff' * 4096, 'refused 2 0')
    case('bad kind and bad length', bytes(9), 'refused 1 0')

    # Ground 2: kinds, byte 1 and the second number of kind 3.
    for value in (0, 2, 3, 4, 128, 255):
        case('record 0 kind %d' % value, kind(PLAN_A, 0, value), 'refused 2 0')
    for value in (0, 1, 4, 129, 130, 255):
        case('record 1 kind %d' % value, kind(PLAN_A, 1, value), 'refused 2 1')
    case('record 2 kind 1', kind(PLAN_A, 2, 1), 'refused 2 2')
    case('record 2 kind 1, sound numbers', PLAN_A[:16] + record(1, 0, 972, 4), 'refused 2 2')
    for value in (1, 128, 255):
        case('record 0 byte 1 is %d' % value, byte1(PLAN_A, 0, value), 'refused 2 0')
        case('record 2 byte 1 is %d' % value, byte1(PLAN_A, 2, value), 'refused 2 2')
    one_pilot = near_a(pilots=[900])
    case('one pilot', one_pilot, 'ok 424')
    case('pilot record byte 1', byte1(one_pilot, 3, 1), 'refused 2 3')
    for value in (1, 256, 900, 65535):
        case('pilot second number %d' % value, second(one_pilot, 3, value), 'refused 2 3')
    case('range second number zero', near_a([(0, 0)]), 'ok 425 4')
    case('two bad kinds', kind(kind(PLAN_A, 1, 4), 2, 4), 'refused 2 1')
    case('three bad byte 1', byte1(byte1(byte1(PLAN_A, 0, 9), 1, 9), 2, 9), 'refused 2 0')

    # Ground 3: the next index.
    for value in (1, 3, 4, 256, 257, 65535):
        case('record 1 of 3, next %d' % value, next_index(PLAN_A, 1, value), 'refused 3 1')
    case('record 1 of 3, next 0', next_index(PLAN_A, 1, 0), 'refused 6 3949')
    case('record 0 of 3, next 0', next_index(PLAN_A, 0, 0), 'refused 6 0')
    case('record 0 of 3, next 2', next_index(PLAN_A, 0, 2), 'refused 6 0')
    for value in (3, 4, 65535):
        case('record 0 of 3, next %d' % value, next_index(PLAN_A, 0, value), 'refused 3 0')
    for value in (1, 2, 3, 258, 512, 32768):
        case('record 2 of 3, next %d' % value, next_index(PLAN_A, 2, value), 'refused 3 2')
    case('record 1 of 1', record(1, 1, 972, 4), 'refused 3 0')
    for total, want in ((257, 'ok 425 4'), (256, 'refused 3 1')):
        data = spread(entries(972, 4, outside(800, 1240)), [0, 1, 256], 257)
        case('next 256 of %d' % total, data[:8 * total], want)
    case('next 511 of 512', spread(entries(972, 4, outside(800, 1240)), [0, 510, 511], 512),
         'ok 425 4')
    case('next 512 of 512', next_index(spread(entries(972, 4, outside(800, 1240)),
                                              [0, 510, 511], 512), 511, 512), 'refused 3 511')
    case('next 511 of 511', spread(entries(972, 4, outside(800, 1240)),
                                   [0, 510, 511], 512)[:4088], 'refused 3 510')
    gaps = spread(entries(972, 4, outside(800, 1240)), [0, 3, 7], 9)
    case('chain 0 3 7', gaps, 'ok 425 4')
    case('chain 0 3 7, then back to 5', next_index(gaps, 7, 5), 'refused 3 7')
    case('chain 0 3 7, then 7', next_index(gaps, 7, 7), 'refused 3 7')
    case('chain 0 3, then back to 1', next_index(gaps, 3, 1), 'refused 3 3')
    case('chain 0 3 7, then rubbish 8', next_index(gaps, 7, 8), 'refused 2 8')
    case('chain back, rubbish above', next_index(gaps, 3, 2), 'refused 3 3')

    # Ground 4: numbers of a record.
    low_end = plan(204, 4, outside(148, 588))
    case('L 204', low_end, 'ok 425')
    case('L 203', first(low_end, 0, 203), 'refused 4 0')
    high_end = plan(3885, 4, outside(3508, 3948))
    case('L 3885', high_end, 'ok 425')
    case('L 3886', first(high_end, 0, 3886), 'refused 4 0')
    for value in (0, 4095, 4096, 65535):
        case('L %d' % value, first(PLAN_A, 0, value), 'refused 4 0')
    for value in (0, 33, 256, 260, 65535):
        case('M %d' % value, second(PLAN_A, 0, value), 'refused 4 0')
    for value in (1, 2, 3, 31, 32):
        case('M %d' % value, second(PLAN_A, 0, value), 'ok 425 4')
    for more in (4096, 8192, 32768):
        case('L 972 and %d' % more, first(PLAN_A, 0, 972 + more), 'refused 4 0')
        case('M 4 and %d' % more, second(PLAN_A, 0, 4 + more), 'refused 4 0')
        case('range 850 and %d' % more, near_a(singles(850 + more)), 'refused 4 3')
        case('pilot 900 and %d' % more, near_a(pilots=[900 + more]), 'refused 4 3')
    case('range end 4096', second(PLAN_A, 2, 4096), 'refused 4 2')
    case('range end 65535', second(PLAN_A, 2, 65535), 'refused 4 2')
    case('range end 4094', second(PLAN_A, 2, 4094), 'refused 6 4095')
    case('range 4095 to 4095', near_a([(4095, 4095)]), 'ok 425 4')
    case('range 4096 to 4096', near_a([(4096, 4096)]), 'refused 4 3')
    case('range 4095 to 4096', near_a([(4095, 4096)]), 'refused 4 3')
    case('range 4096 to 4095', near_a([(4096, 4095)]), 'refused 4 3')
    case('range begins one above its end', near_a([(801, 800)]), 'refused 4 3')
    case('range 1 to 0', near_a([(1, 0)]), 'refused 4 3')
    case('range begins at its end', near_a([(850, 850)]), 'ok 424')
    case('range 65535 to 0', near_a([(65535, 0)]), 'refused 4 3')
    case('pilot 4095', near_a(pilots=[4095]), 'refused 8 3')
    case('pilot 4096', near_a(pilots=[4096]), 'refused 4 3')
    case('pilot 65535', near_a(pilots=[65535]), 'refused 4 3')
    case('two bad ranges', near_a([(5, 4), (850, 850), (4096, 4096)]), 'refused 4 3')
    case('two bad ranges, spread', spread(entries(972, 4, outside(800, 1240) + [(5, 4), (7, 6)]),
                                          [0, 2, 4, 6, 8], 9), 'refused 4 6')

    # Ground 5: the 121st kind 3 record.
    many = pilots_of_full(130)
    case('119 pilots', full(pilots=many[:119]), 'ok 3666')
    case('120 pilots', full(pilots=many[:120]), 'ok 3665')
    case('121 pilots', full(pilots=many[:121]), 'refused 5 123')
    case('122 pilots', full(pilots=many[:122]), 'refused 5 123')
    case('130 pilots', full(pilots=many), 'refused 5 123')
    case('120 pilots, then 10 off the chain',
         next_index(full(pilots=many), 122, 0), 'ok 3665')
    odd_places = [2 * n for n in range(124)]
    case('121 pilots, spread', spread(entries(2000, 32, outside(148, 3948), many[:121]),
                                      odd_places, 248), 'refused 5 246')
    case('120 pilots, pilots off the chain between',
         spread(entries(2000, 32, outside(148, 3948), many[:120]), odd_places, 248,
                record(3, 0, 2500, 0)), 'ok 3665')
    case('120 pilots, then a range', chained(entries(2000, 32, outside(148, 3948), many[:120])
                                             + [(2, 3000, 3000)]), 'ok 3664')
    case('pilots first, ranges after 121', chained([(1, 2000, 32)] + [(3, k, 0) for k in many[:121]]
                                                   + [(2, 0, 147), (2, 3949, 4095)]), 'refused 5 121')
    full_121 = full(pilots=many[:121])
    case('121 times the same pilot', full(pilots=[200] * 121), 'refused 5 123')
    case('120 times the same pilot', full(pilots=[200] * 120), 'refused 8 4')
    case('121st pilot with second number', second(full_121, 123, 1), 'refused 2 123')
    case('121st pilot with next 123', next_index(full_121, 123, 123), 'refused 3 123')
    case('121st pilot is 4096', first(full_121, 123, 4096), 'refused 4 123')
    case('121st pilot is in the PLC', first(full_121, 123, 2000), 'refused 5 123')
    case('120th pilot is 4096, 121 pilots', first(full_121, 122, 4096), 'refused 4 122')
    case('121 pilots, nothing excluded', plan(2000, 32, [], many[:121]), 'refused 5 121')
    case('121st, then a bad kind', kind(full(pilots=many[:122]), 124, 9), 'refused 5 123')

    # The order of 2 to 5, inside a record and between records.
    case('record 0: 2, 3 and 4', record(1, 65535, 0, 0, byte1=1) + PLAN_A[8:], 'refused 2 0')
    case('record 0: 3 and 4', record(1, 65535, 0, 0) + PLAN_A[8:], 'refused 3 0')
    case('record 0: 2 and 3', record(4, 65535, 972, 4) + PLAN_A[8:], 'refused 2 0')
    case('record 0: 2 and 4', record(1, 1, 0, 0, byte1=1) + PLAN_A[8:], 'refused 2 0')
    case('record 1: 2 and 3', next_index(kind(PLAN_A, 1, 4), 1, 1), 'refused 2 1')
    case('record 1: 3 and 4', next_index(first(PLAN_A, 1, 4096), 1, 9), 'refused 3 1')
    case('record 1: 2 and 4', byte1(first(PLAN_A, 1, 4096), 1, 1), 'refused 2 1')
    case('record 3: pilot with 2 and 4', PLAN_A[:16] + record(2, 3, 1241, 4095)
         + record(3, 0, 4096, 1), 'refused 2 3')
    case('4 at record 0 before 2 at record 1', kind(first(PLAN_A, 0, 0), 1, 0), 'refused 4 0')
    case('4 at record 1 before 2 at record 2', kind(second(PLAN_A, 1, 4096), 2, 0), 'refused 4 1')
    case('4 at record 1 before 3 at record 2',
         next_index(second(PLAN_A, 1, 4096), 2, 1), 'refused 4 1')
    case('3 at record 1 before 2 at record 2', kind(next_index(PLAN_A, 1, 1), 2, 0), 'refused 3 1')
    case('2 at record 2 before 6', kind(PLAN_A, 2, 0), 'refused 2 2')
    case('3 at record 2 before 7', next_index(plan(972, 4, [(0, 1), (972, 972)]), 2, 2), 'refused 3 2')

    # The chain: what stands off it is ignored, whatever it holds.
    items = entries(972, 4, outside(800, 1240))
    for name, filler in (
            ('zeros', bytes(8)), ('0xFF', RUBBISH),
            ('kind 1', record(1, 0, 972, 4)), ('kind 1, L 0', record(1, 0, 0, 0)),
            ('kind 4', record(4, 0, 1, 1)), ('byte 1', record(2, 0, 1, 1, byte1=1)),
            ('a range in the PLC', record(2, 0, 972, 972)),
            ('a range of everything', record(2, 0, 0, 4095)),
            ('a sound single range', record(2, 0, 850, 850)),
            ('a range backwards', record(2, 0, 9, 3)),
            ('a sound pilot', record(3, 0, 900, 0)),
            ('a pilot in the PLC', record(3, 0, 972, 0)),
            ('a pilot with a second number', record(3, 0, 900, 1)),
            ('a next index of its own', record(2, 1, 1, 1)),
            ('a next index past the end', record(2, 65535, 1, 1))):
        case('off the chain: ' + name, spread(items, [0, 2, 4], 6, filler), 'ok 425 4')
    case('off the chain: pilot that the chain names',
         spread(entries(972, 4, outside(800, 1240), [900]), [0, 2, 4, 6], 8,
                record(3, 0, 900, 0)), 'ok 424')
    case('off the chain: 200 pilots', spread(items, [0, 100, 202], 203, record(3, 0, 900, 0)),
         'ok 425 4')
    case('off the chain: what would make it sound',
         spread(items[:2], [0, 1], 3, record(2, 0, 1241, 4095)), 'refused 6 3949')
    case('off the chain: the range that the chain lacks',
         next_index(PLAN_A, 0, 2), 'refused 6 0')
    case('record 1 skipped, kind 9', spread(items, [0, 2, 3], 4, record(9, 3, 0, 0)), 'ok 425 4')
    case('ranges in the other order', plan(972, 4, outside(800, 1240)[::-1]), 'ok 425 4')
    case('pilot before the ranges', chained([(1, 972, 4), (3, 900, 0), (2, 0, 799),
                                             (2, 1241, 4095)]), 'ok 424')
    case('pilot before the range that excludes it',
         chained([(1, 972, 4), (3, 850, 0), (2, 0, 799), (2, 1241, 4095), (2, 850, 850)]),
         'refused 8 1')
    case('pilots between the ranges', chained([(1, 972, 4), (3, 900, 0), (2, 0, 799), (3, 901, 0),
                                               (2, 1241, 4095), (3, 902, 0)]), 'ok 422')

    # Overlaps.
    case('the same range twice', near_a([(850, 853), (850, 853)]), 'ok 421')
    case('the same range three times', near_a([(850, 853)] * 3), 'ok 421')
    case('nested ranges', near_a([(850, 853), (851, 852)]), 'ok 421')
    case('nested, the inner first', near_a([(851, 852), (850, 853)]), 'ok 421')
    case('overlapping ranges', near_a([(850, 852), (851, 853)]), 'ok 421')
    case('overlapping, five together', near_a([(850, 852), (852, 854)]), 'refused 14 835')
    case('touching ranges', near_a([(850, 851), (852, 853)]), 'ok 421')
    case('touching, five together', near_a([(850, 852), (853, 854)]), 'refused 14 835')
    case('touching, an exclusion band together',
         plan(1500, 1, outside(1000, 2000) + [(1100, 1109), (1110, 1119)]), 'ok 965')
    case('overlapping the lower exclusion band', near_a([(700, 799)]), 'ok 425 4')
    case('touching the lower exclusion band', near_a([(800, 800)]), 'ok 424 4')
    case('touching the lower exclusion band, two', near_a([(800, 801)]), 'refused 10 0')
    case('range 0 to 0 and 1 to 799', plan(972, 4, [(0, 0), (1, 799), (1241, 4095)]), 'ok 425 4')
    case('all excluded but 800 to 1240, from both sides',
         plan(972, 4, [(0, 700), (600, 799), (1241, 3000), (2000, 4095)]), 'ok 425 4')
    case('510 overlapping ranges', OVERLAPPING_510, 'ok 425 4')
    case('511 ranges', plan(972, 4, [(n, 799) for n in range(510)] + [(1241, 4095)]), 'ok 425 4')
    case('511 ranges, the last a single', plan(972, 4, [(0, 799), (1241, 4095)]
                                               + [(850, 853)] * 508 + [(1100, 1100)]), 'ok 420')
    case('512 records, the last chained past the end',
         next_index(plan(972, 4, [(n, 799) for n in range(510)] + [(1241, 4095)]), 511, 512),
         'refused 3 511')
    case('512 records, the last chained to itself',
         next_index(plan(972, 4, [(n, 799) for n in range(510)] + [(1241, 4095)]), 511, 511),
         'refused 3 511')
    case('512 records, a bad kind last',
         kind(plan(972, 4, [(n, 799) for n in range(510)] + [(1241, 4095)]), 511, 4),
         'refused 2 511')
    case('150 single exclusions', SINGLES_150, 'ok 3635 26')

    # Ground 6: active below 148 or above 3948.
    low_end_ranges = outside(148, 588)
    case('147 active', plan(204, 4, outside(147, 588)), 'refused 6 147')
    case('148 active', plan(204, 4, low_end_ranges), 'ok 425')
    case('148 excluded', plan(205, 4, outside(149, 589)), 'ok 425')
    case('3949 active', plan(3885, 4, outside(3508, 3949)), 'refused 6 3949')
    case('3948 excluded', plan(3884, 4, outside(3507, 3947)), 'ok 425')
    case('0 active', plan(972, 4, [(1, 799), (1241, 4095)]), 'refused 6 0')
    case('only 1 active', plan(972, 4, [(0, 0), (2, 799), (1241, 4095)]), 'refused 6 1')
    case('4095 active', plan(972, 4, [(0, 799), (1241, 4094)]), 'refused 6 4095')
    case('100 and 120 active', plan(972, 4, [(0, 99), (101, 119), (121, 799), (1241, 4095)]),
         'refused 6 100')
    case('120 and 4000 active', plan(972, 4, [(0, 119), (121, 799), (1241, 3999), (4001, 4095)]),
         'refused 6 120')
    case('3950 and 4000 active',
         plan(972, 4, [(0, 799), (1241, 3949), (3951, 3999), (4001, 4095)]), 'refused 6 3950')
    case('nothing excluded, one pilot', plan(972, 4, [], [900]), 'refused 6 0')
    case('147 to 3948 active', plan(2000, 1, outside(147, 3948)), 'refused 6 147')
    case('148 to 3949 active', plan(2000, 1, outside(148, 3949)), 'refused 6 3949')

    # Ground 7: L-56 to L+63.
    case('L-57 excluded', near_a(singles(915)), 'ok 424')
    case('L-56 excluded', near_a(singles(916)), 'refused 7 916')
    case('L-55 excluded', near_a(singles(917)), 'refused 7 917')
    case('L+62 excluded', near_a(singles(1034)), 'refused 7 1034')
    case('L+63 excluded', near_a(singles(1035)), 'refused 7 1035')
    case('L+64 excluded', near_a(singles(1036)), 'ok 424')
    case('L excluded', near_a(singles(972)), 'refused 7 972')
    case('L+7 excluded', near_a(singles(979)), 'refused 7 979')
    case('predefined pilot excluded', near_a(singles(925)), 'refused 7 925')
    case('L-56 and L+63 excluded', near_a(singles(1035, 916)), 'refused 7 916')
    case('L-57 to L-55 excluded', near_a([(915, 917)]), 'refused 7 916')
    case('all of L-56 to L+63 excluded', near_a([(916, 1035)]), 'refused 7 916')
    case('exclusion bands right up to L-56 and L+63',
         plan(972, 4, outside(916, 1035)), 'refused 10 0')
    case('lower exclusion band ends at L-57', plan(972, 4, outside(916, 1356)), 'ok 425')
    case('lower exclusion band ends at L-56', plan(972, 4, outside(917, 1357)), 'refused 7 916')
    case('upper exclusion band starts at L+64', plan(972, 4, outside(595, 1035)), 'ok 425')
    case('upper exclusion band starts at L+63', plan(972, 4, outside(594, 1034)), 'refused 7 1035')
    case('L 204, 148 excluded', plan(204, 4, outside(149, 589)), 'refused 7 148')
    case('L 3885, 3948 excluded', plan(3885, 4, outside(3507, 3947)), 'refused 7 3948')

    # Ground 8: further pilots.
    for k in range(972, 980):
        case('pilot in the PLC at L+%d' % (k - 972), near_a(pilots=[k]), 'refused 8 3')
    case('pilot at L-1', near_a(pilots=[971]), 'ok 424 4')
    case('pilot at L+8', near_a(pilots=[980]), 'ok 424 3')
    case('pilots around the PLC', near_a(pilots=[971, 980]), 'ok 423 3')
    for k in (925, 937, 948, 957, 994, 1003, 1014, 1026):
        case('pilot at predefined %d' % k, near_a(pilots=[k]), 'refused 8 3')
        case('pilots beside predefined %d' % k, near_a(pilots=[k - 1, k + 1]), 'ok 423 4')
    case('L 204, pilot at L-47', plan(204, 4, low_end_ranges, [157]), 'refused 8 3')
    case('L 204, pilot at L-48', plan(204, 4, low_end_ranges, [156]), 'ok 424')
    case('L 3885, pilot at L+54', plan(3885, 4, outside(3508, 3948), [3939]), 'refused 8 3')
    case('L 3885, pilot at L+55', plan(3885, 4, outside(3508, 3948), [3940]), 'ok 424')
    case('pilot in the lower exclusion band', near_a(pilots=[799]), 'refused 8 3')
    case('pilot at the lowest active', near_a(pilots=[800]), 'ok 424 4')
    case('pilot at the highest active', near_a(pilots=[1240]), 'ok 424 4')
    case('pilot in the upper exclusion band', near_a(pilots=[1241]), 'refused 8 3')
    case('pilot 0', near_a(pilots=[0]), 'refused 8 3')
    case('pilot singly excluded', near_a(singles(850), [850]), 'refused 8 4')
    case('pilot beside a single exclusion', near_a(singles(850), [851]), 'ok 423')
    case('pilot twice', near_a(pilots=[900, 900]), 'refused 8 4')
    case('pilot twice, others between', near_a(pilots=[900, 901, 902, 900]), 'refused 8 6')
    case('pilot three times', near_a(pilots=[900, 901, 900, 900]), 'refused 8 5')
    case('two pilots twice', near_a(pilots=[900, 901, 901, 900]), 'refused 8 5')
    case('pilot twice, spread', spread(entries(972, 4, outside(800, 1240), [900, 900]),
                                       [0, 3, 5, 6, 9], 11, record(3, 0, 900, 0)), 'refused 8 9')
    case('excluded pilot, then a repeated one', near_a(pilots=[900, 700, 900]), 'refused 8 4')
    case('repeated pilot, then one in the PLC', near_a(pilots=[900, 900, 975]), 'refused 8 4')
    case('predefined, PLC and excluded pilots', near_a(pilots=[900, 925, 975, 700]), 'refused 8 4')
    case('excluded pilot named twice', near_a(pilots=[700, 700]), 'refused 8 3')
    case('pilots falling', near_a(pilots=[905, 904, 903]), 'ok 422 4')
    case('pilot on scattered 852', near_a(pilots=[852]), 'ok 424 3')
    case('pilot beside scattered 852', near_a(pilots=[851]), 'ok 424 4')
    case('pilots on all scattered', near_a(pilots=[852, 980, 1108, 1236]), 'ok 421 0')
    case('scattered 852 excluded', near_a(singles(852)), 'ok 424 3')
    case('scattered 1236 excluded', near_a(singles(1236)), 'ok 424 3')
    case('lowest active is scattered', plan(972, 4, outside(852, 1292)), 'ok 425 4')
    case('one below the lowest active would be scattered', plan(972, 4, outside(853, 1293)), 'ok 425 3')
    case('highest active is scattered', plan(972, 4, outside(796, 1236)), 'ok 425 4')
    case('one above the highest active would be scattered', plan(972, 4, outside(795, 1235)), 'ok 425 3')
    case('scattered far below L', plan(3885, 7, outside(1000, 3948), [1013]), 'ok 2932')
    case('scattered far above L', plan(204, 7, outside(148, 2100)), 'ok 1937')

    # Ground 9: narrow bands.  A width is a number of subcarriers.
    case('upper band of width 39', two_bands(1300, 1338), 'refused 9 1300')
    case('upper band of width 40', two_bands(1300, 1339), 'ok 465')
    case('upper band of width 41', two_bands(1300, 1340), 'ok 466')
    case('lower band of width 39', band_below(700, 738), 'refused 9 700')
    case('lower band of width 40', band_below(700, 739), 'ok 465')
    case('band of one subcarrier', near_b([(1099, 1118), (1120, 1139)]), 'refused 9 1119')
    case('band of width 38', near_b([(1100, 1119), (1158, 1177)]), 'refused 9 1120')
    case('band of width 39 between two of 20', near_b([(1100, 1119), (1159, 1178)]), 'refused 9 1120')
    case('band of width 40 between two of 20', near_b([(1100, 1119), (1160, 1179)]), 'ok 945')
    case('bands of width 40 below and above', three_bands(), 'ok 505')
    case('narrow bands below and above', plan(972, 4, [(0, 699), (731, 799), (1241, 1299), (1331, 4095)]),
         'refused 9 700')
    case('two narrow bands above', near_b([(1700, 1719), (1750, 1769), (1800, 1819)]),
         'refused 9 1720')
    case('narrow band with an exclusion in it', two_bands(1300, 1338, singles(1320)), 'refused 9 1300')
    case('band of width 40 with an exclusion in it', two_bands(1300, 1339, singles(1320)), 'ok 464')
    case('narrow lowest band at 148', plan(972, 4, [(0, 147), (187, 206), (1241, 4095)]), 'refused 9 148')
    case('lowest band of width 40 at 148', plan(972, 4, [(0, 147), (188, 207), (1241, 4095)]), 'ok 1057')
    case('narrow highest band at 3948', plan(3800, 4, [(0, 3388), (3890, 3909), (3949, 4095)]),
         'refused 9 3910')
    case('highest band of width 40 at 3948', plan(3800, 4, [(0, 3388), (3889, 3908), (3949, 4095)]),
         'ok 524')

    case('at the limits of grounds 9 to 12', AT_LIMITS, 'ok 460')

    # Exclusion bands: runs of 19 and of 20.
    case('run of 20', near_b([(1100, 1119)]), 'ok 965')
    case('run of 19', near_b([(1100, 1118)]), 'refused 13 1000')
    case('run of 21', near_b([(1100, 1120)]), 'ok 964')
    case('run of 19 near the end', near_b([(1900, 1918)]), 'refused 13 1787')
    case('runs of 19 and 20', near_b([(1100, 1119), (1900, 1918)]), 'refused 13 1787')
    case('run of 20, 1020 to 1039', near_b([(1020, 1039)]), 'refused 9 1000')
    case('run of 19, 1020 to 1038', near_b([(1020, 1038)]), 'refused 13 1000')
    case('run of 19 beside the upper exclusion band', plan(972, 4, outside(800, 1240) + [(1241, 1259)]),
         'ok 425 4')
    case('run of 20 splits the only wide band', near_a([(860, 879)]), 'refused 10 0')

    # Ground 10: no band of width 440.
    case('width 440', plan(972, 4, outside(900, 1339)), 'ok 424')
    case('width 439', plan(972, 4, outside(900, 1338)), 'refused 10 0')
    case('width 441', plan(972, 4, outside(900, 1340)), 'ok 425')
    case('width 440, the lowest there is', plan(204, 4, outside(148, 587)), 'ok 424')
    case('width 439, the lowest there is', plan(204, 4, outside(148, 586)), 'refused 10 0')
    case('width 440, the highest there is', plan(3885, 4, outside(3509, 3948)), 'ok 424')
    case('width 439, the highest there is', plan(3885, 4, outside(3510, 3948)), 'refused 10 0')
    case('two bands of width 439', plan(972, 4, [(0, 799), (1239, 1258), (1698, 4095)]), 'refused 10 0')
    case('bands of width 439 and 440', plan(972, 4, [(0, 799), (1239, 1258), (1699, 4095)]), 'ok 863')
    case('widths 440 and 439, but 19 between', plan(972, 4, [(0, 799), (1240, 1258), (1698, 4095)]),
         'refused 13 1127')
    case('bands of width 440 and 439', plan(972, 4, [(0, 799), (1240, 1259), (1699, 4095)]),
         'ok 863')
    case('eight bands of width 400',
         plan(800, 4, [(0, 199)] + [(600 + 420 * n, 619 + 420 * n) for n in range(7)]
              + [(3540, 4095)]), 'refused 10 0')
    case('eight bands, the last of width 439',
         plan(800, 4, [(0, 199)] + [(600 + 420 * n, 619 + 420 * n) for n in range(7)]
              + [(3579, 4095)]), 'refused 10 0')
    case('eight bands, the last of width 440',
         plan(800, 4, [(0, 199)] + [(600 + 420 * n, 619 + 420 * n) for n in range(7)]
              + [(3580, 4095)]), 'ok 3224')

    # Ground 11: five times the excluded exceeds the span, both ends counted.
    # 800 to 1240, 121 excluded, 1362 to 1404: 5 x 121 = 605 = the span.
    case('20 per cent, equal', two_bands(1362, 1404), 'ok 468')
    case('20 per cent, one less span', two_bands(1362, 1403), 'refused 11 0')
    case('20 per cent, one more span', two_bands(1362, 1405), 'ok 469')
    case('20 per cent, equal, and a single', two_bands(1362, 1404, singles(1100)), 'refused 11 0')
    case('20 per cent, five more span and a single', two_bands(1362, 1409, singles(1100)), 'ok 472')
    case('20 per cent, four more span and a single', two_bands(1362, 1408, singles(1100)), 'refused 11 0')
    case('20 per cent, lower band, equal', band_below(636, 678), 'ok 468')
    case('20 per cent, lower band, one less', band_below(637, 678), 'refused 11 0')
    # 800 to 1239: 5 x 88 = 440 = the span.
    case('20 per cent, singles only, one above', plan(972, 4, outside(800, 1239) + odd(1037, 89)),
         'refused 11 0')
    case('20 per cent, singles only, equal', plan(972, 4, outside(800, 1239) + odd(1037, 88)),
         'refused 12 800')
    # 148 to 1348, then 1849 to 2647: 500 excluded, span 2500.
    case('20 per cent, two wide bands, equal',
         plan(972, 4, [(0, 147), (1349, 1848), (2648, 4095)]), 'ok 1984')
    case('20 per cent, two wide bands, one above',
         plan(972, 4, [(0, 147), (1349, 1848), (2647, 4095)]), 'refused 11 0')
    # 800 to 1240, 60 excluded, 1301 to 1341, 71 excluded, 1413 to 1454: 655.
    case('20 per cent, three bands, equal',
         plan(972, 4, [(0, 799), (1241, 1300), (1342, 1412), (1455, 4095)]), 'ok 508')
    case('20 per cent, three bands, one above',
         plan(972, 4, [(0, 799), (1241, 1300), (1342, 1412), (1454, 4095)]), 'refused 11 0')

    # Ground 12: twenty times a band's excluded exceeds its width.
    case('5 per cent, width 40, two', two_bands(1300, 1339, singles(1310, 1330)), 'ok 463')
    case('5 per cent, width 40, three', two_bands(1300, 1339, singles(1310, 1320, 1330)), 'refused 12 1300')
    case('5 per cent, width 59, three', two_bands(1300, 1358, singles(1310, 1320, 1330)), 'refused 12 1300')
    case('5 per cent, width 60, three', two_bands(1300, 1359, singles(1310, 1320, 1330)), 'ok 482')
    case('5 per cent, width 440, 22', equal_12(), 'ok 402')
    case('5 per cent, width 440, 23', equal_12([870]), 'refused 12 800')
    case('5 per cent, width 440, 23, all windows fair', equal_12([942]), 'refused 12 800')
    case('5 per cent, two bands over', three_bands(singles(1310, 1320, 1330, 710, 720, 730)),
         'refused 12 700')
    case('5 per cent, lower band over', band_below(700, 739, singles(710, 720, 730)), 'refused 12 700')
    case('5 per cent, lower band, width 40, two', band_below(700, 739, singles(710, 720)), 'ok 463')
    case('5 per cent, lower band, width 59, three', band_below(700, 758, singles(710, 720, 730)),
         'refused 12 700')
    case('5 per cent, lower band, width 60, three', band_below(700, 759, singles(710, 720, 730)), 'ok 482')
    case('5 per cent, upper of three over', three_bands(singles(1310, 1320, 1330, 710, 720)),
         'refused 12 1300')
    case('5 per cent, shared between bands', three_bands(singles(1310, 1320, 710, 720)), 'ok 501')

    # Ground 13: windows of 120.
    six = (1010, 1030, 1050, 1070, 1090, 1110)
    case('six singles', near_b(singles(*six)), 'ok 979')
    case('seven, first to last 118', near_b(singles(*six, 1128)), 'refused 13 1009')
    case('seven, first to last 119', near_b(singles(*six, 1129)), 'refused 13 1010')
    case('seven, first to last 120', near_b(singles(*six, 1130)), 'ok 978')
    case('eight, the seventh 120 on', near_b(singles(*six, 1130, 1149)), 'refused 13 1030')
    case('seven in the lowest window', near_b(singles(1001, 1021, 1041, 1061, 1081, 1101, 1119)),
         'refused 13 1000')
    case('seven, not in the lowest window', near_b(singles(1001, 1021, 1041, 1061, 1081, 1101, 1120)),
         'refused 13 1001')
    case('seven in the window below the last',
         near_b(singles(1880, 1900, 1920, 1940, 1960, 1980, 1999)), 'refused 13 1880')
    case('seven, just not in the window below the last',
         near_b(singles(1879, 1900, 1920, 1940, 1960, 1980, 1999)), 'ok 978')
    case('seven at the top of plan A', near_a(singles(1120, 1140, 1160, 1180, 1200, 1220, 1239)),
         'refused 13 1120')
    case('two full windows in one band',
         near_b(singles(*six, 1129, *(k + 700 for k in six), 1829)), 'refused 13 1010')
    case('two full windows in two bands',
         near_b([(1300, 1319)] + singles(*six, 1129, *(k + 700 for k in six), 1829)), 'refused 13 1010')
    case('full window in the upper band only',
         near_b([(1300, 1319)] + singles(*(k + 700 for k in six), 1829)), 'refused 13 1710')
    case('full window in the lower band only',
         near_b([(1300, 1319)] + singles(*six, 1129)), 'refused 13 1010')
    case('four below and four above an exclusion band',
         near_b([(1300, 1319)] + singles(1260, 1270, 1280, 1290, 1325, 1330, 1335, 1340)), 'ok 957')
    case('six below and six above an exclusion band',
         near_b([(1300, 1319)] + singles(1240, 1250, 1260, 1270, 1280, 1290,
                                         1325, 1335, 1345, 1355, 1365, 1375)), 'ok 953')
    case('seven below an exclusion band',
         near_b([(1300, 1319)] + singles(1230, 1240, 1250, 1260, 1270, 1280, 1290)), 'refused 13 1171')
    case('seven above an exclusion band',
         near_b([(1300, 1319)] + singles(1325, 1335, 1345, 1355, 1365, 1375, 1385)), 'refused 13 1320')
    case('six near the edge of plan A', near_a(singles(801, 806, 811, 816, 821, 826)), 'ok 419')
    # A band of fewer than 120 subcarriers has no window of 120.
    case('119 subcarriers, five', two_bands(1300, 1418, singles(1310, 1330, 1350, 1370, 1390)), 'ok 539')
    case('119 subcarriers, seven',
         two_bands(1300, 1418, singles(1310, 1325, 1340, 1355, 1370, 1385, 1400)), 'refused 12 1300')
    case('120 subcarriers, seven',
         two_bands(1300, 1419, singles(1310, 1325, 1340, 1355, 1370, 1385, 1400)), 'refused 12 1300')
    case('139 subcarriers, seven',
         two_bands(1300, 1438, singles(1310, 1325, 1340, 1355, 1370, 1385, 1400)), 'refused 12 1300')
    case('140 subcarriers, seven',
         two_bands(1300, 1439, singles(1310, 1325, 1340, 1355, 1370, 1385, 1400)), 'refused 13 1300')
    case('140 subcarriers, seven, first to last 120',
         two_bands(1300, 1439, singles(1310, 1325, 1340, 1355, 1370, 1385, 1430)), 'ok 558')

    # Ground 14: windows of 20.
    case('four together', near_b([(1100, 1103)]), 'ok 981')
    case('five together', near_b([(1100, 1104)]), 'refused 14 1085')
    case('six together', near_b([(1100, 1105)]), 'refused 14 1085')
    case('five, first to last 18', near_b([(1100, 1103), (1118, 1118)]), 'refused 14 1099')
    case('five, first to last 19', near_b([(1100, 1103), (1119, 1119)]), 'refused 14 1100')
    case('five, first to last 20', near_b([(1100, 1103), (1120, 1120)]), 'ok 980')
    case('five at the start of the band', near_b([(1001, 1005)]), 'refused 14 1000')
    case('five, the last in the lowest window', near_b([(1001, 1004), (1019, 1019)]), 'refused 14 1000')
    case('five, the last just past the lowest window', near_b([(1001, 1004), (1020, 1020)]), 'refused 14 1001')
    case('five at the end of the band', near_b([(1995, 1999)]), 'refused 14 1980')
    case('five, the last window but one', near_b([(1980, 1983), (1999, 1999)]), 'refused 14 1980')
    case('five, just not in a window at the end', near_b([(1979, 1979), (1996, 1999)]), 'ok 980')
    case('two short windows', near_b([(1700, 1704), (1100, 1104)]), 'refused 14 1085')
    case('short windows in two bands', near_b([(1300, 1319), (1700, 1704), (1100, 1104)]), 'refused 14 1085')
    case('short window in the upper band', near_b([(1300, 1319), (1700, 1704)]), 'refused 14 1685')
    case('short window just above an exclusion band', near_b([(1300, 1319), (1321, 1325)]), 'refused 14 1320')
    case('short window just below an exclusion band', near_b([(1300, 1319), (1294, 1298)]), 'refused 14 1279')
    case('four below and four above a gap of 20', near_b([(1300, 1319), (1295, 1298), (1321, 1324)]),
         'ok 957')
    case('three below and three above a gap of 20', near_b([(1300, 1319), (1296, 1298), (1321, 1323)]), 'ok 959')
    case('five beside L-56', near_a([(911, 915)]), 'refused 14 896')
    case('five beside L+63', near_a([(1036, 1040)]), 'refused 14 1021')
    case('four beside L+63', near_a([(1036, 1039)]), 'ok 421')

    # Ground 15: more than 3745 ranks.
    case('no pilots at all', full(), 'refused 15 0')
    case('41 pilots', full(pilots=pilots_of_full(41)), 'ok 3744')
    case('20 pilots and an exclusion band of 20', full([(1000, 1019)], pilots_of_full(20)), 'ok 3745')
    case('19 pilots and an exclusion band of 20', full([(1000, 1019)], pilots_of_full(19)), 'refused 15 0')
    case('40 off the lower end', plan(2000, 32, outside(188, 3948)), 'ok 3745')
    case('39 off the lower end', plan(2000, 32, outside(187, 3948)), 'refused 15 0')
    case('40 off the upper end', plan(2000, 32, outside(148, 3908)), 'ok 3745')
    case('39 off the upper end', plan(2000, 32, outside(148, 3909)), 'refused 15 0')
    case('40 singles', full(singles(*range(150, 1150, 25))), 'ok 3745')
    case('39 singles', full(singles(*range(150, 1125, 25))), 'refused 15 0')
    case('20 singles and 20 pilots', full(singles(*range(153, 653, 25)), pilots_of_full(20)), 'ok 3745')
    case('39 pilots and the same range often', full([(1000, 1000)] * 5, pilots_of_full(39)), 'ok 3745')

    # Two grounds at once: the lower one is named.
    for ground, want in ((6, 'refused 6 100'), (7, 'refused 7 1000'), (8, 'refused 8 11'),
                         (9, 'refused 9 1150'), (10, 'refused 10 0'), (11, 'refused 11 0'),
                         (12, 'refused 12 1300'), (13, 'refused 13 1031'), (14, 'refused 14 1085')):
        case('stack from ground %d' % ground, stack(ground), want)
    case('grounds 6 and 15', plan(2000, 1, outside(100, 3948)), 'refused 6 100')
    case('grounds 7 and 15', full(singles(2000)), 'refused 7 2000')
    case('grounds 8 and 15', full(pilots=[2000]), 'refused 8 3')
    case('grounds 9 and 15', full([(3890, 3909)]), 'refused 9 3910')
    case('grounds 12 and 15', full([(3888, 3907)] + singles(3915, 3925, 3935)), 'refused 12 3908')
    case('grounds 13 and 15', full(singles(*six, 1129)), 'refused 13 1010')
    case('grounds 14 and 15', full([(1100, 1104)]), 'refused 14 1085')
    return cases


if __name__ == '__main__':
    for name, data, want in all_cases():
        print('%5d bytes  %-60s %s' % (len(data), name, want))
