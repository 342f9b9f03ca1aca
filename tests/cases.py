#!/usr/bin/env python3
"""Makes the test data of plancases from the list in plans.py.

    python3 tests/cases.py            writes crates/plancases/stdin and stdout
    python3 tests/cases.py --check    compares them, exits 1 on a difference

stdin holds, for each case, its length as four bytes, high byte first, and
then the plan; the end of the input ends the list.  stdout holds the line of
each case.  Before anything is written, every line is held against the one
worked out by hand, and the model against the facts that the scope paper gives
of Plan A.
"""

import sys
from collections import Counter
from pathlib import Path

sys.dont_write_bytecode = True

import model
import plans

ROOT = Path(__file__).resolve().parent.parent
STDIN = ROOT / 'crates' / 'plancases' / 'stdin'
STDOUT = ROOT / 'crates' / 'plancases' / 'stdout'
LONGEST_CASE = 60000


def check_facts():
    """What the scope paper says of Plan A beside the verdicts."""
    a = plans.PLAN_A
    assert model.verdict(a) == ('ok', 425)
    assert model.predefined(972) == [925, 937, 948, 957, 994, 1003, 1014, 1026]
    assert model.scattered(a, 0) == [852, 980, 1108, 1236]
    assert model.scattered(a, 125) == [849, 1105, 1233]
    assert model.scattered(a, 14) == [866, 1122]
    ranks = model.ranks(a)
    assert len(ranks) == 425
    assert (ranks[52], ranks[168], ranks[420]) == (852, 980, 1236)
    assert ranks[213] == 1029
    assert model.role(a, 977, 125) == 'plc'
    assert model.role(a, 994, 14) == 'continuous'
    assert model.role(a, 1029, 49) == 'scattered'
    assert model.role(a, 1029, 48) == 'data'
    assert model.role(a, 799, 0) == 'excluded'
    assert model.role(a, 4095, 127) == 'excluded'
    assert model.role(a, 4096, 0) == ('refused', 16, 0)
    assert model.role(a, 0, 128) == ('refused', 16, 0)
    assert model.role(b'', 4096, 128) == ('refused', 1, 0)
    # Over 128 phases each rank is scattered exactly once.
    for data in (a, plans.LARGEST, plans.SINGLES_150):
        seen = Counter()
        for phase in range(model.PHASES):
            seen.update(model.scattered(data, phase))
        assert seen == Counter(model.ranks(data))


def make():
    """The bytes of stdin and stdout, and the lines."""
    given, lines = b'', []
    names = set()
    for name, data, want in plans.all_cases():
        assert name not in names, 'two cases named ' + name
        names.add(name)
        assert len(data) <= LONGEST_CASE, name
        got = model.line(data)
        assert (got + ' ').startswith(want + ' '), '%s: by hand %s, model %s' % (name, want, got)
        given += len(data).to_bytes(4, 'big') + data
        lines.append(got)
    return given, ''.join(x + '\n' for x in lines).encode(), lines


def main():
    check_facts()
    given, wanted, lines = make()
    counts = Counter(x.split()[1] if x.startswith('refused') else 'ok' for x in lines)
    print('%d cases, %d bytes' % (len(lines), len(given)))
    for key in ['ok'] + [str(n) for n in range(1, 16)]:
        print('  %-3s %4d' % (key, counts[key]))
    if '--check' in sys.argv[1:]:
        wrong = 0
        for path, want in ((STDIN, given), (STDOUT, wanted)):
            if not path.exists() or path.read_bytes() != want:
                print('differs: %s' % path.relative_to(ROOT))
                wrong = 1
        sys.exit(wrong)
    STDIN.parent.mkdir(parents=True, exist_ok=True)
    STDIN.write_bytes(given)
    STDOUT.write_bytes(wanted)


if __name__ == '__main__':
    main()
