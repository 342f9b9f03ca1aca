"""What the makers of test data share: the checksum, the stored stdin and stdout of
a program, and the trying of bent models."""

import sys
from operator import mul
from pathlib import Path

ROOT = Path(__file__).resolve().parent.parent
PRIME = 2147483647
BLOCK = 4096


# --- the checksum ----------------------------------------------------------

def mix(total, numbers):
    """A polynomial modulo the prime 2^31 - 1, so that the order counts."""
    for v in numbers:
        total = (total * 48271 + v) % PRIME
    return total


POWERS = [pow(48271, BLOCK - 1 - i, PRIME) for i in range(BLOCK)]


class Blocks:
    """What up to 4,096 cells add to a checksum.  The last is kept: a refused step
    leaves a symbol or buffer as it was, and much of a store is alike."""
    last, added = [], 0

    @classmethod
    def add(cls, block):
        if block != cls.last:
            cls.last, cls.added = block, sum(map(mul, block, POWERS[-len(block):]))
        return cls.added


def mix_cells(total, cells):
    """The same for many cells, faster: 4,096 of them at a time."""
    for at in range(0, len(cells), BLOCK):
        block = cells[at:at + BLOCK]
        total = (total * pow(48271, len(block), PRIME) + Blocks.add(block)) % PRIME
    return total


# --- bent models -----------------------------------------------------------

def refusal_mutants(model, bent):
    """Models that say another number or place of a refusal than this one, for grounds 1
    to 15; bent makes a model of changed methods."""
    def exchanged(self, plan, given):
        answer = model.refusal(self, plan, given)
        return answer and (answer[0], answer[2], answer[1])
    yield 'number and place exchanged', bent(refusal=exchanged)
    for ground in range(1, 16):
        def other_place(self, plan, given, ground=ground):
            answer = model.refusal(self, plan, given)
            if answer and answer[1] == ground:
                return (*answer[:2], answer[2] + 1)
            return answer
        yield 'place of %d one higher' % ground, bent(refusal=other_place)


def first_change(line_of, cases, lines, model):
    """The name of the first case of which the model gives another line, or None.  A case
    is its name, then what line_of takes after the model."""
    return next((case[0] for case, want in zip(cases, lines)
                 if line_of(model, *case[1:4]) != want), None)


def try_mutants(mutants, change_of, equivalent, count):
    """Prints which of the `count` cases each of the (name, model) changes first, as
    change_of(name, model) says.  `equivalent` has the reasons of those that change none.
    Answers how many change none, or change one though they are equivalent."""
    names = set()
    killed = survived = wrong = 0
    for name, model in mutants:
        assert name not in names, 'two mutants named ' + name
        names.add(name)
        changed = change_of(name, model)
        killed += changed is not None
        survived += changed is None and name not in equivalent
        wrong += (changed is None) != (name in equivalent)
        verdict = ('killed     ' if changed else 'equivalent ' if name in equivalent
                   else 'SURVIVED   ')
        print('%s%-62s %s' % (verdict, name, changed or equivalent.get(name, '')), flush=True)
    assert set(equivalent) <= names, 'a listed mutant that is none'
    print('%d mutants, %d killed, %d equivalent, %d survived; %d cases'
          % (len(names), killed, len(names) - killed - survived, survived, count))
    return wrong


# --- the run ---------------------------------------------------------------

def keep(files):
    """Writes files, given as {path from the root: bytes}; with --check compares them
    instead and answers how many differ; with --mutants alone does neither."""
    differing = 0
    for name, want in files.items():
        path = ROOT / name
        if '--check' in sys.argv[1:]:
            if not path.exists() or path.read_bytes() != want:
                print('differs: %s' % name)
                differing += 1
        elif len(sys.argv) == 1:
            path.parent.mkdir(parents=True, exist_ok=True)
            path.write_bytes(want)
    return differing


def run(crate, given, wanted, mutants=None):
    """Keeps stdin and stdout of a crate; --mutants tries the bent models: `mutants`
    does, and answers how many were wrong."""
    wrong = keep({'crates/%s/%s' % (crate, name): want
                  for name, want in (('stdin', given), ('stdout', wanted))})
    if mutants and '--mutants' in sys.argv[1:]:
        wrong += mutants()
    sys.exit(1 if wrong else 0)
