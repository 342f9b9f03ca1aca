#!/usr/bin/env python3
"""What lost and wrong symbols do to a receiver, worked out with the second model.

    python3 tests/loss.py                  checks what docs/C-HOST.md says of them
    python3 tests/loss.py --trunks PLAN    prints what examples/trunks.c has to print of a
                                           plan, for tests/host.sh

A symbol is wrong if some of its cells are not what was sent; here they are 65535, which
no role takes.
"""

import sys
from pathlib import Path

sys.dont_write_bytecode = True

import plans
from receiver import Receiver
from stored import ROOT

NO_SCATTERED = 'plans/no-scattered-64-to-75.plan'
ROLES = (0x8002, 0x8004, 0x8003, 0x8000, None)      # the marks of roles 1 to 5, None for data
FILLER = 0x8001


class Link:
    """An emitter, a line and a receiver of one plan."""

    def __init__(self, model, plan, start):
        self.model, self.plan, self.at = model, plan, model.layout(plan)
        self.sending, self.listening = ([0] * model.places(self.at, end).length
                                        for end in ('emitter', 'receiver'))
        _, self.sender = model.fresh(plan, start, self.sending)
        self.inputs = []
        self.listen(start)

    def listen(self, phase):
        """Starts the receiver afresh."""
        _, *self.state = self.model.listen(self.plan, phase, self.listening)

    def send(self, flush=False):
        """The next symbol and its phase."""
        phase, t = self.sender, len(self.inputs)
        count = self.model.count(self.at, phase)
        data = None if flush else [(4099 * t + 31 * i) % 16384 for i in range(count)]
        self.inputs.append(data)
        symbol = [0] * 4096
        _, self.sender = self.model.step(self.plan, phase, self.sending, data, symbol)
        return phase, symbol

    def hear(self, symbol):
        """The answer, and the data handed out."""
        data = [0] * 4096
        answer = self.model.receive(self.plan, *self.state, self.listening, symbol, data)
        self.state = answer[-2:]
        return answer, data[:answer[1]] if answer[0] == 'data' else None

    def mend(self, symbol):
        """Puts the cell that ground 20 names to its role's mark, or to filler, until the symbol is
        taken.  Answers which cells those were, and the data."""
        mended = []
        answer, data = self.hear(symbol)
        while answer[:2] == ('refused', 20) and len(mended) < 4096:
            mended.append(answer[2])
            symbol[answer[2]] = self.mark(answer[2])
            answer, data = self.hear(symbol)
        return mended, data

    def mark(self, k):
        """What ground 20 takes at subcarrier k."""
        mark = self.model.marks_at(self.at, self.state[0])[k]
        return FILLER if mark is None else mark

    def lowest(self, phase):
        """(the lowest subcarrier of a role, the role) of each role there is, in rising order."""
        marks = self.model.marks_at(self.at, phase)
        return sorted((marks.index(mark), 1 + i) for i, mark in enumerate(ROLES) if mark in marks)


def symbol_phase(plan, symbol):
    """The phase that the lowest scattered placeholder tells, None if there is none."""
    low = int.from_bytes(plan[4:6], 'big')
    return next(((k - (low + 8)) % 128 for k, cell in enumerate(symbol) if cell == 0x8000), None)


def spoil(symbol, subcarriers):
    for k in subcarriers:
        symbol[k] = 65535


# --- a symbol that is lost ---------------------------------------------------

def wrong_after(model, plan, lost):
    """A symbol of phase `lost` does not come, eight symbols after the start, and nobody sees.  How many
    data symbols with wrong cells are handed out before the first refusal, its answer, and the phase of
    the symbol that is refused."""
    link, handed = Link(model, plan, (lost - 8) % 128), []
    for t in range(130):
        phase, symbol = link.send()
        if t == 8:
            continue
        answer, data = link.hear(symbol)
        if answer[0] == 'refused':
            return sum(a != b for a, b in zip(handed, link.inputs)), answer, phase
        handed += [data] if data else []
    raise AssertionError('no symbol is refused')


def check_unnoticed():
    """Ground 20 is no detector of loss."""
    model = Receiver()
    plan = (ROOT / NO_SCATTERED).read_bytes()
    none = [j for j in range(128) if not model.scattered_of(model.judge(plan), j)]
    assert none == list(range(64, 76))
    assert wrong_after(model, plan, 66) == (9, ('refused', 20, 800, 75, 3), 76)
    for lost in range(128):
        wrong, answer, phase = wrong_after(model, plan, lost)
        assert wrong == (75 - lost if 64 <= lost <= 75 else 0), (lost, wrong)
        assert answer[1] == 20 and phase == (answer[3] + 1) % 128
    for lost in range(128):     # of Plan A, at once
        wrong, answer, phase = wrong_after(model, plans.PLAN_A, lost)
        assert (wrong, answer[:2], answer[3], phase) == (0, ('refused', 20), lost, (lost + 1) % 128)


def check_128_lost(m):
    """With 128 symbols lost in a row the phases agree again: nothing is ever refused, and the next
    M - 1 data symbols handed out are wrong."""
    link, handed = Link(Receiver(), plans.near_a(M=m), 3), []
    for t in range(128 + 3 * m):
        _, symbol = link.send()
        if not m <= t < m + 128:
            answer, data = link.hear(symbol)
            assert answer[0] != 'refused'
            handed += [data] if data else []
    come = [t for t in range(len(link.inputs)) if not m <= t < m + 128]
    wrong = [i for i, data in enumerate(handed) if data != link.inputs[come[i]]]
    assert wrong == list(range(1, m)), wrong


def check_restart(plan, start, lost, refused):
    """A receiver that starts afresh at the phase of the symbol after the lost one, or after one that came
    and was refused: M input symbols do not come back, all others do."""
    link = Link(Receiver(), plan, start)
    m, handed = link.at.m, []
    for t in range(lost + 2 * m + 2):
        phase, symbol = link.send()
        if t == lost:
            if refused:
                spoil(symbol, [972])
                assert link.hear(symbol)[0][:3] == ('refused', 20, 972)
            link.listen((link.state[0] + 1) % 128)
            continue
        assert phase == link.state[0]
        answer, data = link.hear(symbol)
        assert (answer[0] == 'warming') == (t < m - 1 or lost < t < lost + m)
        handed += [data] if data else []
    back = [*range(lost - m + 1), *range(lost + 1, lost + m + 3)]
    assert handed == [link.inputs[t] for t in back]


# --- a symbol that is refused by 20 -----------------------------------------

def check_left_alone(m):
    """Refused and left alone: the receiver stays at its phase, the next 127 symbols are refused, and the
    one after them is taken in the place of the lost one, and M - 1 wrong data symbols are handed out."""
    link, answers, handed = Link(Receiver(), plans.near_a(M=m), 30), [], []
    for t in range(m + 130 + 2 * m):
        _, symbol = link.send()
        if t == m + 1:
            spoil(symbol, [972])
        answer, data = link.hear(symbol)
        answers.append(answer[0])
        handed += [(t - m + 1, data)] if data else []
    assert [t for t, a in enumerate(answers) if a == 'refused'] == list(range(m + 1, m + 129))
    wrong = [t for t, data in handed if data != link.inputs[t]]
    assert wrong == list(range(130, 129 + m)), wrong


def check_mended(plan, start):
    """Mended: nothing is lost but the data cells that were wrong, which come back as filler."""
    link = Link(Receiver(), plan, start)
    m, handed = link.at.m, []
    for t in range(3 * m + 2):
        phase, symbol = link.send()
        wrong = [k for k, _ in link.lowest(phase)] if t == m + 1 else []
        spoil(symbol, wrong)
        mended, data = link.mend(symbol)
        assert mended == wrong
        handed += [data] if data else []
    pairs = [(a, b) for got, sent in zip(handed, link.inputs) for a, b in zip(got, sent, strict=True)]
    assert [a for a, b in pairs if a != b] == [FILLER]


def check_mended_after_loss():
    """Of Plan A: a symbol is lost, nobody sees, and those after it are mended.  All are taken, and no data
    symbol handed out since is one that was sent."""
    link, handed = Link(Receiver(), plans.PLAN_A, 10), []
    for t in range(20):
        _, symbol = link.send()
        if t != 8:
            mended, data = link.mend(symbol)
            assert bool(mended) == (t > 8)
            handed += [data] if data else []
    assert len(handed) == 16 and handed[:5] == link.inputs[:5]
    assert not any(data in link.inputs for data in handed[5:])


def check_phases(plan):
    """The phase of a symbol from its lowest scattered placeholder, where it has one."""
    link = Link(Receiver(), plan, 100)
    for _ in range(128 + link.at.m):
        phase, symbol = link.send()
        some = link.model.scattered_of(link.at.map, phase)
        assert symbol_phase(plan, symbol) == (phase if some else None)


def check_page():
    """The numbers that docs/C-HOST.md gives."""
    page = ' '.join((ROOT / 'docs' / 'C-HOST.md').read_text().split())
    for said in ('If the symbol of phase 66 is lost, the receiver takes the next nine symbols and hands out nine data symbols',
                 'If that of phase 64 is lost, eleven.', 'each of the next 127 symbols is refused too',
                 'the next M - 1 data symbols are wrong', 'One lost symbol so costs M symbols of data'):
        assert said in page, 'docs/C-HOST.md should have: ' + said


# --- examples/trunks.c -------------------------------------------------------

TRUNKS, LOST_ON, WRONG_ON, AGAIN_ON, AGAIN_AT = 16, 5, 10, 12, 99


def expected(name):
    """The lines that examples/trunks.c prints of an accepted plan."""
    model, plan = Receiver(), Path(name).read_bytes()
    at = model.layout(plan)
    counts = [model.count(at, phase) for phase in range(128)]
    event, symbols = 2 * at.m, 4 * at.m + 4
    yield '%s: accepted, N_I %d, depth %d, N_D %d to %d' % (name, at.n, at.m, min(counts), max(counts))
    yield '%d trunks started at phases 0, 8 up to 120, with stores of %d and %d bytes' % (
        TRUNKS, *(2 * model.places(at, end).length for end in ('emitter', 'receiver')))
    lowest = Link(model, plan, 0).lowest((8 * WRONG_ON + event) % 128)
    for k, role in lowest:
        yield ('trunk %d: symbol %d refused by 20 at %d: role %d, mended to 0x%04X'
               % (WRONG_ON, event, k, role, ROLES[role - 1] or FILLER))
    yield 'trunk %d: symbol %d received with %d cells mended' % (WRONG_ON, event, len(lowest))
    phase = (8 * LOST_ON + event + 1) % 128
    told = '%d' % phase if model.scattered_of(at.map, phase) else 'not known'
    yield ('trunk %d: symbol %d came, %d was awaited: receiver started afresh at phase %d (by the placeholders %s)'
           % (LOST_ON, event + 1, event, phase, told))
    yield 'trunk %d: both ends started again at phase %d' % (AGAIN_ON, AGAIN_AT)
    sent = (TRUNKS + 1) * symbols
    yield ('%d symbols of data sent: %d came back as sent, 1 with 1 cell of filler, %d were lost with symbol %d of trunk %d'
           % (sent, sent - at.m - 1, at.m, event, LOST_ON))


def main():
    if len(sys.argv) == 3 and sys.argv[1] == '--trunks':
        print('\n'.join(expected(sys.argv[2])))
        return
    if len(sys.argv) != 1:
        sys.exit(__doc__)
    check_unnoticed()
    for m in (1, 3, 4, 32):
        check_128_lost(m)
        check_left_alone(m)
        check_restart(plans.near_a(M=m), 120, m + 5, False)
        check_restart(plans.near_a(M=m), 120, m + 5, True)
        check_mended(plans.near_a(M=m), 126)
    check_mended_after_loss()
    for plan in (plans.PLAN_A, plans.near_a(M=1), (ROOT / NO_SCATTERED).read_bytes(), plans.SINGLES_150):
        check_phases(plan)
    check_page()
    print('lost and wrong symbols: nine wrong data symbols before the first refusal, as docs/C-HOST.md says')


if __name__ == '__main__':
    main()
