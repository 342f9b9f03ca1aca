#!/usr/bin/env python3
"""Holds docs/REFUSALS.md, docs/PLAN-FILE.md, docs/TRYCHECK.md, docs/WHYCHECK.md and docs/LAMPCHECK.md to
the second model and to plans/.

    python3 tests/pages.py

Each ground has its entry with its parts and its limits; each plan that is cited
gives the line beside it; Plan A stands in PLAN-FILE.md byte for byte, decoded as
the model decodes it; each word has its entry; each trial on Plan A gives the line
beside it, and each question that whycheck is asked; each symbol of lampcheck's stored
run has the line beside it, and each lost mark keeps its pilot dark as long as it says;
what these three tell stands there as in their source.
Then every cited line, every byte of Plan A and every entry is changed in turn, and
the change must be noticed.
"""

import re
import sys
from pathlib import Path

sys.dont_write_bytecode = True

import lamp
import loads
import model
import points
from figure import literal_length

ROOT = Path(__file__).resolve().parent.parent
X = model.Limits()
FIELDS = ('kind', 'zero', 'next index', 'first number', 'second number')
WORDS = ('Subcarrier', 'Excluded', 'active', 'Exclusion band', 'Band', 'Width', 'span', 'Window', 'PLC',
         'Continuous pilot', 'Scattered pilot', 'Role', 'Reason', 'Phase', 'Cell', 'Mark', 'Symbol', 'Input symbol',
         'N_I', 'N_D', 'Rank', 'Filler', 'flush', 'M, depth', 'Store', 'Heard', 'Warming', 'Fresh',
         'Ground', 'Place')
# The numbers of a ground that its entry has to name.
NUMBERS = {
    1: (X.shortest, X.longest, X.record_bytes),
    4: (X.lowest_l, X.highest_l, X.lowest_m, X.highest_m, X.last_subcarrier),
    5: (X.pilot_records, X.pilot_records + 1),
    6: (X.lowest_active, X.highest_active, X.lowest_active - 1, X.highest_active + 1,
        X.last_subcarrier),
    7: (X.clear_below, X.clear_above),
    8: (X.distance_1, X.distance_2, X.distance_3, X.distance_4, X.plc_width - 1),
    9: (X.narrow,),
    10: (X.wide, X.exclusion_band),
    12: (X.exclusion_band,),
    13: (X.long_window, X.long_excluded, X.long_window - 1),
    14: (X.short_window, X.short_excluded, X.short_window - 1),
    15: (X.most_ranks,),
    16: (model.PHASES - 1, X.last_subcarrier),
    17: (X.last_subcarrier + 1, 2 * (X.last_subcarrier + 1)),
    19: (16383,),
    20: (16383,),
    21: (lamp.ANSWER, lamp.LIGHTS, lamp.LIST),
    22: (*points.Points.loads[:4], points.Points.loads[-1]),
    25: (X.last_subcarrier + 1, *loads.LISTED[:3], loads.LISTED[-1]),
    26: (8,),
    27: (literal_length(425, 4), literal_length(X.most_ranks, X.highest_m)),
    28: (lamp.LampLimits().cap, len(lamp.EIGHT) + 1),
}
GROUNDS = range(1, 29)


def plan(name):
    return (ROOT / 'plans' / name).read_bytes()


def numbers_of(text):
    """The numbers in a text, 4,096 as 4096."""
    return {int(n) for n in re.findall(r'\d+', re.sub(r'(\d),(\d{3})', r'\1\2', text))}


def cited(text):
    """(file, line) for each plan that a text names; the line is the next one in
    backquotes."""
    parts = re.split(r'`plans/([^`]+\.plan)`', text)
    found = []
    for name, after in zip(parts[1::2], parts[2::2]):
        line = re.search(r'`((?:ok|refused) [^`]*)`', after)
        found.append((name, line.group(1) if line else 'no line'))
    return found


def wrong_lines(text):
    return ['%s does not print %s' % (name, line) for name, line in cited(text)
            if not (ROOT / 'plans' / name).is_file() or model.line(plan(name)) != line]


def calls():
    """The calls that the library exports."""
    source = (ROOT / 'crates/headend_c/src/lib.rt').read_text(encoding='utf-8')
    return set(re.findall(r'extern "C" fn (headend_[a-z_]+)\(', source))


def wrong_calls(number, text):
    """What is wrong with the calls of a ground from 16 on."""
    named = set(re.findall(r'`(headend_[a-z_]+)`', text.split('- Calls:')[-1].split(';')[0]))
    steps = {'headend_emit', 'headend_flush', 'headend_receive'}
    starts = {'headend_fresh_emitter', 'headend_fresh_receiver'}
    modulate, lamps = {'headend_modulate'}, {'headend_lamp'}
    bits = {'headend_fill', 'headend_unfill'}
    wanted = {16: calls() - {'headend_judge', 'headend_try', 'headend_pilots'} - modulate - lamps, 17: starts | steps | modulate | lamps,
              18: {'headend_emit'} | bits, 19: {'headend_emit', 'headend_unfill'}, 20: {'headend_receive'}, 21: calls(), 22: modulate,
              23: modulate, 24: set(), 25: {'headend_emit', 'headend_receive'} | bits, 26: bits, 27: set(), 28: lamps}[number]
    if named == wanted and wanted <= calls():
        return []
    return ['ground %d: other calls: %s' % (number, ' '.join(sorted(named ^ wanted)))]


def wrong_entry(number, text):
    """What is wrong with the entry of a ground."""
    parts = ('- Say:', '- Look at:', '- Place:', '- Example:' if number <= 15 else '- Calls:')
    wrong = ['ground %d: %s is missing' % (number, part) for part in parts if text.count(part) != 1]
    wrong += ['ground %d: %d is not named' % (number, n) for n in NUMBERS.get(number, ())
              if n not in numbers_of(text)]
    if number > 15:
        wrong += ['ground %d: no plan gives it' % number for _ in cited(text)]
        return wrong + wrong_calls(number, text)
    if not any(line.startswith('refused %d ' % number) for _, line in cited(text)):
        wrong.append('ground %d: no plan that gives it' % number)
    return wrong


def wrong_refusals(text):
    """What is wrong with docs/REFUSALS.md."""
    parts = re.split(r'^## (\d+): .*$', text, flags=re.M)
    found = [int(n) for n in parts[1::2]]
    wrong = [] if found == list(GROUNDS) else ['the entries are %s' % found]
    for number, entry in zip(found, parts[2::2]):
        wrong += wrong_entry(number, entry) if number in GROUNDS else ['ground %d does not exist' % number]
    return wrong + wrong_lines(text)


def wrong_bytes(text):
    """What is wrong with the table of Plan A's bytes."""
    rows = re.findall(r'^\| (\d+)(?: to (\d+))? \| ((?:[0-9A-F]{2} ?)+) \| (\d+) '
                      r'\| record (\d+), ([a-z ]+?)(?:: .*)? \|$', text, flags=re.M)
    data = plan('plan-a.plan')
    at = 0
    for row, (a, b, digits, number, record, field) in enumerate(rows):
        first, last = int(a), int(b or a)
        read = model.Model().read(data, row // 5)
        if (first != at or data[first:last + 1] != bytes.fromhex(digits) or int(record) != row // 5
                or field != FIELDS[row % 5] or int(number) != read[row % 5]):
            return ['the bytes from %d on are not those of Plan A' % first]
        at = last + 1
    return [] if at == len(data) else ['Plan A is described up to byte %d' % at]


def wrong_hand(text):
    """What is wrong with Plan A made and shown by hand."""
    data = plan('plan-a.plan')
    wrong = []
    typed = re.search(r'^    echo ((?:[0-9A-F]{2} )+)\| xxd -r -p > my\.plan$', text, flags=re.M)
    if not typed or bytes.fromhex(typed.group(1)) != data:
        wrong.append('what is typed is not Plan A')
    shown = ''
    for i in range(0, len(data), 8):
        record = data[i:i + 8]
        characters = ''.join(chr(c) if 32 <= c < 127 else '.' for c in record)
        shown += '    %08x: %s  %s\n' % (i, record.hex(' '), characters)
    if shown not in text:
        wrong.append('what xxd shows is not Plan A')
    more = re.search(r'\(`([0-9A-F ]+)` in the\s+place of its `([0-9A-F ]+)`\), and record 3 is\s+`([0-9A-F ]+)`', text)
    next_index, was, record = [bytes.fromhex(digits) for digits in more.groups()] if more else (b'', b'', b'')
    longer = data[:18] + next_index + data[20:] + record
    if data[18:20] != was or longer != plan('plan-a-excluded-850-853.plan'):
        wrong.append('the longer plan is another')
    return wrong


def wrong_plan_file(text):
    """What is wrong with docs/PLAN-FILE.md."""
    pilots = re.search(r'predefined pilots stand at\s+([\d,\s]+) and\s+(\d+)\.', text)
    wrong = ['%s has no entry' % word for word in WORDS if '**%s**' % word not in text]
    if not pilots or [int(n) for n in re.findall(r'\d+', ' '.join(pilots.groups()))] != model.predefined(972):
        wrong.append('the predefined pilots are others')
    return wrong + wrong_bytes(text) + wrong_hand(text) + wrong_lines(text)


def source_of(program):
    """The source of a program: all its files."""
    return ''.join(path.read_text(encoding='utf-8') for path in sorted((ROOT / 'crates' / program / 'src').glob('*.rt')))


def untold(text, program, words):
    """Whether what a program tells of wrong words, which begins so, does not stand there as in its source."""
    told = re.search(r'"[^"\n]*?(%s[^"\\]*)(?:\\n)?"' % words, source_of(program))
    return not told or '\n    %s: %s\n' % (program, told.group(1)) not in text


def wrong_trials(text):
    """What is wrong with docs/TRYCHECK.md."""
    trials = re.findall(r'^\| `trycheck (\d+) (\d+)` \| `([^`]+)` \|', text, flags=re.M)
    wrong = ['trycheck %s %s does not print %s' % trial for trial in trials
             if model.trial_line(plan('plan-a.plan'), int(trial[0]), int(trial[1])) != trial[2]]
    wrong += [] if len(trials) == 6 else ['%d trials' % len(trials)]
    if untold(text, 'trycheck', 'two words are expected'):
        wrong.append('what is told of wrong words is something else')
    return wrong


def bent_trials(text):
    for found in re.finditer(r'^\| `trycheck.*? (\d+)` \| `.*? (\d+)` \|', text, flags=re.M):
        yield text[:found.start(1)] + '901' + text[found.end(1):]
        yield text[:found.start(2)] + str(int(found.group(2)) + 1) + text[found.end(2):]
        yield text[:found.start()] + text[text.index('\n', found.start()) + 1:]
    yield text.replace('0 to 65535 in digits, as', '0 to 65536 in digits, as')


# A row of docs/WHYCHECK.md: the plan, the words and the line, whose first word, kind of reason and number stand apart.
QUESTION = r'^\| `([\w.-]+)` \| `whycheck (\d+) (\d+)` \| `((\w+) (\w+) (\d+))` \|'
KINDS = {'excluded record', 'plc record', 'continuous below', 'continuous above', 'continuous record', 'scattered phase',
         'data phase', 'refused 14', 'refused 16'}


def wrong_whys(text):
    """What is wrong with docs/WHYCHECK.md."""
    questions = re.findall(QUESTION, text, flags=re.M)
    wrong = ['%s: whycheck %s %s does not print %s' % question[:4] for question in questions
             if model.why_line(plan(question[0]), int(question[1]), int(question[2])) != question[3]]
    if len(questions) != 10 or {' '.join(question[4:6]) for question in questions} != KINDS:
        wrong.append('%d questions, or not every case' % len(questions))
    numbers = [re.search(r'const %s: u32 = (\d+);' % name, source_of('whycheck')) for name in ('SUBCARRIER', 'PHASE')]
    if 'asks about subcarrier %s at phase %s.' % tuple(found and found.group(1) for found in numbers) not in text:
        wrong.append('the subcarrier and the phase that are set are others')
    distances = re.search(r'A distance\*\* is one of (\d+), (\d+), (\d+) and (\d+)\.', text)
    if not distances or tuple(map(int, distances.groups())) != (X.distance_1, X.distance_2, X.distance_3, X.distance_4):
        wrong.append('the distances are others')
    if untold(text, 'whycheck', 'no words or two are expected'):
        wrong.append('what is told of wrong words is something else')
    return wrong


def bent_whys(text):
    for found in re.finditer(QUESTION, text, flags=re.M):
        if found.group(5) != 'refused':
            yield text[:found.start(2)] + '902' + text[found.end(2):]
        yield text[:found.start(5)] + 'silent' + text[found.end(5):]
        yield text[:found.start(7)] + str(int(found.group(7)) + 1) + text[found.end(7):]
        yield text[:found.start()] + text[text.index('\n', found.start()) + 1:]
    yield text.replace('asks about subcarrier 948', 'asks about subcarrier 949')
    yield text.replace('at phase 0. They', 'at phase 1. They')
    yield text.replace('15, 24, 35 and 47', '15, 24, 36 and 47')
    yield text.replace('0 to 4294967295 in digits, as', '0 to 65535 in digits, as')


# The rows of docs/LAMPCHECK.md: a symbol, the pilots without the mark in it and the line; and the symbols that lost a mark, those after
# which its pilot is dark, and the one with which it is lit again.
HEARD = r'^\| (\d+) \| ([\w, ]+) \| `((?:all lit|dark)[ \d]*)` \|'
DARK = r'^\| (\d+)(?: (and|to) (\d+))? \| (\d+) to (\d+) \| (\d+) \|$'


def without_mark(symbol, pilots):
    """How the page says it."""
    some = ['%d' % k for k in pilots if symbol[k] != lamp.MARK]
    return 'none' if not some else 'all' if len(some) == len(pilots) else ', '.join(some)


def stored_rows():
    """The rows that lampcheck's stored run has."""
    files = ROOT / 'crates/lampcheck'
    data, given = (files / 'data/one-pilot.plan').read_bytes(), (files / 'stdin').read_bytes()
    symbols = [lamp.cells_of(given[at:at + lamp.SYMBOL]) for at in range(0, len(given), lamp.SYMBOL)]
    pilots = lamp.MODEL.plan_pilots(data)
    return [('%d' % (1 + i), without_mark(symbol, pilots), line)
            for i, (symbol, line) in enumerate(zip(symbols, lamp.lampcheck(data, given)[0]))]


def dark_after(lost, count):
    """The symbols, counted from 1, after which pilot 957 of Plan A is dark, of so many of which some lost its mark."""
    data, record = plan('plan-a.plan'), [0] * 9
    held, other = lamp.marked(lamp.EIGHT), lamp.marked(lamp.EIGHT, (957,))
    return [t for t in range(1, count + 1)
            if lamp.MODEL.lamp(data, other if t in lost else held, record)[1][lamp.EIGHT.index(957)] == 0]


def wrong_dark(row):
    """Whether a row about lost marks is wrong; of one that is right, the pilot stays lit for 300 symbols more."""
    first, word, second, low, high, again = row
    lost = {'': [first], 'and': [first, second], 'to': range(int(first), int(second or 0) + 1)}[word]
    return (int(high) + 1 != int(again)
            or dark_after(set(map(int, lost)), int(again) + 300) != [*range(int(low), int(high) + 1)])


def untold_lamp(text):
    """What lampcheck tells, of which the page or the source says something else."""
    source = source_of('lampcheck') + source_of('console')
    for told in lamp.TOLD:
        if '\n    lampcheck: %s\n' % told not in text or not re.search(r'%s(?:\\n)?"' % re.escape(told), source):
            yield 'something else is told than: ' + told


def wrong_lamps(text):
    """What is wrong with docs/LAMPCHECK.md."""
    wrong = [] if re.findall(HEARD, text, flags=re.M) == stored_rows() else ['the six symbols have other lines']
    rows = re.findall(DARK, text, flags=re.M)
    wrong += ['a mark lost in %s %s %s: other symbols' % row[:3] for row in rows if wrong_dark(row)]
    wrong += [] if len(rows) == 6 else ['%d rows about lost marks' % len(rows)]
    named = (len(lamp.EIGHT), lamp.MOST), (lamp.MARK, lamp.MOST)
    for sentence in ('%d to %d of them' % named[0], 'the mark 0x%04X in each of the last %d symbols' % named[1]):
        wrong += [] if sentence in text else ['missing: ' + sentence]
    return wrong + wrong_lines(text) + list(untold_lamp(text))


def bent_lamps(text):
    for found in re.finditer(HEARD, text, flags=re.M):
        yield text[:found.start(2)] + '937' + text[found.end(2):]
        yield text[:found.start(3)] + 'dark 937' + text[found.end(3):]
        yield text[:found.start()] + text[text.index('\n', found.start()) + 1:]
    for found in re.finditer(DARK, text, flags=re.M):
        for group in (1, 3, 4, 5, 6):
            if found.group(group):
                yield text[:found.start(group)] + str(int(found.group(group)) + 1) + text[found.end(group):]
        yield text[:found.start()] + text[found.end() + 1:]
    for told in lamp.TOLD:
        yield text.replace('\n    lampcheck: %s\n' % told, '\n    lampcheck: %s.\n' % told)
    yield text.replace('8 to 128 of them', '8 to 120 of them')
    yield text.replace('the mark 0x8003 in each', 'the mark 0x8004 in each')
    yield text.replace('of the last 128 symbols', 'of the last 127 symbols')
    yield from bent_lines(text)


def bent_lines(text):
    """The text with the last number of one cited line changed, for each."""
    for found in re.finditer(r'`(?:ok|refused) \d+ (\d+)`', text):
        if '`plans/' in text[:found.start()].rsplit('\n\n', 1)[-1]:
            yield text[:found.start(1)] + str(int(found.group(1)) + 1) + text[found.end(1):]


def bent_refusals(text):
    yield from bent_lines(text)
    entries = re.split(r'(?=^## )', text, flags=re.M)
    for i in range(1, len(entries)):
        shorter = re.sub(r'^- Look at:.*?(?=^- Place)', '', entries[i], flags=re.M | re.S)
        yield ''.join(entries[:i] + entries[i + 1:])
        yield ''.join(entries[:i] + [shorter] + entries[i + 1:])


def bent_plan_file(text):
    yield from bent_lines(text)
    for found in re.finditer(r'\b[0-9A-Fa-f]{2}(?= [0-9A-Fa-f|]| \||  \.|`)', text):
        before = text[text.rfind('\n', 0, found.start()) + 1:found.start()]
        if re.match(r'\| \d|    echo|    0000|.*`(02 .*)?$', before):
            digits = '%02X' % ((int(found.group(), 16) + 1) % 256)
            if not found.group().isupper():
                digits = digits.lower()
            yield text[:found.start()] + digits + text[found.end():]
    for word in WORDS:
        yield text.replace('**%s**' % word, word)


def main():
    pages = ((wrong_refusals, bent_refusals, 'REFUSALS.md'),
             (wrong_plan_file, bent_plan_file, 'PLAN-FILE.md'),
             (wrong_trials, bent_trials, 'TRYCHECK.md'), (wrong_whys, bent_whys, 'WHYCHECK.md'),
             (wrong_lamps, bent_lamps, 'LAMPCHECK.md'))
    failed = False
    for wrong, bent, name in pages:
        text = (ROOT / 'docs' / name).read_text(encoding='utf-8')
        found = wrong(text)
        for sentence in found:
            print('pages: %s: %s' % (name, sentence))
        changed = list(bent(text))
        missed = [other for other in changed if not wrong(other)]
        print('pages: %s: %d plans cited, %d changes, %d not noticed' % (name, len(cited(text)), len(changed), len(missed)))
        failed = failed or bool(found or missed)
    return 1 if failed else 0


if __name__ == '__main__':
    sys.exit(main())
