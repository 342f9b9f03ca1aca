#!/usr/bin/env python3
"""Makes what the host tests have to notice, so that it is known that they can fail.

    python3 tests/bent.py FOLDER

writes into the folder

    straight.cases          few calls with right expectations, on which tests/host.c finds nothing
    bent-NN.cases           the same calls with one wrong expectation in each file
    wrong-NN.c              bench/plain.c with one mistake each, which the small cases have to tell
    header-NN/headend.h     the header with one mistake each, which they have to tell too
"""

import random
import sys
from pathlib import Path

sys.dont_write_bytecode = True

import plans
from emitter import FULL
from host import (ANSWER, SYMBOL, Cases, Interface, Lamp, Link, Loaded, some_bytes, some_line, to_bytes, with_cell, with_line,
                  with_load)
from loads import some_profile
from stored import ROOT


# --- wrong expectations ----------------------------------------------------

def few(cases):
    """Thirty-four calls."""
    plan, rng = plans.near_a(M=2), random.Random(6)
    cases.name('few calls')
    cases.call('judge', plan=b'')                                       # 0
    cases.call('judge', plan=plan, answer=bytes(32))                    # 1
    link = Link(cases, plan, 127, 7)                                    # 2, 3
    link.send()                                                         # 4
    link.hear()                                                         # 5
    link.send()                                                         # 6
    count = cases.model.count(link.at, 127)
    link.receive(data=some_bytes(rng, count, 5), answer=bytes(ANSWER))  # 7
    link.receive(data=b'\0', answer=bytes(ANSWER - 1))                  # 8
    line = {**some_line(rng), 'symbol': to_bytes([0x8004, 0x8000, 1] + [0] * (SYMBOL - 3)), 'answer': bytes(ANSWER)}
    cases.call('modulate', **line)                                      # 9
    cases.call('modulate', **with_line(line, 300, 16, 4))               # 10
    cases.call('modulate', **{**line, 'answer': bytes(ANSWER - 1)})     # 11
    cases.call('try', 850, 853, plan=plan, answer=bytes(32))            # 12
    cases.call('try', 850, 854, plan=plan, answer=bytes(ANSWER))        # 13
    cases.call('try', 850, 853, plan=plan, answer=bytes(ANSWER - 1))    # 14
    given = Loaded(cases, plan, 127, with_load(some_profile(rng), 800, 6), 8, start=3)      # the first cell goes to 800
    exact, spare = {'answer': bytes(ANSWER)}, given.good['stream'] + b'\x5A'
    given.call('fill', (0, given.need), stream=spare, **exact)              # 15
    given.call('fill', (26, 0), stream=spare[:-2], **exact)                 # 16
    given.call('fill', (21,), answer=bytes(ANSWER - 1))                     # 17
    given.call('unfill', (0, given.need), stream=spare, **exact)            # 18
    given.call('unfill', (19, 7), data=with_cell(given.good['data'], 7, 65535), **exact)    # 19
    given.call('unfill', (21,), answer=bytes(ANSWER - 1))                   # 20
    given.call('emit', (25, 9), profile=with_load(FULL, 9, 5), **exact)     # 21
    cases.call('why', 866, 15, plan=plan, answer=bytes(32))                 # 22
    cases.call('why', 994, 14, plan=plan, answer=bytes(ANSWER))             # 23
    cases.call('why', 866, 128, plan=plan, answer=bytes(ANSWER))            # 24
    cases.call('why', 866, 15, plan=plan, answer=bytes(ANSWER - 1))         # 25
    cases.call('pilots', plan=plan, pilots=b'\x5A' * 258, answer=bytes(32)) # 26
    cases.call('pilots', plan=b'', pilots=b'\x5A' * 256, **exact)           # 27
    cases.call('pilots', plan=plan, pilots=b'\x5A' * 255, **exact)          # 28
    one = Lamp(cases, plan, 9, record=bytes([5, 5, 4, 0, 5, 5, 5, 5, 5]))
    one.hear([925], lights=b'\x5A' * 130, answer=bytes(32))                 # 29
    one.call(28, record=bytes(10), **exact)                                 # 30
    one.call(17, symbol=bytes(8190), **exact)                               # 31
    one.call(21, lights=b'\x5A' * 127, **exact)                             # 32
    one.call(21, answer=bytes(ANSWER - 1))                                  # 33
    return cases


# (which of the calls, the buffer or None for the number returned, the byte, what is wrong)
BENT = ((0, None, 0, 'a refusal by another number'), (1, None, 0, 'a refusal of a good plan'),
        (0, 'answer', 3, 'another place'), (1, 'answer', 15, 'another N_I'),
        (1, 'answer', 16, 'a byte past the answer'), (4, 'answer', 7, 'another phase'),
        (4, 'answer', 11, 'a number heard of an emitter'), (5, 'answer', 11, 'another number heard'),
        (7, 'answer', 14, 'another count'), (8, 'answer', 0, 'a short answer written'),
        (2, 'store', 423, 'another fresh cell'), (2, 'store', -1, 'a byte past the store'),
        (3, 'store', 0, 'another fresh cell of a receiver'), (6, 'store', 422, 'another stored cell'),
        (6, 'symbol', 0, 'another first cell on the line'),
        (6, 'symbol', -1, 'another last cell on the line'),
        (7, 'data', 1, 'another cell handed out'), (7, 'data', -1, 'a byte past the data'),
        (4, 'plan', 3, 'a changed plan'), (6, 'data', 0, 'changed data'),
        (7, 'symbol', 99, 'a changed symbol'),
        (9, None, 0, 'a refusal of a good symbol'), (10, None, 0, 'a refusal by another number'),
        (9, 'numbers', 0, 'a number that is left open'), (9, 'numbers', 11, 'another sign of a pilot'),
        (9, 'numbers', 12, 'another second number of a pilot'), (9, 'numbers', 16, 'another point'),
        (9, 'numbers', -1, 'another last number'), (10, 'numbers', 0, 'a number of a refused symbol'),
        (11, 'numbers', -1, 'a number beside a short answer'), (10, 'answer', 3, 'another value as the place'),
        (10, 'answer', 14, 'another subcarrier'), (9, 'answer', 15, 'a subcarrier without a refusal'),
        (9, 'symbol', 3, 'a changed symbol'), (9, 'loads', 5, 'changed loads'), (10, 'minus', 9, 'changed signs'),
        (12, None, 0, 'a refusal of a good range'), (13, None, 0, 'a refusal of a copy by another number'),
        (12, 'answer', 15, 'another N_I of a copy'), (12, 'answer', 3, 'a place without a refusal'),
        (12, 'answer', 16, 'a byte past the answer'), (13, 'answer', 3, 'another place in a copy'),
        (13, 'answer', 15, 'a value of a refused copy'), (13, 'answer', 7, 'an end of the range in the answer'),
        (14, None, 0, 'a short answer not refused'), (14, 'answer', 0, 'a short answer written'),
        (12, 'plan', 19, 'a plan whose last chain record was changed'), (13, 'plan', -1, 'a plan whose last range was changed'),
        (15, None, 0, 'a refusal of a good filling'), (15, 'answer', 15, 'another number of bits'),
        (15, 'answer', 3, 'a place without a refusal'), (15, 'answer', 7, 'a phase of a filling'),
        (15, 'data', 1, 'another first cell filled'), (15, 'data', -1, 'another last cell filled'),
        (15, 'stream', 0, 'a stream changed by filling'), (15, 'profile', 9, 'a changed profile'), (15, 'plan', 3, 'a changed plan'),
        (16, None, 0, 'a filling refused by another number'), (16, 'data', 1, 'a cell of a refused filling'),
        (16, 'answer', 15, 'bits of a refused filling'), (17, None, 0, 'a short answer of a filling not refused'),
        (17, 'answer', 0, 'a short answer of a filling written'), (17, 'data', 0, 'a cell filled beside a short answer'),
        (18, None, 0, 'a refusal of a good way back'), (18, 'answer', 14, 'another number of bits back'),
        (18, 'stream', 0, 'a bit before the start'), (18, 'stream', 1, 'another bit back'), (18, 'stream', -1, 'a bit behind the symbol'),
        (18, 'data', 3, 'data changed by the way back'), (18, 'profile', -1, 'a profile changed by the way back'),
        (19, None, 0, 'a way back refused by another number'), (19, 'answer', 3, 'another place of a wrong cell'),
        (19, 'stream', 1, 'a bit of a refused way back'), (20, None, 0, 'a short answer of a way back not refused'),
        (20, 'answer', 0, 'a short answer of a way back written'), (20, 'stream', 1, 'a bit beside a short answer'),
        (21, None, 0, 'a profile refused by another number'), (21, 'answer', 3, 'another place of a wrong load'),
        (21, 'answer', 7, 'another phase after a wrong load'), (21, 'store', 5, 'a store written after a wrong load'),
        (21, 'symbol', 5, 'a symbol written after a wrong load'),
        (22, None, 0, 'a refusal of a good question'), (22, 'answer', 15, 'another reason'),
        (22, 'answer', 7, 'another phase at which a pilot stands there'), (22, 'answer', 3, 'a place beside a phase'),
        (22, 'answer', 11, 'a number heard beside a reason'), (22, 'answer', 16, 'a byte past the answer'),
        (22, 'plan', 9, 'a plan changed by a question'), (23, 'answer', 15, 'another reason of a pilot'),
        (23, 'answer', 3, 'another distance'), (23, 'answer', 7, 'a phase beside a distance'),
        (24, None, 0, 'a question refused by another number'), (24, 'answer', 3, 'a place of a refused question'),
        (24, 'answer', 7, 'a phase of a refused question'), (24, 'answer', 15, 'a reason of a refused question'),
        (25, None, 0, 'a short answer of a question not refused'), (25, 'answer', 0, 'a short answer of a question written'),
        (26, None, 0, 'a refusal of a good list'), (26, 'answer', 15, 'another number of pilots'),
        (26, 'answer', 3, 'a place beside a list'), (26, 'answer', 16, 'a byte past the answer'),
        (26, 'plan', 5, 'a plan changed by a list'), (26, 'pilots', 0, 'another first pilot'), (26, 'pilots', 15, 'another last pilot'),
        (26, 'pilots', 17, 'a pilot past the last'), (26, 'pilots', 255, 'another last number'), (26, 'pilots', 256, 'a byte past a list'),
        (27, None, 0, 'a list refused by another number'), (27, 'pilots', 0, 'a list of a refused plan'),
        (28, None, 0, 'a short list not refused'), (28, 'pilots', 0, 'a short list written'), (28, 'answer', 15, 'pilots of a short list'),
        (29, None, 0, 'a refusal of a good symbol'), (29, 'answer', 15, 'another number of pilots'),
        (29, 'answer', 11, 'a number heard in the answer'), (29, 'answer', 16, 'a byte past the answer'),
        (29, 'record', 0, 'another number of symbols heard'), (29, 'record', 1, 'a mark that was lost and counts'),
        (29, 'record', 2, 'another count'), (29, 'record', -1, 'another last count'), (29, 'lights', 0, 'a dark pilot that is lit'),
        (29, 'lights', 1, 'another light of a pilot that was dark'), (29, 'lights', 7, 'a lit pilot that is dark'),
        (29, 'lights', 8, 'a light past the last pilot'), (29, 'lights', 127, 'another last light'),
        (29, 'lights', 128, 'a byte past the lights'), (29, 'symbol', 99, 'a symbol changed by the lamp'),
        (29, 'plan', 3, 'a plan changed by the lamp'), (30, None, 0, 'a record refused by another number'),
        (30, 'answer', 3, 'a place of a wrong record'), (30, 'answer', 15, 'pilots beside a wrong record'),
        (30, 'record', 0, 'a wrong record written'), (30, 'lights', 0, 'a light beside a wrong record'),
        (31, None, 0, 'a short symbol refused by another number'), (31, 'record', 0, 'a short symbol that is heard'),
        (31, 'lights', 0, 'a light of a short symbol'), (32, None, 0, 'short lights not refused'),
        (32, 'lights', 0, 'short lights written'), (32, 'record', 0, 'a record beside short lights'),
        (33, None, 0, 'a short answer of the lamp not refused'), (33, 'answer', 0, 'a short answer of the lamp written'),
        (33, 'record', 1, 'a record beside a short answer'), (33, 'lights', 0, 'a light beside a short answer'))


def bend_of(call, key, at):
    def bend(calls, returned, after):
        if calls != call:
            return returned, after
        if key is None:
            return (returned + 1) % 29, after
        data = bytearray(after[key])
        data[at] ^= 1
        return returned, {**after, key: bytes(data)}
    return bend


def write_cases(folder):
    model = Interface()
    few(Cases(folder / 'straight.cases', model=model)).end()
    for i, (call, key, at, _) in enumerate(BENT):
        few(Cases(folder / ('bent-%02d.cases' % i), bend_of(call, key, at), model)).end()
    cases = few(Cases(folder / ('bent-%02d.cases' % len(BENT)), model=model))
    cases.reached['judge'].add(15)          # a number that no call returned
    cases.end()
    cases = few(Cases(folder / ('bent-%02d.cases' % (len(BENT) + 1)), model=model))
    cases.calls += 1                        # a call that is missing
    cases.end()
    cases = few(Cases(folder / ('bent-%02d.cases' % (len(BENT) + 2)), model=model))
    cases.empty.add(('flush', 'store'))     # a buffer that was not empty in any call
    cases.end()
    return len(BENT) + 3


# --- wrong programs --------------------------------------------------------

# What stands in bench/plain.c: how unfill tries the cells, and how fill and unfill begin, up to the lengths that 21 judges.
CELLS_TRIED = """\
    if (r.number == 0)
        r = check_cells(loads, data, data_len / 2);
    if (r.number != 0)
        return say"""
FILL_BEGINS, UNFILL_BEGINS = (
    buffer + """_len, uint8_t *answer,
%ssize_t answer_len)
{
    uint8_t loads[SUBCARRIERS];
    uint32_t bits;
    if (wrong_buffers""" % (' ' * indent)
    for buffer, indent in (('uint8_t *data, size_t data', 20), ('uint8_t *stream, size_t stream', 22)))

# How a record is drawn for the reason of a role, and how why begins, up to its refusal.
DRAWN = """\
        for (unsigned k = first; k <= last; k++)
            if (by[k] == 0)
                by[k] = (uint16_t)i;
"""
WHY_BEGINS = """\
    if (wrong_buffers(0, 0, 0, answer_len))
        return refuse_21(answer, answer_len, NO_STATE);
    struct refusal r = judge_at(&p, plan, plan_len, subcarrier, phase);
    if (r.number != 0)
        return say(answer, r, NO_STATE, 0);
"""
WHY_JUDGED = WHY_BEGINS[WHY_BEGINS.index('    struct'):]

# How pilots are found and listed, and how the lamp begins, tries a record, and hears a symbol.
FOUND = """\
    for (int k = 0; k < SUBCARRIERS; k++)
        if (p->kind[k] == CONTINUOUS)
            pilot[pilots++] = k;
"""
LISTED_PILOTS = """\
    int count = find_pilots(&p, pilot);
    for (int i = 0; i < PILOTS; i++)
        put(pilots, (size_t)i, i < count ? (unsigned)pilot[i] : 0);
    return say(answer, r, NO_STATE, (uint32_t)count);
"""
LIST_BEGINS = 'wrong_buffers(0, 0, 0, answer_len) || pilots_len < 2 * PILOTS'
LAMP_BEGINS = 'wrong_buffers(symbol_len, 0, 0, answer_len) || lights_len < PILOTS'
LAMP_TRIED = """\
        r = check_record(record, record_len, pilots);
    }
    if (r.number == 0 && symbol_len != 2 * SUBCARRIERS)
        r = refuse(17, 0);
    if (r.number != 0)
        return say(answer, r, NO_STATE, 0);
"""
HEARD = """\
    record[0] = one_more(record[0]);
    memset(lights, 0, PILOTS);
    for (int i = 0; i < pilots; i++) {
        uint8_t *count = &record[1 + i];
        *count = get(symbol, (size_t)pilot[i]) == CONTINUOUS_MARK ? one_more(*count) : 0;
        lights[i] = *count == record[0];
    }
    return say(answer, r, NO_STATE, (uint32_t)pilots);
"""

# (what stands once in bench/plain.c, what stands there instead)
WRONG = (
    # cells and the answer
    ('return (unsigned)cells[2 * i] << 8 | cells[2 * i + 1]',
     'return (unsigned)cells[2 * i + 1] << 8 | cells[2 * i]'),
    ('at[3] = (uint8_t)number', 'at[3] = at[4] = (uint8_t)number'),
    ('ANSWER = 16', 'ANSWER = 15'),
    ('if (answer_len >= ANSWER)', 'if (answer_len >= 15)'),
    ('put_number(answer + 8, s.heard)', 'put_number(answer + 8, r.number ? 0 : s.heard)'),
    ('put_number(answer + 12, value)', 'put_number(answer + 8, value)'),
    # bytes outside of a buffer: read, behind and before; the store past its places, written
    ('struct refusal r = read_chain(p, plan, length);',
     'struct refusal r = read_chain(p, plan + *(volatile const uint8_t *)(plan + length) * 0, length);'),
    ('struct refusal r = read_chain(p, plan, length);',
     'struct refusal r = read_chain(p, plan + *(volatile const uint8_t *)(plan - 1) * 0, length);'),
    ('size_t all = store_cells(&p, receiver_places);', 'size_t all = store_len / 2;'),
    # NULL for an empty buffer, not expected
    ('    if (length < RECORD ||', '    if (plan == NULL)\n        return refuse(2, 0);\n    if (length < RECORD ||'),
    ('int warming = heard < ', 'int warming = data != NULL && heard < '),
    ('return data_len / 2 != (size_t)data_count(p, phase) ?', 'return data_len != 0 && data_len / 2 != (size_t)data_count(p, phase) ?'),
    ('    if (length != SUBCARRIERS)\n', '    if (profile == NULL)\n        return refuse(2, 0);\n    if (length != SUBCARRIERS)\n'),
    ('    *bits = 0;\n', '    *bits = stream_len == 0;\n'),
    # grounds
    ('|| c % 2 != 0', ''),
    ('|| s.heard >= (uint32_t)p->m', ''),
    ('store_len / 2 < store_cells(p, of)', 'store_len / 2 + 1 < store_cells(p, of)'),
    ('store_len / 2 < store_cells(p, of)', 'store_len / 2 < store_cells(p, emitter_places)'),
    ('store_len / 2 < store_cells(p, of)', 'store_len / 2 < store_cells(p, receiver_places)'),
    ('store_len / 2 < store_cells(p, of)', 'store_len / 2 < (size_t)p->m * (size_t)p->n'),
    ('if (!warming && data_len / 2 <', 'if (!warming && data_len / 2 + 1 <'),
    ('if (!warming && data_len / 2 <', 'if (data_len / 2 <'),
    ('for (int k = 0; k < SUBCARRIERS; k++) {\n        int want', 'for (int k = 1; k < SUBCARRIERS; k++) {\n        int want'),
    ('if (get(data, i) > limit(loads[i]))', 'if (get(data, i) > limit(loads[i]) + 1)'),
    ('if (get(data, i) > limit(loads[i]))', 'if (get(data, i) >= limit(loads[i]))'),
    ('if (get(data, i) > limit(loads[i]))', 'if (get(data, i) > limit(14))'),
    ('return refuse(19, (uint32_t)i);', 'return refuse(19, get(data, i));'),
    ('&& cell != FILLER_MARK', ''),
    ('return b - a + 1;', 'return b - a;'),
    # a refused step that writes
    ('        r = check_cells(loads, data, data_len / 2);\n    }\n',
     '        r = check_cells(loads, data, data_len / 2);\n        if (r.number == 19)\n            move(store, 0, 1, 0);\n    }\n'),
    # the shortcuts that the paper names
    ('p->carrier[cell], (phase + cell % p->m) % PHASES', 'p->carrier[cell], phase'),
    ('(k - (p->l + 8) - phase)', '(k - phase)'),
    # the interleavers
    ('<< (6 - bit)', '<< bit'),
    ('return cell % p->m;', 'return p->m - 1 - cell % p->m;'),
    ('return p->m - 1 - cell % p->m;', 'return cell % p->m;'),
    ('heard < (uint32_t)p.m - 1', 'heard + 2 < (uint32_t)p.m'),
    # the store: the newest goes, or stands first; a place is not moved, or not written; a fresh one
    ('unsigned oldest = get(store, first);', 'unsigned oldest = get(store, last);'),
    ('for (size_t i = first; i < last; i++)', 'for (size_t i = first; i + 1 < last; i++)'),
    ('put(store, last, cell);', 'put(store, first, cell);'),
    ('put(store, last, cell);', ''),
    ('((int)phase - back + PHASES) % PHASES, NULL, NULL', '((int)phase + back) % PHASES, NULL, NULL'),
    ('for (int back = emitter_places(&p, cell); back > 0; back--)', 'for (int back = 1; back <= emitter_places(&p, cell); back++)'),
    ('return data == NULL ? FILLER_MARK', 'return data == NULL ? 0'),
    # one more range: at which record the new one hangs, and what it holds
    ('put(copy + RECORD * last_on_chain, 1,', 'put(copy, 1,'),
    ('put(copy + RECORD * last_on_chain, 1,', 'put(copy + length - RECORD, 1,'),
    ('    put(copy + RECORD * last_on_chain, 1, (unsigned)(length / RECORD));\n', ''),
    ('1, (unsigned)(length / RECORD));', '1, (unsigned)last_on_chain + 1);'),
    ('put(copy + RECORD * last_on_chain, 1, (unsigned)(length / RECORD));',
     'copy[RECORD * last_on_chain + 3] = (uint8_t)(length / RECORD);'),
    ('record[0] = 2;', 'record[0] = 3;'),
    ('put(record, 1, 0);', 'put(record, 1, (unsigned)(length / RECORD));'),
    ('put(record, 2, first);\n    put(record, 3, last);', 'put(record, 2, last);\n    put(record, 3, first);'),
    ('put(record, 3, last);', 'put(record, 3, last - 1);'),
    # bytes of the plan: some that are written before it is copied, and some that are read behind it
    ('    memcpy(copy, plan, length);\n    put(copy + RECORD * last_on_chain, 1, (unsigned)(length / RECORD));\n',
     '    put((uint8_t *)plan + RECORD * last_on_chain, 1, (unsigned)(length / RECORD));\n    memcpy(copy, plan, length);\n'),
    ('memcpy(copy, plan, length);', 'memcpy(copy, plan, length + RECORD);'),
    # what is tried, and in which order: the plan's own 2 to 5, not its 6 to 15, then 1 of the copy, then the numbers
    ('    if (own.number != 0)\n', '    if (own.number == 1 || (own.number != 0 && own.place == 0))\n'),
    ('struct refusal own = read_chain(p, plan, length);', 'struct refusal own = judge(p, plan, length);'),
    ('struct refusal own = read_chain(p, plan, length);',
     'struct refusal own = first > last || last >= SUBCARRIERS ? refuse(4, (uint32_t)(length / RECORD)) : read_chain(p, plan, length);'),
    ('struct refusal own = read_chain(p, plan, length);',
     'struct refusal own = length == LONGEST ? refuse(1, 0) : read_chain(p, plan, length);'),
    ('length < LONGEST && (first > LAST_NUMBER || last > LAST_NUMBER)', 'first > LAST_NUMBER || last > LAST_NUMBER'),
    ('return judge(p, copy, length + RECORD);',
     'return length < LONGEST ? judge(p, copy, length + RECORD) : judge(p, plan, length);'),
    ('return judge(p, copy, length + RECORD);', 'return judge(p, copy, length);'),
    # the numbers of the range cut to two bytes: both, the first, the last; the place of their refusal
    ('length < LONGEST && (first > LAST_NUMBER || last > LAST_NUMBER)', '0'),
    ('first > LAST_NUMBER || last > LAST_NUMBER', 'last > LAST_NUMBER'),
    ('first > LAST_NUMBER || last > LAST_NUMBER', 'first > LAST_NUMBER'),
    ('refuse(4, (uint32_t)(length / RECORD))', 'refuse(4, 0)'),
    ('refuse(4, (uint32_t)(length / RECORD))', 'refuse(4, (uint32_t)p->last + 1)'),
    # the answer: the verdict or N_I of the plan and not of the copy, the range where a state would stand
    ('return judge(p, copy, length + RECORD);', 'return judge(p, plan, length);'),
    ('struct refusal r = judge_with(&p, plan, plan_len, first, last);',
     'struct refusal r = judge_with(&p, plan, plan_len, first, last);\n    if (r.number == 0)\n        judge(&p, plan, plan_len);'),
    ('struct refusal r = judge_with(&p, plan, plan_len, first, last);\n    return say(answer, r, NO_STATE,',
     'struct refusal r = judge_with(&p, plan, plan_len, first, last);\n    return say(answer, r, (struct state){first, last},'),
    # the record of a reason: the last, the one that begins or ends lowest, one off the chain, the one before or behind, a byte of it,
    # how far on the chain it is; what a record covers
    (DRAWN, DRAWN.replace('if (by[k] == 0)', 'if (1)')),
    (DRAWN, DRAWN.replace('by[k] == 0', 'by[k] == 0 || first < get(plan + RECORD * by[k], 2)')),
    (DRAWN, DRAWN.replace('by[k] == 0', 'by[k] == 0 || last < get(plan + RECORD * by[k], 3)')),
    ('i = (int)get(plan + RECORD * i, 1);', 'i++;'),
    (DRAWN, DRAWN.replace('(uint16_t)i', '(uint16_t)(i - 1)')),
    (DRAWN, DRAWN.replace('(uint16_t)i', '(uint16_t)(i + 1)')),
    (DRAWN, DRAWN.replace('(uint16_t)i', '(uint8_t)i')),
    (DRAWN, '        static int on_chain;\n        on_chain = i == (int)get(plan, 1) ? 1 : on_chain + 1;\n'
     + DRAWN.replace('(uint16_t)i', '(uint16_t)on_chain')),
    (DRAWN, DRAWN.replace('k <= last', 'k < last')),
    (DRAWN, DRAWN.replace('k = first', 'k = first + 1')),
    (DRAWN, DRAWN.replace('k <= last', 'k <= last && record[0] == 3')),
    ('last = record[0] == 2 ? get(record, 3) : first;', 'last = get(record, 3);'),
    ('for (int i = 0; i != p->last;) {', 'for (int i = 0; i != p->last && get(plan + RECORD * i, 1) != (unsigned)p->last;) {'),
    # the distance: from L above the PLC, from the subcarrier after it, from the other end, its number, the subcarrier; its side
    ('because(PILOT_ABOVE, DISTANCES[i], 0)', 'because(PILOT_ABOVE, k - p->l, 0)'),
    ('because(PILOT_ABOVE, DISTANCES[i], 0)', 'because(PILOT_ABOVE, k - (p->l + 8), 0)'),
    ('because(PILOT_BELOW, DISTANCES[i], 0)', 'because(PILOT_BELOW, p->l + 7 - k, 0)'),
    ('because(PILOT_BELOW, DISTANCES[i], 0)', 'because(PILOT_BELOW, i + 1, 0)'),
    ('because(PILOT_ABOVE, DISTANCES[i], 0)', 'because(PILOT_ABOVE, k, 0)'),
    ('because(PILOT_ABOVE, DISTANCES[i], 0)', 'because(PILOT_BELOW, DISTANCES[i], 0)'),
    ('because(PILOT_BELOW, DISTANCES[i], 0)', 'because(PILOT_ABOVE, DISTANCES[i], 0)'),
    # a pilot's record for a distance, and a distance for a record; its subcarrier
    ('because(PILOT_BELOW, DISTANCES[i], 0)', 'because(BY_PILOT, record, 0)'),
    ('because(PILOT_ABOVE, DISTANCES[i], 0)', 'because(BY_PILOT, DISTANCES[i], 0)'),
    ('because(BY_PILOT, record, 0)', 'because(k < p->l ? PILOT_BELOW : PILOT_ABOVE, k < p->l ? p->l - k : k - p->l - 7, 0)'),
    ('because(BY_PILOT, record, 0)', 'because(BY_PILOT, k, 0)'),
    # the phase: one off, none below 1 or above 63, so many symbols later, the one that was asked; not said, or as a place
    ('        phase++;\n    return phase;', '        phase++;\n    return (phase + 1) % PHASES;'),
    ('        phase++;\n    return phase;', '        phase++;\n    return (phase + PHASES - 1) % PHASES;'),
    ('int phase = 0;\n    while', 'int phase = 1;\n    while'),
    ('while (phase < PHASES && role', 'while (phase < 64 && role'),
    ('because(BUT_AT_PHASE, 0, pilot_phase(p, k))', 'because(BUT_AT_PHASE, 0, (pilot_phase(p, k) - phase + PHASES) % PHASES)'),
    ('because(BUT_AT_PHASE, 0, pilot_phase(p, k))', 'because(BUT_AT_PHASE, 0, phase)'),
    ('because(BUT_AT_PHASE, 0, pilot_phase(p, k))', 'because(BUT_AT_PHASE, 0, 0)'),
    ('because(BUT_AT_PHASE, 0, pilot_phase(p, k))', 'because(BUT_AT_PHASE, pilot_phase(p, k), 0)'),
    ('because(AT_PHASE, 0, phase)', 'because(AT_PHASE, phase, 0)'),
    ('because(AT_PHASE, 0, phase)', 'because(AT_PHASE, 0, 0)'),
    # the value: scattered as data, data as scattered, the role's number; PLC with record 1, with L or a phase; a range with a phase
    ('because(AT_PHASE, 0, phase)', 'because(BUT_AT_PHASE, 0, phase)'),
    ('because(BUT_AT_PHASE, 0, pilot_phase(p, k))', 'because(AT_PHASE, 0, pilot_phase(p, k))'),
    ('AT_PHASE = 6, BUT_AT_PHASE = 7', 'AT_PHASE = 4, BUT_AT_PHASE = 5'),
    ('BY_RANGE = 1, BY_PLC = 2', 'BY_RANGE = 2, BY_PLC = 1'),
    ('because(BY_PLC, 0, 0)', 'because(BY_PLC, 1, 0)'),
    ('because(BY_PLC, 0, 0)', 'because(BY_PLC, p->l, 0)'),
    ('because(BY_PLC, 0, 0)', 'because(BY_PLC, 0, phase)'),
    ('because(BY_RANGE, by[k], 0)', 'because(BY_RANGE, by[k], phase)'),
    # the grounds of why: 16 not tried, of a subcarrier or a phase; before the plan's; its place; that of others; a short answer
    (WHY_JUDGED, WHY_JUDGED.replace('subcarrier', 'subcarrier %= SUBCARRIERS')),
    (WHY_JUDGED, WHY_JUDGED.replace('phase', 'phase %= PHASES')),
    (WHY_JUDGED, WHY_JUDGED.replace('= judge_at', '= subcarrier >= SUBCARRIERS || phase >= PHASES ? refuse(16, 0) : judge_at')),
    (WHY_JUDGED, WHY_JUDGED.replace('    if', '    if (r.number == 16)\n        r.place = subcarrier;\n    if')),
    (WHY_JUDGED, WHY_JUDGED.replace('    if', '    r.place = 0;\n    if')),
    (WHY_JUDGED, WHY_JUDGED.replace('NO_STATE', '(struct state){phase, 0}')),
    (WHY_JUDGED, WHY_JUDGED.replace('NO_STATE, 0', 'NO_STATE, EXCLUDED')),
    (WHY_BEGINS, WHY_BEGINS.replace('wrong_buffers(0, 0, 0, answer_len)', 'answer_len < ANSWER - 1')),
    (WHY_BEGINS, WHY_BEGINS.replace('return refuse_21', 'return answer_len == 0 ? 21 : (*answer = 0) + refuse_21')),
    # its answer: the place lost, the phase as heard
    ('say(answer, refuse(0, w.place),', 'say(answer, FINE,'),
    ('(struct state){w.phase, 0}', '(struct state){0, w.phase}'),
    # the pilots: in falling order, in that of the chain, no more than eight, one of the PLC among them, the last active one not
    (FOUND, FOUND.replace('int k = 0; k < SUBCARRIERS; k++', 'int k = SUBCARRIERS; k-- > 0;')),
    (FOUND, '    for (int i = 0; i < 8; i++)\n        pilot[pilots++] = i < 4 ? p->l - DISTANCES[3 - i] : p->l + 7 + DISTANCES[i - 4];\n'
     '    for (int i = 0; i < p->pilots; i++)\n        pilot[pilots++] = p->pilot[i];\n'),
    (FOUND, FOUND.replace('== CONTINUOUS', '== CONTINUOUS && pilots < 8')),
    (FOUND, FOUND.replace('== CONTINUOUS', '== CONTINUOUS || (p->kind[k] == PLC && k == p->l)')),
    (FOUND, FOUND.replace('k < SUBCARRIERS', 'k < 3948')),
    # their list: the low byte first, what stands past the last of them, what is counted, how long it is, what a refusal writes
    (LISTED_PILOTS, LISTED_PILOTS.replace('(unsigned)pilot[i]', '(unsigned)(pilot[i] >> 8 | (pilot[i] & 255) << 8)')),
    (LISTED_PILOTS, LISTED_PILOTS.replace(': 0', ': (unsigned)count')),
    (LISTED_PILOTS, LISTED_PILOTS.replace(': 0', ': (unsigned)pilot[count - 1]')),
    (LISTED_PILOTS, LISTED_PILOTS.replace('i < PILOTS', 'i < count')),
    (LISTED_PILOTS, LISTED_PILOTS.replace('(uint32_t)count', '(uint32_t)p.n')),
    (LISTED_PILOTS, LISTED_PILOTS.replace('(uint32_t)count', '(uint32_t)p.pilots')),
    (LISTED_PILOTS, '    memset(pilots, 0, pilots_len);\n' + LISTED_PILOTS),
    (LIST_BEGINS, LIST_BEGINS.replace('2 * PILOTS', '2 * PILOTS - 1')),
    (LIST_BEGINS, LIST_BEGINS.replace('< 2', '!= 2')),
    (LIST_BEGINS, LIST_BEGINS.replace('0, 0, 0', 'pilots_len, 0, 0')),
    (LIST_BEGINS, 'wrong_buffers(0, 0, 0, answer_len) || (pilots_len < 2 * PILOTS && judge(&p, plan, plan_len).number == 0)'),
    ('        return say(answer, r, NO_STATE, 0);\n    int count = find',
     '        return memset(pilots, 0, 2 * PILOTS), say(answer, r, NO_STATE, 0);\n    int count = find'),
    # the lamp's record: its length, its counts, the first and the last of them, the place and the number of the refusal
    ('length != (size_t)pilots + 1', 'length < (size_t)pilots + 1'),
    ('length != (size_t)pilots + 1', 'length > 1 + PILOTS || length < 9'),
    ('length != (size_t)pilots + 1', 'length != 1 + PILOTS && length != (size_t)pilots + 1'),
    ('record[i] > LAST_HEARD || record[i] > record[0]', 'record[i] > LAST_HEARD'),
    ('record[i] > LAST_HEARD || record[i] > record[0]', 'record[i] > record[0]'),
    ('record[i] > LAST_HEARD ||', 'record[i] >= LAST_HEARD ||'),
    ('for (size_t i = 0; i < length; i++)\n        if (record', 'for (size_t i = 1; i < length; i++)\n        if (record'),
    ('for (size_t i = 0; i < length; i++)\n        if (record', 'for (size_t i = 0; i + 1 < length; i++)\n        if (record'),
    ('record[0])\n            return refuse(28, 0);', 'record[0])\n            return refuse(28, (uint32_t)i);'),
    ('record[0])\n            return refuse(28, 0);', 'record[0])\n            return refuse(17, 0);'),
    ('(size_t)pilots + 1)\n        return refuse(28, 0);', '(size_t)pilots + 1)\n        return refuse(28, (uint32_t)length);'),
    ('(size_t)pilots + 1)\n        return refuse(28, 0);', '(size_t)pilots + 1)\n        return refuse(record == NULL ? 21 : 28, 0);'),
    # counts that go up to 127 or to 255
    ('return count < LAST_HEARD ?', 'return count < LAST_HEARD - 1 ?'),
    ('return count < LAST_HEARD ?', 'return count < 255 ?'),
    # what is tried, and in which order: an odd symbol, short lights, even lengths, 28 after 17, 28 before the plan's, no 17
    (LAMP_BEGINS, LAMP_BEGINS.replace('symbol_len', '0')),
    (LAMP_BEGINS, LAMP_BEGINS.replace('< PILOTS', '< PILOTS - 1')),
    (LAMP_BEGINS, LAMP_BEGINS.replace('< PILOTS', '< 8')),
    (LAMP_BEGINS, LAMP_BEGINS.replace('< PILOTS', '!= PILOTS')),
    (LAMP_BEGINS, LAMP_BEGINS.replace('symbol_len, 0', 'symbol_len, record_len')),
    (LAMP_BEGINS, LAMP_BEGINS.replace('symbol_len, 0', 'symbol_len, lights_len')),
    (LAMP_TRIED, LAMP_TRIED.replace('r = check', 'r = symbol_len != 2 * SUBCARRIERS ? refuse(17, 0) : check')),
    (LAMP_TRIED, LAMP_TRIED.replace('    }\n', '    }\n    if (record_len < 9 || record_len > 129)\n        r = refuse(28, 0);\n')),
    (LAMP_TRIED, LAMP_TRIED.replace('symbol_len !=', 'symbol_len <')),
    (LAMP_TRIED, LAMP_TRIED.replace('symbol_len !=', 'symbol_len != 0 && symbol_len !=')),
    (LAMP_TRIED, LAMP_TRIED.replace('symbol_len != 2 * SUBCARRIERS', 'symbol_len / 4 != SUBCARRIERS / 2')),
    # a cell that is refused; a refused symbol that is heard, or that darkens
    (LAMP_TRIED, LAMP_TRIED.replace('    if (r.number != 0)', '    for (int i = 0; r.number == 0 && i < pilots; i++)\n'
     '        if (get(symbol, (size_t)pilot[i]) != CONTINUOUS_MARK)\n            r = refuse(20, (uint32_t)pilot[i]);\n'
     '    if (r.number != 0)')),
    (LAMP_TRIED, LAMP_TRIED.replace('    if (r.number != 0)', '    if (r.number == 17)\n        record[0] = one_more(record[0]);\n'
     '    if (r.number != 0)')),
    (LAMP_TRIED, LAMP_TRIED.replace('    if (r.number != 0)', '    if (r.number != 0)\n        memset(lights, 0, PILOTS);\n'
     '    if (r.number != 0)')),
    # a symbol that is heard: the first count; a lost mark, which only halts a count or takes one off; what counts as the mark
    (HEARD, HEARD.replace('    record[0] = one_more(record[0]);\n', '')),
    (HEARD, HEARD.replace('    record[0] = one_more(record[0]);\n', '').replace('    return',
     '    record[0] = one_more(record[0]);\n    return')),
    (HEARD, HEARD.replace(': 0;', ': *count;')),
    (HEARD, HEARD.replace(': 0;', ': *count - (*count > 0);')),
    (HEARD, HEARD.replace('== CONTINUOUS_MARK', '>= SCATTERED_MARK')),
    (HEARD, HEARD.replace('(size_t)pilot[i]) == CONTINUOUS_MARK', '(size_t)pilot[i]) % 256 == CONTINUOUS_MARK % 256')),
    (HEARD, HEARD.replace('(size_t)pilot[i])', '(size_t)pilot[i] + 1)')),
    # the lights: of the latest symbol, of 128 symbols alone, 255 where one is lit, past the last pilot, past all of them
    (HEARD, HEARD.replace('*count == record[0]', '*count > 0')),
    (HEARD, HEARD.replace('*count == record[0]', '*count == LAST_HEARD')),
    (HEARD, HEARD.replace('*count == record[0]', '*count + 1 >= record[0]')),
    (HEARD, HEARD.replace('*count == record[0]', '(uint8_t)-(*count == record[0])')),
    (HEARD, HEARD.replace('    memset(lights, 0, PILOTS);\n', '')),
    (HEARD, HEARD.replace('lights, 0,', 'lights, 1,')),
    (HEARD, HEARD.replace('0, PILOTS', '0, lights_len')),
    # the answer: how many are lit, the symbols heard
    (HEARD, HEARD.replace('(uint32_t)pilots', 'record[0]')),
    (HEARD, HEARD.replace('NO_STATE', '(struct state){0, record[0]}')),
    # the profile: its length, which loads are listed, which is named, and when it is tried
    ('if (length != SUBCARRIERS)', 'if (length < SUBCARRIERS)'),
    ('if (length != SUBCARRIERS)', 'if (length / 2 != SUBCARRIERS / 2)'),
    ('profile[k] != 0 && profile[k] != 4', 'profile[k] != 4'),
    ('profile[k] != 0 && profile[k] != 4', 'profile[k] != 0'),
    ('profile[k] != 0 && profile[k] != 4', 'profile[k] > 2 && profile[k] != 4'),
    ('profile[k] < 6 || profile[k] > 14', 'profile[k] < 5 || profile[k] > 14'),
    ('profile[k] < 6 || profile[k] > 14', 'profile[k] < 7 || profile[k] > 14'),
    ('profile[k] < 6 || profile[k] > 14', 'profile[k] < 6 || profile[k] > 13'),
    ('profile[k] < 6 || profile[k] > 14', 'profile[k] < 6 || profile[k] > 15'),
    ('profile[k] < 6 || profile[k] > 14', 'profile[k] < 6 || profile[k] % 128 > 14'),
    ('for (int k = 0; k < SUBCARRIERS; k++)\n        if (profile[k]', 'for (int k = 1; k < SUBCARRIERS; k++)\n        if (profile[k]'),
    ('for (int k = 0; k < SUBCARRIERS; k++)\n        if (profile[k]', 'for (int k = 0; k < SUBCARRIERS - 1; k++)\n        if (profile[k]'),
    ('for (int k = 0; k < SUBCARRIERS; k++)\n        if (profile[k]', 'for (int k = 148; k < 3949; k++)\n        if (profile[k]'),
    ('for (int k = 0; k < SUBCARRIERS; k++)\n        if (profile[k]', 'for (int k = SUBCARRIERS; k-- > 0;)\n        if (profile[k]'),
    ('return refuse(25, (uint32_t)k);', 'return refuse(25, 0);'),
    ('return refuse(25, (uint32_t)k);', 'return refuse(25, profile[k]);'),
    ('        return refuse(25, 0);\n', '        return refuse(25, (uint32_t)length);\n'),
    ('        return refuse(25, 0);\n', '        return refuse(17, 0);\n'),
    ('return r.number == 0 ? check_profile(profile, profile_len) : r;',
     'struct refusal q = check_profile(profile, profile_len);\n    return q.number == 0 || r.number < 15 ? r : q;'),
    ('return r.number == 0 ? check_profile(profile, profile_len) : r;',
     'struct refusal q = check_profile(profile, profile_len);\n    return q.number == 0 ? r : q;'),
    ('    r = begin(&p, r, s, emitter_places, store_len, symbol_len);\n    if (r.number == 0)\n        r = check_count',
     '    if (wrong_state(&p, s))\n        r = refuse(16, 0);\n    r = begin(&p, r, s, emitter_places, store_len, symbol_len);\n'
     '    if (r.number == 0)\n        r = check_count'),
    ('    r = begin(&p, r, s, receiver_places, store_len, symbol_len);',
     '    if (r.number == 25 && symbol_len != 2 * SUBCARRIERS)\n        r = refuse(17, 0);\n'
     '    r = begin(&p, r, s, receiver_places, store_len, symbol_len);'),
    ('if (wrong_buffers(store_len, data_len, symbol_len, answer_len))',
     'if (wrong_buffers(store_len, data_len, symbol_len | profile_len, answer_len))'),
    ('if (wrong_buffers(store_len, symbol_len, data_len, answer_len))',
     'if (wrong_buffers(store_len, symbol_len, data_len | profile_len, answer_len))'),
    # limits, and the load of a cell
    ('return load == 0 ? 1 : (1u << load) - 1;', 'return (1u << load) - 1;'),
    ('return load == 0 ? 1 : (1u << load) - 1;', 'return load == 0 ? 1 : 1u << load;'),
    ('return load == 0 ? 1 : (1u << load) - 1;', 'return load == 0 ? 16383 : (1u << load) - 1;'),
    ('return load == 0 ? 1 : (1u << load) - 1;', 'return load <= 4 ? 15 : (1u << load) - 1;'),
    ('*loads++ = profile[p->carrier[cell]];', '*loads++ = profile[cell];'),
    ('*loads++ = profile[p->carrier[cell]];', '*loads++ = profile[p->subcarrier[cell]];'),
    ('*loads++ = profile[p->carrier[cell]];', '*loads++ = profile[p->carrier[cell] + 1];'),
    ('        if (!is_placeholder(p, cell, phase))\n            *loads++', '        *loads++'),
    ('        if (!is_placeholder(p, cell, phase))\n            *loads++',
     '        if (!is_scattered(p, p->carrier[cell], phase))\n            *loads++'),
    ('cell > limit(profile[k]) &&', 'cell > limit(14) &&'),
    ('cell > limit(profile[k]) &&', 'cell > limit(profile[k]) + 1 &&'),
    ('cell > limit(profile[k]) &&', 'cell >= limit(profile[k]) &&'),
    # bits: from the top of a byte or of a cell, a start that is lost, load 0
    ('return stream[i / 8] >> i % 8 & 1;', 'return stream[i / 8] >> (7 - i % 8) & 1;'),
    ('(uint8_t)((stream[i / 8] & ~(1u << i % 8)) | bit << i % 8)', '(uint8_t)(stream[i / 8] | bit << i % 8)'),
    ('(uint8_t)((stream[i / 8] & ~(1u << i % 8)) | bit << i % 8)', '(uint8_t)((stream[i / 8] & ((1u << i % 8) - 1)) | bit << i % 8)'),
    ('(uint8_t)((stream[i / 8] & ~(1u << i % 8)) | bit << i % 8)',
     '(uint8_t)((stream[i / 8] & ~(128u >> i % 8)) | bit << (7 - i % 8))'),
    ('cell |= get_bit(stream, start + (size_t)i) << i;', 'cell |= get_bit(stream, start + (size_t)i) << (load - 1 - i);'),
    ('cell |= get_bit(stream, start + (size_t)i) << i;', 'cell |= get_bit(stream, start / 8 * 8 + (size_t)i) << i;'),
    ('unsigned cell = 0;\n    for (int i = 0; i < load', 'unsigned cell = load == 0;\n    for (int i = 0; i < load'),
    ('        start += loads[i];\n', '        start += 14;\n'),
    ('        start += loads[i];\n', '        start += loads[i] > 0 ? loads[i] : 1;\n'),
    ('put_bit(stream, start++, get(data, i) >> bit & 1);', 'put_bit(stream, start++, get(data, i) >> (loads[i] - 1 - bit) & 1);'),
    ('for (int bit = 0; bit < loads[i]; bit++)', 'for (int bit = 0; bit < (loads[i] > 0 ? loads[i] : 1); bit++)'),
    ('for (int bit = 0; bit < loads[i]; bit++)', 'for (int bit = 0; bit < loads[i] - (i + 1 == data_len / 2); bit++)'),
    # 26 and its order
    ('        *bits += loads[i];\n', '        *bits += 14;\n'),
    ('    if (*bits == 0)\n        return FINE;\n', ''),
    ('    if (*bits == 0)\n        return FINE;\n', '    if (*bits == 0 && whole <= stream_len)\n        return FINE;\n'),
    ('    if (whole >= stream_len)\n        return refuse(26, 0);\n', ''),
    ('(*bits + odd + 7) / 8 > stream_len', '(*bits + 7) / 8 > stream_len'),
    ('(*bits + odd + 7) / 8 > stream_len', '(*bits + odd) / 8 > stream_len'),
    ('(*bits + odd + 7) / 8 > stream_len', '(*bits + odd + 7) / 8 >= stream_len'),
    ('size_t whole = start / 8,', 'size_t whole = (uint32_t)start / 8,'),
    ('    if (whole >= stream_len)\n        return refuse(26, 0);\n    return (*bits + odd + 7) / 8 > stream_len - whole ?',
     '    return start + *bits > 8 * stream_len ?'),
    ('refuse(26, 0) : FINE;', 'refuse(26, *bits) : FINE;'),
    ('refuse(26, 0) : FINE;', 'refuse(17, 0) : FINE;'),
    ('    r = check_count(&p, (int)phase, data_len);\n    if (r.number != 0)\n        return r;\n'
     '    find_loads(&p, profile, (int)phase, loads);\n',
     '    find_loads(&p, profile, (int)phase, loads);\n'
     '    r = check_bits(loads, (size_t)data_count(&p, (int)phase), stream_len, start, bits);\n'
     '    if (r.number == 0)\n        r = check_count(&p, (int)phase, data_len);\n    if (r.number != 0)\n        return r;\n'),
    ('refuse(18, 0) : FINE;', 'refuse(17, 0) : FINE;'),
    ('    if (r.number == 0 && phase >= PHASES)\n        r = refuse(16, 0);\n    if (r.number != 0)\n        return r;\n',
     '    if (r.number != 0)\n        return r;\n'),
    # what fill and unfill try of the cells
    (CELLS_TRIED, '    if (r.number != 0)\n        return say'),
    (CELLS_TRIED,
     '    if (r.number == 0 || r.number == 26) {\n        struct refusal q = check_cells(loads, data, data_len / 2);\n'
     '        r = q.number == 0 ? r : q;\n    }\n    if (r.number != 0)\n        return say'),
    ('    for (size_t i = 0; i < data_len / 2; i++) {\n        put(data, i,',
     '    r = check_cells(loads, data, data_len / 2);\n    if (r.number != 0)\n        return say(answer, r, NO_STATE, 0);\n'
     '    for (size_t i = 0; i < data_len / 2; i++) {\n        put(data, i,'),
    # a refused one that writes, and the answer
    ('    if (r.number != 0)\n        return say(answer, r, NO_STATE, 0);\n'
     '    for (size_t i = 0; i < data_len / 2; i++) {\n        put(data, i,',
     '    if (r.number == 26)\n        put(data, 0, 0);\n    if (r.number != 0)\n        return say(answer, r, NO_STATE, 0);\n'
     '    for (size_t i = 0; i < data_len / 2; i++) {\n        put(data, i,'),
    (CELLS_TRIED,
     '    if (r.number == 0) {\n        put_bit(stream, start, bits > 0 ? get(data, 0) & 1 : get_bit(stream, start));\n'
     '        r = check_cells(loads, data, data_len / 2);\n    }\n    if (r.number != 0)\n        return say'),
    ('        start += loads[i];\n    }\n    return say(answer, r, NO_STATE, bits);',
     '        start += loads[i];\n    }\n    return say(answer, r, NO_STATE, (uint32_t)start);'),
    ('        start += loads[i];\n    }\n    return say(answer, r, NO_STATE, bits);',
     '        start += loads[i];\n    }\n    return say(answer, r, (struct state){phase, 0}, bits);'),
    ('>> bit & 1);\n    return say(answer, r, NO_STATE, bits);',
     '>> bit & 1);\n    return say(answer, r, NO_STATE, (uint32_t)(data_len / 2));'),
    (FILL_BEGINS + '(data_len, 0, 0, answer_len))',
     FILL_BEGINS + '(0, 0, 0, answer_len))'),
    (UNFILL_BEGINS + '(data_len, 0, 0, answer_len))',
     UNFILL_BEGINS + '(data_len, stream_len, 0, answer_len))'),
    # the modulator: its lengths, grounds and answer
    ('if (wrong_buffers(symbol_len, 0, 0, answer_len))', 'if (wrong_buffers(0, 0, 0, answer_len))'),
    ('if (symbol_len != 2 * SUBCARRIERS || loads_len', 'if (symbol_len < 2 * SUBCARRIERS || loads_len'),
    ('loads_len != SUBCARRIERS', 'loads_len < SUBCARRIERS'),
    ('loads_len != SUBCARRIERS', 'loads_len > SUBCARRIERS'),
    ('minus_len != SUBCARRIERS', 'minus_len < SUBCARRIERS'),
    ('minus_len != SUBCARRIERS', 'minus_len > SUBCARRIERS'),
    ('numbers_count != 2 * SUBCARRIERS', 'numbers_count < 2 * SUBCARRIERS'),
    ('numbers_count != 2 * SUBCARRIERS', 'numbers_count / 4 != 2 * SUBCARRIERS'),
    ('load >= 6 && load <= 14', 'load >= 5 && load <= 14'),
    ('load == 4 || (load', 'load == 4 || load == 3 || (load'),
    ('load == 1 || load == 2', 'load == 2'),
    ('    if (!load_listed(load))', '    if (cell < SCATTERED_MARK && !load_listed(load))'),
    ('    if (!load_listed(load))', '    if (load_listed(load % 16) == 0)'),
    ('cell >= SCATTERED_MARK && cell <= PLC_MARK', 'cell >= SCATTERED_MARK && cell <= PLC_MARK + 1'),
    ('cell >= SCATTERED_MARK && cell <= PLC_MARK', 'cell > SCATTERED_MARK && cell <= PLC_MARK'),
    ('return cell >= 1u << load ?', 'return cell > 1u << load ?'),
    ('return cell >= 1u << load ?', 'return cell > 16383 ?'),
    ('refuse(22, (uint32_t)load)', 'refuse(22, cell)'),
    ('refuse(23, cell)', 'refuse(23, (uint32_t)load)'),
    ('say(answer, r, NO_STATE, (uint32_t)k)', 'say(answer, r, NO_STATE, 0)'),
    ('refuse(17, 0), NO_STATE, 0);\n    for (size_t k = 0; k < SUBCARRIERS; k++) {',
     'refuse(17, 0), NO_STATE, 0);\n    for (size_t k = SUBCARRIERS; k-- > 0;) {'),
    ('            return say(answer, r, NO_STATE, (uint32_t)k);\n',
     '            return say(answer, r, NO_STATE, (uint32_t)k);\n'
     '        put_line(numbers + 2 * k, get(symbol, k), loads[k], minus[k] != 0);\n'),
    # what stands on the line
    ('gray(m - 1, x >> 1)', 'gray(m - 1, x & ((1u << (m - 1)) - 1))'),
    ('gray(n, lower), gray(n, upper)', 'gray(n, upper), gray(n, lower)'),
    ('return cross(n, gray(n + 1, upper), gray(n, lower))', 'return (struct point){gray(n + 1, upper), gray(n, lower)}'),
    ('magnitude(i) < 3 * s', 'magnitude(i) < 2 * s'),
    ('sign(q) * (4 * s - magnitude(q))', 'sign(q) * (2 * s - magnitude(q))'),
    ('sign(q) * (magnitude(q) + 2 * s)', 'magnitude(q) + 2 * s'),
    ('0.11043153f', '0.11043154f'),
    ('(float)at.x * FACTOR[load]', '(float)at.x * FACTOR[load] * 1.0000001f'),
    ('    if (cell == PLC_MARK)\n        return;\n', ''),
    ('    if (cell == PLC_MARK)\n        return;\n',
     '    if (cell == PLC_MARK) {\n        volatile float one = 1.0f;\n        numbers[1] *= one;\n        return;\n    }\n'),
    ('cell != FILLER_MARK && cell != EXCLUDED_MARK', 'cell != FILLER_MARK'),
    ('cell == SCATTERED_MARK || cell == CONTINUOUS_MARK', 'cell == SCATTERED_MARK || cell == FILLER_MARK || cell == CONTINUOUS_MARK'),
    ('minus ? -2.0f : 2.0f', '-2.0f'),
    ('minus ? -2.0f : 2.0f', 'minus ? -1.0f : 1.0f'),
    ('numbers[1] = 0.0f', 'numbers[1] = -0.0f'),
    ('numbers[1] = 0.0f', '(void)0'),
    ('minus[k] != 0', 'minus[k] == 1'),
    ('minus[k] != 0', 'minus[k] & 1'),
)


# (what stands once in the header, what stands there instead): names, the answer's places, helpers
WRONG_HEADER = (
    ('VERSION 5', 'VERSION 4'), ('HEADEND_PILOTS 128u', 'HEADEND_PILOTS 120u'), ('PILOTS_BYTES 256u', 'PILOTS_BYTES 128u'),
    ('LIGHTS_BYTES 128u', 'LIGHTS_BYTES 129u'), ('LAMP_RECORD_BYTES_MAX 129u', 'LAMP_RECORD_BYTES_MAX 128u'),
    ('LAMP_COUNT_MAX 128u', 'LAMP_COUNT_MAX 127u'), ('REFUSED_LAMP_RECORD 28u', 'REFUSED_LAMP_RECORD 27u'),
    ('return (size_t)pilots + 1;', 'return (size_t)pilots;'), ('return (size_t)pilots + 1;', 'return (size_t)2 * pilots + 2;'),
    ('REFUSED_PROFILE 25u', 'REFUSED_PROFILE 24u'), ('REFUSED_STREAM 26u', 'REFUSED_STREAM 25u'),
    ('PROFILE_BYTES 4096u', 'PROFILE_BYTES 8192u'), ('return load == 0u ? 1u : load;', 'return load;'),
    ('return load == 0u ? 1u : load;', 'return load <= 1u ? 0u : load;'),
    ('return load == 0u ? 1u : load;', 'return load == 0u ? 2u : load;'),
    ('CELL_FILLER 0x8001u', 'CELL_FILLER 0x8002u'), ('CELL_DATA_MAX 16383u', 'CELL_DATA_MAX 16384u'),
    ('HEADEND_HEARD 8 ', 'HEADEND_HEARD 12 '), ('HEADEND_VALUE 12', 'HEADEND_VALUE 16'), ('HEADEND_SCATTERED 4', 'HEADEND_SCATTERED 5'),
    ('HEADEND_REFUSED_RECORD_KIND 2u', 'HEADEND_REFUSED_RECORD_KIND 3u'), ('BUFFER_BYTES 21u', 'BUFFER_BYTES 20u'),
    ('REFUSED_LOAD 22u', 'REFUSED_LOAD 23u'), ('REFUSED_VALUE 23u', 'REFUSED_VALUE 22u'), ('NUMBERS 8192u', 'NUMBERS 4096u'),
    ('RECORD_NUMBER_MAX 65535u', 'RECORD_NUMBER_MAX 65536u'), ('RECORD_NUMBER_MAX 65535u', 'RECORD_NUMBER_MAX 4095u'),
    ('DEPTH_MAX 32u', 'DEPTH_MAX 31u'), ('DATA_BYTES_MAX 7490u', 'DATA_BYTES_MAX 7488u'),
    ('EMITTER_STORE_BYTES_MAX 116064u', 'EMITTER_STORE_BYTES_MAX 116126u'),
    ('RECEIVER_STORE_BYTES_MAX 116126u', 'RECEIVER_STORE_BYTES_MAX 116064u'), ('+ rest * rest - rest;', '+ rest * rest;'),
    ('groups * depth * (depth - 1)', 'groups * depth * depth'), ('cells % depth;', '0;'),
    ('(size_t)2 * cells * (depth - 1) - headend', '(size_t)2 * cells * depth - headend'),
    ('(uint32_t)answer[at + 1] << 16', '(uint32_t)answer[at + 1] << 8'), ('(uint32_t)cells[2 * i] << 8', '(uint32_t)cells[i] << 8'),
    ('cells[2 * i + 1] = (uint8_t)(cell & 0xFFu)', 'cells[2 * i + 1] = (uint8_t)(cell & 0x7Fu)'),
    ('cell >> 8 & 0xFFu', 'cell >> 9 & 0xFFu'), ('headend_cell(plan, 2)', 'headend_cell(plan, 3)'),
    ('headend_cell(plan, 3)', 'headend_cell(plan, 2)'), ('return HEADEND_CELL_PLC', 'return HEADEND_CELL_EXCLUDED'),
    ('default: return HEADEND_CELL_FILLER', 'default: return HEADEND_CELL_SCATTERED'),
    ('headend_lowest_plc(plan) - 8u', 'headend_lowest_plc(plan)'), ('    return HEADEND_PHASES;', '    return 0;'),
    ('WHY_EXCLUDED 1', 'WHY_EXCLUDED 0'), ('WHY_PLC 2', 'WHY_PLC 8'), ('WHY_PILOT_BELOW 3', 'WHY_PILOT_BELOW 8'),
    ('WHY_PILOT_ABOVE 4', 'WHY_PILOT_ABOVE 8'), ('WHY_PILOT_RECORD 5', 'WHY_PILOT_RECORD 8'),
    ('WHY_SCATTERED 6', 'WHY_SCATTERED 8'), ('WHY_DATA 7', 'WHY_DATA 8'),
    ('return HEADEND_EXCLUDED;', 'return HEADEND_PLC;'), ('return HEADEND_PLC;', 'return HEADEND_EXCLUDED;'),
    ('    case HEADEND_WHY_PILOT_BELOW:\n', ''), ('    case HEADEND_WHY_PILOT_ABOVE:\n', ''),
    ('PILOT_RECORD: return HEADEND_CONTINUOUS;', 'PILOT_RECORD: return HEADEND_SCATTERED;'),
    ('return HEADEND_SCATTERED;', 'return HEADEND_DATA;'), ('return HEADEND_DATA;', 'return HEADEND_SCATTERED;'),
    ('default: return 0u;', 'default: return value;'), ('default: return 0u;', 'default: return HEADEND_DATA;'),
)


def write_headers(folder):
    header = (ROOT / 'include' / 'headend.h').read_text()
    for i, (old, new) in enumerate(WRONG_HEADER):
        assert header.count(old) == 1, old
        (folder / ('header-%02d' % i)).mkdir(exist_ok=True)
        (folder / ('header-%02d' % i) / 'headend.h').write_text(header.replace(old, new))
    return len(WRONG_HEADER)


def write_programs(folder):
    plain = (ROOT / 'bench' / 'plain.c').read_text()
    for i, (old, new) in enumerate(WRONG):
        assert plain.count(old) == 1, old
        (folder / ('wrong-%02d.c' % i)).write_text(plain.replace(old, new))
    return len(WRONG)


def main():
    if len(sys.argv) != 2:
        sys.exit(__doc__)
    folder = Path(sys.argv[1])
    print('%d wrong expectations, %d wrong programs and %d wrong headers written'
          % (write_cases(folder), write_programs(folder), write_headers(folder)))


if __name__ == '__main__':
    main()
