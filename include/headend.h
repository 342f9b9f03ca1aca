/* The head end's symbol path for a C host: libheadend.a, built by tools/staticlib.sh, for x86-64. docs/C-HOST.md tells more.
 *
 * Every call returns the number of the ground that refuses it, 0 if none, and writes the rest of its answer into the first
 * HEADEND_ANSWER_BYTES bytes of `answer`, four numbers of four bytes each, high byte first (HEADEND_PLACE and so on say where).
 * A refused call writes its answer and changes no store, symbol, data, stream, lamp's record, list of pilots, lights or modulator symbol.
 * Its answer gives the state back as it was passed in (0 where none was passed). With a shorter `answer` a call returns 21 and writes
 * nothing.
 *
 * A cell is two bytes, high byte first. A plan and each buffer pass as a pointer and a length in bytes, a modulator symbol as a pointer
 * and a number of floats. What is relied on: each pointer is good for the length passed with it (with length 0 it may be NULL), and a
 * buffer that a call writes overlaps no other; of headend_modulate besides that floats are aligned and rounded to nearest, as C has them
 * from the start. Nothing else: any bytes and any numbers may be passed. No call keeps a pointer, allocates, blocks or uses a global, so
 * calls on different buffers may run at the same time. A call needs up to HEADEND_STACK_BYTES of stack: that is measured, and no part of
 * the proof.
 */
#ifndef HEADEND_H
#define HEADEND_H

#include <stddef.h>
#include <stdint.h>

#ifdef __cplusplus
extern "C" {
#endif

/* Grows by one whenever a call takes, answers or writes something else for the same bytes, or a name below has another value or goes;
 * from 5 on also when a call is added. A name or a helper that is added does not count. 1 was the interface as it came, 2 counts the
 * widths, 3 keeps one cell in a store for each symbol of delay and has no row, 4 gives headend_emit and headend_receive a load profile
 * after the plan, and has headend_fill and headend_unfill, 5 has headend_pilots and headend_lamp; all other calls are as in 4. Headers
 * from before this name are of 1 or of 2. */
#define HEADEND_VERSION 5

/* The number that a call returns is not to be ignored: gcc and clang warn. */
#ifdef __GNUC__
#define HEADEND_NOT_IGNORED __attribute__((warn_unused_result))
#else
#define HEADEND_NOT_IGNORED
#endif

/* The answer buffer: its least length, and where each number of four bytes begins. What a call does not give is 0. */
#define HEADEND_ANSWER_BYTES 16
#define HEADEND_PLACE 0  /* the place of a refusal; of headend_why else a record or a distance */
#define HEADEND_PHASE 4  /* the state of the next step: phase (of headend_why that of a scattered pilot), */
#define HEADEND_HEARD 8  /* and of a receiver the symbols heard, up to M - 1 */
#define HEADEND_VALUE 12 /* N_I, N_D, the number of data cells handed out, of bits or of pilots, a role, of headend_why a role with its
                            reason, or the subcarrier of a refusal by 22 or 23 */

/* The roles of a subcarrier, in the order in which the first that applies is taken. */
#define HEADEND_EXCLUDED 1
#define HEADEND_PLC 2
#define HEADEND_CONTINUOUS 3
#define HEADEND_SCATTERED 4
#define HEADEND_DATA 5

/* What a subcarrier is doing and why, the value of headend_why: each is a role with its reason, and headend_why_role gives the role. */
#define HEADEND_WHY_EXCLUDED 1     /* excluded; place: the record that excludes it, the first such on the chain */
#define HEADEND_WHY_PLC 2          /* PLC; place: record 0 */
#define HEADEND_WHY_PILOT_BELOW 3  /* continuous, predefined; place: the distance below L */
#define HEADEND_WHY_PILOT_ABOVE 4  /* continuous, predefined; place: the distance above L + 7, the last PLC subcarrier */
#define HEADEND_WHY_PILOT_RECORD 5 /* continuous; place: the record that makes it a pilot, the first such on the chain */
#define HEADEND_WHY_SCATTERED 6    /* scattered; phase: the one that was passed, and the only one at which it is */
#define HEADEND_WHY_DATA 7         /* data; phase: the one phase at which a scattered pilot stands there, never the one that was passed */

/* What a cell may hold: data from 0 to the limit of its subcarrier's load, with load 14 HEADEND_CELL_DATA_MAX, or a mark. */
#define HEADEND_CELL_DATA_MAX 16383u
#define HEADEND_CELL_SCATTERED 0x8000u  /* the place of a scattered pilot */
#define HEADEND_CELL_FILLER 0x8001u     /* no data: of a flush or a fresh start */
#define HEADEND_CELL_EXCLUDED 0x8002u
#define HEADEND_CELL_CONTINUOUS 0x8003u
#define HEADEND_CELL_PLC 0x8004u

#define HEADEND_SUBCARRIERS 4096u    /* 0 to 4095 */
#define HEADEND_PHASES 128u          /* 0 to 127 */
#define HEADEND_DEPTH_MAX 32u        /* M is 1 to 32 */
#define HEADEND_PLAN_BYTES_MAX 4096u /* a plan: 8 bytes a record, up to 512 records */
#define HEADEND_SYMBOL_BYTES 8192u   /* a symbol: 4,096 cells */
#define HEADEND_NUMBERS 8192u        /* a modulator symbol: two floats for each subcarrier */
#define HEADEND_DATA_BYTES_MAX 7490u /* more data cells than N_I no symbol has */
#define HEADEND_PROFILE_BYTES 4096u  /* a load profile: one load for each subcarrier, 0, 4 or 6 to 14 */
#define HEADEND_PILOTS 128u          /* the most continuous pilots that an accepted plan has: 8 and 120 */
#define HEADEND_PILOTS_BYTES 256u    /* a list of pilots: two bytes each, high byte first */
#define HEADEND_LIGHTS_BYTES 128u    /* the lights of a lamp: one for each pilot */
#define HEADEND_STACK_BYTES 131072u  /* some 65,000 were measured */

/* The largest number that a record can hold; headend_try refuses a larger one by 4. */
#define HEADEND_RECORD_NUMBER_MAX 65535u

/* The record of a pilot lamp: n + 1 counts, a byte each, for the n continuous pilots of a plan: 9 bytes and one for each kind 3 record on
 * the chain. A fresh one is all 0. headend_lamp_record_bytes gives the bytes. No count is above HEADEND_LAMP_COUNT_MAX. */
#define HEADEND_LAMP_RECORD_BYTES_MAX 129u
#define HEADEND_LAMP_COUNT_MAX 128u

/* The largest stores, those of N_I 3745 and M 32: 58,032 and 58,063 cells. A plan needs E cells for an emitter's store, the sum of p mod M
 * over the N_I cells p: E = (N_I / M) * (M * (M - 1) / 2) + r * (r - 1) / 2, where r = N_I mod M and N_I / M is rounded down; and
 * N_I * (M - 1) - E cells for a receiver's, the sum of M - 1 - (p mod M). headend_emitter_store_bytes and headend_receiver_store_bytes
 * give the bytes. */
#define HEADEND_EMITTER_STORE_BYTES_MAX 116064u
#define HEADEND_RECEIVER_STORE_BYTES_MAX 116126u

/* What a call returns: 0, or the ground that refuses it, in the words of the rules, with its place in brackets, 0 where none is named.
 * A call tries 21, then 1 to 15, along the chain 2 to 5 for each record before the next is read, then 25, then those of 16 to 20 that speak
 * of what it is given, and refuses by the first that holds. headend_fill tries 21, 1 to 15, 25, 16, 18 and 26, headend_unfill after them
 * 19; neither tries 17. headend_try tries 21, then 1 to 5 of the plan, then 1 to 15 of its copy with one more range. headend_lamp tries 21,
 * 1 to 15, 28 and 17. headend_modulate, which is given no plan, tries 21, then 17, then 22 and 23 of each subcarrier before the next. 9 to
 * 12 count: the width of a band a to b is b - a + 1, the span is the highest active subcarrier less the lowest, plus one. */
#define HEADEND_ACCEPTED 0u
/* The plan's length is below 8, above 4,096 or not a multiple of 8. */
#define HEADEND_REFUSED_PLAN_LENGTH 1u
/* The kind is not 1 to 3, record 0 is not kind 1, a later one is, byte 1 is not zero, or a kind 3 second number is not zero (record). */
#define HEADEND_REFUSED_RECORD_KIND 2u
/* The next index is nonzero and not above the record's own, or not below the number of records (record). */
#define HEADEND_REFUSED_NEXT_INDEX 3u
/* L is outside 204 to 3885, M outside 1 to 32, a pilot or range end above 4095, or a range begins above its end (record). */
#define HEADEND_REFUSED_RECORD_NUMBERS 4u
/* This is the 121st kind 3 record (record). */
#define HEADEND_REFUSED_PILOT_COUNT 5u
/* A subcarrier below 148 or above 3948 is active (lowest). */
#define HEADEND_REFUSED_ACTIVE_OUTSIDE 6u
/* A subcarrier of L - 56 to L + 63 is excluded (lowest). */
#define HEADEND_REFUSED_EXCLUDED_AROUND_PLC 7u
/* A kind 3 pilot is excluded, in the PLC, predefined, or named earlier on the chain (record, first on the chain). */
#define HEADEND_REFUSED_PILOT_TAKEN 8u
/* A band is narrower than 40 (its lowest subcarrier, lowest band). */
#define HEADEND_REFUSED_NARROW_BAND 9u
/* No band has width 440 or more. */
#define HEADEND_REFUSED_NO_WIDE_BAND 10u
/* Five times the excluded subcarriers between lowest and highest active exceeds the span. */
#define HEADEND_REFUSED_EXCLUDED_IN_SPAN 11u
/* Twenty times a band's individually excluded exceeds its width (its lowest subcarrier, lowest band). */
#define HEADEND_REFUSED_EXCLUDED_IN_BAND 12u
/* A window of 120 has more than 6 excluded (lowest window's first subcarrier). */
#define HEADEND_REFUSED_WINDOW_OF_120 13u
/* A window of 20 has more than 4 excluded (lowest window's first subcarrier). */
#define HEADEND_REFUSED_WINDOW_OF_20 14u
/* N_I exceeds 3745. */
#define HEADEND_REFUSED_RANKS 15u
/* A phase, heard or subcarrier given is out of its range. */
#define HEADEND_REFUSED_OUT_OF_RANGE 16u
/* An emitter's store is shorter than the sum of p mod M over the N_I cells p, a receiver's than that of M - 1 - (p mod M), a symbol is
 * not 4,096 cells, a modulate is not given 4,096 loads, 4,096 signs and 8,192 numbers, or, where the answer would not be warming, the data
 * buffer is shorter than the count. */
#define HEADEND_REFUSED_BUFFER_LENGTH 17u
/* Other than N_D data cells are given: to the emitter, to be filled or for the way back. */
#define HEADEND_REFUSED_DATA_COUNT 18u
/* A data cell exceeds the limit of the load of the subcarrier it is emitted on, 2 to the load less 1, with load 0 it is 1 (its position,
 * lowest). */
#define HEADEND_REFUSED_DATA_CELL 19u
/* An arriving cell isn't its role's mark, or for a data role neither data up to the limit of its load nor filler (subcarrier, lowest). */
#define HEADEND_REFUSED_ARRIVING_CELL 20u
/* A cell buffer of odd length, too short an answer buffer, or one for pilots or lights that is too short. */
#define HEADEND_REFUSED_BUFFER_BYTES 21u
/* A load is not listed: 1, 2, 4 and 6 to 14 are (the load, of the lowest subcarrier that 22 or 23 refuses). */
#define HEADEND_REFUSED_LOAD 22u
/* An unmarked cell is not below 2 to the load (its value, of the lowest subcarrier that 22 or 23 refuses). */
#define HEADEND_REFUSED_VALUE 23u
/* A profile is not 4,096 bytes, or else a load of it is not listed: 0, 4 and 6 to 14 are (0, or else the lowest such subcarrier). */
#define HEADEND_REFUSED_PROFILE 25u
/* Fewer bits remain in the stream from the start on than the loads of the symbol's data cells add up to; a start past the end leaves
 * none. */
#define HEADEND_REFUSED_STREAM 26u
/* A lamp's record has other than one byte and one for each continuous pilot, or a count of it is above 128 or above its first. */
#define HEADEND_REFUSED_LAMP_RECORD 28u

/* Judges a plan. Value: N_I. Refuses by 1 to 15 and 21. */
HEADEND_NOT_IGNORED
uint32_t headend_judge(const uint8_t *plan, size_t plan_len, uint8_t *answer, size_t answer_len);

/* What one more excluded range, `first` to `last`, would do to a plan, before anybody touches it: the verdict on a copy of the plan in
 * which the last chain record points at a new last record, of kind 2, with that range and next index zero. Value: N_I of the copy. A plan
 * that 1 to 5 refuse gives that refusal; else the copy's verdict is given, 1 included: a plan of 4,096 bytes has a copy of 4,104 and gives
 * 1, whatever the range. A plan that 6 to 15 refuse is tried all the same: the range may mend it. A range that ends above 4095 or begins
 * above its end is refused by 4 at the new record, whose index is the number of records of the plan, and so is a number above
 * HEADEND_RECORD_NUMBER_MAX, which no record can hold. Nothing but the answer is written. Refuses by 1 to 15 and 21. */
HEADEND_NOT_IGNORED
uint32_t headend_try(const uint8_t *plan, size_t plan_len, uint32_t first, uint32_t last, uint8_t *answer, size_t answer_len);

/* The role of a subcarrier at a phase. Value: the role. Refuses by 1 to 16 and 21. */
HEADEND_NOT_IGNORED
uint32_t headend_role(const uint8_t *plan, size_t plan_len, uint32_t subcarrier, uint32_t phase, uint8_t *answer, size_t answer_len);

/* What a subcarrier is doing at a phase, and why. Value: one of HEADEND_WHY_EXCLUDED to HEADEND_WHY_DATA, a role with its reason; place or
 * phase: the record, the distance or the phase that is the reason. The role is the one that headend_role gives. Refuses by 1 to 16 and
 * 21, as headend_role does. */
HEADEND_NOT_IGNORED
uint32_t headend_why(const uint8_t *plan, size_t plan_len, uint32_t subcarrier, uint32_t phase, uint8_t *answer, size_t answer_len);

/* How many data cells an input symbol at a phase has: so many an emit at that phase takes. Value: N_D, at least 1. It is not the number of
 * data cells of the symbol emitted at that phase: the placeholders of one input symbol belong to M emitted ones. Refuses by 1 to 16 and
 * 21. */
HEADEND_NOT_IGNORED
uint32_t headend_data_count(const uint8_t *plan, size_t plan_len, uint32_t phase, uint8_t *answer, size_t answer_len);

/* The continuous pilots of a plan, predefined ones and those of kind 3 alike: writes their subcarriers in rising order to `pilots`, two
 * bytes each, high byte first (headend_cell reads one), and zeros up to HEADEND_PILOTS_BYTES. Value: how many there are, 8 and one for each
 * kind 3 record on the chain. Bytes of `pilots` past 256 are untouched. Refuses by 1 to 15 and 21. */
HEADEND_NOT_IGNORED
uint32_t headend_pilots(const uint8_t *plan, size_t plan_len, uint8_t *pilots, size_t pilots_len, uint8_t *answer, size_t answer_len);

/* Fills a store as a fresh emitter's whose first step is at `phase`. Phase: the state of that step. Bytes of the store past
 * headend_emitter_store_bytes are untouched. Refuses by 1 to 17 and 21. */
HEADEND_NOT_IGNORED
uint32_t headend_fresh_emitter(const uint8_t *plan, size_t plan_len, uint32_t phase, uint8_t *store, size_t store_len,
                               uint8_t *answer, size_t answer_len);

/* Fills a store as a fresh receiver's whose first symbol comes at `phase`. Phase and heard: the state of that step. Bytes of the store
 * past headend_receiver_store_bytes are untouched. Refuses by 1 to 17 and 21. */
HEADEND_NOT_IGNORED
uint32_t headend_fresh_receiver(const uint8_t *plan, size_t plan_len, uint32_t phase, uint8_t *store, size_t store_len,
                                uint8_t *answer, size_t answer_len);

/* Emits one symbol: takes N_D data cells, writes the symbol on the line, and the store. Phase: the next state. `profile` has 4,096 bytes,
 * one load for each subcarrier, 0, 4 or 6 to 14, excluded ones too. A data cell is below 2 to the load of the subcarrier it is emitted on,
 * with load 0 it is 0 or 1. `data` is the whole input symbol and `symbol` exactly 8,192 bytes. Refuses by 1 to 19, 21 and 25. */
HEADEND_NOT_IGNORED
uint32_t headend_emit(const uint8_t *plan, size_t plan_len, const uint8_t *profile, size_t profile_len, uint32_t phase, uint8_t *store,
                      size_t store_len, const uint8_t *data, size_t data_len, uint8_t *symbol, size_t symbol_len, uint8_t *answer,
                      size_t answer_len);

/* Emits one symbol of filler; it is given no profile. M - 1 flushes after the last data push all of it out. Refuses by 1 to 17 and 21. */
HEADEND_NOT_IGNORED
uint32_t headend_flush(const uint8_t *plan, size_t plan_len, uint32_t phase, uint8_t *store, size_t store_len, uint8_t *symbol,
                       size_t symbol_len, uint8_t *answer, size_t answer_len);

/* Receives one symbol, under the profile with which it was emitted. Value: how many cells of data (or filler) were written to the start
 * of `data`, 0 only while warming, the first M - 1 symbols after a fresh start; bytes past them are untouched. Phase and heard: the next
 * state. Refuses by 1 to 17, 20, 21 and 25. A symbol refused by 20 counts as lost unless it is mended and received after all
 * (docs/C-HOST.md, "After a refusal"). */
HEADEND_NOT_IGNORED
uint32_t headend_receive(const uint8_t *plan, size_t plan_len, const uint8_t *profile, size_t profile_len, uint32_t phase, uint32_t heard,
                         uint8_t *store, size_t store_len, const uint8_t *symbol, size_t symbol_len, uint8_t *data, size_t data_len,
                         uint8_t *answer, size_t answer_len);

/* Fills the data of an input symbol at a phase, exactly N_D cells, from the bits of a stream, from bit `start` on: each data cell takes as
 * many bits as its load, the first the least significant of the cell; bit 8i + o of the stream is bit o of byte i, o = 0 the least
 * significant. A cell with load 0 takes none and is 0. Value: how many bits the symbol takes; the next one starts at `start` plus that.
 * The stream is no cell buffer and has any length; any start may be passed. Refuses by 1 to 16, 18, 21, 25 and 26. */
HEADEND_NOT_IGNORED
uint32_t headend_fill(const uint8_t *plan, size_t plan_len, const uint8_t *profile, size_t profile_len, uint32_t phase,
                      const uint8_t *stream, size_t stream_len, size_t start, uint8_t *data, size_t data_len, uint8_t *answer,
                      size_t answer_len);

/* The way back: writes the bits of the N_D data cells of an input symbol at a phase into a stream, from bit `start` on, and leaves its
 * other bits as they are. A cell with load 0 gives none. Value: how many bits were written. Data that was handed out for a flush, all
 * filler, is refused by 19 at 0 (where enough bits remain). Refuses by 1 to 16, 18, 19, 21, 25 and 26. */
HEADEND_NOT_IGNORED
uint32_t headend_unfill(const uint8_t *plan, size_t plan_len, const uint8_t *profile, size_t profile_len, uint32_t phase,
                        const uint8_t *data, size_t data_len, size_t start, uint8_t *stream, size_t stream_len, uint8_t *answer,
                        size_t answer_len);

/* The pilot lamp hears one symbol: brings `record` up to date and tells which continuous pilots are lit. A pilot is lit if its cell held
 * HEADEND_CELL_CONTINUOUS in each of the last 128 symbols heard, or in all while there are fewer. No cell is refused. `record` is the
 * lamp's own: 9 bytes and one for each kind 3 record on the chain, a fresh one all 0. It counts the symbols heard, then for each pilot, in
 * rising order, how many in a row up to the latest held the mark, each up to 128. It is for one plan, and nobody else writes it: another
 * plan needs a fresh one. The first HEADEND_LIGHTS_BYTES bytes of `lights` are 1 for a lit pilot and 0 for a dark one, in the order of
 * headend_pilots, 0 past the last; bytes past 128 are untouched. The lights count only where the call returned 0. Value: how many pilots
 * there are. `symbol` is exactly 8,192 bytes. Refuses by 1 to 15, 17, 21 and 28. */
HEADEND_NOT_IGNORED
uint32_t headend_lamp(const uint8_t *plan, size_t plan_len, const uint8_t *symbol, size_t symbol_len, uint8_t *record, size_t record_len,
                      uint8_t *lights, size_t lights_len, uint8_t *answer, size_t answer_len);

/* Fills a modulator symbol from a symbol on the line, as headend_emit or headend_flush leaves it: two floats for each subcarrier, first
 * coordinate first. `loads` has a byte for each subcarrier, 1, 2, 4 or 6 to 14, pilots and silent ones too (headend_point_load makes one
 * of a profile's load); `minus` a byte for the sign of each one's pilot, 0 for plus, any other for minus. `numbers_count` counts floats.
 * Filler and excluded give 0 and 0, a pilot 2 or -2 and 0, data the scaled point of its value; the two floats of a PLC subcarrier are left
 * as they are. Value: at a refusal by 22 or 23 the subcarrier. Refuses by 17 and 21 to 23. docs/MODULATOR.md tells more. */
HEADEND_NOT_IGNORED
uint32_t headend_modulate(const uint8_t *symbol, size_t symbol_len, const uint8_t *loads, size_t loads_len, const uint8_t *minus,
                          size_t minus_len, float *numbers, size_t numbers_count, uint8_t *answer, size_t answer_len);

/* --- helpers: they are no part of the library and decide nothing --- */

/* A number of an answer, as in headend_number(answer, HEADEND_PHASE). */
static inline uint32_t headend_number(const uint8_t *answer, size_t at)
{
    return (uint32_t)answer[at] << 24 | (uint32_t)answer[at + 1] << 16 | (uint32_t)answer[at + 2] << 8 | (uint32_t)answer[at + 3];
}

/* Cell i of a store, a symbol or data; pilot i of a list of pilots. */
static inline uint32_t headend_cell(const uint8_t *cells, size_t i)
{
    return (uint32_t)cells[2 * i] << 8 | (uint32_t)cells[2 * i + 1];
}

/* Writes cell i: the sixteen low bits of the number. */
static inline void headend_put_cell(uint8_t *cells, size_t i, uint32_t cell)
{
    cells[2 * i] = (uint8_t)(cell >> 8 & 0xFFu);
    cells[2 * i + 1] = (uint8_t)(cell & 0xFFu);
}

/* L, the lowest PLC subcarrier of an accepted plan. */
static inline uint32_t headend_lowest_plc(const uint8_t *plan)
{
    return headend_cell(plan, 2);
}

/* M, the depth of an accepted plan. */
static inline uint32_t headend_depth(const uint8_t *plan)
{
    return headend_cell(plan, 3);
}

/* The load with which the modulator is given a cell whose load in the profile is this: a cell with load 0 is given with load 1. */
static inline uint32_t headend_point_load(uint32_t load)
{
    return load == 0u ? 1u : load;
}

/* The bytes that an emitter's store has at least, of an accepted plan with N_I `cells` and depth M: p mod M cells for each cell p. */
static inline size_t headend_emitter_store_bytes(uint32_t cells, uint32_t depth)
{
    size_t groups = cells / depth, rest = cells % depth;
    return groups * depth * (depth - 1) + rest * rest - rest;
}

/* The bytes that a receiver's store has at least: M - 1 - (p mod M) cells for each cell p. */
static inline size_t headend_receiver_store_bytes(uint32_t cells, uint32_t depth)
{
    return (size_t)2 * cells * (depth - 1) - headend_emitter_store_bytes(cells, depth);
}

/* The bytes that a lamp's record has, of a plan with so many continuous pilots, as headend_pilots counts them. */
static inline size_t headend_lamp_record_bytes(uint32_t pilots)
{
    return (size_t)pilots + 1;
}

/* The role of a value of headend_why, as headend_role gives it; 0 of any other number. */
static inline uint32_t headend_why_role(uint32_t value)
{
    switch (value) {
    case HEADEND_WHY_EXCLUDED: return HEADEND_EXCLUDED;
    case HEADEND_WHY_PLC: return HEADEND_PLC;
    case HEADEND_WHY_PILOT_BELOW:
    case HEADEND_WHY_PILOT_ABOVE:
    case HEADEND_WHY_PILOT_RECORD: return HEADEND_CONTINUOUS;
    case HEADEND_WHY_SCATTERED: return HEADEND_SCATTERED;
    case HEADEND_WHY_DATA: return HEADEND_DATA;
    default: return 0u;
    }
}

/* What ground 20 takes at a role: its mark, and for a data role filler. */
static inline uint32_t headend_mark(uint32_t role)
{
    switch (role) {
    case HEADEND_EXCLUDED: return HEADEND_CELL_EXCLUDED;
    case HEADEND_PLC: return HEADEND_CELL_PLC;
    case HEADEND_CONTINUOUS: return HEADEND_CELL_CONTINUOUS;
    case HEADEND_SCATTERED: return HEADEND_CELL_SCATTERED;
    default: return HEADEND_CELL_FILLER;
    }
}

/* The phase of a symbol of 8,192 bytes as it was emitted, by its lowest scattered placeholder: k is scattered at phase j if k - (L + 8) - j
 * is a multiple of 128. HEADEND_PHASES if it has none, as at a phase at which no subcarrier is scattered. */
static inline uint32_t headend_symbol_phase(const uint8_t *plan, const uint8_t *symbol)
{
    for (uint32_t k = 0; k < HEADEND_SUBCARRIERS; k++)
        if (headend_cell(symbol, k) == HEADEND_CELL_SCATTERED)
            return (k + HEADEND_SUBCARRIERS - headend_lowest_plc(plan) - 8u) % HEADEND_PHASES;
    return HEADEND_PHASES;
}

#ifdef __cplusplus
}
#endif

#endif
