/* The pilot lamp: lists the continuous pilots of a plan, emits symbols, and lets a lamp hear each of them. In one symbol the cell of a
 * pilot is damaged on the way: that pilot goes dark, and is lit again 128 symbols later. In the folder of the repository:
 *
 *     bash tools/staticlib.sh
 *     gcc -O2 -Iinclude examples/lamp.c out/libheadend.a -o lamp
 *     ./lamp plans/plan-a.plan
 *
 * A real lamp hears the symbols that come over the line, sound or not: it refuses no cell, and needs neither phase nor profile. Ends with 0
 * if the lights were what they should be. docs/C-HOST.md, "The pilot lamp", tells the rest. */
#include "headend.h"

#include <stdio.h>
#include <stdlib.h>
#include <string.h>

enum { START = 125, DAMAGED = 10, SYMBOLS = 150 }; /* a phase, the number of the symbol that is damaged, and how many are sent */

struct plan {
    uint8_t bytes[HEADEND_PLAN_BYTES_MAX + 1]; /* one more than a plan may have, so that a longer file is refused */
    size_t len;
    uint32_t depth, cells; /* M and N_I */
    uint8_t profile[HEADEND_PROFILE_BYTES]; /* load 14 everywhere: a data cell is 0 to HEADEND_CELL_DATA_MAX */
};

struct emitter {
    uint32_t phase;
    uint8_t *store;
    size_t store_len;
};

/* The pilots of a plan, and the lamp that watches them. The record is the lamp's own: it goes from call to call as the call left it. */
struct lamp {
    uint32_t pilots;
    uint8_t list[HEADEND_PILOTS_BYTES];
    uint8_t record[HEADEND_LAMP_RECORD_BYTES_MAX];
    size_t record_len;
    uint8_t lights[HEADEND_LIGHTS_BYTES];
};

static void must(const char *call, uint32_t refused, const uint8_t *answer)
{
    if (refused == HEADEND_ACCEPTED)
        return;
    fprintf(stderr, "%s: refused by %u at %u\n", call, (unsigned)refused, (unsigned)headend_number(answer, HEADEND_PLACE));
    exit(1);
}

static void read_plan(struct plan *p, const char *path)
{
    uint8_t answer[HEADEND_ANSWER_BYTES];
    FILE *f = fopen(path, "rb");
    if (f == NULL) {
        perror(path);
        exit(1);
    }
    p->len = fread(p->bytes, 1, sizeof p->bytes, f);
    fclose(f);
    must("judge", headend_judge(p->bytes, p->len, answer, sizeof answer), answer);
    p->cells = headend_number(answer, HEADEND_VALUE);
    p->depth = headend_depth(p->bytes);
    memset(p->profile, 14, sizeof p->profile);
}

/* --- the line --- */

static void start(const struct plan *p, struct emitter *e)
{
    uint8_t answer[HEADEND_ANSWER_BYTES];
    e->store_len = headend_emitter_store_bytes(p->cells, p->depth);
    e->store = malloc(e->store_len);
    if (e->store == NULL && e->store_len > 0) {
        perror("store");
        exit(1);
    }
    must("fresh_emitter", headend_fresh_emitter(p->bytes, p->len, START, e->store, e->store_len, answer, sizeof answer), answer);
    e->phase = headend_number(answer, HEADEND_PHASE);
}

/* Emits a symbol of data. */
static void emit(const struct plan *p, struct emitter *e, uint8_t *symbol, uint8_t *answer)
{
    uint8_t data[HEADEND_DATA_BYTES_MAX];
    must("data_count", headend_data_count(p->bytes, p->len, e->phase, answer, HEADEND_ANSWER_BYTES), answer);
    uint32_t count = headend_number(answer, HEADEND_VALUE);
    for (uint32_t i = 0; i < count; i++)
        headend_put_cell(data, i, (e->phase * 4099 + i * 31) % (HEADEND_CELL_DATA_MAX + 1));
    must("emit",
         headend_emit(p->bytes, p->len, p->profile, sizeof p->profile, e->phase, e->store, e->store_len, data, (size_t)2 * count, symbol,
                      HEADEND_SYMBOL_BYTES, answer, HEADEND_ANSWER_BYTES),
         answer);
}

/* Sends symbol t; every third one is a flush. Both hold the marks of the pilots. */
static void send(const struct plan *p, struct emitter *e, uint32_t t, uint8_t *symbol)
{
    uint8_t answer[HEADEND_ANSWER_BYTES];
    if (t % 3 == 2)
        must("flush",
             headend_flush(p->bytes, p->len, e->phase, e->store, e->store_len, symbol, HEADEND_SYMBOL_BYTES, answer, sizeof answer),
             answer);
    else
        emit(p, e, symbol, answer);
    e->phase = headend_number(answer, HEADEND_PHASE);
}

/* --- the lamp --- */

/* Lists the pilots, and makes a fresh record: all 0. */
static void make_lamp(const struct plan *p, struct lamp *l)
{
    uint8_t answer[HEADEND_ANSWER_BYTES];
    must("pilots", headend_pilots(p->bytes, p->len, l->list, sizeof l->list, answer, sizeof answer), answer);
    l->pilots = headend_number(answer, HEADEND_VALUE);
    l->record_len = headend_lamp_record_bytes(l->pilots);
    memset(l->record, 0, sizeof l->record);
    printf("%u continuous pilots:", (unsigned)l->pilots);
    for (uint32_t i = 0; i < l->pilots; i++)
        printf(" %u", (unsigned)headend_cell(l->list, i));
    printf("\n");
}

static uint32_t hear(const struct plan *p, struct lamp *l, const uint8_t *symbol, size_t record_len, uint8_t *answer)
{
    return headend_lamp(p->bytes, p->len, symbol, HEADEND_SYMBOL_BYTES, l->record, record_len, l->lights, sizeof l->lights, answer,
                        HEADEND_ANSWER_BYTES);
}

/* A refusal leaves the record as it was: the host can mend what was wrong and let the lamp hear the same symbol. */
static void show_refusal(const struct plan *p, struct lamp *l, const uint8_t *symbol)
{
    uint8_t answer[HEADEND_ANSWER_BYTES], before[HEADEND_LAMP_RECORD_BYTES_MAX];
    memcpy(before, l->record, sizeof before);
    uint32_t refused = hear(p, l, symbol, l->record_len - 1, answer);
    printf("a record one byte short: refused by %u at %u\n", (unsigned)refused, (unsigned)headend_number(answer, HEADEND_PLACE));
    if (refused != HEADEND_REFUSED_LAMP_RECORD || memcmp(before, l->record, sizeof before) != 0)
        exit(1);
}

static void show_lights(const struct lamp *l, uint32_t t)
{
    int dark = 0;
    printf("symbol %u:", (unsigned)t);
    for (uint32_t i = 0; i < l->pilots; i++)
        if (l->lights[i] == 0)
            printf("%s %u", dark++ == 0 ? " dark" : "", (unsigned)headend_cell(l->list, i));
    printf("%s\n", dark == 0 ? " all lit" : "");
}

/* The lamp hears every symbol; where the lights change they are shown. Answers after how many symbols the pilot was dark. */
static uint32_t watch(const struct plan *p, struct emitter *e, struct lamp *l, uint32_t pilot)
{
    static uint8_t symbol[HEADEND_SYMBOL_BYTES];
    uint8_t answer[HEADEND_ANSWER_BYTES], before[HEADEND_LIGHTS_BYTES] = {0};
    uint32_t dark = 0;
    for (uint32_t t = 0; t < SYMBOLS; t++) {
        send(p, e, t, symbol);
        if (t == 0)
            show_refusal(p, l, symbol);
        if (t == DAMAGED)
            headend_put_cell(symbol, headend_cell(l->list, pilot), 0);
        must("lamp", hear(p, l, symbol, l->record_len, answer), answer);
        dark += l->lights[pilot] == 0;
        if (memcmp(before, l->lights, sizeof before) != 0)
            show_lights(l, t);
        memcpy(before, l->lights, sizeof before);
    }
    return dark;
}

int main(int argc, char **argv)
{
    static struct plan plan;
    static struct emitter emitter;
    static struct lamp lamp;
    if (argc != 2) {
        fprintf(stderr, "usage: lamp PLAN\n");
        return 2;
    }
    read_plan(&plan, argv[1]);
    printf("%s: accepted, N_I %u, depth %u\n", argv[1], (unsigned)plan.cells, (unsigned)plan.depth);
    make_lamp(&plan, &lamp);
    start(&plan, &emitter);
    uint32_t pilot = lamp.pilots / 2, dark = watch(&plan, &emitter, &lamp, pilot);
    printf("%d symbols heard: pilot %u, damaged in symbol %d, was dark after %u of them\n", SYMBOLS,
           (unsigned)headend_cell(lamp.list, pilot), DAMAGED, (unsigned)dark);
    free(emitter.store);
    return dark == HEADEND_LAMP_COUNT_MAX ? 0 : 1;
}
