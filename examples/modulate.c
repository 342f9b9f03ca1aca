/* What the modulator is given: judges a plan, emits M symbols filled from a bit stream under a load profile, fills a modulator symbol from
 * each with the loads of that profile, and says what stands on the line. Then shows a load that is refused. In the folder of the
 * repository:
 *
 *     bash tools/staticlib.sh
 *     gcc -O2 -Iinclude examples/modulate.c out/libheadend.a -o modulate
 *     ./modulate plans/plan-a.plan
 *
 * docs/MODULATOR.md has the layout of a modulator symbol. */
#include "headend.h"

#include <stdio.h>
#include <stdlib.h>
#include <string.h>

enum { START = 125, LEAST_LOAD = 6, LOADS = 9 }; /* loads 6 to 14 in turn, and one in ten subcarriers has load 0 */

struct plan {
    uint8_t bytes[HEADEND_PLAN_BYTES_MAX + 1]; /* one more than a plan may have, so that a longer file is refused */
    size_t len;
    uint32_t depth, cells; /* M and N_I */
};

struct emitter {
    uint32_t phase;
    uint8_t *store;
    size_t store_len;
};

/* A symbol on the line, the load of each subcarrier in the profile and as the modulator has it, its sign, and the modulator symbol. */
struct line {
    uint8_t symbol[HEADEND_SYMBOL_BYTES];
    uint8_t profile[HEADEND_PROFILE_BYTES];
    uint8_t loads[HEADEND_SUBCARRIERS];
    uint8_t minus[HEADEND_SUBCARRIERS];
    float numbers[HEADEND_NUMBERS];
};

static void must(const char *call, uint32_t refused, const uint8_t *answer)
{
    if (refused == HEADEND_ACCEPTED)
        return;
    fprintf(stderr, "%s: refused by %u at %u\n", call, (unsigned)refused, (unsigned)headend_number(answer, HEADEND_PLACE));
    exit(1);
}

static void read_plan(struct plan *p, const char *path)
{
    uint8_t answer[HEADEND_ANSWER_BYTES];
    FILE *f = fopen(path, "rb");
    if (f == NULL) {
        perror(path);
        exit(1);
    }
    p->len = fread(p->bytes, 1, sizeof p->bytes, f);
    fclose(f);
    must("judge", headend_judge(p->bytes, p->len, answer, sizeof answer), answer);
    p->cells = headend_number(answer, HEADEND_VALUE);
    p->depth = headend_depth(p->bytes);
}

static void start(const struct plan *p, struct emitter *e)
{
    uint8_t answer[HEADEND_ANSWER_BYTES];
    e->store_len = headend_emitter_store_bytes(p->cells, p->depth);
    e->store = malloc(e->store_len);
    if (e->store == NULL && e->store_len > 0) {
        perror("store");
        exit(1);
    }
    must("fresh_emitter", headend_fresh_emitter(p->bytes, p->len, START, e->store, e->store_len, answer, sizeof answer), answer);
    e->phase = headend_number(answer, HEADEND_PHASE);
}

/* A load for each subcarrier, and the minus sign for the pilots of those with an odd number. The modulator is given load 1 where the
 * profile has load 0. */
static void make_loads(struct line *l)
{
    for (uint32_t k = 0; k < HEADEND_SUBCARRIERS; k++) {
        l->profile[k] = (uint8_t)(k % 10 == 9 ? 0 : LEAST_LOAD + k % LOADS);
        l->loads[k] = (uint8_t)headend_point_load(l->profile[k]);
        l->minus[k] = (uint8_t)(k % 2);
    }
}

/* Emits symbol t, filled from a stream of its own. */
static void emit(const struct plan *p, struct emitter *e, struct line *l, uint32_t t)
{
    uint8_t answer[HEADEND_ANSWER_BYTES], data[HEADEND_DATA_BYTES_MAX], stream[HEADEND_DATA_BYTES_MAX];
    must("data_count", headend_data_count(p->bytes, p->len, e->phase, answer, sizeof answer), answer);
    size_t data_len = (size_t)2 * headend_number(answer, HEADEND_VALUE);
    for (uint32_t i = 0; i < sizeof stream; i++)
        stream[i] = (uint8_t)(t * 77 + i * i * 31 + i / 3);
    must("fill",
         headend_fill(p->bytes, p->len, l->profile, sizeof l->profile, e->phase, stream, sizeof stream, 0, data, data_len, answer,
                      sizeof answer),
         answer);
    must("emit",
         headend_emit(p->bytes, p->len, l->profile, sizeof l->profile, e->phase, e->store, e->store_len, data, data_len, l->symbol,
                      sizeof l->symbol, answer, sizeof answer),
         answer);
    e->phase = headend_number(answer, HEADEND_PHASE);
}

static uint32_t modulate(struct line *l, uint8_t *answer)
{
    return headend_modulate(l->symbol, sizeof l->symbol, l->loads, sizeof l->loads, l->minus, sizeof l->minus, l->numbers, HEADEND_NUMBERS,
                            answer, HEADEND_ANSWER_BYTES);
}

/* What stands on the line: how many subcarriers of each kind. The answer is the lowest with a point; 0 if none has one. */
static uint32_t show(const struct line *l, uint32_t phase)
{
    uint32_t silent = 0, open = 0, plus = 0, minus = 0, points = 0, first = 0;
    for (uint32_t k = 0; k < HEADEND_SUBCARRIERS; k++)
        switch (headend_cell(l->symbol, k)) {
        case HEADEND_CELL_FILLER:
        case HEADEND_CELL_EXCLUDED: silent++; break;
        case HEADEND_CELL_PLC: open++; break;
        case HEADEND_CELL_SCATTERED:
        case HEADEND_CELL_CONTINUOUS: *(l->numbers[2 * k] < 0 ? &minus : &plus) += 1; break;
        default:
            first = points++ == 0 ? k : first;
        }
    printf("phase %u: %u silent, %u open, %u pilots plus and %u minus, %u points\n", (unsigned)phase, (unsigned)silent, (unsigned)open,
           (unsigned)plus, (unsigned)minus, (unsigned)points);
    return first;
}

/* A refusal tells the subcarrier, and leaves the modulator symbol as it is. */
static void show_refusal(struct line *l, uint32_t k)
{
    uint8_t answer[HEADEND_ANSWER_BYTES];
    static float before[HEADEND_NUMBERS];
    memcpy(before, l->numbers, sizeof before);
    l->loads[k] = 5;
    uint32_t refused = modulate(l, answer);
    printf("load 5: refused by %u at %u, subcarrier %u\n", (unsigned)refused, (unsigned)headend_number(answer, HEADEND_PLACE),
           (unsigned)headend_number(answer, HEADEND_VALUE));
    if (refused != HEADEND_REFUSED_LOAD || memcmp(before, l->numbers, sizeof before) != 0)
        exit(1);
}

int main(int argc, char **argv)
{
    static struct plan plan;
    static struct emitter emitter;
    static struct line line;
    uint8_t answer[HEADEND_ANSWER_BYTES];
    uint32_t first = 0;
    if (argc != 2) {
        fprintf(stderr, "usage: modulate PLAN\n");
        return 2;
    }
    read_plan(&plan, argv[1]);
    start(&plan, &emitter);
    make_loads(&line);
    for (uint32_t t = 0; t < plan.depth; t++) {
        uint32_t phase = emitter.phase;
        emit(&plan, &emitter, &line, t);
        must("modulate", modulate(&line, answer), answer);
        first = show(&line, phase);
    }
    printf("subcarrier %u, load %u, value %u: %.9g %.9g\n", (unsigned)first, line.loads[first],
           (unsigned)headend_cell(line.symbol, first), (double)line.numbers[2 * first], (double)line.numbers[2 * first + 1]);
    show_refusal(&line, first);
    free(emitter.store);
    return 0;
}
