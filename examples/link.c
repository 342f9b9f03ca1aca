/* A link from end to end: judges a plan, starts an emitter and a receiver, fills ten symbols from a bit stream, each as the load profile
 * says, sends and receives them, flushes until all is back, and takes the bits back into a second stream. In the folder of the repository:
 *
 *     bash tools/staticlib.sh
 *     gcc -O2 -Iinclude examples/link.c out/libheadend.a -o link
 *     ./link plans/plan-a.plan
 *
 * A real host puts a line, or a file, between send() and hear(), and numbers its symbols: examples/trunks.c. docs/C-HOST.md tells the
 * rest. */
#include "headend.h"

#include <stdio.h>
#include <stdlib.h>

enum { SYMBOLS = 10, START = 125, FIRST_BIT = 3 };

/* More bits than 14 for each data cell no symbol takes. */
enum { STREAM_BYTES = SYMBOLS * 7 * HEADEND_DATA_BYTES_MAX / 8 + 1 };

/* One end of the line: the state of its next step, and its store. An emitter has no use for heard. */
struct end {
    uint32_t phase, heard;
    uint8_t *store;
    size_t store_len;
};

struct plan {
    uint8_t bytes[HEADEND_PLAN_BYTES_MAX + 1]; /* one more than a plan may have, so that a longer file is refused */
    size_t len;
    uint32_t depth, cells; /* M and N_I */
    uint8_t profile[HEADEND_PROFILE_BYTES];
};

/* What is under way: the stream, the symbol on the line, and the stream that comes back. A symbol's bits start where the last one's
 * ended. */
struct traffic {
    uint8_t stream[STREAM_BYTES], back[STREAM_BYTES];
    size_t sent, returned; /* the bits at which the next symbol starts, in the one and in the other */
    uint8_t data[HEADEND_DATA_BYTES_MAX];
    uint8_t line[HEADEND_SYMBOL_BYTES];
    uint32_t symbols; /* of data that came back */
};

/* Ends the program if a call was refused. */
static void must(const char *call, uint32_t refused, const uint8_t *answer)
{
    if (refused == HEADEND_ACCEPTED)
        return;
    fprintf(stderr, "%s: refused by %u at %u\n", call, (unsigned)refused, (unsigned)headend_number(answer, HEADEND_PLACE));
    exit(1);
}

/* Takes the state of the next step from the answer. */
static void next_state(struct end *e, const uint8_t *answer)
{
    e->phase = headend_number(answer, HEADEND_PHASE);
    e->heard = headend_number(answer, HEADEND_HEARD);
}

static void read_plan(struct plan *p, const char *path)
{
    uint8_t answer[HEADEND_ANSWER_BYTES];
    FILE *f = fopen(path, "rb");
    if (f == NULL) {
        perror(path);
        exit(1);
    }
    p->len = fread(p->bytes, 1, sizeof p->bytes, f);
    fclose(f);
    must("judge", headend_judge(p->bytes, p->len, answer, sizeof answer), answer);
    p->cells = headend_number(answer, HEADEND_VALUE);
    p->depth = headend_depth(p->bytes);
    printf("%s: accepted, N_I %u, depth %u\n", path, (unsigned)p->cells, (unsigned)p->depth);
}

/* Some subcarriers are noisy: of eight in a row one carries no bits, one carries 4 and one 9; the others carry 14. */
static void make_profile(struct plan *p)
{
    static const uint8_t loads[8] = {14, 14, 0, 14, 4, 14, 9, 14};
    for (uint32_t k = 0; k < HEADEND_PROFILE_BYTES; k++)
        p->profile[k] = loads[k % 8];
}

static void make_stream(struct traffic *t)
{
    uint32_t x = 1;
    for (uint32_t i = 0; i < STREAM_BYTES; i++) {
        x = x * 1103515245u + 12345u;
        t->stream[i] = (uint8_t)(x >> 16);
    }
    t->sent = t->returned = FIRST_BIT;
}

/* Each end has a store of a length of its own; at depth 1 it has no bytes and may be NULL. */
static void make_store(struct end *e, size_t store_len)
{
    e->store_len = store_len;
    e->store = malloc(store_len);
    if (e->store == NULL && store_len > 0) {
        perror("store");
        exit(1);
    }
}

static void start(const struct plan *p, struct end *emitter, struct end *receiver)
{
    uint8_t answer[HEADEND_ANSWER_BYTES];
    make_store(emitter, headend_emitter_store_bytes(p->cells, p->depth));
    make_store(receiver, headend_receiver_store_bytes(p->cells, p->depth));
    must("fresh_emitter",
         headend_fresh_emitter(p->bytes, p->len, START, emitter->store, emitter->store_len, answer, sizeof answer), answer);
    next_state(emitter, answer);
    must("fresh_receiver",
         headend_fresh_receiver(p->bytes, p->len, START, receiver->store, receiver->store_len, answer, sizeof answer), answer);
    next_state(receiver, answer);
    printf("both ends started at phase %d, with stores of %zu and %zu bytes\n", START, emitter->store_len, receiver->store_len);
}

/* Fills the next data symbol: as many cells as the emitter takes at its phase. The answer is their length in bytes. */
static size_t fill(const struct plan *p, const struct end *e, struct traffic *t)
{
    uint8_t answer[HEADEND_ANSWER_BYTES];
    must("data_count", headend_data_count(p->bytes, p->len, e->phase, answer, sizeof answer), answer);
    size_t data_len = (size_t)2 * headend_number(answer, HEADEND_VALUE);
    must("fill",
         headend_fill(p->bytes, p->len, p->profile, sizeof p->profile, e->phase, t->stream, sizeof t->stream, t->sent, t->data, data_len,
                      answer, sizeof answer),
         answer);
    t->sent += headend_number(answer, HEADEND_VALUE);
    return data_len;
}

static uint32_t emit(const struct plan *p, struct end *e, struct traffic *t, size_t data_len, uint8_t *answer)
{
    return headend_emit(p->bytes, p->len, p->profile, sizeof p->profile, e->phase, e->store, e->store_len, t->data, data_len, t->line,
                        sizeof t->line, answer, HEADEND_ANSWER_BYTES);
}

static void send(const struct plan *p, struct end *e, struct traffic *t, uint32_t symbol)
{
    uint8_t answer[HEADEND_ANSWER_BYTES];
    if (symbol < SYMBOLS) {
        size_t data_len = fill(p, e, t);
        must("emit", emit(p, e, t, data_len, answer), answer);
    } else {
        must("flush",
             headend_flush(p->bytes, p->len, e->phase, e->store, e->store_len, t->line, sizeof t->line, answer, sizeof answer),
             answer);
    }
    next_state(e, answer);
}

/* Receives the symbol on the line. Data comes back in the order sent, the first of it after M - 1 symbols of warming: it is that of the
 * input symbol M - 1 phases before, and its bits go back at that phase. */
static void hear(const struct plan *p, struct end *e, struct traffic *t)
{
    uint8_t answer[HEADEND_ANSWER_BYTES];
    uint32_t sent_at = (e->phase + HEADEND_PHASES - (p->depth - 1)) % HEADEND_PHASES;
    must("receive",
         headend_receive(p->bytes, p->len, p->profile, sizeof p->profile, e->phase, e->heard, e->store, e->store_len, t->line,
                         sizeof t->line, t->data, sizeof t->data, answer, sizeof answer),
         answer);
    next_state(e, answer);
    size_t data_len = (size_t)2 * headend_number(answer, HEADEND_VALUE);
    if (data_len == 0)
        return; /* warming */
    must("unfill",
         headend_unfill(p->bytes, p->len, p->profile, sizeof p->profile, sent_at, t->data, data_len, t->returned, t->back, sizeof t->back,
                        answer, sizeof answer),
         answer);
    t->returned += headend_number(answer, HEADEND_VALUE);
    t->symbols++;
}

/* Whether the bits that were sent came back, and all other bits of that stream are still 0. */
static int same_bits(const struct traffic *t)
{
    for (size_t i = 0; i < (size_t)8 * STREAM_BYTES; i++) {
        unsigned sent = i >= FIRST_BIT && i < t->sent ? t->stream[i / 8] >> i % 8 & 1u : 0;
        if ((t->back[i / 8] >> i % 8 & 1u) != sent)
            return 0;
    }
    return t->sent == t->returned && t->symbols == SYMBOLS;
}

/* A refused call changes no store, symbol or data: the host can mend what was wrong and call again. */
static void show_refusal(const struct plan *p, struct end *e, struct traffic *t)
{
    uint8_t answer[HEADEND_ANSWER_BYTES];
    uint32_t refused = emit(p, e, t, 2, answer);
    printf("one cell of data alone: refused by %u at %u, the state still phase %u\n", (unsigned)refused,
           (unsigned)headend_number(answer, HEADEND_PLACE), (unsigned)headend_number(answer, HEADEND_PHASE));
    if (refused != HEADEND_REFUSED_DATA_COUNT)
        exit(1);
}

int main(int argc, char **argv)
{
    static struct plan plan;
    static struct traffic traffic;
    static struct end emitter, receiver;
    if (argc != 2) {
        fprintf(stderr, "usage: link PLAN\n");
        return 2;
    }
    read_plan(&plan, argv[1]);
    make_profile(&plan);
    make_stream(&traffic);
    start(&plan, &emitter, &receiver);
    show_refusal(&plan, &emitter, &traffic);
    for (uint32_t symbol = 0; symbol < SYMBOLS + plan.depth - 1; symbol++) {
        send(&plan, &emitter, &traffic, symbol);
        hear(&plan, &receiver, &traffic);
    }
    int same = same_bits(&traffic);
    printf("sent %d symbols of data and %u flushes: %zu bits from bit %d on, %s\n", SYMBOLS, (unsigned)plan.depth - 1,
           traffic.sent - FIRST_BIT, FIRST_BIT, same ? "came back as sent" : "came back otherwise than they were sent");
    free(emitter.store);
    free(receiver.store);
    return same ? 0 : 1;
}
