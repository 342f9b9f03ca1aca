/* Sixteen trunks under one plan, each with an emitter, a line and a receiver of its own, started at phases that differ. On one trunk a
 * symbol is lost: the symbols are numbered, so the receiver sees the gap and starts afresh. On another a symbol comes with wrong cells: it
 * is mended until it is received. A third is started again at another phase. What comes back is compared with what was sent. In the
 * folder of the repository:
 *
 *     bash tools/staticlib.sh
 *     gcc -O2 -Iinclude examples/trunks.c out/libheadend.a -o trunks
 *     ./trunks plans/plan-a.plan
 *
 * Ends with 0 if all came back as it should. docs/C-HOST.md, "After a refusal" and "A lost symbol", tells why a host does so. */
#include "headend.h"

#include <stdio.h>
#include <stdlib.h>
#include <string.h>

enum { TRUNKS = 16, APART = 8 };                                       /* trunk i starts at phase APART * i */
enum { LOST_ON = 5, WRONG_ON = 10, AGAIN_ON = 12, AGAIN_AT = 99 };     /* trunks, and a phase */

struct plan {
    uint8_t bytes[HEADEND_PLAN_BYTES_MAX + 1]; /* one more than a plan may have, so that a longer file is refused */
    size_t len;
    uint32_t depth, cells;          /* M and N_I */
    uint32_t count[HEADEND_PHASES]; /* N_D at each phase, asked for once */
    uint8_t profile[HEADEND_PROFILE_BYTES]; /* load 14 everywhere, for all trunks: a data cell is 0 to HEADEND_CELL_DATA_MAX */
    uint32_t event;                 /* the number of the symbol that is lost, or comes with wrong cells */
    uint32_t symbols;               /* symbols of data that each trunk sends */
};

/* The state of the next step, and the store. An emitter has no use for heard. */
struct end {
    uint32_t phase, heard;
    uint8_t *store;
    size_t store_len;
};

/* What goes over the line: a symbol and its number. */
struct numbered {
    uint32_t number;
    uint8_t cells[HEADEND_SYMBOL_BYTES];
};

struct trunk {
    uint32_t name, first;     /* which one, and the phase of its symbol 0, which both ends know */
    struct end emitter, receiver;
    uint32_t sent, awaited;   /* the numbers of the symbol to be sent and of the one to be received */
    uint32_t mended, fillers; /* data cells mended, and cells of filler that came back */
    uint32_t same, other;     /* symbols of data that came back as sent, and with filler */
};

static void must(const char *call, uint32_t refused, const uint8_t *answer)
{
    if (refused == HEADEND_ACCEPTED)
        return;
    fprintf(stderr, "%s: refused by %u at %u\n", call, (unsigned)refused, (unsigned)headend_number(answer, HEADEND_PLACE));
    exit(1);
}

static void next_state(struct end *e, const uint8_t *answer)
{
    e->phase = headend_number(answer, HEADEND_PHASE);
    e->heard = headend_number(answer, HEADEND_HEARD);
}

/* The phase of a symbol of a trunk, or of its input, by its number. */
static uint32_t phase_of(const struct trunk *t, uint32_t number)
{
    return (t->first + number) % HEADEND_PHASES;
}

/* Data cell i of an input symbol. */
static uint32_t data_cell(const struct trunk *t, uint32_t number, uint32_t i)
{
    return (t->name * 1021 + number * 4099 + i * 31) % (HEADEND_CELL_DATA_MAX + 1);
}

/* --- the plan --- */

static void read_file(struct plan *p, const char *path)
{
    FILE *f = fopen(path, "rb");
    if (f == NULL) {
        perror(path);
        exit(1);
    }
    p->len = fread(p->bytes, 1, sizeof p->bytes, f);
    fclose(f);
}

/* Judges the plan and asks for N_D of each phase, once for all trunks. */
static void read_plan(struct plan *p, const char *path)
{
    uint8_t answer[HEADEND_ANSWER_BYTES];
    uint32_t least = UINT32_MAX, most = 0;
    read_file(p, path);
    must("judge", headend_judge(p->bytes, p->len, answer, sizeof answer), answer);
    p->cells = headend_number(answer, HEADEND_VALUE);
    p->depth = headend_depth(p->bytes);
    memset(p->profile, 14, sizeof p->profile);
    p->event = 2 * p->depth;
    p->symbols = 4 * p->depth + 4;
    for (uint32_t phase = 0; phase < HEADEND_PHASES; phase++) {
        must("data_count", headend_data_count(p->bytes, p->len, phase, answer, sizeof answer), answer);
        p->count[phase] = headend_number(answer, HEADEND_VALUE);
        least = p->count[phase] < least ? p->count[phase] : least;
        most = p->count[phase] > most ? p->count[phase] : most;
    }
    printf("%s: accepted, N_I %u, depth %u, N_D %u to %u\n", path, (unsigned)p->cells, (unsigned)p->depth, (unsigned)least,
           (unsigned)most);
}

/* --- starts --- */

/* Each end has a store of a length of its own; at depth 1 it has no bytes and may be NULL. */
static void make_store(struct end *e, size_t store_len)
{
    e->store_len = store_len;
    e->store = malloc(store_len);
    if (e->store == NULL && store_len > 0) {
        perror("store");
        exit(1);
    }
}

/* Starts the receiver so that the symbol of this number is the first it hears. */
static void start_receiver(const struct plan *p, struct trunk *t, uint32_t number)
{
    uint8_t answer[HEADEND_ANSWER_BYTES];
    struct end *e = &t->receiver;
    must("fresh_receiver",
         headend_fresh_receiver(p->bytes, p->len, phase_of(t, number), e->store, e->store_len, answer, sizeof answer), answer);
    next_state(e, answer);
    t->awaited = number;
}

/* Starts both ends; the numbers begin at 0 again. */
static void start(const struct plan *p, struct trunk *t, uint32_t phase)
{
    uint8_t answer[HEADEND_ANSWER_BYTES];
    struct end *e = &t->emitter;
    t->first = phase;
    t->sent = 0;
    must("fresh_emitter", headend_fresh_emitter(p->bytes, p->len, phase, e->store, e->store_len, answer, sizeof answer), answer);
    next_state(e, answer);
    start_receiver(p, t, 0);
}

/* --- the emitter's end --- */

/* Sends the next symbol: data first, then flushes. */
static void send(const struct plan *p, struct trunk *t, struct numbered *f)
{
    uint8_t answer[HEADEND_ANSWER_BYTES], data[HEADEND_DATA_BYTES_MAX];
    struct end *e = &t->emitter;
    uint32_t count = p->count[e->phase];
    f->number = t->sent;
    if (t->sent < p->symbols) {
        for (uint32_t i = 0; i < count; i++)
            headend_put_cell(data, i, data_cell(t, t->sent, i));
        must("emit",
             headend_emit(p->bytes, p->len, p->profile, sizeof p->profile, e->phase, e->store, e->store_len, data, (size_t)2 * count,
                          f->cells, sizeof f->cells, answer, sizeof answer),
             answer);
    } else {
        must("flush",
             headend_flush(p->bytes, p->len, e->phase, e->store, e->store_len, f->cells, sizeof f->cells, answer,
                           sizeof answer),
             answer);
    }
    next_state(e, answer);
    t->sent++;
}

/* --- the line --- */

static uint32_t role(const struct plan *p, uint32_t subcarrier, uint32_t phase)
{
    uint8_t answer[HEADEND_ANSWER_BYTES];
    must("role", headend_role(p->bytes, p->len, subcarrier, phase, answer, sizeof answer), answer);
    return headend_number(answer, HEADEND_VALUE);
}

/* Makes the lowest cell of each role wrong. */
static void make_wrong(const struct plan *p, uint32_t phase, struct numbered *f)
{
    int seen[HEADEND_DATA + 1] = {0};
    for (uint32_t k = 0; k < HEADEND_SUBCARRIERS; k++) {
        uint32_t r = role(p, k, phase);
        if (!seen[r])
            headend_put_cell(f->cells, k, 65535);
        seen[r] = 1;
    }
}

/* --- the receiver's end --- */

/* The numbers have a gap: what was awaited is lost, and the receiver starts afresh with the symbol that came. */
static void start_after_gap(const struct plan *p, struct trunk *t, const struct numbered *f)
{
    uint32_t told = headend_symbol_phase(p->bytes, f->cells);
    printf("trunk %u: symbol %u came, %u was awaited: receiver started afresh at phase %u (by the placeholders ", (unsigned)t->name,
           (unsigned)f->number, (unsigned)t->awaited, (unsigned)phase_of(t, f->number));
    if (told == HEADEND_PHASES)
        printf("not known)\n");
    else
        printf("%u)\n", (unsigned)told);
    start_receiver(p, t, f->number);
}

/* Puts the cell that a refusal by 20 names to its role's mark, a data cell to filler. */
static void mend(const struct plan *p, struct trunk *t, struct numbered *f, const uint8_t *answer)
{
    uint32_t k = headend_number(answer, HEADEND_PLACE), r = role(p, k, t->receiver.phase);
    headend_put_cell(f->cells, k, headend_mark(r));
    t->mended += r == HEADEND_DATA;
    printf("trunk %u: symbol %u refused by 20 at %u: role %u, mended to 0x%04X\n", (unsigned)t->name, (unsigned)f->number, (unsigned)k,
           (unsigned)r, (unsigned)headend_mark(r));
}

/* Compares an input symbol with what was sent. Filler may have come in the place of data cells that were mended, and of no others. */
static void compare(const struct plan *p, struct trunk *t, uint32_t number, const uint8_t *data, uint32_t count)
{
    uint32_t fillers = 0;
    int right = count == p->count[phase_of(t, number)];
    for (uint32_t i = 0; right && i < count; i++) {
        if (headend_cell(data, i) == data_cell(t, number, i))
            continue;
        fillers++;
        right = headend_cell(data, i) == HEADEND_CELL_FILLER && t->fillers + fillers <= t->mended;
    }
    if (!right) {
        fprintf(stderr, "trunk %u: symbol %u came back otherwise than it was sent\n", (unsigned)t->name, (unsigned)number);
        exit(1);
    }
    t->fillers += fillers;
    if (fillers == 0)
        t->same++;
    else
        t->other++;
}

static uint32_t receive(const struct plan *p, struct trunk *t, const struct numbered *f, uint8_t *data, uint8_t *answer)
{
    struct end *e = &t->receiver;
    return headend_receive(p->bytes, p->len, p->profile, sizeof p->profile, e->phase, e->heard, e->store, e->store_len, f->cells,
                           sizeof f->cells, data, HEADEND_DATA_BYTES_MAX, answer, HEADEND_ANSWER_BYTES);
}

static void hear(const struct plan *p, struct trunk *t, struct numbered *f)
{
    uint8_t answer[HEADEND_ANSWER_BYTES], data[HEADEND_DATA_BYTES_MAX];
    uint32_t refused, mended = 0;
    if (f->number != t->awaited)
        start_after_gap(p, t, f);
    while ((refused = receive(p, t, f, data, answer)) == HEADEND_REFUSED_ARRIVING_CELL) {
        mend(p, t, f, answer);
        mended++;
    }
    must("receive", refused, answer);
    next_state(&t->receiver, answer);
    t->awaited = f->number + 1;
    if (mended > 0)
        printf("trunk %u: symbol %u received with %u cells mended\n", (unsigned)t->name, (unsigned)f->number, (unsigned)mended);
    uint32_t count = headend_number(answer, HEADEND_VALUE);
    if (count > 0)
        compare(p, t, f->number - (p->depth - 1), data, count);
}

/* One symbol from end to end. */
static void step(const struct plan *p, struct trunk *t)
{
    struct numbered f;
    uint32_t phase = t->emitter.phase;
    send(p, t, &f);
    if (t->name == LOST_ON && f.number == p->event)
        return;
    if (t->name == WRONG_ON && f.number == p->event)
        make_wrong(p, phase, &f);
    hear(p, t, &f);
}

/* Says what came back; answers if it is what it should be. A lost symbol costs M symbols of data: it has cells of each. */
static int sum_up(const struct plan *p, const struct trunk *trunks)
{
    uint32_t same = 0, other = 0, fillers = 0, mended = 0, sent = (TRUNKS + 1) * p->symbols;
    for (int i = 0; i < TRUNKS; i++) {
        same += trunks[i].same;
        other += trunks[i].other;
        fillers += trunks[i].fillers;
        mended += trunks[i].mended;
    }
    printf("%u symbols of data sent: %u came back as sent, %u with %u cell of filler, %u were lost with symbol %u of trunk %d\n",
           (unsigned)sent, (unsigned)same, (unsigned)other, (unsigned)fillers, (unsigned)(sent - same - other), (unsigned)p->event,
           LOST_ON);
    return same + other + p->depth == sent && fillers == mended;
}

int main(int argc, char **argv)
{
    static struct plan plan;
    static struct trunk trunks[TRUNKS];
    if (argc != 2) {
        fprintf(stderr, "usage: trunks PLAN\n");
        return 2;
    }
    read_plan(&plan, argv[1]);
    for (uint32_t i = 0; i < TRUNKS; i++) {
        trunks[i].name = i;
        make_store(&trunks[i].emitter, headend_emitter_store_bytes(plan.cells, plan.depth));
        make_store(&trunks[i].receiver, headend_receiver_store_bytes(plan.cells, plan.depth));
        start(&plan, &trunks[i], APART * i);
    }
    printf("%d trunks started at phases 0, %d up to %d, with stores of %zu and %zu bytes\n", TRUNKS, APART, APART * (TRUNKS - 1),
           trunks[0].emitter.store_len, trunks[0].receiver.store_len);
    for (uint32_t n = 0; n < plan.symbols + plan.depth - 1; n++)
        for (int i = 0; i < TRUNKS; i++)
            step(&plan, &trunks[i]);
    printf("trunk %d: both ends started again at phase %d\n", AGAIN_ON, AGAIN_AT);
    start(&plan, &trunks[AGAIN_ON], AGAIN_AT);
    for (uint32_t n = 0; n < plan.symbols + plan.depth - 1; n++)
        step(&plan, &trunks[AGAIN_ON]);
    int right = sum_up(&plan, trunks);
    for (int i = 0; i < TRUNKS; i++) {
        free(trunks[i].emitter.store);
        free(trunks[i].receiver.store);
    }
    return right ? 0 : 1;
}
