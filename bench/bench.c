/* Times the library beside the two C implementations, all in one run: in each round every implementation makes the same small batch of
 * calls, in turn, and what they leave is compared byte for byte. Each line gives the median round of each, in microseconds a call.
 * With bench/before.c, a library of version 3 runs too: it takes no profile, and has no why, pilots, fill, unfill or lamp.
 *
 *     bench PLANS [ROUNDS]
 *
 * prints lines `plan, tab, call`, tab, and a number for each implementation. bench/run.sh builds it and makes the table. */
#define _POSIX_C_SOURCE 199309L
#include "calls.h"

#include <stdio.h>
#include <stdlib.h>
#include <string.h>
#include <time.h>

enum { SYMBOL = 8192, SUBCARRIERS = 4096, NUMBERS = 8192, DATA = 7490, ANSWER = 16, PHASES = 128, TRUNKS = 16 };
enum { WARM = 2, TIMED = 16, BATCH = WARM + TIMED }; /* calls of a batch; the first are not timed, they bring the store into the cache */
enum { TURNS = 3 };                                  /* turns of sixteen trunks, of which the first is not timed */
enum { POOL = 8, MOST_ROUNDS = 4096 };
enum { RUN = 64 };                                   /* subcarriers of one load, where loads come in runs */
enum { STREAM = 65536, SYMBOL_BITS = 52430 };        /* bytes of a stream, and the bits that a symbol takes at most */
enum { LIST = 256, LIGHTS = 128, RECORD = 129 };     /* bytes of a list of pilots, of the lights, and of a lamp's record at most */
enum call { JUDGE, TRY, WHY, EMIT, FLUSH, RECEIVE, MODULATE, FILL, UNFILL, PILOTS, LAMP };

extern const struct calls library, best_gcc, best_clang, plain_gcc, plain_clang, before;
static const struct calls *const ALL[] = {
    &library, &best_gcc, &plain_gcc,
#ifdef WITH_CLANG
    &best_clang, &plain_clang,
#endif
#ifdef WITH_BEFORE
    &before,
#endif
};
enum { IMPLEMENTATIONS = sizeof ALL / sizeof ALL[0] };

/* An emitter or receiver, or the bit of a stream at which a symbol starts. */
struct trunk {
    uint8_t *store;
    uint32_t phase, heard;
    size_t start;
};

/* What an implementation works on, and what its calls of a batch left. */
struct bench {
    struct trunk trunk[TRUNKS];
    uint8_t out[TURNS * TRUNKS][SYMBOL];
    uint8_t answer[TURNS * TRUNKS][ANSWER];
    uint32_t number[TURNS * TRUNKS];
    uint8_t stream[STREAM]; /* into which bits go back */
    uint8_t record[RECORD]; /* of the lamp */
    float numbers[NUMBERS], left[BATCH][NUMBERS]; /* the modulator symbol of the timed calls, and that of each call */
    double time[MOST_ROUNDS];
};

static struct bench *bench[IMPLEMENTATIONS], *feed; /* feed: the emitter whose symbols the receivers get */
static uint8_t plan[4096], pool[POOL][DATA], arriving[TURNS * TRUNKS][SYMBOL];
static uint8_t loads[SUBCARRIERS], minus[SUBCARRIERS];
static uint8_t profile[SUBCARRIERS], stream[STREAM]; /* and the stream from which symbols are filled */
static uint8_t fitting[BATCH][DATA];                 /* data of each call of a batch, within the limits of a mixed profile */
static int mixed;                                    /* whether the profile is */
static size_t plan_len;
static uint32_t counts[PHASES];
static uint8_t pilots[LIST];
static uint32_t pilots_count;
static uint32_t tried_first, tried_last; /* the range that is tried */

static void fail(const char *what)
{
    fprintf(stderr, "bench: %s\n", what);
    exit(1);
}

static uint32_t get(const uint8_t *at)
{
    return (uint32_t)at[0] << 24 | (uint32_t)at[1] << 16 | (uint32_t)at[2] << 8 | at[3];
}

static double now(void)
{
    struct timespec t;
    clock_gettime(CLOCK_MONOTONIC, &t);
    return (double)t.tv_sec * 1e6 + (double)t.tv_nsec * 1e-3;
}

static uint32_t chance(void)
{
    static uint64_t x = 88172645463325252u;
    x ^= x << 13;
    x ^= x >> 7;
    x ^= x << 17;
    return (uint32_t)(x >> 32);
}

static void fill_pool(void)
{
    for (int i = 0; i < POOL; i++)
        for (int j = 0; j < DATA; j += 2) {
            uint32_t x = chance() & 16383;
            pool[i][j] = (uint8_t)(x >> 8);
            pool[i][j + 1] = (uint8_t)x;
        }
}

/* The profile: 14 everywhere, or a load for each subcarrier. */
static void set_profile(int is_mixed)
{
    static const uint8_t listed[] = {0, 4, 6, 7, 8, 9, 10, 11, 12, 13, 14};
    mixed = is_mixed;
    for (int k = 0; k < SUBCARRIERS; k++)
        profile[k] = mixed ? listed[chance() % sizeof listed] : 14;
    for (int i = 0; i < STREAM; i++)
        stream[i] = (uint8_t)chance();
}

/* Data for a batch whose first call is at this phase. */
static void fit_data(uint32_t phase)
{
    uint8_t answer[ANSWER];
    for (uint32_t i = 0; i < BATCH; i++) {
        uint32_t j = (phase + i) % PHASES;
        if (best_gcc.fill(plan, plan_len, profile, SUBCARRIERS, j, stream, STREAM, chance() % 400000, fitting[i], 2 * counts[j], answer,
                          ANSWER) != 0)
            fail("a filling is refused");
    }
}

/* A listed load for each run of so many subcarriers, and a sign for each one's pilot. */
static void fill_loads(int run)
{
    static const uint8_t listed[] = {1, 2, 4, 6, 7, 8, 9, 10, 11, 12, 13, 14};
    for (int k = 0; k < SUBCARRIERS; k++) {
        loads[k] = k % run == 0 ? listed[chance() % sizeof listed] : loads[k - 1];
        minus[k] = (uint8_t)(chance() & 1);
    }
}

/* Data cells of a symbol become values below 2 to the load. */
static void fit_loads(uint8_t *symbol)
{
    for (int k = 0; k < SUBCARRIERS; k++)
        if (symbol[2 * k] < 0x80) {
            uint32_t x = chance() & ((1u << loads[k]) - 1);
            symbol[2 * k] = (uint8_t)(x >> 8);
            symbol[2 * k + 1] = (uint8_t)x;
        }
}

static uint32_t modulate(const struct calls *c, struct bench *b, int i, float *numbers)
{
    return c->modulate(arriving[i], SYMBOL, loads, SUBCARRIERS, minus, SUBCARRIERS, numbers, NUMBERS, b->answer[i], ANSWER);
}

/* In one symbol of four a pilot loses its mark. */
static void lose_mark(uint8_t *symbol)
{
    uint32_t i = chance() % (4 * pilots_count);
    if (i < pilots_count)
        memset(symbol + 2 * (pilots[2 * i] << 8 | pilots[2 * i + 1]), 0, 2);
}

/* A symbol filled, or its bits taken back, each from where the last one's ended. */
static void move_bits(const struct calls *c, struct bench *b, enum call call, struct trunk *t, int i)
{
    size_t data_len = 2 * counts[t->phase];
    if (t->start + SYMBOL_BITS > 8 * STREAM)
        t->start %= 8;
    if (call == FILL)
        b->number[i] = c->fill(plan, plan_len, profile, SUBCARRIERS, t->phase, stream, STREAM, t->start, b->out[i], data_len, b->answer[i],
                               ANSWER);
    else
        b->number[i] = c->unfill(plan, plan_len, profile, SUBCARRIERS, t->phase, fitting[i], data_len, t->start, b->stream, STREAM,
                                 b->answer[i], ANSWER);
    t->phase = (t->phase + 1) % PHASES;
    t->start += get(b->answer[i] + 12);
}

/* One call of the batch, on one trunk; data and symbols are those of its number. */
static void make(const struct calls *c, struct bench *b, enum call call, struct trunk *t, int i)
{
    uint8_t *out = b->out[i], *answer = b->answer[i];
    if (call == JUDGE) {
        b->number[i] = c->judge(plan, plan_len, answer, ANSWER);
        return;
    }
    if (call == TRY) {
        b->number[i] = c->try(plan, plan_len, tried_first, tried_last, answer, ANSWER);
        return;
    }
    if (call == WHY) { /* of the last subcarrier, which the last range excludes */
        b->number[i] = c->why(plan, plan_len, SUBCARRIERS - 1, (uint32_t)i % PHASES, answer, ANSWER);
        return;
    }
    if (call == MODULATE) {
        b->number[i] = modulate(c, b, i, b->numbers);
        return;
    }
    if (call == FILL || call == UNFILL) {
        move_bits(c, b, call, t, i);
        return;
    }
    if (call == PILOTS) {
        b->number[i] = c->pilots(plan, plan_len, out, LIST, answer, ANSWER);
        return;
    }
    if (call == LAMP) {
        b->number[i] = c->lamp(plan, plan_len, arriving[i], SYMBOL, b->record, 1 + pilots_count, out, LIGHTS, answer, ANSWER);
        return;
    }
    if (call == EMIT)
        b->number[i] = c->emit(plan, plan_len, profile, SUBCARRIERS, t->phase, t->store, c->store_bytes,
                               mixed ? fitting[i] : pool[i % POOL], 2 * counts[t->phase], out, SYMBOL, answer, ANSWER);
    if (call == FLUSH)
        b->number[i] = c->flush(plan, plan_len, t->phase, t->store, c->store_bytes, out, SYMBOL, answer, ANSWER);
    if (call == RECEIVE)
        b->number[i] = c->receive(plan, plan_len, profile, SUBCARRIERS, t->phase, t->heard, t->store, c->store_bytes, arriving[i], SYMBOL,
                                  out, DATA, answer, ANSWER);
    t->phase = get(answer + 4);
    t->heard = get(answer + 8);
}

/* A batch of calls; the answer is the time of one. A modulator's tables come into the cache by a batch that is not timed. */
static double batch(const struct calls *c, struct bench *b, enum call call, int trunks)
{
    int warm = trunks == 1 ? WARM : trunks, all = trunks == 1 ? BATCH : TURNS * trunks, i = 0;
    for (int j = 0; call == MODULATE && j < BATCH; j++)
        make(c, b, call, &b->trunk[0], j);
    for (; i < warm; i++)
        make(c, b, call, &b->trunk[i % trunks], i);
    double from = now();
    for (; i < all; i++)
        make(c, b, call, &b->trunk[i % trunks], i);
    return (now() - from) / (all - warm);
}

/* The modulator symbol of each call of a batch, to be compared. */
static void keep_numbers(const struct calls *c, struct bench *b)
{
    for (int i = 0; i < BATCH; i++)
        if (modulate(c, b, i, b->left[i]) != b->number[i])
            fail("a call gives another number");
}

static void start(const struct calls *c, struct bench *b, enum call call, int trunks)
{
    for (int i = 0; i < trunks; i++) {
        struct trunk *t = &b->trunk[i];
        uint32_t n = call == RECEIVE ? c->fresh_receiver(plan, plan_len, 5, t->store, c->store_bytes, b->answer[0], ANSWER)
                                     : c->fresh_emitter(plan, plan_len, 5, t->store, c->store_bytes, b->answer[0], ANSWER);
        if (n != 0)
            fail("a fresh start is refused");
        t->phase = get(b->answer[0] + 4);
        t->heard = get(b->answer[0] + 8);
        t->start = 3;
    }
    memset(b->stream, 0x5A, STREAM);
    memset(b->record, 0, RECORD);
}

/* The symbols that the receivers, the modulators or the lamps get next: all trunks the same ones. */
static void arrive(enum call call, int trunks)
{
    int all = trunks == 1 ? BATCH : TURNS * trunks;
    if (mixed)
        fit_data(feed->trunk[0].phase);
    for (int i = 0; i < all; i++) {
        if (i % trunks == 0)
            make(&best_gcc, feed, EMIT, &feed->trunk[0], i);
        memcpy(arriving[i], feed->out[i - i % trunks], SYMBOL);
        if (call == MODULATE)
            fit_loads(arriving[i]);
        if (call == LAMP)
            lose_mark(arriving[i]);
    }
}

static int has(int n, enum call call)
{
    const struct calls *c = ALL[n];
    return (call != TRY || c->try != NULL) && (call != WHY || c->why != NULL) && (call != MODULATE || c->modulate != NULL) &&
           (call != FILL || c->fill != NULL) && (call != UNFILL || c->unfill != NULL) && (call != PILOTS || c->pilots != NULL) &&
           (call != LAMP || c->lamp != NULL);
}

static void compare(enum call call, int trunks)
{
    int all = trunks == 1 ? BATCH : TURNS * trunks;
    int cells = call == EMIT || call == FLUSH || call == RECEIVE || call == FILL || call == PILOTS || call == LAMP;
    for (int n = 1; n < IMPLEMENTATIONS && has(n, call); n++) {
        const struct bench *a = bench[0], *b = bench[n];
        if (memcmp(a->number, b->number, (size_t)all * sizeof a->number[0]) != 0)
            fail("the numbers differ");
        if (memcmp(a->answer, b->answer, (size_t)all * ANSWER) != 0)
            fail("the answers differ");
        if (cells && memcmp(a->out, b->out, (size_t)all * SYMBOL) != 0)
            fail("the symbols, the data, the lists or the lights differ");
        if (call == LAMP && memcmp(a->record, b->record, RECORD) != 0)
            fail("the records differ");
        if (call == MODULATE && memcmp(a->left, b->left, sizeof a->left) != 0)
            fail("the modulator symbols differ");
        if (call == UNFILL && memcmp(a->stream, b->stream, STREAM) != 0)
            fail("the streams differ");
    }
    for (int i = 0; call != JUDGE && i < all; i++)
        if (bench[0]->number[i] != 0)
            fail("a step, a range or a stream is refused");
}

/* The stores after the last round, of those that are laid out alike. */
static void compare_stores(int trunks)
{
    size_t size = ALL[0]->store_bytes;
    for (int n = 1; n < IMPLEMENTATIONS; n++)
        for (int i = 0; i < trunks && ALL[n]->store_bytes == size; i++)
            if (memcmp(bench[0]->trunk[i].store, bench[n]->trunk[i].store, size) != 0)
                fail("the stores differ");
}

static int rising(const void *a, const void *b)
{
    double x = *(const double *)a, y = *(const double *)b;
    return (x > y) - (x < y);
}

static void line(const char *name, const char *what, enum call call, int trunks, int rounds)
{
    int settle = 40 / (trunks == 1 ? BATCH : TURNS) + 1; /* batches until no emitter or receiver is warming */
    int steps = call == EMIT || call == FLUSH || call == RECEIVE, fed = call == RECEIVE || call == MODULATE || call == LAMP;
    for (int n = 0; n < IMPLEMENTATIONS; n++)
        start(ALL[n], bench[n], call, trunks);
    if (fed)
        start(&best_gcc, feed, EMIT, 1);
    for (int round = -settle; round < rounds; round++) {
        if (fed)
            arrive(call, trunks);
        if ((call == EMIT && mixed) || call == UNFILL)
            fit_data(bench[0]->trunk[0].phase);
        for (int n = 0; n < IMPLEMENTATIONS; n++) {
            int which = (n + (round < 0 ? 0 : round)) % IMPLEMENTATIONS;
            double time = has(which, call) ? batch(ALL[which], bench[which], call, trunks) : 0;
            if (round >= 0)
                bench[which]->time[round] = time;
        }
        for (int n = 0; call == MODULATE && n < IMPLEMENTATIONS && has(n, call); n++)
            keep_numbers(ALL[n], bench[n]);
        compare(call, trunks);
    }
    if (steps)
        compare_stores(trunks);
    printf("%s\t%s", name, what);
    for (int n = 0; n < IMPLEMENTATIONS; n++) {
        qsort(bench[n]->time, (size_t)rounds, sizeof(double), rising);
        printf("\t%.3f", bench[n]->time[rounds / 2]);
    }
    printf("\n");
    fflush(stdout);
}

/* Reads a plan, at another depth if one is given, and counts its data. */
static void load(const char *folder, const char *name, uint32_t depth)
{
    char path[4096];
    uint8_t answer[ANSWER];
    snprintf(path, sizeof path, "%s/%s", folder, name);
    FILE *file = fopen(path, "rb");
    if (file == NULL)
        fail(path);
    plan_len = fread(plan, 1, sizeof plan, file);
    fclose(file);
    if (depth != 0)
        plan[7] = (uint8_t)depth;
    for (int n = 0; n < IMPLEMENTATIONS; n++)
        for (uint32_t j = 0; j < PHASES; j++) {
            if (ALL[n]->data_count(plan, plan_len, j, answer, ANSWER) != 0)
                fail("a plan is refused");
            if (n != 0 && counts[j] != get(answer + 12))
                fail("the counts differ");
            counts[j] = get(answer + 12);
        }
}

static void head(void)
{
    char text[256];
    FILE *file = fopen("/proc/cpuinfo", "r");
    while (file != NULL && fgets(text, sizeof text, file) != NULL)
        if (strncmp(text, "model name", 10) == 0) {
            printf("# CPU%s", strchr(text, ':'));
            break;
        }
    if (file != NULL)
        fclose(file);
    if ((file = fopen("/proc/loadavg", "r")) != NULL && fgets(text, sizeof text, file) != NULL)
        printf("# load before the run: %s", text);
    if (file != NULL)
        fclose(file);
    for (int n = 1; n < IMPLEMENTATIONS; n++)
        printf("# %s: %s, %s\n", ALL[n]->name, ALL[n]->compiler, FLAGS);
    printf("# plan\tcall");
    for (int n = 0; n < IMPLEMENTATIONS; n++)
        printf("\t%s", ALL[n]->name);
    printf("\n");
}

/* What an implementation works on, with its stores one behind the other. */
static struct bench *make_bench(const struct calls *c)
{
    size_t room = (c->store_bytes + 63) / 64 * 64;
    struct bench *b = calloc(1, sizeof *b);
    uint8_t *stores = calloc(TRUNKS, room);
    if (b == NULL || stores == NULL)
        fail("no memory");
    for (int i = 0; i < TRUNKS; i++)
        b->trunk[i].store = stores + (size_t)i * room;
    return b;
}

/* The lines of a lamp: a plan's pilots listed, and symbols heard. */
static void time_lamps(const char *folder, const char *file, uint32_t depth, const char *name, int rounds)
{
    uint8_t answer[ANSWER];
    load(folder, file, depth);
    if (best_gcc.pilots(plan, plan_len, pilots, LIST, answer, ANSWER) != 0)
        fail("a list is refused");
    pilots_count = get(answer + 12);
    set_profile(0);
    line(name, "pilots", PILOTS, 1, rounds);
    line(name, "lamp", LAMP, 1, rounds);
}

int main(int words, char **word)
{
    static const struct { const char *name, *file; uint32_t depth, first, last; } plans[] = {
        {"Plan A", "plan-a.plan", 0, 850, 853},          {"largest, M 1", "largest.plan", 1, 850, 853},
        {"largest, M 4", "largest.plan", 4, 850, 853},   {"largest, M 31", "largest.plan", 31, 850, 853},
        {"largest, M 32", "largest.plan", 32, 850, 853}, {"hostile", "overlapping-510.plan", 0, 850, 853},
        {"150 singles", "singles-150.plan", 0, 850, 850}}; /* 850 to 853 would be refused by 13 there */
    static const char *const calls[] = {"judge", "try", "why", "emit", "flush", "receive"};
    int rounds = words > 2 ? atoi(word[2]) : 300;
    if (words < 2 || rounds < 1 || rounds > MOST_ROUNDS)
        fail("usage: bench PLANS [ROUNDS]");
    for (int n = 0; n < IMPLEMENTATIONS; n++)
        bench[n] = make_bench(ALL[n]);
    feed = make_bench(&best_gcc);
    fill_pool();
    set_profile(0);
    head();
    for (size_t i = 0; i < sizeof plans / sizeof plans[0]; i++) {
        load(word[1], plans[i].file, plans[i].depth);
        tried_first = plans[i].first;
        tried_last = plans[i].last;
        for (enum call call = JUDGE; call <= RECEIVE; call++)
            line(plans[i].name, calls[call], call, 1, rounds);
    }
    load(word[1], "largest.plan", 32);
    line("largest, M 32", "emit, 16 trunks", EMIT, TRUNKS, rounds / 4 + 1);
    line("largest, M 32", "receive, 16 trunks", RECEIVE, TRUNKS, rounds / 4 + 1);
    fill_loads(1);
    line("largest, M 32", "modulate, mixed", MODULATE, 1, rounds);
    fill_loads(RUN);
    line("largest, M 32", "modulate, runs", MODULATE, 1, rounds);
    line("largest, M 32", "fill", FILL, 1, rounds);
    line("largest, M 32", "unfill", UNFILL, 1, rounds);
    set_profile(1);
    line("largest, M 32", "fill, mixed", FILL, 1, rounds);
    line("largest, M 32", "unfill, mixed", UNFILL, 1, rounds);
    line("largest, M 32", "emit, mixed", EMIT, 1, rounds);
    line("largest, M 32", "receive, mixed", RECEIVE, 1, rounds);
    time_lamps(word[1], "plan-a.plan", 0, "Plan A", rounds);
    time_lamps(word[1], "largest.plan", 32, "largest, M 32", rounds);
    return 0;
}
