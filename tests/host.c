/* Makes the calls of a case file and compares all that they give with what the second model expects: the number returned, the
 * answer, every buffer. tests/host.py writes the file and says how it is laid out.
 *
 *     host [--stack] FILE
 *
 * Each call is made in four ways, on copies of its buffers at their exact length: between guard bytes, in heap blocks of their own
 * (for the address sanitizer and valgrind), and with a page that cannot be touched right behind or right before each buffer; and where
 * some of them are empty in a fifth, with NULL for those. The names and helpers of the header are compared too.
 * With --stack the calls run on a stack of their own, and what they use of it is measured. Prints one line, or the first difference and
 * ends with 1. */
#define _DEFAULT_SOURCE
#include "headend.h"

#include <signal.h>
#include <stdarg.h>
#include <stdio.h>
#include <stdlib.h>
#include <string.h>
#include <sys/mman.h>
#include <ucontext.h>

/* The names of the header. */
#define NAME(x) {#x, x}
static const struct {
    const char *name;
    uint32_t value;
} NAMES[] = {
    NAME(HEADEND_VERSION),
    NAME(HEADEND_ANSWER_BYTES), NAME(HEADEND_PLACE), NAME(HEADEND_PHASE), NAME(HEADEND_HEARD), NAME(HEADEND_VALUE),
    NAME(HEADEND_EXCLUDED), NAME(HEADEND_PLC), NAME(HEADEND_CONTINUOUS), NAME(HEADEND_SCATTERED), NAME(HEADEND_DATA),
    NAME(HEADEND_WHY_EXCLUDED), NAME(HEADEND_WHY_PLC), NAME(HEADEND_WHY_PILOT_BELOW), NAME(HEADEND_WHY_PILOT_ABOVE),
    NAME(HEADEND_WHY_PILOT_RECORD), NAME(HEADEND_WHY_SCATTERED), NAME(HEADEND_WHY_DATA),
    NAME(HEADEND_CELL_DATA_MAX), NAME(HEADEND_CELL_SCATTERED), NAME(HEADEND_CELL_FILLER), NAME(HEADEND_CELL_EXCLUDED),
    NAME(HEADEND_CELL_CONTINUOUS), NAME(HEADEND_CELL_PLC),
    NAME(HEADEND_SUBCARRIERS), NAME(HEADEND_PHASES), NAME(HEADEND_DEPTH_MAX), NAME(HEADEND_PLAN_BYTES_MAX), NAME(HEADEND_SYMBOL_BYTES),
    NAME(HEADEND_NUMBERS), NAME(HEADEND_RECORD_NUMBER_MAX), NAME(HEADEND_PROFILE_BYTES),
    NAME(HEADEND_PILOTS), NAME(HEADEND_PILOTS_BYTES), NAME(HEADEND_LIGHTS_BYTES), NAME(HEADEND_LAMP_RECORD_BYTES_MAX),
    NAME(HEADEND_LAMP_COUNT_MAX),
    NAME(HEADEND_EMITTER_STORE_BYTES_MAX), NAME(HEADEND_RECEIVER_STORE_BYTES_MAX), NAME(HEADEND_DATA_BYTES_MAX), NAME(HEADEND_STACK_BYTES),
    NAME(HEADEND_ACCEPTED), NAME(HEADEND_REFUSED_PLAN_LENGTH), NAME(HEADEND_REFUSED_RECORD_KIND), NAME(HEADEND_REFUSED_NEXT_INDEX),
    NAME(HEADEND_REFUSED_RECORD_NUMBERS), NAME(HEADEND_REFUSED_PILOT_COUNT), NAME(HEADEND_REFUSED_ACTIVE_OUTSIDE),
    NAME(HEADEND_REFUSED_EXCLUDED_AROUND_PLC), NAME(HEADEND_REFUSED_PILOT_TAKEN), NAME(HEADEND_REFUSED_NARROW_BAND),
    NAME(HEADEND_REFUSED_NO_WIDE_BAND), NAME(HEADEND_REFUSED_EXCLUDED_IN_SPAN), NAME(HEADEND_REFUSED_EXCLUDED_IN_BAND),
    NAME(HEADEND_REFUSED_WINDOW_OF_120), NAME(HEADEND_REFUSED_WINDOW_OF_20), NAME(HEADEND_REFUSED_RANKS),
    NAME(HEADEND_REFUSED_OUT_OF_RANGE), NAME(HEADEND_REFUSED_BUFFER_LENGTH), NAME(HEADEND_REFUSED_DATA_COUNT),
    NAME(HEADEND_REFUSED_DATA_CELL), NAME(HEADEND_REFUSED_ARRIVING_CELL), NAME(HEADEND_REFUSED_BUFFER_BYTES),
    NAME(HEADEND_REFUSED_LOAD), NAME(HEADEND_REFUSED_VALUE), NAME(HEADEND_REFUSED_PROFILE), NAME(HEADEND_REFUSED_STREAM),
    NAME(HEADEND_REFUSED_LAMP_RECORD),
};

enum { SLOTS = 16, BUFFERS = 6, NUMBERS = 2, GUARD = 64, GUARD_BYTE = 0x5A, PAGE = 65536, ROOM = 1 << 21, STACK = 1 << 20 };
enum { GROUNDS = 28, NO_VALUE = 24, LITERAL_STORE = 27 }; /* of the grounds up to 28 these two no call gives */
enum { JUDGE, TRY, ROLE, WHY, DATA_COUNT, PILOTS, FRESH_EMITTER, FRESH_RECEIVER, EMIT, FLUSH, RECEIVE, FILL, UNFILL, LAMP, MODULATE,
       CALLS };
enum { GUARDED, OWN_BLOCK, PAGE_BEHIND, PAGE_BEFORE, NULL_IF_EMPTY, WAYS };
/* The helpers. */
enum { NUMBER, CELL, PUT_CELL, LOWEST_PLC, DEPTH, EMITTER_STORE_BYTES, RECEIVER_STORE_BYTES, MARK, SYMBOL_PHASE, POINT_LOAD,
       WHY_ROLE, LAMP_RECORD_BYTES };

static const struct {
    const char *name;
    int numbers, starts, buffers; /* a start is a number of eight bytes */
    const char *buffer[BUFFERS];
} CALL[CALLS] = {
    {"judge", 0, 0, 2, {"plan", "answer"}},
    {"try", 2, 0, 2, {"plan", "answer"}},
    {"role", 2, 0, 2, {"plan", "answer"}},
    {"why", 2, 0, 2, {"plan", "answer"}},
    {"data_count", 1, 0, 2, {"plan", "answer"}},
    {"pilots", 0, 0, 3, {"plan", "pilots", "answer"}},
    {"fresh_emitter", 1, 0, 3, {"plan", "store", "answer"}},
    {"fresh_receiver", 1, 0, 3, {"plan", "store", "answer"}},
    {"emit", 1, 0, 6, {"plan", "profile", "store", "data", "symbol", "answer"}},
    {"flush", 1, 0, 4, {"plan", "store", "symbol", "answer"}},
    {"receive", 2, 0, 6, {"plan", "profile", "store", "symbol", "data", "answer"}},
    {"fill", 1, 1, 5, {"plan", "profile", "stream", "data", "answer"}},
    {"unfill", 1, 1, 5, {"plan", "profile", "data", "stream", "answer"}},
    {"lamp", 0, 0, 5, {"plan", "symbol", "record", "lights", "answer"}},
    {"modulate", 0, 0, 5, {"symbol", "loads", "minus", "numbers", "answer"}},
};

static const char *const WAY[WAYS] = {"between guard bytes", "in its own block", "with a page behind", "with a page before",
                                      "with NULL for empty ones"};

/* A buffer before a call and as it has to be after it. */
struct slot {
    uint8_t *held, *wanted;
    size_t length;
};

struct call {
    unsigned which;
    uint32_t numbers[NUMBERS], wanted;
    size_t start;
    struct slot *slots[BUFFERS];
};

/* A buffer as it is lent: its place in the block that it was cut from. */
struct lent {
    uint8_t *block, *at;
    size_t before, behind; /* guard bytes */
};

static struct slot slot[SLOTS];
static struct {
    uint8_t *at, *end;
} file;
static struct {
    uint32_t calls, returned; /* bit n of `returned`: some call returned n */
    uint32_t nulls;           /* calls with a NULL */
    uint64_t null;            /* bit n: the n-th of all buffers of all calls was NULL */
    uint32_t names;           /* names and helpers compared */
    unsigned long long bytes;
    char name[200];
    uint8_t *arena[BUFFERS];
} run;
static struct {
    uint8_t *bottom; /* of the stack that calls run on, or NULL */
    ucontext_t host, call;
    const struct call *c;
    const struct lent *lent;
    uint32_t returned;
} own;

static _Noreturn void fail(const char *form, ...)
{
    va_list rest;
    va_start(rest, form);
    printf("host: DIFFERS at call %lu (%s): ", (unsigned long)run.calls, run.name);
    vprintf(form, rest);
    printf("\n");
    va_end(rest);
    exit(1);
}

static void touched(int signal)
{
    (void)signal;
    fail("a page beside a buffer was touched");
}

/* --- the case file --- */

static void load(const char *path)
{
    FILE *f = fopen(path, "rb");
    long length;
    if (f == NULL || fseek(f, 0, SEEK_END) != 0 || (length = ftell(f)) < 0)
        fail("cannot read %s", path);
    rewind(f);
    file.at = malloc((size_t)length + 1);
    if (file.at == NULL || fread(file.at, 1, (size_t)length, f) != (size_t)length)
        fail("cannot read %s", path);
    file.end = file.at + length;
    fclose(f);
}

static const uint8_t *take(size_t count)
{
    if ((size_t)(file.end - file.at) < count)
        fail("the case file ends early");
    file.at += count;
    return file.at - count;
}

static uint32_t number(void)
{
    const uint8_t *b = take(4);
    return (uint32_t)b[0] << 24 | (uint32_t)b[1] << 16 | (uint32_t)b[2] << 8 | b[3];
}

/* A number of eight bytes. */
static uint64_t long_number(void)
{
    uint64_t high = number();
    return high << 32 | number();
}

static struct slot *a_slot(void)
{
    unsigned i = *take(1);
    if (i >= SLOTS)
        fail("no slot %u", i);
    return &slot[i];
}

static void read_name(void)
{
    uint32_t length = number();
    snprintf(run.name, sizeof run.name, "%.*s", (int)length, (const char *)take(length));
}

static void read_length(void)
{
    struct slot *s = a_slot();
    size_t length = number();
    if (length > ROOM)
        fail("a buffer of %zu bytes", length);
    if (length > s->length)
        memset(s->held + s->length, 0, length - s->length);
    s->length = length;
}

/* Writes the bytes that follow into a slot: as they are before the call, or wanted after it. */
static void read_bytes(int after)
{
    struct slot *s = a_slot();
    size_t at = number(), length = number();
    if (at > s->length || length > s->length - at)
        fail("bytes outside of a slot");
    memcpy((after ? s->wanted : s->held) + at, take(length), length);
}

static void read_call(struct call *c)
{
    c->which = *take(1);
    if (c->which >= CALLS)
        fail("no call %u", c->which);
    for (int i = 0; i < CALL[c->which].numbers; i++)
        c->numbers[i] = number();
    if (CALL[c->which].starts != 0)
        c->start = long_number();
    for (int i = 0; i < CALL[c->which].buffers; i++) {
        c->slots[i] = a_slot();
        memcpy(c->slots[i]->wanted, c->slots[i]->held, c->slots[i]->length);
    }
    c->wanted = number();
    for (uint32_t changes = number(); changes > 0; changes--)
        read_bytes(1);
}

/* --- the header's names and helpers --- */

static void check_name(void)
{
    size_t length = number(), i = 0;
    const char *name = (const char *)take(length);
    uint32_t wanted = number();
    const size_t all = sizeof NAMES / sizeof NAMES[0];
    while (i < all && (strlen(NAMES[i].name) != length || memcmp(NAMES[i].name, name, length) != 0))
        i++;
    if (i == all)
        fail("%.*s is not among the names", (int)length, name);
    if (NAMES[i].value != wanted)
        fail("%s is %lu, wanted %lu", NAMES[i].name, (unsigned long)NAMES[i].value, (unsigned long)wanted);
    run.names++;
}

/* A helper on the bytes of a slot; `other` is the symbol where it takes two. */
static uint32_t help(unsigned which, uint8_t *bytes, const uint8_t *other, uint32_t a, uint32_t b)
{
    switch (which) {
    case NUMBER: return headend_number(bytes, a);
    case CELL: return headend_cell(bytes, a);
    case PUT_CELL: headend_put_cell(bytes, a, b); return 0;
    case LOWEST_PLC: return headend_lowest_plc(bytes);
    case DEPTH: return headend_depth(bytes);
    case EMITTER_STORE_BYTES: return (uint32_t)headend_emitter_store_bytes(a, b);
    case RECEIVER_STORE_BYTES: return (uint32_t)headend_receiver_store_bytes(a, b);
    case MARK: return headend_mark(a);
    case SYMBOL_PHASE: return headend_symbol_phase(bytes, other);
    case POINT_LOAD: return headend_point_load(a);
    case WHY_ROLE: return headend_why_role(a);
    case LAMP_RECORD_BYTES: return (uint32_t)headend_lamp_record_bytes(a);
    default: fail("no helper %u", which);
    }
}

static void check_helper(void)
{
    unsigned which = *take(1);
    struct slot *s = a_slot(), *other = a_slot();
    uint32_t a = number(), b = number(), wanted = number();
    uint32_t answered = help(which, s->held, other->held, a, b);
    if (answered != wanted)
        fail("helper %u of %lu answered %lu, wanted %lu", which, (unsigned long)a, (unsigned long)answered, (unsigned long)wanted);
    run.names++;
}

/* The slot holds these bytes. */
static void check_bytes(void)
{
    struct slot *s = a_slot();
    size_t length = number();
    if (length != s->length || memcmp(s->held, take(length), length) != 0)
        fail("a helper wrote something else");
}

/* --- the ways to lend a buffer --- */

static uint8_t *make_arena(void)
{
    uint8_t *pages = mmap(NULL, ROOM + 2 * PAGE, PROT_NONE, MAP_PRIVATE | MAP_ANONYMOUS, -1, 0);
    if (pages == MAP_FAILED || mprotect(pages + PAGE, ROOM, PROT_READ | PROT_WRITE) != 0)
        fail("no memory");
    return pages + PAGE;
}

static struct lent lend(int way, int i, const struct slot *s)
{
    struct lent l = {NULL, NULL, 0, 0};
    size_t room = s->length < ROOM - GUARD ? GUARD : 0;
    if (way == NULL_IF_EMPTY && s->length == 0)
        return l;
    if (way == GUARDED || way == OWN_BLOCK || way == NULL_IF_EMPTY) {
        l.before = l.behind = way == GUARDED ? GUARD : 0;
        l.block = malloc(l.before + s->length + l.behind);
        if (l.block == NULL)
            fail("no memory");
        l.at = l.block + l.before;
    } else if (way == PAGE_BEHIND) {
        l.at = run.arena[i] + ROOM - s->length;
        l.before = room;
    } else {
        l.at = run.arena[i];
        l.behind = room;
    }
    memcpy(l.at, s->held, s->length);
    memset(l.at - l.before, GUARD_BYTE, l.before);
    memset(l.at + s->length, GUARD_BYTE, l.behind);
    return l;
}

static size_t first_difference(const uint8_t *a, const uint8_t *b, size_t length)
{
    size_t i = 0;
    while (i < length && a[i] == b[i])
        i++;
    return i;
}

static void compare(const struct call *c, int way, int i, const struct lent *l)
{
    const struct slot *s = c->slots[i];
    const char *name = CALL[c->which].name, *buffer = CALL[c->which].buffer[i];
    if (l->at == NULL)
        return;
    if (memcmp(l->at, s->wanted, s->length) != 0) {
        size_t at = first_difference(l->at, s->wanted, s->length);
        fail("headend_%s, %s %s: byte %zu of %zu is %02x, wanted %02x", name, buffer, WAY[way], at, s->length, l->at[at], s->wanted[at]);
    }
    for (size_t g = 0; g < l->before; g++)
        if (l->at[-1 - (long)g] != GUARD_BYTE)
            fail("headend_%s wrote before its %s", name, buffer);
    for (size_t g = 0; g < l->behind; g++)
        if (l->at[s->length + g] != GUARD_BYTE)
            fail("headend_%s wrote behind its %s", name, buffer);
    run.bytes += s->length + l->before + l->behind;
}

/* --- the calls --- */

static uint32_t make_call(const struct call *c, const struct lent *b)
{
    const uint32_t *n = c->numbers;
    size_t len[BUFFERS] = {0};
    for (int i = 0; i < CALL[c->which].buffers; i++)
        len[i] = c->slots[i]->length;
    switch (c->which) {
    case JUDGE:
        return headend_judge(b[0].at, len[0], b[1].at, len[1]);
    case TRY:
        return headend_try(b[0].at, len[0], n[0], n[1], b[1].at, len[1]);
    case ROLE:
        return headend_role(b[0].at, len[0], n[0], n[1], b[1].at, len[1]);
    case WHY:
        return headend_why(b[0].at, len[0], n[0], n[1], b[1].at, len[1]);
    case DATA_COUNT:
        return headend_data_count(b[0].at, len[0], n[0], b[1].at, len[1]);
    case PILOTS:
        return headend_pilots(b[0].at, len[0], b[1].at, len[1], b[2].at, len[2]);
    case FRESH_EMITTER:
        return headend_fresh_emitter(b[0].at, len[0], n[0], b[1].at, len[1], b[2].at, len[2]);
    case FRESH_RECEIVER:
        return headend_fresh_receiver(b[0].at, len[0], n[0], b[1].at, len[1], b[2].at, len[2]);
    case EMIT:
        return headend_emit(b[0].at, len[0], b[1].at, len[1], n[0], b[2].at, len[2], b[3].at, len[3], b[4].at, len[4], b[5].at, len[5]);
    case FLUSH:
        return headend_flush(b[0].at, len[0], n[0], b[1].at, len[1], b[2].at, len[2], b[3].at, len[3]);
    case RECEIVE:
        return headend_receive(b[0].at, len[0], b[1].at, len[1], n[0], n[1], b[2].at, len[2], b[3].at, len[3], b[4].at, len[4], b[5].at,
                               len[5]);
    case FILL:
        return headend_fill(b[0].at, len[0], b[1].at, len[1], n[0], b[2].at, len[2], c->start, b[3].at, len[3], b[4].at, len[4]);
    case UNFILL:
        return headend_unfill(b[0].at, len[0], b[1].at, len[1], n[0], b[2].at, len[2], c->start, b[3].at, len[3], b[4].at, len[4]);
    case LAMP:
        return headend_lamp(b[0].at, len[0], b[1].at, len[1], b[2].at, len[2], b[3].at, len[3], b[4].at, len[4]);
    default: /* numbers are counted, and aligned in every way of lending */
        return headend_modulate(b[0].at, len[0], b[1].at, len[1], b[2].at, len[2], (float *)(void *)b[3].at, len[3] / sizeof(float),
                                b[4].at, len[4]);
    }
}

static void call_there(void)
{
    own.returned = make_call(own.c, own.lent);
}

/* Makes the call on the stack of its own. */
static uint32_t call_on_stack(const struct call *c, const struct lent *lent)
{
    own.c = c;
    own.lent = lent;
    getcontext(&own.call);
    own.call.uc_stack.ss_sp = own.bottom;
    own.call.uc_stack.ss_size = STACK;
    own.call.uc_link = &own.host;
    makecontext(&own.call, call_there, 0);
    swapcontext(&own.host, &own.call);
    return own.returned;
}

static void make_stack(void)
{
    own.bottom = malloc(STACK);
    if (own.bottom == NULL)
        fail("no memory");
    memset(own.bottom, GUARD_BYTE, STACK);
}

/* How many bytes of the stack the deepest call has used. */
static size_t stack_used(void)
{
    size_t untouched = 0;
    while (untouched < STACK && own.bottom[untouched] == GUARD_BYTE)
        untouched++;
    return STACK - untouched;
}

static void try_call(const struct call *c, int way)
{
    struct lent lent[BUFFERS];
    int buffers = CALL[c->which].buffers;
    for (int i = 0; i < buffers; i++)
        lent[i] = lend(way, i, c->slots[i]);
    uint32_t returned = own.bottom != NULL ? call_on_stack(c, lent) : make_call(c, lent);
    if (returned != c->wanted)
        fail("headend_%s returned %lu, wanted %lu", CALL[c->which].name, (unsigned long)returned, (unsigned long)c->wanted);
    for (int i = 0; i < buffers; i++) {
        compare(c, way, i, &lent[i]);
        free(lent[i].block);
    }
    if (returned <= GROUNDS)
        run.returned |= UINT32_C(1) << returned;
}

/* Which of all buffers of all calls are empty in this one, a bit each. */
static uint64_t empty_buffers(const struct call *c)
{
    uint64_t empty = 0;
    int first = 0;
    for (unsigned which = 0; which < c->which; which++)
        first += CALL[which].buffers;
    for (int i = 0; i < CALL[c->which].buffers; i++)
        if (c->slots[i]->length == 0)
            empty |= UINT64_C(1) << (first + i);
    return empty;
}

static void do_call(void)
{
    struct call c;
    memset(&c, 0, sizeof c);
    read_call(&c);
    for (int way = 0; way < NULL_IF_EMPTY; way++)
        try_call(&c, way);
    if (empty_buffers(&c) != 0) {
        try_call(&c, NULL_IF_EMPTY);
        run.nulls++;
        run.null |= empty_buffers(&c);
    }
    for (int i = 0; i < CALL[c.which].buffers; i++) {
        uint8_t *old = c.slots[i]->held;
        c.slots[i]->held = c.slots[i]->wanted;
        c.slots[i]->wanted = old;
    }
    run.calls++;
}

static void end(void)
{
    uint32_t calls = number(), returned = number();
    uint64_t null = long_number();
    uint32_t names = number();
    const uint32_t all = ((UINT32_C(1) << (GROUNDS + 1)) - 1) & ~(UINT32_C(1) << NO_VALUE | UINT32_C(1) << LITERAL_STORE);
    if (calls != run.calls || names != run.names)
        fail("%lu calls were to be made and %lu names compared", (unsigned long)calls, (unsigned long)names);
    if (returned != run.returned)
        fail("numbers %08lx were returned, wanted %08lx", (unsigned long)run.returned, (unsigned long)returned);
    if (null != run.null)
        fail("buffers %014llx were NULL, wanted %014llx", (unsigned long long)run.null, (unsigned long long)null);
    printf("host: %lu calls, %s, each in 4 ways, %lu also with NULL, %llu bytes and %lu names compared", (unsigned long)run.calls,
           returned == all ? "grounds 1..23, 25, 26 and 28 each reached" : "not all grounds reached", (unsigned long)run.nulls, run.bytes,
           (unsigned long)run.names);
    if (own.bottom != NULL) {
        printf(", %zu bytes of stack used", stack_used());
        if (stack_used() > HEADEND_STACK_BYTES)
            fail("more than %u", (unsigned)HEADEND_STACK_BYTES);
    }
    printf("\n");
}

static void make_room(void)
{
    for (int i = 0; i < SLOTS; i++) {
        slot[i].held = malloc(ROOM);
        slot[i].wanted = malloc(ROOM);
        if (slot[i].held == NULL || slot[i].wanted == NULL)
            fail("no memory");
    }
    for (int i = 0; i < BUFFERS; i++)
        run.arena[i] = make_arena();
}

int main(int argc, char **argv)
{
    int stack = argc > 1 && strcmp(argv[1], "--stack") == 0;
    if (argc != 2 + stack)
        fail("usage: host [--stack] FILE");
    load(argv[1 + stack]);
    uint8_t *start = file.at;
    make_room();
    if (stack)
        make_stack();
    signal(SIGSEGV, touched);
    signal(SIGBUS, touched);
    for (unsigned item = *take(1); item != 0; item = *take(1)) {
        switch (item) {
        case 1: read_name(); break;
        case 2: read_length(); break;
        case 3: read_bytes(0); break;
        case 4: do_call(); break;
        case 5: check_name(); break;
        case 6: check_helper(); break;
        case 7: check_bytes(); break;
        default: fail("no item %u", item);
        }
    }
    end();
    for (int i = 0; i < SLOTS; i++) {
        free(slot[i].held);
        free(slot[i].wanted);
    }
    free(start);
    free(own.bottom);
    return 0;
}
