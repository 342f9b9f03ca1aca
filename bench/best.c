/* The head end's calls in the fastest C we could write. Excluded and taken subcarriers are sets of 4,096 bits, so that a range costs the
 * same however long it is; cells stay as they are in memory, high byte first; the stretches of neighbouring subcarriers with a rank are
 * copied whole; rows are turned into columns eight by eight; placeholders are found by comparing sixteen cells at a time; a store is moved
 * down as a whole; loads are tested sixteen at a time and bits move four cells at a time; a lamp's counts go up eight at a time; the
 * points of all loads stand in one table, and sixteen subcarriers at a time are tested and looked up there. */
#include "best.h"

#include <string.h>

/* Sixteen bytes, eight cells. */
typedef uint8_t sixteen __attribute__((vector_size(16)));
typedef uint16_t eight __attribute__((vector_size(16)));
typedef int8_t signed_sixteen __attribute__((vector_size(16)));
typedef int16_t signed_eight __attribute__((vector_size(16)));
#define LOWER_BYTES(x, y) __builtin_shufflevector(x, y, 0, 16, 1, 17, 2, 18, 3, 19, 4, 20, 5, 21, 6, 22, 7, 23)
#define UPPER_BYTES(x, y) __builtin_shufflevector(x, y, 8, 24, 9, 25, 10, 26, 11, 27, 12, 28, 13, 29, 14, 30, 15, 31)

/* A cell as it stands in memory, at any address, and a number in that order. */
typedef uint16_t __attribute__((may_alias, aligned(1))) cell;
#if __BYTE_ORDER__ == __ORDER_BIG_ENDIAN__
#define CELL(x) (x)
#define BIG64(x) (x)
#define BIG32(x) (x)
#define LITTLE64(x) __builtin_bswap64(x)
#define LITTLE32(x) __builtin_bswap32(x)
#else
#define CELL(x) ((((x) & 0xff) << 8) | ((x) >> 8))
#define BIG64(x) __builtin_bswap64(x)
#define BIG32(x) __builtin_bswap32(x)
#define LITTLE64(x) (x)
#define LITTLE32(x) (x)
#endif

enum {
    HOLDER = CELL(0x8000),
    FILLER = CELL(0x8001),
    EXCLUDED = CELL(0x8002),
    CONTINUOUS = CELL(0x8003),
    PLC = CELL(0x8004),
    NO_DATA = CELL(0xC000)
};

enum { SUBCARRIERS = 4096, WORDS = 64, PILOTS = 120, CELLS = 3745, SEGMENTS = 2048, ANSWER = 16, MOST = 14 };

/* What a plan says: which subcarriers are excluded, and which are without a rank. */
struct plan {
    uint32_t l, m, n, pilots, place;
    uint32_t least; /* the least load of the profile, where one is given */
    uint64_t excluded[WORDS], taken[WORDS];
    uint16_t pilot[PILOTS];
};

/* Neighbouring subcarriers with a rank, from k to end - 1. */
struct segment {
    uint16_t k, end;
};

/* The seven bits of each number in reversed order. */
static const uint8_t REVERSED[128] = {
#define R1(x) (x), (x) + 64
#define R2(x) R1(x), R1((x) + 32)
#define R3(x) R2(x), R2((x) + 16)
#define R4(x) R3(x), R3((x) + 8)
#define R5(x) R4(x), R4((x) + 4)
#define R6(x) R5(x), R5((x) + 2)
    R6(0), R6(1)};

/* Numbers 0 to 127 modulo each depth. */
#define M2(x, m) (x) % (m), ((x) + 1) % (m)
#define M8(x, m) M2(x, m), M2((x) + 2, m), M2((x) + 4, m), M2((x) + 6, m)
#define M32(x, m) M8(x, m), M8((x) + 8, m), M8((x) + 16, m), M8((x) + 24, m)
#define MODULO(m) {M32(0, m), M32(32, m), M32(64, m), M32(96, m)}
#define MODULO4(m) MODULO(m), MODULO((m) + 1), MODULO((m) + 2), MODULO((m) + 3)
static const uint8_t REST[33][128] = {{0},         MODULO4(1),  MODULO4(5),  MODULO4(9), MODULO4(13),
                                      MODULO4(17), MODULO4(21), MODULO4(25), MODULO4(29)};

/* The bits from each place up. */
#define F4(x) ~(uint64_t)0 << (x), ~(uint64_t)0 << ((x) + 1), ~(uint64_t)0 << ((x) + 2), ~(uint64_t)0 << ((x) + 3)
#define F16(x) F4(x), F4((x) + 4), F4((x) + 8), F4((x) + 12)
static const uint64_t FROM[65] = {F16(0), F16(16), F16(32), F16(48), 0};

/* --- grounds 1 to 5 --- */

static uint32_t refuse(struct plan *s, uint32_t ground, uint32_t place)
{
    s->place = place;
    return ground;
}

static inline uint64_t record(const uint8_t *plan, size_t i)
{
    uint64_t w;
    memcpy(&w, plan + 8 * i, 8);
    return BIG64(w);
}

/* Excluded ranges as they come: a bit for each subcarrier, but the words that lie wholly inside a range as a bit each in `full`; `edges`
 * tells the words in which a range begins, or the subcarrier after its end lies. The word past the last takes what is not wanted. */
struct ranges {
    uint64_t word[WORDS + 1], full, edges;
};

static inline void exclude(struct ranges *r, uint32_t first, uint32_t second)
{
    uint32_t a = first >> 6, b = second >> 6, after = (second + 1) >> 6 & 63;
    uint64_t low = FROM[first & 63], high = ~FROM[(second & 63) + 1];
    r->word[a] |= a == b ? low & high : low;
    r->word[a == b ? WORDS : b] |= high;
    r->full |= FROM[a + 1] & ~FROM[b];
    r->edges |= (FROM[a] ^ FROM[a + 1]) | (FROM[after] ^ FROM[after + 1]);
}

/* Record 0, and the length. */
static inline uint32_t read_first(struct plan *s, const uint8_t *plan, size_t length, uint32_t *next)
{
    if (length < 8 || length > 4096 || length % 8 != 0)
        return refuse(s, 1, 0);
    uint64_t w = record(plan, 0);
    *next = w >> 32 & 0xffff;
    s->l = w >> 16 & 0xffff;
    s->m = w & 0xffff;
    s->pilots = 0;
    if (w >> 48 != 0x100)
        return refuse(s, 2, 0);
    if (*next >= length / 8)
        return refuse(s, 3, 0);
    return s->l < 204 || s->l > 3885 || s->m < 1 || s->m > 32 ? refuse(s, 4, 0) : 0;
}

/* Reads the chain. `rec` takes the records of the pilots, `r` the ranges. */
static inline uint32_t read_chain(struct plan *s, const uint8_t *plan, size_t length, uint16_t *rec, struct ranges *r)
{
    uint32_t records = (uint32_t)(length / 8), i, next = 0, pilots = 0, g = read_first(s, plan, length, &next);
    if (g != 0)
        return g;
    memset(r, 0, sizeof *r);
    while ((i = next) != 0) {
        uint64_t w = record(plan, i);
        uint32_t kind = (uint32_t)(w >> 48), first = w >> 16 & 0xffff, second = w & 0xffff;
        next = w >> 32 & 0xffff;
        if (kind != 0x200 && (kind != 0x300 || second != 0))
            return refuse(s, 2, i);
        if (next != 0 && next - (i + 1) >= records - (i + 1))
            return refuse(s, 3, i);
        if (kind == 0x200) {
            if (second > 4095 || first > second)
                return refuse(s, 4, i);
            exclude(r, first, second);
        } else {
            if (first > 4095)
                return refuse(s, 4, i);
            if (pilots == PILOTS)
                return refuse(s, 5, i);
            s->pilot[pilots] = (uint16_t)first;
            rec[pilots++] = (uint16_t)i;
        }
    }
    s->pilots = pilots;
    return 0;
}

/* --- grounds 6 to 8 --- */

static inline int has(const uint64_t *set, uint32_t k)
{
    return set[k >> 6] >> (k & 63) & 1;
}

static inline void add(uint64_t *set, uint32_t k)
{
    set[k >> 6] |= (uint64_t)1 << (k & 63);
}

/* The lowest subcarrier of a to b - 1 that is excluded (invert 0) or active (invert ~0); b if none is. */
static uint32_t lowest(const uint64_t *set, uint32_t a, uint32_t b, uint64_t invert)
{
    uint64_t w = (set[a >> 6] ^ invert) & ~(uint64_t)0 << (a & 63);
    for (uint32_t j = a >> 6;;) {
        if (w != 0) {
            uint32_t k = 64 * j + (uint32_t)__builtin_ctzll(w);
            return k < b ? k : b;
        }
        if (64 * ++j >= b)
            return b;
        w = set[j] ^ invert;
    }
}

static inline uint32_t take_pilots(struct plan *s, const uint16_t *rec)
{
    static const uint8_t distances[4] = {15, 24, 35, 47};
    uint32_t l = s->l, k = lowest(s->excluded, 0, 148, ~(uint64_t)0);
    if (k < 148)
        return refuse(s, 6, k);
    k = lowest(s->excluded, 3949, SUBCARRIERS, ~(uint64_t)0);
    if (k < SUBCARRIERS)
        return refuse(s, 6, k);
    k = lowest(s->excluded, l - 56, l + 64, 0);
    if (k < l + 64)
        return refuse(s, 7, k);
    memcpy(s->taken, s->excluded, sizeof s->taken);
    for (k = l; k < l + 8; k++)
        add(s->taken, k);
    for (int i = 0; i < 4; i++) {
        add(s->taken, l - distances[i]);
        add(s->taken, l + 7 + distances[i]);
    }
    for (uint32_t i = 0; i < s->pilots; i++) {
        uint64_t bit = (uint64_t)1 << (s->pilot[i] & 63), *w = &s->taken[s->pilot[i] >> 6];
        if (*w & bit)
            return refuse(s, 8, rec[i]);
        *w |= bit;
    }
    return 0;
}

/* --- grounds 9 to 15 --- */

/* The first subcarrier of the lowest window of `size` in the band from a on with more than `most` of the n excluded ones; 4096 if none. */
static uint32_t window(const uint16_t *x, uint32_t n, uint32_t a, uint32_t width, uint32_t size, uint32_t most)
{
    uint16_t near = 0;
    if (width < size || n <= most)
        return SUBCARRIERS;
    for (uint32_t q = 0; q < n - most; q++)
        near |= (uint16_t)(x[q + most] - x[q]) < size;
    if (!near)
        return SUBCARRIERS;
    uint32_t q = 0;
    while ((uint32_t)(x[q + most] - x[q]) >= size)
        q++;
    return x[q + most] + 1u < a + size ? a : x[q + most] + 1 - size;
}

/* The lowest places of grounds 9, 12, 13 and 14 so far, 4096 if there is none; whether a band is wide; the first and the last active
 * subcarrier, and how many between them are excluded. */
struct found {
    uint32_t narrow, crowded, long_window, short_window, wide, first, last, gone;
};

static void end_band(struct found *f, uint32_t a, uint32_t b, const uint16_t *x, uint32_t n)
{
    uint32_t width = b - a + 1;
    if (width < 40 && f->narrow == SUBCARRIERS)
        f->narrow = a;
    f->wide |= width >= 440;
    if (n == 0)
        return;
    if (20 * n > width && f->crowded == SUBCARRIERS)
        f->crowded = a;
    if (f->long_window == SUBCARRIERS)
        f->long_window = window(x, n, a, width, 120, 6);
    if (f->short_window == SUBCARRIERS)
        f->short_window = window(x, n, a, width, 20, 4);
}

/* Goes through the runs of excluded subcarriers; `edges` tells the words in which one begins or ends. */
static inline void find_bands(const struct plan *s, uint64_t edges, struct found *f)
{
    uint16_t x[SUBCARRIERS]; /* the individually excluded of the band from a on */
    uint32_t n = 0, begin = 0, a = 0;
    for (; edges != 0; edges &= edges - 1) {
        uint32_t j = (uint32_t)__builtin_ctzll(edges);
        uint64_t w = s->excluded[j], e = w ^ (w << 1 | (j == 0 ? 0 : s->excluded[j - 1] >> 63));
        for (; e != 0; e &= e - 1) {
            uint32_t k = 64 * j + (uint32_t)__builtin_ctzll(e);
            if (has(s->excluded, k)) {
                begin = k;
                continue;
            }
            if (begin == 0) {
                f->first = a = k;
                continue;
            }
            f->gone += k - begin;
            if (k - begin >= 20) {
                end_band(f, a, begin - 1, x, n);
                a = k;
                n = 0;
                continue;
            }
            for (uint32_t y = begin; y < k; y++)
                x[n++] = (uint16_t)y;
        }
    }
    f->last = begin - 1;
    end_band(f, a, begin - 1, x, n);
}

static inline uint32_t measure_bands(struct plan *s, uint64_t edges)
{
    struct found f = {SUBCARRIERS, SUBCARRIERS, SUBCARRIERS, SUBCARRIERS, 0, 0, 0, 0};
    find_bands(s, edges, &f);
    if (f.narrow < SUBCARRIERS)
        return refuse(s, 9, f.narrow);
    if (!f.wide)
        return refuse(s, 10, 0);
    uint32_t span = f.last - f.first + 1;
    if (5 * f.gone > span)
        return refuse(s, 11, 0);
    if (f.crowded < SUBCARRIERS)
        return refuse(s, 12, f.crowded);
    if (f.long_window < SUBCARRIERS)
        return refuse(s, 13, f.long_window);
    if (f.short_window < SUBCARRIERS)
        return refuse(s, 14, f.short_window);
    s->n = span - f.gone - 16 - s->pilots;
    return s->n > CELLS ? refuse(s, 15, 0) : 0;
}

/* Grounds 6 to 15 of the pilots and the ranges. */
static inline uint32_t judge_ranges(struct plan *s, const uint16_t *rec, const struct ranges *r)
{
    for (int j = 0; j < WORDS; j++)
        s->excluded[j] = r->word[j] | (0 - (r->full >> j & 1));
    uint32_t g = take_pilots(s, rec);
    return g == 0 ? measure_bands(s, r->edges) : g;
}

static uint32_t judge(struct plan *s, const uint8_t *plan, size_t length)
{
    uint16_t rec[PILOTS];
    struct ranges r;
    uint32_t g = read_chain(s, plan, length, rec, &r);
    return g == 0 ? judge_ranges(s, rec, &r) : g;
}

/* The same with one more range, that of a new last record at the end of the chain. A number above 65535, which no record can hold, is
 * above 4095 or above the end. */
static uint32_t judge_with(struct plan *s, const uint8_t *plan, size_t length, uint32_t first, uint32_t last)
{
    uint16_t rec[PILOTS];
    struct ranges r;
    uint32_t g = read_chain(s, plan, length, rec, &r);
    if (g != 0)
        return g;
    if (length == 4096)
        return refuse(s, 1, 0);
    if (last > 4095 || first > last)
        return refuse(s, 4, (uint32_t)(length / 8));
    exclude(&r, first, last);
    return judge_ranges(s, rec, &r);
}

/* --- segments and placeholders --- */

static uint32_t find_segments(const struct plan *s, struct segment *seg)
{
    uint16_t *out = (uint16_t *)seg;
    uint64_t before = 1;
    uint32_t n = 0;
    for (uint32_t j = 0; j < WORDS; j++) {
        uint64_t w = s->taken[j], e = w ^ (w << 1 | before);
        before = w >> 63;
        for (; e != 0; e &= e - 1)
            out[n++] = (uint16_t)(64 * j + (uint32_t)__builtin_ctzll(e));
    }
    return n / 2;
}

/* Of each rank its subcarrier less `base`, modulo 128; 32 bytes past the last are written too. */
static void ramps(const struct segment *seg, uint32_t segments, uint32_t base, uint8_t *to)
{
    uint8_t up[160];
    for (int i = 0; i < 160; i++)
        up[i] = i & 127;
    for (uint32_t i = 0; i < segments; i++) {
        uint32_t n = (uint32_t)(seg[i].end - seg[i].k), k = seg[i].k + SUBCARRIERS - base;
        for (uint32_t j = 0; j < n; j += 32)
            memcpy(to + j, up + ((k + j) & 127), 32);
        to += n;
    }
}

/* The rows with a placeholder: which they are, and 1 in the byte of each column that has one. */
struct hits {
    sixteen lane[129][2];
    uint8_t row[129];
};

/* For each residue d of the row what a cell of each column is to be compared with: (d + 128 c) mod M. */
static inline void find_wanted(uint32_t m, sixteen (*want)[2])
{
    uint8_t column[32];
    for (uint32_t c = 0, v = 0, step = 128 % m; c < 32; c++) {
        column[c] = (uint8_t)v;
        v = v + step < m ? v + step : v + step - m;
    }
    memcpy(want[0], column, 32);
    for (uint32_t d = 1; d < m; d++)
        for (int h = 0; h < 2; h++) {
            sixteen up = want[d - 1][h] + 1;
            want[d][h] = up & (sixteen)(up != (uint8_t)m);
        }
}

/* Compares all cells of a row at once, row after row by rising rank; the answer is how many rows have a placeholder. */
static inline uint32_t find_hits(uint32_t m, uint32_t n, const uint8_t *away, struct hits *hits)
{
    uint32_t full = n >> 7, part = n & 127, rows = 0;
    uint8_t keep[2][32];
    sixteen want[32][2], kept[2][2], x[2];
    uint64_t w[2];
    find_wanted(m, want);
    for (uint32_t c = 0; c < 32; c++) {
        keep[0][c] = c < full;
        keep[1][c] = c <= full;
    }
    memcpy(kept, keep, 64);
    for (uint32_t i = 0; i < 128; i++) {
        uint32_t a = REVERSED[i], more = a < part;
        memcpy(x, away, 32);
        for (int h = 0; h < 2; h++)
            hits->lane[rows][h] = x[h] = (sixteen)(x[h] == want[REST[m][a]][h]) & kept[more][h];
        hits->row[rows] = (uint8_t)a;
        x[0] |= x[1];
        memcpy(w, x, 16);
        rows += (w[0] | w[1]) != 0;
        away += full + more;
    }
    return rows;
}

/* The placeholders of the input symbol at a phase, rising; the answer is how many there are. Cell p, of row a = p mod 128 and column
 * c = p div 128, is one if its subcarrier less L + 8 + phase is p mod M = (a mod M + 128 c) mod M, modulo 128. */
static uint32_t find_holders(const struct plan *s, const struct segment *seg, uint32_t segments, uint32_t phase, uint16_t *holder)
{
    uint8_t away[CELLS + 64];
    uint32_t holders = 0;
    uint64_t words = 0, set[WORDS], w;
    struct hits hits;
    ramps(seg, segments, (s->l + 8 + phase) & 127, away);
    uint32_t rows = find_hits(s->m, s->n, away, &hits);
    memset(set, 0, sizeof set);
    for (uint32_t i = 0; i < 4 * rows; i++) {
        memcpy(&w, (const uint8_t *)hits.lane[i >> 2] + 8 * (i & 3), 8);
        for (w = LITTLE64(w); w != 0; w &= w - 1) {
            uint32_t p = hits.row[i >> 2] + 16 * (64 * (i & 3) + (uint32_t)__builtin_ctzll(w));
            add(set, p);
            words |= (uint64_t)1 << (p >> 6);
        }
    }
    for (; words != 0; words &= words - 1) {
        uint32_t j = (uint32_t)__builtin_ctzll(words);
        for (w = set[j]; w != 0; w &= w - 1)
            holder[holders++] = (uint16_t)(64 * j + (uint32_t)__builtin_ctzll(w));
    }
    return holders;
}

/* --- rows and ranks --- */

#define LOWER(x, y) __builtin_shufflevector(x, y, 0, 8, 1, 9, 2, 10, 3, 11)
#define UPPER(x, y) __builtin_shufflevector(x, y, 4, 12, 5, 13, 6, 14, 7, 15)

/* Eight rows of eight turned into columns. */
static inline void turn(eight *x)
{
    for (int round = 0; round < 3; round++) {
        eight y[8];
        for (int i = 0; i < 4; i++) {
            y[2 * i] = LOWER(x[i], x[i + 4]);
            y[2 * i + 1] = UPPER(x[i], x[i + 4]);
        }
        memcpy(x, y, sizeof y);
    }
}

/* Where in rank order each row begins. */
static void find_starts(uint32_t n, uint16_t *start)
{
    uint32_t rank = 0;
    for (int i = 0; i < 128; i++) {
        start[REVERSED[i]] = (uint16_t)rank;
        rank += (n >> 7) + (REVERSED[i] < (n & 127));
    }
}

/* Cells in cell order put in rank order. */
static void to_ranks(const cell *cells, uint32_t n, uint16_t *line)
{
    uint32_t full = n >> 7, part = n & 127;
    uint16_t start[128];
    find_starts(n, start);
    for (uint32_t a = 0; a < 128; a += 8) {
        uint32_t c = 0;
        eight x[8];
        for (; c + 8 <= full; c += 8) {
            for (uint32_t j = 0; j < 8; j++)
                memcpy(&x[j], cells + 128 * (c + j) + a, 16);
            turn(x);
            for (uint32_t j = 0; j < 8; j++)
                memcpy(line + start[a + j] + c, &x[j], 16);
        }
        if (full & 4) {
            for (uint32_t j = 0; j < 4; j++) {
                memcpy(&x[j], cells + 128 * (c + j) + a, 16);
                x[j + 4] = x[j];
            }
            turn(x);
            for (uint32_t j = 0; j < 8; j++)
                memcpy(line + start[a + j] + c, &x[j], 8);
            c += 4;
        }
        for (; c < full; c++)
            for (uint32_t j = a; j < a + 8; j++)
                line[start[j] + c] = cells[128 * c + j];
        for (uint32_t j = a; j < a + 8 && j < part; j++)
            line[start[j] + full] = cells[128 * full + j];
    }
}

/* Cells in rank order put in cell order. */
static void to_cells(const uint16_t *line, uint32_t n, cell *cells)
{
    uint32_t full = n >> 7, part = n & 127;
    uint16_t start[128];
    find_starts(n, start);
    for (uint32_t a = 0; a < 128; a += 8) {
        uint32_t c = 0;
        eight x[8];
        for (; c + 8 <= full; c += 8) {
            for (uint32_t j = 0; j < 8; j++)
                memcpy(&x[j], line + start[a + j] + c, 16);
            turn(x);
            for (uint32_t j = 0; j < 8; j++)
                memcpy(cells + 128 * (c + j) + a, &x[j], 16);
        }
        for (; c < full; c++)
            for (uint32_t j = a; j < a + 8; j++)
                cells[128 * c + j] = line[start[j] + c];
        for (uint32_t j = a; j < a + 8 && j < part; j++)
            cells[128 * full + j] = line[start[j] + full];
    }
}

/* --- the delay --- */

/* The places of an emitter's store, and of a receiver's. */
static inline uint32_t emitter_places(const struct plan *s)
{
    uint32_t groups = s->n / s->m, rest = s->n % s->m;
    return (groups * s->m * (s->m - 1) + rest * rest - rest) / 2;
}

static inline uint32_t receiver_places(const struct plan *s)
{
    return s->n * (s->m - 1) - emitter_places(s);
}

/* A step moves every place of a store down by one. So before it each cell that comes changes places with the oldest of the next cell that
 * has places, which goes: moved down, it stands behind the places of its own cell. `last` is the cell that has still to be put. Two cells
 * at once, from an even one on, and all of both read before any is put: that takes two thirds of the time.
 *
 * The cells of an emitter have 0, 1, 2 and so on up to `cells` - 1 places from s on. The answer is how many places those are. */
static inline int is_even(const uint16_t *x)
{
    return (uintptr_t)x % 4 == 0;
}

static inline uint32_t exchange_rising(uint32_t cells, cell *s, uint16_t *x, uint16_t *last)
{
    uint32_t at = 0, d = 1;
    uint16_t put = *last;
    while (d < cells) {
        uint16_t oldest = s[at], came = x[d];
        if (is_even(x + d) && d + 1 < cells) {
            uint16_t second = s[at + d], newest = x[d + 1];
            s[at] = put;
            s[at + d] = came;
            x[d] = oldest;
            x[d + 1] = second;
            put = newest;
            at += 2 * d + 1;
            d += 2;
        } else {
            s[at] = put;
            x[d] = oldest;
            put = came;
            at += d++;
        }
    }
    *last = put;
    return at;
}

/* The same of a receiver, whose cells have `most` places, one less and so on: at most `most` cells. */
static inline uint32_t exchange_falling(uint32_t most, uint32_t cells, cell *s, uint16_t *x, uint16_t *last)
{
    uint32_t at = 0, p = 0;
    uint16_t put = *last;
    while (p < cells) {
        uint16_t oldest = s[at], came = x[p];
        uint32_t places = most - p;
        if (is_even(x + p) && p + 1 < cells) {
            uint16_t second = s[at + places], newest = x[p + 1];
            s[at] = put;
            s[at + places] = came;
            x[p] = oldest;
            x[p + 1] = second;
            put = newest;
            at += 2 * places - 1;
            p += 2;
        } else {
            s[at] = put;
            x[p] = oldest;
            put = came;
            at += places;
            p++;
        }
    }
    *last = put;
    return at;
}

/* Moves the cells x into an emitter's store, and the oldest, which go, into x. */
static void move_sent(const struct plan *s, uint8_t *store, uint16_t *x)
{
    uint32_t p = 0, at = 0;
    cell *c = (cell *)store;
    uint16_t last = 0;
    if (s->m == 1)
        return;
    for (; p + s->m <= s->n; p += s->m)
        at += exchange_rising(s->m, c + at, x + p, &last);
    at += exchange_rising(s->n - p, c + at, x + p, &last);
    memmove(store, store + 2, 2 * (at - 1));
    c[at - 1] = last;
}

/* The same of a receiver. */
static void move_received(const struct plan *s, uint8_t *store, uint16_t *x)
{
    uint32_t p = 0, at = 0;
    cell *c = (cell *)store;
    uint16_t last = 0;
    if (s->m == 1)
        return;
    for (; p + s->m <= s->n; p += s->m)
        at += exchange_falling(s->m - 1, s->m - 1, c + at, x + p, &last);
    at += exchange_falling(s->m - 1, s->n - p, c + at, x + p, &last);
    memmove(store, store + 2, 2 * (at - 1));
    c[at - 1] = last;
}

/* --- loads --- */

static inline int any(const void *bytes)
{
    uint64_t w[2];
    memcpy(w, bytes, sizeof w);
    return (w[0] | w[1]) != 0;
}

/* 2 to each of sixteen loads, the lower bytes of them and the upper. */
static inline void powers(sixteen load, sixteen *lower, sixteen *upper)
{
    sixteen no1 = (sixteen)((load & 2) == 0), no2 = (sixteen)((load & 4) == 0), no3 = (sixteen)((load & 8) == 0);
    sixteen p = (load & 1) + 1, twice = p + p;
    p = (p & no1) | ((twice + twice) & ~no1);
    p = (p & no2) | ((sixteen)((eight)p << 4) & ~no2);
    *lower = p & no3;
    *upper = p & ~no3;
}

/* Of each load the bits that its cells may not have, and those that they carry. */
static const uint16_t OVER[16] = {0xFFFE, 0, 0, 0, 0xFFF0, 0, 0xFFC0, 0xFF80, 0xFF00, 0xFE00, 0xFC00, 0xF800, 0xF000, 0xE000, 0xC000, 0};
static const uint16_t CARRIED[16] = {0, 0, 0, 0, 0xF, 0, 0x3F, 0x7F, 0xFF, 0x1FF, 0x3FF, 0x7FF, 0xFFF, 0x1FFF, 0x3FFF, 0};

/* Ground 25; and the least load. */
static uint32_t take_profile(struct plan *s, const uint8_t *profile, size_t length)
{
    sixteen load, wrong = {0}, least = {0};
    if (length != SUBCARRIERS)
        return refuse(s, 25, 0);
    least = ~least;
    for (uint32_t k = 0; k < SUBCARRIERS; k += 16) {
        memcpy(&load, profile + k, 16);
        wrong |= (sixteen)((signed_sixteen)(load + 128) > -114) | (sixteen)((signed_sixteen)(load + 127) < -125) | (sixteen)(load == 5);
        sixteen less = (sixteen)(load < least);
        least = (load & less) | (least & ~less);
    }
    s->least = MOST;
    for (int i = 0; i < 16; i++)
        s->least = least[i] < s->least ? least[i] : s->least;
    if (!any(&wrong))
        return 0;
    for (uint32_t k = 0;; k++)
        if (profile[k] > MOST || (profile[k] != 0 && OVER[profile[k]] == 0))
            return refuse(s, 25, k);
}

/* The loads in rank order; some bytes past the last are written too. */
static void rank_loads(const struct segment *seg, uint32_t segments, const uint8_t *profile, uint8_t *loads)
{
    for (uint32_t i = 0; i < segments; i++) {
        uint32_t k = seg[i].k, n = (uint32_t)(seg[i].end - k);
        for (uint32_t j = 0; j < n; j += 32)
            memcpy(loads + j, profile + k + j, 32);
        loads += n;
    }
}

/* Of each rank the bits that its cell may not have, as it stands in memory. */
static void rank_overs(const struct plan *s, const struct segment *seg, uint32_t segments, const uint8_t *profile, uint16_t *over)
{
    uint8_t loads[CELLS + 64];
    sixteen load, lower, upper;
    rank_loads(seg, segments, profile, loads);
    for (uint32_t r = 0; r < s->n; r += 16) {
        memcpy(&load, loads + r, 16);
        powers(load - (sixteen)(load == 0), &lower, &upper);
        upper = -upper | (sixteen)(lower != 0);
        lower = -lower;
        sixteen first = LOWER_BYTES(upper, lower), last = UPPER_BYTES(upper, lower);
        memcpy(over + r, &first, 16);
        memcpy(over + r + 8, &last, 16);
    }
}

/* The loads in cell order, two bytes each. */
static void cell_loads(const struct plan *s, const struct segment *seg, uint32_t segments, const uint8_t *profile, uint16_t *loads)
{
    uint8_t ranked[CELLS + 64];
    uint16_t line[CELLS + 64];
    rank_loads(seg, segments, profile, ranked);
    uint32_t r = 0;
    do
        line[r] = ranked[r];
    while (++r < s->n); /* there is at least one */
    to_cells(line, s->n, loads);
}

/* --- the symbol on the line --- */

static void marks(const struct plan *s, cell *symbol)
{
    static const uint8_t distances[4] = {15, 24, 35, 47};
    for (uint32_t k = s->l; k < s->l + 8; k++)
        symbol[k] = PLC;
    for (int i = 0; i < 4; i++) {
        symbol[s->l - distances[i]] = CONTINUOUS;
        symbol[s->l + 7 + distances[i]] = CONTINUOUS;
    }
    for (uint32_t i = 0; i < s->pilots; i++)
        symbol[s->pilot[i]] = CONTINUOUS;
}

/* Cells in rank order go to their subcarriers, from the lowest up: a copy that is too long is written over by what comes after. */
static void place(const struct plan *s, const struct segment *seg, uint32_t segments, const uint16_t *line, cell *symbol)
{
    uint32_t end = 0;
    for (uint32_t i = 0; i < segments; i++) {
        uint32_t k = seg[i].k, n = (uint32_t)(seg[i].end - k);
        symbol[end++] = EXCLUDED;
        for (; end < k; end++)
            symbol[end] = EXCLUDED;
        for (uint32_t j = 0; j < n; j += 16)
            memcpy(symbol + k + j, line + j, 32);
        line += n;
        end = seg[i].end;
    }
    for (; end < SUBCARRIERS; end++)
        symbol[end] = EXCLUDED;
    marks(s, symbol);
}

/* Cells in rank order from their subcarriers. The answer is how many cells between them are not the mark of an excluded subcarrier. */
static uint32_t fetch(const struct segment *seg, uint32_t segments, const cell *symbol, uint16_t *line)
{
    uint32_t end = 0;
    uint16_t others = 0;
    for (uint32_t i = 0; i < segments; i++) {
        uint32_t k = seg[i].k, n = (uint32_t)(seg[i].end - k);
        others += symbol[end++] != EXCLUDED;
        for (; end < k; end++)
            others += symbol[end] != EXCLUDED;
        for (uint32_t j = 0; j < n; j += 16)
            memcpy(line + j, symbol + k + j, 32);
        line += n;
        end = seg[i].end;
    }
    for (; end < SUBCARRIERS; end++)
        others += symbol[end] != EXCLUDED;
    return others;
}

/* The mark of a subcarrier at a phase, 0 for data. */
static uint16_t mark(const struct plan *s, uint32_t k, uint32_t phase)
{
    if (!has(s->taken, k))
        return (k - (s->l + 8) - phase) % 128 == 0 ? HOLDER : 0;
    if (has(s->excluded, k))
        return EXCLUDED;
    return k - s->l < 8 ? PLC : CONTINUOUS;
}

/* Whether a cell is filler or has none of these bits. */
static inline int is_data(uint16_t x, uint16_t over)
{
    return (x & over) == 0 || x == FILLER;
}

/* How many cells of the line are no data, by the loads of their ranks. */
static uint32_t count_marks(const struct plan *s, const struct segment *seg, uint32_t segments, const uint8_t *profile,
                            const uint16_t *line)
{
    uint16_t over[CELLS + 64], no_data = 0;
    if (s->least == MOST) {
        for (uint32_t r = 0; r < s->n; r++)
            no_data += !is_data(line[r], NO_DATA);
        return no_data;
    }
    rank_overs(s, seg, segments, profile, over);
    for (uint32_t r = 0; r < s->n; r++)
        no_data += !is_data(line[r], over[r]);
    return no_data;
}

/* Whether every cell is its role's: the cells that are no data are counted, and those that must be marks looked at one by one. */
static int all_right(const struct plan *s, uint32_t phase, const cell *symbol, uint32_t no_data, uint32_t others)
{
    static const uint8_t distances[4] = {15, 24, 35, 47};
    uint16_t wrong = 0, scattered = 0;
    for (uint32_t k = (s->l + 8 + phase) & 127; k < SUBCARRIERS; k += 128) {
        uint16_t ranked = !has(s->taken, k);
        scattered += ranked;
        wrong |= ranked ? symbol[k] ^ HOLDER : 0;
    }
    for (uint32_t k = s->l; k < s->l + 8; k++)
        wrong |= symbol[k] ^ PLC;
    for (int i = 0; i < 4; i++)
        wrong |= (symbol[s->l - distances[i]] ^ CONTINUOUS) | (symbol[s->l + 7 + distances[i]] ^ CONTINUOUS);
    for (uint32_t i = 0; i < s->pilots; i++)
        wrong |= symbol[s->pilot[i]] ^ CONTINUOUS;
    return wrong == 0 && no_data == scattered && others == 16 + s->pilots;
}

/* The lowest subcarrier whose cell is not its role's. */
static uint32_t first_wrong(const struct plan *s, const uint8_t *profile, uint32_t phase, const cell *symbol)
{
    uint32_t k = 0;
    for (;; k++) {
        uint16_t want = mark(s, k, phase);
        if (want == 0 ? !is_data(symbol[k], CELL(OVER[profile[k]])) : symbol[k] != want)
            return k;
    }
}

/* --- data --- */

static inline void fill_filler(cell *x, uint32_t n, const uint16_t *holder, uint32_t holders)
{
    for (uint32_t p = 0; p < n; p++)
        x[p] = FILLER;
    for (uint32_t i = 0; i < holders; i++)
        x[holder[i]] = HOLDER;
}

static inline void fill_data(cell *x, uint32_t n, const uint16_t *holder, uint32_t holders, const cell *data)
{
    uint32_t p = 0;
    for (uint32_t i = 0; i < holders; i++) {
        memcpy(x + p, data, 2 * (holder[i] - p));
        data += holder[i] - p;
        p = holder[i];
        x[p++] = HOLDER;
    }
    memcpy(x + p, data, 2 * (n - p));
}

static inline void take_data(cell *data, const cell *cells, uint32_t n, const uint16_t *holder, uint32_t holders)
{
    uint32_t p = 0;
    for (uint32_t i = 0; i < holders; i++) {
        memcpy(data, cells + p, 2 * (holder[i] - p));
        data += holder[i] - p;
        p = holder[i] + 1u;
    }
    memcpy(data, cells + p, 2 * (n - p));
}

/* --- the reason of a role --- */

/* The first record on the chain that excludes k or makes it a pilot, of an accepted plan in which one does. The second number of
 * a pilot's record is 0. */
static inline uint32_t first_record(const uint8_t *plan, uint32_t k)
{
    uint64_t w = record(plan, 0);
    for (;;) {
        uint32_t i = w >> 32 & 0xffff;
        w = record(plan, i);
        uint32_t first = w >> 16 & 0xffff, second = w & 0xffff;
        if (first == k || (first < k && k <= second))
            return i;
    }
}

/* Whether a predefined pilot stands at this distance. */
static inline int is_distance(uint32_t d)
{
    static const uint64_t all = (uint64_t)1 << 15 | (uint64_t)1 << 24 | (uint64_t)1 << 35 | (uint64_t)1 << 47;
    return d < 64 && (all >> d & 1);
}

/* --- pilots --- */

enum { ALL_PILOTS = 8 + PILOTS };

/* The continuous pilots of an accepted plan, rising: active subcarriers without a rank, but for the PLC. The answer is how many. */
static uint32_t sort_pilots(const struct plan *s, uint16_t *pilot)
{
    uint64_t set[WORDS + 1] = {0};
    uint32_t n = 0, l = s->l;
    for (uint32_t j = 0; j < WORDS; j++)
        set[j] = s->taken[j] & ~s->excluded[j];
    set[l >> 6] &= ~((uint64_t)255 << (l & 63));
    set[(l >> 6) + 1] &= ~((uint64_t)255 >> 1 >> (63 - (l & 63)));
    for (uint32_t j = 0; j < WORDS; j++)
        for (uint64_t w = set[j]; w != 0; w &= w - 1)
            pilot[n++] = (uint16_t)(64 * j + (uint32_t)__builtin_ctzll(w));
    return n;
}

/* The same: the predefined ones are put between those of the chain, which is enough if it names them in rising order. */
static inline uint32_t find_pilots(const struct plan *s, uint16_t *pilot)
{
    static const uint8_t distances[4] = {47, 35, 24, 15};
    uint16_t own[9], falls = 0, before = 0;
    uint32_t n = 0, j = 0;
    for (int i = 0; i < 4; i++) {
        own[i] = (uint16_t)(s->l - distances[i]);
        own[7 - i] = (uint16_t)(s->l + 7 + distances[i]);
    }
    own[8] = SUBCARRIERS; /* behind all others */
    for (uint32_t i = 0; i < s->pilots; i++) {
        uint16_t k = s->pilot[i];
        while (own[j] < k)
            pilot[n++] = own[j++];
        pilot[n++] = k;
        falls |= before > k;
        before = k;
    }
    while (j < 8)
        pilot[n++] = own[j++];
    return falls ? sort_pilots(s, pilot) : n;
}

/* --- the calls --- */

static inline void put(uint8_t *at, uint32_t x)
{
    x = BIG32(x);
    memcpy(at, &x, 4);
}

static uint32_t say(uint8_t *answer, size_t answer_len, uint32_t ground, uint32_t place, uint32_t phase, uint32_t heard, uint32_t value)
{
    if (answer_len >= ANSWER) {
        put(answer, place);
        put(answer + 4, phase);
        put(answer + 8, heard);
        put(answer + 12, value);
    }
    return ground;
}

uint32_t best_judge(const uint8_t *plan, size_t plan_len, uint8_t *answer, size_t answer_len)
{
    struct plan s;
    if (answer_len < ANSWER)
        return 21;
    uint32_t g = judge(&s, plan, plan_len);
    return say(answer, answer_len, g, g == 0 ? 0 : s.place, 0, 0, g == 0 ? s.n : 0);
}

uint32_t best_try(const uint8_t *plan, size_t plan_len, uint32_t first, uint32_t last, uint8_t *answer, size_t answer_len)
{
    struct plan s;
    if (answer_len < ANSWER)
        return 21;
    uint32_t g = judge_with(&s, plan, plan_len, first, last);
    return say(answer, answer_len, g, g == 0 ? 0 : s.place, 0, 0, g == 0 ? s.n : 0);
}

/* Grounds 1 to 16 of a plan, a subcarrier and a phase. */
static uint32_t judge_at(struct plan *s, const uint8_t *plan, size_t plan_len, uint32_t subcarrier, uint32_t phase)
{
    uint32_t g = judge(s, plan, plan_len);
    return g == 0 && (subcarrier >= SUBCARRIERS || phase >= 128) ? refuse(s, 16, 0) : g;
}

uint32_t best_role(const uint8_t *plan, size_t plan_len, uint32_t subcarrier, uint32_t phase, uint8_t *answer, size_t answer_len)
{
    struct plan s;
    uint32_t role = 0;
    if (answer_len < ANSWER)
        return 21;
    uint32_t g = judge_at(&s, plan, plan_len, subcarrier, phase);
    if (g == 0)
        switch (mark(&s, subcarrier, phase)) {
        case EXCLUDED: role = 1; break;
        case PLC: role = 2; break;
        case CONTINUOUS: role = 3; break;
        case HOLDER: role = 4; break;
        default: role = 5;
        }
    return say(answer, answer_len, g, g == 0 ? 0 : s.place, 0, 0, role);
}

uint32_t best_why(const uint8_t *plan, size_t plan_len, uint32_t subcarrier, uint32_t phase, uint8_t *answer, size_t answer_len)
{
    struct plan s;
    if (answer_len < ANSWER)
        return 21;
    uint32_t g = judge_at(&s, plan, plan_len, subcarrier, phase), k = subcarrier;
    if (g != 0)
        return say(answer, answer_len, g, s.place, 0, 0, 0);
    uint32_t below = s.l - k, above = k - (s.l + 7), met = (above - 1) & 127; /* the phase at which the pattern meets it */
    if (!has(s.taken, k))
        return say(answer, answer_len, 0, 0, met, 0, met == phase ? 6 : 7);
    if (has(s.excluded, k))
        return say(answer, answer_len, 0, first_record(plan, k), 0, 0, 1);
    if (k - s.l < 8)
        return say(answer, answer_len, 0, 0, 0, 0, 2);
    if (is_distance(below))
        return say(answer, answer_len, 0, below, 0, 0, 3);
    if (is_distance(above))
        return say(answer, answer_len, 0, above, 0, 0, 4);
    return say(answer, answer_len, 0, first_record(plan, k), 0, 0, 5);
}

uint32_t best_data_count(const uint8_t *plan, size_t plan_len, uint32_t phase, uint8_t *answer, size_t answer_len)
{
    struct plan s;
    struct segment seg[SEGMENTS];
    uint16_t holder[CELLS];
    uint32_t count = 0;
    if (answer_len < ANSWER)
        return 21;
    uint32_t g = judge(&s, plan, plan_len);
    if (g == 0 && phase >= 128)
        g = refuse(&s, 16, 0);
    if (g == 0)
        count = s.n - find_holders(&s, seg, find_segments(&s, seg), phase, holder);
    return say(answer, answer_len, g, g == 0 ? 0 : s.place, 0, 0, count);
}

uint32_t best_pilots(const uint8_t *plan, size_t plan_len, uint8_t *pilots, size_t pilots_len, uint8_t *answer, size_t answer_len)
{
    struct plan s;
    uint16_t pilot[ALL_PILOTS] = {0};
    if (answer_len < ANSWER || pilots_len < sizeof pilot)
        return say(answer, answer_len, 21, 0, 0, 0, 0);
    uint32_t g = judge(&s, plan, plan_len);
    if (g != 0)
        return say(answer, answer_len, g, s.place, 0, 0, 0);
    uint32_t n = find_pilots(&s, pilot);
    for (int i = 0; i < ALL_PILOTS; i++)
        pilot[i] = (uint16_t)CELL(pilot[i]);
    memcpy(pilots, pilot, sizeof pilot);
    return say(answer, answer_len, 0, 0, 0, 0, n);
}

/* Grounds 1 to 16 of a plan, the phase and the symbols heard. */
static uint32_t begin(struct plan *s, const uint8_t *plan, size_t plan_len, uint32_t phase, uint32_t heard)
{
    uint32_t g = judge(s, plan, plan_len);
    if (g != 0)
        return g;
    return phase >= 128 || heard >= s->m ? refuse(s, 16, 0) : 0;
}

/* Of each cell of the symbols before the start the places that hold a placeholder: cell p, of delay d, is one in the symbol `back` steps
 * back if its subcarrier less L + 8 is phase - back + d, modulo 128. */
static void fill_fresh(const struct plan *s, uint32_t phase, cell *store)
{
    struct segment seg[SEGMENTS];
    uint8_t away[CELLS + 64];
    uint16_t start[128];
    ramps(seg, find_segments(s, seg), (s->l + 8) & 127, away);
    find_starts(s->n, start);
    fill_filler(store, emitter_places(s), NULL, 0);
    for (uint32_t p = 0, d = 0; p < s->n; p++) {
        uint32_t back = (phase + d - away[start[p & 127] + (p >> 7)]) & 127;
        store += d;
        if (back - 1 < d)
            *(store - back) = HOLDER;
        d = d + 1 == s->m ? 0 : d + 1;
    }
}

uint32_t best_fresh_emitter(const uint8_t *plan, size_t plan_len, uint32_t phase, uint8_t *store, size_t store_len,
                            uint8_t *answer, size_t answer_len)
{
    struct plan s;
    if (answer_len < ANSWER || store_len % 2 != 0)
        return say(answer, answer_len, 21, 0, 0, 0, 0);
    uint32_t g = begin(&s, plan, plan_len, phase, 0);
    if (g == 0 && store_len / 2 < emitter_places(&s))
        g = refuse(&s, 17, 0);
    if (g != 0)
        return say(answer, answer_len, g, s.place, 0, 0, 0);
    if (s.m > 1)
        fill_fresh(&s, phase, (cell *)store);
    return say(answer, answer_len, 0, 0, phase, 0, 0);
}

uint32_t best_fresh_receiver(const uint8_t *plan, size_t plan_len, uint32_t phase, uint8_t *store, size_t store_len,
                             uint8_t *answer, size_t answer_len)
{
    struct plan s;
    if (answer_len < ANSWER || store_len % 2 != 0)
        return say(answer, answer_len, 21, 0, 0, 0, 0);
    uint32_t g = begin(&s, plan, plan_len, phase, 0);
    if (g == 0 && store_len / 2 < receiver_places(&s))
        g = refuse(&s, 17, 0);
    if (g != 0)
        return say(answer, answer_len, g, s.place, 0, 0, 0);
    fill_filler((cell *)store, receiver_places(&s), NULL, 0);
    return say(answer, answer_len, 0, 0, phase, 0, 0);
}

/* Sends the input symbol: its cells move into the store, and the oldest go onto the line. */
static void send(const struct plan *s, const struct segment *seg, uint32_t segments, uint16_t *cells, uint8_t *store, uint8_t *symbol)
{
    uint16_t line[CELLS + 16];
    move_sent(s, store, cells);
    to_ranks(cells, s->n, line);
    place(s, seg, segments, line, (cell *)symbol);
}

/* The same with the profile, which is tried after the plan. */
static uint32_t begin_loaded(struct plan *s, const uint8_t *plan, size_t plan_len, const uint8_t *profile, size_t profile_len,
                             uint32_t phase, uint32_t heard)
{
    uint32_t g = judge(s, plan, plan_len);
    if (g == 0)
        g = take_profile(s, profile, profile_len);
    if (g != 0)
        return g;
    return phase >= 128 || heard >= s->m ? refuse(s, 16, 0) : 0;
}

/* Whether every cell is within the limit of its load: if all are within that of the least, then at once. */
static int all_within(const struct plan *s, const struct segment *seg, uint32_t segments, const uint8_t *profile, const uint16_t *holder,
                      uint32_t holders, const cell *data, const uint16_t *cells)
{
    uint16_t over[CELLS + 64], by_cell[CELLS], wrong = 0;
    for (uint32_t i = 0; i < s->n - holders; i++)
        wrong |= data[i];
    if ((wrong & CELL(OVER[s->least])) == 0)
        return 1;
    if (s->least == MOST)
        return 0;
    rank_overs(s, seg, segments, profile, over);
    to_cells(over, s->n, by_cell);
    for (uint32_t i = 0; i < holders; i++)
        by_cell[holder[i]] = 0;
    wrong = 0;
    for (uint32_t p = 0; p < s->n; p++)
        wrong |= cells[p] & by_cell[p];
    return wrong == 0;
}

/* The position of the first data cell over the limit of its load. */
static uint32_t first_over(const struct plan *s, const struct segment *seg, uint32_t segments, const uint8_t *profile,
                           const uint16_t *holder, uint32_t holders, const cell *data)
{
    uint16_t by_cell[CELLS], loads[CELLS];
    uint32_t i = 0;
    cell_loads(s, seg, segments, profile, by_cell);
    take_data(loads, by_cell, s->n, holder, holders);
    while (!(data[i] & CELL(OVER[loads[i]])))
        i++;
    return i;
}

uint32_t best_emit(const uint8_t *plan, size_t plan_len, const uint8_t *profile, size_t profile_len, uint32_t phase, uint8_t *store,
                   size_t store_len, const uint8_t *data, size_t data_len, uint8_t *symbol, size_t symbol_len, uint8_t *answer,
                   size_t answer_len)
{
    struct plan s;
    struct segment seg[SEGMENTS];
    uint16_t holder[CELLS], cells[CELLS];
    const cell *x = (const cell *)data;
    if (answer_len < ANSWER || (store_len | data_len | symbol_len) % 2 != 0)
        return say(answer, answer_len, 21, 0, phase, 0, 0);
    uint32_t g = begin_loaded(&s, plan, plan_len, profile, profile_len, phase, 0);
    if (g == 0 && (store_len / 2 < emitter_places(&s) || symbol_len != 2 * SUBCARRIERS))
        g = refuse(&s, 17, 0);
    if (g != 0)
        return say(answer, answer_len, g, s.place, phase, 0, 0);
    uint32_t segments = find_segments(&s, seg), holders = find_holders(&s, seg, segments, phase, holder);
    if (data_len / 2 != s.n - holders)
        return say(answer, answer_len, 18, 0, phase, 0, 0);
    fill_data(cells, s.n, holder, holders, x);
    if (!all_within(&s, seg, segments, profile, holder, holders, x, cells))
        return say(answer, answer_len, 19, first_over(&s, seg, segments, profile, holder, holders, x), phase, 0, 0);
    send(&s, seg, segments, cells, store, symbol);
    return say(answer, answer_len, 0, 0, (phase + 1) & 127, 0, 0);
}

uint32_t best_flush(const uint8_t *plan, size_t plan_len, uint32_t phase, uint8_t *store, size_t store_len, uint8_t *symbol,
                    size_t symbol_len, uint8_t *answer, size_t answer_len)
{
    struct plan s;
    struct segment seg[SEGMENTS];
    uint16_t holder[CELLS], cells[CELLS];
    if (answer_len < ANSWER || (store_len | symbol_len) % 2 != 0)
        return say(answer, answer_len, 21, 0, phase, 0, 0);
    uint32_t g = begin(&s, plan, plan_len, phase, 0);
    if (g == 0 && (store_len / 2 < emitter_places(&s) || symbol_len != 2 * SUBCARRIERS))
        g = refuse(&s, 17, 0);
    if (g != 0)
        return say(answer, answer_len, g, s.place, phase, 0, 0);
    uint32_t segments = find_segments(&s, seg), holders = find_holders(&s, seg, segments, phase, holder);
    fill_filler(cells, s.n, holder, holders);
    send(&s, seg, segments, cells, store, symbol);
    return say(answer, answer_len, 0, 0, (phase + 1) & 127, 0, 0);
}

uint32_t best_receive(const uint8_t *plan, size_t plan_len, const uint8_t *profile, size_t profile_len, uint32_t phase, uint32_t heard,
                      uint8_t *store, size_t store_len, const uint8_t *symbol, size_t symbol_len, uint8_t *data, size_t data_len,
                      uint8_t *answer, size_t answer_len)
{
    struct plan s;
    struct segment seg[SEGMENTS];
    uint16_t holder[CELLS], cells[CELLS], line[CELLS + 16];
    uint32_t holders = 0, count = 0;
    if (answer_len < ANSWER || (store_len | symbol_len | data_len) % 2 != 0)
        return say(answer, answer_len, 21, 0, phase, heard, 0);
    uint32_t g = begin_loaded(&s, plan, plan_len, profile, profile_len, phase, heard);
    if (g == 0 && (store_len / 2 < receiver_places(&s) || symbol_len != 2 * SUBCARRIERS))
        g = refuse(&s, 17, 0);
    if (g != 0)
        return say(answer, answer_len, g, s.place, phase, heard, 0);
    uint32_t segments = find_segments(&s, seg), warming = heard + 1 < s.m;
    if (!warming) {
        holders = find_holders(&s, seg, segments, (phase + 129 - s.m) & 127, holder);
        count = s.n - holders;
        if (data_len / 2 < count)
            return say(answer, answer_len, 17, 0, phase, heard, 0);
    }
    uint32_t others = fetch(seg, segments, (const cell *)symbol, line);
    uint32_t no_data = count_marks(&s, seg, segments, profile, line);
    if (!all_right(&s, phase, (const cell *)symbol, no_data, others))
        return say(answer, answer_len, 20, first_wrong(&s, profile, phase, (const cell *)symbol), phase, heard, 0);
    to_cells(line, s.n, cells);
    move_received(&s, store, cells);
    if (!warming)
        take_data((cell *)data, cells, s.n, holder, holders);
    return say(answer, answer_len, 0, 0, (phase + 1) & 127, heard + warming, count);
}

/* --- filling and the way back --- */

/* A symbol's bits lie in a buffer of their own while they move: 3,745 cells of 14 bits, up to seven before, and room for eight bytes more
 * than are used. */
enum { BITS_ROOM = (CELLS * MOST + 7) / 8 + 16 };

static inline uint64_t eight_bytes(const uint8_t *at)
{
    uint64_t w;
    memcpy(&w, at, 8);
    return LITTLE64(w);
}

static inline void put_eight(uint8_t *at, uint64_t w)
{
    w = LITTLE64(w);
    memcpy(at, &w, 8);
}

/* What both are given, tried: grounds 1 to 15, 25, 16, 18 and 26. The loads of the data cells, four more of load 0, and their sum. */
static uint32_t begin_bits(struct plan *s, const uint8_t *plan, size_t plan_len, const uint8_t *profile, size_t profile_len, uint32_t phase,
                           size_t data_len, size_t stream_len, size_t start, uint16_t *loads, uint32_t *bits)
{
    struct segment seg[SEGMENTS];
    uint16_t holder[CELLS], by_cell[CELLS];
    uint32_t g = begin_loaded(s, plan, plan_len, profile, profile_len, phase, 0), sum = 0;
    if (g != 0)
        return g;
    uint32_t segments = find_segments(s, seg), holders = find_holders(s, seg, segments, phase, holder), count = s->n - holders;
    if (data_len / 2 != count)
        return refuse(s, 18, 0);
    if (s->least == MOST) {
        sum = MOST * count;
    } else {
        cell_loads(s, seg, segments, profile, by_cell);
        take_data(loads, by_cell, s->n, holder, holders);
        memset(loads + count, 0, 8);
        for (uint32_t i = 0; i < count; i++)
            sum += loads[i];
    }
    *bits = sum;
    if (sum != 0 && (start >> 3 >= stream_len || ((sum + (start & 7) + 7) >> 3) > stream_len - (start >> 3)))
        return refuse(s, 26, 0);
    return 0;
}

/* Four cells of load 14 from the lower bits of w, as they stand in memory, and back. */
static inline uint64_t spread(uint64_t w)
{
    const uint64_t m = 0x3FFF;
    return (w << 48 & m << 48) | (w << 18 & m << 32) | (w >> 12 & m << 16) | (w >> 42 & m);
}

static inline uint64_t gather(uint64_t y)
{
    const uint64_t m = 0x3FFF;
    return (y >> 48 & m) | (y >> 18 & m << 14) | (y << 12 & m << 28) | (y << 42 & m << 42);
}

/* Cells of load 14, from bit `odd` of the first byte on: four of them are seven bytes. */
static void fill_fourteens(const uint8_t *from, uint32_t odd, uint32_t count, cell *data)
{
    uint32_t i = 0;
    for (; i + 4 <= count; i += 4, from += 7) {
        uint64_t y = BIG64(spread(eight_bytes(from) >> odd));
        memcpy(data + i, &y, 8);
    }
    uint64_t w = eight_bytes(from) >> odd;
    for (; i < count; i++, w >>= 14) {
        uint16_t x = w & 0x3FFF;
        data[i] = CELL(x);
    }
}

/* Cells of any loads, four at a time: at most 56 bits. `loads` has four more of 0, and `data` room for as many cells as there are. */
static void fill_loads(const uint8_t *from, uint32_t odd, const uint16_t *loads, uint32_t count, cell *data)
{
    uint32_t at = odd, i = 0;
    for (; i + 4 <= count; i += 4) {
        const uint16_t *l = loads + i;
        uint64_t w = eight_bytes(from + (at >> 3)) >> (at & 7), v = w >> (l[0] + l[1]), y;
        y = (w & CARRIED[l[0]]) << 48 | (w >> l[0] & CARRIED[l[1]]) << 32 | (v & CARRIED[l[2]]) << 16 | (v >> l[2] & CARRIED[l[3]]);
        y = BIG64(y);
        memcpy(data + i, &y, 8);
        at += (uint32_t)(l[0] + l[1]) + l[2] + l[3];
    }
    for (; i < count; i++) {
        uint16_t x = (uint16_t)(eight_bytes(from + (at >> 3)) >> (at & 7)) & CARRIED[loads[i]];
        data[i] = CELL(x);
        at += loads[i];
    }
}

/* Puts cells of load 14 behind the `odd` bits that the first byte has; answers the bits that none of them may have. */
static uint16_t unfill_fourteens(const cell *data, uint32_t count, uint32_t odd, uint8_t *to)
{
    uint64_t kept = *to & ((1u << odd) - 1), y;
    uint16_t over = 0;
    uint32_t i = 0;
    for (uint32_t j = 0; j < count; j++)
        over |= data[j];
    for (; i + 4 <= count; i += 4, to += 7) {
        memcpy(&y, data + i, 8);
        kept |= gather(BIG64(y)) << odd;
        put_eight(to, kept);
        kept >>= 56;
    }
    for (; i < count; i++, odd += 14)
        kept |= (uint64_t)(CELL(data[i]) & 0x3FFF) << odd;
    put_eight(to, kept);
    return over & NO_DATA;
}

/* Four cells of any loads put behind `odd` bits that are kept; `over` collects the bits that they do not carry. */
static inline uint64_t join(const cell *data, const uint16_t *l, uint64_t kept, uint32_t odd, uint16_t *over)
{
    uint16_t a = CELL(data[0]), b = CELL(data[1]), c = CELL(data[2]), d = CELL(data[3]);
    uint16_t u = a & CARRIED[l[0]], v = b & CARRIED[l[1]], w = c & CARRIED[l[2]], x = d & CARRIED[l[3]];
    *over |= (uint16_t)((a ^ u) | (b ^ v) | (c ^ w) | (d ^ x));
    uint64_t first = (uint64_t)u | (uint64_t)v << l[0], second = (uint64_t)w | (uint64_t)x << l[2];
    return kept | (first | second << (l[0] + l[1])) << odd;
}

/* The same of any loads. `loads` has four more of 0, and no cell is read for them. */
static uint16_t unfill_loads(const cell *data, const uint16_t *loads, uint32_t count, uint32_t odd, uint8_t *to)
{
    uint64_t kept = *to & ((1u << odd) - 1);
    uint16_t over = 0, last[4] = {0, 0, 0, 0};
    uint32_t i = 0;
    for (; i + 4 <= count; i += 4) {
        const uint16_t *l = loads + i;
        uint32_t all = odd + l[0] + l[1] + l[2] + l[3];
        kept = join(data + i, l, kept, odd, &over);
        put_eight(to, kept);
        to += all >> 3;
        kept >>= all & 56;
        odd = all & 7;
    }
    memcpy(last, data + i, 2 * (count - i));
    put_eight(to, join(last, loads + i, kept, odd, &over));
    return over & 0xFFFE; /* bit 0 is that of a cell with load 0 */
}

uint32_t best_fill(const uint8_t *plan, size_t plan_len, const uint8_t *profile, size_t profile_len, uint32_t phase, const uint8_t *stream,
                   size_t stream_len, size_t start, uint8_t *data, size_t data_len, uint8_t *answer, size_t answer_len)
{
    struct plan s;
    uint16_t loads[CELLS + 4];
    uint8_t from[BITS_ROOM];
    uint32_t bits = 0, odd = start & 7;
    if (answer_len < ANSWER || data_len % 2 != 0)
        return say(answer, answer_len, 21, 0, 0, 0, 0);
    uint32_t g = begin_bits(&s, plan, plan_len, profile, profile_len, phase, data_len, stream_len, start, loads, &bits);
    if (g != 0)
        return say(answer, answer_len, g, s.place, 0, 0, 0);
    size_t bytes = bits == 0 ? 0 : (odd + bits + 7) >> 3;
    if (bytes != 0)
        memcpy(from, stream + (start >> 3), bytes);
    memset(from + bytes, 0, 8);
    if (s.least == MOST)
        fill_fourteens(from, odd, (uint32_t)(data_len / 2), (cell *)data);
    else
        fill_loads(from, odd, loads, (uint32_t)(data_len / 2), (cell *)data);
    return say(answer, answer_len, 0, 0, 0, 0, bits);
}

uint32_t best_unfill(const uint8_t *plan, size_t plan_len, const uint8_t *profile, size_t profile_len, uint32_t phase, const uint8_t *data,
                     size_t data_len, size_t start, uint8_t *stream, size_t stream_len, uint8_t *answer, size_t answer_len)
{
    struct plan s;
    uint16_t loads[CELLS + 4], holder[CELLS];
    struct segment seg[SEGMENTS];
    uint8_t to[BITS_ROOM];
    uint32_t bits = 0, odd = start & 7, count = (uint32_t)(data_len / 2);
    const cell *x = (const cell *)data;
    if (answer_len < ANSWER || data_len % 2 != 0)
        return say(answer, answer_len, 21, 0, 0, 0, 0);
    uint32_t g = begin_bits(&s, plan, plan_len, profile, profile_len, phase, data_len, stream_len, start, loads, &bits);
    if (g != 0)
        return say(answer, answer_len, g, s.place, 0, 0, 0);
    size_t bytes = bits == 0 ? 0 : (odd + bits + 7) >> 3;
    uint8_t *at = bytes == 0 ? NULL : stream + (start >> 3), last = bytes == 0 ? 0 : at[bytes - 1];
    to[0] = bytes == 0 ? 0 : at[0];
    uint16_t over = s.least == MOST ? unfill_fourteens(x, count, odd, to) : unfill_loads(x, loads, count, odd, to);
    if (over != 0) {
        uint32_t segments = find_segments(&s, seg), holders = find_holders(&s, seg, segments, phase, holder);
        return say(answer, answer_len, 19, first_over(&s, seg, segments, profile, holder, holders, x), 0, 0, 0);
    }
    if (bytes != 0) {
        uint32_t used = (odd + bits) & 7; /* bits of the last byte */
        memcpy(at, to, bytes);
        if (used != 0)
            at[bytes - 1] = (uint8_t)((to[bytes - 1] & ((1u << used) - 1)) | (last & ~((1u << used) - 1)));
    }
    return say(answer, answer_len, 0, 0, 0, 0, bits);
}

/* --- the pilot lamp --- */

/* Eight counts stand in the bytes of a word. */
enum { CAP = 128 };
#define IN_EACH ((uint64_t)0x0101010101010101)

/* Ground 28, but for the length. Of eight counts every other one is taken from 256 and the first: bit 8 stays if it is not above the
 * first. */
static inline int wrong_counts(const uint8_t *record, uint32_t n)
{
    const uint64_t others = (uint64_t)0x00ff00ff00ff00ff, first = (256u + record[0]) * (uint64_t)0x0001000100010001;
    uint64_t right = ~(uint64_t)0;
    uint32_t i = 0, wrong = record[0] > CAP;
    for (; i + 8 <= n; i += 8) {
        uint64_t w = eight_bytes(record + 1 + i);
        right &= (first - (w & others)) & (first - (w >> 8 & others));
    }
    for (; i < n; i++)
        wrong |= record[1 + i] > record[0];
    return wrong || (~right & (uint64_t)0x0100010001000100) != 0;
}

/* Of eight pilots a 1 in the byte of each that holds the mark. */
static inline uint64_t held_by(const cell *symbol, const uint16_t *pilot)
{
    uint64_t held = 0;
    for (int i = 0; i < 8; i++)
        held |= (uint64_t)(symbol[pilot[i]] == CONTINUOUS) << 8 * i;
    return held;
}

/* Eight counts after a symbol. Of 1 to 129 only 129 has both its highest and its lowest bit. */
static inline uint64_t advance(uint64_t counts, uint64_t held)
{
    counts += IN_EACH;
    counts -= counts >> 7 & counts & IN_EACH;
    return counts & ((held << 8) - held);
}

/* A 1 in each byte that is the first count. */
static inline uint64_t lit(uint64_t counts, uint64_t first)
{
    uint64_t apart = counts ^ first * IN_EACH;
    return ~(((apart & 127 * IN_EACH) + 127 * IN_EACH) | apart) >> 7 & IN_EACH;
}

uint32_t best_lamp(const uint8_t *plan, size_t plan_len, const uint8_t *symbol, size_t symbol_len, uint8_t *record, size_t record_len,
                   uint8_t *lights, size_t lights_len, uint8_t *answer, size_t answer_len)
{
    struct plan s;
    uint16_t pilot[ALL_PILOTS];
    const cell *x = (const cell *)symbol;
    if (answer_len < ANSWER || symbol_len % 2 != 0 || lights_len < ALL_PILOTS)
        return say(answer, answer_len, 21, 0, 0, 0, 0);
    uint32_t g = judge(&s, plan, plan_len), i = 0;
    if (g != 0)
        return say(answer, answer_len, g, s.place, 0, 0, 0);
    uint32_t n = 8 + s.pilots;
    if (record_len != n + 1 || wrong_counts(record, n))
        return say(answer, answer_len, 28, 0, 0, 0, 0);
    if (symbol_len != 2 * SUBCARRIERS)
        return say(answer, answer_len, 17, 0, 0, 0, 0);
    find_pilots(&s, pilot);
    uint8_t first = record[0] < CAP ? record[0] + 1 : CAP;
    record[0] = first;
    memset(lights, 0, ALL_PILOTS);
    for (; i + 8 <= n; i += 8) {
        uint64_t counts = advance(eight_bytes(record + 1 + i), held_by(x, pilot + i));
        put_eight(record + 1 + i, counts);
        put_eight(lights + i, lit(counts, first));
    }
    for (; i < n; i++) {
        uint8_t count = record[1 + i], held = x[pilot[i]] == CONTINUOUS;
        record[1 + i] = (uint8_t)((count + (count < CAP)) & -held);
        lights[i] = record[1 + i] == first;
    }
    return say(answer, answer_len, 0, 0, 0, 0, n);
}

/* --- the modulator --- */

typedef double two __attribute__((vector_size(16)));

/* The two numbers of each value at each load, at 2^load + value. Where those of loads 3 and 5 would be, which are not listed, stand those
 * of the marks, at MARK + mark - 0x8000, and with the minus sign at MINUS more. Made once, as the program starts. */
enum { MARK = 8, MINUS = 32, OPEN = MARK + 4, ALL_LINES = 32768 };
static float LINE[ALL_LINES][2];

/* 1 / root d of the loads 1 to 14. */
static const float FACTOR[15] = {0.0f,       1.0f,        0.70710677f, 0.4472136f,   0.31622776f,  0.2236068f,   0.15430336f, 0.11043153f,
                                 0.0766965f, 0.05504819f, 0.03829198f, 0.027503267f, 0.019138975f, 0.013749033f, 0.009568611f};

/* Gray_m of m bits. */
static int gray(uint32_t m, uint32_t x)
{
    int inner = m == 0 ? 0 : m == 1 ? 1 : (1 << (m - 1)) + gray(m - 1, x >> 1);
    return x & 1 ? -inner : inner;
}

/* The cross rule for 2n + 1 bits, of the rectangle's point. */
static void cross(uint32_t n, int *i, int *q)
{
    int s = 1 << (n - 1), a = *i < 0 ? -*i : *i, b = *q < 0 ? -*q : *q, far = b > s;
    if (a < 3 * s)
        return;
    a = far ? a - 2 * s : 4 * s - a;
    b = far ? 4 * s - b : b + 2 * s;
    *i = *i < 0 ? -a : a;
    *q = *q < 0 ? -b : b;
}

static void make_point(uint32_t load, uint32_t value)
{
    float *at = LINE[(1u << load) + value];
    uint32_t n = load / 2, odd = load % 2;
    int lower = gray(n, value & ((1u << n) - 1)), upper = gray(n + odd, value >> n);
    if (load > 1 && odd)
        cross(n, &upper, &lower);
    at[0] = (float)(odd ? upper : lower) * FACTOR[load];
    at[1] = (float)(odd ? lower : upper) * FACTOR[load];
}

static int load_listed(uint32_t load)
{
    return load >= 1 && load <= 14 && load != 3 && load != 5;
}

__attribute__((constructor)) static void make_lines(void)
{
    for (uint32_t load = 1; load <= 14; load++)
        for (uint32_t value = 0; load_listed(load) && value < 1u << load; value++)
            make_point(load, value);
    for (uint32_t pilot = 0; pilot <= 3; pilot += 3) {
        LINE[MARK + pilot][0] = 2.0f;
        LINE[MARK + MINUS + pilot][0] = -2.0f;
    }
}

/* Of eight cells with 2 to their loads, and MINUS where the sign is minus, the indices in LINE. `over` collects bits of unmarked cells that
 * are not below 2 to the load. */
static inline eight indices(eight cells, eight power, eight minus, eight *over)
{
    eight marked = (eight)((signed_eight)cells < (int16_t)-0x7FFB);
    *over |= cells & -power & ~marked;
    return ((cells | power) & ~marked) | ((cells - 0x8000 + MARK + minus) & marked);
}

/* Of each subcarrier the index in LINE, and of each sixteen whether one is left open. Answers whether nothing refuses. */
static int find_lines(const uint8_t *symbol, const uint8_t *loads, const uint8_t *minus, uint16_t *index, uint8_t *open)
{
    const sixteen zero = {0};
    sixteen unlisted = {0}, load, sign, lower, upper;
    eight over = {0}, a, b;
    for (uint32_t k = 0; k < SUBCARRIERS; k += 16) {
        memcpy(&load, loads + k, 16);
        memcpy(&sign, minus + k, 16);
        memcpy(&a, symbol + 2 * k, 16);
        memcpy(&b, symbol + 2 * k + 16, 16);
        a = CELL(a);
        b = CELL(b);
        unlisted |= (sixteen)((signed_sixteen)(load + 127) > -115) | (sixteen)(load == 3) | (sixteen)(load == 5);
        powers(load, &lower, &upper);
        sign = (sixteen)(sign != 0) & MINUS;
        eight opened = (eight)(a == 0x8004) | (eight)(b == 0x8004);
        open[k / 16] = (uint8_t)any(&opened);
        a = indices(a, (eight)LOWER_BYTES(lower, upper), (eight)LOWER_BYTES(sign, zero), &over);
        b = indices(b, (eight)UPPER_BYTES(lower, upper), (eight)UPPER_BYTES(sign, zero), &over);
        memcpy(index + k, &a, 16);
        memcpy(index + k + 8, &b, 16);
    }
    return !any(&unlisted) && !any(&over);
}

static inline double both(uint16_t index)
{
    double d;
    memcpy(&d, LINE[index], sizeof d);
    return d;
}

static void put_lines(const uint16_t *index, const uint8_t *open, float *numbers)
{
    for (uint32_t k = 0; k < SUBCARRIERS; k += 2) {
        if (!open[k / 16]) {
            two lines = {both(index[k]), both(index[k + 1])};
            memcpy(numbers + 2 * k, &lines, sizeof lines);
            continue;
        }
        for (uint32_t i = k; i < k + 2; i++)
            if ((index[i] & ~MINUS) != OPEN)
                memcpy(numbers + 2 * i, LINE[index[i]], sizeof LINE[0]);
    }
}

/* The refusal by 22 or 23 of the lowest subcarrier that gives one. */
static uint32_t refuse_line(const uint8_t *symbol, const uint8_t *loads, uint8_t *answer)
{
    for (uint32_t k = 0;; k++) {
        uint32_t cell = (uint32_t)symbol[2 * k] << 8 | symbol[2 * k + 1];
        if (!load_listed(loads[k]))
            return say(answer, ANSWER, 22, loads[k], 0, 0, k);
        if (cell - 0x8000 > 4 && cell >= 1u << loads[k])
            return say(answer, ANSWER, 23, cell, 0, 0, k);
    }
}

uint32_t best_modulate(const uint8_t *symbol, size_t symbol_len, const uint8_t *loads, size_t loads_len, const uint8_t *minus,
                       size_t minus_len, float *numbers, size_t numbers_count, uint8_t *answer, size_t answer_len)
{
    uint16_t index[SUBCARRIERS];
    uint8_t open[SUBCARRIERS / 16];
    if (answer_len < ANSWER || symbol_len % 2 != 0)
        return say(answer, answer_len, 21, 0, 0, 0, 0);
    if (symbol_len != 2 * SUBCARRIERS || loads_len != SUBCARRIERS || minus_len != SUBCARRIERS || numbers_count != 2 * SUBCARRIERS)
        return say(answer, answer_len, 17, 0, 0, 0, 0);
    if (!find_lines(symbol, loads, minus, index, open))
        return refuse_line(symbol, loads, answer);
    put_lines(index, open, numbers);
    return say(answer, answer_len, 0, 0, 0, 0, 0);
}
