/*
 * Times and bytes of tables with the same rows: the proved image by rows and by words, a tree bitmap in C, and,
 * where bench/run finds DPDK, its rte_lpm and rte_fib.
 *
 *     lookup [PREFIXES [ROUNDS [SEED]]]
 *
 * bench/tables.c says how rows lie, and which addresses a mix has. In each round each way looks up all addresses
 * of the mix, one way after another, and its time is compared with that of the first way of DPDK, or else of the
 * tree bitmap, in the same round. So other work on the machine counts as little as it can.
 *
 * Every answer is compared with the proved image's, and after the patches again; the image's first answers are
 * compared with a scan of all rows.
 */
#define _GNU_SOURCE
#include "lookup.h"

#include <inttypes.h>
#include <malloc.h>
#include <stdarg.h>
#include <stdio.h>
#include <stdlib.h>
#include <string.h>
#include <time.h>

enum {
    SCANNED = 1 << 28,   /* rows that scans try at most */
    PATCHES = 100000,    /* patches of one row whose mean is taken, at most */
    MOST_ROUNDS = 100,
    COLD_ROUNDS = 21,
    STRIDE = 4,          /* address bits a node of a tree bitmap */
    NONE = UINT32_MAX,   /* no node, no row */
};

void stop(const char *format, ...)
{
    va_list values;
    va_start(values, format);
    fputs("lookup: ", stderr);
    vfprintf(stderr, format, values);
    fputc('\n', stderr);
    va_end(values);
    exit(1);
}

static void *granted(void *room)
{
    if (!room)
        stop("memory was refused");
    return room;
}

void *ample(size_t count, size_t size)
{
    return granted(calloc(count ? count : 1, size));
}

static bool covers(const table_row *row, uint32_t addr)
{
    return (addr & mask(row->len)) == row->addr;
}

/* The longest match by trying each row. */
static table_row scan(const table *t, uint32_t addr)
{
    table_row best = NO_MATCH;
    for (size_t i = 0; i < t->count; i++) {
        const table_row *row = &t->rows[i];
        if (covers(row, addr) && (best.kind == TUHVONDI_NO_ROW || best.len < row->len))
            best = *row;
    }
    return best;
}

/* The proved image. */

static struct tuhvondi_image image = TUHVONDI_NO_IMAGE;
static uint64_t generation;

static void image_done(uint32_t status)
{
    if (status)
        stop("the proved image: %s", tuhvondi_status_text(status));
}

static void image_make(const table *t)
{
    image_done(tuhvondi_image_new(t->rows, t->count, &image));
}

static void image_patch(const table *t, uint32_t n)
{
    image_done(tuhvondi_image_apply(&image, ++generation, &t->rows[t->count + n], 1));
}

/* All that malloc gave and has not got back; large blocks are counted apart. */
static size_t image_held(void)
{
    struct mallinfo2 info = mallinfo2();
    return info.uordblks + info.hblkhd;
}

static void image_look_up(const uint32_t *addrs, table_row *answers, size_t count)
{
    image_done(tuhvondi_image_lookup(&image, addrs, count, answers, count));
}

static void image_one_by_one(const uint32_t *addrs, table_row *answers, size_t count)
{
    for (size_t i = 0; i < count; i++)
        image_look_up(&addrs[i], &answers[i], 1);
}

static void image_by_bursts(const uint32_t *addrs, table_row *answers, size_t count)
{
    for (size_t done = 0; done < count; done += BURST)
        image_look_up(&addrs[done], &answers[done], least(count - done, BURST));
}

static void image_end(void)
{
    tuhvondi_image_free(&image);
}

static const way IMAGE = {
    .name = "proved image, rows",
    .make = image_make,
    .patch = image_patch,
    .held = image_held,
    .calls = { image_one_by_one, image_by_bursts },
    .end = image_end,
};

/* The proved image with words. */

static struct tuhvondi_image worded = TUHVONDI_NO_IMAGE;
static const table *numbered; /* the rows by their numbers */
static uint32_t hops[BATCH];

uint32_t *numbers(size_t count)
{
    uint32_t *all = ample(count, sizeof *all);
    for (size_t i = 0; i < count; i++)
        all[i] = (uint32_t)i;
    return all;
}

static void words_make(const table *t)
{
    uint32_t *all = numbers(t->count);
    numbered = t;
    image_done(tuhvondi_image_new_words(t->rows, t->count, all, t->count, &worded));
    free(all);
}

static void words_patch(const table *t, uint32_t n)
{
    uint32_t hop = (uint32_t)t->count + n;
    image_done(tuhvondi_image_apply_words(&worded, ++generation, &t->rows[hop], 1, &hop, 1));
}

static void words_one_by_one(const uint32_t *addrs, table_row *answers, size_t count)
{
    (void)answers;
    for (size_t i = 0; i < count; i++)
        image_done(tuhvondi_image_lookup_words(&worded, &addrs[i], 1, &hops[i], 1));
}

static void words_by_bursts(const uint32_t *addrs, table_row *answers, size_t count)
{
    (void)answers;
    for (size_t done = 0; done < count; done += BURST) {
        size_t some = least(count - done, BURST);
        image_done(tuhvondi_image_lookup_words(&worded, &addrs[done], some, &hops[done], some));
    }
}

static void words_read(table_row *answers, size_t count)
{
    for (size_t i = 0; i < count; i++)
        answers[i] = hops[i] == TUHVONDI_NO_WORD ? NO_MATCH : numbered->rows[hops[i]];
    memset(hops, 0, count * sizeof *hops);
}

static void words_end(void)
{
    tuhvondi_image_free(&worded);
}

static const way WORDS = {
    .name = "proved image, words",
    .make = words_make,
    .patch = words_patch,
    .held = image_held,
    .calls = { words_one_by_one, words_by_bursts },
    .read = words_read,
    .end = words_end,
};

/* A table in C has rows of its own. */
static table_row *copy_rows(const table *t)
{
    return memcpy(ample(t->count, sizeof *t->rows), t->rows, t->count * sizeof *t->rows);
}

/*
 * A tree bitmap: four address bits a node. Bit 2^n - 1 + v of `internal` is the prefix of the
 * node's n bits with the value v, bit v of `external` the child of those four bits.
 */

typedef struct {
    uint16_t internal;
    uint16_t external;
    uint32_t children;
    uint32_t results;
} bitmap_node;

static struct {
    bitmap_node *nodes;
    uint32_t node_count;
    uint32_t *results;
    uint32_t result_count;
    table_row *rows;
} bitmap;

/* The prefixes within a node that cover four bits: one of each length 0 to 3. */
static uint16_t covering[16];

static uint32_t internal_bit(uint32_t four, uint32_t len)
{
    return (1u << len) - 1 + (four >> (STRIDE - len));
}

/* How many bits of a bitmap are set below a bit. */
static uint32_t rank(uint32_t bits, uint32_t bit)
{
    return (uint32_t)__builtin_popcount(bits & ((1u << bit) - 1));
}

/* The four bits of an address that a node reads; after the last bit there are zeros. */
static uint32_t four_at(uint32_t addr, uint32_t depth)
{
    return depth < 8 ? addr >> (28 - STRIDE * depth) & 15 : 0;
}

/* Fills in the node of the rows from `from` to `to`, which agree in their first 4 * depth bits. */
static void fill_node(uint32_t at, size_t from, size_t to, uint32_t depth)
{
    uint32_t at_bit[15], first[16], last[16];
    bitmap_node node = { .children = bitmap.node_count, .results = bitmap.result_count };
    memset(at_bit, 0xff, sizeof at_bit);
    memset(first, 0xff, sizeof first);
    for (size_t i = from; i < to; i++) {
        const table_row *row = &bitmap.rows[i];
        uint32_t four = four_at(row->addr, depth);
        if (row->len < STRIDE * depth + STRIDE) {
            uint32_t bit = internal_bit(four, row->len - STRIDE * depth);
            node.internal |= (uint16_t)(1u << bit);
            at_bit[bit] = (uint32_t)i;
        } else {
            if (first[four] == NONE)
                first[four] = (uint32_t)i;
            last[four] = (uint32_t)i + 1;
            node.external |= (uint16_t)(1u << four);
        }
    }
    for (uint32_t bit = 0; bit < 15; bit++)
        if (at_bit[bit] != NONE)
            bitmap.results[bitmap.result_count++] = at_bit[bit];
    bitmap.node_count += (uint32_t)__builtin_popcount(node.external);
    bitmap.nodes[at] = node;
    uint32_t child = node.children;
    for (uint32_t four = 0; four < 16; four++)
        if (first[four] != NONE)
            fill_node(child++, first[four], last[four], depth + 1);
}

static void bitmap_make(const table *t)
{
    bitmap.rows = copy_rows(t);
    bitmap.node_count = 1;
    bitmap.nodes = ample(9 * t->count + 1, sizeof *bitmap.nodes);
    bitmap.results = ample(t->count, sizeof *bitmap.results);
    for (uint32_t four = 0; four < 16; four++)
        for (uint32_t len = 0; len < STRIDE; len++)
            covering[four] |= (uint16_t)(1u << internal_bit(four, len));
    fill_node(0, 0, t->count, 0);
    bitmap.nodes = granted(realloc(bitmap.nodes, bitmap.node_count * sizeof *bitmap.nodes));
}

static void bitmap_patch(const table *t, uint32_t n)
{
    const table_row *row = &t->rows[t->count + n];
    const bitmap_node *node = bitmap.nodes;
    uint32_t depth = 0;
    for (; row->len >= STRIDE * depth + STRIDE; depth++)
        node = &bitmap.nodes[node->children + rank(node->external, four_at(row->addr, depth))];
    uint32_t bit = internal_bit(four_at(row->addr, depth), row->len - STRIDE * depth);
    bitmap.rows[bitmap.results[node->results + rank(node->internal, bit)]] = *row;
}

/* Each row has one result. */
static size_t bitmap_held(void)
{
    return bitmap.node_count * sizeof *bitmap.nodes
        + bitmap.result_count * (sizeof *bitmap.results + sizeof *bitmap.rows);
}

/* Of the last node with a prefix that covers the address, the longest one is read at the end. */
static void bitmap_look_up(const uint32_t *addrs, table_row *answers, size_t count)
{
    const bitmap_node *nodes = bitmap.nodes;
    const uint32_t *results = bitmap.results;
    const table_row *rows = bitmap.rows;
    for (size_t i = 0; i < count; i++) {
        uint64_t path = (uint64_t)addrs[i] << STRIDE;
        uint32_t at = 0, best = 0, internal = 0;
        uint32_t matched = 0;
        for (int shift = 32;; shift -= STRIDE) {
            const bitmap_node *node = &nodes[at];
            uint32_t four = path >> shift & 15;
            uint32_t found = node->internal & (shift ? covering[four] : 1u);
            if (found) {
                matched = found;
                internal = node->internal;
                best = node->results;
            }
            if (!(node->external >> four & 1))
                break;
            at = node->children + rank(node->external, four);
        }
        if (matched) {
            uint32_t bit = 31 - (uint32_t)__builtin_clz(matched);
            answers[i] = rows[results[best + rank(internal, bit)]];
        } else {
            answers[i] = NO_MATCH;
        }
    }
}

static void bitmap_end(void)
{
    free(bitmap.nodes);
    free(bitmap.results);
    free(bitmap.rows);
}

static const way BITMAP = {
    .name = "tree bitmap in C",
    .make = bitmap_make,
    .patch = bitmap_patch,
    .held = bitmap_held,
    .calls = { bitmap_look_up },
    .end = bitmap_end,
};

static const way *const WAYS[] = {
#ifdef LOOKUP_DPDK
    &LPM,
    &FIB,
    &WIDE_FIB,
#endif
    &BITMAP,
    &IMAGE,
    &WORDS,
};

enum { WAY_COUNT = sizeof WAYS / sizeof *WAYS };

/* Answers. */

static table_row found[BATCH];

static void expect(const table_row *expected, const uint32_t *addrs, size_t count, const char *name)
{
    for (size_t i = 0; i < count; i++)
        if (found[i].addr != expected[i].addr || found[i].len != expected[i].len || found[i].kind != expected[i].kind
            || found[i].port != expected[i].port || found[i].session != expected[i].session)
            stop("%s: another answer than expected for the address %08" PRIx32, name, addrs[i]);
}

/* Compares each answer of each call with that of the proved image. */
static void compare_ways(const uint32_t *addrs)
{
    static table_row expected[BATCH];
    for (size_t k = 0; k < WAY_COUNT * CALLS; k++) {
        const way *w = WAYS[k / CALLS];
        look_up *call = w->calls[k % CALLS];
        if (!call)
            continue;
        if (w->choose)
            w->choose();
        for (size_t done = 0; done < ADDRESSES; done += BATCH) {
            image_look_up(&addrs[done], expected, BATCH);
            memset(found, 0xff, sizeof found); /* no answer of the call before counts */
            call(&addrs[done], found, BATCH);
            if (w->read)
                w->read(found, BATCH);
            expect(expected, &addrs[done], BATCH, w->name);
        }
    }
}

/* Compares the first answers of the proved image with a scan. */
static void compare_scan(const table *t, const uint32_t *addrs)
{
    for (size_t i = 0; i < least(ADDRESSES, SCANNED / t->count); i++) {
        table_row expected = scan(t, addrs[i]);
        image_look_up(&addrs[i], found, 1);
        expect(&expected, &addrs[i], 1, "proved image beside a scan");
    }
}

/* Times, in nanoseconds of this thread's processor time. */
static double now(void)
{
    struct timespec time;
    clock_gettime(CLOCK_THREAD_CPUTIME_ID, &time);
    return (double)time.tv_sec * 1e9 + (double)time.tv_nsec;
}

static int compare_numbers(const void *left, const void *right)
{
    const double *a = left, *b = right;
    return *a < *b ? -1 : *a > *b;
}

static double median(double *of, size_t count)
{
    qsort(of, count, sizeof *of, compare_numbers);
    return of[count / 2];
}

/* What a look-up takes. */
static double time_call(const way *w, look_up *call, const uint32_t *addrs)
{
    if (w->choose)
        w->choose();
    double begin = now();
    for (size_t done = 0; done < ADDRESSES; done += BATCH)
        call(&addrs[done], found, BATCH);
    return (now() - begin) / ADDRESSES;
}

/* The call of a way that is compared with others of so many addresses: the C tree has one for all. */
static look_up *call_of(const way *w, int call)
{
    return w->calls[call] ? w->calls[call] : w->calls[1 - call];
}

/* The median times of all ways, and the medians of their ratios to the first way. */
static void print_mix(const char *name, const uint32_t *addrs, size_t rounds)
{
    static double times[WAY_COUNT][CALLS][MOST_ROUNDS], ratios[WAY_COUNT][CALLS][MOST_ROUNDS];
    for (size_t round = 0; round < rounds; round++)
        for (int call = 0; call < CALLS; call++)
            for (size_t k = 0; k < WAY_COUNT; k++) {
                times[k][call][round] = time_call(WAYS[k], call_of(WAYS[k], call), addrs);
                ratios[k][call][round] = times[k][call][round] / times[0][call][round];
            }
    for (size_t k = 0; k < WAY_COUNT; k++)
        printf("%-12s %-24s %10.1f %10.1f %10.2f %10.2f\n", k ? "" : name, WAYS[k]->name,
               median(times[k][ONE_BY_ONE], rounds), median(times[k][BY_BURSTS], rounds),
               median(ratios[k][ONE_BY_ONE], rounds), median(ratios[k][BY_BURSTS], rounds));
}

/* A burst after other memory has taken the caches. */
static void print_cold(const uint32_t *addrs)
{
    enum { OTHER = 80 << 20, LINE = 64 };
    static double times[WAY_COUNT][COLD_ROUNDS];
    uint8_t *other = ample(OTHER, 1);
    for (size_t round = 0; round < COLD_ROUNDS; round++)
        for (size_t k = 0; k < WAY_COUNT; k++) {
            if (WAYS[k]->choose)
                WAYS[k]->choose();
            for (size_t i = 0; i < OTHER; i += LINE)
                other[i]++;
            double begin = now();
            call_of(WAYS[k], BY_BURSTS)(&addrs[round * BURST], found, BURST);
            times[k][round] = (now() - begin) / BURST;
        }
    for (size_t k = 0; k < WAY_COUNT; k++)
        printf("%-12s %-24s %10s %10.1f\n", k ? "" : "cold hits", WAYS[k]->name, "", median(times[k], COLD_ROUNDS));
    free(other);
}

/* Tables made and patched. */

typedef struct {
    double held, made, patched, longest;
} figures;

static void make(const way *w, const table *t, figures *f)
{
    if (!w->make)
        return;
    size_t held = w->held();
    double begin = now();
    w->make(t);
    f->made = now() - begin;
    f->held = (double)(w->held() - held);
}

/* Patches of one row each: first their mean, and then the longest of so many that an image with words is made anew,
 * for at most five seconds. */
static void measure_patches(const table *t, figures *all)
{
    size_t patches = least(t->count, PATCHES);
    uint32_t *drawn = ample(patches, sizeof *drawn);
    for (size_t i = 0; i < patches; i++)
        drawn[i] = below((uint32_t)t->count);
    for (size_t k = 0; k < WAY_COUNT; k++) {
        if (!WAYS[k]->patch)
            continue;
        double begin = now();
        for (size_t i = 0; i < patches; i++)
            WAYS[k]->patch(t, drawn[i]);
        all[k].patched = (now() - begin) / (double)patches;
        begin = now();
        for (size_t i = 0; i < 2 * t->count; i++) {
            double from = now();
            WAYS[k]->patch(t, drawn[i % patches]);
            double to = now();
            if (to - from > all[k].longest)
                all[k].longest = to - from;
            if (to - begin > 5e9)
                break;
        }
    }
    free(drawn);
}

/* Patches of 0.0.0.0/0, 10.0.0.0/8, /12 and /16 in the proved image: their time goes by the part of its array
 * that they cover. It is done last, because it sets rows that the other ways have not got. */
static void print_short_patches(void)
{
    enum { TIMES = 200 };
    static const uint8_t LENGTHS[] = { 0, 8, 12, 16 };
    printf("proved image, ns a patch of");
    for (size_t i = 0; i < sizeof LENGTHS; i++) {
        table_row row = { .addr = LENGTHS[i] ? 0x0a000000 : 0, .len = LENGTHS[i], .kind = TUHVONDI_VIA };
        double begin = now();
        for (size_t n = 0; n < TIMES; n++) {
            row.port = n % 2;
            image_done(tuhvondi_image_apply(&image, ++generation, &row, 1));
        }
        printf("%s /%d: %.0f", i ? "," : "", LENGTHS[i], (now() - begin) / TIMES);
    }
    printf("\n");
}

static void print_tables(const figures *all, double rows)
{
    printf("%-24s %12s %12s %12s %12s\n", "", "bytes a row", "ms to make", "ns a patch", "us longest");
    for (size_t k = 0; k < WAY_COUNT; k++)
        if (WAYS[k]->make)
            printf("%-24s %12.1f %12.2f %12.0f %12.0f\n", WAYS[k]->name, all[k].held / rows, all[k].made / 1e6,
                   all[k].patched, all[k].longest / 1e3);
}

static size_t argument(int argc, char **argv, int at, size_t otherwise, size_t most)
{
    if (at >= argc)
        return otherwise;
    char *end;
    unsigned long long value = strtoull(argv[at], &end, 10);
    if (*end != 0 || value == 0 || value > most) {
        fprintf(stderr, "lookup: %s is not a number 1..=%zu\n", argv[at], most);
        exit(2);
    }
    return (size_t)value;
}

int main(int argc, char **argv)
{
    size_t wanted = argument(argc, argv, 1, 64000, 1 << 20);
    size_t rounds = argument(argc, argv, 2, 7, MOST_ROUNDS);
    begin_random(argument(argc, argv, 3, 1, UINT32_MAX));
    if (argc > 4) {
        fprintf(stderr, "lookup: usage: lookup [PREFIXES [ROUNDS [SEED]]]\n");
        return 2;
    }

    static uint32_t addrs[MIXES][ADDRESSES];
    table t = make_table(wanted);
    figures all[WAY_COUNT] = { 0 };
#ifdef LOOKUP_DPDK
    dpdk_begin(&t);
#endif
    for (size_t k = 0; k < WAY_COUNT; k++)
        make(WAYS[k], &t, &all[k]);
    printf("%zu rows, %d addresses of each mix, medians of %zu rounds\n", t.count, ADDRESSES, rounds);
    printf("%-12s %-24s %21s   ratio to %s\n", "", "", "ns a look-up", WAYS[0]->name);
    printf("%-12s %-24s %10s %10s %10s %10s\n", "", "", "one by one", "by 32", "one by one", "by 32");
    for (int mix = 0; mix < MIXES; mix++) {
        draw_addresses(&t, mix, addrs[mix], ADDRESSES);
        compare_ways(addrs[mix]); /* warms up too */
        compare_scan(&t, addrs[mix]);
        print_mix(MIX_NAMES[mix], addrs[mix], rounds);
    }
    print_cold(addrs[HITS]);
    measure_patches(&t, all);
    compare_ways(addrs[HITS]);
    print_tables(all, (double)t.count);
    print_short_patches();
    printf("every answer was compared\n");
    print_readers(&WRITER, &t, addrs[HITS]);
#ifdef LOOKUP_DPDK
    print_readers(&SHARED_LPM, &t, addrs[HITS]);
    dpdk_print();
#endif

    for (size_t k = 0; k < WAY_COUNT; k++)
        if (WAYS[k]->end)
            WAYS[k]->end();
#ifdef LOOKUP_DPDK
    dpdk_end();
#endif
    free(t.rows);
    return 0;
}
