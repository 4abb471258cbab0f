/* What the parts of bench/run share: rows, addresses, and ways to look them up. */
#ifndef LOOKUP_H
#define LOOKUP_H

#include <stdbool.h>
#include <stddef.h>
#include <stdint.h>

#include "../include/tuhvondi.h"

typedef struct tuhvondi_row table_row;

enum {
    BURST = 32,           /* addresses of a call where packets come in bursts */
    BATCH = 256,          /* addresses whose answers are kept at once */
    ADDRESSES = 1 << 18,  /* addresses of a mix */
    MOST_READERS = 3,     /* threads that look up at once */
};

static const table_row NO_MATCH = { .kind = TUHVONDI_NO_ROW };

/* Distinct rows in the order of their prefixes, and after them the same, each with another port: a patch puts
 * row count + n in the place of row n. Where answers are numbers, the number of a row is its next hop. */
typedef struct {
    table_row *rows;
    size_t count;
} table;

/* Answers at most BATCH addresses. */
typedef void look_up(const uint32_t *addrs, table_row *answers, size_t count);

/* How many addresses a call has. */
enum { ONE_BY_ONE, BY_BURSTS, CALLS };

/* A way to look rows up, of which there is one at a time. */
typedef struct {
    const char *name;
    void (*make)(const table *t); /* null where it looks up in the table of the way before */
    void (*patch)(const table *t, uint32_t n);
    size_t (*held)(void);    /* the bytes that it holds; what counts is by how many they grow while it is made */
    void (*choose)(void);    /* what its look-ups want before the first, outside of the time; or null */
    look_up *calls[CALLS];   /* null where it has no such call */
    void (*read)(table_row *answers, size_t count); /* where answers are numbers: turns the last into rows */
    void (*end)(void);
} way;

/* A table that a thread changes while others look up in it. */
typedef struct {
    const char *name;
    void (*begin)(const table *t, size_t readers);
    void (*look_up)(size_t reader, const uint32_t *addrs); /* BURST addresses */
    bool (*publish)(const table *t, uint32_t n);           /* the patch n; false if it has to be tried again */
    void (*end)(void);
} shared_way;

/* Prints a message after the program's name, and ends the program with status 1. */
_Noreturn void stop(const char *format, ...) __attribute__((format(printf, 1, 2)));

/* Zeroed memory. */
void *ample(size_t count, size_t size);

/* 0, 1, and so on: the words of rows. */
uint32_t *numbers(size_t count);

static inline size_t least(size_t one, size_t other)
{
    return one < other ? one : other;
}

static inline uint32_t mask(uint8_t len)
{
    return len == 0 ? 0 : UINT32_MAX << (32 - len);
}

/* ---- bench/tables.c */

void begin_random(uint64_t seed);

uint32_t below(uint32_t limit);

table make_table(size_t wanted);

enum { ANY, HITS, ZIPF, SEQUENTIAL, HOT, MIXES };

extern const char *const MIX_NAMES[MIXES];

void draw_addresses(const table *t, int mix, uint32_t *addrs, size_t count);

/* ---- bench/readers.c */

void print_readers(const shared_way *way, const table *t, const uint32_t *addrs);

extern const shared_way WRITER;

/* ---- bench/dpdk.c: what stands between dpdk_begin and dpdk_end */

extern const way LPM, FIB, WIDE_FIB;

extern const shared_way SHARED_LPM;

void dpdk_begin(const table *t);

void dpdk_end(void);

/* Prints which DPDK it is, and how large the tables are that its look-ups read. */
void dpdk_print(void);

#endif
