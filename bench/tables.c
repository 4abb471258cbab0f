/* Tables whose rows lie in clusters, as those of BGP do, and addresses to look up in them. */
#include "lookup.h"

#include <math.h>
#include <stdlib.h>

/* Random numbers: splitmix64. */
static uint64_t random_state;

void begin_random(uint64_t seed)
{
    random_state = seed;
}

static uint64_t next_random(void)
{
    uint64_t z = (random_state += 0x9e3779b97f4a7c15u);
    z = (z ^ (z >> 30)) * 0xbf58476d1ce4e5b9u;
    z = (z ^ (z >> 27)) * 0x94d049bb133111ebu;
    return z ^ (z >> 31);
}

uint32_t below(uint32_t limit)
{
    return (uint32_t)(next_random() % limit);
}

static double part_of_one(void)
{
    return (double)(next_random() >> 11) * 0x1p-53;
}

/* An address for hosts: 1.0.0.0 to 222.255.255.255. */
static uint32_t any_address(void)
{
    return (1 + below(222)) << 24 | below(1 << 24);
}

/* A /16 in which rows lie. */
typedef struct {
    uint32_t addr;
    uint32_t last; /* where its last row begins */
    double up_to;  /* the weights of this block and of those before it */
} block;

enum { ROWS_A_BLOCK = 16, FEWEST_BLOCKS = 64, MOST_BLOCKS = 56000 };

static block blocks[MOST_BLOCKS];
static size_t block_count;

/* Weights are log-normal, so that few blocks have most rows. */
static void draw_blocks(size_t rows)
{
    double sum = 0;
    block_count = least(rows / ROWS_A_BLOCK, MOST_BLOCKS);
    if (block_count < FEWEST_BLOCKS)
        block_count = FEWEST_BLOCKS;
    for (size_t i = 0; i < block_count; i++) {
        uint32_t addr = any_address() & mask(16);
        double normal = sqrt(-2 * log(part_of_one() + 1e-18)) * cos(6.283185307179586 * part_of_one());
        sum += exp(1.2 * normal);
        blocks[i] = (block){ .addr = addr, .last = addr, .up_to = sum };
    }
}

static block *random_block(void)
{
    double at = part_of_one() * blocks[block_count - 1].up_to;
    size_t low = 0, high = block_count - 1;
    while (low < high) {
        size_t middle = (low + high) / 2;
        if (blocks[middle].up_to < at)
            low = middle + 1;
        else
            high = middle;
    }
    return &blocks[low];
}

/* The lengths of an Internet table of 2025: of a thousand rows so many have one, 4 have 8 to 15 bits, each twice
 * as often as the one before, and 28 have more than 24, half of them 32. */
static uint8_t random_length(void)
{
    static const struct {
        uint8_t len;
        uint16_t many;
    } COMMON[] = { { 24, 600 }, { 22, 110 }, { 23, 100 }, { 21, 50 }, { 20, 45 }, { 19, 27 }, { 18, 15 }, { 16, 13 },
                   { 17, 8 } };
    uint32_t thousandth = below(1000), tenth = below(10);
    for (size_t i = 0; i < sizeof COMMON / sizeof *COMMON; i++) {
        if (thousandth < COMMON[i].many)
            return COMMON[i].len;
        thousandth -= COMMON[i].many;
    }
    if (thousandth < 4)
        return (uint8_t)(39 - __builtin_clz(1 + below(255)));
    return tenth < 5 ? 32 : tenth < 7 ? 30 : (uint8_t)(25 + below(7));
}

/* Six rows of ten that are longer than their block begin behind the one before. */
static table_row random_row(void)
{
    block *in = random_block();
    uint8_t len = random_length();
    uint32_t addr = in->addr;
    if (len > 16) {
        uint32_t next = (in->last & mask(len)) + (1u << (32 - len));
        addr |= below(1 << 16);
        if (below(10) < 6 && next >> 16 == in->addr >> 16)
            addr = next;
        in->last = addr & mask(len);
    }
    return (table_row){
        .addr = addr & mask(len),
        .len = len,
        .kind = TUHVONDI_VIA,
        .port = (uint8_t)below(32),
        .session = 1,
    };
}

static int compare_rows(const void *left, const void *right)
{
    const table_row *a = left, *b = right;
    if (a->addr != b->addr)
        return a->addr < b->addr ? -1 : 1;
    return (int)a->len - (int)b->len;
}

table make_table(size_t wanted)
{
    table t = { .rows = ample(2 * wanted, sizeof *t.rows) };
    draw_blocks(wanted);
    while (t.count < wanted) {
        for (size_t i = t.count; i < wanted; i++)
            t.rows[i] = random_row();
        qsort(t.rows, wanted, sizeof *t.rows, compare_rows);
        t.count = 0;
        for (size_t i = 0; i < wanted; i++)
            if (t.count == 0 || compare_rows(&t.rows[t.count - 1], &t.rows[i]) != 0)
                t.rows[t.count++] = t.rows[i];
    }
    for (size_t i = 0; i < t.count; i++) {
        t.rows[t.count + i] = t.rows[i];
        t.rows[t.count + i].port ^= 1;
    }
    return t;
}

const char *const MIX_NAMES[MIXES] = { "any", "hits", "Zipf", "sequential", "hot" };

static uint32_t host_of(const table_row *row, uint32_t number)
{
    return row->addr | (number & ~mask(row->len));
}

/* Any host; a host of any row; one of four hosts of a row that is drawn the less often the higher its number is,
 * in a random order; addresses one after another, from a row on; 512 hits again and again. */
void draw_addresses(const table *t, int mix, uint32_t *addrs, size_t count)
{
    uint32_t rows = (uint32_t)t->count;
    for (size_t i = 0; i < count; i++)
        switch (mix) {
        case ANY:
            addrs[i] = any_address();
            break;
        case HITS:
            addrs[i] = host_of(&t->rows[below(rows)], (uint32_t)next_random());
            break;
        case ZIPF: {
            uint64_t rank = (uint64_t)pow(rows, part_of_one());
            uint32_t n = (uint32_t)(rank * 2654435761u % rows);
            addrs[i] = host_of(&t->rows[n], n * 2654435761u + below(4) * 0x01234567u);
            break;
        }
        case SEQUENTIAL:
            addrs[i] = t->rows[rows / 3].addr + (uint32_t)i;
            break;
        default:
            addrs[i] = i < 512 ? host_of(&t->rows[below(rows)], (uint32_t)next_random()) : addrs[i - 512];
        }
}
