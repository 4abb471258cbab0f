/* Makes the calls of images, writers and readers (include/tuhvondi.h) with hostile arguments, beside a plain
 * list of rows.
 *
 *     cc -g -fsanitize=address,undefined -Iinclude trials/images.c libtuhvondi.a -pthread \
 *         -Wl,--wrap=malloc,--wrap=realloc,--wrap=free && ./a.out [STEPS [SEED]]
 *
 *   1. Hostile arguments: empty handles, empty lists at null, lists of other lengths, prefixes that are none,
 *      cursors past the end, shared images, numbers of readers up to SIZE_MAX. Each call has to answer the
 *      status of the header.
 *   2. Refused memory: each call that takes memory is refused its first allocation, then its second and so on,
 *      until it is done. It has to answer TUHVONDI_NO_MEMORY and leave what was there. Readers have to answer
 *      as before, and the call has to be done when it is made again.
 *   3. A look-up that stands still while its writer publishes, and one while its writer is freed.
 *   4. Image, writer and two readers freed in each order.
 *   5. STEPS random steps: rows that lie in each other are set, with words and without, taken out, listed from
 *      anywhere by any number, and looked up in bursts of any length. Image and readers have to answer what the
 *      list has.
 *
 * It ends with status 1 if anything is not as it has to be, or if memory is not given back.
 */
#define _DEFAULT_SOURCE

#include "tuhvondi.h"

#include <inttypes.h>
#include <pthread.h>
#include <sched.h>
#include <signal.h>
#include <stdatomic.h>
#include <stdio.h>
#include <stdlib.h>
#include <string.h>
#include <sys/mman.h>

enum {
    MOST_ROWS = 16384,
    MOST_ADDRS = 100,
    MOST_READERS = 1024,
    SPREAD = 10000, /* rows to begin with, so that look-ups go down side by side */
};

/* Memory: what is out, and after how many allocations one is refused. */

void *__real_malloc(size_t size);
void *__real_realloc(void *place, size_t size);
void __real_free(void *place);

static size_t bytes_out, blocks_out;
static size_t until_refused = SIZE_MAX;

/* In front of each block stands its size. */
union front {
    size_t size;
    char room[16];
};

static bool is_refused(void)
{
    if (until_refused == SIZE_MAX)
        return false;
    if (until_refused == 0)
        return true;
    until_refused--;
    return false;
}

void *__wrap_malloc(size_t size)
{
    union front *block = is_refused() ? NULL : __real_malloc(size + sizeof *block);
    if (!block)
        return NULL;
    block->size = size;
    bytes_out += size;
    blocks_out++;
    return block + 1;
}

void __wrap_free(void *place)
{
    if (!place)
        return;
    union front *block = (union front *)place - 1;
    bytes_out -= block->size;
    blocks_out--;
    __real_free(block);
}

void *__wrap_realloc(void *place, size_t size)
{
    if (!place)
        return __wrap_malloc(size);
    if (is_refused())
        return NULL;
    union front *block = (union front *)place - 1;
    size_t before = block->size;
    block = __real_realloc(block, size + sizeof *block);
    if (!block)
        return NULL;
    block->size = size;
    bytes_out += size - before;
    return block + 1;
}

static uint64_t step;

static void fail(int line, const char *what)
{
    fprintf(stderr, "images: line %d, step %" PRIu64 ": not so: %s\n", line, step, what);
    exit(1);
}

#define NEED(test) ((test) ? (void)0 : fail(__LINE__, #test))

/* Random numbers: splitmix64. */
static uint64_t random_state = 1;

static uint32_t below(uint32_t limit)
{
    uint64_t z = (random_state += 0x9e3779b97f4a7c15u);
    z = (z ^ (z >> 30)) * 0xbf58476d1ce4e5b9u;
    z = (z ^ (z >> 27)) * 0x94d049bb133111ebu;
    return (uint32_t)((z ^ (z >> 31)) % limit);
}

/* The plain list: rows in the order of their prefixes. */

struct list {
    struct tuhvondi_row rows[MOST_ROWS];
    uint32_t words[MOST_ROWS];
    size_t count;
};

static uint32_t mask(uint8_t len)
{
    return len == 0 ? 0 : UINT32_MAX << (32 - len);
}

static bool comes_before(uint32_t addr, uint8_t len, const struct tuhvondi_row *row)
{
    return addr != row->addr ? addr < row->addr : len < row->len;
}

/* The first place whose prefix does not come before this one. */
static size_t place_of(const struct list *list, uint32_t addr, uint8_t len)
{
    size_t from = 0, to = list->count;
    while (from < to) {
        size_t middle = (from + to) / 2;
        const struct tuhvondi_row *row = &list->rows[middle];
        if (comes_before(row->addr, row->len, &(struct tuhvondi_row){.addr = addr, .len = len}))
            from = middle + 1;
        else
            to = middle;
    }
    return from;
}

static bool has(const struct list *list, size_t at, uint32_t addr, uint8_t len)
{
    return at < list->count && list->rows[at].addr == addr && list->rows[at].len == len;
}

static void set_word(struct list *list, struct tuhvondi_row row, uint32_t word)
{
    size_t at = place_of(list, row.addr, row.len);
    if (!has(list, at, row.addr, row.len)) {
        NEED(list->count < MOST_ROWS);
        memmove(&list->rows[at + 1], &list->rows[at], (list->count - at) * sizeof row);
        memmove(&list->words[at + 1], &list->words[at], (list->count - at) * sizeof word);
        list->count++;
    }
    list->rows[at] = row;
    list->words[at] = word;
}

static void set(struct list *list, struct tuhvondi_row row)
{
    set_word(list, row, TUHVONDI_NO_WORD);
}

static void copy_list(struct list *to, const struct list *from)
{
    to->count = from->count;
    memcpy(to->rows, from->rows, from->count * sizeof from->rows[0]);
    memcpy(to->words, from->words, from->count * sizeof from->words[0]);
}

static void take_out(struct list *list, uint32_t addr, uint8_t len)
{
    size_t at = place_of(list, addr, len);
    if (!has(list, at, addr, len))
        return;
    list->count--;
    memmove(&list->rows[at], &list->rows[at + 1], (list->count - at) * sizeof list->rows[0]);
    memmove(&list->words[at], &list->words[at + 1], (list->count - at) * sizeof list->words[0]);
}

/* The place of the row that answers an address, or count. */
static size_t place_of_longest(const struct list *list, uint32_t addr)
{
    for (int len = 32; len >= 0; len--) {
        uint32_t net = addr & mask((uint8_t)len);
        size_t at = place_of(list, net, (uint8_t)len);
        if (has(list, at, net, (uint8_t)len))
            return at;
    }
    return list->count;
}

static struct tuhvondi_row longest(const struct list *list, uint32_t addr)
{
    size_t at = place_of_longest(list, addr);
    return at < list->count ? list->rows[at] : (struct tuhvondi_row){.kind = TUHVONDI_NO_ROW};
}

/* The words are those that the list has for the addresses. */
static void need_words(const struct list *list, const uint32_t *addrs, const uint32_t *words, size_t count)
{
    for (size_t i = 0; i < count; i++) {
        size_t at = place_of_longest(list, addrs[i]);
        NEED(words[i] == (at < list->count ? list->words[at] : TUHVONDI_NO_WORD));
    }
}

static bool is_same(const struct tuhvondi_row *a, const struct tuhvondi_row *b)
{
    return a->addr == b->addr && a->len == b->len && a->kind == b->kind && a->port == b->port
        && a->session == b->session;
}

static struct tuhvondi_row via(uint32_t addr, uint8_t len, uint8_t port)
{
    return (struct tuhvondi_row){.addr = addr, .len = len, .kind = TUHVONDI_VIA, .port = port, .session = 1};
}

/* The image has the rows of the list, and its generation. */
static void need_rows(struct tuhvondi_image *image, const struct list *list, uint64_t generation)
{
    static struct tuhvondi_row rows[MOST_ROWS + 1];
    static uint32_t words[MOST_ROWS + 1];
    struct tuhvondi_prefix from = TUHVONDI_FIRST_PREFIX;
    size_t count = 0;
    uint64_t its = ~generation;
    NEED(tuhvondi_image_rows_words(image, &from, rows, MOST_ROWS + 1, words, MOST_ROWS + 1, &count)
         == TUHVONDI_DONE);
    NEED(count == list->count && from.len == TUHVONDI_NO_PREFIX);
    for (size_t i = 0; i < count; i++)
        NEED(is_same(&rows[i], &list->rows[i]) && words[i] == list->words[i]);
    NEED(tuhvondi_image_generation(image, &its) == TUHVONDI_DONE && its == generation);
}

/* Arguments that no program should give, and that any may. */

/* Rows that are none. */
static const struct {
    struct tuhvondi_row row;
    uint32_t fault;
} bad[] = {
    {{.addr = 1, .len = 33, .kind = 9}, TUHVONDI_BAD_LENGTH},
    {{.addr = 0, .len = 255}, TUHVONDI_BAD_LENGTH},
    {{.addr = 1, .len = 31, .kind = 9}, TUHVONDI_HOST_BITS},
    {{.addr = 1, .len = 0}, TUHVONDI_HOST_BITS},
    {{.addr = 0x80000000, .len = 0}, TUHVONDI_HOST_BITS},
    {{.addr = 0, .len = 0, .kind = TUHVONDI_NO_ROW}, TUHVONDI_BAD_KIND},
    {{.addr = 0, .len = 32, .kind = 255}, TUHVONDI_BAD_KIND},
};

#define BAD_ROWS (sizeof bad / sizeof bad[0])

static const struct list none = {.count = 0};

static void refuse_arguments(void)
{
    struct tuhvondi_image image = TUHVONDI_NO_IMAGE, other = TUHVONDI_NO_IMAGE;
    struct tuhvondi_prefix from = TUHVONDI_FIRST_PREFIX;
    struct tuhvondi_row answers[3] = {via(1, 2, 3), via(1, 2, 3), via(1, 2, 3)};
    uint32_t addrs[3] = {0, 1, UINT32_MAX}, words[3] = {3, 3, 3};
    uint64_t generation = 7;
    size_t count = 7;

    /* Empty handles. */
    NEED(tuhvondi_image_apply(&image, 1, NULL, 0) == TUHVONDI_NO_IMAGE_HELD);
    NEED(tuhvondi_image_remove(&image, 1, NULL, 0) == TUHVONDI_NO_IMAGE_HELD);
    NEED(tuhvondi_image_share(&image, &other) == TUHVONDI_NO_IMAGE_HELD);
    NEED(tuhvondi_image_copy(&image, &other) == TUHVONDI_NO_IMAGE_HELD);
    NEED(tuhvondi_image_lookup(&image, addrs, 3, answers, 3) == TUHVONDI_NO_IMAGE_HELD);
    NEED(tuhvondi_image_rows(&image, &from, answers, 3, &count) == TUHVONDI_NO_IMAGE_HELD);
    NEED(tuhvondi_image_apply_words(&image, 1, NULL, 0, NULL, 0) == TUHVONDI_NO_IMAGE_HELD);
    NEED(tuhvondi_image_lookup_words(&image, addrs, 3, words, 2) == TUHVONDI_NO_IMAGE_HELD);
    NEED(tuhvondi_image_rows_words(&image, &from, answers, 3, words, 3, &count) == TUHVONDI_NO_IMAGE_HELD);
    NEED(tuhvondi_image_row_count(&image, &count) == TUHVONDI_NO_IMAGE_HELD);
    NEED(tuhvondi_image_bytes(&image, &count) == TUHVONDI_NO_IMAGE_HELD);
    NEED(tuhvondi_image_generation(&image, &generation) == TUHVONDI_NO_IMAGE_HELD);
    NEED(count == 7 && generation == 7 && from.addr == 0 && from.len == 0 && answers[0].port == 3);
    NEED(words[0] == 3);
    tuhvondi_image_free(&image);

    /* Empty lists, at null. */
    NEED(tuhvondi_image_new_words(NULL, 0, NULL, 0, &image) == TUHVONDI_DONE);
    NEED(tuhvondi_image_apply_words(&image, 2, NULL, 0, NULL, 0) == TUHVONDI_DONE);
    NEED(tuhvondi_image_lookup_words(&image, NULL, 0, NULL, 0) == TUHVONDI_DONE);
    NEED(tuhvondi_image_rows_words(&image, &from, NULL, 0, NULL, 0, &count) == TUHVONDI_DONE && count == 0);
    count = 7;
    NEED(tuhvondi_image_new(NULL, 0, &image) == TUHVONDI_DONE);
    NEED(tuhvondi_image_apply(&image, 3, NULL, 0) == TUHVONDI_DONE);
    NEED(tuhvondi_image_remove(&image, 4, NULL, 0) == TUHVONDI_DONE);
    NEED(tuhvondi_image_lookup(&image, NULL, 0, NULL, 0) == TUHVONDI_DONE);
    NEED(tuhvondi_image_rows(&image, &from, NULL, 0, &count) == TUHVONDI_DONE);
    NEED(count == 0);
    NEED(tuhvondi_image_generation(&image, &generation) == TUHVONDI_DONE && generation == 4);

    /* Counts that differ. */
    NEED(tuhvondi_image_lookup(&image, addrs, 3, answers, 2) == TUHVONDI_BAD_COUNT);
    NEED(tuhvondi_image_lookup(&image, addrs, 2, answers, 3) == TUHVONDI_BAD_COUNT);
    NEED(tuhvondi_image_lookup(&image, NULL, 0, answers, 3) == TUHVONDI_BAD_COUNT);
    NEED(tuhvondi_image_lookup(&image, addrs, 3, NULL, 0) == TUHVONDI_BAD_COUNT);
    NEED(tuhvondi_image_lookup_words(&image, addrs, 3, words, 2) == TUHVONDI_BAD_COUNT);
    NEED(tuhvondi_image_lookup_words(&image, NULL, 0, words, 3) == TUHVONDI_BAD_COUNT);
    NEED(tuhvondi_image_rows_words(&image, &from, answers, 3, words, 2, &count) == TUHVONDI_BAD_COUNT);
    NEED(tuhvondi_image_rows_words(&other, &from, answers, 2, words, 3, &count) == TUHVONDI_BAD_COUNT);
    NEED(tuhvondi_image_new_words(answers, 0, words, 3, &image) == TUHVONDI_BAD_COUNT);
    NEED(tuhvondi_image_apply_words(&image, 1, NULL, 0, words, 3) == TUHVONDI_BAD_COUNT);
    NEED(tuhvondi_image_apply_words(&other, 1, NULL, 0, words, 3) == TUHVONDI_BAD_COUNT);
    NEED(words[0] == 3 && words[1] == 3 && words[2] == 3);
    NEED(answers[0].port == 3 && answers[1].port == 3 && answers[2].port == 3);
    NEED(tuhvondi_image_lookup(&image, addrs, 3, answers, 3) == TUHVONDI_DONE);
    for (int i = 0; i < 3; i++)
        NEED(is_same(&answers[i], &(struct tuhvondi_row){.kind = TUHVONDI_NO_ROW}));

    /* Rows and prefixes that are none: the first with a fault is named, and nothing is done. */
    for (size_t i = 0; i < BAD_ROWS; i++) {
        struct tuhvondi_row rows[3] = {via(0, 0, 1), bad[i].row, {.addr = 5, .len = 40}};
        struct tuhvondi_prefix prefixes[3] = {{0, 0}, {bad[i].row.addr, bad[i].row.len}, {1, 0}};
        NEED(tuhvondi_image_apply(&image, 9, rows, 3) == bad[i].fault);
        NEED(tuhvondi_image_apply(&other, 9, rows, 3) == bad[i].fault);
        NEED(tuhvondi_image_new(rows, 3, &image) == bad[i].fault);
        NEED(tuhvondi_image_new_words(rows, 3, words, 2, &image) == bad[i].fault);
        NEED(tuhvondi_image_apply_words(&image, 9, rows, 3, words, 2) == bad[i].fault);
        if (bad[i].fault != TUHVONDI_BAD_KIND) {
            NEED(tuhvondi_image_remove(&image, 9, prefixes, 3) == bad[i].fault);
            NEED(tuhvondi_image_remove(&other, 9, prefixes, 3) == bad[i].fault);
            /* As a cursor the length 33 is the end. */
            uint32_t fault = bad[i].row.len == TUHVONDI_NO_PREFIX ? (uint32_t)TUHVONDI_DONE : bad[i].fault;
            from = prefixes[1];
            NEED(tuhvondi_image_rows(&image, &from, rows, 3, &count) == fault);
            from = prefixes[1];
            NEED(tuhvondi_image_rows_words(&image, &from, rows, 3, words, 2, &count)
                 == (fault == TUHVONDI_DONE ? (uint32_t)TUHVONDI_BAD_COUNT : fault));
        }
        need_rows(&image, &none, 4);
    }

    /* An image that others hold. */
    struct tuhvondi_row row = via(0xffffffff, 32, 5);
    struct tuhvondi_prefix prefix = {0xffffffff, 32};
    NEED(tuhvondi_image_apply(&image, 5, &row, 1) == TUHVONDI_DONE);
    NEED(tuhvondi_image_share(&image, &other) == TUHVONDI_DONE);
    NEED(tuhvondi_image_apply(&image, 6, &row, 1) == TUHVONDI_SHARED);
    NEED(tuhvondi_image_remove(&other, 6, &prefix, 1) == TUHVONDI_SHARED);
    tuhvondi_image_free(&other);

    /* The last prefix of all: a list that is full with it is at the end. */
    from = (struct tuhvondi_prefix)TUHVONDI_FIRST_PREFIX;
    NEED(tuhvondi_image_rows(&image, &from, answers, 1, &count) == TUHVONDI_DONE && count == 1);
    NEED(is_same(&answers[0], &row) && from.len == TUHVONDI_NO_PREFIX);
    NEED(tuhvondi_image_rows(&image, &from, answers, 1, &count) == TUHVONDI_DONE && count == 0);
    NEED(tuhvondi_image_remove(&image, 6, &prefix, 1) == TUHVONDI_DONE);
    need_rows(&image, &none, 6);
    tuhvondi_image_free(&image);
    tuhvondi_image_free(&image);
    NEED(blocks_out == 0);
}

/* A prefix of a few blocks, so that they lie in each other. */
static struct tuhvondi_prefix draw_prefix(void)
{
    uint8_t len = (uint8_t)below(33);
    uint32_t addr = 0x0a000000 + below(4) * 0x00010000 + below(4) * 0x0100 + below(8) * 0x20 + below(4);
    if (below(8) == 0)
        addr = below(UINT32_MAX);
    return (struct tuhvondi_prefix){addr & mask(len), len};
}

/* Steps at the image and at the list, which begin with so many rows. From a step on half of the rows that are
 * set have words. */
static void compare(uint64_t steps, uint32_t spread, uint64_t words_from)
{
    static struct list list;
    static struct tuhvondi_row rows[MOST_ROWS + 1];
    static uint32_t row_words[MOST_ROWS + 1];
    list.count = 0;
    for (uint32_t i = 0; i < spread; i++) {
        rows[i] = via(i * 0x00060000, 32, (uint8_t)(i % 32));
        set(&list, rows[i]);
    }
    struct tuhvondi_image image = TUHVONDI_NO_IMAGE, other = TUHVONDI_NO_IMAGE;
    uint64_t looked_up = 0, listed = 0, most = 0;
    size_t count;
    NEED(tuhvondi_image_new(rows, spread, &image) == TUHVONDI_DONE);
    for (step = 1; step <= steps; step++) {
        uint32_t many = below(8);
        if (list.count > MOST_ROWS - 100 || below(3) == 0) {
            struct tuhvondi_prefix gone[8];
            for (uint32_t i = 0; i < many; i++) {
                gone[i] = draw_prefix();
                if (list.count > spread && below(2) == 0) {
                    const struct tuhvondi_row *row = &list.rows[below((uint32_t)list.count)];
                    gone[i] = (struct tuhvondi_prefix){row->addr, row->len};
                }
                take_out(&list, gone[i].addr, gone[i].len);
            }
            NEED(tuhvondi_image_remove(&image, step, gone, many) == TUHVONDI_DONE);
        } else {
            struct tuhvondi_row set_now[8];
            uint32_t words[8];
            bool has_words = step >= words_from && below(2) == 0;
            for (uint32_t i = 0; i < many; i++) {
                struct tuhvondi_prefix at = draw_prefix();
                set_now[i] = (struct tuhvondi_row){.addr = at.addr, .len = at.len, .kind = (uint8_t)below(3)};
                if (set_now[i].kind == TUHVONDI_VIA) {
                    set_now[i].port = (uint8_t)below(256);
                    set_now[i].session = (uint16_t)below(65536);
                }
                words[i] = has_words ? below(UINT32_MAX) : TUHVONDI_NO_WORD;
                set_word(&list, set_now[i], words[i]);
            }
            if (has_words)
                NEED(tuhvondi_image_apply_words(&image, step, set_now, many, words, many) == TUHVONDI_DONE);
            else
                NEED(tuhvondi_image_apply(&image, step, set_now, many) == TUHVONDI_DONE);
        }
        most = list.count > most ? list.count : most;

        /* A burst. */
        uint32_t addrs[MOST_ADDRS], burst = below(MOST_ADDRS + 1);
        uint32_t words[MOST_ADDRS];
        struct tuhvondi_row answers[MOST_ADDRS];
        for (uint32_t i = 0; i < burst; i++)
            addrs[i] = below(3) == 0 ? below(SPREAD) * 0x00060000 : draw_prefix().addr + below(3);
        NEED(tuhvondi_image_lookup_words(&image, addrs, burst, words, burst) == TUHVONDI_DONE);
        need_words(&list, addrs, words, burst);
        NEED(tuhvondi_image_lookup(&image, addrs, burst, answers, burst) == TUHVONDI_DONE);
        for (uint32_t i = 0; i < burst; i++) {
            struct tuhvondi_row found = longest(&list, addrs[i]);
            NEED(is_same(&answers[i], &found));
        }
        looked_up += burst;

        /* Rows from anywhere, by any number. */
        struct tuhvondi_prefix from = draw_prefix();
        size_t at = place_of(&list, from.addr, from.len), room = below(40);
        while (below(4) != 0) {
            bool has_words = below(2) == 0;
            NEED((has_words ? tuhvondi_image_rows_words(&image, &from, rows, room, row_words, room, &count)
                            : tuhvondi_image_rows(&image, &from, rows, room, &count))
                 == TUHVONDI_DONE);
            size_t left = list.count - at;
            NEED(count == (left < room ? left : room));
            for (size_t i = 0; i < count; i++) {
                NEED(is_same(&rows[i], &list.rows[at + i]));
                NEED(!has_words || row_words[i] == list.words[at + i]);
            }
            at += count;
            listed += count;
        }
        if (step % 64 == 0) {
            need_rows(&image, &list, step);
            NEED(tuhvondi_image_row_count(&image, &count) == TUHVONDI_DONE && count == list.count);
            NEED(tuhvondi_image_bytes(&image, &count) == TUHVONDI_DONE);
            NEED(count <= bytes_out && bytes_out <= count + 1024);
        }
        if (step % 1024 == 0) {
            NEED(tuhvondi_image_copy(&image, &other) == TUHVONDI_DONE);
            tuhvondi_image_free(&image);
            image = other;
            other = (struct tuhvondi_image)TUHVONDI_NO_IMAGE;
        }
    }
    size_t bytes;
    NEED(tuhvondi_image_bytes(&image, &bytes) == TUHVONDI_DONE);
    printf("%" PRIu64 " steps, at most %" PRIu64 " rows, %" PRIu64 " look-ups, %" PRIu64 " rows listed; %zu bytes\n",
        steps, most, looked_up, listed, bytes);
    tuhvondi_image_free(&image);
    NEED(blocks_out == 0);
}

/* Each call that takes memory is refused each of its allocations. */
static void refuse_memory(void)
{
    static struct list lists[2], afters[2];
    static struct tuhvondi_row rows[200], more[50];
    static uint32_t words[200];
    size_t refused = 0;
    for (size_t i = 0; i < 200; i++) {
        rows[i] = via(0x0a000000 + (uint32_t)i * 0x00010000, 16, (uint8_t)(i % 32));
        words[i] = (uint32_t)i;
        set(&lists[0], rows[i]);
        set_word(&lists[1], rows[i], words[i]);
    }
    for (size_t i = 0; i < 50; i++)
        more[i] = via(0x0a000000 + (uint32_t)i * 0x01010100, 32, (uint8_t)(i % 32));
    /* Each call twice: of images without words, and of images with. The last two set rows of the other sort. */
    for (int call = 0; call < 10; call++) {
        uint32_t status = TUHVONDI_NO_MEMORY;
        bool has_words = call % 2, sets_words = call < 8 ? has_words : !has_words;
        struct list *before = &lists[has_words], *after = &afters[has_words];
        copy_list(after, before);
        for (size_t i = 0; i < 50; i++)
            set_word(after, more[i], sets_words ? words[i] : TUHVONDI_NO_WORD);
        for (size_t allowed = 0; status != TUHVONDI_DONE; allowed++) {
            struct tuhvondi_image image = TUHVONDI_NO_IMAGE, other = TUHVONDI_NO_IMAGE;
            NEED((has_words ? tuhvondi_image_new_words(rows, 200, words, 200, &image)
                            : tuhvondi_image_new(rows, 200, &image))
                 == TUHVONDI_DONE);
            if (call > 1)
                NEED(tuhvondi_image_new(NULL, 0, &other) == TUHVONDI_DONE);
            until_refused = allowed;
            status = call == 0 ? tuhvondi_image_new(rows, 200, &other)
                : call == 1    ? tuhvondi_image_new_words(rows, 200, words, 200, &other)
                : call < 4     ? tuhvondi_image_share(&image, &other)
                : call < 6     ? tuhvondi_image_copy(&image, &other)
                : sets_words   ? tuhvondi_image_apply_words(&image, 2, more, 50, words, 50)
                               : tuhvondi_image_apply(&image, 2, more, 50);
            until_refused = SIZE_MAX;
            NEED(status == TUHVONDI_DONE || status == TUHVONDI_NO_MEMORY);
            refused += status == TUHVONDI_NO_MEMORY;
            bool done = status == TUHVONDI_DONE, applies = call >= 6;
            need_rows(&image, applies && done ? after : before, applies && done ? 2 : 0);
            if (call < 2 && !done)
                NEED(tuhvondi_image_row_count(&other, &(size_t){0}) == TUHVONDI_NO_IMAGE_HELD);
            else if (!applies)
                need_rows(&other, done ? before : &none, 0);
            tuhvondi_image_free(&image);
            tuhvondi_image_free(&other);
            NEED(blocks_out == 0);
        }
    }
    /* What takes none is done without. */
    struct tuhvondi_image image = TUHVONDI_NO_IMAGE;
    struct tuhvondi_prefix prefix = {0x0a000000, 16}, from = TUHVONDI_FIRST_PREFIX;
    struct tuhvondi_row row;
    uint32_t word;
    size_t count;
    NEED(tuhvondi_image_new_words(rows, 200, words, 200, &image) == TUHVONDI_DONE);
    until_refused = 0;
    NEED(tuhvondi_image_remove(&image, 1, &prefix, 1) == TUHVONDI_DONE);
    NEED(tuhvondi_image_lookup(&image, &prefix.addr, 1, &row, 1) == TUHVONDI_DONE);
    NEED(tuhvondi_image_rows(&image, &from, &row, 1, &count) == TUHVONDI_DONE && count == 1);
    NEED(tuhvondi_image_lookup_words(&image, &row.addr, 1, &word, 1) == TUHVONDI_DONE && word == 1);
    NEED(tuhvondi_image_rows_words(&image, &from, &row, 1, &word, 1, &count) == TUHVONDI_DONE && word == 2);
    NEED(tuhvondi_image_row_count(&image, &count) == TUHVONDI_DONE && count == 199);
    until_refused = SIZE_MAX;
    tuhvondi_image_free(&image);
    NEED(blocks_out == 0);
    printf("%zu allocations refused\n", refused);
}

/* ---- a writer and its readers */

/* The reader answers what the list has, by an image of this generation. */
static void need_answers(struct tuhvondi_reader *reader, const struct list *list, uint64_t generation)
{
    uint32_t addrs[MOST_ADDRS];
    struct tuhvondi_row answers[MOST_ADDRS];
    uint32_t words[MOST_ADDRS];
    for (size_t from = 0; from == 0 || from < list->count; from += MOST_ADDRS) {
        uint64_t its = ~generation;
        for (size_t i = 0; i < MOST_ADDRS; i++)
            addrs[i] = from + i < list->count ? list->rows[from + i].addr + (uint32_t)(i % 3) : (uint32_t)i << 24;
        NEED(tuhvondi_reader_lookup_words(reader, addrs, MOST_ADDRS, words, MOST_ADDRS, &its) == TUHVONDI_DONE);
        NEED(its == generation);
        need_words(list, addrs, words, MOST_ADDRS);
        its = ~generation;
        NEED(tuhvondi_reader_lookup(reader, addrs, MOST_ADDRS, answers, MOST_ADDRS, &its) == TUHVONDI_DONE);
        NEED(its == generation);
        for (size_t i = 0; i < MOST_ADDRS; i++) {
            struct tuhvondi_row found = longest(list, addrs[i]);
            NEED(is_same(&answers[i], &found));
        }
    }
}

static void refuse_reader_arguments(void)
{
    static struct tuhvondi_reader readers[MOST_READERS];
    struct tuhvondi_image image = TUHVONDI_NO_IMAGE;
    struct tuhvondi_writer writer = TUHVONDI_NO_WRITER;
    struct tuhvondi_reader reader = TUHVONDI_NO_READER, other = TUHVONDI_NO_READER;
    struct tuhvondi_row answers[3] = {via(1, 2, 3), via(1, 2, 3), via(1, 2, 3)};
    uint32_t addrs[3] = {0, 1, UINT32_MAX}, words[3] = {3, 3, 3};
    uint64_t generation = 7;

    /* Empty handles. */
    NEED(tuhvondi_writer_new(&image, 1, &writer) == TUHVONDI_NO_IMAGE_HELD);
    NEED(tuhvondi_writer_new(&image, SIZE_MAX, &writer) == TUHVONDI_NO_IMAGE_HELD);
    NEED(tuhvondi_writer_publish(&writer, 1, NULL, 0, NULL, 0) == TUHVONDI_NO_IMAGE_HELD);
    NEED(tuhvondi_writer_reader(&writer, &reader) == TUHVONDI_NO_IMAGE_HELD);
    NEED(tuhvondi_reader_lookup(&reader, addrs, 3, answers, 3, &generation) == TUHVONDI_NO_IMAGE_HELD);
    NEED(tuhvondi_reader_lookup(&reader, addrs, 3, answers, 2, &generation) == TUHVONDI_NO_IMAGE_HELD);
    NEED(tuhvondi_reader_lookup_words(&reader, addrs, 3, words, 2, &generation) == TUHVONDI_NO_IMAGE_HELD);
    NEED(tuhvondi_reader_learn(&reader, 0) == TUHVONDI_NO_IMAGE_HELD);
    NEED(tuhvondi_writer_published(&writer, &generation) == TUHVONDI_NO_IMAGE_HELD);
    NEED(tuhvondi_writer_publish_words(&writer, 1, NULL, 0, NULL, 0, NULL, 0) == TUHVONDI_NO_IMAGE_HELD);
    NEED(generation == 7 && answers[0].port == 3);
    tuhvondi_reader_free(&reader);
    tuhvondi_writer_free(&writer);

    /* Numbers of readers. A writer may have none. */
    size_t numbers[] = {MOST_READERS + 1, (size_t)1 << 32, SIZE_MAX / 2, SIZE_MAX};
    NEED(tuhvondi_image_new(NULL, 0, &image) == TUHVONDI_DONE);
    for (size_t i = 0; i < sizeof numbers / sizeof numbers[0]; i++)
        NEED(tuhvondi_writer_new(&image, numbers[i], &writer) == TUHVONDI_BAD_COUNT);
    NEED(tuhvondi_writer_publish(&writer, 1, NULL, 0, NULL, 0) == TUHVONDI_NO_IMAGE_HELD);
    NEED(tuhvondi_writer_new(&image, 0, &writer) == TUHVONDI_DONE);
    for (uint64_t i = 1; i <= 3; i++)
        NEED(tuhvondi_writer_publish(&writer, i, NULL, 0, NULL, 0) == TUHVONDI_DONE);
    NEED(tuhvondi_writer_reader(&writer, &reader) == TUHVONDI_BAD_COUNT);

    /* As many readers as there may be, and one more. The image stays, and the writer before goes. */
    NEED(tuhvondi_writer_new(&image, MOST_READERS, &writer) == TUHVONDI_DONE);
    need_rows(&image, &none, 0);
    for (size_t i = 0; i < MOST_READERS; i++)
        NEED(tuhvondi_writer_reader(&writer, &readers[i]) == TUHVONDI_DONE);
    NEED(tuhvondi_writer_reader(&writer, &reader) == TUHVONDI_BAD_COUNT);
    /* A handle keeps the reader that it has until another is made: none can be. */
    NEED(tuhvondi_writer_reader(&writer, &readers[0]) == TUHVONDI_BAD_COUNT);
    struct list list = {.count = 0};
    for (uint64_t i = 1; i <= 4; i++) {
        struct tuhvondi_row row = via(0x0a000000, 8, (uint8_t)i);
        set(&list, row);
        NEED(tuhvondi_writer_publish(&writer, i, &row, 1, NULL, 0) == TUHVONDI_DONE);
        for (size_t k = 0; k < MOST_READERS; k++)
            need_answers(&readers[k], &list, i);
    }
    for (size_t i = 0; i < 3; i++) {
        size_t k = i * (MOST_READERS / 2) - (i == 2);
        tuhvondi_reader_free(&readers[k]);
        NEED(tuhvondi_writer_reader(&writer, &reader) == TUHVONDI_DONE);
        need_answers(&reader, &list, 4);
        NEED(tuhvondi_writer_reader(&writer, &readers[k]) == TUHVONDI_BAD_COUNT);
        tuhvondi_reader_free(&reader);
        NEED(tuhvondi_writer_reader(&writer, &readers[k]) == TUHVONDI_DONE);
    }
    for (size_t k = 0; k < MOST_READERS; k++)
        tuhvondi_reader_free(&readers[k]);

    /* Empty lists, at null. */
    NEED(tuhvondi_writer_new(&image, 1, &writer) == TUHVONDI_DONE);
    NEED(tuhvondi_writer_reader(&writer, &reader) == TUHVONDI_DONE);
    NEED(tuhvondi_writer_publish(&writer, 4, NULL, 0, NULL, 0) == TUHVONDI_DONE);
    NEED(tuhvondi_reader_lookup(&reader, NULL, 0, NULL, 0, &generation) == TUHVONDI_DONE && generation == 4);

    /* Counts that differ. */
    generation = 7;
    NEED(tuhvondi_reader_lookup(&reader, addrs, 3, answers, 2, &generation) == TUHVONDI_BAD_COUNT);
    NEED(tuhvondi_reader_lookup(&reader, addrs, 2, answers, 3, &generation) == TUHVONDI_BAD_COUNT);
    NEED(tuhvondi_reader_lookup(&reader, NULL, 0, answers, 3, &generation) == TUHVONDI_BAD_COUNT);
    NEED(tuhvondi_reader_lookup(&reader, addrs, 3, NULL, 0, &generation) == TUHVONDI_BAD_COUNT);
    NEED(tuhvondi_reader_lookup_words(&reader, addrs, 2, words, 3, &generation) == TUHVONDI_BAD_COUNT);
    NEED(words[0] == 3 && words[1] == 3 && words[2] == 3);
    NEED(generation == 7 && answers[0].port == 3 && answers[1].port == 3 && answers[2].port == 3);

    /* Rows and prefixes that are none: the first row with a fault, or else the first prefix. */
    struct tuhvondi_prefix later[2] = {{0, 0}, {1, 0}};
    for (size_t i = 0; i < BAD_ROWS; i++) {
        struct tuhvondi_row rows[3] = {via(0, 0, 1), bad[i].row, {.addr = 5, .len = 40}};
        struct tuhvondi_prefix prefixes[3] = {{0, 0}, {bad[i].row.addr, bad[i].row.len}, {1, 0}};
        struct tuhvondi_writer empty = TUHVONDI_NO_WRITER;
        NEED(tuhvondi_writer_publish(&writer, 9, rows, 3, later, 2) == bad[i].fault);
        NEED(tuhvondi_writer_publish(&empty, 9, rows, 3, later, 2) == bad[i].fault);
        NEED(tuhvondi_writer_publish_words(&writer, 9, rows, 3, addrs, 2, later, 2) == bad[i].fault);
        NEED(tuhvondi_writer_publish_words(&empty, 9, rows, 1, addrs, 2, later, 2) == TUHVONDI_BAD_COUNT);
        NEED(tuhvondi_writer_publish_words(&empty, 9, rows, 1, addrs, 1, later, 2) == TUHVONDI_HOST_BITS);
        if (bad[i].fault != TUHVONDI_BAD_KIND) {
            NEED(tuhvondi_writer_publish(&writer, 9, rows, 1, prefixes, 3) == bad[i].fault);
            NEED(tuhvondi_writer_publish(&empty, 9, rows, 1, prefixes, 3) == bad[i].fault);
        }
        need_answers(&reader, &none, 4);
    }

    /* A row that is set and taken out by one call is not there. Generations may go back: they are the caller's. */
    struct tuhvondi_row row = via(0xffffffff, 32, 5);
    struct tuhvondi_prefix prefix = {0xffffffff, 32};
    for (uint64_t i = 4; i-- > 0;) {
        NEED(tuhvondi_writer_publish(&writer, i, &row, 1, &prefix, 1) == TUHVONDI_DONE);
        need_answers(&reader, &none, i);
    }

    /* A handle that has a reader may have one of another writer. */
    struct tuhvondi_writer second = TUHVONDI_NO_WRITER;
    NEED(tuhvondi_writer_new(&image, 1, &second) == TUHVONDI_DONE);
    NEED(tuhvondi_writer_publish(&second, 8, &row, 1, NULL, 0) == TUHVONDI_DONE);
    NEED(tuhvondi_writer_reader(&second, &reader) == TUHVONDI_DONE);
    list.count = 0;
    set(&list, row);
    need_answers(&reader, &list, 8);
    NEED(tuhvondi_writer_reader(&writer, &other) == TUHVONDI_DONE);
    need_answers(&other, &none, 0);
    tuhvondi_writer_free(&second);
    need_answers(&reader, &list, 8);

    tuhvondi_image_free(&image);
    for (int twice = 0; twice < 2; twice++) {
        tuhvondi_reader_free(&reader);
        tuhvondi_reader_free(&other);
        tuhvondi_writer_free(&writer);
    }
    NEED(blocks_out == 0);
}

/* Publishes generation 1 or 2: rows that are set, the second time with words, and prefixes whose rows are taken
 * out. */
static uint32_t publish_part(struct tuhvondi_writer *writer, int part, struct tuhvondi_row rows[2][50],
                             struct tuhvondi_prefix gone[2][5])
{
    uint32_t words[50];
    for (uint32_t i = 0; i < 50; i++)
        words[i] = i;
    return part == 0 ? tuhvondi_writer_publish(writer, 1, rows[0], 50, gone[0], 5)
                     : tuhvondi_writer_publish_words(writer, 2, rows[1], 50, words, 50, gone[1], 5);
}

/* Each call of a writer that takes memory is refused each of its allocations. */
static void refuse_writers_memory(void)
{
    static struct list lists[3];
    static struct tuhvondi_row rows[200], more[2][50];
    struct tuhvondi_prefix gone[2][5];
    size_t refused = 0;
    for (size_t i = 0; i < 200; i++) {
        rows[i] = via(0x0a000000 + (uint32_t)i * 0x00010000, 16, (uint8_t)(i % 32));
        set(&lists[0], rows[i]);
    }
    for (size_t k = 0; k < 2; k++) {
        lists[k + 1] = lists[k];
        for (size_t i = 0; i < 50; i++) {
            more[k][i] = via(0x0a000000 + (uint32_t)(i + 50 * k) * 0x01010100, 32, (uint8_t)(i % 32));
            set_word(&lists[k + 1], more[k][i], k == 0 ? TUHVONDI_NO_WORD : (uint32_t)i);
        }
        for (size_t i = 0; i < 5; i++) {
            gone[k][i] = (struct tuhvondi_prefix){rows[5 * k + i].addr, rows[5 * k + i].len};
            take_out(&lists[k + 1], gone[k][i].addr, gone[k][i].len);
        }
    }
    /* 0 makes a writer, 1 a reader, 2 publishes, and 3 publishes when the hidden copy is wanting a change. */
    for (int call = 0; call < 4; call++) {
        uint32_t status = TUHVONDI_NO_MEMORY;
        for (size_t allowed = 0; status != TUHVONDI_DONE; allowed++) {
            struct tuhvondi_image image = TUHVONDI_NO_IMAGE;
            struct tuhvondi_writer writer = TUHVONDI_NO_WRITER, other = TUHVONDI_NO_WRITER;
            struct tuhvondi_reader first = TUHVONDI_NO_READER, second = TUHVONDI_NO_READER;
            int at = call == 3;
            NEED(tuhvondi_image_new(rows, 200, &image) == TUHVONDI_DONE);
            NEED(tuhvondi_writer_new(&image, 2, &writer) == TUHVONDI_DONE);
            NEED(tuhvondi_writer_reader(&writer, &first) == TUHVONDI_DONE);
            if (at)
                NEED(publish_part(&writer, 0, more, gone) == TUHVONDI_DONE);
            for (int again = 0; again < 2 && status != TUHVONDI_DONE; again++) {
                until_refused = again ? SIZE_MAX : allowed;
                uint32_t its = call == 0 ? tuhvondi_writer_new(&image, 1, &other)
                    : call == 1          ? tuhvondi_writer_reader(&writer, &second)
                                         : publish_part(&writer, at, more, gone);
                until_refused = SIZE_MAX;
                NEED(its == TUHVONDI_DONE || (its == TUHVONDI_NO_MEMORY && !again));
                refused += its == TUHVONDI_NO_MEMORY;
                bool done = its == TUHVONDI_DONE;
                int now = at + (call > 1 && done);
                need_answers(&first, &lists[now], (uint64_t)now);
                need_rows(&image, &lists[0], 0);
                if (call == 0 && !done)
                    NEED(tuhvondi_writer_publish(&other, 1, NULL, 0, NULL, 0) == TUHVONDI_NO_IMAGE_HELD);
                if (call == 1 && !done)
                    NEED(tuhvondi_reader_lookup(&second, NULL, 0, NULL, 0, &(uint64_t){0}) == TUHVONDI_NO_IMAGE_HELD);
                if (call == 1 && done)
                    need_answers(&second, &lists[0], 0);
                if (!again)
                    status = its;
            }
            /* Both copies have all changes, and no reader was lost. */
            for (int now = at + (call > 1); now < 2; now++)
                NEED(publish_part(&writer, now, more, gone) == TUHVONDI_DONE);
            for (uint64_t generation = 2; generation < 5; generation++) {
                need_answers(&first, &lists[2], generation);
                NEED(tuhvondi_writer_publish(&writer, generation + 1, NULL, 0, NULL, 0) == TUHVONDI_DONE);
            }
            if (call != 1)
                NEED(tuhvondi_writer_reader(&writer, &second) == TUHVONDI_DONE);
            need_answers(&second, &lists[2], 5);
            tuhvondi_image_free(&image);
            tuhvondi_writer_free(&writer);
            tuhvondi_writer_free(&other);
            tuhvondi_reader_free(&first);
            tuhvondi_reader_free(&second);
            NEED(blocks_out == 0);
        }
    }
    /* A look-up takes no memory. */
    struct tuhvondi_image image = TUHVONDI_NO_IMAGE;
    struct tuhvondi_writer writer = TUHVONDI_NO_WRITER;
    struct tuhvondi_reader reader = TUHVONDI_NO_READER;
    NEED(tuhvondi_image_new(rows, 200, &image) == TUHVONDI_DONE);
    NEED(tuhvondi_writer_new(&image, 1, &writer) == TUHVONDI_DONE);
    NEED(tuhvondi_writer_reader(&writer, &reader) == TUHVONDI_DONE);
    until_refused = 0;
    need_answers(&reader, &lists[0], 0);
    until_refused = SIZE_MAX;
    tuhvondi_image_free(&image);
    tuhvondi_writer_free(&writer);
    tuhvondi_reader_free(&reader);
    NEED(blocks_out == 0);
    printf("%zu allocations of writers and readers refused\n", refused);
}

/* A look-up that stands still: the first write of an answer faults, and the handler waits. */

enum { PAGE = 4096, STILL = 64 };

static atomic_bool stands, may_go_on;
static struct tuhvondi_row *still_answers;

static void stand_still(int signal)
{
    (void)signal;
    atomic_store(&stands, true);
    while (!atomic_load(&may_go_on))
        sched_yield();
    if (mprotect(still_answers, PAGE, PROT_READ | PROT_WRITE))
        _Exit(1);
}

struct still {
    struct tuhvondi_reader *reader;
    uint64_t generation;
    uint32_t status;
};

static void *look_up_still(void *argument)
{
    struct still *still = argument;
    uint32_t addrs[STILL];
    for (uint32_t i = 0; i < STILL; i++)
        addrs[i] = 0x0a000000 + i;
    still->status = tuhvondi_reader_lookup(still->reader, addrs, STILL, still_answers, STILL, &still->generation);
    return NULL;
}

/* While one reader stands still in its look-up, the writer publishes once, and is then refused until the
 * look-up has ended. Other readers go on. In the second turn the writer is freed meanwhile. */
static void publish_beside_a_look_up(void)
{
    struct sigaction action = {.sa_handler = stand_still}, before;
    still_answers = mmap(NULL, PAGE, PROT_NONE, MAP_PRIVATE | MAP_ANONYMOUS, -1, 0);
    NEED(still_answers != MAP_FAILED && sigaction(SIGSEGV, &action, &before) == 0);
    for (int freed = 0; freed < 2; freed++) {
        struct tuhvondi_image image = TUHVONDI_NO_IMAGE;
        struct tuhvondi_writer writer = TUHVONDI_NO_WRITER;
        struct tuhvondi_reader reader = TUHVONDI_NO_READER, other = TUHVONDI_NO_READER;
        struct tuhvondi_row row[4];
        struct list lists[4] = {{.count = 0}};
        for (uint8_t i = 0; i < 4; i++) {
            row[i] = via(0x0a000000, 8, i);
            set(&lists[i], row[i]);
        }
        NEED(tuhvondi_image_new(row, 1, &image) == TUHVONDI_DONE);
        NEED(tuhvondi_writer_new(&image, 2, &writer) == TUHVONDI_DONE);
        NEED(tuhvondi_writer_reader(&writer, &reader) == TUHVONDI_DONE);
        NEED(tuhvondi_writer_reader(&writer, &other) == TUHVONDI_DONE);
        struct still still = {.reader = &reader, .generation = 99};
        pthread_t thread;
        atomic_store(&stands, false);
        atomic_store(&may_go_on, false);
        NEED(mprotect(still_answers, PAGE, PROT_NONE) == 0);
        NEED(pthread_create(&thread, NULL, look_up_still, &still) == 0);
        while (!atomic_load(&stands))
            sched_yield();
        /* Its place is not that of the reader which stands. */
        need_answers(&other, &lists[0], 0);
        NEED(tuhvondi_writer_publish(&writer, 1, &row[1], 1, NULL, 0) == TUHVONDI_DONE);
        need_answers(&other, &lists[1], 1);
        for (int i = 0; i < 3; i++) {
            NEED(tuhvondi_writer_publish(&writer, 2, &row[2], 1, NULL, 0) == TUHVONDI_SHARED);
            need_answers(&other, &lists[1], 1);
        }
        if (freed) {
            tuhvondi_writer_free(&writer);
            tuhvondi_reader_free(&other);
        }
        atomic_store(&may_go_on, true);
        NEED(pthread_join(thread, NULL) == 0);
        NEED(still.status == TUHVONDI_DONE && still.generation == 0);
        for (size_t i = 0; i < STILL; i++)
            NEED(is_same(&still_answers[i], &row[0]));
        need_answers(&reader, &lists[1], 1);
        for (uint8_t i = 2; !freed && i < 4; i++) {
            NEED(tuhvondi_writer_publish(&writer, i, &row[i], 1, NULL, 0) == TUHVONDI_DONE);
            need_answers(&reader, &lists[i], i);
            need_answers(&other, &lists[i], i);
        }
        tuhvondi_reader_free(&reader);
        tuhvondi_reader_free(&other);
        tuhvondi_writer_free(&writer);
        tuhvondi_image_free(&image);
    }
    NEED(sigaction(SIGSEGV, &before, NULL) == 0 && munmap(still_answers, PAGE) == 0);
}

/* An image, its writer and two readers, freed in each of the 24 orders. */
static void free_in_each_order(void)
{
    struct tuhvondi_row row = via(0x0a000000, 8, 1), next = via(0x0a000000, 8, 2);
    struct list lists[2] = {{.count = 0}};
    set(&lists[0], row);
    set(&lists[1], next);
    for (int order = 0; order < 4 * 4 * 4 * 4; order++) {
        int turn[4] = {order % 4, order / 4 % 4, order / 16 % 4, order / 64};
        bool is_gone[4] = {false};
        if ((1 << turn[0] | 1 << turn[1] | 1 << turn[2] | 1 << turn[3]) != 15)
            continue;
        struct tuhvondi_image image = TUHVONDI_NO_IMAGE;
        struct tuhvondi_writer writer = TUHVONDI_NO_WRITER;
        struct tuhvondi_reader readers[2] = {TUHVONDI_NO_READER, TUHVONDI_NO_READER};
        NEED(tuhvondi_image_new(&row, 1, &image) == TUHVONDI_DONE);
        NEED(tuhvondi_writer_new(&image, 2, &writer) == TUHVONDI_DONE);
        for (int i = 0; i < 2; i++)
            NEED(tuhvondi_writer_reader(&writer, &readers[i]) == TUHVONDI_DONE);
        NEED(tuhvondi_writer_publish(&writer, 1, &next, 1, NULL, 0) == TUHVONDI_DONE);
        for (int i = 0; i < 4; i++) {
            is_gone[turn[i]] = true;
            if (turn[i] == 0)
                tuhvondi_image_free(&image);
            else if (turn[i] == 1)
                tuhvondi_writer_free(&writer);
            else
                tuhvondi_reader_free(&readers[turn[i] - 2]);
            if (!is_gone[0])
                need_rows(&image, &lists[0], 0);
            for (int k = 0; k < 2; k++)
                if (!is_gone[2 + k])
                    need_answers(&readers[k], &lists[1], 1);
        }
        NEED(blocks_out == 0);
    }
}

/* Steps of a writer, with memory refused now and then, and of two readers, beside the list. */
static void compare_readers(uint64_t steps)
{
    static struct list list, changed;
    struct tuhvondi_image image = TUHVONDI_NO_IMAGE;
    struct tuhvondi_writer writer = TUHVONDI_NO_WRITER;
    struct tuhvondi_reader readers[2] = {TUHVONDI_NO_READER, TUHVONDI_NO_READER};
    uint64_t generation = 0, published = 1, refused = 0, looked_up = 0;
    list.count = 0;
    NEED(tuhvondi_image_new(NULL, 0, &image) == TUHVONDI_DONE);
    NEED(tuhvondi_writer_new(&image, 2, &writer) == TUHVONDI_DONE);
    tuhvondi_image_free(&image);
    for (int k = 0; k < 2; k++)
        NEED(tuhvondi_writer_reader(&writer, &readers[k]) == TUHVONDI_DONE);
    for (step = 1; step <= steps; step++) {
        struct tuhvondi_row rows[8];
        struct tuhvondi_prefix gone[8];
        uint32_t sets = below(8), takes = list.count > MOST_ROWS - 100 ? 8 : below(6);
        uint32_t words[8];
        bool has_words = step > steps / 4 && below(2) == 0;
        copy_list(&changed, &list);
        for (uint32_t i = 0; i < sets; i++) {
            struct tuhvondi_prefix at = draw_prefix();
            rows[i] = via(at.addr, at.len, (uint8_t)below(256));
            words[i] = has_words ? below(UINT32_MAX) : TUHVONDI_NO_WORD;
            set_word(&changed, rows[i], words[i]);
        }
        for (uint32_t i = 0; i < takes; i++) {
            gone[i] = draw_prefix();
            if (changed.count > 0 && below(2) == 0) {
                const struct tuhvondi_row *row = &changed.rows[below((uint32_t)changed.count)];
                gone[i] = (struct tuhvondi_prefix){row->addr, row->len};
            }
            take_out(&changed, gone[i].addr, gone[i].len);
        }
        until_refused = below(4) == 0 ? below(6) : SIZE_MAX;
        bool is_open = until_refused == SIZE_MAX;
        uint32_t status = has_words
            ? tuhvondi_writer_publish_words(&writer, step, rows, sets, words, sets, gone, takes)
            : tuhvondi_writer_publish(&writer, step, rows, sets, gone, takes);
        until_refused = SIZE_MAX;
        NEED(status == TUHVONDI_DONE || (status == TUHVONDI_NO_MEMORY && !is_open));
        refused += status == TUHVONDI_NO_MEMORY;
        if (status == TUHVONDI_DONE) {
            generation = step;
            published++;
            copy_list(&list, &changed);
        }
        uint64_t told = 0;
        NEED(tuhvondi_writer_published(&writer, &told) == TUHVONDI_DONE && told == published);
        for (int k = 0; k < 2; k++) {
            uint32_t addrs[MOST_ADDRS], found_words[MOST_ADDRS], burst = below(MOST_ADDRS + 1);
            struct tuhvondi_row answers[MOST_ADDRS];
            uint64_t its = ~generation;
            if (below(64) == 0) {
                tuhvondi_reader_free(&readers[k]);
                NEED(tuhvondi_writer_reader(&writer, &readers[k]) == TUHVONDI_DONE);
            }
            for (uint32_t i = 0; i < burst; i++)
                addrs[i] = draw_prefix().addr + below(3);
            NEED(tuhvondi_reader_learn(&readers[k], below(2) == 0 ? told : below(3)) == TUHVONDI_DONE || told < 2);
            NEED(tuhvondi_reader_learn(&readers[k], told + 1 + below(3)) == TUHVONDI_BAD_COUNT);
            NEED(tuhvondi_reader_lookup_words(&readers[k], addrs, burst, found_words, burst, &its) == TUHVONDI_DONE);
            NEED(its == generation);
            need_words(&list, addrs, found_words, burst);
            its = ~generation;
            NEED(tuhvondi_reader_lookup(&readers[k], addrs, burst, answers, burst, &its) == TUHVONDI_DONE);
            NEED(its == generation);
            for (uint32_t i = 0; i < burst; i++) {
                struct tuhvondi_row found = longest(&list, addrs[i]);
                NEED(is_same(&answers[i], &found));
            }
            looked_up += burst;
        }
    }
    printf("%" PRIu64 " steps of a writer, %" PRIu64 " refused, %" PRIu64 " look-ups by its readers; %zu rows\n",
        steps, refused, looked_up, list.count);
    tuhvondi_writer_free(&writer);
    for (int k = 0; k < 2; k++)
        tuhvondi_reader_free(&readers[k]);
    NEED(blocks_out == 0);
}

int main(int argc, char **argv)
{
    uint64_t steps = argc > 1 ? strtoull(argv[1], NULL, 10) : 20000;
    random_state = argc > 2 ? strtoull(argv[2], NULL, 10) : 1;
    refuse_arguments();
    refuse_memory();
    refuse_reader_arguments();
    refuse_writers_memory();
    publish_beside_a_look_up();
    free_in_each_order();
    compare_readers(steps);
    compare(steps, 0, UINT64_MAX);
    compare(steps, 0, steps / 2);
    compare(steps / 10, SPREAD, UINT64_MAX);
    compare(steps / 10, SPREAD, steps / 20);
    puts("all as they have to be");
    return 0;
}
