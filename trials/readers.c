/* Readers that never wait, in C11 atomics: the protocol of crates/lookup_calls (board.rt, reader.rt, writer.rt), for
 * ThreadSanitizer, which sees no accesses of the archive, and for times.
 *
 *     trials/readers [LIB]       runs it in all its forms
 *     ./readers [READERS [BURST [SECONDS [claims|words]]]]
 *
 * -DSTAND_IN  takes plain memory for images, so that a race is seen
 * -DPLANT=N   plants an error: 1 a writer that waits for nobody; 2 a reader that claims nothing; 3 claims
 *             that order nothing; 4 pages that are put in and order nothing; 5 no second look
 */
#include <pthread.h>
#include <sched.h>
#include <stdatomic.h>
#include <stdbool.h>
#include <stdint.h>
#include <stdio.h>
#include <stdlib.h>
#include <string.h>
#include <time.h>

#ifndef PLANT
#define PLANT 0
#endif
enum { MOST = 3, FREE = 0, PRESENT = 1, TAKEN = 3, IN = 5 };

#ifdef STAND_IN
enum { ROWS = 64 };
struct image { uint64_t generation; uint32_t row[ROWS]; };
static struct image images[2];
static void change(int side, uint64_t generation)
{
    for (int i = 0; i < ROWS; i++)
        images[side].row[i] = (uint32_t)generation;
    images[side].generation = generation;
}
struct page { struct image *image; };
static void let_go(struct page *page) { page->image = NULL; }
static void hold(struct page *page, int side) { page->image = &images[side]; }
static uint64_t look_up(struct page *page, const uint32_t *addrs, size_t count, uint32_t *answers)
{
    for (size_t i = 0; i < count; i++)
        answers[i] = page->image->row[addrs[i] % ROWS];
    return page->image->generation;
}
#else
#include <tuhvondi.h>
static struct tuhvondi_image images[2];
static uint64_t published;
static void need(uint32_t status)
{
    if (status) {
        fprintf(stderr, "readers: %s\n", tuhvondi_status_text(status));
        exit(1);
    }
}
static void change(int side, uint64_t generation)
{
    struct tuhvondi_row row = {.addr = 0x0a000000u + (uint32_t)(generation % 4096 << 8), .len = 24,
                               .kind = TUHVONDI_VIA, .port = generation % 32, .session = 1};
    need(tuhvondi_image_apply(&images[side], generation, &row, 1));
}
struct page { struct tuhvondi_image image; };
static void let_go(struct page *page) { tuhvondi_image_free(&page->image); }
static void hold(struct page *page, int side) { need(tuhvondi_image_share(&images[side], &page->image)); }
static struct tuhvondi_row found[MOST][64];
static uint64_t look_up(struct page *page, const uint32_t *addrs, size_t count, struct tuhvondi_row *answers)
{
    uint64_t generation;
    need(tuhvondi_image_lookup(&page->image, addrs, count, answers, count));
    need(tuhvondi_image_generation(&page->image, &generation));
    return generation;
}
#endif

struct place {
    _Alignas(128) _Atomic uint64_t word;
    struct page page;
};
static struct place places[MOST][2];
static _Alignas(128) _Atomic uint64_t shown;
static _Alignas(128) _Atomic uint64_t told;
static _Alignas(128) atomic_bool stopping;
static int readers, burst, way;
/* Another way, for comparison: a reader's word is odd during a burst, and the writer waits till it is even. */
static struct { _Alignas(128) _Atomic uint64_t word; } bursts[MOST];

#define CLAIM (PLANT == 3 ? memory_order_relaxed : memory_order_seq_cst)
#define PUT (PLANT == 4 ? memory_order_relaxed : memory_order_seq_cst)

static struct place *enter(int me)
{
    for (;;) {
        int side = (int)atomic_load(&shown);
        struct place *place = &places[me][side];
        uint64_t seen = PRESENT;
        if (PLANT == 2) {
            if (atomic_load(&place->word) == PRESENT)
                return place;
            continue;
        }
        if (!atomic_compare_exchange_strong_explicit(&place->word, &seen, IN, CLAIM, memory_order_relaxed))
            continue;
        if (PLANT == 5 || (int)atomic_load(&shown) == side)
            return place;
        atomic_store(&place->word, PRESENT);
    }
}

static void leave(struct place *place)
{
    if (PLANT != 2)
        atomic_fetch_sub_explicit(&place->word, IN - PRESENT, CLAIM);
}

/* False while a reader has a page of the hidden copy: it is tried again then. */
static bool publish(uint64_t generation)
{
    int off = 1 - (int)atomic_load(&shown);
    if (way == 0) {
        for (int i = 0; i < readers; i++) {
            uint64_t seen = PRESENT;
            if (PLANT == 1)
                atomic_store(&places[i][off].word, TAKEN);
            else if (!atomic_compare_exchange_strong_explicit(&places[i][off].word, &seen, TAKEN, CLAIM,
                                                              memory_order_relaxed)) {
                if (seen == FREE)
                    continue;
                return false;
            }
            let_go(&places[i][off].page);
            atomic_store(&places[i][off].word, FREE);
        }
    } else {
        for (int i = 0; i < readers; i++) {
            uint64_t word = atomic_load(&bursts[i].word);
            while (word % 2 == 1 && atomic_load(&bursts[i].word) == word)
                sched_yield();
        }
        for (int i = 0; i < readers; i++)
            let_go(&places[i][off].page);
    }
    if (generation > 1)
        change(off, generation - 1);
    change(off, generation);
    for (int i = 0; i < readers; i++) {
        if (way == 0)
            atomic_store(&places[i][off].word, TAKEN);
        hold(&places[i][off].page, off);
        if (way == 0)
            atomic_store_explicit(&places[i][off].word, PRESENT, PUT);
    }
    atomic_store_explicit(&shown, (uint64_t)off, PLANT == 4 ? memory_order_relaxed : memory_order_seq_cst);
    atomic_store_explicit(&told, generation, PLANT == 4 ? memory_order_relaxed : memory_order_seq_cst);
    return true;
}

static uint64_t lookups[MOST], stale[MOST], torn[MOST];

static void *read_bursts(void *word)
{
    int me = (int)(intptr_t)word;
    uint32_t addrs[64];
    uint64_t last = 0, count = 0, x = 88172645463325252u + (uint64_t)me;
#ifdef STAND_IN
    uint32_t answers[64];
#else
    struct tuhvondi_row *answers = found[me];
#endif
    for (int i = 0; i < 64; i++) {
        x ^= x << 13, x ^= x >> 7, x ^= x << 17;
        addrs[i] = 0x0a000000u + (uint32_t)(x % (4096u << 8));
    }
    while (!atomic_load_explicit(&stopping, memory_order_relaxed)) {
        uint64_t before = atomic_load_explicit(&told, PLANT == 4 ? memory_order_relaxed : memory_order_seq_cst);
        uint64_t generation;
        if (way == 0) {
            struct place *place = enter(me);
            generation = look_up(&place->page, addrs, (size_t)burst, answers);
            leave(place);
        } else {
            atomic_fetch_add(&bursts[me].word, 1);
            generation = look_up(&places[me][atomic_load(&shown)].page, addrs, (size_t)burst, answers);
            atomic_fetch_add(&bursts[me].word, 1);
        }
        if (generation < before || generation < last)
            stale[me]++;
        last = generation;
#ifdef STAND_IN
        for (int i = 0; i < burst; i++)
            if (answers[i] != (uint32_t)generation)
                torn[me]++;
#endif
        count += (uint64_t)burst;
    }
    lookups[me] = count;
    return NULL;
}

static double now(void)
{
    struct timespec t;
    clock_gettime(CLOCK_MONOTONIC, &t);
    return (double)t.tv_sec + 1e-9 * (double)t.tv_nsec;
}

static double cpu(pthread_t thread)
{
    clockid_t id;
    struct timespec t;
    pthread_getcpuclockid(thread, &id);
    clock_gettime(id, &t);
    return (double)t.tv_sec + 1e-9 * (double)t.tv_nsec;
}

int main(int count, char **words)
{
    pthread_t threads[MOST];
    uint64_t generation = 0, refused = 0, all = 0, old = 0, broken = 0;
    double spent = 0;
    readers = count > 1 ? atoi(words[1]) : 2;
    burst = count > 2 ? atoi(words[2]) : 8;
    double seconds = count > 3 ? atof(words[3]) : 1;
    way = count > 4 && !strcmp(words[4], "words");
#ifndef STAND_IN
    struct tuhvondi_row first[4096];
    for (uint32_t i = 0; i < 4096; i++)
        first[i] = (struct tuhvondi_row){.addr = 0x0a000000u + (i << 8), .len = 24, .kind = TUHVONDI_VIA,
                                         .port = (uint8_t)(i % 32), .session = 1};
    need(tuhvondi_image_new(first, 4096, &images[0]));
    need(tuhvondi_image_copy(&images[0], &images[1]));
    (void)published;
#endif
    for (int i = 0; i < readers; i++)
        for (int side = 0; side < 2; side++) {
            if (side == 0 || way)
                hold(&places[i][side].page, side);
            places[i][side].word = side == 0 ? PRESENT : FREE;
        }
    for (int i = 0; i < readers; i++)
        pthread_create(&threads[i], NULL, read_bursts, (void *)(intptr_t)i);
    double end = now() + seconds;
    while (now() < end) {
        if (publish(generation + 1))
            generation++;
        else {
            refused++;
            sched_yield();
        }
    }
    for (int i = 0; i < readers; i++)
        spent += cpu(threads[i]);
    atomic_store(&stopping, true);
    for (int i = 0; i < readers; i++) {
        pthread_join(threads[i], NULL);
        all += lookups[i], old += stale[i], broken += torn[i];
    }
    printf("%s %d readers, bursts of %d: %.1f ns an address of a reader's time, %llu published, %llu refused, "
           "%llu older, %llu torn\n",
           way ? "words " : "claims", readers, burst, 1e9 * spent / (double)all, (unsigned long long)generation,
           (unsigned long long)refused, (unsigned long long)old, (unsigned long long)broken);
    return old || broken;
}
