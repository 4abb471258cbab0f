/* Threads that look up in a table while another changes it a thousand times a second. */
#define _GNU_SOURCE
#include "lookup.h"

#include <errno.h>
#include <pthread.h>
#include <stdatomic.h>
#include <stdio.h>
#include <stdlib.h>
#include <time.h>

enum {
    PUBLICATIONS = 1000, /* in a second, and in all */
    NANOSECONDS = 1000000000,
};

static double time_by(clockid_t clock)
{
    struct timespec time;
    clock_gettime(clock, &time);
    return (double)time.tv_sec * NANOSECONDS + (double)time.tv_nsec;
}

/* One reader's part, apart from those of the others. */
static struct {
    _Alignas(128) pthread_t thread;
    size_t number;
    double bursts, nanoseconds; /* of processor time */
} parts[MOST_READERS];

static const shared_way *shared;
static const uint32_t *addresses;
static atomic_bool stopped;

static void *read_on(void *argument)
{
    size_t number = *(size_t *)argument;
    double begin = time_by(CLOCK_THREAD_CPUTIME_ID), bursts = 0;
    for (size_t at = 0; !atomic_load_explicit(&stopped, memory_order_relaxed); at = (at + BURST) % ADDRESSES, bursts++)
        shared->look_up(number, &addresses[at]);
    parts[number].bursts = bursts;
    parts[number].nanoseconds = time_by(CLOCK_THREAD_CPUTIME_ID) - begin;
    return NULL;
}

/* The writer's thread: each publication is due a millisecond after the one before. */
static void publish_on(const table *t, size_t readers)
{
    double begin = time_by(CLOCK_MONOTONIC), sum = 0, longest = 0;
    size_t refused = 0;
    for (size_t k = 0; k < PUBLICATIONS; k++) {
        double due = begin + (double)k * NANOSECONDS / PUBLICATIONS;
        struct timespec at = { (time_t)(due / NANOSECONDS), (long)(due - (double)(time_t)(due / NANOSECONDS) * NANOSECONDS) };
        while (clock_nanosleep(CLOCK_MONOTONIC, TIMER_ABSTIME, &at, NULL) == EINTR)
            ;
        uint32_t n = below((uint32_t)t->count);
        double from = time_by(CLOCK_MONOTONIC);
        while (!shared->publish(t, n))
            refused++;
        double took = time_by(CLOCK_MONOTONIC) - from;
        sum += took;
        longest = took > longest ? took : longest;
    }
    double seconds = (time_by(CLOCK_MONOTONIC) - begin) / NANOSECONDS;
    atomic_store(&stopped, true);
    double addrs = 0, nanoseconds = 0;
    for (size_t i = 0; i < readers; i++) {
        pthread_join(parts[i].thread, NULL);
        addrs += parts[i].bursts * BURST;
        nanoseconds += parts[i].nanoseconds;
    }
    printf("%-24s %8zu %12.0f %10.1f %10.0f %10zu %12.1f\n", shared->name, readers, PUBLICATIONS / seconds,
           sum / PUBLICATIONS / 1e3, longest / 1e3, refused, nanoseconds / addrs);
}

void print_readers(const shared_way *way, const table *t, const uint32_t *addrs)
{
    shared = way;
    addresses = addrs;
    printf("%-24s %8s %12s %10s %10s %10s %12s\n", "", "readers", "published/s", "us each", "longest", "refused",
           "ns an addr");
    for (size_t readers = 1; readers <= MOST_READERS; readers++) {
        way->begin(t, readers);
        atomic_store(&stopped, false);
        for (size_t i = 0; i < readers; i++) {
            parts[i].number = i;
            if (pthread_create(&parts[i].thread, NULL, read_on, &parts[i].number))
                stop("no thread");
        }
        publish_on(t, readers);
        way->end();
    }
}

/* A writer and its readers, by words. */

static struct tuhvondi_writer writer = TUHVONDI_NO_WRITER;
static struct {
    _Alignas(128) struct tuhvondi_reader reader;
    uint32_t words[BURST];
} seats[MOST_READERS];
static uint64_t last;

static void need(uint32_t status)
{
    if (status)
        stop("a writer or a reader: %s", tuhvondi_status_text(status));
}

static void writer_begin(const table *t, size_t readers)
{
    struct tuhvondi_image image = TUHVONDI_NO_IMAGE;
    uint32_t *words = numbers(t->count);
    need(tuhvondi_image_new_words(t->rows, t->count, words, t->count, &image));
    need(tuhvondi_writer_new(&image, readers, &writer));
    for (size_t i = 0; i < readers; i++)
        need(tuhvondi_writer_reader(&writer, &seats[i].reader));
    tuhvondi_image_free(&image);
    free(words);
}

static void writer_look_up(size_t reader, const uint32_t *addrs)
{
    uint64_t generation;
    need(tuhvondi_reader_lookup_words(&seats[reader].reader, addrs, BURST, seats[reader].words, BURST, &generation));
}

static bool writer_publish(const table *t, uint32_t n)
{
    uint32_t hop = (uint32_t)t->count + n;
    uint32_t status = tuhvondi_writer_publish_words(&writer, last + 1, &t->rows[hop], 1, &hop, 1, NULL, 0);
    if (status != TUHVONDI_SHARED)
        need(status);
    last += !status;
    return !status;
}

static void writer_end(void)
{
    for (size_t i = 0; i < MOST_READERS; i++)
        tuhvondi_reader_free(&seats[i].reader);
    tuhvondi_writer_free(&writer);
}

const shared_way WRITER = {
    .name = "proved writer, words",
    .begin = writer_begin,
    .look_up = writer_look_up,
    .publish = writer_publish,
    .end = writer_end,
};
