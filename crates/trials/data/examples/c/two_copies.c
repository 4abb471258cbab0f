/* A table that changes while it forwards: one writer publishes, and three readers look bursts up, under no lock.
 *
 *     cc -o two_copies examples/c/two_copies.c $(pkg-config --cflags --libs tuhvondi) -pthread && ./two_copies
 *
 * Each publication sets two rows and takes a third out. A reader answers a burst by one image: the two rows
 * always have the same port, and generations never go back. It prints what examples/c/two_copies.out has.
 */
#include <tuhvondi.h>

#include <pthread.h>
#include <sched.h>
#include <stdatomic.h>
#include <stdio.h>
#include <stdlib.h>

enum { READERS = 3, BURST = 32, PUBLICATIONS = 1000 };

static struct tuhvondi_reader readers[READERS];
static atomic_bool stopping;

static void need(uint32_t status)
{
    if (status == TUHVONDI_DONE)
        return;
    fprintf(stderr, "two_copies: %s\n", tuhvondi_status_text(status));
    exit(1);
}

static struct tuhvondi_row row(uint32_t addr, uint64_t generation)
{
    return (struct tuhvondi_row){.addr = addr, .len = 8, .kind = TUHVONDI_VIA,
                                 .port = (uint8_t)(generation % 32), .session = 1};
}

/* Looks bursts up, half of them below each of the two rows. */
static void *read_bursts(void *word)
{
    size_t me = (size_t)word;
    uint32_t addrs[BURST];
    struct tuhvondi_row answers[BURST];
    uint64_t last = 0;
    for (uint32_t i = 0; i < BURST; i++)
        addrs[i] = (i % 2 == 0 ? 0x0a000000 : 0x0b000000) + i;
    while (!atomic_load(&stopping)) {
        uint64_t generation;
        need(tuhvondi_reader_lookup(&readers[me], addrs, BURST, answers, BURST, &generation));
        if (generation < last) {
            fprintf(stderr, "two_copies: an older image than before\n");
            exit(1);
        }
        last = generation;
        for (size_t i = 0; i < BURST; i++)
            if (answers[i].port != generation % 32) {
                fprintf(stderr, "two_copies: a burst has answers of two images\n");
                exit(1);
            }
    }
    return NULL;
}

/* Publishes, as soon as the readers that are in the hidden copy have left it. */
static void publish(struct tuhvondi_writer *writer, uint64_t generation)
{
    struct tuhvondi_row rows[] = {row(0x0a000000, generation), row(0x0b000000, generation)};
    struct tuhvondi_prefix gone = {0x0c000000, 8};
    uint32_t status;
    while ((status = tuhvondi_writer_publish(writer, generation, rows, 2, &gone, 1)) == TUHVONDI_SHARED)
        sched_yield();
    need(status);
}

int main(void)
{
    struct tuhvondi_image image = TUHVONDI_NO_IMAGE;
    struct tuhvondi_writer writer = TUHVONDI_NO_WRITER;
    pthread_t threads[READERS];
    struct tuhvondi_row first[] = {row(0x0a000000, 0), row(0x0b000000, 0), row(0x0c000000, 0)};
    need(tuhvondi_image_new(first, 3, &image));
    need(tuhvondi_writer_new(&image, READERS, &writer));
    tuhvondi_image_free(&image);
    for (size_t i = 0; i < READERS; i++)
        need(tuhvondi_writer_reader(&writer, &readers[i]));
    for (size_t i = 0; i < READERS; i++)
        if (pthread_create(&threads[i], NULL, read_bursts, (void *)i)) {
            fprintf(stderr, "two_copies: no thread\n");
            return 1;
        }
    for (uint64_t generation = 1; generation <= PUBLICATIONS; generation++)
        publish(&writer, generation);
    atomic_store(&stopping, true);
    for (size_t i = 0; i < READERS; i++)
        pthread_join(threads[i], NULL);
    for (size_t i = 0; i < READERS; i++) {
        uint32_t addrs[] = {0x0a000001, 0x0c000001};
        struct tuhvondi_row answers[2];
        uint64_t generation, published;
        /* What this thread says of its publications, the reader learns: no answer is older from now on. */
        need(tuhvondi_writer_published(&writer, &published));
        need(tuhvondi_reader_learn(&readers[i], published));
        need(tuhvondi_reader_lookup(&readers[i], addrs, 2, answers, 2, &generation));
        printf("reader %zu: generation %d, by port %u, and %s\n", i, (int)generation, answers[0].port,
               answers[1].kind == TUHVONDI_NO_ROW ? "no row" : "a row");
        tuhvondi_reader_free(&readers[i]);
    }
    tuhvondi_writer_free(&writer);
    return 0;
}
