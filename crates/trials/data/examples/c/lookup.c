/* Makes an image of four rows, looks up addresses in two threads, patches the image, looks up again, and
 * takes a row out.
 * Once the library is installed, as by ./install /usr/local:
 *
 *     cc -O2 examples/c/lookup.c $(pkg-config --cflags --libs tuhvondi) -pthread -o lookup
 *     ./lookup
 *
 * prints what examples/c/lookup.out has. */
#include "tuhvondi.h"

#include <inttypes.h>
#include <pthread.h>
#include <stdio.h>

#define COUNT(list) (sizeof(list) / sizeof(*(list)))

static void print_addr(uint32_t addr)
{
    printf("%u.%u.%u.%u", addr >> 24, addr >> 16 & 255, addr >> 8 & 255, addr & 255);
}

static void print_row(struct tuhvondi_row row)
{
    print_addr(row.addr);
    printf("/%u", row.len);
    switch (row.kind) {
    case TUHVONDI_LOCAL:
        printf(" local\n");
        break;
    case TUHVONDI_VIA:
        printf(" via %u session %u\n", row.port, row.session);
        break;
    default:
        printf(" unreachable\n");
    }
}

static void print_answer(uint32_t addr, struct tuhvondi_row row)
{
    print_addr(addr);
    if (row.kind == TUHVONDI_NO_ROW) {
        printf(" no row\n");
        return;
    }
    putchar(' ');
    print_row(row);
}

static const uint32_t ADDRS[] = {0x0a010203, 0x0a020304, 0xc0000201, 0x08080808};

static int print_all(struct tuhvondi_image *image)
{
    struct tuhvondi_row answers[COUNT(ADDRS)];
    uint64_t generation;
    if (tuhvondi_image_generation(image, &generation) != TUHVONDI_DONE
        || tuhvondi_image_lookup(image, ADDRS, COUNT(ADDRS), answers, COUNT(answers))
               != TUHVONDI_DONE)
        return 1;
    printf("generation %" PRIu64 "\n", generation);
    for (size_t i = 0; i < COUNT(ADDRS); i++)
        print_answer(ADDRS[i], answers[i]);
    return 0;
}

/* All rows, two at a time: the cursor goes on by itself. */
static int print_rows(struct tuhvondi_image *image)
{
    struct tuhvondi_prefix from = TUHVONDI_FIRST_PREFIX;
    struct tuhvondi_row rows[2];
    size_t written;
    do {
        if (tuhvondi_image_rows(image, &from, rows, COUNT(rows), &written))
            return 1;
        for (size_t i = 0; i < written; i++)
            print_row(rows[i]);
    } while (written == COUNT(rows));
    return 0;
}

struct reader {
    struct tuhvondi_image image;
    uint64_t matched;
};

/* A million look-ups by the reader's own handle. */
static void *read_all(void *argument)
{
    struct reader *reader = argument;
    for (uint32_t i = 0; i < 1000; i++) {
        uint32_t addrs[1000];
        struct tuhvondi_row answers[1000];
        for (uint32_t k = 0; k < COUNT(addrs); k++)
            addrs[k] = (i * 1000 + k) * 4294;
        if (tuhvondi_image_lookup(&reader->image, addrs, COUNT(addrs), answers, COUNT(answers)))
            break;
        for (uint32_t k = 0; k < COUNT(addrs); k++)
            reader->matched += answers[k].kind != TUHVONDI_NO_ROW;
    }
    return NULL;
}

int main(void)
{
    const struct tuhvondi_row rows[] = {
        {.addr = 0x0a000000, .len = 8, .kind = TUHVONDI_VIA, .port = 1, .session = 1},
        {.addr = 0x0a010000, .len = 16, .kind = TUHVONDI_VIA, .port = 2, .session = 4},
        {.addr = 0xc0000200, .len = 24, .kind = TUHVONDI_LOCAL},
        {.addr = 0x0a020000, .len = 16, .kind = TUHVONDI_UNREACHABLE},
    };
    struct tuhvondi_image image = TUHVONDI_NO_IMAGE;
    if (tuhvondi_image_new(rows, COUNT(rows), &image) || print_all(&image))
        return 1;

    struct reader readers[2] = {{TUHVONDI_NO_IMAGE, 0}, {TUHVONDI_NO_IMAGE, 0}};
    pthread_t threads[2];
    for (size_t i = 0; i < COUNT(readers); i++)
        if (tuhvondi_image_share(&image, &readers[i].image)
            || pthread_create(&threads[i], NULL, read_all, &readers[i]))
            return 1;
    const struct tuhvondi_row patch[] = {
        {.addr = 0, .len = 0, .kind = TUHVONDI_VIA, .port = 3, .session = 1},
        {.addr = 0x0a010000, .len = 16, .kind = TUHVONDI_LOCAL},
    };
    uint32_t refused = tuhvondi_image_apply(&image, 1, patch, COUNT(patch));
    printf("while it is shared, a patch answers %" PRIu32 ": %s\n", refused,
           tuhvondi_status_text(refused));
    for (size_t i = 0; i < COUNT(readers); i++) {
        pthread_join(threads[i], NULL);
        tuhvondi_image_free(&readers[i].image);
        printf("reader %zu matched %" PRIu64 " of 1000000\n", i, readers[i].matched);
    }
    if (tuhvondi_image_apply(&image, 1, patch, COUNT(patch)) || print_all(&image))
        return 1;

    const struct tuhvondi_prefix gone[] = {{0x0a010000, 16}};
    if (tuhvondi_image_remove(&image, 2, gone, COUNT(gone)) || print_all(&image))
        return 1;
    printf("all rows:\n");
    if (print_rows(&image))
        return 1;

    const struct tuhvondi_row bad[] = {{.addr = 0x0a000001, .len = 8}};
    refused = tuhvondi_image_apply(&image, 3, bad, COUNT(bad));
    printf("a row with host bits answers %" PRIu32 ": %s\n", refused, tuhvondi_status_text(refused));
    tuhvondi_image_free(&image);
    refused = tuhvondi_image_apply(&image, 3, rows, COUNT(rows));
    printf("a freed image answers %" PRIu32 ": %s\n", refused, tuhvondi_status_text(refused));
    return 0;
}
