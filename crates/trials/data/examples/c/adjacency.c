/* A small data plane: rows have the index of an adjacency as their word, and a burst of packets is forwarded by
 * an array of adjacencies, with no test of kinds and ports.
 *
 *     cc -o adjacency examples/c/adjacency.c $(pkg-config --cflags --libs tuhvondi) && ./adjacency
 *
 * It prints what examples/c/adjacency.out has. */
#include <tuhvondi.h>

#include <stdio.h>
#include <stdlib.h>

enum { BURST = 32, ADJACENCIES = 4, DROPS = ADJACENCIES - 1 };

/* What goes in front of a packet, and where it leaves; and how many packets went there. */
struct adjacency {
    const char *interface;
    unsigned char mac[6];
    unsigned packets;
};

static struct adjacency adjacencies[ADJACENCIES] = {
    {.interface = "eth0", .mac = {2, 0, 0, 0, 0, 1}},
    {.interface = "eth1", .mac = {2, 0, 0, 0, 0, 2}},
    {.interface = "this router"},
    {.interface = "nowhere"},
};

static void need(uint32_t status)
{
    if (status == TUHVONDI_DONE)
        return;
    fprintf(stderr, "adjacency: %s\n", tuhvondi_status_text(status));
    exit(1);
}

/* Looks a burst up, and counts each packet at its adjacency. No row, and a row without a word, drop it. */
static void forward(struct tuhvondi_image *image, const uint32_t addrs[BURST])
{
    uint32_t words[BURST];
    need(tuhvondi_image_lookup_words(image, addrs, BURST, words, BURST));
    for (size_t i = 0; i < BURST; i++)
        adjacencies[words[i] < DROPS ? words[i] : DROPS].packets++;
}

static void print_counts(const char *when)
{
    printf("%s:\n", when);
    for (size_t i = 0; i < ADJACENCIES; i++) {
        struct adjacency *to = &adjacencies[i];
        printf("  %2u to %s", to->packets, to->interface);
        if (i < 2)
            printf(" %02x:%02x:%02x:%02x:%02x:%02x", to->mac[0], to->mac[1], to->mac[2], to->mac[3], to->mac[4],
                   to->mac[5]);
        putchar('\n');
        to->packets = 0;
    }
}

int main(void)
{
    const struct tuhvondi_row rows[] = {
        {.addr = 0x0a000000, .len = 8, .kind = TUHVONDI_VIA, .port = 1, .session = 1},
        {.addr = 0x0a010000, .len = 16, .kind = TUHVONDI_VIA, .port = 2, .session = 1},
        {.addr = 0xc0000200, .len = 24, .kind = TUHVONDI_LOCAL},
    };
    const uint32_t indices[] = {0, 1, 2};
    /* 10.0.0.1, 10.1.0.1, 192.0.2.k and 198.51.100.k, in turn. */
    uint32_t addrs[BURST];
    for (uint32_t i = 0; i < BURST; i++)
        addrs[i] = i % 4 < 2 ? 0x0a000001 + (i % 4 << 16) : i % 4 == 2 ? 0xc0000200 + i : 0xc6336400 + i;

    struct tuhvondi_image image = TUHVONDI_NO_IMAGE;
    need(tuhvondi_image_new_words(rows, 3, indices, 3, &image));
    forward(&image, addrs);
    print_counts("32 packets");

    /* The neighbour behind eth1 is lost: its row goes by eth0 from now on, and a default row has no word. */
    const struct tuhvondi_row changed[] = {
        {.addr = 0x0a010000, .len = 16, .kind = TUHVONDI_VIA, .port = 1, .session = 1},
    };
    const struct tuhvondi_row wide[] = {{.addr = 0, .len = 0, .kind = TUHVONDI_UNREACHABLE}};
    need(tuhvondi_image_apply_words(&image, 1, changed, 1, indices, 1));
    need(tuhvondi_image_apply(&image, 2, wide, 1));
    forward(&image, addrs);
    print_counts("32 packets after the change");

    struct tuhvondi_prefix from = TUHVONDI_FIRST_PREFIX;
    struct tuhvondi_row listed[8];
    uint32_t words[8];
    size_t written;
    need(tuhvondi_image_rows_words(&image, &from, listed, 8, words, 8, &written));
    for (size_t i = 0; i < written; i++) {
        printf("%u.%u.%u.%u/%u has ", listed[i].addr >> 24, listed[i].addr >> 16 & 255, listed[i].addr >> 8 & 255,
               listed[i].addr & 255, listed[i].len);
        if (words[i] == TUHVONDI_NO_WORD)
            printf("no word\n");
        else
            printf("word %u\n", words[i]);
    }
    tuhvondi_image_free(&image);
    return 0;
}
