/* A ring of five routers, each of whose links fails and comes up again: which messages it takes, and how many
 * packets are lost on the way.
 *
 *     cc -o network examples/c/network.c $(pkg-config --cflags --libs tuhvondi) && ./network
 *
 * It prints what stands in network.out beside it. Routers take turns, one step at a time. After each step a
 * packet is followed from each router. It may be lost while routers have not heard of the failure, but it
 * never passes a router twice.
 */
#include <tuhvondi_network.h>

#include <inttypes.h>
#include <stdio.h>
#include <stdlib.h>

enum { ROUTERS = 5, ADDRESS = 0x0a010203 };

static struct tuhvondi_network network = TUHVONDI_NO_NETWORK;

static void need(uint32_t status)
{
    if (status == TUHVONDI_DONE)
        return;
    fprintf(stderr, "network: refused with %" PRIu32 "\n", status);
    exit(1);
}

/* How many of the packets, one from each router, do not arrive now. */
static unsigned lost(void)
{
    unsigned count = 0;
    for (uint16_t router = 0; router < ROUTERS; router++) {
        uint16_t hops[ROUTERS];
        size_t passed;
        uint8_t end;
        need(tuhvondi_network_trace(&network, router, ADDRESS, hops, ROUTERS, &passed, &end));
        count += end != TUHVONDI_DELIVERED;
    }
    return count;
}

/* A link comes up or goes down, and routers take turns until nothing is left to do. */
static void change(uint16_t link, uint8_t kind)
{
    struct tuhvondi_network_counts before, after;
    struct tuhvondi_step step = {.subject = link, .kind = kind};
    unsigned most_lost;
    size_t done = 1;
    need(tuhvondi_network_counts(&network, &before));
    need(tuhvondi_network_step(&network, &step));
    most_lost = lost();
    while (done > 0) {
        need(tuhvondi_network_settle(&network, 0, 1, &done));
        if (lost() > most_lost)
            most_lost = lost();
    }
    need(tuhvondi_network_counts(&network, &after));
    printf("link %u %s: ", (unsigned)link, kind == TUHVONDI_LINK_UP ? "comes up" : "goes down");
    printf("%" PRIu64 " updates, %" PRIu64 " queries, %" PRIu64 " replies; at most %u lost, then %u\n",
           after.updates - before.updates, after.queries - before.queries, after.replies - before.replies,
           most_lost, lost());
}

int main(void)
{
    /* The link from router i to the next costs i + 1, and router 0 is attached to 10.0.0.0/8. */
    struct tuhvondi_link links[ROUTERS];
    struct tuhvondi_owner owner = {.addr = 0x0a000000, .cost = 1, .router = 0, .len = 8};
    struct tuhvondi_fault_place place;
    for (uint16_t i = 0; i < ROUTERS; i++)
        links[i] = (struct tuhvondi_link){.from_a = i + 1, .from_b = i + 1,
                                          .a = i, .b = (i + 1) % ROUTERS};
    need(tuhvondi_network_new(ROUTERS, links, ROUTERS, &owner, 1, &place, &network));
    for (uint16_t link = 0; link < ROUTERS; link++)
        change(link, TUHVONDI_LINK_UP);
    for (uint16_t link = 0; link < ROUTERS; link++) {
        change(link, TUHVONDI_LINK_DOWN);
        change(link, TUHVONDI_LINK_UP);
    }
    tuhvondi_network_free(&network);
    return 0;
}
