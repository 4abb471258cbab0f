/* A ring of five routers in simulated time, each of whose links fails and comes up again: for how long packets
 * are lost, and when the network is at rest.
 *
 *     cc -o delays examples/c/delays.c $(pkg-config --cflags --libs tuhvondi) && ./delays
 *
 * It prints what stands in delays.out beside it. Each second a link changes. What that leads to is done event by
 * event, and after each event a packet is followed from each router. At the end it tells from the network's record
 * for how long routers were cut off, and for how long machines awaited replies.
 */
#include <tuhvondi_network.h>

#include <inttypes.h>
#include <stdio.h>
#include <stdlib.h>

enum { ROUTERS = 5, ADDRESS = 0x0a010203, SECOND = 1000000 };

static struct tuhvondi_network network = TUHVONDI_NO_NETWORK;

static void need(uint32_t status)
{
    if (status == TUHVONDI_DONE)
        return;
    fprintf(stderr, "delays: refused with %" PRIu32 ": %s\n", status, tuhvondi_network_status_text(status));
    exit(1);
}

/* How many of the packets, one from each router, do not arrive now. */
static unsigned lost(void)
{
    unsigned count = 0;
    for (uint16_t router = 0; router < ROUTERS; router++) {
        uint16_t hops[ROUTERS];
        size_t passed;
        uint8_t end;
        need(tuhvondi_network_trace(&network, router, ADDRESS, hops, ROUTERS, &passed, &end));
        count += end != TUHVONDI_DELIVERED;
    }
    return count;
}

/* How many spells of the record have ended, and how long the longest was. */
static void tell(const char *what, uint32_t (*call)(struct tuhvondi_network *, size_t, struct tuhvondi_spell *,
                                                    size_t, size_t *, uint8_t *))
{
    struct tuhvondi_spell spells[16];
    uint64_t longest = 0;
    size_t count = 0, written;
    uint8_t more = 1;
    while (more) {
        need(call(&network, count, spells, 16, &written, &more));
        for (size_t i = 0; i < written; i++)
            if (spells[i].to - spells[i].from > longest)
                longest = spells[i].to - spells[i].from;
        count += written;
    }
    printf("%zu %s, the longest for %" PRIu64 " ms\n", count, what, longest / 1000);
}

/* A link comes up or goes down at this moment, and routers do what that leads to, until nothing is left. */
static void change(uint64_t moment, uint16_t link, uint8_t kind)
{
    struct tuhvondi_step step = {.subject = link, .kind = kind};
    struct tuhvondi_event next;
    uint64_t now, found = moment;
    unsigned most_lost = 0;
    uint8_t rests = 0;
    size_t done;
    need(tuhvondi_network_at(&network, moment, &step));
    while (!rests) {
        unsigned before;
        need(tuhvondi_network_next_event(&network, &next));
        need(tuhvondi_network_run_until(&network, next.moment, 1, &done));
        before = lost();
        if (before > most_lost)
            most_lost = before;
        if (before > 0)
            found = UINT64_MAX;
        else if (found == UINT64_MAX)
            found = next.moment;
        need(tuhvondi_network_is_at_rest(&network, &rests));
    }
    need(tuhvondi_network_now(&network, &now));
    printf("%2" PRIu64 " s: link %u %s: ", moment / SECOND, (unsigned)link,
           kind == TUHVONDI_LINK_UP ? "comes up" : "goes down");
    if (found == UINT64_MAX)
        printf("%u lost still", lost());
    else if (most_lost > 0)
        printf("at most %u lost, for %" PRIu64 " ms", most_lost, (found - moment) / 1000);
    else
        printf("none lost");
    printf("; at rest after %" PRIu64 " ms\n", (now - moment) / 1000);
}

int main(void)
{
    /* The link from router i to the next costs i + 1, and takes as many milliseconds either way. A router
     * publishes two milliseconds after it has something to publish. Router 0 is attached to 10.0.0.0/8. */
    struct tuhvondi_limits limits = TUHVONDI_PROGRAM_LIMITS;
    struct tuhvondi_link links[ROUTERS];
    struct tuhvondi_delays delays[ROUTERS];
    uint64_t publications[ROUTERS], second = 0;
    struct tuhvondi_owner owner = {.addr = 0x0a000000, .cost = 1, .router = 0, .len = 8};
    struct tuhvondi_fault_place place;
    for (uint16_t i = 0; i < ROUTERS; i++) {
        links[i] = (struct tuhvondi_link){.from_a = i + 1, .from_b = i + 1,
                                          .a = i, .b = (i + 1) % ROUTERS};
        delays[i].to_a = delays[i].to_b = (i + 1) * 1000;
        publications[i] = 2000;
    }
    need(tuhvondi_network_with_delays(&limits, ROUTERS, links, ROUTERS, &owner, 1, delays, ROUTERS,
                                      publications, ROUTERS, 1, &place, &network));
    for (uint16_t link = 0; link < ROUTERS; link++)
        change(++second * SECOND, link, TUHVONDI_LINK_UP);
    for (uint16_t link = 0; link < ROUTERS; link++) {
        change(++second * SECOND, link, TUHVONDI_LINK_DOWN);
        change(++second * SECOND, link, TUHVONDI_LINK_UP);
    }
    tell("outages", tuhvondi_network_outages);
    tell("computations", tuhvondi_network_computations);
    tuhvondi_network_free(&network);
    return 0;
}
