/* Times one router of 32 ports and 4,096 prefixes, as C has it (include/tuhvondi_router.h).
 *
 *     cc -O2 -Iinclude trials/router.c libtuhvondi.a && ./a.out [PREFIXES [UPDATES [SEED]]]
 *
 * It brings 32 links up, has each neighbour tell its distance to each prefix, and then times: updates from
 * drawn neighbours, most of them with news; the same with each publication, image and release; the loss of
 * the neighbour by which most prefixes go, to the last message released; and its return. Each is done to the
 * end, and the table is tested at the end against the least sums. It ends with status 1 where they differ.
 */
#define _POSIX_C_SOURCE 199309L
#include "tuhvondi_router.h"

#include <inttypes.h>
#include <stdio.h>
#include <stdlib.h>
#include <time.h>

static struct tuhvondi_router router = TUHVONDI_NO_ROUTER;
static struct tuhvondi_image image = TUHVONDI_NO_IMAGE;
static struct tuhvondi_row *rows;
static size_t prefixes = 4096;
static uint32_t *told; /* by port and prefix: the distance that the neighbour told last */
static uint32_t costs[TUHVONDI_PORTS];
static uint16_t sessions[TUHVONDI_PORTS];
static bool up[TUHVONDI_PORTS];
static uint64_t released, published;

static double now(void)
{
    struct timespec at;
    clock_gettime(CLOCK_MONOTONIC, &at);
    return (double)at.tv_sec + 1e-9 * (double)at.tv_nsec;
}

static uint32_t drawn(uint32_t below)
{
    static uint64_t state = 1993;
    state = state * 6364136223846793005u + 1442695040888963407u;
    return (uint32_t)((state >> 33) % below);
}

static void need(uint32_t status)
{
    if (status == TUHVONDI_DONE)
        return;
    fprintf(stderr, "router: %s\n", tuhvondi_status_text(status));
    exit(1);
}

/* Answers each query as a neighbour that has no other way: with the distance that it told. */
static void settle(void)
{
    struct tuhvondi_message message;
    struct tuhvondi_counts counts;
    for (bool more = true; more;) {
        more = false;
        need(tuhvondi_router_counts(&router, &counts));
        if (counts.due) {
            size_t written;
            uint8_t has_more;
            uint64_t generation;
            need(tuhvondi_router_publish(&router, rows, prefixes, &written, &has_more, &generation));
            if (written)
                need(tuhvondi_image_apply(&image, generation, rows, written));
            published += written;
        }
        while (tuhvondi_router_release(&router, &message) == TUHVONDI_DONE) {
            more = true;
            released++;
            if (message.kind != TUHVONDI_QUERY || !up[message.port] || message.session != sessions[message.port])
                continue;
            message.kind = TUHVONDI_REPLY;
            message.value = told[message.port * prefixes + (message.addr >> 8)];
            need(tuhvondi_router_message(&router, &message));
        }
    }
}

static void tell(uint8_t port, size_t prefix, uint32_t value)
{
    struct tuhvondi_message message = {.addr = (uint32_t)prefix << 8, .len = 24, .value = value, .port = port,
                                       .session = sessions[port], .kind = TUHVONDI_UPDATE};
    told[port * prefixes + prefix] = value;
    need(tuhvondi_router_message(&router, &message));
}

static void come_up(uint8_t port)
{
    need(tuhvondi_router_link_up(&router, port, ++sessions[port], costs[port]));
    up[port] = true;
    for (size_t i = 0; i < prefixes; i++)
        tell(port, i, told[port * prefixes + i]);
}

static void test_table(void)
{
    struct tuhvondi_prefix_state state;
    for (size_t i = 0; i < prefixes; i++) {
        uint32_t least = TUHVONDI_INFINITY;
        for (size_t port = 0; port < TUHVONDI_PORTS; port++)
            if (up[port] && told[port * prefixes + i] + costs[port] < least)
                least = told[port * prefixes + i] + costs[port];
        need(tuhvondi_router_state(&router, (uint32_t)i << 8, 24, &state));
        if (state.rd != least || state.active) {
            fprintf(stderr, "prefix %zu: distance %" PRIu32 " in place of %" PRIu32 "\n", i, state.rd, least);
            exit(1);
        }
    }
}

/* The best neighbour is lost, where the next best tells this distance: from the call to the last message. */
static void time_losses(const char *what, uint32_t next_best)
{
    enum { LOSSES = 20 };
    double worst = 0, all = 0, alone = 0;
    uint64_t messages = 0;
    for (int i = 0; i < LOSSES; i++) {
        for (size_t prefix = 0; prefix < prefixes; prefix++) {
            tell(0, prefix, 100);
            tell(1, prefix, next_best);
        }
        settle();
        uint64_t before = released;
        double begun = now();
        up[0] = false;
        need(tuhvondi_router_link_down(&router, 0));
        double told_at = now();
        settle();
        double taken = now() - begun;
        alone += told_at - begun;
        messages += released - before;
        worst = taken > worst ? taken : worst;
        all += taken;
        test_table();
        come_up(0);
        settle();
    }
    printf("the best neighbour is lost (%s): %.2f ms, at most %.2f ms; %.2f ms of it until the router knows;"
           " %" PRIu64 " messages\n",
           what, 1e3 * all / LOSSES, 1e3 * worst, 1e3 * alone / LOSSES, messages / LOSSES);
}

int main(int count, char **words)
{
    prefixes = count > 1 ? strtoul(words[1], NULL, 10) : prefixes;
    size_t updates = count > 2 ? strtoul(words[2], NULL, 10) : 1000000;
    for (uint32_t skipped = count > 3 ? (uint32_t)strtoul(words[3], NULL, 10) : 0; skipped > 0; skipped--)
        drawn(2);
    static struct tuhvondi_attachment none;
    rows = calloc(prefixes, sizeof *rows);
    told = calloc(TUHVONDI_PORTS * prefixes, sizeof *told);
    if (!rows || !told || prefixes == 0 || prefixes > 65536)
        return 2;
    for (size_t port = 0; port < TUHVONDI_PORTS; port++)
        costs[port] = 10 + drawn(10);
    costs[0] = 1;
    for (size_t at = 0; at < TUHVONDI_PORTS * prefixes; at++)
        told[at] = 1000 + drawn(1000);
    need(tuhvondi_router_new(costs, TUHVONDI_PORTS, &none, 0, prefixes, &router));
    need(tuhvondi_image_new(rows, 0, &image));
    double begun = now();
    for (uint8_t port = 0; port < TUHVONDI_PORTS; port++) {
        come_up(port);
        settle();
    }
    printf("32 links come up, %zu prefixes told by each: %.1f ms\n", prefixes, 1e3 * (now() - begun));
    test_table();

    begun = now();
    for (size_t i = 0; i < updates; i++) {
        uint8_t port = (uint8_t)drawn(TUHVONDI_PORTS);
        size_t prefix = drawn((uint32_t)prefixes);
        tell(port, prefix, told[port * prefixes + prefix] - drawn(2));
        if (told[port * prefixes + prefix] < 500)
            told[port * prefixes + prefix] = 500;
    }
    double taken = now() - begun;
    settle();
    printf("an update, taken alone: %.2f us\n", 1e6 * taken / (double)updates);

    begun = now();
    for (size_t i = 0; i < updates; i++) {
        uint8_t port = (uint8_t)drawn(TUHVONDI_PORTS);
        tell(port, drawn((uint32_t)prefixes), 1000 + drawn(1000));
        settle();
    }
    taken = now() - begun;
    printf("an update, with what it brings: %.2f us\n", 1e6 * taken / (double)updates);
    test_table();

    time_losses("a feasible one is there", 100);
    time_losses("none is feasible, all are asked", 101);
    printf("%" PRIu64 " rows published, %" PRIu64 " messages released\n", published, released);
    tuhvondi_image_free(&image);
    tuhvondi_router_free(&router);
    free(rows);
    free(told);
    return 0;
}
