/* Makes the calls of a whole network (include/tuhvondi_network.h) with hostile arguments and refused memory,
 * and compares a network that has settled with least costs that are reckoned here.
 *
 *     cc -g -fsanitize=address,undefined -Iinclude trials/network.c libtuhvondi.a \
 *         -Wl,--wrap=malloc,--wrap=realloc,--wrap=free && ./a.out [STEPS [SEED]]
 *
 *   1. Hostile arguments: an empty handle, numbers of routers, links and ports that are none, steps and
 *      networks with each fault. Each call has to answer the status of the header, and to write nothing.
 *   2. Refused memory: each call that takes memory is refused its first allocation, then its second and so
 *      on, until it is done. It has to answer TUHVONDI_NO_MEMORY, and all that can be asked of the network
 *      has to be as before. Of a run and of turns only the steps that were done may have changed it. A copy that
 *      is refused gives all its memory back.
 *   3. STEPS random steps in a random network. After each, a packet is followed from each router: it has to
 *      end, at a router that it has not passed. Now and then a copy takes the network's place, of which all that
 *      can be asked is the same. Now and then routers take turns until nothing is left to do.
 *      Then each distance has to be the least cost, and no machine may be active.
 *
 * It ends with status 1 if anything is not as it has to be, or if memory is not given back.
 */
#include "tuhvondi_network.h"

#include <inttypes.h>
#include <stdio.h>
#include <stdlib.h>
#include <string.h>

enum {
    ROUTERS = 12,
    LINKS = 20,
    OWNERS = 10,
    PREFIXES = 6,
    MOST_ITEMS = 4096,
};

/* Memory: how many blocks are out, and after how many allocations one is refused. */

void *__real_malloc(size_t size);
void *__real_realloc(void *place, size_t size);
void __real_free(void *place);

static size_t blocks_out, refused;
static size_t until_refused = SIZE_MAX;

static bool is_refused(void)
{
    if (until_refused == SIZE_MAX)
        return false;
    if (until_refused > 0) {
        until_refused--;
        return false;
    }
    refused++;
    return true;
}

void *__wrap_malloc(size_t size)
{
    void *block = is_refused() ? NULL : __real_malloc(size);
    blocks_out += block != NULL;
    return block;
}

void *__wrap_realloc(void *place, size_t size)
{
    if (!place)
        return __wrap_malloc(size);
    return is_refused() ? NULL : __real_realloc(place, size);
}

void __wrap_free(void *place)
{
    blocks_out -= place != NULL;
    __real_free(place);
}

static uint64_t step_number;

static void fail(int line, const char *what)
{
    fprintf(stderr, "network: line %d, step %" PRIu64 ": not so: %s\n", line, step_number, what);
    exit(1);
}

#define NEED(test) ((test) ? (void)0 : fail(__LINE__, #test))

/* Random numbers: splitmix64. */
static uint64_t random_state = 1;

static uint32_t below(uint32_t limit)
{
    uint64_t z = (random_state += 0x9e3779b97f4a7c15u);
    z = (z ^ (z >> 30)) * 0xbf58476d1ce4e5b9u;
    z = (z ^ (z >> 27)) * 0x94d049bb133111ebu;
    return (uint32_t)((z ^ (z >> 31)) % limit);
}

/* The network, and what is known of it here: the prefixes, the costs of attachments, and whether links are
 * up. Only the costs of links are asked of the library. */

static struct tuhvondi_network network = TUHVONDI_NO_NETWORK;
static struct tuhvondi_link links[LINKS];
static size_t link_count;
static struct tuhvondi_owner owners[OWNERS];
static size_t owner_count;
static uint32_t attached[ROUTERS][PREFIXES];

static uint32_t prefix_addr(unsigned prefix)
{
    return 0x0a000000u | prefix << 16;
}

static void draw_network(void)
{
    link_count = 0;
    while (link_count < LINKS) {
        struct tuhvondi_link new = {.from_a = 1 + below(9), .from_b = 1 + below(9)};
        new.a = (uint16_t)below(ROUTERS);
        new.b = (uint16_t)below(ROUTERS);
        bool good = new.a != new.b;
        for (size_t i = 0; i < link_count; i++)
            good = good && !(links[i].a == new.a && links[i].b == new.b)
                && !(links[i].a == new.b && links[i].b == new.a);
        if (good)
            links[link_count++] = new;
    }
    memset(attached, 0, sizeof attached);
    owner_count = 0;
    for (unsigned prefix = 0; owner_count < OWNERS; prefix = (prefix + 1) % PREFIXES) {
        uint16_t router = (uint16_t)below(ROUTERS);
        if (attached[router][prefix])
            continue;
        attached[router][prefix] = 1 + below(20);
        owners[owner_count++] = (struct tuhvondi_owner){
            .addr = prefix_addr(prefix), .len = 16, .cost = attached[router][prefix], .router = router};
    }
}

/* All that can be asked of a network, in one number. */

static uint64_t mix(uint64_t sum, const void *bytes, size_t size)
{
    const unsigned char *at = bytes;
    for (size_t i = 0; i < size; i++)
        sum = (sum ^ at[i]) * 0x100000001b3u;
    return sum;
}

/* Answers are written over zeros, so that bytes between fields are the same each time. */
static uint64_t sum_of_router(uint64_t sum, uint16_t router)
{
    static struct tuhvondi_item items[MOST_ITEMS];
    static struct tuhvondi_message messages[MOST_ITEMS];
    static struct tuhvondi_notice notices[MOST_ITEMS];
    struct tuhvondi_row rows[PREFIXES];
    struct tuhvondi_gate gate;
    struct tuhvondi_step next;
    size_t written;
    uint8_t more;
    memset(rows, 0, sizeof rows);
    memset(&gate, 0, sizeof gate);
    memset(&next, 0, sizeof next);
    NEED(tuhvondi_network_rows(&network, router, rows, PREFIXES, &written, &more) == 0 && more == 0);
    sum = mix(sum, rows, written * sizeof *rows);
    NEED(tuhvondi_network_gate(&network, router, &gate) == 0);
    sum = mix(sum, &gate, sizeof gate);
    NEED(tuhvondi_network_next_step(&network, router, &next) == 0);
    sum = mix(sum, &next, sizeof next);
    for (unsigned prefix = 0; prefix < PREFIXES; prefix++) {
        struct tuhvondi_machine machine;
        memset(&machine, 0, sizeof machine);
        uint32_t status = tuhvondi_network_machine(&network, router, prefix_addr(prefix), 16, &machine);
        NEED(status == 0 || status == TUHVONDI_UNKNOWN_PREFIX);
        sum = mix(sum, &machine, sizeof machine);
    }
    memset(messages, 0, sizeof messages);
    NEED(tuhvondi_network_held(&network, router, messages, MOST_ITEMS, &written, &more) == 0 && more == 0);
    NEED(written == gate.held);
    NEED(gate.ripe == 0 || memcmp(&messages[0], &gate.front, offsetof(struct tuhvondi_message, port)) == 0);
    for (size_t i = 0; i < written; i++)
        sum = mix(sum, &messages[i], sizeof messages[i]);
    memset(notices, 0, sizeof notices);
    NEED(tuhvondi_network_notices(&network, router, notices, MOST_ITEMS, &written, &more) == 0 && more == 0);
    NEED(written == gate.notices);
    for (size_t i = 0; i < written; i++)
        sum = mix(sum, &notices[i], sizeof notices[i]);
    for (uint8_t port = 0; port < TUHVONDI_PORTS; port++) {
        memset(items, 0, sizeof items[0] * 64);
        uint32_t status = tuhvondi_network_queue(&network, router, port, items, MOST_ITEMS, &written, &more);
        if (status == TUHVONDI_UNKNOWN_LINK)
            break;
        NEED(status == 0 && more == 0);
        for (size_t i = 0; i < written; i++)
            sum = mix(sum, &items[i], sizeof items[i]);
    }
    return sum;
}

static uint64_t sum_of_network(void)
{
    struct tuhvondi_network_counts counts;
    uint64_t sum = 0xcbf29ce484222325u;
    NEED(tuhvondi_network_counts(&network, &counts) == 0);
    sum = mix(sum, &counts, sizeof counts);
    for (uint16_t link = 0; link < link_count; link++) {
        struct tuhvondi_link_state state;
        memset(&state, 0, sizeof state);
        NEED(tuhvondi_network_link(&network, link, &state) == 0);
        sum = mix(sum, &state, sizeof state);
    }
    for (uint16_t router = 0; router < ROUTERS; router++)
        sum = sum_of_router(sum, router);
    return sum;
}

/* 1. Hostile arguments. */

static void refuse_empty_handle(void)
{
    struct tuhvondi_network empty = TUHVONDI_NO_NETWORK, other = TUHVONDI_NO_NETWORK;
    struct tuhvondi_step step = {.kind = TUHVONDI_LINK_UP};
    struct tuhvondi_step bad = {.kind = 8};
    struct tuhvondi_row row = {.kind = 77};
    struct tuhvondi_machine machine = {.successor = 77};
    struct tuhvondi_link_state state = {.up = 77};
    struct tuhvondi_item item = {.kind = 77};
    struct tuhvondi_gate gate = {.due = 77};
    struct tuhvondi_message message = {.kind = 77};
    struct tuhvondi_notice notice = {.len = 77};
    struct tuhvondi_network_counts counts = {.steps = 77};
    uint32_t addr = 0;
    uint16_t hop = 77;
    size_t count = 77;
    uint8_t flag = 77;
    NEED(tuhvondi_network_step(&empty, &bad) == TUHVONDI_BAD_KIND);
    NEED(tuhvondi_network_step(&empty, &step) == TUHVONDI_NO_NETWORK_HELD);
    NEED(tuhvondi_network_run(&empty, &step, 1, &count) == TUHVONDI_NO_NETWORK_HELD);
    NEED(tuhvondi_network_next_step(&empty, 0, &bad) == TUHVONDI_NO_NETWORK_HELD && bad.kind == 8);
    NEED(tuhvondi_network_settle(&empty, 0, 9, &count) == TUHVONDI_NO_NETWORK_HELD);
    NEED(tuhvondi_network_is_settled(&empty, &flag) == TUHVONDI_NO_NETWORK_HELD);
    NEED(tuhvondi_network_lookup(&empty, 0, &addr, 1, &row, 1) == TUHVONDI_NO_NETWORK_HELD);
    NEED(tuhvondi_network_trace(&empty, 0, 0, &hop, 1, &count, &flag) == TUHVONDI_NO_NETWORK_HELD);
    NEED(tuhvondi_network_rows(&empty, 0, &row, 1, &count, &flag) == TUHVONDI_NO_NETWORK_HELD);
    NEED(tuhvondi_network_machine(&empty, 0, 0, 33, &machine) == TUHVONDI_BAD_LENGTH);
    NEED(tuhvondi_network_machine(&empty, 0, 1, 8, &machine) == TUHVONDI_HOST_BITS);
    NEED(tuhvondi_network_machine(&empty, 0, 0, 8, &machine) == TUHVONDI_NO_NETWORK_HELD);
    NEED(tuhvondi_network_link(&empty, 0, &state) == TUHVONDI_NO_NETWORK_HELD);
    NEED(tuhvondi_network_queue(&empty, 0, 0, &item, 1, &count, &flag) == TUHVONDI_NO_NETWORK_HELD);
    NEED(tuhvondi_network_gate(&empty, 0, &gate) == TUHVONDI_NO_NETWORK_HELD);
    NEED(tuhvondi_network_held(&empty, 0, &message, 1, &count, &flag) == TUHVONDI_NO_NETWORK_HELD);
    NEED(tuhvondi_network_notices(&empty, 0, &notice, 1, &count, &flag) == TUHVONDI_NO_NETWORK_HELD);
    NEED(tuhvondi_network_copy(&empty, &other) == TUHVONDI_NO_NETWORK_HELD && !other.holds_);
    NEED(tuhvondi_network_counts(&empty, &counts) == TUHVONDI_NO_NETWORK_HELD);
    NEED(row.kind == 77 && machine.successor == 77 && state.up == 77 && item.kind == 77 && gate.due == 77);
    NEED(message.kind == 77 && notice.len == 77);
    NEED(counts.steps == 77 && hop == 77 && count == 77 && flag == 77);
    tuhvondi_network_free(&empty);
}

static uint32_t open_network(uint16_t routers, struct tuhvondi_fault_place *place)
{
    return tuhvondi_network_new(routers, links, link_count, owners, owner_count, place, &network);
}

static void refuse_networks(void)
{
    struct tuhvondi_fault_place place;
    draw_network();
    NEED(open_network(0, &place) == TUHVONDI_BAD_ROUTERS && place.list == 0);
    NEED(open_network(257, &place) == TUHVONDI_BAD_ROUTERS && place.list == 0);
    struct tuhvondi_link link = links[7];
    links[7].from_b = 65536;
    NEED(open_network(ROUTERS, &place) == TUHVONDI_BAD_COST && place.list == 1 && place.position == 7);
    links[7] = (struct tuhvondi_link){.from_a = 1, .from_b = 1, .a = links[3].b, .b = links[3].a};
    NEED(open_network(ROUTERS, &place) == TUHVONDI_BAD_LINK && place.list == 1 && place.position == 7);
    links[7].a = UINT16_MAX;
    NEED(open_network(ROUTERS, &place) == TUHVONDI_BAD_LINK && place.list == 1 && place.position == 7);
    links[7] = link;
    struct tuhvondi_owner owner = owners[5];
    owners[5].cost = 0;
    NEED(open_network(ROUTERS, &place) == TUHVONDI_BAD_COST && place.list == 2 && place.position == 5);
    owners[5].len = 8;
    owners[5].addr |= 1;
    NEED(open_network(ROUTERS, &place) == TUHVONDI_HOST_BITS && place.list == 2 && place.position == 5);
    owners[5].len = 255;
    NEED(open_network(ROUTERS, &place) == TUHVONDI_BAD_LENGTH && place.list == 2 && place.position == 5);
    owners[5] = owners[4];
    NEED(open_network(ROUTERS, &place) == TUHVONDI_BAD_OWNER && place.list == 2 && place.position == 5);
    owners[5] = owner;
    /* A star of 33 links: the last is one too many for its middle. */
    static struct tuhvondi_link star[33];
    for (uint16_t i = 0; i < 33; i++)
        star[i] = (struct tuhvondi_link){.from_a = 1, .from_b = 1, .a = 0, .b = i + 1};
    NEED(tuhvondi_network_new(40, star, 33, owners, 0, &place, &network) == TUHVONDI_TOO_MANY_LINKS);
    NEED(place.list == 1 && place.position == 32);
    NEED(!network.holds_);
}

static uint32_t open_within(struct tuhvondi_limits limits, size_t routers, struct tuhvondi_fault_place *place)
{
    return tuhvondi_network_within(&limits, routers, links, link_count, owners, owner_count, place, &network);
}

/* A network that is as large as its limits is opened, and with each limit one less it is refused. */
static void refuse_limits(void)
{
    static const struct tuhvondi_limits widest = TUHVONDI_WIDEST_LIMITS;
    struct tuhvondi_limits tight = {.routers = ROUTERS, .links = LINKS, .prefixes = PREFIXES, .attachments = OWNERS};
    struct tuhvondi_fault_place place;
    size_t degree[ROUTERS] = {0};
    for (size_t i = 0; i < link_count; i++) {
        degree[links[i].a]++;
        degree[links[i].b]++;
    }
    for (size_t i = 0; i < ROUTERS; i++)
        tight.ports = degree[i] > tight.ports ? degree[i] : tight.ports;
    const struct { size_t *limit; size_t most; uint32_t status; uint8_t list; } rows[] = {
        {&tight.routers, widest.routers, TUHVONDI_BAD_ROUTERS, 0},
        {&tight.links, widest.links, TUHVONDI_TOO_MANY_LINKS, 1},
        {&tight.ports, widest.ports, TUHVONDI_TOO_MANY_LINKS, 1},
        {&tight.prefixes, widest.prefixes, TUHVONDI_BAD_OWNER, 2},
        {&tight.attachments, widest.attachments, TUHVONDI_BAD_OWNER, 2},
    };
    for (size_t i = 0; i < sizeof rows / sizeof *rows; i++) {
        size_t right = *rows[i].limit;
        size_t wrong[] = {right - 1, 0, rows[i].most + 1, SIZE_MAX};
        for (size_t w = 0; w < 4; w++) {
            step_number = i * 4 + w;
            *rows[i].limit = wrong[w];
            uint32_t status = open_within(tight, ROUTERS, &place);
            NEED(status == (w < 2 ? rows[i].status : TUHVONDI_BAD_LIMITS));
            NEED(place.list == (w < 2 ? rows[i].list : 0) && (place.list != 0 || place.position == 0));
        }
        *rows[i].limit = right;
    }
    NEED(open_within(widest, 0, &place) == TUHVONDI_BAD_ROUTERS);
    NEED(open_within(widest, 65537, &place) == TUHVONDI_BAD_ROUTERS);
    NEED(open_within(widest, SIZE_MAX, &place) == TUHVONDI_BAD_ROUTERS);
    NEED(!network.holds_);
    /* Lists that are empty may be null. */
    NEED(tuhvondi_network_within(&widest, 65536, NULL, 0, NULL, 0, &place, &network) == 0);
    NEED(open_within(tight, ROUTERS, &place) == 0);
}

static void refuse_arguments(void)
{
    struct tuhvondi_fault_place place;
    struct tuhvondi_step none;
    struct tuhvondi_row row = {.kind = 77};
    struct tuhvondi_machine machine;
    struct tuhvondi_link_state state;
    struct tuhvondi_item item;
    struct tuhvondi_gate gate;
    struct tuhvondi_message message = {.kind = 77};
    struct tuhvondi_notice notice = {.len = 77};
    uint32_t addrs[2] = {prefix_addr(0), UINT32_MAX};
    uint16_t hop = 77;
    size_t count = 77;
    uint8_t flag = 77;
    NEED(open_network(ROUTERS, &place) == 0);
    static const struct { struct tuhvondi_step step; uint32_t status; } steps[] = {
        {{.kind = 8}, TUHVONDI_BAD_KIND},
        {{.kind = 255}, TUHVONDI_BAD_KIND},
        {{.kind = TUHVONDI_LINK_UP, .subject = LINKS}, TUHVONDI_UNKNOWN_LINK},
        {{.kind = TUHVONDI_LINK_DOWN, .subject = 0}, TUHVONDI_IS_DOWN},
        {{.kind = TUHVONDI_SET_COST, .subject = 0, .cost = 0}, TUHVONDI_BAD_COST},
        {{.kind = TUHVONDI_SET_COST, .subject = UINT16_MAX, .cost = 1}, TUHVONDI_UNKNOWN_ROUTER},
        {{.kind = TUHVONDI_SET_COST, .subject = 0, .port = 255, .cost = 1}, TUHVONDI_UNKNOWN_LINK},
        {{.kind = TUHVONDI_DELIVER, .subject = ROUTERS}, TUHVONDI_UNKNOWN_ROUTER},
        {{.kind = TUHVONDI_DELIVER, .subject = 0, .port = 255}, TUHVONDI_UNKNOWN_LINK},
        {{.kind = TUHVONDI_PUBLISH, .subject = ROUTERS}, TUHVONDI_UNKNOWN_ROUTER},
        {{.kind = TUHVONDI_PUBLISH, .subject = 0}, TUHVONDI_NOTHING_DUE},
        {{.kind = TUHVONDI_RELEASE, .subject = 0}, TUHVONDI_NOTHING_RIPE},
        {{.kind = TUHVONDI_ATTACH, .subject = 0, .addr = 1, .len = 8, .cost = 1}, TUHVONDI_HOST_BITS},
        {{.kind = TUHVONDI_ATTACH, .subject = 0, .len = 8, .cost = 70000}, TUHVONDI_BAD_COST},
        {{.kind = TUHVONDI_ATTACH, .subject = 0, .len = 8, .cost = 1}, TUHVONDI_UNKNOWN_PREFIX},
        {{.kind = TUHVONDI_DETACH, .subject = 0, .len = 33}, TUHVONDI_BAD_LENGTH},
        {{.kind = TUHVONDI_DETACH, .subject = ROUTERS, .len = 8}, TUHVONDI_UNKNOWN_ROUTER},
    };
    uint64_t before = sum_of_network();
    for (size_t i = 0; i < sizeof steps / sizeof *steps; i++) {
        step_number = i;
        NEED(tuhvondi_network_step(&network, &steps[i].step) == steps[i].status);
        NEED(tuhvondi_network_run(&network, &steps[i].step, 1, &count) == steps[i].status && count == 0);
    }
    count = 77;
    NEED(tuhvondi_network_next_step(&network, ROUTERS, &none) == TUHVONDI_UNKNOWN_ROUTER);
    NEED(tuhvondi_network_lookup(&network, ROUTERS, addrs, 1, &row, 1) == TUHVONDI_UNKNOWN_ROUTER);
    NEED(tuhvondi_network_lookup(&network, 0, addrs, 2, &row, 1) == TUHVONDI_BAD_COUNT);
    NEED(tuhvondi_network_trace(&network, UINT16_MAX, 0, &hop, 1, &count, &flag) == TUHVONDI_UNKNOWN_ROUTER);
    NEED(tuhvondi_network_rows(&network, ROUTERS, &row, 1, &count, &flag) == TUHVONDI_UNKNOWN_ROUTER);
    NEED(tuhvondi_network_machine(&network, ROUTERS, 0, 8, &machine) == TUHVONDI_UNKNOWN_ROUTER);
    NEED(tuhvondi_network_machine(&network, 0, 0, 8, &machine) == TUHVONDI_UNKNOWN_PREFIX);
    NEED(tuhvondi_network_link(&network, LINKS, &state) == TUHVONDI_UNKNOWN_LINK);
    NEED(tuhvondi_network_queue(&network, ROUTERS, 0, &item, 1, &count, &flag) == TUHVONDI_UNKNOWN_ROUTER);
    NEED(tuhvondi_network_queue(&network, 0, 255, &item, 1, &count, &flag) == TUHVONDI_UNKNOWN_LINK);
    NEED(tuhvondi_network_gate(&network, ROUTERS, &gate) == TUHVONDI_UNKNOWN_ROUTER);
    NEED(tuhvondi_network_held(&network, ROUTERS, &message, 1, &count, &flag) == TUHVONDI_UNKNOWN_ROUTER);
    NEED(tuhvondi_network_notices(&network, UINT16_MAX, &notice, 1, &count, &flag) == TUHVONDI_UNKNOWN_ROUTER);
    NEED(message.kind == 77 && notice.len == 77);
    NEED(row.kind == 77 && hop == 77 && count == 77 && flag == 77);
    /* Without room nothing is written, and no more than is there. */
    NEED(tuhvondi_network_trace(&network, 0, 0, &hop, 0, &count, &flag) == 0);
    NEED(hop == 77 && count == 0 && flag == TUHVONDI_NOT_ENDED);
    NEED(tuhvondi_network_rows(&network, owners[0].router, &row, 0, &count, &flag) == 0);
    NEED(row.kind == 77 && count == 0 && flag == 1);
    NEED(tuhvondi_network_lookup(&network, 0, addrs, 0, &row, 0) == 0 && row.kind == 77);
    NEED(tuhvondi_network_run(&network, &none, 0, &count) == 0 && count == 0);
    NEED(tuhvondi_network_settle(&network, 0, 0, &count) == 0 && count == 0);
    NEED(sum_of_network() == before);
}

/* 2. Refused memory. */

static void refuse_memory_of_new(void)
{
    struct tuhvondi_fault_place place;
    uint64_t before = sum_of_network();
    uint32_t status = TUHVONDI_NO_MEMORY;
    for (size_t n = 0; status != 0; n++) {
        until_refused = n;
        status = open_network(ROUTERS, &place);
        until_refused = SIZE_MAX;
        NEED(status == 0 || (status == TUHVONDI_NO_MEMORY && place.list == 0 && place.position == 0));
        NEED(sum_of_network() == before);
    }
}

/* A copy is refused each of its allocations first. Then all that can be asked of it is as of the network, and it
 * takes the network's place, so that what comes after is done by a copy. */
static void copy_with_refusals(void)
{
    struct tuhvondi_network copy = TUHVONDI_NO_NETWORK;
    uint64_t before = sum_of_network();
    uint32_t status = TUHVONDI_NO_MEMORY;
    for (size_t n = 0; status != 0; n++) {
        size_t refused_before = refused, blocks = blocks_out;
        until_refused = n;
        status = tuhvondi_network_copy(&network, &copy);
        until_refused = SIZE_MAX;
        NEED(status == 0 || (status == TUHVONDI_NO_MEMORY && refused > refused_before && blocks_out == blocks));
        NEED(copy.holds_ == (status == 0));
    }
    NEED(sum_of_network() == before);
    struct tuhvondi_network old = network;
    network = copy;
    NEED(sum_of_network() == before);
    tuhvondi_network_free(&old);
    NEED(sum_of_network() == before);
}

/* Does a step that is refused each of its allocations first. */
static uint32_t step_with_refusals(const struct tuhvondi_step *step)
{
    uint64_t before = sum_of_network();
    for (size_t n = 0;; n++) {
        size_t refused_before = refused;
        until_refused = n;
        uint32_t status = tuhvondi_network_step(&network, step);
        until_refused = SIZE_MAX;
        if (status != TUHVONDI_NO_MEMORY)
            return status;
        NEED(refused > refused_before);
        NEED(sum_of_network() == before);
    }
}

static void refuse_memory_of_lists(void)
{
    struct tuhvondi_fault_place place;
    struct tuhvondi_step ups[LINKS];
    size_t done, all = 0;
    for (uint16_t i = 0; i < LINKS; i++)
        ups[i] = (struct tuhvondi_step){.kind = TUHVONDI_LINK_UP, .subject = i};
    NEED(open_network(ROUTERS, &place) == 0);
    for (size_t n = 0; all < LINKS; n++) {
        until_refused = n % 7;
        uint32_t status = tuhvondi_network_run(&network, ups + all, LINKS - all, &done);
        until_refused = SIZE_MAX;
        all += done;
        NEED(status == (all == LINKS ? 0 : TUHVONDI_NO_MEMORY));
    }
    uint8_t settled = 0;
    for (size_t n = 0; !settled; n++) {
        struct tuhvondi_network_counts before, after;
        NEED(tuhvondi_network_counts(&network, &before) == 0);
        until_refused = n % 11;
        uint32_t status = tuhvondi_network_settle(&network, n, 100, &done);
        until_refused = SIZE_MAX;
        NEED(status == 0 || status == TUHVONDI_NO_MEMORY);
        NEED(tuhvondi_network_counts(&network, &after) == 0 && after.steps == before.steps + done);
        NEED(tuhvondi_network_is_settled(&network, &settled) == 0);
        NEED(status != 0 || settled || done == 100);
    }
}

/* 3. Random steps. */

static void follow_packets(void)
{
    for (uint16_t router = 0; router < ROUTERS; router++) {
        uint32_t addr = prefix_addr(below(PREFIXES + 1)) | below(1 << 16);
        uint16_t hops[ROUTERS];
        bool passed[ROUTERS] = {false};
        size_t count;
        uint8_t end;
        NEED(tuhvondi_network_trace(&network, router, addr, hops, ROUTERS, &count, &end) == 0);
        NEED(count > 0 && hops[0] == router && end <= TUHVONDI_DEAD_LINK);
        for (size_t i = 0; i < count; i++) {
            NEED(hops[i] < ROUTERS && !passed[hops[i]]);
            passed[hops[i]] = true;
        }
        struct tuhvondi_row row;
        NEED(tuhvondi_network_lookup(&network, hops[count - 1], &addr, 1, &row, 1) == 0);
        NEED((end == TUHVONDI_DELIVERED) == (row.kind == TUHVONDI_LOCAL));
        NEED((end == TUHVONDI_NO_ROUTE) == (row.kind == TUHVONDI_NO_ROW));
        NEED((end == TUHVONDI_NO_WAY) == (row.kind == TUHVONDI_UNREACHABLE));
    }
}

static void compare_with_least_costs(unsigned prefix)
{
    uint64_t least[ROUTERS];
    for (uint16_t i = 0; i < ROUTERS; i++)
        least[i] = attached[i][prefix] ? attached[i][prefix] : TUHVONDI_INFINITY;
    for (unsigned round = 0; round < ROUTERS; round++)
        for (uint16_t l = 0; l < link_count; l++) {
            struct tuhvondi_link_state state;
            NEED(tuhvondi_network_link(&network, l, &state) == 0);
            NEED(state.to_a == 0 && state.to_b == 0);
            if (!state.up)
                continue;
            if (least[state.b] != TUHVONDI_INFINITY && least[state.b] + state.from_a < least[state.a])
                least[state.a] = least[state.b] + state.from_a;
            if (least[state.a] != TUHVONDI_INFINITY && least[state.a] + state.from_b < least[state.b])
                least[state.b] = least[state.a] + state.from_b;
        }
    for (uint16_t i = 0; i < ROUTERS; i++) {
        struct tuhvondi_machine machine = {.state.rd = TUHVONDI_INFINITY};
        uint32_t status = tuhvondi_network_machine(&network, i, prefix_addr(prefix), 16, &machine);
        NEED(status == 0 || status == TUHVONDI_UNKNOWN_PREFIX);
        NEED(machine.state.rd == least[i] && machine.state.active == 0);
        NEED((machine.successor == 255) == (least[i] == TUHVONDI_INFINITY) || status != 0);
    }
}

static struct tuhvondi_step draw_step(void)
{
    struct tuhvondi_step step = {.kind = (uint8_t)below(8)};
    step.subject = (uint16_t)below(step.kind <= TUHVONDI_LINK_DOWN ? LINKS : ROUTERS);
    step.port = (uint8_t)below(8);
    step.cost = 1 + below(20);
    if (step.kind >= TUHVONDI_ATTACH) {
        step.addr = prefix_addr(below(PREFIXES));
        step.len = 16;
        /* Rarely, so that prefixes mostly have owners. */
        if (step.kind == TUHVONDI_DETACH && below(4))
            step.kind = TUHVONDI_LINK_UP, step.subject = (uint16_t)below(LINKS);
    }
    return step;
}

static void do_random_steps(uint64_t steps)
{
    struct tuhvondi_fault_place place;
    uint64_t done_steps = 0, settled_times = 0;
    draw_network();
    NEED(open_network(ROUTERS, &place) == 0);
    for (step_number = 0; step_number < steps; step_number++) {
        struct tuhvondi_step step = draw_step();
        if (below(3) == 0) {
            uint16_t router = (uint16_t)below(ROUTERS);
            NEED(tuhvondi_network_next_step(&network, router, &step) == 0);
            if (step.kind == TUHVONDI_NO_STEP)
                continue;
        }
        uint32_t status = below(20) ? tuhvondi_network_step(&network, &step) : step_with_refusals(&step);
        if (status == 0) {
            done_steps++;
            unsigned prefix = step.addr >> 16 & 0xff;
            if (step.kind >= TUHVONDI_ATTACH)
                attached[step.subject][prefix] = step.kind == TUHVONDI_ATTACH ? step.cost : 0;
        }
        follow_packets();
        if (below(1000) == 0)
            copy_with_refusals();
        if (below(400) == 0) {
            size_t done;
            uint8_t settled;
            NEED(tuhvondi_network_settle(&network, below(3), SIZE_MAX, &done) == 0);
            NEED(tuhvondi_network_is_settled(&network, &settled) == 0 && settled == 1);
            for (unsigned prefix = 0; prefix < PREFIXES; prefix++)
                compare_with_least_costs(prefix);
            done_steps += done;
            settled_times++;
        }
    }
    struct tuhvondi_network_counts counts;
    NEED(tuhvondi_network_counts(&network, &counts) == 0 && counts.steps == done_steps);
    printf("%" PRIu64 " steps, %" PRIu64 " updates, %" PRIu64 " queries, %" PRIu64 " replies; settled %" PRIu64
           " times; %zu allocations refused\n",
           counts.steps, counts.updates, counts.queries, counts.replies, settled_times, refused);
}

int main(int argc, char **argv)
{
    uint64_t steps = argc > 1 ? strtoull(argv[1], NULL, 10) : 20000;
    random_state = argc > 2 ? strtoull(argv[2], NULL, 10) : 1;
    size_t blocks = blocks_out;
    refuse_empty_handle();
    refuse_networks();
    refuse_limits();
    refuse_arguments();
    refuse_memory_of_new();
    refuse_memory_of_lists();
    do_random_steps(steps);
    tuhvondi_network_free(&network);
    /* What the C library keeps for the line that was printed is not the network's. */
    NEED(blocks_out <= blocks + 1);
    puts("all as they have to be");
    return 0;
}
