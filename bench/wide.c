/* Settles networks as wide as they can be (include/tuhvondi_network.h), compares each distance with the least
 * cost, which is reckoned here along the only way, and prints how long it took.
 *
 *     cc -O2 -Iinclude bench/wide.c libtuhvondi.a -o wide && ./wide [SEED]
 *
 *   line   65,536 routers in a line, each link at cost 65535; router 0 is attached to a prefix at cost 65535.
 *          The distance of the last one is the greatest that there can be.
 *   tree   10,000 routers in a random tree, at most 32 links at each, costs from 1 to 1000, another one in each
 *          direction; 16 prefixes, each of a random router.
 *
 * All links come up, and then routers take turns until nothing is left to do: in the order of their numbers, and
 * in a random order. The network is copied before that, and a link of the copy goes down after it: behind that
 * link no router may have a way in the copy, and all still have theirs in the network itself.
 *
 * It ends with status 1 if a distance is not as it has to be.
 */
#define _POSIX_C_SOURCE 200809L

#include "tuhvondi_network.h"

#include <inttypes.h>
#include <stdio.h>
#include <stdlib.h>
#include <sys/wait.h>
#include <time.h>
#include <unistd.h>

enum { MOST_ROUTERS = 65536, PREFIXES = 16 };

static struct tuhvondi_link links[MOST_ROUTERS - 1];
static struct tuhvondi_owner owners[PREFIXES];
static size_t routers, prefixes;
/* Of a router other than 0: the one that is nearer to router 0. Its link has the number below its own. */
static uint16_t parents[MOST_ROUTERS];
static uint64_t least[MOST_ROUTERS];

static void fail(int line, const char *what)
{
    fprintf(stderr, "wide: line %d: not so: %s\n", line, what);
    exit(1);
}

#define NEED(test) ((test) ? (void)0 : fail(__LINE__, #test))

/* Random numbers: splitmix64. */
static uint64_t random_state = 1;

static uint32_t below(uint32_t limit)
{
    uint64_t z = (random_state += 0x9e3779b97f4a7c15u);
    z = (z ^ (z >> 30)) * 0xbf58476d1ce4e5b9u;
    z = (z ^ (z >> 27)) * 0x94d049bb133111ebu;
    return (uint32_t)((z ^ (z >> 31)) % limit);
}

static double now(void)
{
    struct timespec at;
    clock_gettime(CLOCK_MONOTONIC, &at);
    return (double)at.tv_sec + (double)at.tv_nsec * 1e-9;
}

/* Megabytes that the process has in memory. */
static double megabytes(void)
{
    unsigned long all, resident = 0;
    FILE *file = fopen("/proc/self/statm", "r");
    if (file && fscanf(file, "%lu %lu", &all, &resident) != 2)
        resident = 0;
    if (file)
        fclose(file);
    return (double)resident * 4096 / 1e6;
}

static void draw_line(void)
{
    routers = MOST_ROUTERS;
    prefixes = 1;
    for (uint32_t router = 1; router < routers; router++) {
        parents[router] = (uint16_t)(router - 1);
        links[router - 1] = (struct tuhvondi_link){
            .from_a = 65535, .from_b = 65535, .a = parents[router], .b = (uint16_t)router};
    }
    owners[0] = (struct tuhvondi_owner){.addr = 0x0a000000, .len = 16, .cost = 65535, .router = 0};
}

static void draw_tree(void)
{
    static uint8_t degree[MOST_ROUTERS];
    routers = 10000;
    prefixes = PREFIXES;
    for (uint32_t router = 1; router < routers; router++) {
        do
            parents[router] = (uint16_t)below(router);
        while (degree[parents[router]] == 32);
        degree[parents[router]]++;
        degree[router] = 1;
        links[router - 1] = (struct tuhvondi_link){
            .from_a = 1 + below(1000), .from_b = 1 + below(1000), .a = parents[router], .b = (uint16_t)router};
    }
    for (uint32_t prefix = 0; prefix < PREFIXES; prefix++)
        owners[prefix] = (struct tuhvondi_owner){.addr = 0x0a000000 | prefix << 16, .len = 16,
            .cost = 1 + below(65535), .router = (uint16_t)below((uint32_t)routers)};
}

/* The least costs to a prefix. The way to its owner is up to a router on the owner's way to router 0, and then
 * down that way. */
static void reckon(size_t prefix)
{
    for (size_t router = 0; router < routers; router++)
        least[router] = UINT64_MAX;
    least[owners[prefix].router] = owners[prefix].cost;
    for (uint16_t at = owners[prefix].router; at != 0; at = parents[at])
        least[parents[at]] = least[at] + links[at - 1].from_a;
    for (uint32_t router = 0; router < routers; router++)
        if (least[router] == UINT64_MAX)
            least[router] = least[parents[router]] + links[router - 1].from_b;
}

static size_t compare(struct tuhvondi_network *network)
{
    size_t compared = 0;
    uint64_t farthest = 0;
    for (size_t prefix = 0; prefix < prefixes; prefix++) {
        reckon(prefix);
        for (size_t router = 0; router < routers; router++) {
            struct tuhvondi_machine machine;
            NEED(tuhvondi_network_machine(network, (uint16_t)router, owners[prefix].addr, 16, &machine) == 0);
            NEED(machine.state.rd == least[router] && machine.state.active == 0);
            farthest = least[router] > farthest ? least[router] : farthest;
            compared++;
        }
    }
    printf("    %zu distances compared, the greatest is %" PRIu64 "\n", compared, farthest);
    return compared;
}

static size_t settle(struct tuhvondi_network *network, uint64_t seed, const char *what)
{
    size_t done;
    uint8_t settled;
    double began = now();
    NEED(tuhvondi_network_settle(network, seed, SIZE_MAX, &done) == 0);
    NEED(tuhvondi_network_is_settled(network, &settled) == 0 && settled == 1);
    double took = now() - began;
    printf("    %s: %zu steps in %.2f s, %.2f us each\n", what, done, took, took * 1e6 / (double)(done ? done : 1));
    return done;
}

/* The link of a router to its parent goes down in the copy. Then those on the other side than the owner of the
 * first prefix have no way to it. */
static void cut(struct tuhvondi_network *copy, uint16_t far)
{
    static bool behind[MOST_ROUTERS];
    struct tuhvondi_step down = {.kind = TUHVONDI_LINK_DOWN, .subject = (uint16_t)(far - 1)};
    NEED(tuhvondi_network_step(copy, &down) == 0);
    settle(copy, 0, "a link of the copy goes down");
    for (size_t router = 0; router < routers; router++)
        behind[router] = router == far || (router > far && behind[parents[router]]);
    reckon(0);
    for (size_t router = 0; router < routers; router++) {
        struct tuhvondi_machine machine;
        NEED(tuhvondi_network_machine(copy, (uint16_t)router, owners[0].addr, 16, &machine) == 0);
        bool has_way = behind[router] == behind[owners[0].router];
        NEED(machine.state.rd == (has_way ? least[router] : TUHVONDI_INFINITY) && machine.state.active == 0);
    }
}

static void try(const char *name, uint16_t far, uint64_t seed)
{
    struct tuhvondi_limits limits = TUHVONDI_WIDEST_LIMITS;
    struct tuhvondi_network network = TUHVONDI_NO_NETWORK, copy = TUHVONDI_NO_NETWORK;
    struct tuhvondi_fault_place place;
    double before = megabytes(), began = now();
    printf("%s: %zu routers, %zu prefixes\n", name, routers, prefixes);
    NEED(tuhvondi_network_within(&limits, routers, links, routers - 1, owners, prefixes, &place, &network) == 0);
    printf("    opened in %.2f s, %.1f MB\n", now() - began, megabytes() - before);
    began = now();
    for (size_t link = 0; link < routers - 1; link++) {
        struct tuhvondi_step up = {.kind = TUHVONDI_LINK_UP, .subject = (uint16_t)link};
        NEED(tuhvondi_network_step(&network, &up) == 0);
    }
    printf("    links came up in %.2f s\n", now() - began);
    began = now();
    NEED(tuhvondi_network_copy(&network, &copy) == 0);
    printf("    copied in %.2f s\n", now() - began);
    settle(&network, 0, "in the order of numbers");
    compare(&network);
    settle(&copy, seed, "in random order");
    compare(&copy);
    cut(&copy, far);
    compare(&network);
    printf("    %.1f MB with the copy\n", megabytes() - before);
    tuhvondi_network_free(&network);
    tuhvondi_network_free(&copy);
}

int main(int argc, char **argv)
{
    uint64_t seed = argc > 1 ? strtoull(argv[1], NULL, 10) : 1;
    random_state = seed;
    /* Each in a process of its own, so that memory is that of one network. */
    for (int tree = 0; tree < 2; tree++) {
        fflush(stdout);
        pid_t child = fork();
        NEED(child >= 0);
        if (child == 0) {
            tree ? draw_tree() : draw_line();
            try(tree ? "tree" : "line", tree ? 1 : MOST_ROUTERS / 2, seed ? seed : 1);
            return 0;
        }
        int status;
        NEED(waitpid(child, &status, 0) == child && status == 0);
    }
    puts("all as they have to be");
    return 0;
}
