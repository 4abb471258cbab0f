/* Prefixes to which the router is attached because of what the host has: subnets of interfaces that work, and routes by such that
 * others set in the kernel. */
#include "daemon.h"

#include <arpa/inet.h>
#include <ifaddrs.h>
#include <linux/rtnetlink.h>
#include <stdlib.h>
#include <string.h>

enum {
    LOOK_MS = 1000,
    REST = 9, /* times as long as a look took, before the next: routes of others may change without end */
};

/* In the order of their prefixes. */
static struct found {
    struct tuhvondi_attachment list[MOST_FOUND];
    size_t count;
} found;

static int compare(const void *one, const void *other)
{
    const struct tuhvondi_attachment *a = one, *b = other;
    if (a->addr != b->addr)
        return a->addr < b->addr ? -1 : 1;
    return (int)a->len - (int)b->len;
}

static struct tuhvondi_attachment *find(struct tuhvondi_attachment *list, size_t count, const struct tuhvondi_attachment *of)
{
    return count ? bsearch(of, list, count, sizeof *list, compare) : NULL;
}

/* Lines of the configuration come before what is found. */
static bool is_named(const struct config *config, const struct tuhvondi_attachment *of)
{
    for (size_t i = 0; i < config->attachment_count; i++)
        if (compare(&config->attachments[i], of) == 0)
            return true;
    return false;
}

static void add(const struct config *config, uint32_t addr, uint8_t len, uint32_t cost)
{
    struct tuhvondi_attachment one = {.addr = addr, .len = len, .cost = cost};
    if (found.count < MOST_FOUND && !is_martian(addr, len) && !is_named(config, &one))
        found.list[found.count++] = one;
}

/* ---- subnets */

static uint32_t cost_of(const struct config *config, const char *label)
{
    size_t size = strcspn(label, ":");
    for (size_t i = 0; i < config->connected_count; i++)
        if (strncmp(config->connected[i].interface, label, size) == 0 && !config->connected[i].interface[size])
            return config->connected[i].cost;
    return 0;
}

static bool add_subnets(const struct config *config)
{
    struct ifaddrs *list;
    if (getifaddrs(&list))
        return false;
    for (const struct ifaddrs *at = list; at; at = at->ifa_next) {
        bool works = (at->ifa_flags & IFF_UP) && (at->ifa_flags & IFF_RUNNING) && at->ifa_addr && at->ifa_netmask
                     && at->ifa_addr->sa_family == AF_INET;
        uint32_t cost = works ? cost_of(config, at->ifa_name) : 0;
        if (!cost)
            continue;
        uint32_t mask = ntohl(((struct sockaddr_in *)at->ifa_netmask)->sin_addr.s_addr);
        uint32_t addr = ntohl(((struct sockaddr_in *)at->ifa_addr)->sin_addr.s_addr);
        add(config, addr & mask, (uint8_t)__builtin_popcount(mask), cost);
    }
    freeifaddrs(list);
    return true;
}

/* ---- routes of others */

struct origin {
    const struct config *config;
    const struct redistributed *line;
};

static void take_route(void *to, const struct kernel_route *route)
{
    const struct origin *origin = to;
    if (route->type == RTN_UNICAST && !route->tos && !route->lost && config_accepts(origin->config, origin->line->list, route->addr, route->len))
        add(origin->config, route->addr, route->len, origin->line->cost);
}

static bool add_routes(struct daemon *daemon)
{
    const struct config *config = &daemon->config;
    for (size_t i = 0; i < config->redistributed_count && daemon->kernel.installs; i++) {
        struct origin origin = {config, &config->redistributed[i]};
        /* A reload may name the number that stays the daemon's own until a new start. */
        if (origin.line->protocol == config->protocol)
            continue;
        if (!kernel_each_route(daemon, (uint8_t)origin.line->protocol, &origin, take_route))
            return false;
    }
    return true;
}

/* ---- what changes */

/* Each prefix stands once, at its least cost. */
static void put_in_order(void)
{
    size_t kept = 0;
    qsort(found.list, found.count, sizeof *found.list, compare);
    for (size_t i = 0; i < found.count; i++) {
        struct tuhvondi_attachment *last = kept ? &found.list[kept - 1] : NULL;
        if (!last || compare(last, &found.list[i]) != 0)
            found.list[kept++] = found.list[i];
        else if (found.list[i].cost < last->cost)
            last->cost = found.list[i].cost;
    }
    found.count = kept;
}

/* Tells the router what has changed. What it refuses is told at the next look. */
static void change(struct daemon *daemon)
{
    static struct tuhvondi_attachment kept[MOST_FOUND];
    static bool was_crowded;
    struct tuhvondi_attachment *have = daemon->found;
    size_t count = 0;
    bool crowded = found.count == MOST_FOUND;
    for (size_t i = 0; i < daemon->found_count; i++) {
        if (find(found.list, found.count, &have[i]) || is_named(&daemon->config, &have[i]))
            continue;
        if (router_detach(daemon, have[i].addr, have[i].len) == TUHVONDI_NO_MEMORY)
            kept[count++] = have[i];
    }
    for (size_t i = 0; i < found.count && count < MOST_FOUND; i++) {
        const struct tuhvondi_attachment *old = find(have, daemon->found_count, &found.list[i]);
        bool done = (old && old->cost == found.list[i].cost) || router_attach_found(daemon, &found.list[i]) == TUHVONDI_DONE;
        if (done || old)
            kept[count++] = done ? found.list[i] : *old;
        crowded = crowded || !done;
    }
    if (crowded && !was_crowded)
        say(LOG_WARNING, "attach: more subnets and routes of others are found than there is room for, and the rest is left");
    was_crowded = crowded;
    qsort(kept, count, sizeof *kept, compare);
    memcpy(daemon->found, kept, count * sizeof *kept);
    daemon->found_count = count;
}

bool connected_is_found(struct daemon *daemon, uint32_t addr, uint8_t len)
{
    return find(daemon->found, daemon->found_count, &(struct tuhvondi_attachment){.addr = addr, .len = len});
}

void connected_tick(struct daemon *daemon, int64_t now)
{
    const struct config *config = &daemon->config;
    static int64_t rests_until;
    if (daemon->blocked || now < daemon->next_found
        || (config->connected_count == 0 && config->redistributed_count == 0 && daemon->found_count == 0))
        return;
    if (now < rests_until) {
        daemon->next_found = rests_until;
        return;
    }
    daemon->next_found = now + LOOK_MS;
    found.count = 0;
    if (add_subnets(config) && add_routes(daemon)) {
        put_in_order();
        change(daemon);
    }
    int64_t ended = now_ms();
    rests_until = ended + REST * (ended - now);
}
