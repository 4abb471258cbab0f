/* What the kernel tells: interfaces that go down or come up, and routes that others change. */
#include "daemon.h"
#include "netlink.h"

#include <errno.h>
#include <linux/rtnetlink.h>
#include <string.h>
#include <sys/socket.h>

enum {
    ROOM = 1 << 16,
    TAKEN = 256, /* pieces of notices that are read at a turn: others may change routes without end */
};

/* If an interface of a neighbour went down, packets and routes were lost, also if that was only for a moment. The kernel's filter
 * goes by the name, so a new name gets a filter of its own; the old one is left over. One that has lost its carrier alone keeps its
 * routes, so the kernel need not be looked at for that before neighbours are told; nor for interfaces by which no row leads. */
static void link_changed(struct daemon *daemon, const struct kernel_link *link)
{
    for (struct peer *peer = daemon->peers; peer < peers_end(daemon); peer++) {
        if (!peer->used || !peer->index || peer->index != link->index)
            continue;
        daemon->kernel.check_due |= !link->lost_carrier;
        if (!link->gone && link->name[0] && strcmp(link->name, peer->interface) != 0) {
            say(LOG_NOTICE, "%s: its interface %s is now %s", peer->name, peer->interface, link->name);
            memcpy(peer->interface, link->name, sizeof peer->interface);
            daemon->kernel.check_due = true;
            daemon->marks.due |= peer->marked;
            peer_hang_up(daemon, peer, BY_LINK, "its interface has another name");
            if (peer->filtered)
                kernel_filter(daemon, peer, true);
        }
        if (link->works)
            peer_wake(peer);
        else
            peer_hang_up(daemon, peer, BY_LINK, "its interface is down");
        if (link->gone)
            peer->index = 0;
    }
}

/* Notices were lost, so the neighbour's interface may have been down, and may be gone or have another name. */
static void look_anew(struct daemon *daemon, struct peer *peer)
{
    struct kernel_link link = {.index = peer->index};
    link.gone = !if_indextoname(peer->index, link.name);
    peer_hang_up(daemon, peer, BY_LINK, "notices of its interface were lost");
    link_changed(daemon, &link);
}

/* An address of this host may stand at another interface now. What comes in by the old one is dropped as before. */
static void leave_interfaces(struct daemon *daemon)
{
    struct ifaddrs *list;
    if (getifaddrs(&list))
        return;
    for (struct peer *peer = daemon->peers; peer < peers_end(daemon); peer++) {
        if (!peer->used || !kernel_has_moved(daemon, peer, list))
            continue;
        peer_hang_up(daemon, peer, BY_LINK, "its subnet is at another interface now");
        peer->index = 0;
        peer_wake(peer);
    }
    freeifaddrs(list);
}

/* What the kernel refuses may be done the next time. Nobody would lift a filter of one that is cleared. */
void kernel_find_interfaces(struct daemon *daemon)
{
    for (struct peer *peer = daemon->peers; peer < peers_end(daemon); peer++) {
        if (!peer->used || peer->index || peer->cleared)
            continue;
        const char *wrong = kernel_find_interface(daemon, peer);
        sessions_keep_alive(daemon);
        if (!wrong)
            say(LOG_NOTICE, "%s: its interface is %s", peer->name, peer->interface);
        else if (wrong != kernel_no_interface)
            say(LOG_ERR, "%s: %s", peer->name, wrong);
    }
}

/* Takes each change, and not only how interfaces are now. Where addresses are is looked up behind all of them, since a host may have
 * very many interfaces, and change them again and again. */
void kernel_read_links(struct daemon *daemon)
{
    _Alignas(struct nlmsghdr) static unsigned char room[ROOM];
    bool moved = false;
    for (int i = 0; i < TAKEN; i++) {
        ssize_t got = recv(daemon->kernel.links, room, sizeof room, 0);
        if (got <= 0 && errno != ENOBUFS)
            break;
        size_t size = got > 0 ? (size_t)got : 0, place = 0;
        moved |= got < 0;
        for (struct peer *peer = daemon->peers; got < 0 && peer < peers_end(daemon); peer++)
            if (peer->used && peer->index)
                look_anew(daemon, peer);
        for (const struct nlmsghdr *at; (at = netlink_next(room, size, &place));) {
            struct kernel_link link;
            if (netlink_read_link(at, &link))
                link_changed(daemon, &link);
            moved |= netlink_is_address(at);
        }
    }
    daemon->kernel.check_due |= moved;
    if (moved) {
        kernel_find_source(daemon);
        leave_interfaces(daemon);
    }
    daemon->next_found = 0;
    kernel_find_interfaces(daemon);
}

static bool is_redistributed(const struct config *config, const struct kernel_route *route)
{
    for (size_t i = 0; i < config->redistributed_count; i++)
        if (config->redistributed[i].protocol == route->protocol && route->table == config->table)
            return true;
    return false;
}

/* Whether a change by somebody else may be of what is ours. One of a route that is attached is looked at soon. */
static bool is_of_ours(struct daemon *daemon, const struct nlmsghdr *message)
{
    const struct config *config = &daemon->config;
    struct kernel_route route;
    struct kernel_rule rule;
    if (message->nlmsg_pid == daemon->kernel.port)
        return false;
    if (netlink_read_route(message, &route) && is_redistributed(config, &route))
        daemon->next_found = 0;
    if (netlink_read_route(message, &route))
        return route.protocol == config->protocol
               || (route.table == config->table && (route.metric == config->metric || route.metric == WORST_METRIC));
    return netlink_read_rule(message, &rule) && rule.protocol == config->protocol;
}

void kernel_read_routes(struct daemon *daemon)
{
    _Alignas(struct nlmsghdr) static unsigned char room[ROOM];
    for (int i = 0; i < TAKEN; i++) {
        ssize_t got = recv(daemon->kernel.routes, room, sizeof room, 0);
        if (got <= 0 && errno != ENOBUFS)
            return;
        size_t size = got > 0 ? (size_t)got : 0, place = 0;
        daemon->kernel.check_due |= got < 0;
        for (const struct nlmsghdr *at; (at = netlink_next(room, size, &place));)
            daemon->kernel.check_due |= is_of_ours(daemon, at);
    }
}
