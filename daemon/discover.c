/* Neighbours that find each other: each announces itself on the segment of an interface, by multicast. That is only a
 * hint: the connection decides who is a neighbour, as of one that the configuration names. */
#include "daemon.h"

#include <arpa/inet.h>
#include <errno.h>
#include <ifaddrs.h>
#include <string.h>
#include <sys/socket.h>
#include <unistd.h>

enum {
    ANNOUNCE_MS = 1000,
    TAKEN = 32,    /* announcements of a segment that are read at a turn */
    OWN_TTL = 255, /* so what comes with less has passed a router */
};

/* The address of experiments (RFC 4727), which no router passes on. */
#define GROUP 0xe00000feU

enum refusal { IS_ELSEWHERE, IS_MALFORMED, HAS_OUR_ID, IS_TOO_MANY, IS_UNSIGNED, IS_GOOD, CANNOT_SEEK };

/* Whoever is on the segment can have lines written. So each reason has one, until there is somebody else. */
static bool may_tell(struct segment *segment, enum refusal reason)
{
    bool was_told = segment->told >> reason & 1;
    segment->told |= 1U << reason;
    return !was_told;
}

static void refuse(struct daemon *daemon, struct segment *segment, struct in_addr from, enum refusal reason)
{
    static const char *const REASONS[] = {"it is not in the interface's subnet", "what it announces is malformed",
                                          "it has the router id of this router",
                                          "as many neighbours as may be are there", "its secret is not set"};
    char name[INET_ADDRSTRLEN];
    daemon->refused++;
    if (may_tell(segment, reason))
        say(LOG_WARNING, "%s: %s is not taken: %s", segment->interface, address_text(from, name), REASONS[reason]);
}

/* ---- sockets */

static int open_segment(unsigned index)
{
    struct sockaddr_in group = {.sin_family = AF_INET, .sin_port = htons(TCP_PORT), .sin_addr = {htonl(GROUP)}};
    struct ip_mreqn member = {.imr_multiaddr = group.sin_addr, .imr_ifindex = (int)index};
    int one = 1, none = 0, ttl = OWN_TTL, fd = socket(AF_INET, SOCK_DGRAM | SOCK_NONBLOCK | SOCK_CLOEXEC, 0);
    if (fd < 0)
        return -1;
    if (!setsockopt(fd, SOL_SOCKET, SO_REUSEADDR, &one, sizeof one)
        && !setsockopt(fd, IPPROTO_IP, IP_MULTICAST_ALL, &none, sizeof none)
        && !setsockopt(fd, IPPROTO_IP, IP_RECVTTL, &one, sizeof one)
        && !setsockopt(fd, IPPROTO_IP, IP_MULTICAST_TTL, &ttl, sizeof ttl)
        && !bind(fd, (struct sockaddr *)&group, sizeof group)
        && !setsockopt(fd, IPPROTO_IP, IP_ADD_MEMBERSHIP, &member, sizeof member))
        return fd;
    int error = errno;
    close(fd);
    errno = error;
    return -1;
}

static void close_segment(struct segment *segment)
{
    if (segment->fd >= 0)
        close(segment->fd);
    segment->fd = -1;
}

/* An address may have a label, eth0:1 for example. */
static bool is_of(const struct ifaddrs *at, const char *name, struct in_addr listen)
{
    size_t size = strcspn(at->ifa_name, ":");
    if (strncmp(at->ifa_name, name, size) != 0 || name[size])
        return false;
    if (!at->ifa_addr || !at->ifa_netmask || at->ifa_addr->sa_family != AF_INET)
        return false;
    in_addr_t own = ((struct sockaddr_in *)at->ifa_addr)->sin_addr.s_addr;
    in_addr_t mask = ((struct sockaddr_in *)at->ifa_netmask)->sin_addr.s_addr;
    return !listen.s_addr || ((own ^ listen.s_addr) & mask) == 0;
}

/* Finds the first address of the interface, or that of `listen`, and who is beside it: whether there is one. */
static bool find_own(struct segment *segment, struct in_addr listen)
{
    struct ifaddrs *list, *at;
    char name[IF_NAMESIZE];
    if (!if_indextoname(segment->index, name) || getifaddrs(&list))
        return false;
    for (at = list; at && !is_of(at, name, listen);)
        at = at->ifa_next;
    if (at) {
        bool has_end = (at->ifa_flags & IFF_POINTOPOINT) && at->ifa_dstaddr;
        segment->own = listen.s_addr ? listen : ((struct sockaddr_in *)at->ifa_addr)->sin_addr;
        segment->base = ((struct sockaddr_in *)(has_end ? at->ifa_dstaddr : at->ifa_addr))->sin_addr;
        segment->mask = ((struct sockaddr_in *)at->ifa_netmask)->sin_addr;
    }
    freeifaddrs(list);
    return at;
}

/* Interfaces and addresses come and go, so they are looked up each time. Why nobody can be sought there; NULL: it can be
 * done. */
static const char *renew(struct segment *segment, struct in_addr listen)
{
    unsigned index = if_nametoindex(segment->interface);
    segment->own.s_addr = 0;
    if (!index && errno != ENODEV)
        return strerror(errno);
    if (index != segment->index)
        close_segment(segment);
    segment->index = index;
    if (!index)
        return "there is no such interface";
    if (segment->fd < 0)
        segment->fd = open_segment(index);
    if (segment->fd < 0)
        return strerror(errno);
    return find_own(segment, listen) ? NULL : "it has no address for that";
}

static bool announce(const struct daemon *daemon, const struct segment *segment)
{
    struct sockaddr_in group = {.sin_family = AF_INET, .sin_port = htons(TCP_PORT), .sin_addr = {htonl(GROUP)}};
    struct ip_mreqn by = {.imr_address = segment->own, .imr_ifindex = (int)segment->index};
    struct frame frame = {.type = FRAME_ANNOUNCEMENT, .kind = FIRST_VERSION, .number = TCP_PORT,
                          .addr = ntohl(daemon->config.router_id.s_addr), .value = ntohl(segment->own.s_addr)};
    unsigned char bytes[FRAME_SIZE];
    frame_write(&frame, bytes);
    return !setsockopt(segment->fd, IPPROTO_IP, IP_MULTICAST_IF, &by, sizeof by)
           && sendto(segment->fd, bytes, sizeof bytes, MSG_DONTWAIT, (struct sockaddr *)&group, sizeof group) > 0;
}

void discover_begin(struct daemon *daemon, const struct config *config)
{
    for (size_t i = 0; i < daemon->segment_count; i++)
        close_segment(&daemon->segments[i]);
    daemon->segment_count = 0;
    daemon->next_announcement = 0;
    for (size_t i = 0; i < config->neighbour_count; i++) {
        const char *interface = config->neighbours[i].interface;
        if (!*interface || (i > 0 && strcmp(interface, config->neighbours[i - 1].interface) == 0))
            continue;
        struct segment *segment = &daemon->segments[daemon->segment_count++];
        *segment = (struct segment){.fd = -1};
        memcpy(segment->interface, interface, sizeof segment->interface);
    }
}

/* ---- who is found */

/* Whether its place may be another's. Where rows of it may lead here, no time is enough: it has to say hello again, or the
 * operator has to know better. */
static bool is_over(const struct daemon *daemon, const struct peer *peer, int64_t now)
{
    return peer->state != PEER_UP && !peer->shut && !peer->marked && !peer->leaving && !peer->stale
           && now - peer->over > 2 * (int64_t)daemon->config.dead_ms;
}

static struct peer *place_on(struct daemon *daemon, const struct segment *segment)
{
    struct peer *place = NULL;
    for (struct peer *peer = daemon->peers; peer < peers_end(daemon); peer++) {
        if (!peer->used || peer->removed || strcmp(peer->config.interface, segment->interface) != 0)
            continue;
        if (!peer->config.address.s_addr)
            return peer;
        if (is_over(daemon, peer, now_ms()))
            place = peer;
    }
    return place;
}

static enum refusal fault_of(const struct daemon *daemon, const struct segment *segment,
                             const struct announcement *heard)
{
    struct in_addr from = heard->from;
    struct frame frame;
    uint32_t host = ntohl(from.s_addr & ~segment->mask.s_addr), most = ntohl(~segment->mask.s_addr);
    if (!from.s_addr || !segment->own.s_addr || ((from.s_addr ^ segment->base.s_addr) & segment->mask.s_addr)
        || heard->ttl != OWN_TTL || (most > 1 && (host == 0 || host == most)))
        return IS_ELSEWHERE;
    if (heard->size != FRAME_SIZE || frame_read(heard->bytes, &frame) || frame.type != FRAME_ANNOUNCEMENT
        || frame.number != TCP_PORT || frame.value != ntohl(from.s_addr))
        return IS_MALFORMED;
    return frame.addr == ntohl(daemon->config.router_id.s_addr) ? HAS_OUR_ID : IS_GOOD;
}

/* The end with the lower address is passive: each end knows both. */
void discover_take(struct daemon *daemon, struct segment *segment, const struct announcement *heard)
{
    struct in_addr from = heard->from;
    struct peer *peer = peer_of(daemon, from);
    enum refusal fault = fault_of(daemon, segment, heard);
    if (from.s_addr == segment->own.s_addr)
        return;
    if (fault != IS_GOOD) {
        refuse(daemon, segment, from, fault);
        return;
    }
    if (!peer) {
        peer = place_on(daemon, segment);
        if (!peer || !peer_give(daemon, peer, from)) {
            refuse(daemon, segment, from, peer ? IS_UNSIGNED : IS_TOO_MANY);
            return;
        }
        segment->told = 0;
        say(LOG_NOTICE, "%s: it is found on %s", peer->name, segment->interface);
    }
    if (strcmp(peer->config.interface, segment->interface) != 0)
        return;
    peer->announced = now_ms();
    if (peer->state == PEER_IDLE)
        peer->config.passive = ntohl(segment->own.s_addr) < ntohl(from.s_addr);
}

/* Reads an announcement: false if there is none. */
static bool receive(int fd, struct announcement *heard)
{
    _Alignas(struct cmsghdr) unsigned char room[CMSG_SPACE(sizeof(int))];
    struct sockaddr_in from = {0};
    struct iovec bytes = {heard->bytes, sizeof heard->bytes};
    struct msghdr message = {.msg_name = &from, .msg_namelen = sizeof from, .msg_iov = &bytes, .msg_iovlen = 1,
                             .msg_control = room, .msg_controllen = sizeof room};
    ssize_t got = recvmsg(fd, &message, MSG_DONTWAIT);
    if (got < 0)
        return false;
    const struct cmsghdr *head = CMSG_FIRSTHDR(&message);
    heard->from = from.sin_addr;
    heard->size = (size_t)got;
    heard->ttl = 0;
    if (head && head->cmsg_level == IPPROTO_IP && head->cmsg_type == IP_TTL)
        memcpy(&heard->ttl, CMSG_DATA(head), sizeof heard->ttl);
    return true;
}

/* Few at a turn, so that whoever sends many costs sessions little. */
void discover_read(struct daemon *daemon)
{
    struct announcement heard;
    for (struct segment *segment = daemon->segments; segment < daemon->segments + daemon->segment_count; segment++)
        for (int i = 0; segment->fd >= 0 && i < TAKEN && receive(segment->fd, &heard); i++)
            discover_take(daemon, segment, &heard);
}

/* ---- time */

/* Whoever has no session, and is silent, makes room. */
static void part(struct daemon *daemon, struct peer *peer, int64_t now)
{
    if (!is_over(daemon, peer, now) || now - peer->announced <= 2 * (int64_t)daemon->config.dead_ms)
        return;
    say(LOG_NOTICE, "%s: it is not found on %s any more", peer->name, peer->config.interface);
    peer_give(daemon, peer, (struct in_addr){0});
}

void discover_tick(struct daemon *daemon, int64_t now)
{
    if (now < daemon->next_announcement)
        return;
    daemon->next_announcement = now + ANNOUNCE_MS;
    for (struct segment *segment = daemon->segments; segment < daemon->segments + daemon->segment_count; segment++) {
        const char *wrong = renew(segment, daemon->config.listen);
        if (!wrong && !announce(daemon, segment))
            wrong = strerror(errno);
        if (!wrong)
            segment->told &= ~(1U << CANNOT_SEEK);
        else if (may_tell(segment, CANNOT_SEEK))
            say(LOG_WARNING, "%s: no neighbour is sought there: %s", segment->interface, wrong);
        sessions_keep_alive(daemon);
    }
    for (struct peer *peer = daemon->peers; peer < peers_end(daemon); peer++)
        if (is_somebody(peer) && peer->config.interface[0])
            part(daemon, peer, now);
}
