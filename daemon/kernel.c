/* What the daemon has the kernel do: routes of rows, and filters of interfaces. docs/daemons.md has each duty. */
#include "daemon.h"
#include "requests.h"

#include <arpa/inet.h>
#include <errno.h>
#include <fcntl.h>
#include <ifaddrs.h>
#include <linux/ethtool.h>
#include <linux/fib_rules.h>
#include <linux/filter.h>
#include <linux/rtnetlink.h>
#include <linux/sockios.h>
#include <net/if_arp.h>
#include <stdio.h>
#include <stdlib.h>
#include <string.h>
#include <sys/ioctl.h>
#include <sys/socket.h>
#include <sys/un.h>
#include <unistd.h>

enum {
    ROUNDS = 10,
    COMPLAIN_MS = 1000,
    KEEP_ALIVE = 4096, /* routes that are read between signs of life: there may be very many */
};

static void ask(struct daemon *daemon, struct batch *batch)
{
    requests_send(daemon->kernel.requests, &daemon->kernel.number, batch);
}

/* What fails is said at most once a second, because it is tried again at each turn. */
static bool may_complain(struct daemon *daemon)
{
    int64_t now = now_ms();
    if (now - daemon->kernel.complained < COMPLAIN_MS)
        return false;
    daemon->kernel.complained = now;
    return true;
}

static void complain_of(struct daemon *daemon, const char *what, int error)
{
    if (may_complain(daemon))
        say(LOG_ERR, "%s: %s", what, strerror(error));
}

/* ---- filters and marks */

static struct kernel_rule filter_of(const struct daemon *daemon, const struct peer *peer)
{
    struct kernel_rule rule = {.preference = RULE_PREFERENCE, .protocol = (uint8_t)daemon->config.protocol,
                               .action = FR_ACT_BLACKHOLE};
    memcpy(rule.interface, peer->interface, sizeof rule.interface);
    return rule;
}

/* It also tells the next process which end connects. */
static struct kernel_rule mark_of(const struct daemon *daemon, const struct peer *peer)
{
    struct kernel_rule rule = filter_of(daemon, peer);
    rule.preference = MARK_PREFERENCE + peer->config.passive;
    rule.action = FR_ACT_NOP;
    rule.from = peer->config.address;
    return rule;
}

static bool is_same_rule(const struct kernel_rule *one, const struct kernel_rule *other)
{
    return one->preference == other->preference && one->action == other->action
           && one->from.s_addr == other->from.s_addr && strcmp(one->interface, other->interface) == 0;
}

/* Whether a rule of ours is to stand, for another neighbour than this. Where several are told apart, the filter of the whole
 * interface stands while none of them is let in. */
static bool is_needed(struct daemon *daemon, const struct peer *but, const struct kernel_rule *rule)
{
    if (rule->action == FR_ACT_BLACKHOLE && !daemon->kernel.tables_due && sharing_is_shared(daemon, rule->interface)
        && sharing_has_one(daemon, rule->interface))
        return false;
    for (struct peer *peer = daemon->peers; peer < peers_end(daemon); peer++) {
        struct kernel_rule filter = filter_of(daemon, peer), mark = mark_of(daemon, peer);
        if (peer != but && peer->used
            && ((peer->filtered && is_same_rule(rule, &filter)) || (peer->marked && is_same_rule(rule, &mark))))
            return true;
    }
    return false;
}

static bool set_rule(struct daemon *daemon, const struct peer *peer, const struct kernel_rule *rule, bool stands)
{
    struct batch batch = {0};
    if (!stands && is_needed(daemon, peer, rule))
        return true;
    batch_add(&batch, netlink_rule(batch_room(&batch), rule, stands, stands ? NLM_F_CREATE | NLM_F_EXCL : 0), NULL);
    ask(daemon, &batch);
    int error = batch.errors[0];
    if (error == 0 || error == (stands ? EEXIST : ENOENT))
        return true;
    complain_of(daemon, stands ? "a rule is not set" : "a rule is not taken away", error);
    return false;
}

/* The same for one of several at an interface. The table of those who are let in changes first where somebody is. If it cannot
 * be written, all of the interface is dropped. */
static bool filter_one(struct daemon *daemon, struct peer *peer, bool drops)
{
    struct kernel_rule rule = filter_of(daemon, peer);
    bool before = peer->filtered;
    if (!drops && !peer->removed && !sharing_find_link_address(daemon, peer, peer->link_address))
        return false;
    if (!drops && !peer->removed && !sharing_is_alone(daemon, peer)) {
        say(LOG_WARNING, "%s: another neighbour at %s has its link address", peer->name, peer->interface);
        return false;
    }
    peer->filtered = drops;
    if (!sharing_has_one(daemon, peer->interface))
        return set_rule(daemon, peer, &rule, true) && sharing_write(daemon);
    if (sharing_write(daemon))
        return drops || set_rule(daemon, peer, &rule, false);
    if (!drops)
        peer->filtered = before;
    return drops && set_rule(daemon, peer, &rule, true);
}

/* Has the kernel drop what comes in by the neighbour's interface, or let it through again: whether it does. */
bool kernel_filter(struct daemon *daemon, struct peer *peer, bool drops)
{
    struct kernel_rule rule = filter_of(daemon, peer);
    if (!daemon->kernel.installs)
        return true;
    if (!peer->interface[0])
        return !drops;
    if (sharing_is_shared(daemon, peer->interface))
        return filter_one(daemon, peer, drops);
    bool done = set_rule(daemon, peer, &rule, drops);
    if (done)
        peer->filtered = drops;
    return done;
}

/* The mark is a rule that does nothing, so it stands as long as routes of old may. Beside it stands a line in the file of
 * `state`, which comes first, and goes last. */
bool kernel_mark(struct daemon *daemon, struct peer *peer, bool stands)
{
    struct kernel_rule rule = mark_of(daemon, peer);
    if (!daemon->kernel.installs || !peer->interface[0])
        return true;
    if (stands && !peer->marked) {
        peer->marked = daemon->marks.due = true;
        marks_save(daemon);
    }
    if (!set_rule(daemon, peer, &rule, stands))
        return false;
    if (!stands) {
        peer->marked = false;
        daemon->marks.due = true;
        marks_save(daemon);
    }
    return true;
}

/* ---- interfaces */

/* Whether an address of this interface has the neighbour in its subnet, or as its other end. */
static bool is_beside(const struct ifaddrs *at, struct in_addr neighbour)
{
    if (!at->ifa_addr || !at->ifa_netmask || at->ifa_addr->sa_family != AF_INET || (at->ifa_flags & IFF_LOOPBACK))
        return false;
    bool has_end = (at->ifa_flags & IFF_POINTOPOINT) && at->ifa_dstaddr;
    in_addr_t own = ((struct sockaddr_in *)(has_end ? at->ifa_dstaddr : at->ifa_addr))->sin_addr.s_addr;
    in_addr_t mask = ((struct sockaddr_in *)at->ifa_netmask)->sin_addr.s_addr;
    return ((own ^ neighbour.s_addr) & mask) == 0;
}

/* The interface's number and name. What an address tells is its label, eth0:1 for example, and no rule of the kernel
 * knows an interface by that. */
static unsigned find_interface(struct in_addr neighbour, char name[IF_NAMESIZE])
{
    struct ifaddrs *list, *at;
    if (getifaddrs(&list))
        return 0;
    for (at = list; at && !is_beside(at, neighbour);)
        at = at->ifa_next;
    unsigned index = at ? if_nametoindex(at->ifa_name) : 0;
    freeifaddrs(list);
    return index && if_indextoname(index, name) ? index : 0;
}

bool kernel_has_moved(const struct daemon *daemon, const struct peer *peer, const struct ifaddrs *list)
{
    bool is_here = false, is_there = false;
    if (!daemon->kernel.installs || !peer->index || peer->removed || peer->config.interface[0])
        return false;
    for (const struct ifaddrs *at = list; at; at = at->ifa_next) {
        if (!is_beside(at, peer->config.address))
            continue;
        if (if_nametoindex(at->ifa_name) == peer->index)
            is_here = true;
        else
            is_there = true;
    }
    return is_there && !is_here;
}

/* The interface of this name, where neighbours are sought. What the host sends itself comes in by the loopback, which no
 * rule may drop. */
static unsigned named_interface(const struct daemon *daemon, const char *given, char name[IF_NAMESIZE])
{
    struct ifreq request = {0};
    unsigned index = if_nametoindex(given);
    if (!index || !if_indextoname(index, name))
        return 0;
    memcpy(request.ifr_name, name, IF_NAMESIZE);
    bool known = ioctl(daemon->kernel.device, SIOCGIFFLAGS, &request) == 0;
    return known && !(request.ifr_flags & IFF_LOOPBACK) ? index : 0;
}

const char *const kernel_no_interface = "no interface leads to it";

/* One that is none any more is at the interface that its mark names. While no daemon ran, that may have got another name: then
 * the neighbour's subnet tells which one, unless another port of it is there already. */
static unsigned former_interface(struct daemon *daemon, const struct peer *peer, char name[IF_NAMESIZE])
{
    unsigned index = named_interface(daemon, peer->interface, name);
    if (index)
        return index;
    index = find_interface(peer->config.address, name);
    for (const struct peer *other = daemon->peers; index && other < peers_end(daemon); other++)
        if (other->used && other->config.address.s_addr == peer->config.address.s_addr
            && strcmp(other->interface, name) == 0)
            return 0;
    return index;
}

/* Somebody else comes to an interface. Whoever is let in there is to be known by his link address from now on: NULL; else what
 * is wrong. */
static const char *share(struct daemon *daemon, const struct peer *peer, const char *name)
{
    for (struct peer *other = daemon->peers; other < peers_end(daemon); other++) {
        if (other == peer || !other->used || strcmp(other->interface, name) != 0 || other->cleared)
            continue;
        if (!other->removed && !peer->removed && other->index && !sharing_is_possible(daemon, name))
            return "another neighbour is on its interface, and they cannot be told apart there";
        if (other->state == PEER_UP && sharing_is_possible(daemon, name)
            && !sharing_find_link_address(daemon, other, other->link_address))
            peer_hang_up(daemon, other, BY_LINK, "another is on its interface now");
    }
    return NULL;
}

/* The neighbour is at this interface now. Whoever is left alone at the one before need not be told apart there any more. A mark
 * that is a rule has no link address, which the kernel may know still. */
static void move_to(struct daemon *daemon, struct peer *peer, const char name[IF_NAMESIZE], unsigned index)
{
    static const unsigned char UNKNOWN[LINK_ADDRESS];
    char before[IF_NAMESIZE];
    memcpy(before, peer->interface, sizeof before);
    memcpy(peer->interface, name, sizeof peer->interface);
    peer->index = index;
    if (strcmp(before, name) != 0 && sharing_has_one(daemon, before))
        sharing_write(daemon);
    if (peer->marked && memcmp(peer->link_address, UNKNOWN, LINK_ADDRESS) == 0)
        sharing_find_link_address(daemon, peer, peer->link_address);
}

/* Finds the neighbour's interface, which may be down, and has what comes in by it dropped: what is wrong, if anything.
 * A filter knows packets by their interface, and several neighbours are told apart by link addresses.
 * Where one is sought, and it is not known who had a session before the host began, there may have been one. */
const char *kernel_find_interface(struct daemon *daemon, struct peer *peer)
{
    char name[IF_NAMESIZE] = "";
    if (!daemon->kernel.installs || peer->index)
        return NULL;
    const char *given = peer->config.interface;
    unsigned index = peer->removed ? former_interface(daemon, peer, name)
                     : *given      ? named_interface(daemon, given, name)
                                   : find_interface(peer->config.address, name);
    if (!index)
        return kernel_no_interface;
    const char *wrong = share(daemon, peer, name);
    if (wrong)
        return wrong;
    if (peer->marked && strcmp(peer->interface, name) != 0 && !peer_leave_behind(daemon, peer))
        return "there is no place for the neighbour that it was at another interface";
    move_to(daemon, peer, name, index);
    if (*given && !peer->removed && !peer->marked && !daemon->marks.known)
        peer->waits_until = now_ms() + 2 * (int64_t)daemon->config.dead_ms;
    if (!kernel_filter(daemon, peer, true)) {
        peer->index = 0;
        return "what comes in from it is not dropped";
    }
    peer->stale = true;
    return NULL;
}

/* Whether no row leads by the interface at which this address is. It may be another address of a neighbour there. */
bool kernel_is_free(struct daemon *daemon, struct in_addr address)
{
    char name[IF_NAMESIZE] = "";
    if (!daemon->kernel.installs)
        return true;
    if (!find_interface(address, name))
        return false;
    for (struct peer *peer = daemon->peers; peer < peers_end(daemon); peer++)
        if (peer->used && strcmp(peer->interface, name) == 0)
            return false;
    return true;
}

/* Has the connection go by the neighbour's interface alone, and by no router: whether it does. If it went another way,
 * it would tell nothing of the link. */
bool kernel_bind(const struct daemon *daemon, const struct peer *peer, int fd)
{
    int one = 1;
    if (!daemon->kernel.installs)
        return true;
    return !setsockopt(fd, SOL_SOCKET, SO_BINDTODEVICE, peer->interface, (socklen_t)strlen(peer->interface))
           && !setsockopt(fd, SOL_SOCKET, SO_DONTROUTE, &one, sizeof one);
}

/* Has the kernel forget the packets that wait until the neighbour's link address is found, up to three seconds: rows of
 * the last session chose their way. An address that was set by hand stays, since nothing waits for it. */
void kernel_drop_waiting(const struct daemon *daemon, const struct peer *peer)
{
    struct arpreq entry = {0};
    struct sockaddr_in address = {.sin_family = AF_INET, .sin_addr = peer->config.address};
    memcpy(&entry.arp_pa, &address, sizeof address);
    memcpy(entry.arp_dev, peer->interface, sizeof peer->interface);
    if (ioctl(daemon->kernel.device, SIOCGARP, &entry) || !(entry.arp_flags & ATF_PERM)) {
        entry.arp_flags = 0;
        ioctl(daemon->kernel.device, SIOCDARP, &entry);
    }
}

/* A number that the kernel tells of the interface; -1: it tells none. */
static int64_t number_of(const struct peer *peer, const char *what)
{
    char path[64 + IF_NAMESIZE], text[24];
    snprintf(path, sizeof path, "/sys/class/net/%s/%s", peer->interface, what);
    int fd = open(path, O_RDONLY | O_CLOEXEC);
    ssize_t got = fd >= 0 ? read(fd, text, sizeof text - 1) : -1;
    if (fd >= 0)
        close(fd);
    if (got <= 0)
        return -1;
    text[got] = '\0';
    return strtoll(text, NULL, 10);
}

/* A driver that cannot be asked counts as one with carrier. */
static bool is_carrier_there(const struct daemon *daemon, const struct peer *peer)
{
    struct ethtool_value value = {.cmd = ETHTOOL_GLINK};
    struct ifreq request = {.ifr_data = (void *)&value};
    memcpy(request.ifr_name, peer->interface, sizeof peer->interface);
    return ioctl(daemon->kernel.device, SIOCETHTOOL, &request) != 0 || value.data;
}

int64_t kernel_carrier_losses(const struct daemon *daemon, const struct peer *peer)
{
    bool is_told = daemon->kernel.installs && number_of(peer, "ifindex") == (int64_t)peer->index;
    return is_told ? number_of(peer, "carrier_down_count") : -1;
}

/* The kernel holds notices of carrier back for up to a second after another one, but counts losses at once. Whoever asks
 * whether carrier is there waits for each change of any interface; so that is asked only where losses are not counted:
 * before Linux 4.16, or where /sys is that of another network namespace. */
bool kernel_has_carrier(const struct daemon *daemon, const struct peer *peer)
{
    if (!daemon->kernel.installs)
        return true;
    int64_t losses = peer->carrier_losses < 0 ? -1 : number_of(peer, "carrier_down_count");
    return losses < 0 ? is_carrier_there(daemon, peer) : losses == peer->carrier_losses;
}

void kernel_ask_for_carrier(struct daemon *daemon, int64_t now)
{
    if (!daemon->kernel.installs || now < daemon->kernel.next_carrier)
        return;
    daemon->kernel.next_carrier = now + CARRIER_MS;
    for (struct peer *peer = daemon->peers; peer < peers_end(daemon); peer++) {
        unsigned char found[LINK_ADDRESS];
        if (!peer->used || peer->state != PEER_UP)
            continue;
        if (!kernel_has_carrier(daemon, peer))
            peer_hang_up(daemon, peer, BY_LINK, "its interface has no carrier");
        else if (sharing_is_shared(daemon, peer->interface) && sharing_find_link_address(daemon, peer, found)
                 && memcmp(found, peer->link_address, LINK_ADDRESS) != 0)
            peer_hang_up(daemon, peer, BY_LINK, "its link address is another now");
    }
}

/* ---- routes of rows */

static struct kernel_route route_behind(const struct daemon *daemon, uint32_t addr, uint8_t len)
{
    return (struct kernel_route){.addr = addr, .len = len, .table = daemon->config.table, .metric = WORST_METRIC,
                                 .type = RTN_UNREACHABLE, .protocol = (uint8_t)daemon->config.protocol};
}

static struct kernel_route route_via(const struct daemon *daemon, uint32_t addr, uint8_t len)
{
    return (struct kernel_route){.addr = addr, .len = len, .table = daemon->config.table,
                                 .metric = daemon->config.metric, .type = RTN_UNICAST,
                                 .protocol = (uint8_t)daemon->config.protocol};
}

/* The kernel takes only an address of this host as the source, so a route names it while it is one. */
static struct in_addr source_of(const struct daemon *daemon)
{
    return daemon->kernel.has_source ? daemon->config.source : (struct in_addr){0};
}

void kernel_find_source(struct daemon *daemon)
{
    struct ifaddrs *list;
    bool found = false;
    if (!daemon->config.source.s_addr || getifaddrs(&list))
        return;
    for (const struct ifaddrs *at = list; at && !found; at = at->ifa_next)
        found = at->ifa_addr && at->ifa_addr->sa_family == AF_INET
                && ((struct sockaddr_in *)at->ifa_addr)->sin_addr.s_addr == daemon->config.source.s_addr;
    freeifaddrs(list);
    daemon->kernel.has_source = found;
}

static struct noted *noted_of(struct daemon *daemon, const struct tuhvondi_row *row)
{
    return prefixes_find(&daemon->prefixes, row->addr, row->len);
}

/* The neighbour by which the kernel is to forward: that of a row whose session is up. */
static const struct peer *wanted(const struct daemon *daemon, const struct tuhvondi_row *row)
{
    const struct peer *peer = row->kind == TUHVONDI_VIA ? &daemon->peers[row->port] : NULL;
    return peer && is_in_session(peer, row->session) && peer->index && !peer->lost ? peer : NULL;
}

/* First an unreachable route stands behind each prefix: the kernel takes routes away by itself where an interface goes
 * down, and then no shorter prefix may match. One that somebody else set there (EEXIST) does as well. */
static bool set_behind(struct daemon *daemon, const struct tuhvondi_row *rows, size_t count)
{
    struct batch batch = {0};
    for (size_t i = 0; i < count; i++) {
        struct noted *noted = prefixes_add(&daemon->prefixes, rows[i].addr, rows[i].len);
        if (!noted) {
            complain_of(daemon, "a route is not set", ENOSPC);
            return false;
        }
        if (noted->behind)
            continue;
        struct kernel_route route = route_behind(daemon, rows[i].addr, rows[i].len);
        batch_add(&batch, netlink_route(batch_room(&batch), &route, true, NLM_F_CREATE | NLM_F_EXCL), &rows[i]);
    }
    ask(daemon, &batch);
    bool done = true;
    for (size_t i = 0; i < batch.count; i++) {
        struct noted *noted = noted_of(daemon, batch.of[i]);
        noted->behind = batch.errors[i] == 0;
        noted->foreign |= batch.errors[i] == EEXIST;
        if (batch.errors[i] != 0 && batch.errors[i] != EEXIST) {
            complain_of(daemon, "an unreachable route is not set", batch.errors[i]);
            done = false;
        }
    }
    return done;
}

/* Asks for the route of a row by a neighbour, or for its end. Only a route that is known to be ours is replaced. */
static void request_via(struct daemon *daemon, struct batch *batch, const struct tuhvondi_row *row)
{
    struct noted *noted = noted_of(daemon, row);
    const struct peer *peer = wanted(daemon, row);
    struct kernel_route route = route_via(daemon, row->addr, row->len);
    uint16_t flags = NLM_F_CREATE | (noted->via ? NLM_F_REPLACE : NLM_F_EXCL);
    if (!peer && !noted->via)
        return;
    if (peer && noted->via && noted->by.s_addr == peer->config.address.s_addr && noted->index == peer->index
        && noted->source.s_addr == source_of(daemon).s_addr)
        return;
    noted->asked = peer ? row->port : NOT_ASKED;
    if (peer) {
        route.by = peer->config.address;
        route.index = peer->index;
        route.source = source_of(daemon);
    }
    batch_add(batch, netlink_route(batch_room(batch), &route, peer != NULL, peer ? flags : 0), row);
}

/* The kernel does not take a route by a neighbour: whether the row is done. If a route that is not ours stands there,
 * it is left, and packets go by it. Otherwise the interface is down: that neighbour's session ends. Without an answer
 * (EIO) the route may stand, so a look at the kernel is due. */
static bool note_refusal(struct daemon *daemon, struct noted *noted, struct peer *peer, int error)
{
    char text[PREFIX_TEXT];
    prefix_text(noted->addr, noted->len, text);
    daemon->kernel.refused++;
    daemon->kernel.check_due |= error == EIO;
    if (error == EEXIST && !noted->via) {
        noted->foreign = true;
        if (may_complain(daemon))
            say(LOG_WARNING, "%s: a route of metric %u that is not ours stands there, and is left", text,
                (unsigned)daemon->config.metric);
        return true;
    }
    if (!peer->lost)
        say(LOG_WARNING, "%s: the kernel takes no route by %s: %s", text, peer->name, strerror(error));
    peer->lost = true;
    return false;
}

/* Notes what became of a request by request_via: whether the kernel is as wanted. */
static bool note_via(struct daemon *daemon, const struct tuhvondi_row *row, int error)
{
    struct noted *noted = noted_of(daemon, row);
    if (noted->asked == NOT_ASKED) {
        noted->via = error != 0 && error != ESRCH;
        if (noted->via)
            complain_of(daemon, "a route is not taken away", error);
        return !noted->via;
    }
    struct peer *peer = &daemon->peers[noted->asked];
    if (error != 0)
        return note_refusal(daemon, noted, peer, error);
    noted->via = true;
    noted->by = peer->config.address;
    noted->source = source_of(daemon);
    noted->index = peer->index;
    daemon->kernel.set++;
    return true;
}

static bool set_via(struct daemon *daemon, const struct tuhvondi_row *rows, size_t count)
{
    struct batch batch = {0};
    bool done = true;
    for (size_t i = 0; i < count; i++)
        request_via(daemon, &batch, &rows[i]);
    ask(daemon, &batch);
    for (size_t i = 0; i < batch.count; i++)
        done &= note_via(daemon, batch.of[i], batch.errors[i]);
    return done;
}

/* Has the kernel forward by these rows: whether it does. After a refusal of a neighbour's route there is a second try,
 * which takes that neighbour's rows as unreachable. */
bool kernel_set_rows(struct daemon *daemon, const struct tuhvondi_row *rows, size_t count)
{
    if (!daemon->kernel.installs)
        return true;
    for (size_t at = 0; at < count; at += BATCH) {
        size_t part = count - at < BATCH ? count - at : BATCH;
        sessions_keep_alive(daemon);
        if (!set_behind(daemon, rows + at, part))
            return false;
        bool done = set_via(daemon, rows + at, part);
        if (!done)
            done = set_via(daemon, rows + at, part);
        if (!done)
            return false;
    }
    return true;
}

/* Takes the routes of a prefix away: whether none of ours is left. */
bool kernel_remove_row(struct daemon *daemon, uint32_t addr, uint8_t len)
{
    struct batch batch = {0};
    struct noted *noted = prefixes_find(&daemon->prefixes, addr, len);
    if (!daemon->kernel.installs || !noted)
        return true;
    struct kernel_route via = route_via(daemon, addr, len), behind = route_behind(daemon, addr, len);
    if (noted->via)
        batch_add(&batch, netlink_route(batch_room(&batch), &via, false, 0), &noted->via);
    if (noted->behind)
        batch_add(&batch, netlink_route(batch_room(&batch), &behind, false, 0), &noted->behind);
    ask(daemon, &batch);
    for (size_t i = 0; i < batch.count; i++) {
        bool stays = batch.errors[i] != 0 && batch.errors[i] != ESRCH;
        *(batch.of[i] == &noted->via ? &noted->via : &noted->behind) = stays;
        if (stays)
            complain_of(daemon, "a route is not taken away", batch.errors[i]);
    }
    bool gone = !noted->via && !noted->behind;
    prefixes_let_go(&daemon->prefixes, noted);
    return gone;
}

/* ---- what the kernel has, beside what it should have */

/* Routes or rules that are ours and stand where none should. `all`: none should stand at all. */
struct left_over {
    struct daemon *daemon;
    struct batch batch;
    bool all;
    size_t found;
    unsigned seen;
};

static void remove_left_over(struct left_over *left, size_t size)
{
    batch_add(&left->batch, size, NULL);
    left->found++;
    if (left->batch.count == BATCH) {
        ask(left->daemon, &left->batch);
        left->batch.count = left->batch.size = 0;
    }
}

/* Whether a route stands in the place of one of a row; what the kernel has there is then noted. */
static bool is_noted(struct daemon *daemon, const struct kernel_route *route)
{
    struct noted *noted = prefixes_find(&daemon->prefixes, route->addr, route->len);
    if (!noted || route->table != daemon->config.table || route->tos)
        return false;
    if (route->type == RTN_UNREACHABLE && route->metric == WORST_METRIC) {
        noted->behind = noted->found_behind = true;
        return true;
    }
    if (route->type != RTN_UNICAST || route->metric != daemon->config.metric || noted->found_via)
        return false;
    noted->differs |= !noted->via || route->by.s_addr != noted->by.s_addr || route->index != noted->index
                      || route->source.s_addr != source_of(daemon).s_addr;
    noted->via = noted->found_via = true;
    noted->by = route->by;
    noted->source = route->source;
    noted->index = route->index;
    return true;
}

/* Each look begins with nothing found. */
static void find_none(struct daemon *daemon)
{
    for (size_t i = 0; i < daemon->prefixes.size; i++) {
        struct noted *noted = &daemon->prefixes.slots[i];
        noted->found_behind = noted->found_via = false;
    }
}

static void take_route(void *to, const struct nlmsghdr *message)
{
    struct left_over *left = to;
    struct kernel_route route;
    if (++left->seen % KEEP_ALIVE == 0)
        sessions_keep_alive(left->daemon);
    if (!netlink_read_route(message, &route) || route.protocol != left->daemon->config.protocol)
        return;
    if (!left->all && is_noted(left->daemon, &route))
        return;
    remove_left_over(left, netlink_route(batch_room(&left->batch), &route, false, 0));
}

static void take_rule(void *to, const struct nlmsghdr *message)
{
    struct left_over *left = to;
    struct kernel_rule rule;
    if (!netlink_read_rule(message, &rule) || rule.protocol != left->daemon->config.protocol)
        return;
    bool is_mark = rule.action == FR_ACT_NOP;
    if ((!is_mark && rule.action != FR_ACT_BLACKHOLE) || (left->all ? is_mark : is_needed(left->daemon, NULL, &rule)))
        return;
    remove_left_over(left, netlink_rule(batch_room(&left->batch), &rule, false, 0));
}

/* Takes away what is ours and should not stand, in all tables where `all`: whether nothing of it stands. Marks then stay for
 * the next process. A dump may
 * miss what changes meanwhile, so it is repeated until it finds nothing. */
static bool sweep(struct daemon *daemon, bool routes, bool all)
{
    static struct left_over left;
    _Alignas(struct nlmsghdr) unsigned char request[REQUEST_SIZE];
    for (int round = 0; round < ROUNDS; round++) {
        size_t size = routes ? netlink_dump_routes(request, all ? 0 : daemon->config.table,
                                                   (uint8_t)daemon->config.protocol)
                             : netlink_dump_rules(request);
        left = (struct left_over){.daemon = daemon, .all = all};
        if (routes)
            find_none(daemon);
        bool whole = requests_dump(daemon->kernel.dumps, &daemon->kernel.number, request, size, &left,
                                   routes ? take_route : take_rule);
        ask(daemon, &left.batch);
        if (whole && left.found == 0)
            return true;
    }
    return false;
}

/* ---- begin and end */

/* One daemon a network namespace has routes of this protocol. The name is the namespace's; it ends with the process. Any process
 * may take it, and so keep daemons from beginning, as by their TCP port, but nothing else follows from that it is taken. */
static bool take_lock(struct daemon *daemon)
{
    struct sockaddr_un name = {.sun_family = AF_UNIX};
    int size = snprintf(name.sun_path + 1, sizeof name.sun_path - 1, "dualnetd protocol %u",
                        (unsigned)daemon->config.protocol);
    daemon->kernel.lock = socket(AF_UNIX, SOCK_STREAM | SOCK_CLOEXEC, 0);
    return bind(daemon->kernel.lock, (struct sockaddr *)&name,
                (socklen_t)(offsetof(struct sockaddr_un, sun_path) + 1 + (size_t)size)) == 0;
}

static int open_notices(uint32_t groups)
{
    struct sockaddr_nl changes = {.nl_family = AF_NETLINK, .nl_groups = groups};
    int bytes = 4 << 20;
    int fd = socket(AF_NETLINK, SOCK_RAW | SOCK_CLOEXEC | SOCK_NONBLOCK, NETLINK_ROUTE);
    if (fd >= 0) {
        setsockopt(fd, SOL_SOCKET, SO_RCVBUFFORCE, &bytes, sizeof bytes);
        if (bind(fd, (struct sockaddr *)&changes, sizeof changes) == 0)
            return fd;
        close(fd);
    }
    return -1;
}

/* The kernel tells all who listen of each route that it sets, also the one who asked for it. A publication has thousands,
 * and each would be read only to be left. So the kernel is not to queue those of our own requests; if it cannot, they
 * are read. */
static void leave_out_own(int notices, uint32_t port)
{
    struct sock_filter code[] = {
        BPF_STMT(BPF_LD | BPF_W | BPF_ABS, offsetof(struct nlmsghdr, nlmsg_pid)),
        BPF_JUMP(BPF_JMP | BPF_JEQ | BPF_K, htonl(port), 0, 1),
        BPF_STMT(BPF_RET | BPF_K, 0),
        BPF_STMT(BPF_RET | BPF_K, UINT32_MAX),
    };
    struct sock_fprog program = {.len = sizeof code / sizeof *code, .filter = code};
    setsockopt(notices, SOL_SOCKET, SO_ATTACH_FILTER, &program, sizeof program);
}

struct taking {
    struct daemon *daemon;
    uint8_t protocol;
    void *to;
    void (*take)(void *to, const struct kernel_route *route);
    unsigned count;
};

static void take_of_protocol(void *to, const struct nlmsghdr *message)
{
    struct taking *taking = to;
    struct kernel_route route;
    if (++taking->count % KEEP_ALIVE == 0)
        sessions_keep_alive(taking->daemon);
    if (netlink_read_route(message, &route) && route.protocol == taking->protocol
        && route.table == taking->daemon->config.table)
        taking->take(taking->to, &route);
}

bool kernel_each_route(struct daemon *daemon, uint8_t protocol, void *to, void take(void *to, const struct kernel_route *route))
{
    _Alignas(struct nlmsghdr) unsigned char request[REQUEST_SIZE];
    struct taking taking = {daemon, protocol, to, take, 0};
    size_t size = netlink_dump_routes(request, daemon->config.table, protocol);
    return requests_dump(daemon->kernel.dumps, &daemon->kernel.number, request, size, &taking, take_of_protocol);
}

static void take_mark(void *to, const struct nlmsghdr *message)
{
    struct left_over *left = to;
    struct kernel_rule rule;
    if (!netlink_read_rule(message, &rule) || rule.protocol != left->daemon->config.protocol
        || rule.action != FR_ACT_NOP || !rule.from.s_addr || !rule.interface[0])
        return;
    struct neighbour neighbour = {.address = rule.from, .cost = 1, .passive = rule.preference != MARK_PREFERENCE};
    if (peer_inherit(left->daemon, &neighbour, rule.interface, NULL))
        return;
    char text[INET_ADDRSTRLEN];
    say(LOG_ERR, "%s: there is no place for this former neighbour at %s; if no route of it leads here: ip rule del iif %s "
        "from %s preference %u", address_text(rule.from, text), rule.interface, rule.interface, text,
        (unsigned)rule.preference);
    left->found++;
}

/* Finds whom processes before had sessions with: whether all of them are known, and have a place. */
static bool inherit(struct daemon *daemon)
{
    static struct left_over left;
    _Alignas(struct nlmsghdr) unsigned char request[REQUEST_SIZE];
    for (int round = 0; round < ROUNDS; round++) {
        left = (struct left_over){.daemon = daemon};
        size_t size = netlink_dump_rules(request);
        if (requests_dump(daemon->kernel.dumps, &daemon->kernel.number, request, size, &left, take_mark))
            return left.found == 0;
    }
    return false;
}

/* Filters each neighbour's interface, also after one that cannot be. A neighbour whose interface is not there yet waits
 * for it. */
static bool filter_all(struct daemon *daemon)
{
    bool done = true;
    for (struct peer *peer = daemon->peers; peer < peers_end(daemon); peer++) {
        if (!peer->used)
            continue;
        done &= !peer->marked || kernel_filter(daemon, peer, true);
        const char *wrong = kernel_find_interface(daemon, peer);
        if (!wrong)
            continue;
        say(wrong == kernel_no_interface ? LOG_WARNING : LOG_ERR, "%s: %s", peer->name, wrong);
        done &= wrong == kernel_no_interface;
    }
    return done;
}

/* Without the right to change routes the daemon would wait for its first route for ever. A rule is taken away that
 * nobody has, since no interface has a slash in its name. */
static bool may_change(struct daemon *daemon)
{
    struct batch batch = {0};
    struct kernel_rule none = {.preference = RULE_PREFERENCE, .protocol = (uint8_t)daemon->config.protocol,
                               .action = FR_ACT_BLACKHOLE, .interface = "/"};
    batch_add(&batch, netlink_rule(batch_room(&batch), &none, false, 0), NULL);
    ask(daemon, &batch);
    if (batch.errors[0] == EPERM)
        say(LOG_ERR, "install: to change the kernel's routes needs CAP_NET_ADMIN");
    return batch.errors[0] != EPERM;
}

static void warn_of_forwarding(void)
{
    FILE *file = fopen("/proc/sys/net/ipv4/ip_forward", "re");
    if (file && getc(file) == '0')
        say(LOG_WARNING, "install: this host forwards no packets (net.ipv4.ip_forward is 0)");
    if (file)
        fclose(file);
}

/* Before anything is said to a neighbour: notices are listened to, what comes in from neighbours is dropped, and only
 * then what a crash left is taken away. The order matters: routes of old may lead in circles when half are gone. */
bool kernel_open(struct daemon *daemon)
{
    struct kernel *kernel = &daemon->kernel;
    uint32_t none;
    kernel->requests = requests_socket(&kernel->port);
    kernel->dumps = requests_socket(&none);
    kernel->links = open_notices(RTMGRP_LINK | RTMGRP_IPV4_IFADDR);
    kernel->routes = open_notices(RTMGRP_IPV4_ROUTE | 1 << (RTNLGRP_IPV4_RULE - 1));
    kernel->device = socket(AF_INET, SOCK_DGRAM | SOCK_CLOEXEC, 0);
    leave_out_own(kernel->routes, kernel->port);
    if (kernel->requests < 0 || kernel->dumps < 0 || kernel->links < 0 || kernel->routes < 0 || kernel->device < 0) {
        say(LOG_ERR, "install: no connection to the kernel's routes: %s", strerror(errno));
        return false;
    }
    if (!take_lock(daemon)) {
        say(LOG_ERR, "install: another dualnetd here has routes of protocol %u; `ss -xap' shows who has this name",
            (unsigned)daemon->config.protocol);
        return false;
    }
    if (!may_change(daemon))
        return false;
    kernel->installs = true;
    sharing_open(daemon);
    kernel_find_source(daemon);
    warn_of_forwarding();
    if (!inherit(daemon) || !marks_open(daemon)) {
        say(LOG_ERR, "install: neighbours of the process before are not known, or there is no place for them");
        kernel->installs = false;
        return false;
    }
    bool filtered = filter_all(daemon), swept = sweep(daemon, true, true);
    if (filtered && swept && sweep(daemon, false, false) && sharing_write(daemon))
        return true;
    if (filtered)
        say(LOG_ERR, "install: routes or rules of protocol %u cannot be taken away", (unsigned)daemon->config.protocol);
    /* Filters go only behind the routes of old: while such a route stands, what comes in is to be dropped. */
    if (swept) {
        sweep(daemon, false, true);
        sharing_write(daemon);
    }
    kernel->installs = false;
    return false;
}

static void count_route(void *to, const struct nlmsghdr *message)
{
    struct left_over *left = to;
    struct kernel_route route;
    left->found += netlink_read_route(message, &route) && route.protocol == left->daemon->config.protocol;
}

/* A hello tells that no row of an old session forwards. Without routes in the kernel a daemon takes none away, so it does
 * not begin while routes of its protocol stand. They may be those of another daemon that runs, but nothing shows that, because
 * any process may take the name by which daemons see each other. */
bool kernel_is_clear(struct daemon *daemon)
{
    static struct left_over left;
    _Alignas(struct nlmsghdr) unsigned char request[REQUEST_SIZE];
    bool whole = false;
    uint32_t none;
    int fd = requests_socket(&none);
    left = (struct left_over){.daemon = daemon};
    for (int round = 0; fd >= 0 && !whole && round < ROUNDS; round++) {
        size_t size = netlink_dump_routes(request, 0, (uint8_t)daemon->config.protocol);
        left.found = 0;
        whole = requests_dump(fd, &daemon->kernel.number, request, size, &left, count_route);
    }
    if (fd >= 0)
        close(fd);
    if (left.found > 0)
        say(LOG_ERR, "routes of protocol %u stand: if a daemon that was killed left them, start with `install yes`, or remove them; "
            "if they are of one that runs, name another protocol", (unsigned)daemon->config.protocol);
    return left.found == 0;
}

/* Nothing is forwarded any more, so the order matters here too: filters, the ends of sessions, routes, filters. */
bool kernel_close(struct daemon *daemon)
{
    if (!daemon->kernel.installs)
        return true;
    for (struct peer *peer = daemon->peers; peer < peers_end(daemon); peer++) {
        if (peer->used && peer->index)
            kernel_filter(daemon, peer, true);
        if (peer->used && peer->fd >= 0)
            close(peer->fd);
        peer->fd = -1;
    }
    bool gone = sweep(daemon, true, true) && sweep(daemon, false, true) && sharing_write(daemon);
    if (!gone)
        say(LOG_ERR, "routes or rules of protocol %u are left in the kernel", (unsigned)daemon->config.protocol);
    close(daemon->kernel.requests);
    close(daemon->kernel.dumps);
    close(daemon->kernel.links);
    close(daemon->kernel.routes);
    close(daemon->kernel.device);
    close(daemon->kernel.lock);
    sharing_close(daemon);
    daemon->kernel.installs = false;
    return gone;
}

/* ---- what was lost */

/* Sets the routes of a prefix anew, by the row in force: whether they stand. Without a row there are none. */
static bool repair(struct daemon *daemon, uint32_t addr, uint8_t len)
{
    struct tuhvondi_prefix from = {addr, len};
    struct tuhvondi_row row;
    size_t count = 0;
    tuhvondi_image_rows(&daemon->router.image, &from, &row, 1, &count);
    if (count == 0 || row.addr != addr || row.len != len)
        return kernel_remove_row(daemon, addr, len);
    return kernel_set_rows(daemon, &row, 1);
}

/* Puts one prefix right: whether that is done. `differed` counts it, unless the kernel took away what leads nowhere
 * now. */
static bool put_right(struct daemon *daemon, struct noted *noted, unsigned *differed)
{
    uint32_t addr = noted->addr;
    uint8_t len = noted->len;
    bool lost_via = noted->via && !noted->found_via;
    bool lost_other = (noted->behind && !noted->found_behind) || noted->differs;
    if (!lost_via && !lost_other && !noted->foreign)
        return true;
    noted->behind = noted->found_behind;
    noted->via = noted->found_via;
    noted->foreign = noted->differs = false;
    bool done = repair(daemon, addr, len);
    sessions_keep_alive(daemon);
    noted = prefixes_find(&daemon->prefixes, addr, len);
    *differed += lost_other || (lost_via && noted && noted->via);
    return done;
}

/* A prefix that is let go of may have another move into its place. */
static bool put_all_right(struct daemon *daemon)
{
    bool done = true;
    unsigned differed = 0;
    for (size_t i = 0; i < daemon->prefixes.size;) {
        struct noted *noted = &daemon->prefixes.slots[i];
        uint32_t addr = noted->addr;
        uint8_t len = noted->len;
        if (noted->used)
            done &= put_right(daemon, noted, &differed);
        i += !noted->used || (noted->addr == addr && noted->len == len);
    }
    daemon->kernel.repaired += differed;
    if (differed)
        say(LOG_NOTICE, "the kernel had other routes of %u prefixes than were set, which are put right", differed);
    return done;
}

/* Compares what the kernel has with what it was told, and sets again what is lost: whether all stands. The kernel tells
 * nothing of routes that it takes away with an interface or an address, so this is done after each such change. */
bool kernel_check(struct daemon *daemon)
{
    struct kernel *kernel = &daemon->kernel;
    if (!kernel->installs)
        return true;
    if (daemon->kernel.tables_due && !sharing_write(daemon))
        return false;
    for (struct peer *peer = daemon->peers; peer < peers_end(daemon); peer++)
        if (peer->used && peer->marked && !kernel_mark(daemon, peer, true))
            return false;
    if (!sweep(daemon, true, false) || !sweep(daemon, false, false)) {
        if (may_complain(daemon))
            say(LOG_ERR, "routes or rules of protocol %u cannot be read, or not be taken away",
                (unsigned)daemon->config.protocol);
        return false;
    }
    bool done = put_all_right(daemon);
    for (struct peer *peer = daemon->peers; peer < peers_end(daemon); peer++) {
        struct kernel_rule rule = filter_of(daemon, peer);
        if (peer->used && peer->filtered && (peer->index || peer->marked) && is_needed(daemon, NULL, &rule))
            done = set_rule(daemon, peer, &rule, true) && done;
    }
    kernel->check_due = !done;
    kernel->next_check = now_ms() + CHECK_MS;
    return done;
}
