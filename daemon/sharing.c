/* Interfaces at which there are several neighbours. A rule knows packets by their interface alone, so there a table of nf_tables
 * tells them apart by the link address from which they come. Only what a neighbour sends that is let in is forwarded. */
#include "daemon.h"
#include "requests.h"

#include <arpa/inet.h>
#include <errno.h>
#include <linux/netfilter.h>
#include <linux/netfilter/nf_tables.h>
#include <linux/netfilter/nfnetlink.h>
#include <net/if_arp.h>
#include <string.h>
#include <sys/ioctl.h>
#include <sys/socket.h>
#include <sys/time.h>
#include <unistd.h>

enum {
    BEFORE_OTHERS = -300, /* priority of the chain */
    SOURCE_OFFSET = 6,    /* of the link address in an Ethernet header */
    BATCH_SIZE = 1 << 16,
    NAME_ROOM = 32,
    ANSWER_S = 2,
    NOTICES = 64, /* pieces of notices that are read at a turn */
};

/* ---- who is where */

static bool is_at(const struct peer *peer, const char *interface)
{
    return peer->used && interface[0] && strcmp(peer->interface, interface) == 0 && !peer->cleared;
}

bool sharing_is_shared(const struct daemon *daemon, const char *interface)
{
    size_t count = 0;
    for (size_t i = 0; i < daemon->peer_count; i++)
        count += is_at(&daemon->peers[i], interface);
    return count > 1 && sharing_is_possible(daemon, interface);
}

static bool is_let_in(const struct peer *peer)
{
    return peer->used && !peer->removed && peer->index && !peer->filtered;
}

bool sharing_has_one(const struct daemon *daemon, const char *interface)
{
    for (size_t i = 0; i < daemon->peer_count; i++)
        if (is_at(&daemon->peers[i], interface) && is_let_in(&daemon->peers[i]))
            return true;
    return false;
}

/* A router may be there by two addresses. Packets by rows of the one come from the link address of the other, too. One whose link
 * address is not known counts as another router, or after a crash a neighbour that is away would keep all others out. */
bool sharing_is_alone(const struct daemon *daemon, const struct peer *peer)
{
    for (size_t i = 0; i < daemon->peer_count; i++) {
        const struct peer *other = &daemon->peers[i];
        if (other != peer && is_at(other, peer->interface) && (other->marked || is_let_in(other))
            && memcmp(other->link_address, peer->link_address, LINK_ADDRESS) == 0)
            return false;
    }
    return true;
}

bool sharing_is_possible(const struct daemon *daemon, const char *interface)
{
    struct ifreq request = {0};
    memcpy(request.ifr_name, interface, IF_NAMESIZE);
    return daemon->kernel.installs && daemon->kernel.tables >= 0 && ioctl(daemon->kernel.device, SIOCGIFHWADDR, &request) == 0
           && request.ifr_hwaddr.sa_family == ARPHRD_ETHER;
}

bool sharing_find_link_address(const struct daemon *daemon, const struct peer *peer, unsigned char found[LINK_ADDRESS])
{
    struct arpreq entry = {0};
    struct sockaddr_in address = {.sin_family = AF_INET, .sin_addr = peer->config.address};
    memcpy(&entry.arp_pa, &address, sizeof address);
    memcpy(entry.arp_dev, peer->interface, sizeof peer->interface);
    if (!daemon->kernel.installs || ioctl(daemon->kernel.device, SIOCGARP, &entry) || !(entry.arp_flags & ATF_COM))
        return false;
    memcpy(found, entry.arp_ha.sa_data, LINK_ADDRESS);
    return true;
}

/* ---- a batch of messages, of which the kernel does all or none */

struct tables {
    size_t size;
    uint32_t number;
    char name[NAME_ROOM];
    _Alignas(struct nlmsghdr) unsigned char bytes[BATCH_SIZE];
};

static void *room(struct tables *tables, size_t size)
{
    void *at = tables->bytes + tables->size;
    memset(at, 0, NLMSG_ALIGN(size));
    tables->size += NLMSG_ALIGN(size);
    return at;
}

/* The place of a message, whose length `end_message` writes. */
static size_t begin_message(struct tables *tables, uint16_t type, uint16_t flags, uint8_t family, uint16_t resource)
{
    size_t place = tables->size;
    struct nlmsghdr *head = room(tables, sizeof *head);
    struct nfgenmsg *body = room(tables, sizeof *body);
    *head = (struct nlmsghdr){.nlmsg_type = type, .nlmsg_flags = (uint16_t)(NLM_F_REQUEST | flags),
                              .nlmsg_seq = ++tables->number};
    *body = (struct nfgenmsg){.nfgen_family = family, .version = NFNETLINK_V0, .res_id = htons(resource)};
    return place;
}

static void end_message(struct tables *tables, size_t place)
{
    struct nlmsghdr *head = (void *)(tables->bytes + place);
    head->nlmsg_len = (uint32_t)(tables->size - place);
}

static void put(struct tables *tables, uint16_t type, const void *data, size_t size)
{
    struct nlattr *head = room(tables, NLA_HDRLEN + size);
    *head = (struct nlattr){.nla_len = (uint16_t)(NLA_HDRLEN + size), .nla_type = type};
    memcpy(head + 1, data, size);
}

static void put_text(struct tables *tables, uint16_t type, const char *text)
{
    put(tables, type, text, strlen(text) + 1);
}

static void put_number(struct tables *tables, uint16_t type, uint32_t number)
{
    uint32_t bytes = htonl(number);
    put(tables, type, &bytes, sizeof bytes);
}

static size_t begin_nest(struct tables *tables, uint16_t type)
{
    size_t place = tables->size;
    struct nlattr *head = room(tables, NLA_HDRLEN);
    head->nla_type = (uint16_t)(type | NLA_F_NESTED);
    return place;
}

static void end_nest(struct tables *tables, size_t place)
{
    struct nlattr *head = (void *)(tables->bytes + place);
    head->nla_len = (uint16_t)(tables->size - place);
}

static void put_table(struct tables *tables, uint16_t kind, uint16_t flags)
{
    size_t message = begin_message(tables, (uint16_t)(NFNL_SUBSYS_NFTABLES << 8 | kind), flags, NFPROTO_IPV4, 0);
    put_text(tables, NFTA_TABLE_NAME, tables->name);
    end_message(tables, message);
}

static void put_chain(struct tables *tables)
{
    size_t message = begin_message(tables, NFNL_SUBSYS_NFTABLES << 8 | NFT_MSG_NEWCHAIN, NLM_F_CREATE, NFPROTO_IPV4, 0);
    put_text(tables, NFTA_CHAIN_TABLE, tables->name);
    put_text(tables, NFTA_CHAIN_NAME, "forward");
    size_t hook = begin_nest(tables, NFTA_CHAIN_HOOK);
    put_number(tables, NFTA_HOOK_HOOKNUM, NF_INET_FORWARD);
    put_number(tables, NFTA_HOOK_PRIORITY, (uint32_t)BEFORE_OTHERS);
    end_nest(tables, hook);
    put_text(tables, NFTA_CHAIN_TYPE, "filter");
    put_number(tables, NFTA_CHAIN_POLICY, NF_ACCEPT);
    end_message(tables, message);
}

static size_t begin_expression(struct tables *tables, const char *name, size_t *outer)
{
    *outer = begin_nest(tables, NFTA_LIST_ELEM);
    put_text(tables, NFTA_EXPR_NAME, name);
    return begin_nest(tables, NFTA_EXPR_DATA);
}

static void end_expression(struct tables *tables, size_t inner, size_t outer)
{
    end_nest(tables, inner);
    end_nest(tables, outer);
}

/* Goes on only where what was loaded is this. */
static void put_comparison(struct tables *tables, const void *data, size_t size)
{
    size_t outer, inner = begin_expression(tables, "cmp", &outer);
    put_number(tables, NFTA_CMP_SREG, NFT_REG_1);
    put_number(tables, NFTA_CMP_OP, NFT_CMP_EQ);
    size_t value = begin_nest(tables, NFTA_CMP_DATA);
    put(tables, NFTA_DATA_VALUE, data, size);
    end_nest(tables, value);
    end_expression(tables, inner, outer);
}

/* Goes on only where this is so of the packet's interface. */
static void put_interface(struct tables *tables, uint32_t key, const void *data, size_t size)
{
    size_t outer, inner = begin_expression(tables, "meta", &outer);
    put_number(tables, NFTA_META_KEY, key);
    put_number(tables, NFTA_META_DREG, NFT_REG_1);
    end_expression(tables, inner, outer);
    put_comparison(tables, data, size);
}

static void put_source(struct tables *tables, const unsigned char from[LINK_ADDRESS])
{
    const uint16_t kind = ARPHRD_ETHER;
    put_interface(tables, NFT_META_IIFTYPE, &kind, sizeof kind);
    size_t outer, inner = begin_expression(tables, "payload", &outer);
    put_number(tables, NFTA_PAYLOAD_DREG, NFT_REG_1);
    put_number(tables, NFTA_PAYLOAD_BASE, NFT_PAYLOAD_LL_HEADER);
    put_number(tables, NFTA_PAYLOAD_OFFSET, SOURCE_OFFSET);
    put_number(tables, NFTA_PAYLOAD_LEN, LINK_ADDRESS);
    end_expression(tables, inner, outer);
    put_comparison(tables, from, LINK_ADDRESS);
}

static void put_verdict(struct tables *tables, uint32_t code)
{
    size_t outer, inner = begin_expression(tables, "immediate", &outer);
    put_number(tables, NFTA_IMMEDIATE_DREG, NFT_REG_VERDICT);
    size_t data = begin_nest(tables, NFTA_IMMEDIATE_DATA), verdict = begin_nest(tables, NFTA_DATA_VERDICT);
    put_number(tables, NFTA_VERDICT_CODE, code);
    end_nest(tables, verdict);
    end_nest(tables, data);
    end_expression(tables, inner, outer);
}

/* What comes in by an interface, from this link address (NULL: from any), is let through or dropped. */
static void put_rule(struct tables *tables, uint32_t index, const unsigned char *from, uint32_t code)
{
    size_t message = begin_message(tables, NFNL_SUBSYS_NFTABLES << 8 | NFT_MSG_NEWRULE, NLM_F_CREATE | NLM_F_APPEND,
                                   NFPROTO_IPV4, 0);
    put_text(tables, NFTA_RULE_TABLE, tables->name);
    put_text(tables, NFTA_RULE_CHAIN, "forward");
    size_t list = begin_nest(tables, NFTA_RULE_EXPRESSIONS);
    put_interface(tables, NFT_META_IIF, &index, sizeof index);
    if (from)
        put_source(tables, from);
    put_verdict(tables, code);
    end_nest(tables, list);
    end_message(tables, message);
}

/* ---- the table */

static void put_rules(const struct daemon *daemon, struct tables *tables)
{
    for (size_t i = 0; i < daemon->peer_count; i++) {
        const struct peer *peer = &daemon->peers[i];
        if (is_let_in(peer) && sharing_is_shared(daemon, peer->interface))
            put_rule(tables, peer->index, peer->link_address, NF_ACCEPT);
    }
    uint32_t last = 0;
    for (size_t i = 0; i < daemon->peer_count; i++) {
        const struct peer *peer = &daemon->peers[i];
        if (peer->index == last || !is_let_in(peer) || !sharing_is_shared(daemon, peer->interface))
            continue;
        put_rule(tables, peer->index, NULL, NF_DROP);
        last = peer->index;
    }
}

/* Whether the kernel has done all. The last message is acknowledged, and each that is refused is answered. */
static bool send_batch(struct daemon *daemon, struct tables *tables, uint32_t last)
{
    _Alignas(struct nlmsghdr) unsigned char answers[8192];
    while (recv(daemon->kernel.tables, answers, sizeof answers, MSG_DONTWAIT) > 0)
        ;
    if (send(daemon->kernel.tables, tables->bytes, tables->size, 0) < 0)
        return false;
    for (;;) {
        ssize_t got = recv(daemon->kernel.tables, answers, sizeof answers, 0);
        size_t place = 0;
        if (got < 0 && errno == EINTR)
            continue;
        if (got <= 0)
            return false;
        for (const struct nlmsghdr *at; (at = netlink_next(answers, (size_t)got, &place));) {
            struct nlmsgerr answer;
            if (at->nlmsg_type != NLMSG_ERROR || at->nlmsg_len < NLMSG_LENGTH(sizeof answer.error))
                continue;
            memcpy(&answer.error, NLMSG_DATA(at), sizeof answer.error);
            errno = netlink_error(answer.error);
            if (answer.error || at->nlmsg_seq == last)
                return !answer.error;
        }
    }
}

static void name_table(const struct daemon *daemon, const char *end_of_name, char name[NAME_ROOM])
{
    snprintf(name, NAME_ROOM, "dualnetd%u%s", (unsigned)daemon->config.protocol, end_of_name);
}

static bool write_table(struct daemon *daemon, const char *end_of_name)
{
    static struct tables tables;
    tables.size = 0;
    tables.number = daemon->kernel.table_number;
    name_table(daemon, end_of_name, tables.name);
    end_message(&tables, begin_message(&tables, NFNL_MSG_BATCH_BEGIN, 0, AF_UNSPEC, NFNL_SUBSYS_NFTABLES));
    put_table(&tables, NFT_MSG_NEWTABLE, NLM_F_CREATE);
    put_table(&tables, NFT_MSG_DELTABLE, 0);
    size_t before = tables.size;
    put_table(&tables, NFT_MSG_NEWTABLE, NLM_F_CREATE);
    put_chain(&tables);
    size_t empty = tables.size;
    if (!*end_of_name)
        put_rules(daemon, &tables);
    /* Where nobody is let in by it, there is none. */
    if (tables.size == empty)
        tables.size = before;
    uint32_t last = tables.size == before ? tables.number - 2 : tables.number;
    struct nlmsghdr *message = (void *)tables.bytes;
    for (size_t place = 0; (message = netlink_next(tables.bytes, tables.size, &place));)
        if (message->nlmsg_seq == last)
            message->nlmsg_flags |= NLM_F_ACK;
    end_message(&tables, begin_message(&tables, NFNL_MSG_BATCH_END, 0, AF_UNSPEC, NFNL_SUBSYS_NFTABLES));
    daemon->kernel.table_number = tables.number;
    return send_batch(daemon, &tables, last);
}

/* The table is made anew at once, so there is no moment without one. */
bool sharing_write(struct daemon *daemon)
{
    bool done = daemon->kernel.tables < 0 || write_table(daemon, "");
    if (!done && !daemon->kernel.tables_due)
        say(LOG_ERR, "a table of nf_tables is not written: %s", strerror(errno));
    daemon->kernel.tables_due = !done;
    daemon->kernel.check_due = daemon->kernel.check_due || !done;
    return done;
}

/* Tries the kernel with a table of another name, since one that a crash left has to stand until its interfaces are filtered.
 * Without nf_tables the sockets are closed, and no interface is shared. */
void sharing_open(struct daemon *daemon)
{
    struct sockaddr_nl own = {.nl_family = AF_NETLINK}, all = {.nl_family = AF_NETLINK,
                                                               .nl_groups = 1U << (NFNLGRP_NFTABLES - 1)};
    struct timeval limit = {.tv_sec = ANSWER_S};
    socklen_t size = sizeof own;
    daemon->kernel.tables = socket(AF_NETLINK, SOCK_RAW | SOCK_CLOEXEC, NETLINK_NETFILTER);
    daemon->kernel.table_notices = socket(AF_NETLINK, SOCK_RAW | SOCK_CLOEXEC | SOCK_NONBLOCK, NETLINK_NETFILTER);
    setsockopt(daemon->kernel.tables, SOL_SOCKET, SO_RCVTIMEO, &limit, sizeof limit);
    bool done = bind(daemon->kernel.tables, (struct sockaddr *)&own, sizeof own) == 0
                && getsockname(daemon->kernel.tables, (struct sockaddr *)&own, &size) == 0
                && bind(daemon->kernel.table_notices, (struct sockaddr *)&all, sizeof all) == 0;
    daemon->kernel.table_port = own.nl_pid;
    if (!done || !write_table(daemon, "try"))
        sharing_close(daemon);
}

void sharing_close(struct daemon *daemon)
{
    if (daemon->kernel.tables >= 0)
        close(daemon->kernel.tables);
    if (daemon->kernel.table_notices >= 0)
        close(daemon->kernel.table_notices);
    daemon->kernel.tables = daemon->kernel.table_notices = -1;
}

/* Whoever loads a firewall anew takes all tables away. Ours is written again at once; for other tables it is not, or two daemons
 * would do so for each other without end. */
void sharing_read(struct daemon *daemon)
{
    _Alignas(struct nlmsghdr) static unsigned char bytes[1 << 16];
    bool changed = false;
    char own[NAME_ROOM];
    name_table(daemon, "", own);
    for (int i = 0; i < NOTICES; i++) {
        ssize_t got = recv(daemon->kernel.table_notices, bytes, sizeof bytes, 0);
        if (got <= 0 && errno != ENOBUFS)
            break;
        size_t size = got > 0 ? (size_t)got : 0, place = 0;
        changed = changed || got < 0;
        for (const struct nlmsghdr *at; (at = netlink_next(bytes, size, &place));) {
            uint16_t kind = at->nlmsg_type & 0xff;
            bool is_end = kind == NFT_MSG_DELTABLE || kind == NFT_MSG_DELCHAIN || kind == NFT_MSG_DELRULE;
            changed = changed || (is_end && at->nlmsg_pid != daemon->kernel.table_port
                                  && memmem(at, at->nlmsg_len, own, strlen(own) + 1));
        }
    }
    if (changed)
        sharing_write(daemon);
}
