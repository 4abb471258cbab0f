/* Messages of rtnetlink: bytes to values and back. Nothing here reads or writes a socket. */
#ifndef DUALNETD_NETLINK_H
#define DUALNETD_NETLINK_H

#include <linux/netlink.h>
#include <net/if.h>
#include <netinet/in.h>
#include <stdbool.h>
#include <stddef.h>
#include <stdint.h>

enum {
    REQUEST_SIZE = 128,  /* bytes that a request takes at most */
    RULE_PREFERENCE = 1, /* of our filters: next after the rule of local addresses */
    MARK_PREFERENCE = 2, /* of a mark where this end connects; where it is passive, one more */
};

/* The metric of the route behind each row: no other is worse. */
#define WORST_METRIC UINT32_MAX

/* A route of IPv4. By no neighbour (index 0) it is unreachable. Ours have no type of service (tos). `lost`: its interface has no
 * carrier, or is down. */
struct kernel_route {
    uint32_t addr, table, metric;
    uint8_t len, type, protocol, tos;
    bool lost;
    struct in_addr by, source;
    unsigned index;
};

/* A rule for what comes in by an interface, from this address (zero: any). A filter drops it. A mark does nothing to it. */
struct kernel_rule {
    uint32_t preference;
    uint8_t protocol, action;
    struct in_addr from;
    char interface[IF_NAMESIZE];
};

struct kernel_link {
    unsigned index;
    bool works, lost_carrier, gone; /* up, and with a carrier; up, and without one; removed */
    char name[IF_NAMESIZE];
};

/* Each writes a request, and says how many bytes it takes; its number stands in nlmsg_seq. */
size_t netlink_route(void *room, const struct kernel_route *route, bool stays, uint16_t flags);
size_t netlink_rule(void *room, const struct kernel_rule *rule, bool stays, uint16_t flags);
/* Of a table (0: all) and a protocol, where the kernel tests these. */
size_t netlink_dump_routes(void *room, uint32_t table, uint8_t protocol);
size_t netlink_dump_rules(void *room);

/* The message that begins at this place of the bytes, or NULL where none stands there whole. The place moves behind
 * it. */
struct nlmsghdr *netlink_next(void *bytes, size_t size, size_t *place);

/* What an answer tells: 0, or the number of the error. It is EIO where what it has is no error's number below zero. */
int netlink_error(int told);

/* Each is false if the message is none of its kind, or is malformed. The message stands whole in memory. */
bool netlink_read_route(const struct nlmsghdr *message, struct kernel_route *route);
bool netlink_read_rule(const struct nlmsghdr *message, struct kernel_rule *rule);
bool netlink_read_link(const struct nlmsghdr *message, struct kernel_link *link);
/* Whether an address came or went. */
bool netlink_is_address(const struct nlmsghdr *message);

#endif
