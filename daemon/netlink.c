#include "netlink.h"

#include <arpa/inet.h>
#include <errno.h>
#include <linux/fib_rules.h>
#include <linux/rtnetlink.h>
#include <string.h>

enum { MOST_ERROR = 4095 };

/* ---- to the kernel */

static void add(struct nlmsghdr *request, uint16_t type, const void *data, size_t size)
{
    struct rtattr head = {(uint16_t)RTA_LENGTH(size), type};
    unsigned char *at = (unsigned char *)request + NLMSG_ALIGN(request->nlmsg_len);
    memset(at, 0, RTA_SPACE(size));
    memcpy(at, &head, sizeof head);
    memcpy(at + RTA_LENGTH(0), data, size);
    request->nlmsg_len = (uint32_t)(NLMSG_ALIGN(request->nlmsg_len) + RTA_LENGTH(size));
}

static struct nlmsghdr *begin(void *room, uint16_t type, uint16_t flags, const void *body, size_t size)
{
    struct nlmsghdr *request = room;
    *request = (struct nlmsghdr){.nlmsg_len = (uint32_t)NLMSG_LENGTH(size), .nlmsg_type = type,
                                 .nlmsg_flags = (uint16_t)(NLM_F_REQUEST | flags)};
    memcpy(NLMSG_DATA(request), body, size);
    return request;
}

size_t netlink_route(void *room, const struct kernel_route *route, bool stays, uint16_t flags)
{
    uint32_t to = htonl(route->addr);
    struct rtmsg body = {.rtm_family = AF_INET, .rtm_dst_len = route->len, .rtm_tos = route->tos,
                         .rtm_table = (uint8_t)(route->table < 256 ? route->table : RT_TABLE_UNSPEC),
                         .rtm_protocol = route->protocol,
                         .rtm_scope = stays ? RT_SCOPE_UNIVERSE : RT_SCOPE_NOWHERE, .rtm_type = route->type};
    struct nlmsghdr *request = begin(room, stays ? RTM_NEWROUTE : RTM_DELROUTE, flags, &body, sizeof body);
    add(request, RTA_DST, &to, sizeof to);
    add(request, RTA_PRIORITY, &route->metric, sizeof route->metric);
    add(request, RTA_TABLE, &route->table, sizeof route->table);
    if (stays && route->index) {
        add(request, RTA_GATEWAY, &route->by, sizeof route->by);
        add(request, RTA_OIF, &route->index, sizeof route->index);
    }
    if (stays && route->source.s_addr)
        add(request, RTA_PREFSRC, &route->source, sizeof route->source);
    return NLMSG_ALIGN(request->nlmsg_len);
}

size_t netlink_rule(void *room, const struct kernel_rule *rule, bool stays, uint16_t flags)
{
    struct fib_rule_hdr body = {.family = AF_INET, .action = rule->action, .src_len = rule->from.s_addr ? 32 : 0};
    struct nlmsghdr *request = begin(room, stays ? RTM_NEWRULE : RTM_DELRULE, flags, &body, sizeof body);
    add(request, FRA_PRIORITY, &rule->preference, sizeof rule->preference);
    add(request, FRA_IIFNAME, rule->interface, strlen(rule->interface) + 1);
    add(request, FRA_PROTOCOL, &rule->protocol, sizeof rule->protocol);
    if (rule->from.s_addr)
        add(request, FRA_SRC, &rule->from, sizeof rule->from);
    return NLMSG_ALIGN(request->nlmsg_len);
}

size_t netlink_dump_routes(void *room, uint32_t table, uint8_t protocol)
{
    struct rtmsg body = {.rtm_family = AF_INET, .rtm_protocol = protocol};
    struct nlmsghdr *request = begin(room, RTM_GETROUTE, NLM_F_DUMP, &body, sizeof body);
    if (table)
        add(request, RTA_TABLE, &table, sizeof table);
    return NLMSG_ALIGN(request->nlmsg_len);
}

size_t netlink_dump_rules(void *room)
{
    struct fib_rule_hdr body = {.family = AF_INET};
    return NLMSG_ALIGN(begin(room, RTM_GETRULE, NLM_F_DUMP, &body, sizeof body)->nlmsg_len);
}

/* ---- from the kernel */

/* The macro NLMSG_NEXT counts below zero where the last message has no whole padding. */
struct nlmsghdr *netlink_next(void *bytes, size_t size, size_t *place)
{
    struct nlmsghdr *message = (void *)((unsigned char *)bytes + *place);
    if (*place > size || size - *place < sizeof *message)
        return NULL;
    if (message->nlmsg_len < sizeof *message || message->nlmsg_len > size - *place)
        return NULL;
    *place += NLMSG_ALIGN(message->nlmsg_len);
    return message;
}

int netlink_error(int told)
{
    return told == 0 ? 0 : told < 0 && told >= -MOST_ERROR ? -told : EIO;
}

/* Copies the body of a message, if it has one of this size. */
static bool read_body(const struct nlmsghdr *message, void *body, size_t size)
{
    if (message->nlmsg_len < NLMSG_LENGTH(size))
        return false;
    memcpy(body, NLMSG_DATA(message), size);
    return true;
}

/* Calls `take` for each attribute behind a body of this size. */
static void each_attribute(const struct nlmsghdr *message, size_t body, void *to,
                           void take(void *to, uint16_t type, const void *data, size_t size))
{
    const unsigned char *bytes = (const unsigned char *)message;
    size_t at = NLMSG_SPACE(body), end = message->nlmsg_len;
    struct rtattr head;
    while (at + sizeof head <= end) {
        memcpy(&head, bytes + at, sizeof head);
        if (head.rta_len < sizeof head || head.rta_len > end - at)
            return;
        take(to, head.rta_type, bytes + at + RTA_LENGTH(0), head.rta_len - RTA_LENGTH(0));
        at += RTA_ALIGN(head.rta_len);
    }
}

static void take_number(uint32_t *number, const void *data, size_t size)
{
    if (size == sizeof *number)
        memcpy(number, data, size);
}

static void take_name(char name[IF_NAMESIZE], const void *data, size_t size)
{
    if (size > 0 && size <= IF_NAMESIZE && ((const char *)data)[size - 1] == '\0')
        memcpy(name, data, size);
}

static void take_of_route(void *to, uint16_t type, const void *data, size_t size)
{
    struct kernel_route *route = to;
    switch (type) {
    case RTA_DST:
        take_number(&route->addr, data, size);
        route->addr = ntohl(route->addr);
        break;
    case RTA_PRIORITY:
        take_number(&route->metric, data, size);
        break;
    case RTA_TABLE:
        take_number(&route->table, data, size);
        break;
    case RTA_GATEWAY:
        take_number(&route->by.s_addr, data, size);
        break;
    case RTA_PREFSRC:
        take_number(&route->source.s_addr, data, size);
        break;
    case RTA_OIF:
        take_number(&route->index, data, size);
        break;
    default:
        break;
    }
}

bool netlink_read_route(const struct nlmsghdr *message, struct kernel_route *route)
{
    struct rtmsg body;
    bool is_route = message->nlmsg_type == RTM_NEWROUTE || message->nlmsg_type == RTM_DELROUTE;
    if (!is_route || !read_body(message, &body, sizeof body) || body.rtm_family != AF_INET || body.rtm_dst_len > 32)
        return false;
    *route = (struct kernel_route){.len = body.rtm_dst_len, .type = body.rtm_type, .protocol = body.rtm_protocol,
                                   .tos = body.rtm_tos, .table = body.rtm_table,
                                   .lost = body.rtm_flags & (RTNH_F_LINKDOWN | RTNH_F_DEAD)};
    each_attribute(message, sizeof body, route, take_of_route);
    return true;
}

static void take_of_rule(void *to, uint16_t type, const void *data, size_t size)
{
    struct kernel_rule *rule = to;
    if (type == FRA_PRIORITY)
        take_number(&rule->preference, data, size);
    if (type == FRA_IIFNAME)
        take_name(rule->interface, data, size);
    if (type == FRA_SRC)
        take_number(&rule->from.s_addr, data, size);
    if (type == FRA_PROTOCOL && size == sizeof rule->protocol)
        memcpy(&rule->protocol, data, size);
}

bool netlink_read_rule(const struct nlmsghdr *message, struct kernel_rule *rule)
{
    struct fib_rule_hdr body;
    bool is_rule = message->nlmsg_type == RTM_NEWRULE || message->nlmsg_type == RTM_DELRULE;
    if (!is_rule || !read_body(message, &body, sizeof body) || body.family != AF_INET)
        return false;
    *rule = (struct kernel_rule){.action = body.action};
    each_attribute(message, sizeof body, rule, take_of_rule);
    return true;
}

static void take_of_link(void *to, uint16_t type, const void *data, size_t size)
{
    struct kernel_link *link = to;
    if (type == IFLA_IFNAME)
        take_name(link->name, data, size);
}

bool netlink_read_link(const struct nlmsghdr *message, struct kernel_link *link)
{
    struct ifinfomsg body;
    bool is_link = message->nlmsg_type == RTM_NEWLINK || message->nlmsg_type == RTM_DELLINK;
    /* Those of another family are of bridges: an interface that leaves a bridge is not gone. */
    if (!is_link || !read_body(message, &body, sizeof body) || body.ifi_family != AF_UNSPEC)
        return false;
    bool gone = message->nlmsg_type == RTM_DELLINK;
    bool up = !gone && (body.ifi_flags & IFF_UP), runs = body.ifi_flags & IFF_RUNNING;
    *link = (struct kernel_link){.index = (unsigned)body.ifi_index, .gone = gone, .works = up && runs, .lost_carrier = up && !runs};
    each_attribute(message, sizeof body, link, take_of_link);
    return true;
}

bool netlink_is_address(const struct nlmsghdr *message)
{
    return message->nlmsg_type == RTM_NEWADDR || message->nlmsg_type == RTM_DELADDR;
}
