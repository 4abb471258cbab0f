/* SPDX-License-Identifier: MIT OR Apache-2.0 */
/* One router of a network, for C and C++ programs.
 *
 * When a link fails, routers change their routes one after another, so packets can circle meanwhile, which
 * DUAL avoids (Garcia-Luna-Aceves, Loop-Free Routing Using Diffusing Computations, 1993). Here is one router
 * that routes by DUAL, whose neighbours are other processes or other machines.
 *
 * The functions are those of the static library `router_ffi`. It is proved what each answers, and what it
 * makes of the router. The proof holds for every call that keeps to the rules of "tuhvondi.h":
 *
 *   - A handle begins as TUHVONDI_NO_ROUTER. Give it to these functions alone, and to one call at a time.
 *   - No two arguments overlap.
 *
 * A program goes through these steps, again and again:
 *
 *     tell the router what its links bring, by one or more of:
 *         link_up, link_down, link_cost, message, attached, detached
 *     while tuhvondi_router_publish answers TUHVONDI_DONE: forward by its rows
 *     while tuhvondi_router_release answers TUHVONDI_DONE: send the message, or drop it if the
 *         connection of its port is of another session
 *
 * To forward by the rows, put them into your table, for example by tuhvondi_image_apply, which takes them as
 * they are. Only then tell the router more, or release messages and put them on their links, because a
 * neighbour that hears of a row may send packets by it at once. examples/c/router.c does so with three
 * routers in one process.
 *
 * If every router of a network is of this library, and every program keeps the six duties of
 * docs/daemons.md (order within a session, later sessions, forwarding first, letting in, one call at a
 * time, other neighbours only between sessions), it is proved of the network as a whole:
 *
 *   - No packet meets a router twice along the rows in force at a moment, even while links fail, messages
 *     are lost and processes begin anew (`no_daemon_packet_circles` of crates/daemon_laws). One that moves
 *     while rows change comes back for one of two reasons alone (`comes_back` of
 *     crates/moving_daemon_packets).
 *   - Once links, costs and attachments stay as they are and no process begins anew, the network comes to
 *     rest. It does so at least cost if it has at most 65,536 routers, no message of a present session
 *     was lost, and the ends of each link agree (`processes_converge` of crates/daemons_come_to_rest).
 *
 * The library refuses what no router sends (TUHVONDI_UNASKED, TUHVONDI_ASKED_TWICE, TUHVONDI_OTHER_SESSION),
 * and a prefix more than the router may know (TUHVONDI_TOO_MANY_PREFIXES). If a message is refused, end the
 * session of its link, because the two ends no longer know the same. Only if it is of another session, or if
 * memory was refused, you need not end it.
 */
#ifndef TUHVONDI_ROUTER_H
#define TUHVONDI_ROUTER_H

#include "tuhvondi.h"

#ifdef __cplusplus
extern "C" {
#endif

/* A router has at most 32 ports, numbered from 0. */
#define TUHVONDI_PORTS 32

/* The distance of a destination that cannot be reached. */
#define TUHVONDI_INFINITY UINT32_MAX

/* A prefix to which the router itself is attached, and the cost, 1 to 65535. */
struct tuhvondi_attachment {
    uint32_t addr;
    uint32_t cost;
    uint8_t len;
};

TUHVONDI_ASSERT(sizeof(struct tuhvondi_attachment) == 12, "an attachment takes 12 bytes");

/* What a message asks for. */
enum tuhvondi_message_kind {
    /* It is news, and needs no answer. */
    TUHVONDI_UPDATE = 0,
    /* It is a question: the receiver owes a reply. */
    TUHVONDI_QUERY = 1,
    /* It is the answer to a query. */
    TUHVONDI_REPLY = 2
};

/* A message: `value` is the sender's distance to the prefix of `addr` and `len`. `port` is the port by which
 * the message leaves or came. `session` is the session of the link in which it was sent. */
struct tuhvondi_message {
    uint32_t addr;
    uint32_t value;
    uint16_t session;
    uint8_t len;
    uint8_t kind;
    uint8_t port;
};

TUHVONDI_ASSERT(sizeof(struct tuhvondi_message) == 16, "a message takes 16 bytes");
TUHVONDI_ASSERT(offsetof(struct tuhvondi_message, port) == 12, "a message's port stands at byte 12");

/* What a router has:
 *   prefixes    how many prefixes it has heard of
 *   changed     how many rows a publication would put in force
 *   held        how many messages it holds
 *   ripe        how many of these may leave
 *   generation  how often it published
 *   due         1 if a publication is due, else 0 */
struct tuhvondi_counts {
    size_t prefixes;
    size_t changed;
    size_t held;
    size_t ripe;
    uint64_t generation;
    uint8_t due;
};

/* What a router knows of a prefix. */
struct tuhvondi_prefix_state {
    /* Its distance as it tells its neighbours, and its feasible distance. */
    uint32_t rd;
    uint32_t fd;
    /* The cost of its own attachment. If it has none: 0. */
    uint32_t attached;
    /* The row that it chose, and the one that it published. If there is none, the kind is TUHVONDI_NO_ROW. */
    struct tuhvondi_row chosen;
    struct tuhvondi_row published;
    /* 1 while a diffusing computation is under way, else 0. */
    uint8_t active;
    /* The port to which the computation owes a reply. If there is none: 255. */
    uint8_t owed;
    /* For each port: 1 if the computation awaits its reply, else 0. */
    uint8_t awaited[TUHVONDI_PORTS];
};

/* A handle, which holds a router or none. */
struct tuhvondi_router {
    void *router_;
    bool holds_;
};

TUHVONDI_ASSERT(sizeof(struct tuhvondi_router) == 16, "a handle takes 16 bytes");

/* What a handle begins with: it holds no router. */
#define TUHVONDI_NO_ROUTER {NULL, false}

/* Makes a router with these attachments and with a port for each of these costs, which is that of the port's
 * link from here, and puts it into the handle, freeing the one that the handle held. All links are down. Since
 * each coming up says the cost again, a daemon that knows its neighbours later makes all ports at cost 1.
 * The attachments are published, so a table begins with their rows, of kind TUHVONDI_LOCAL, and if a prefix
 * stands twice, its first cost counts. The router may know most_prefixes prefixes, among which one that it has
 * heard of counts until it is forgotten (tuhvondi_router_forget).
 * Refused, in this order: TUHVONDI_TOO_MANY_PORTS; TUHVONDI_BAD_COST of a port; of an attachment
 * TUHVONDI_BAD_LENGTH, TUHVONDI_HOST_BITS, TUHVONDI_BAD_COST; TUHVONDI_TOO_MANY_PREFIXES if there are more
 * attachments than most_prefixes; TUHVONDI_NO_MEMORY. */
uint32_t tuhvondi_router_new(const uint32_t *costs, size_t cost_count,
                             const struct tuhvondi_attachment *attachments, size_t attachment_count,
                             size_t most_prefixes, struct tuhvondi_router *router);

/* Tells the router that the link of the port came up, at this cost from here. The session is later than each
 * that the link had before, and the same at both ends.
 * Refused: TUHVONDI_BAD_COST, TUHVONDI_NO_ROUTER_HELD, TUHVONDI_UNKNOWN_PORT, TUHVONDI_ALREADY_UP,
 * TUHVONDI_OTHER_SESSION if the session is not later, TUHVONDI_NO_MEMORY. */
uint32_t tuhvondi_router_link_up(struct tuhvondi_router *router, uint8_t port, uint16_t session,
                                 uint32_t cost);

/* Tells the router that the link of the port went down, with all that was on its way.
 * Refused: TUHVONDI_NO_ROUTER_HELD, TUHVONDI_UNKNOWN_PORT, TUHVONDI_IS_DOWN, TUHVONDI_NO_MEMORY. */
uint32_t tuhvondi_router_link_down(struct tuhvondi_router *router, uint8_t port);

/* Tells the router that the cost from here of the port's link is now this. The link is up.
 * Refused: TUHVONDI_BAD_COST, and as tuhvondi_router_link_down. */
uint32_t tuhvondi_router_link_cost(struct tuhvondi_router *router, uint8_t port, uint32_t cost);

/* Tells the router that the message came to its port.
 * If the message is of another session than the port's, it is refused, and so discarded. After
 * TUHVONDI_NO_MEMORY you may tell the message again. If the router has heard of the prefix, and `held` of
 * tuhvondi_router_counts is 0, the call takes no memory.
 * Refused, in this order: TUHVONDI_BAD_LENGTH, TUHVONDI_HOST_BITS, TUHVONDI_BAD_KIND,
 * TUHVONDI_NO_ROUTER_HELD, TUHVONDI_UNKNOWN_PORT, TUHVONDI_IS_DOWN, TUHVONDI_OTHER_SESSION,
 * TUHVONDI_UNASKED, TUHVONDI_ASKED_TWICE, TUHVONDI_TOO_MANY_PREFIXES, TUHVONDI_NO_MEMORY. */
uint32_t tuhvondi_router_message(struct tuhvondi_router *router,
                                 const struct tuhvondi_message *message);

/* Tells the router that it is attached to the prefix at this cost from now on, or no longer.
 * Refused: TUHVONDI_BAD_LENGTH, TUHVONDI_HOST_BITS, TUHVONDI_BAD_COST, TUHVONDI_NO_ROUTER_HELD,
 * TUHVONDI_TOO_MANY_PREFIXES, TUHVONDI_NOT_ATTACHED if it was not attached, TUHVONDI_NO_MEMORY. */
uint32_t tuhvondi_router_attached(struct tuhvondi_router *router, uint32_t addr, uint8_t len,
                                  uint32_t cost);
uint32_t tuhvondi_router_detached(struct tuhvondi_router *router, uint32_t addr, uint8_t len);

/* Writes what the router has. Refused: TUHVONDI_NO_ROUTER_HELD. */
uint32_t tuhvondi_router_counts(struct tuhvondi_router *router, struct tuhvondi_counts *counts);

/* Publishes: writes the rows that come into force now, in the order of their prefixes. It also writes how
 * many they are, and how often the router has published. All that the router holds may then
 * leave. It takes no memory.
 * What is tricky: if there is no room for all rows, it writes the first row_count of them, and 1 to `more`.
 * Otherwise it writes 0 there. These rows are in force from now on, but the router has not published yet, so
 * no more messages may leave. Put the rows into your table, and publish again.
 * Refused, and then nothing is written: TUHVONDI_NO_ROUTER_HELD, TUHVONDI_BAD_COUNT if there are rows and
 * row_count is 0, TUHVONDI_NOTHING_DUE, TUHVONDI_GENERATIONS_SPENT. */
uint32_t tuhvondi_router_publish(struct tuhvondi_router *router, struct tuhvondi_row *rows,
                                 size_t row_count, size_t *written, uint8_t *more, uint64_t *generation);

/* Takes the oldest message that may leave. It is for the connection of its port and session alone. If that
 * connection has ended, drop the message. Refused: TUHVONDI_NO_ROUTER_HELD, TUHVONDI_NOTHING_RIPE. */
uint32_t tuhvondi_router_release(struct tuhvondi_router *router, struct tuhvondi_message *message);

/* Writes what the router knows of a prefix. Refused: TUHVONDI_BAD_LENGTH, TUHVONDI_HOST_BITS,
 * TUHVONDI_NO_ROUTER_HELD, TUHVONDI_UNKNOWN_PREFIX if it has not heard of it. */
uint32_t tuhvondi_router_state(struct tuhvondi_router *router, uint32_t addr, uint8_t len,
                               struct tuhvondi_prefix_state *state);

/* Writes the row that the router chose for each prefix that it has heard of, and how many rows they are.
 * They are in the order of the prefixes. It takes no memory.
 * Refused, and then nothing is written: TUHVONDI_NO_ROUTER_HELD, and TUHVONDI_BAD_COUNT if `prefixes` of
 * tuhvondi_router_counts is above row_count. */
uint32_t tuhvondi_router_rows(struct tuhvondi_router *router, struct tuhvondi_row *rows,
                              size_t row_count, size_t *written);

/* Forgets a prefix of which the router knows nothing any more. That is so if:
 *
 *   - the router is not attached to the prefix
 *   - no computation is under way
 *   - no neighbour whose link is up has reported a distance
 *   - the row of the prefix, of kind TUHVONDI_UNREACHABLE, is in force
 *
 * A prefix that nobody reaches any more keeps its row, which hides the rows of shorter prefixes. After this
 * call take that row out of your table (tuhvondi_image_remove). The row with the next shorter prefix then
 * answers the addresses that it answered. If a message tells of the prefix, the router knows it again.
 * Refused: TUHVONDI_BAD_LENGTH, TUHVONDI_HOST_BITS, TUHVONDI_NO_ROUTER_HELD, TUHVONDI_UNKNOWN_PREFIX,
 * TUHVONDI_STILL_USED. */
uint32_t tuhvondi_router_forget(struct tuhvondi_router *router, uint32_t addr, uint8_t len);

/* Frees the router, if there is one. The handle then holds none. */
void tuhvondi_router_free(struct tuhvondi_router *router);

#ifdef __cplusplus
}
#endif

#endif
