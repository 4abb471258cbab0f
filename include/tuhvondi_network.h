/* SPDX-License-Identifier: MIT OR Apache-2.0 */
/* A whole network of routers in one process, for C and C++ programs.
 *
 * A simulator wants to see what happens while a network changes: which packets are lost, how many messages it
 * takes, when it is over. Here is such a network, whose routers route by DUAL (Garcia-Luna-Aceves, Loop-Free
 * Routing Using Diffusing Computations, 1993), each forwarding by an image of the rows that it published.
 *
 * For example, these lines make two routers with a link and let them learn routes, without testing a status:
 *
 *   struct tuhvondi_link link = {.from_a = 5, .from_b = 5, .a = 0, .b = 1};
 *   struct tuhvondi_owner owner = {.addr = 0x0a000000, .cost = 1, .router = 0, .len = 8};
 *   struct tuhvondi_step up = {.subject = 0, .kind = TUHVONDI_LINK_UP};
 *   struct tuhvondi_network network = TUHVONDI_NO_NETWORK;
 *   struct tuhvondi_fault_place place;
 *   size_t done;
 *   tuhvondi_network_new(2, &link, 1, &owner, 1, &place, &network);
 *   tuhvondi_network_step(&network, &up);
 *   tuhvondi_network_settle(&network, 0, 1000, &done);
 *
 * Router 1 then has a row for 10.0.0.0/8 via its port 0. examples/c/network.c has more.
 *
 * Nothing happens but by steps. There are four ways to do them:
 *
 *   - You do the steps that you choose, one (tuhvondi_network_step) or many (tuhvondi_network_run).
 *   - You ask a router what it has to do next (tuhvondi_network_next_step), and do that when you like, as a
 *     simulator with a clock does to delay messages.
 *   - You let routers take turns until nothing is left to do (tuhvondi_network_settle).
 *   - You open the network with delays, and let simulated time go on (tuhvondi_network_run_until). Such a
 *     network does no step in another way: TUHVONDI_HAS_CLOCK.
 *
 * The functions are those of the static library `network_ffi`. It is proved what each answers, and what it
 * makes of the network. The proof holds for every call that keeps to the rules of "tuhvondi.h":
 *
 *   - A handle begins as TUHVONDI_NO_NETWORK. Give it to these functions alone, and to one call at a time,
 *     also to look something up. It may go to another thread.
 *   - No two arguments overlap.
 *
 * Whatever steps are done, and in whatever order, it is proved of the network (docs/theorem.md):
 *
 *   - An image answers each address by the longest match over the rows that its router published.
 *   - No packet meets a router twice along the images in force.
 *   - If nothing is left to do, rows lead at least cost, that of the attachment at the end included.
 *   - Once links, costs and attachments stay as they are, finitely many steps are left, in any order.
 *
 * A network takes no lock and starts no thread. It takes memory by its routers, links, rows and messages, but
 * not by its steps, so their number is limited by 2^64 - 1 alone. Calls that open or copy a network, do steps
 * or events, or give a change ask for memory, and no others do.
 *
 * Simulated time says how long a network takes to come to rest, and for how long packets are lost.
 * Messages are on their way for a time, and a router takes a time to publish its rows. What is due first is
 * done first, and the clock jumps from one event to the next: a discrete-event simulation. Since the clock
 * does not wait, an hour of the network takes what its events take. For example, the link above comes up after
 * a millisecond:
 *
 *   struct tuhvondi_limits limits = TUHVONDI_PROGRAM_LIMITS;
 *   struct tuhvondi_delays delays = {.to_a = 500, .to_b = 700};
 *   uint64_t publications[2] = {100, 100}, moment;
 *   tuhvondi_network_with_delays(&limits, 2, &link, 1, &owner, 1, &delays, 1, publications, 2, 0,
 *                                &place, &network);
 *   tuhvondi_network_at(&network, 1000, &up);
 *   tuhvondi_network_run_to_rest(&network, 1000, &done);
 *   tuhvondi_network_now(&network, &moment);
 *
 * The network is then at rest, since the moment 2900. examples/c/delays.c has more.
 *
 * A moment is a number of microseconds since the opening. What is left to do is due so:
 *
 *   - a change that you gave: at the moment that you gave with it
 *   - the release of a message, and the notice of a router's own attachment: at once
 *   - a publication: so long after the router had something to publish as its delay says
 *   - an item on a link: so long after it was put as the delay of its direction says
 *
 * A link that fails is noticed so, too: each end takes the notice after the delay of its direction, and not
 * after a time without a sign of life. So outages are those of a network that needs no timer to notice a
 * failure.
 *
 * Of one moment changes come first, in the order in which you gave them, and then routers by number. So what
 * happens is determined by what you give. Items of one direction of a link arrive in their order.
 *
 * A network in simulated time can keep a record of what goes on in it, if you open it so:
 *
 *   - its computations: from when until when the machine of a router for a prefix awaited replies
 *   - its outages: from when until when a router was cut off from a prefix, which means that links that were up
 *     led from it to a router that was attached to the prefix, although the published rows did not
 *
 * The record costs time with each event, and memory by the routers times the prefixes and by the spells that
 * ended, neither of which a network takes without it. It is proved that nothing is done before it is due, and
 * that nothing that is due is left out. A record is exact: a spell stands in it if and only if there was one, and
 * those that ended stand there once each, in the order in which they did (docs/network.md).
 */
#ifndef TUHVONDI_NETWORK_H
#define TUHVONDI_NETWORK_H

#include "tuhvondi.h"
#include "tuhvondi_router.h"

#ifdef __cplusplus
extern "C" {
#endif

/* Why a call on a network is refused. Other causes are in `tuhvondi_status`: TUHVONDI_BAD_LENGTH,
 * TUHVONDI_HOST_BITS, TUHVONDI_BAD_COST, TUHVONDI_BAD_KIND (a step's is above 7, or cannot be given),
 * TUHVONDI_BAD_COUNT, TUHVONDI_ALREADY_UP, TUHVONDI_IS_DOWN, TUHVONDI_NOTHING_DUE, TUHVONDI_NOTHING_RIPE,
 * TUHVONDI_NO_MEMORY, TUHVONDI_UNKNOWN_PREFIX, TUHVONDI_NOT_ATTACHED. */
enum tuhvondi_network_status {
    /* The handle is empty: it holds no network. */
    TUHVONDI_NO_NETWORK_HELD = 7,
    /* There is no router of this number. */
    TUHVONDI_UNKNOWN_ROUTER = 10,
    /* There is no link of this number, or the router has no port of this number. */
    TUHVONDI_UNKNOWN_LINK = 11,
    /* The link has come up 65535 times. */
    TUHVONDI_SESSIONS_SPENT = 15,
    /* Nothing is on its way to the port. */
    TUHVONDI_NOTHING_TO_DELIVER = 16,
    /* 2^64 - 1 steps were done. */
    TUHVONDI_STEPS_SPENT = 19,
    /* There is no router, or there are more than the limit. */
    TUHVONDI_BAD_ROUTERS = 24,
    /* An end of the link is no router, both ends are one router, or an earlier link joins the same two. */
    TUHVONDI_BAD_LINK = 25,
    /* It is past the limit of links, or of the links of one of its routers. */
    TUHVONDI_TOO_MANY_LINKS = 26,
    /* There is no such router, or an earlier attachment is of the same prefix and router. Or it is past the
     * limit of attachments, or its prefix is past the limit of prefixes. */
    TUHVONDI_BAD_OWNER = 27,
    /* A limit is above that of TUHVONDI_WIDEST_LIMITS. */
    TUHVONDI_BAD_LIMITS = 50,
    /* The moment of the change is before the present one. */
    TUHVONDI_PAST_MOMENT = 51,
    /* The next event is due at 2^64 - 1 microseconds, the last moment that the clock can show, or later. */
    TUHVONDI_TIME_SPENT = 52,
    /* The network keeps no record, nor does one without a clock. */
    TUHVONDI_NO_RECORD = 53,
    /* The network was opened with delays, so its steps are done by its clock. */
    TUHVONDI_HAS_CLOCK = 56,
    /* The network was opened without delays. */
    TUHVONDI_NO_CLOCK = 57
};

/* A status of a network in words, for messages: never null, and not to be freed. */
static inline const char *tuhvondi_network_status_text(uint32_t status)
{
    switch (status) {
    case TUHVONDI_BAD_KIND:
        return "a step's kind is above 7, or it is no change that can be given";
    case TUHVONDI_UNKNOWN_ROUTER:
        return "there is no such router";
    case TUHVONDI_UNKNOWN_LINK:
        return "there is no such link";
    case TUHVONDI_SESSIONS_SPENT:
        return "the link has come up as often as it can";
    case TUHVONDI_NOTHING_TO_DELIVER:
        return "nothing is on its way to the port";
    case TUHVONDI_STEPS_SPENT:
        return "as many steps were done as can be counted";
    case TUHVONDI_BAD_ROUTERS:
        return "a network has 1 router or more, and no more than its limit";
    case TUHVONDI_BAD_LINK:
        return "the link does not join two routers that no earlier link joins";
    case TUHVONDI_TOO_MANY_LINKS:
        return "the link is past the limit of links, or of those of a router";
    case TUHVONDI_BAD_OWNER:
        return "the attachment is of no router, was given before, or is one too many";
    case TUHVONDI_BAD_LIMITS:
        return "a limit is above the widest";
    case TUHVONDI_PAST_MOMENT:
        return "the moment of the change is past";
    case TUHVONDI_TIME_SPENT:
        return "the next event is due when the clock cannot go on";
    case TUHVONDI_NO_RECORD:
        return "the network keeps no record";
    case TUHVONDI_HAS_CLOCK:
        return "the network has a clock, by which its steps are done";
    case TUHVONDI_NO_CLOCK:
        return "the network has no clock";
    case TUHVONDI_UNKNOWN_PREFIX:
        return "the prefix is not known there";
    default:
        return tuhvondi_status_text(status);
    }
}

/* How large a network may be: the most routers, links, links of one router, prefixes (each counted once) and
 * attachments. A limit of 0 is allowed. No network is within a limit of no routers. */
struct tuhvondi_limits {
    size_t routers;
    size_t links;
    size_t ports;
    size_t prefixes;
    size_t attachments;
};

/* The limits of tuhvondi_network_new, which are those of the program. */
#define TUHVONDI_PROGRAM_LIMITS {256, 1024, 32, 4096, 16384}

/* The widest limits, within which all that is proved holds: routers and links have numbers of 16 bits. */
#define TUHVONDI_WIDEST_LIMITS {65536, 65536, 32, 4294967295u, 4294967295u}

/* A link: the cost from each of its two routers, 1 to 65535, and their numbers, from 0. A router's ports are
 * its ends of links, in the order of the links. */
struct tuhvondi_link {
    uint32_t from_a;
    uint32_t from_b;
    uint16_t a;
    uint16_t b;
};

TUHVONDI_ASSERT(sizeof(struct tuhvondi_link) == 12, "a link takes 12 bytes");

/* A router that is attached to a prefix, at a cost of 1 to 65535: packets for the prefix end there. */
struct tuhvondi_owner {
    uint32_t addr;
    uint32_t cost;
    uint16_t router;
    uint8_t len;
};

TUHVONDI_ASSERT(sizeof(struct tuhvondi_owner) == 12, "an attachment of a router takes 12 bytes");

/* Where the fault of a network stands: its position, from 0, in the list of links (`list` is 1) or of
 * attachments (2). If it stands in neither, both are 0. */
struct tuhvondi_fault_place {
    size_t position;
    uint8_t list;
};

/* What a step does. */
enum tuhvondi_step_kind {
    /* The link `subject` comes up, in its next session. */
    TUHVONDI_LINK_UP = 0,
    /* It goes down, and the messages on it are lost. */
    TUHVONDI_LINK_DOWN = 1,
    /* The cost from router `subject` of the link at its `port` becomes `cost`. */
    TUHVONDI_SET_COST = 2,
    /* Router `subject` takes the oldest item from its `port`. A router with n ports takes the notices of its
     * own attachments from port n. */
    TUHVONDI_DELIVER = 3,
    /* Router `subject` puts the rows that it has chosen in force, and what it holds may leave. */
    TUHVONDI_PUBLISH = 4,
    /* Router `subject` puts the oldest message that it holds on its link. */
    TUHVONDI_RELEASE = 5,
    /* Router `subject` is attached to the prefix `addr` and `len` at this `cost`. */
    TUHVONDI_ATTACH = 6,
    /* It is attached to the prefix no more. */
    TUHVONDI_DETACH = 7,
    /* In answers only: there is nothing to do. */
    TUHVONDI_NO_STEP = 255
};

/* A step. Fields that its kind does not need are not read, and are 0 in answers. */
struct tuhvondi_step {
    uint32_t addr;
    uint32_t cost;
    uint16_t subject;
    uint8_t kind;
    uint8_t port;
    uint8_t len;
};

TUHVONDI_ASSERT(sizeof(struct tuhvondi_step) == 16, "a step takes 16 bytes");
TUHVONDI_ASSERT(offsetof(struct tuhvondi_step, len) == 12, "a step's length stands at byte 12");

/* Why a packet goes no further. */
enum tuhvondi_end {
    /* It has arrived: the last router is attached to the prefix of its row. */
    TUHVONDI_DELIVERED = 0,
    /* No row of the last router covers the address. */
    TUHVONDI_NO_ROUTE = 1,
    /* The last router's row says unreachable. */
    TUHVONDI_NO_WAY = 2,
    /* The link of the row is down, or up in another session than the row's. */
    TUHVONDI_DEAD_LINK = 3,
    /* There is no room for more routers. */
    TUHVONDI_NOT_ENDED = 255
};

/* How many steps were done since the opening, and how many messages of each kind they put on links. If the
 * session of a message is over when it is released, it is dropped, and not counted. */
struct tuhvondi_network_counts {
    uint64_t steps;
    uint64_t updates;
    uint64_t queries;
    uint64_t replies;
};

/* What a router keeps of the neighbour at a port:
 *   reported  the distance that the neighbour reported last for the prefix; it counts while the link is up
 *   cost      the cost of the link from here
 *   up        1 if the link is up, else 0
 * If the router has no such port, all are 0. */
struct tuhvondi_neighbour {
    uint32_t reported;
    uint32_t cost;
    uint8_t up;
};

/* What a router has of a prefix. */
struct tuhvondi_machine {
    struct tuhvondi_prefix_state state;
    struct tuhvondi_neighbour neighbours[TUHVONDI_PORTS];
    /* The port of its successor. For its own attachment: how many ports it has. For none: 255. */
    uint8_t successor;
};

/* What a link is now:
 *   to_a, to_b      how many items each of its routers has yet to take
 *   from_a, from_b  the cost from each
 *   a, b            their numbers
 *   session         how often the link came up
 *   up              1 if it is up, else 0 */
struct tuhvondi_link_state {
    size_t to_a;
    size_t to_b;
    uint32_t from_a;
    uint32_t from_b;
    uint16_t a;
    uint16_t b;
    uint16_t session;
    uint8_t up;
};

/* What an item is, if it is no message (TUHVONDI_UPDATE, TUHVONDI_QUERY, TUHVONDI_REPLY). */
enum tuhvondi_item_kind {
    /* The link came up in this session. `value` is the cost from the router that takes the item. */
    TUHVONDI_CAME_UP = 3,
    /* The link of this session went down. */
    TUHVONDI_WENT_DOWN = 4,
    /* In this session the cost from the router that takes the item became `value`. */
    TUHVONDI_NEW_COST = 5
};

/* An item on its way over a link. Of a message, `addr` and `len` are the prefix, and `value` is the sender's
 * distance. Fields that its kind does not need are 0. */
struct tuhvondi_item {
    uint32_t addr;
    uint32_t value;
    uint16_t session;
    uint8_t kind;
    uint8_t len;
};

TUHVONDI_ASSERT(sizeof(struct tuhvondi_item) == 12, "an item takes 12 bytes");

/* The kind of a message that is not there. */
#define TUHVONDI_NO_MESSAGE 255

/* What a router holds back:
 *   held        how many messages
 *   ripe        how many of these may leave
 *   notices     how many notices of its own attachments it has yet to take
 *   generation  how often it has published
 *   front       the message that leaves next
 *   due         1 if the router has something to publish, else 0
 * If no message may leave, the kind of `front` is TUHVONDI_NO_MESSAGE, and its other fields are 0. */
struct tuhvondi_gate {
    size_t held;
    size_t ripe;
    size_t notices;
    uint64_t generation;
    struct tuhvondi_message front;
    uint8_t due;
};

/* A notice that a router is attached to a prefix at this cost, or no more if the cost is 0. */
struct tuhvondi_notice {
    uint32_t addr;
    uint32_t cost;
    uint8_t len;
};

TUHVONDI_ASSERT(sizeof(struct tuhvondi_notice) == 12, "a notice takes 12 bytes");

/* How long an item is on its way over a link, in microseconds, towards the router `a` of the link and towards
 * its router `b`. */
struct tuhvondi_delays {
    uint64_t to_a;
    uint64_t to_b;
};

TUHVONDI_ASSERT(sizeof(struct tuhvondi_delays) == 16, "the delays of a link take 16 bytes");

/* A step at a moment, and 1 if it is a change that you gave, else 0. If there is none, the step's kind is
 * TUHVONDI_NO_STEP, and the other fields are 0. */
struct tuhvondi_event {
    uint64_t moment;
    struct tuhvondi_step step;
    uint8_t given;
};

TUHVONDI_ASSERT(sizeof(struct tuhvondi_event) == 32, "an event takes 32 bytes");
TUHVONDI_ASSERT(offsetof(struct tuhvondi_event, given) == 24, "whether an event is given stands at byte 24");

/* From when until when something was so at a router, for a prefix. If it goes on, `to` is UINT64_MAX, when
 * nothing is done any more. */
struct tuhvondi_spell {
    uint64_t from;
    uint64_t to;
    uint32_t addr;
    uint16_t router;
    uint8_t len;
};

TUHVONDI_ASSERT(sizeof(struct tuhvondi_spell) == 24, "a spell takes 24 bytes");
TUHVONDI_ASSERT(offsetof(struct tuhvondi_spell, len) == 22, "the length of a spell's prefix stands at byte 22");

/* A handle, which holds a network or none. */
struct tuhvondi_network {
    void *network_;
    bool holds_;
};

TUHVONDI_ASSERT(sizeof(struct tuhvondi_network) == 16, "a handle takes 16 bytes");

/* What a handle begins with: it holds no network. */
#define TUHVONDI_NO_NETWORK {NULL, false}

/* Opens a network of so many routers, with these links and attachments. Puts it into the handle, and frees
 * the network that the handle held. All links are down. The attachments are published, so each router has a
 * row of kind TUHVONDI_LOCAL for each of its own. No other prefix can be attached later. The limits are
 * TUHVONDI_PROGRAM_LIMITS.
 * Refused, in this order, and then `place` says where:
 *   - TUHVONDI_BAD_COST of the first link that has it
 *   - TUHVONDI_BAD_LENGTH, TUHVONDI_HOST_BITS or TUHVONDI_BAD_COST of the first attachment that has one
 *   - TUHVONDI_NO_MEMORY, or else the first of these: TUHVONDI_BAD_ROUTERS; TUHVONDI_BAD_LINK or
 *     TUHVONDI_TOO_MANY_LINKS, link by link; TUHVONDI_BAD_OWNER */
uint32_t tuhvondi_network_new(uint16_t routers, const struct tuhvondi_link *links, size_t link_count,
                              const struct tuhvondi_owner *owners, size_t owner_count,
                              struct tuhvondi_fault_place *place, struct tuhvondi_network *network);

/* Opens a network as tuhvondi_network_new does, but within these limits, and with up to 65536 routers. Its time
 * is that of sorting the lists. For example, 65536 routers in a line take 130 MB, and 230 MB once each has a row.
 * Refused first if a limit is above the widest: TUHVONDI_BAD_LIMITS, in no list. Then it is refused as
 * tuhvondi_network_new is. */
uint32_t tuhvondi_network_within(const struct tuhvondi_limits *limits, size_t routers,
                                 const struct tuhvondi_link *links, size_t link_count,
                                 const struct tuhvondi_owner *owners, size_t owner_count,
                                 struct tuhvondi_fault_place *place, struct tuhvondi_network *network);

/* Has `other` hold a network of its own that is equal to that of `network`, and frees the network that `other`
 * held. All that can be asked of the two has the same answers, and so have the same steps, turns and events.
 * What becomes of one leaves the other as it is. Its time and memory grow with what is in the network and in its
 * record, and not with the steps that were done.
 * Refused: TUHVONDI_NO_NETWORK_HELD, TUHVONDI_NO_MEMORY. */
uint32_t tuhvondi_network_copy(struct tuhvondi_network *network, struct tuhvondi_network *other);

/* Does a step.
 * Refused, in this order: TUHVONDI_BAD_LENGTH, TUHVONDI_HOST_BITS, TUHVONDI_BAD_COST, TUHVONDI_BAD_KIND,
 * TUHVONDI_NO_NETWORK_HELD, TUHVONDI_HAS_CLOCK, TUHVONDI_STEPS_SPENT. Then come those of these that the kind
 * of step can meet: TUHVONDI_UNKNOWN_ROUTER, TUHVONDI_UNKNOWN_LINK, TUHVONDI_UNKNOWN_PREFIX if no router was
 * attached to the prefix at the opening, TUHVONDI_ALREADY_UP, TUHVONDI_IS_DOWN, TUHVONDI_SESSIONS_SPENT,
 * TUHVONDI_NOTHING_TO_DELIVER, TUHVONDI_NOTHING_DUE, TUHVONDI_NOTHING_RIPE, TUHVONDI_NOT_ATTACHED.
 * The last is TUHVONDI_NO_MEMORY. With it no link is refused that goes down, no release of a message whose link
 * has left its session, and no delivery for which the router has room. */
uint32_t tuhvondi_network_step(struct tuhvondi_network *network, const struct tuhvondi_step *step);

/* Does steps in their order, up to the first that is refused, and writes how many were done. It answers why
 * that step is refused, as tuhvondi_network_step does, or TUHVONDI_DONE if all were done.
 * If the handle is empty, nothing is written: TUHVONDI_NO_NETWORK_HELD. If the network has a clock, no step is
 * done: TUHVONDI_HAS_CLOCK. */
uint32_t tuhvondi_network_run(struct tuhvondi_network *network, const struct tuhvondi_step *steps,
                              size_t step_count, size_t *done);

/* Writes what a router has to do next: a release; if it has none, a publication; else a delivery from the
 * lowest port that has an item. If there is nothing to do, the kind is TUHVONDI_NO_STEP. With a clock that
 * step may not be due yet (tuhvondi_network_next_event).
 * Refused, and then nothing is written: TUHVONDI_NO_NETWORK_HELD, TUHVONDI_UNKNOWN_ROUTER. */
uint32_t tuhvondi_network_next_step(struct tuhvondi_network *network, uint16_t router,
                                    struct tuhvondi_step *step);

/* Lets routers do what they have to do next, at most so many steps, until nothing is left to do. Writes how
 * many were done. With seed 0 they take turns in the order of their numbers, again and again, and else in a
 * pseudo-random order that the seed determines.
 * Stopped by TUHVONDI_STEPS_SPENT or TUHVONDI_NO_MEMORY, it keeps the steps that were done. If the handle is
 * empty, nothing is written: TUHVONDI_NO_NETWORK_HELD. If the network has a clock, no step is done:
 * TUHVONDI_HAS_CLOCK. */
uint32_t tuhvondi_network_settle(struct tuhvondi_network *network, uint64_t seed, size_t most,
                                 size_t *done);

/* Writes 1 if routers have nothing left to do, else 0. It does not go through the network, and changes that wait
 * for their moment do not count (tuhvondi_network_is_at_rest).
 * Refused, and then nothing is written: TUHVONDI_NO_NETWORK_HELD. */
uint32_t tuhvondi_network_is_settled(struct tuhvondi_network *network, uint8_t *settled);

/* Writes into answers[i] the row with the longest prefix that covers addrs[i], of the image in force at the
 * router. If no row does, its kind is TUHVONDI_NO_ROW.
 * Refused, in this order, and then nothing is written: TUHVONDI_NO_NETWORK_HELD, TUHVONDI_UNKNOWN_ROUTER,
 * TUHVONDI_BAD_COUNT if the two numbers differ. */
uint32_t tuhvondi_network_lookup(struct tuhvondi_network *network, uint16_t router,
                                 const uint32_t *addrs, size_t addr_count,
                                 struct tuhvondi_row *answers, size_t answer_count);

/* Follows a packet for an address from a router on, along the images in force. Writes the routers that it
 * passes, as many as there is room for, and how many these are. Also writes why it goes no further than the
 * last (enum tuhvondi_end). No router is written twice. If there is room for all routers, the packet is
 * followed to its end. It takes no simulated time.
 * Refused, and then nothing is written: TUHVONDI_NO_NETWORK_HELD, TUHVONDI_UNKNOWN_ROUTER. */
uint32_t tuhvondi_network_trace(struct tuhvondi_network *network, uint16_t router, uint32_t addr,
                                uint16_t *hops, size_t hop_count, size_t *count, uint8_t *end);

/* Writes the rows that a router has in force, in the order of their prefixes, as many as there is room for.
 * Writes how many these are, and 1 to `more` if there are more, else 0.
 * Refused, and then nothing is written: TUHVONDI_NO_NETWORK_HELD, TUHVONDI_UNKNOWN_ROUTER. */
uint32_t tuhvondi_network_rows(struct tuhvondi_network *network, uint16_t router,
                               struct tuhvondi_row *rows, size_t row_count, size_t *written,
                               uint8_t *more);

/* Writes what a router has of a prefix.
 * Refused, and then nothing is written: TUHVONDI_BAD_LENGTH, TUHVONDI_HOST_BITS, TUHVONDI_NO_NETWORK_HELD,
 * TUHVONDI_UNKNOWN_ROUTER, TUHVONDI_UNKNOWN_PREFIX if the router has not heard of the prefix. */
uint32_t tuhvondi_network_machine(struct tuhvondi_network *network, uint16_t router, uint32_t addr,
                                  uint8_t len, struct tuhvondi_machine *machine);

/* Writes what a link is now.
 * Refused, and then nothing is written: TUHVONDI_NO_NETWORK_HELD, TUHVONDI_UNKNOWN_LINK. */
uint32_t tuhvondi_network_link(struct tuhvondi_network *network, uint16_t link,
                               struct tuhvondi_link_state *state);

/* Writes the items that a router has yet to take from its port, oldest first, as many as there is room for.
 * Writes how many these are, and 1 to `more` if there are more, else 0.
 * Refused, and then nothing is written: TUHVONDI_NO_NETWORK_HELD, TUHVONDI_UNKNOWN_ROUTER,
 * TUHVONDI_UNKNOWN_LINK if the router has no such port. */
uint32_t tuhvondi_network_queue(struct tuhvondi_network *network, uint16_t router, uint8_t port,
                                struct tuhvondi_item *items, size_t item_count, size_t *written,
                                uint8_t *more);

/* Writes what a router holds back.
 * Refused, and then nothing is written: TUHVONDI_NO_NETWORK_HELD, TUHVONDI_UNKNOWN_ROUTER. */
uint32_t tuhvondi_network_gate(struct tuhvondi_network *network, uint16_t router,
                               struct tuhvondi_gate *gate);

/* Writes the messages that a router holds back, oldest first, as many as there is room for. The first of them
 * may leave: tuhvondi_network_gate says how many (`ripe`). Writes how many were written, and 1 to `more` if
 * there are more, else 0.
 * Refused, and then nothing is written: TUHVONDI_NO_NETWORK_HELD, TUHVONDI_UNKNOWN_ROUTER. */
uint32_t tuhvondi_network_held(struct tuhvondi_network *network, uint16_t router,
                               struct tuhvondi_message *messages, size_t message_count,
                               size_t *written, uint8_t *more);

/* Writes the notices of its own attachments that a router has yet to take, oldest first, as many as there is
 * room for. Writes how many these are, and 1 to `more` if there are more, else 0.
 * Refused, and then nothing is written: TUHVONDI_NO_NETWORK_HELD, TUHVONDI_UNKNOWN_ROUTER. */
uint32_t tuhvondi_network_notices(struct tuhvondi_network *network, uint16_t router,
                                  struct tuhvondi_notice *notices, size_t notice_count,
                                  size_t *written, uint8_t *more);

/* Writes how many steps were done, and how many messages of each kind they put on links.
 * Refused, and then nothing is written: TUHVONDI_NO_NETWORK_HELD. */
uint32_t tuhvondi_network_counts(struct tuhvondi_network *network,
                                 struct tuhvondi_network_counts *counts);

/* ---- simulated time */

/* Opens a network as tuhvondi_network_within does, at moment 0. `delays` has the delays of each link, and
 * `publications` for each router how long it takes to publish, in microseconds. It keeps a record from then on,
 * unless `keeps_record` is 0.
 * Refused first if there are not as many delays as links, or publications as routers: TUHVONDI_BAD_COUNT, in no
 * list. Then it is refused as tuhvondi_network_within is. */
uint32_t tuhvondi_network_with_delays(const struct tuhvondi_limits *limits, size_t routers,
                                      const struct tuhvondi_link *links, size_t link_count,
                                      const struct tuhvondi_owner *owners, size_t owner_count,
                                      const struct tuhvondi_delays *delays, size_t delay_count,
                                      const uint64_t *publications, size_t publication_count,
                                      uint8_t keeps_record,
                                      struct tuhvondi_fault_place *place, struct tuhvondi_network *network);

/* Gives a change that is to be done at a moment, after those that you gave before for the same one. It is a step
 * of a link, a cost or an attachment. Whether it can be done shows when its moment comes.
 * Refused, in this order: TUHVONDI_BAD_LENGTH, TUHVONDI_HOST_BITS, TUHVONDI_BAD_COST, TUHVONDI_BAD_KIND (also of
 * a delivery, a publication and a release, which routers do), TUHVONDI_NO_NETWORK_HELD, TUHVONDI_NO_CLOCK,
 * TUHVONDI_PAST_MOMENT, TUHVONDI_NO_MEMORY. */
uint32_t tuhvondi_network_at(struct tuhvondi_network *network, uint64_t moment,
                             const struct tuhvondi_step *change);

/* Takes the first of the changes that are to be done off the list, and writes it. So you go on if a run has
 * stopped at a change that is refused. If there is none, the step's kind is TUHVONDI_NO_STEP.
 * Refused, and then nothing is written: TUHVONDI_NO_NETWORK_HELD, TUHVONDI_NO_CLOCK. */
uint32_t tuhvondi_network_withdraw(struct tuhvondi_network *network, struct tuhvondi_event *change);

/* Does what is due up to a moment, that included: at most so many events, until nothing is left to do up to
 * then. Writes how many were done. The clock then shows the moment of the last of them.
 * Stopped by TUHVONDI_TIME_SPENT, or by why the next step is refused (tuhvondi_network_step), it keeps the
 * events that were done. A change that is refused stays the next one. A step of a router is refused for no other
 * cause than TUHVONDI_STEPS_SPENT and TUHVONDI_NO_MEMORY.
 * If the handle is empty, nothing is written: TUHVONDI_NO_NETWORK_HELD. If the network has no clock, nothing is
 * done: TUHVONDI_NO_CLOCK. */
uint32_t tuhvondi_network_run_until(struct tuhvondi_network *network, uint64_t moment, size_t most,
                                    size_t *done);

/* Does all that is left to do, as tuhvondi_network_run_until does, until the network is at rest. The clock then
 * shows since when. */
uint32_t tuhvondi_network_run_to_rest(struct tuhvondi_network *network, size_t most, size_t *done);

/* Writes the moment of the last event, in microseconds since the opening.
 * Refused, and then nothing is written: TUHVONDI_NO_NETWORK_HELD, TUHVONDI_NO_CLOCK. */
uint32_t tuhvondi_network_now(struct tuhvondi_network *network, uint64_t *moment);

/* Writes what is done next, and when. If nothing is left to do, the step's kind is TUHVONDI_NO_STEP.
 * Refused, and then nothing is written: TUHVONDI_NO_NETWORK_HELD, TUHVONDI_NO_CLOCK. */
uint32_t tuhvondi_network_next_event(struct tuhvondi_network *network, struct tuhvondi_event *event);

/* Writes 1 if nothing is left to do, else 0: each change that you gave is done, and the network is settled.
 * Refused, and then nothing is written: TUHVONDI_NO_NETWORK_HELD, TUHVONDI_NO_CLOCK. */
uint32_t tuhvondi_network_is_at_rest(struct tuhvondi_network *network, uint8_t *rests);

/* Writes the computations that ended, in the order in which they did. The first that is written stands at the
 * place `from` of that list, counted from 0. Writes as many as there is room for, how many these are, and 1 if
 * there are more, else 0. The list only grows, so you read it on from where you were.
 * Refused, and then nothing is written, in this order: TUHVONDI_NO_NETWORK_HELD, TUHVONDI_NO_RECORD. */
uint32_t tuhvondi_network_computations(struct tuhvondi_network *network, size_t from,
                                       struct tuhvondi_spell *spells, size_t spell_count,
                                       size_t *written, uint8_t *more);

/* Writes the computations that go on now, by prefixes and then by routers: as many as there is room for, how
 * many these are, and 1 if there are more, else 0.
 * Refused as tuhvondi_network_computations is. */
uint32_t tuhvondi_network_computing(struct tuhvondi_network *network, struct tuhvondi_spell *spells,
                                    size_t spell_count, size_t *written, uint8_t *more);

/* As tuhvondi_network_computations, of the outages that ended. */
uint32_t tuhvondi_network_outages(struct tuhvondi_network *network, size_t from,
                                  struct tuhvondi_spell *spells, size_t spell_count,
                                  size_t *written, uint8_t *more);

/* As tuhvondi_network_computing, of the outages that go on. At rest there are none. */
uint32_t tuhvondi_network_cut_off(struct tuhvondi_network *network, struct tuhvondi_spell *spells,
                                  size_t spell_count, size_t *written, uint8_t *more);

/* Frees the network, if there is one. The handle then holds none. */
void tuhvondi_network_free(struct tuhvondi_network *network);

#ifdef __cplusplus
}
#endif

#endif
