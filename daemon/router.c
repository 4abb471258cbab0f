/* Calls of the library: what the router is told, what it publishes, and what it releases. */
#include "daemon.h"

#include <stdlib.h>
#include <string.h>

bool router_open(struct daemon *daemon)
{
    static const struct tuhvondi_attachment none;
    struct router *router = &daemon->router;
    uint32_t costs[TUHVONDI_PORTS];
    /* All ports that there may be: a port has its cost when its link comes up. */
    for (size_t i = 0; i < TUHVONDI_PORTS; i++)
        costs[i] = 1;
    router->most_known = daemon->config.prefixes + TUHVONDI_PORTS * SHARE + OWN_PREFIXES;
    router->known = calloc(router->most_known + PART, sizeof *router->known);
    router->forgets = calloc(router->most_known + PART, sizeof *router->forgets);
    if (!router->known || !router->forgets || !prefixes_open(&daemon->prefixes, router->most_known)
        || tuhvondi_router_new(costs, TUHVONDI_PORTS, &none, 0, router->most_known, &router->machine)
        || tuhvondi_image_new(router->rows, 0, &router->image)
        || tuhvondi_image_share(&router->image, &router->reader)) {
        say(LOG_ERR, "no memory for a router");
        return false;
    }
    return true;
}

void router_close(struct daemon *daemon)
{
    tuhvondi_image_free(&daemon->router.reader);
    tuhvondi_image_free(&daemon->router.image);
    tuhvondi_router_free(&daemon->router.machine);
    prefixes_close(&daemon->prefixes);
    free(daemon->router.known);
    free(daemon->router.forgets);
    daemon->router.known = NULL;
    daemon->router.forgets = NULL;
}

/* ---- computations */

enum {
    LOOK_MS = 1000,   /* between looks at computations that take long */
    EXCUSES = 8,      /* looks at which a neighbour may say that it waits for others */
    LATE_LINES = 5,   /* at a look */
    MOST_COST = 65535,
    FORGETTING_MS = 20, /* at a turn */
    MUCH = 8192,        /* bytes for a neighbour, which leave at once */
};

/* A question has left. It tells that a computation is under way, and whose reply it awaits, so the router need not be asked for
 * that with each message. One may begin in the moment in which another ends: its clock begins with its own first question. All
 * neighbours are asked one after another, so what is noted of the prefix was mostly found for the question before (`last`). */
static struct noted *note_asked(struct daemon *daemon, const struct tuhvondi_message *query, struct noted *last)
{
    bool is_same = last && last->addr == query->addr && last->len == query->len;
    struct noted *noted = is_same ? last : prefixes_add(&daemon->prefixes, query->addr, query->len);
    if (!noted)
        return NULL;
    if (!noted->awaited) {
        daemon->router.computations++;
        daemon->router.active++;
        noted->active_since = now_ms();
        noted->judged_at = noted->active_since + daemon->config.active_ms;
        noted->excused = 0;
        noted->excuses = 0;
        noted->told = false;
    }
    noted->awaited |= (uint32_t)1 << query->port;
    return noted;
}

/* Of these ports no reply is awaited any more. */
static void note_answered(struct daemon *daemon, struct noted *noted, uint32_t ports)
{
    if (!(noted->awaited & ports))
        return;
    noted->awaited &= ~ports;
    if (noted->awaited)
        return;
    int64_t took = now_ms() - noted->active_since;
    if (took > daemon->router.longest_ms)
        daemon->router.longest_ms = took;
    noted->active_since = 0;
    daemon->router.active--;
}

void router_excuse(struct daemon *daemon, const struct peer *peer, const struct frame *frame)
{
    struct noted *noted = prefixes_find(&daemon->prefixes, frame->addr, frame->len);
    if (noted && noted->active_since)
        noted->excused |= (uint32_t)1 << port_of(daemon, peer);
}

/* Whoever asked is told that this router waits itself, if he understands that. Its session may end by that. */
static void excuse_to(struct daemon *daemon, const struct noted *noted, uint8_t owed)
{
    struct peer *peer = owed < port_count(daemon) ? &daemon->peers[owed] : NULL;
    if (peer && peer->state == PEER_UP && peer->greeting.version > FIRST_VERSION)
        peer_put(daemon, peer, &(struct frame){.type = FRAME_WAIT, .number = peer->last, .addr = noted->addr,
                                               .len = noted->len});
}

static void tell_late(const struct daemon *daemon, const struct noted *noted, uint32_t awaited, int64_t now)
{
    char text[PREFIX_TEXT];
    for (size_t i = 0; i < port_count(daemon); i++)
        if (awaited >> i & 1)
            say(LOG_WARNING, "%s: active for %lld ms: awaits %s", prefix_text(noted->addr, noted->len, text),
                (long long)(now - noted->active_since), daemon->peers[i].name);
}

/* A look at one computation: the ports whose sessions are to end. */
static uint32_t look_at(struct daemon *daemon, struct noted *noted, int64_t now, unsigned *lines)
{
    const struct config *config = &daemon->config;
    struct tuhvondi_prefix_state state;
    uint32_t late = 0;
    int64_t age = now - noted->active_since;
    if (!noted->told && age > (int64_t)config->dead_ms && *lines < LATE_LINES) {
        noted->told = true;
        ++*lines;
        tell_late(daemon, noted, noted->awaited, now);
    }
    if (now >= noted->judged_at) {
        noted->excuses += noted->excuses < EXCUSES;
        late = noted->awaited & ~(noted->excuses == EXCUSES ? 0 : noted->excused);
        noted->judged_at = now + config->active_ms;
        noted->excused = 0;
    }
    if (tuhvondi_router_state(&daemon->router.machine, noted->addr, noted->len, &state) == TUHVONDI_DONE)
        excuse_to(daemon, noted, state.owed);
    return late;
}

/* One router that does not reply would have others wait for ever. To end its session is lawful at any moment, and is the
 * reply. */
void router_tick(struct daemon *daemon, int64_t now)
{
    uint32_t late = 0;
    unsigned lines = 0;
    int64_t next = now + (LOOK_MS < daemon->config.active_ms / 4 ? LOOK_MS : daemon->config.active_ms / 4);
    if (daemon->router.active == 0)
        daemon->router.next_look = next;
    if (daemon->blocked || now < daemon->router.next_look)
        return;
    daemon->router.next_look = next;
    for (size_t i = 0; i < daemon->prefixes.size; i++) {
        if (!daemon->prefixes.slots[i].active_since)
            continue;
        late |= look_at(daemon, &daemon->prefixes.slots[i], now, &lines);
        sessions_keep_alive(daemon);
    }
    for (size_t port = 0; port < port_count(daemon); port++)
        if (late >> port & 1 && daemon->peers[port].state == PEER_UP) {
            daemon->router.late++;
            peer_hang_up(daemon, &daemon->peers[port], BY_DEBT, "it owes a reply for too long");
        }
}

int64_t router_oldest(struct daemon *daemon, int64_t now, size_t awaited[TUHVONDI_PORTS])
{
    int64_t oldest = 0;
    for (size_t i = 0; i < daemon->prefixes.size && daemon->router.active > 0; i++) {
        const struct noted *noted = &daemon->prefixes.slots[i];
        if (!noted->active_since)
            continue;
        oldest = now - noted->active_since > oldest ? now - noted->active_since : oldest;
        for (size_t port = 0; port < TUHVONDI_PORTS; port++)
            awaited[port] += noted->awaited >> port & 1;
    }
    return oldest;
}

/* ---- what the router is told */

/* A router that drains, or is a stub, has the greatest cost on each link, so that packets go round it (as in RFC 6987). */
static uint32_t cost_now(const struct daemon *daemon, uint32_t cost)
{
    return daemon->drains || daemon->config.stub ? MOST_COST : cost;
}

uint32_t router_link_up(struct daemon *daemon, struct peer *peer)
{
    return tuhvondi_router_link_up(&daemon->router.machine, port_of(daemon, peer), peer->last,
                                   cost_now(daemon, peer->config.cost));
}

/* What the neighbour told is void with its session. */
uint32_t router_link_down(struct daemon *daemon, struct peer *peer)
{
    uint32_t bit = (uint32_t)1 << port_of(daemon, peer);
    uint32_t status = tuhvondi_router_link_down(&daemon->router.machine, port_of(daemon, peer));
    if (status == TUHVONDI_NO_MEMORY)
        return status;
    for (size_t i = 0; i < daemon->prefixes.size; i++) {
        daemon->prefixes.slots[i].reported &= ~bit;
        note_answered(daemon, &daemon->prefixes.slots[i], bit);
    }
    peer->reported = 0;
    prefixes_tidy(&daemon->prefixes);
    return status;
}

uint32_t router_cost(struct daemon *daemon, struct peer *peer, uint32_t cost)
{
    uint32_t status = TUHVONDI_DONE;
    if (peer->state == PEER_UP)
        status = tuhvondi_router_link_cost(&daemon->router.machine, port_of(daemon, peer),
                                           cost_now(daemon, cost));
    if (status == TUHVONDI_DONE)
        peer->config.cost = cost;
    return status;
}

uint32_t router_costs(struct daemon *daemon)
{
    uint32_t status = TUHVONDI_DONE;
    for (struct peer *peer = daemon->peers; peer < peers_end(daemon); peer++)
        if (peer->used && status == TUHVONDI_DONE)
            status = router_cost(daemon, peer, peer->config.cost);
    return status;
}

uint32_t router_attach(struct daemon *daemon, const struct tuhvondi_attachment *attachment)
{
    return tuhvondi_router_attached(&daemon->router.machine, attachment->addr, attachment->len, attachment->cost);
}

uint32_t router_detach(struct daemon *daemon, uint32_t addr, uint8_t len)
{
    return tuhvondi_router_detached(&daemon->router.machine, addr, len);
}

static bool is_known(struct daemon *daemon, uint32_t addr, uint8_t len)
{
    struct tuhvondi_prefix_state state;
    return tuhvondi_router_state(&daemon->router.machine, addr, len, &state) == TUHVONDI_DONE;
}

/* One line each time that it goes above the number of the configuration. */
static void warn_of_many(const struct peer *peer, uint32_t reported)
{
    if (peer->config.warn_prefixes && reported == peer->config.warn_prefixes + 1)
        say(LOG_WARNING, "%s: it tells of more than %u prefixes", peer->name, (unsigned)peer->config.warn_prefixes);
}

/* Notes of a message that was taken whether the neighbour tells a finite distance, that it has answered, and that it had the
 * router know the prefix. */
static void note_taken(struct daemon *daemon, struct peer *peer, struct noted *noted, const struct tuhvondi_message *message,
                       bool known)
{
    uint32_t bit = (uint32_t)1 << message->port;
    bool told = message->value != TUHVONDI_INFINITY;
    if (!noted && (told || !known))
        noted = prefixes_add(&daemon->prefixes, message->addr, message->len);
    if (!noted)
        return;
    if (!known && !noted->brought) {
        noted->brought = (uint8_t)(message->port + 1);
        daemon->router.brought[message->port]++;
    }
    if (message->kind == TUHVONDI_REPLY)
        note_answered(daemon, noted, bit);
    if (told && !(noted->reported & bit))
        warn_of_many(peer, ++peer->reported);
    if (!told && (noted->reported & bit))
        peer->reported--;
    noted->reported = told ? noted->reported | bit : noted->reported & ~bit;
    prefixes_let_go(&daemon->prefixes, noted);
}

static size_t above(size_t count, size_t share)
{
    return count > share ? count - share : 0;
}

/* Whether the router may come to know one prefix more by this neighbour, or (NULL) by what the host has. Each has a share, so
 * that one which tells too many leaves room for others, and for attachments, and these leave room for neighbours. */
static bool has_room(struct daemon *daemon, const struct peer *peer)
{
    const size_t *brought = daemon->router.brought;
    struct tuhvondi_counts counts = {0};
    size_t common = 0, own;
    tuhvondi_router_counts(&daemon->router.machine, &counts);
    own = counts.prefixes;
    for (size_t i = 0; i < TUHVONDI_PORTS; i++) {
        common += above(brought[i], SHARE);
        own -= brought[i];
    }
    bool has_share = peer ? brought[port_of(daemon, peer)] < SHARE : own < OWN_PREFIXES;
    return has_share || common + above(own, OWN_PREFIXES) < daemon->config.prefixes;
}

uint32_t router_attach_found(struct daemon *daemon, const struct tuhvondi_attachment *attachment)
{
    bool fits = is_known(daemon, attachment->addr, attachment->len) || has_room(daemon, NULL);
    return fits ? router_attach(daemon, attachment) : TUHVONDI_TOO_MANY_PREFIXES;
}

static void note_forgotten(struct daemon *daemon, uint32_t addr, uint8_t len)
{
    struct noted *noted = prefixes_find(&daemon->prefixes, addr, len);
    if (!noted || !noted->brought)
        return;
    daemon->router.brought[noted->brought - 1]--;
    noted->brought = 0;
    /* Without routes in the kernel nobody else does so. */
    prefixes_let_go(&daemon->prefixes, noted);
}

/* A prefix of which nobody else tells is about to be forgotten. */
void router_leave_share(struct daemon *daemon, const struct peer *peer)
{
    size_t *brought = daemon->router.brought, port = port_of(daemon, peer);
    if (port >= TUHVONDI_PORTS || brought[port] == 0)
        return;
    for (size_t i = 0; i < daemon->prefixes.size; i++) {
        struct noted *noted = &daemon->prefixes.slots[i];
        uint32_t others = noted->reported & ~((uint32_t)1 << port);
        if (noted->brought != port + 1)
            continue;
        noted->brought = (uint8_t)(others ? __builtin_ctz(others) + 1 : 0);
        if (others)
            brought[noted->brought - 1]++;
    }
    brought[port] = 0;
    prefixes_tidy(&daemon->prefixes);
}

/* Whether it is one prefix more than is taken of the neighbour at a time. */
static bool is_too_many(const struct daemon *daemon, const struct peer *peer, const struct noted *noted, const struct frame *frame)
{
    bool is_reported = noted && (noted->reported >> port_of(daemon, peer) & 1);
    uint32_t most = peer->config.most_prefixes;
    return most && frame->value != TUHVONDI_INFINITY && !is_reported && peer->reported >= most;
}

/* One line a session: a neighbour that tells too many prefixes may go on doing so. */
static void note_left(struct peer *peer, const struct frame *frame, const char *why)
{
    char text[PREFIX_TEXT];
    peer->counters.left++;
    if (!peer->crowded)
        say(LOG_WARNING, "%s: %s and more that it tells are left: %s", peer->name,
            prefix_text(frame->addr, frame->len, text), why);
    peer->crowded = true;
}

/* The router does not come to know the prefix. A query of it is answered as by one that does: it is not reached from here. */
static void leave_prefix(struct daemon *daemon, struct peer *peer, const struct frame *frame)
{
    struct frame reply = *frame;
    peer->counters.taken[frame->kind]++;
    if (frame->kind != TUHVONDI_QUERY)
        return;
    reply.kind = TUHVONDI_REPLY;
    reply.value = TUHVONDI_INFINITY;
    peer->counters.told[TUHVONDI_REPLY]++;
    peer_put(daemon, peer, &reply);
}

/* Gives a message to the router. A prefix that the neighbour's list refuses, or that is one too many, is taken as one
 * that it does not reach: a query is answered, and no row leads there. If the router does not know it, it need not. A
 * reply to no question, and a message of another session, are the router's to refuse. */
uint32_t router_take(struct daemon *daemon, struct peer *peer, const struct frame *frame)
{
    struct tuhvondi_message message = {.addr = frame->addr, .value = frame->value, .len = frame->len,
                                       .session = frame->number, .kind = frame->kind, .port = port_of(daemon, peer)};
    struct noted *noted = prefixes_find(&daemon->prefixes, frame->addr, frame->len);
    bool known = frame->kind == TUHVONDI_REPLY || (noted && noted->brought) || is_known(daemon, frame->addr, frame->len);
    bool too_many = is_too_many(daemon, peer, noted, frame), no_room = !known && !has_room(daemon, peer);
    if ((too_many || no_room) && frame->value != TUHVONDI_INFINITY)
        note_left(peer, frame, too_many ? "more are not taken of it" : "there is no room for more");
    bool refused = too_many || !config_accepts(&daemon->config, peer->config.list, frame->addr, frame->len);
    if (refused)
        message.value = TUHVONDI_INFINITY;
    if (!known && (refused || no_room) && frame->kind != TUHVONDI_REPLY
        && is_in_session(peer, frame->number)) {
        leave_prefix(daemon, peer, frame);
        return TUHVONDI_DONE;
    }
    uint32_t status = tuhvondi_router_message(&daemon->router.machine, &message);
    /* Whatever fills the table, it is no fault of whoever tells the next prefix. That it may ask was tested before. */
    if (status == TUHVONDI_TOO_MANY_PREFIXES) {
        note_left(peer, frame, "there is no room for more");
        leave_prefix(daemon, peer, frame);
        return TUHVONDI_DONE;
    }
    if (status == TUHVONDI_DONE) {
        note_taken(daemon, peer, noted, &message, known);
        peer->counters.taken[frame->kind]++;
    }
    return status;
}

/* ---- publication and release */

/* Tells those who follow changes. Since when it forwards is noted where anything is noted of the prefix. */
static void note_row(struct daemon *daemon, const struct tuhvondi_row *row)
{
    struct noted *noted = prefixes_find(&daemon->prefixes, row->addr, row->len);
    if (noted)
        noted->since = now_ms();
    control_tell_row(daemon, row);
}

/* What the kernel lost is set first, and then what was published. The reader is let go of while the image changes. */
bool router_forward(struct daemon *daemon)
{
    struct router *router = &daemon->router;
    if (daemon->kernel.installs && daemon->kernel.check_due && !kernel_check(daemon))
        return false;
    bool done = true;
    if (router->row_count > 0) {
        tuhvondi_image_free(&router->reader);
        done = !tuhvondi_image_apply(&router->image, router->generation, router->rows, router->row_count)
               && kernel_set_rows(daemon, router->rows, router->row_count);
        for (size_t i = 0; done && i < router->row_count; i++)
            note_row(daemon, &router->rows[i]);
        router->row_count = done ? 0 : router->row_count;
    }
    return tuhvondi_image_share(&router->image, &router->reader) == TUHVONDI_DONE && done && !daemon->kernel.check_due;
}

/* Puts what may leave on the links; what is of a session that has ended is dropped. What a queue does not take now stays with
 * the router, and all behind it, because the order is part of the protocol. To whom the next message goes is known only when it
 * is taken, so there has to be room with each neighbour. What is much leaves at once, and neighbours begin with that while the
 * rest is taken. */
static void release(struct daemon *daemon)
{
    struct tuhvondi_message message;
    struct noted *asked = NULL;
    for (size_t room = sessions_room(daemon); room > 0; room = room > 1 ? room - 1 : sessions_room(daemon)) {
        if (tuhvondi_router_release(&daemon->router.machine, &message) != TUHVONDI_DONE)
            return;
        struct peer *peer = &daemon->peers[message.port];
        struct frame frame = {.type = FRAME_MESSAGE, .kind = message.kind, .len = message.len,
                              .number = message.session, .addr = message.addr, .value = message.value};
        if (!is_in_session(peer, message.session))
            continue;
        peer->counters.told[message.kind]++;
        if (message.kind == TUHVONDI_QUERY)
            asked = note_asked(daemon, &message, asked);
        peer_put(daemon, peer, &frame);
        if (peer->out_count % MUCH < FRAME_SIZE) {
            sessions_flush(daemon, peer);
            sessions_keep_alive(daemon);
            /* If a session ended by that, what is noted has moved. */
            asked = NULL;
        }
    }
}

/* Publishes a part at a time, and only then releases. If something is refused, it is tried again at the next turn, and
 * nothing is lost. */
bool router_publish_and_release(struct daemon *daemon)
{
    struct router *router = &daemon->router;
    uint32_t status;
    uint8_t more;
    do {
        if (!router_forward(daemon))
            return false;
        sessions_keep_alive(daemon);
        status = tuhvondi_router_publish(&router->machine, router->rows, PART, &router->row_count, &more,
                                         &router->generation);
    } while (status == TUHVONDI_DONE);
    if (status != TUHVONDI_NOTHING_DUE)
        return false;
    sessions_rows_are_new(daemon);
    release(daemon);
    return true;
}

/* Looks at a part of the rows in force, and notes those that lead nowhere: whether it was the last part. */
static bool look_for_forgotten(struct router *router)
{
    struct tuhvondi_row rows[PART];
    size_t count = 0, most = router->most_known + PART;
    tuhvondi_image_rows(&router->image, &router->forgets_from, rows, PART, &count);
    for (size_t i = 0; i < count && router->forget_count < most; i++)
        if (rows[i].kind == TUHVONDI_UNREACHABLE)
            router->forgets[router->forget_count++] = (struct tuhvondi_prefix){rows[i].addr, rows[i].len};
    return count < PART;
}

/* What the kernel keeps stays in the image, and is found there the next time. */
static void forget(struct daemon *daemon, struct tuhvondi_prefix prefix)
{
    struct router *router = &daemon->router;
    if (tuhvondi_router_forget(&router->machine, prefix.addr, prefix.len) == TUHVONDI_STILL_USED)
        return;
    note_forgotten(daemon, prefix.addr, prefix.len);
    if (!kernel_remove_row(daemon, prefix.addr, prefix.len))
        return;
    tuhvondi_image_free(&router->reader);
    tuhvondi_image_remove(&router->image, router->generation, &prefix, 1);
    router->forgotten++;
    control_tell_row(daemon, &(struct tuhvondi_row){.addr = prefix.addr, .len = prefix.len, .kind = TUHVONDI_NO_ROW});
}

/* Forgets each prefix of which nothing is known any more, and takes its row out of the kernel, and then out of the
 * image. The last goes first, because the router moves all that stand behind one that goes. Thousands may go at once, so it
 * stops after a while, and goes on from there. Whether it has come to the end. */
bool router_forget(struct daemon *daemon)
{
    struct router *router = &daemon->router;
    int64_t until = now_ms() + FORGETTING_MS;
    while (!router->forgets_all && now_ms() < until)
        router->forgets_all = look_for_forgotten(router);
    while (router->forgets_all && router->forget_count > 0 && now_ms() < until)
        forget(daemon, router->forgets[--router->forget_count]);
    tuhvondi_image_share(&router->image, &router->reader);
    bool done = router->forgets_all && router->forget_count == 0;
    if (done) {
        router->forgets_all = false;
        router->forgets_from = (struct tuhvondi_prefix)TUHVONDI_FIRST_PREFIX;
    }
    return done;
}
