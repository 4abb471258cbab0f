/* Gives the readers of the daemon what nobody should send: frames, announcements, configurations, lines at the control
 * socket, and messages of rtnetlink, good ones and spoilt ones.
 *
 *     test_fuzz [COUNT [SEED]]
 *
 * A frame that has to end its connection must do so, and the image's rows have to be those that were published. It ends
 * with status 1 where something is not so; built with sanitizers it finds reads and writes outside of memory. */
#include "daemon.h"
#include "netlink.h"
#include "requests.h"
#include "test.h"

#include <arpa/inet.h>
#include <inttypes.h>
#include <linux/rtnetlink.h>
#include <poll.h>
#include <string.h>
#include <sys/socket.h>
#include <unistd.h>

static uint64_t state_of_draws = 1993;

static uint32_t drawn(uint32_t below)
{
    state_of_draws = state_of_draws * 6364136223846793005U + 1442695040888963407U;
    return below ? (uint32_t)((state_of_draws >> 33) % below) : 0;
}

static void spoil(unsigned char *bytes, size_t size)
{
    for (uint32_t turns = 1 + drawn(3); size > 0 && turns > 0; turns--)
        bytes[drawn((uint32_t)size)] = (unsigned char)(drawn(3) ? (int)drawn(256) : "\0\xff/ \n#\x80"[drawn(7)]);
}

/* ---- bytes alone */

static uint64_t fuzz_frames(uint64_t turns)
{
    uint64_t good = 0;
    for (uint64_t i = 0; i < turns; i++) {
        unsigned char bytes[FRAME_SIZE], back[FRAME_SIZE];
        uint8_t type = (uint8_t)"HAMMMTRNWV"[drawn(10)];
        bool tells = type == FRAME_HELLO || type == FRAME_ANNOUNCEMENT;
        uint32_t kind = type == FRAME_ALIVE || type == FRAME_WAIT ? 0 : tells ? FIRST_VERSION : drawn(4);
        struct frame frame = {.type = type, .kind = (uint8_t)kind,
                              .len = (uint8_t)(type == FRAME_MESSAGE || type == FRAME_WAIT ? 20 + drawn(14) : 0),
                              .number = (uint16_t)(type == FRAME_ALIVE ? 0 : drawn(1 << 16)),
                              .addr = type == FRAME_ALIVE ? 0 : drawn(1 << 20) << 12,
                              .value = type == FRAME_MESSAGE || type == FRAME_ANNOUNCEMENT ? drawn(UINT32_MAX)
                                       : type == FRAME_TERMS ? drawn(700000) : 0};
        frame_write(&frame, bytes);
        if (drawn(2))
            spoil(bytes, sizeof bytes);
        if (frame_read(bytes, &frame))
            continue;
        good++;
        frame_write(&frame, back);
        EXPECT(memcmp(bytes, back, sizeof bytes) == 0);
    }
    return good;
}

static void no_complaint(void *whom, const char *what)
{
    EXPECT(strchr(what, ':'));
    ++*(unsigned *)whom;
}

static uint64_t fuzz_configs(uint64_t turns)
{
    static const char GOOD[] = "router-id 10.255.0.1\nlisten 10.0.0.1\ncontrol /run/x\nstate /x\nneighbour 10.0.0.2 10\n"
                               "neighbour 10.0.0.6 9 passive secret ab ttl-security most-prefixes 9 warn-prefixes 5 list l\n"
                               "discover e0 5 most 3 secret ab list l\n"
                               "accept l 10.0.0.0/8 le 24 ge 9\ndeny l 0.0.0.0/0\nattach 10.1.0.0/16 1\ninstall yes\n"
                               "table 100\nmetric 7\nprotocol 250\nalive 100\ndead 350\nactive 9000\nprefixes 70\nlog syslog debug\n"
                               "metrics 127.0.0.1 9187\n";
    static struct config config;
    uint64_t good = 0;
    for (uint64_t i = 0; i < turns; i++) {
        unsigned char text[sizeof GOOD];
        unsigned faults = 0;
        memcpy(text, GOOD, sizeof GOOD);
        spoil(text, sizeof GOOD - 1);
        FILE *file = fmemopen(text, sizeof GOOD - 1 - (drawn(2) ? drawn(sizeof GOOD - 2) : 0), "r");
        EXPECT(file);
        bool done = config_read(file, "f", &config, no_complaint, &faults);
        fclose(file);
        EXPECT(done == (faults == 0));
        good += done;
    }
    return good;
}

/* The message stands at the end of its memory, so that a byte too far is found. */
static uint64_t fuzz_netlink(uint64_t turns)
{
    uint64_t good = 0;
    for (uint64_t i = 0; i < turns; i++) {
        _Alignas(struct nlmsghdr) unsigned char room[REQUEST_SIZE];
        struct kernel_route route = {.addr = drawn(UINT32_MAX), .len = (uint8_t)drawn(40), .table = drawn(UINT32_MAX),
                                     .index = drawn(2)};
        struct kernel_rule rule = {.interface = "veth0", .from = {drawn(2)}};
        struct kernel_link link;
        size_t size = drawn(2) ? netlink_route(room, &route, drawn(2), 0) : netlink_rule(room, &rule, drawn(2), 0);
        uint16_t type = (uint16_t)(RTM_NEWLINK + drawn(2));
        spoil(room + sizeof(struct nlmsghdr), size - sizeof(struct nlmsghdr));
        size -= drawn(3) ? 0 : drawn((uint32_t)(size - sizeof(struct nlmsghdr)));
        struct nlmsghdr *message = malloc(size);
        EXPECT(message);
        memcpy(message, room, size);
        message->nlmsg_len = (uint32_t)size;
        good += netlink_read_route(message, &route) || netlink_read_rule(message, &rule);
        message->nlmsg_type = type;
        netlink_read_link(message, &link);
        EXPECT(strlen(rule.interface) < IF_NAMESIZE);
        free(message);
    }
    return good;
}

static void count_message(void *to, const struct nlmsghdr *message)
{
    struct kernel_route route;
    *(uint64_t *)to += netlink_read_route(message, &route);
}

/* Answers to a batch and parts of a dump, several to a piece, spoilt or cut, at the end of their memory. */
static uint64_t fuzz_answers(uint64_t turns)
{
    static struct batch batch;
    uint64_t good = 0;
    for (uint64_t i = 0; i < turns; i++) {
        _Alignas(struct nlmsghdr) unsigned char room[8 * REQUEST_SIZE];
        size_t size = 0;
        bool changed = false;
        batch.count = 1 + drawn(BATCH);
        for (uint32_t pieces = 1 + drawn(4); pieces > 0; pieces--) {
            struct kernel_route route = {.addr = drawn(UINT32_MAX), .len = (uint8_t)drawn(33), .table = 254};
            struct nlmsghdr *at = (void *)(room + size);
            size_t taken = netlink_route(at, &route, true, 0);
            at->nlmsg_seq = 5 + drawn(drawn(2) ? BATCH : 1);
            at->nlmsg_type = drawn(2) ? at->nlmsg_type : (uint16_t)(drawn(2) ? NLMSG_ERROR : NLMSG_DONE);
            size += taken;
        }
        if (drawn(2))
            spoil(room, size);
        size -= drawn(3) ? 0 : drawn((uint32_t)size);
        struct nlmsghdr *bytes = size > 0 ? malloc(size) : NULL;
        if (!bytes)
            continue;
        memcpy(bytes, room, size);
        good += requests_note_answers(&batch, 5, bytes, size);
        requests_read_dump(5 + drawn(2), bytes, size, &changed, &good, count_message);
        free(bytes);
    }
    return good;
}

/* ---- a daemon without a kernel */

static struct daemon *daemon_of(size_t peers)
{
    struct daemon *daemon = calloc(1, sizeof *daemon);
    EXPECT(daemon);
    daemon->config.alive_ms = 1000;
    daemon->config.dead_ms = 3500;
    daemon->config.prefixes = DEFAULT_PREFIXES;
    daemon->config.router_id.s_addr = htonl(0x0a0a0a0a);
    daemon->listener = daemon->control = daemon->metrics = -1;
    EXPECT(router_open(daemon));
    for (size_t i = 0; i < peers; i++) {
        struct neighbour neighbour = {.address = {htonl(0x0afe0000 + (uint32_t)i)}, .cost = 1 + drawn(100)};
        EXPECT(!peer_add(daemon, &neighbour));
    }
    return daemon;
}

static void end_daemon(struct daemon *daemon, int *far_ends)
{
    for (size_t i = 0; i < daemon->peer_count; i++) {
        if (daemon->peers[i].fd >= 0)
            close(daemon->peers[i].fd);
        if (far_ends && far_ends[i] >= 0)
            close(far_ends[i]);
    }
    router_close(daemon);
    free(daemon);
}

/* ---- announcements */

/* An announcement: whether it is good. */
static bool drawn_announcement(struct announcement *heard, const struct daemon *daemon)
{
    uint32_t from = (drawn(8) ? 0x0afe0000 : 0x0afe0100) + drawn(16);
    struct frame frame = {.type = FRAME_ANNOUNCEMENT, .kind = FIRST_VERSION, .number = TCP_PORT, .value = from,
                          .addr = drawn(16) ? from : ntohl(daemon->config.router_id.s_addr)};
    unsigned char good[FRAME_SIZE];
    *heard = (struct announcement){.from = {htonl(from)}, .ttl = drawn(8) ? 255 : 254,
                                   .size = drawn(8) ? FRAME_SIZE : drawn(FRAME_SIZE + 2)};
    frame_write(&frame, good);
    memcpy(heard->bytes, good, sizeof good);
    if (drawn(4) == 0)
        spoil(heard->bytes, sizeof good);
    return from >> 8 == 0x0afe00 && (from & 0xff) != 0 && heard->ttl == 255 && heard->size == FRAME_SIZE
           && heard->bytes[0] == 'N' && memcmp(heard->bytes + 1, good + 1, 3) == 0
           && memcmp(heard->bytes + 8, good + 8, 8) == 0
           && memcmp(heard->bytes + 4, &daemon->config.router_id, sizeof daemon->config.router_id) != 0;
}

/* A good one finds its sender, if there is a place; no other changes anything; and no more are found than may be. */
static uint64_t fuzz_announcements(uint64_t turns)
{
    static const uint32_t OWN = 0x0afe0007;
    struct daemon *daemon = daemon_of(0);
    struct segment segment = {.interface = "e0", .fd = -1, .own = {htonl(OWN)}, .base = {htonl(OWN)},
                              .mask = {htonl(0xffffff00)}};
    const struct neighbour sought = {.interface = "e0", .cost = 1};
    uint64_t found = 0;
    int64_t now = now_ms();
    daemon->config.dead_ms = 0;
    for (size_t i = 0; i < 3; i++)
        EXPECT(!peer_add(daemon, &sought));
    for (uint64_t i = 0; i < turns; i++) {
        struct announcement heard;
        struct in_addr before[3];
        bool good = drawn_announcement(&heard, daemon) && heard.from.s_addr != segment.own.s_addr, changed = false;
        for (size_t port = 0; port < 3; port++)
            before[port] = daemon->peers[port].config.address;
        discover_take(daemon, &segment, &heard);
        EXPECT(daemon->peer_count == 3);
        for (size_t port = 0; port < 3; port++) {
            changed |= daemon->peers[port].config.address.s_addr != before[port].s_addr;
            EXPECT(good || daemon->peers[port].config.address.s_addr == before[port].s_addr);
        }
        EXPECT(!good || peer_of(daemon, heard.from) || !changed);
        found += changed;
        if (drawn(16) == 0)
            sessions_rows_are_new(daemon);
        if (drawn(64) == 0)
            discover_tick(daemon, now += 2000);
    }
    end_daemon(daemon, NULL);
    return found;
}

/* ---- lines at the control socket */

static size_t drawn_line(char *line, size_t size)
{
    static const char *const WORDS[] = {"table",       "state",     "json",  "neighbours", "why",         "counters",
                                        "lookup",      "trace",     "attach", "detach",    "cost",        "down",
                                        "up",          "neighbour", "10.1.0.0/16", "10.0.0.0/264", "10.254.0.1", "5",
                                        "0.0.0.0/0",   "4294967298", "version", "passive", "secret",      "-1"};
    size_t count = 0;
    for (uint32_t words = drawn(5); words > 0; words--)
        count += (size_t)snprintf(line + count, size - count, "%s ", WORDS[drawn(sizeof WORDS / sizeof *WORDS)]);
    if (drawn(3) == 0)
        spoil((unsigned char *)line, count);
    line[count++] = '\n';
    return count;
}

static uint64_t fuzz_control(uint64_t turns)
{
    struct daemon *daemon = daemon_of(3);
    uint64_t answered = 0;
    static char line[512], answer[65536];
    for (uint64_t i = 0; i < turns; i++) {
        int ends[2];
        struct client *client = &daemon->clients[0];
        size_t size = drawn_line(line, sizeof line);
        EXPECT(socketpair(AF_UNIX, SOCK_STREAM | SOCK_NONBLOCK, 0, ends) == 0);
        *client = (struct client){.used = true, .fd = ends[0], .number = i + 1, .since = now_ms(),
                                  .for_metrics = drawn(50) == 0};
        EXPECT(send(ends[1], line, size, 0) == (ssize_t)size);
        shutdown(ends[1], SHUT_WR);
        for (int round = 0; client->used && round < 4; round++)
            control_serve(daemon, client, POLLIN);
        answered += recv(ends[1], answer, sizeof answer, MSG_DONTWAIT) > 0;
        close(ends[1]);
        if (client->used)
            control_serve(daemon, client, POLLHUP);
        EXPECT(router_publish_and_release(daemon));
        control_tick(daemon, now_ms() + CLIENT_MS + 1);
        EXPECT(!client->used);
        if (daemon->peer_count > 20)
            daemon->peer_count = 3;
    }
    end_daemon(daemon, NULL);
    return answered;
}

/* ---- sessions */

struct session_test {
    struct daemon *daemon;
    int far_ends[TUHVONDI_PORTS];
    uint64_t ended, answered;
    struct {
        struct frame frame;
        struct peer *peer;
    } asked[1024]; /* questions of the router that are not answered yet */
    size_t asked_count;
};

static void connect_anew(struct session_test *test, struct peer *peer)
{
    int ends[2], *far_end = &test->far_ends[peer - test->daemon->peers];
    if (*far_end >= 0)
        close(*far_end);
    EXPECT(socketpair(AF_UNIX, SOCK_STREAM | SOCK_NONBLOCK, 0, ends) == 0);
    peer->fd = ends[0];
    *far_end = ends[1];
    peer->state = PEER_GREETING;
    peer->greeting = (struct greeting){.version = FIRST_VERSION};
    peer->heard = now_ms();
}

static void send_in_pieces(struct session_test *test, struct peer *peer, const unsigned char *bytes, size_t count)
{
    int far_end = test->far_ends[peer - test->daemon->peers];
    for (size_t sent = 0; sent < count && peer->fd >= 0;) {
        size_t piece = 1 + drawn((uint32_t)(count - sent));
        EXPECT(send(far_end, bytes + sent, piece, MSG_NOSIGNAL) == (ssize_t)piece);
        sent += piece;
        sessions_read(test->daemon, peer, false);
    }
}

/* Takes what the daemon sends, and notes its questions. */
static void drain(struct session_test *test, struct peer *peer)
{
    unsigned char bytes[FRAME_SIZE];
    struct frame frame;
    sessions_flush(test->daemon, peer);
    while (recv(test->far_ends[peer - test->daemon->peers], bytes, sizeof bytes, MSG_DONTWAIT) == sizeof bytes) {
        EXPECT(!frame_read(bytes, &frame));
        if (frame.type != FRAME_MESSAGE || frame.kind != TUHVONDI_QUERY || test->asked_count == 1024)
            continue;
        test->asked[test->asked_count].frame = frame;
        test->asked[test->asked_count++].peer = peer;
    }
}

/* A frame as a neighbour sends it that keeps to the protocol, or nearly. */
static struct frame drawn_frame(const struct peer *peer)
{
    uint8_t len = (uint8_t)drawn(25);
    uint32_t addr = len == 0 ? 0 : (0x0a000000 | drawn(1 << 16) << 8) & ~(uint32_t)0 << (32 - len);
    uint32_t value = drawn(8) == 0 ? TUHVONDI_INFINITY : drawn(100);
    switch (drawn(8)) {
    case 0:
        return (struct frame){.type = FRAME_ALIVE};
    case 1:
        return (struct frame){.type = FRAME_TRACE, .kind = (uint8_t)drawn(HOPS), .number = (uint16_t)drawn(1 << 16),
                              .addr = addr};
    case 2:
        if (drawn(100) == 0)
            return (struct frame){.type = FRAME_ANNOUNCEMENT, .kind = FIRST_VERSION, .number = 1, .value = 1};
        return (struct frame){.type = FRAME_ROUTER, .kind = (uint8_t)drawn(TRACE_GIVEN_UP + 1),
                              .number = (uint16_t)(1 + drawn(100)), .addr = addr};
    default:
        return (struct frame){.type = FRAME_MESSAGE, .kind = drawn(200) == 0 ? TUHVONDI_REPLY : drawn(4) == 0,
                              .len = len, .number = peer->last, .addr = addr, .value = value};
    }
}

/* Answers a question that the router asked, if its session goes on; else sends what is drawn. */
static struct frame next_frame(struct session_test *test, struct peer **peer)
{
    if ((*peer)->state == PEER_GREETING && !(*peer)->greeted)
        return (struct frame){.type = FRAME_HELLO, .kind = FIRST_VERSION, .number = (*peer)->last, .addr = 0x0afe0001};
    if ((*peer)->state == PEER_GREETING && drawn(2))
        return (struct frame){.type = FRAME_TERMS, .kind = FRAME_VERSION, .value = 3500};
    if ((*peer)->state == PEER_GREETING)
        return (struct frame){.type = FRAME_ALIVE};
    if (test->asked_count > 0 && drawn(2)) {
        test->asked_count--;
        struct frame frame = test->asked[test->asked_count].frame;
        struct peer *asked = test->asked[test->asked_count].peer;
        if (is_in_session(asked, frame.number)) {
            *peer = asked;
            frame.kind = TUHVONDI_REPLY;
            frame.value = drawn(4) == 0 ? TUHVONDI_INFINITY : drawn(100);
            test->answered++;
            return frame;
        }
    }
    return drawn_frame(*peer);
}

static void send_one(struct session_test *test, struct peer *peer)
{
    unsigned char bytes[FRAME_SIZE];
    struct frame frame = next_frame(test, &peer), back;
    bool greets = peer->state == PEER_GREETING && !peer->greeted;
    bool has_terms = peer->state != PEER_GREETING || greets || peer->greeting.version != FIRST_VERSION;
    uint16_t session = (uint16_t)(peer->last + (peer->state != PEER_UP));
    frame_write(&frame, bytes);
    if (drawn(64) == 0)
        spoil(bytes, sizeof bytes);
    if (drawn(512) == 0) {
        send_in_pieces(test, peer, bytes, 1 + drawn(FRAME_SIZE - 1));
        shutdown(test->far_ends[peer - test->daemon->peers], SHUT_WR);
        sessions_read(test->daemon, peer, false);
        EXPECT(peer->state == PEER_IDLE);
        return;
    }
    bool bad = frame_read(bytes, &back) || (back.type == FRAME_HELLO) != greets || back.type == FRAME_ANNOUNCEMENT
               || (back.type == FRAME_TERMS && has_terms) || (back.type == FRAME_MESSAGE && back.number != session);
    send_in_pieces(test, peer, bytes, sizeof bytes);
    EXPECT(!bad || peer->state == PEER_IDLE);
    test->ended += peer->state == PEER_IDLE;
}

/* The image has the rows that were published, and what the neighbours report is counted right. */
static void check_rows(struct daemon *daemon)
{
    struct tuhvondi_row *known = daemon->router.known;
    size_t count = 0, in_force = 0, set = 0;
    EXPECT(tuhvondi_router_rows(&daemon->router.machine, known, daemon->router.most_known, &count) == TUHVONDI_DONE);
    for (size_t i = 0; i < count; i++) {
        struct tuhvondi_prefix_state state;
        EXPECT(tuhvondi_router_state(&daemon->router.machine, known[i].addr, known[i].len, &state) == TUHVONDI_DONE);
        in_force += state.published.kind != TUHVONDI_NO_ROW;
        const struct noted *noted = prefixes_find(&daemon->prefixes, known[i].addr, known[i].len);
        EXPECT(state.active == (noted && noted->active_since != 0));
    }
    EXPECT(tuhvondi_image_row_count(&daemon->router.image, &set) == TUHVONDI_DONE && set == in_force);
    for (size_t port = 0; port < daemon->peer_count; port++) {
        uint32_t reported = 0;
        for (size_t i = 0; i < daemon->prefixes.size; i++)
            reported += daemon->prefixes.slots[i].reported >> port & 1;
        EXPECT(reported == daemon->peers[port].reported);
    }
}

static void fuzz_sessions(struct session_test *test, uint64_t turns)
{
    static const size_t PEERS = 8;
    for (size_t i = 0; i < TUHVONDI_PORTS; i++)
        test->far_ends[i] = -1;
    test->daemon = daemon_of(PEERS);
    test->daemon->peers[1].config.most_prefixes = 50;
    for (uint64_t i = 1; i <= turns; i++) {
        struct peer *peer = &test->daemon->peers[drawn((uint32_t)PEERS)];
        if (peer->state == PEER_IDLE)
            connect_anew(test, peer);
        send_one(test, peer);
        EXPECT(router_publish_and_release(test->daemon));
        for (size_t port = 0; port < PEERS; port++)
            drain(test, &test->daemon->peers[port]);
        if (i % 5000 == 0)
            router_forget(test->daemon);
        if (i % 1000 == 0)
            check_rows(test->daemon);
        if (peer->last > 60000)
            turns = i;
    }
    end_daemon(test->daemon, test->far_ends);
}

int main(int count, char **words)
{
    static struct session_test test;
    uint64_t turns = count > 1 ? strtoull(words[1], NULL, 10) : 20000;
    state_of_draws = count > 2 ? strtoull(words[2], NULL, 10) : 1993;
    log_to(false, LOG_EMERG);
    printf("fuzz: of %" PRIu64 " each, %" PRIu64 " frames", turns, fuzz_frames(turns));
    printf(", %" PRIu64 " configurations", fuzz_configs(turns));
    printf(" and %" PRIu64 " kernel messages were good", fuzz_netlink(turns) + fuzz_answers(turns));
    printf("; %" PRIu64 " announcements found somebody", fuzz_announcements(turns));
    printf("; %" PRIu64 " control lines were answered", fuzz_control(turns));
    fuzz_sessions(&test, turns);
    printf("; frames of sessions ended %" PRIu64 ", and answered %" PRIu64 " questions\n", test.ended, test.answered);
    return 0;
}
