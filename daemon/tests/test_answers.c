/* Compares what the daemon makes of frames with what is worked out here, in another way.
 *
 *     test_answers [COUNT [SEED]]
 *
 * Of COUNT frames, good ones and spoilt ones, the daemon has to refuse those whose bytes are bad, and no others. Then COUNT
 * messages of neighbours are taken, and the router's questions are answered. After each thousand of these a session ends. Then
 * the image has to answer as the published rows do, among which the longest match is searched one by one. It ends with status
 * 1 if something is not so. */
#include "daemon.h"
#include "test.h"

#include <inttypes.h>
#include <string.h>

enum { PEERS = 8, LOOKUPS = 64 };

static uint64_t state_of_draws = 1993;

static uint32_t drawn(uint32_t below)
{
    state_of_draws = state_of_draws * 6364136223846793005U + 1442695040888963407U;
    return below ? (uint32_t)((state_of_draws >> 33) % below) : 0;
}

/* ---- bytes */

/* Whether no daemon sends these bytes. */
static bool is_bad(const unsigned char *b)
{
    uint32_t addr = (uint32_t)b[4] << 24 | (uint32_t)b[5] << 16 | (uint32_t)b[6] << 8 | b[7];
    uint32_t dead = addr & 0xffffff;
    bool value = b[8] || b[9] || b[10] || b[11], number = b[2] || b[3];
    if (b[13] || b[14] || b[15])
        return true;
    if (b[0] == 'M')
        return b[1] > 2 || b[12] > 32 || (b[12] < 32 && (uint32_t)(addr << b[12]) != 0);
    if (b[0] == 'W')
        return b[1] || value || b[12] > 32 || (b[12] < 32 && (uint32_t)(addr << b[12]) != 0);
    if (b[12] || value)
        return true;
    if (b[0] == 'H')
        return b[1] != 1;
    if (b[0] == 'R' && !number)
        return b[1] || b[4] < 2 || dead < 30 || dead > 600000;
    if (b[0] == 'P')
        return b[1] < 2 || number || addr;
    if (b[0] == 'A')
        return b[1] || number || addr;
    return b[0] == 'T' ? b[1] > 63 : b[1] > 5 || b[0] != 'R';
}

static uint64_t compare_readers(uint64_t count)
{
    uint64_t bad = 0;
    for (uint64_t i = 0; i < count; i++) {
        unsigned char bytes[FRAME_SIZE] = {(unsigned char)"HAMMTRXWP"[drawn(9)]};
        struct frame frame;
        bytes[1] = (unsigned char)(bytes[0] == 'H' ? 1 : bytes[0] == 'P' ? 2 : bytes[0] == 'A' || bytes[0] == 'W' ? 0 : drawn(2) ? drawn(7) : 62 + drawn(3));
        for (size_t at = 2; at < 8 && bytes[0] != 'A' && bytes[0] != 'P'; at++)
            bytes[at] = (unsigned char)(drawn(3) ? drawn(256) : 0);
        if (bytes[0] == 'M') {
            bytes[8 + drawn(4)] = (unsigned char)drawn(256);
            bytes[12] = (unsigned char)drawn(35);
        }
        if (bytes[0] == 'W')
            bytes[12] = (unsigned char)(20 + drawn(14));
        if (bytes[0] == 'R' && drawn(2))
            bytes[1] = bytes[2] = bytes[3] = 0;
        if (drawn(4) == 0)
            bytes[1 + drawn(FRAME_SIZE - 1)] = (unsigned char)drawn(256);
        EXPECT((frame_read(bytes, &frame) != NULL) == is_bad(bytes));
        bad += is_bad(bytes);
    }
    return bad;
}

/* ---- answers */

static uint64_t answered, looked_up;

static struct daemon *daemon_of_peers(void)
{
    struct daemon *daemon = calloc(1, sizeof *daemon);
    EXPECT(daemon);
    daemon->config.prefixes = DEFAULT_PREFIXES;
    EXPECT(router_open(daemon));
    for (uint32_t i = 0; i < PEERS; i++) {
        struct neighbour neighbour = {.address = {0x0afe0000 + i}, .cost = 1 + drawn(100)};
        EXPECT(!peer_add(daemon, &neighbour));
    }
    return daemon;
}

static void begin_session(struct daemon *daemon, struct peer *peer)
{
    peer->last++;
    peer->state = PEER_UP;
    EXPECT(router_link_up(daemon, peer) == TUHVONDI_DONE);
}

static void end_session(struct daemon *daemon, struct peer *peer)
{
    peer->state = PEER_IDLE;
    EXPECT(router_link_down(daemon, peer) == TUHVONDI_DONE);
}

/* A message that is refused ends the session, and another begins. */
static void take(struct daemon *daemon, struct peer *peer, const struct frame *frame)
{
    if (router_take(daemon, peer, frame) == TUHVONDI_DONE)
        return;
    end_session(daemon, peer);
    begin_session(daemon, peer);
}

/* Reads what waits for the neighbour, and answers questions of its present session. */
static void answer(struct daemon *daemon, struct peer *peer)
{
    static unsigned char waiting[QUEUE];
    size_t count = peer->out_count;
    memcpy(waiting, peer->out + peer->out_from, count);
    peer->out_count = peer->out_from = 0;
    for (size_t at = 0; at < count; at += FRAME_SIZE) {
        struct frame frame;
        EXPECT(!is_bad(waiting + at) && !frame_read(waiting + at, &frame));
        if (frame.type != FRAME_MESSAGE || frame.kind != TUHVONDI_QUERY || frame.number != peer->last)
            continue;
        frame.kind = TUHVONDI_REPLY;
        frame.value = drawn(4) == 0 ? TUHVONDI_INFINITY : drawn(100);
        take(daemon, peer, &frame);
        answered++;
    }
}

static bool covers(const struct tuhvondi_row *row, uint32_t addr)
{
    return row->kind != TUHVONDI_NO_ROW && (row->len == 0 || (addr ^ row->addr) >> (32 - row->len) == 0);
}

static void compare_answers(struct daemon *daemon)
{
    struct tuhvondi_row *published = daemon->router.known;
    size_t count = 0;
    EXPECT(tuhvondi_router_rows(&daemon->router.machine, published, daemon->router.most_known, &count) == TUHVONDI_DONE);
    for (size_t i = 0; i < count; i++) {
        struct tuhvondi_prefix_state state;
        EXPECT(!tuhvondi_router_state(&daemon->router.machine, published[i].addr, published[i].len, &state));
        published[i] = state.published;
    }
    for (int turn = 0; turn < LOOKUPS; turn++, looked_up++) {
        uint32_t addr = drawn(8) ? 0x0a000000 | drawn(1 << 18) : drawn(UINT32_MAX);
        struct tuhvondi_row row, best = {.kind = TUHVONDI_NO_ROW};
        for (size_t i = 0; i < count; i++)
            if (covers(&published[i], addr) && (best.kind == TUHVONDI_NO_ROW || published[i].len > best.len))
                best = published[i];
        EXPECT(tuhvondi_image_lookup(&daemon->router.reader, &addr, 1, &row, 1) == TUHVONDI_DONE);
        EXPECT(row.kind == best.kind && row.addr == best.addr && row.len == best.len);
        EXPECT(row.kind != TUHVONDI_VIA || (row.port == best.port && row.session == best.session));
    }
}

/* A session ends, so many rows change at once, and computations begin. */
static void end_and_compare(struct daemon *daemon, struct peer *peer)
{
    end_session(daemon, peer);
    EXPECT(router_publish_and_release(daemon));
    compare_answers(daemon);
    router_forget(daemon);
    compare_answers(daemon);
    begin_session(daemon, peer);
}

static void take_messages(uint64_t count)
{
    struct daemon *daemon = daemon_of_peers();
    for (size_t i = 0; i < PEERS; i++)
        begin_session(daemon, &daemon->peers[i]);
    for (uint64_t i = 1; i <= count; i++) {
        struct peer *peer = &daemon->peers[drawn(PEERS)];
        uint8_t len = (uint8_t)drawn(25);
        uint32_t addr = len == 0 ? 0 : (0x0a000000 | drawn(1 << 10) << 8) & ~(uint32_t)0 << (32 - len);
        struct frame frame = {.type = FRAME_MESSAGE, .kind = drawn(4) == 0 ? TUHVONDI_QUERY : TUHVONDI_UPDATE, .len = len,
                              .number = peer->last, .addr = addr,
                              .value = drawn(8) == 0 ? TUHVONDI_INFINITY : drawn(100)};
        take(daemon, peer, &frame);
        EXPECT(router_publish_and_release(daemon));
        for (size_t port = 0; port < PEERS; port++)
            answer(daemon, &daemon->peers[port]);
        EXPECT(router_publish_and_release(daemon));
        if (i % 1000 == 0)
            end_and_compare(daemon, peer);
        if (peer->last > 60000)
            count = i;
    }
    router_close(daemon);
    free(daemon);
}

int main(int count, char **words)
{
    uint64_t turns = count > 1 ? strtoull(words[1], NULL, 10) : 20000;
    state_of_draws = count > 2 ? strtoull(words[2], NULL, 10) : 1993;
    log_to(false, LOG_EMERG);
    uint64_t bad = compare_readers(turns);
    take_messages(turns);
    printf("answers: %" PRIu64 " of %" PRIu64 " frames are bad; %" PRIu64 " questions answered, %" PRIu64
           " answers compared\n", bad, turns, answered, looked_up);
    return 0;
}
