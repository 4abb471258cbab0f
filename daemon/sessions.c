/* Connections of neighbours, and the sessions of their links: each connection is one, with a number of its own. */
#include "daemon.h"

#include <arpa/inet.h>
#include <errno.h>
#include <netinet/tcp.h>
#include <linux/sockios.h>
#include <stddef.h>
#include <string.h>
#include <sys/ioctl.h>
#include <sys/random.h>
#include <sys/socket.h>
#include <unistd.h>

enum {
    RETRY_MS = 250,      /* between attempts to connect, at first; it doubles after each four */
    MOST_ATTEMPTS = 8,   /* so up to a second */
    MISSED_MS = 30000,   /* without a session, after which a line says so; then each hour */
    HOUR_MS = 3600000,
    GREETING_MS = 3500,  /* that hellos may take, and that one of the first version may be silent, if not longer */
    CONNECT_MS = 500,    /* that the next attempt waits for one: TCP repeats it later and later, so a new one finds first
                          * a link that works again */
    FAULT_MS = 250,      /* without a session after a neighbour's fault, at first; it doubles */
    DEBT_MS = 2000,      /* after it owed a reply for too long */
    FAULT_DOUBLINGS = 8, /* so up to 64 seconds, or 512 */
    CALM_MS = 30000,     /* a session that lasts longer has a fault, or silence, count as the first again */
    BRIEF_MS = 1000,     /* and one that lasts longer has an attempt to connect do so */
    SHORT_MS = 5000,     /* one that is shorter counts as short */
    SHORTS = 8,          /* short ones that may come in a row; after more the wait doubles */
    SILENCES = 2,        /* and such that end by silence */
    REST_DOUBLINGS = 6,  /* so up to 16 seconds */
    ACCEPTS = 16,        /* connections that are taken at a turn */
    IDLE_MS = 1000,      /* that the loop waits at most */
    SOON_MS = 50,        /* until what could not be done is tried again */
    COMPLAIN_MS = 1000,
    COMPLAINTS = 5,      /* lines in that time */
    ASK_MS = 1000,       /* between questions whether the other end has the new secret */
    PARTING_MS = 5000,   /* between attempts of a passive end to connect to one that is no neighbour any more */
    MOST_PARTING_MS = 30000, /* for which one that is no neighbour any more is told so */
    OWN_TTL = 255, /* of what is sent, so that the other end can tell that no router was passed */
};

struct peer *peer_of(struct daemon *daemon, struct in_addr address)
{
    for (struct peer *peer = daemon->peers; peer < peers_end(daemon); peer++)
        if (is_somebody(peer) && peer->config.address.s_addr == address.s_addr)
            return peer;
    return NULL;
}

/* One that is no neighbour any more, and has yet to say that no row of it leads here. */
static struct peer *removed_of(struct daemon *daemon, struct in_addr address)
{
    for (struct peer *peer = daemon->peers; peer < peers_end(daemon); peer++)
        if (peer->used && peer->removed && peer->config.address.s_addr == address.s_addr)
            return peer;
    return NULL;
}

static void name_peer(struct peer *peer)
{
    if (peer->config.address.s_addr)
        address_text(peer->config.address, peer->name);
    else
        memcpy(peer->name, peer->config.interface, sizeof peer->name);
}

/* Whoever can connect can have lines written, so there are few a second. */
static void complain_of(struct peer *peer, const char *what)
{
    int64_t now = now_ms();
    peer->counters.faults++;
    if (now - peer->complained >= COMPLAIN_MS) {
        peer->complained = now;
        peer->complaints = 0;
    }
    if (peer->complaints++ < COMPLAINTS)
        say(LOG_WARNING, "%s: a connection is refused: %s", peer->name, what);
}

/* ---- ends of sessions */

/* What comes in from the neighbour is dropped before the router is told that the link is down. While published rows
 * do not forward yet, it is told nothing; nor is it where memory is refused. Then it is told later, and no session
 * begins. */
static void tell_down(struct daemon *daemon, struct peer *peer)
{
    peer->stale = true;
    peer->leaving = !kernel_filter(daemon, peer, true) || daemon->blocked || daemon->router.row_count > 0
                    || router_link_down(daemon, peer) == TUHVONDI_NO_MEMORY;
}

static int64_t later(int64_t one, int64_t other)
{
    return one > other ? one : other;
}

/* Up to half of it is drawn away, so that those who stopped together do not go on together. */
static int64_t drawn(int64_t rest)
{
    uint32_t bits = 0;
    if (getrandom(&bits, sizeof bits, GRND_NONBLOCK) != sizeof bits)
        bits = 0;
    return rest - (rest / 2 * bits >> 32);
}

/* Sessions that end soon, one after another, use up numbers too: how long to wait after one. Whoever has more to do than it can is
 * silent, and gets yet more to do by the next session, in which each end tells all; so there the wait begins sooner. */
static int64_t rest_after(struct peer *peer, int64_t lasted, enum ending ending)
{
    peer->shorts = lasted > SHORT_MS ? 0 : peer->shorts + 1;
    peer->silences = lasted > CALM_MS ? 0 : peer->silences + (ending == BY_SILENCE);
    unsigned doublings = peer->shorts > SHORTS ? peer->shorts - SHORTS : 0;
    if (ending == BY_SILENCE && peer->silences > SILENCES + doublings)
        doublings = peer->silences - SILENCES;
    return doublings ? drawn((int64_t)RETRY_MS << (doublings < REST_DOUBLINGS ? doublings : REST_DOUBLINGS)) : 0;
}

/* The next attempt waits a moment, and longer each time. After a fault of the neighbour no session begins for a
 * while, so that a neighbour that is wrong does not use up the numbers of sessions. */
static void back_off(struct peer *peer, enum ending ending)
{
    int64_t now = now_ms();
    if (peer->begun && now - peer->begun > CALM_MS && ending != BY_DEBT)
        peer->faults = 0;
    if (peer->begun && now - peer->begun > BRIEF_MS)
        peer->attempts = 0;
    if (peer->begun)
        peer->rests_until = now + rest_after(peer, now - peer->begun, ending);
    if (ending == BY_FAULT || ending == BY_DEBT) {
        peer->waits_until = now + ((int64_t)(ending == BY_DEBT ? DEBT_MS : FAULT_MS) << peer->faults);
        peer->faults += peer->faults < FAULT_DOUBLINGS;
    }
    peer->next_try = now + ((int64_t)RETRY_MS << peer->attempts / 4);
    peer->attempts += peer->attempts < MOST_ATTEMPTS;
    peer->begun = 0;
}

/* What is waited for after faults stays. */
void peer_wake(struct peer *peer)
{
    peer->attempts = peer->shorts = peer->silences = 0;
    peer->next_try = now_ms();
    peer->rests_until = 0;
}

static void forget_former(struct peer *peer)
{
    explicit_bzero(peer->former, sizeof peer->former);
}

static void stop(int *fd)
{
    if (*fd >= 0)
        close(*fd);
    *fd = -1;
}

static void be_idle(struct peer *peer)
{
    peer->fd = -1;
    peer->state = PEER_IDLE;
    peer->lost = peer->lets_in = peer->crowded = peer->greeted = peer->parted = false;
    peer->in_count = peer->in_from = peer->out_count = peer->out_from = 0;
}

void peer_hang_up(struct daemon *daemon, struct peer *peer, enum ending ending, const char *why)
{
    bool was_up = peer->state == PEER_UP;
    stop(&peer->asking);
    stop(&peer->late);
    /* What comes here is signed by the new secret, as the listening socket has it. */
    if (peer->config.passive)
        forget_former(peer);
    if (was_up) {
        say(LOG_NOTICE, "%s: session %u ends: %s", peer->name, peer->last, why);
        peer->counters.faults += ending == BY_FAULT || ending == BY_DEBT;
        peer->over = now_ms();
        peer->why = why;
        tell_down(daemon, peer);
    } else if (ending == BY_FAULT) {
        complain_of(peer, why);
    }
    peer->tried = why;
    if (peer->fd >= 0) {
        close(peer->fd);
        back_off(peer, ending);
    }
    be_idle(peer);
    if (!was_up)
        return;
    control_tell_peer(daemon, peer, "down");
    /* To tell the router takes a while if it knows many prefixes, and many sessions may end at once. */
    sessions_keep_alive(daemon);
}

/* ---- connections that are left */

static void drop(struct candidate *candidate)
{
    if (candidate->fd >= 0)
        close(candidate->fd);
    *candidate = (struct candidate){.fd = -1};
}

static void unsign(struct daemon *daemon, const struct peer *peer)
{
    struct neighbour unsigned_one = {.address = peer->config.address};
    if (peer->config.secret[0] && unsigned_one.address.s_addr)
        sessions_set_secret(daemon->listener, &unsigned_one);
}

static void drop_candidates(struct peer *peer)
{
    for (size_t i = 0; i < CANDIDATES; i++)
        drop(&peer->candidates[i]);
}

static void drop_connections(struct daemon *daemon, struct peer *peer, const char *why)
{
    peer_hang_up(daemon, peer, BY_OPERATOR, why);
    drop_candidates(peer);
}

/* Whoever knows the former secret is kept out by this, too. */
void peer_shut(struct daemon *daemon, struct peer *peer)
{
    peer->shut = true;
    drop_connections(daemon, peer, "it is shut");
    forget_former(peer);
}

/* Whether a filter tells the packets of these two apart. Of one that was never heard of no link address is known; to connect
 * to it tells it. */
static bool is_apart(const struct daemon *daemon, const struct peer *peer, const struct peer *other, bool connects)
{
    static const unsigned char UNKNOWN[LINK_ADDRESS];
    unsigned char found[LINK_ADDRESS];
    if (!sharing_is_shared(daemon, peer->interface) || memcmp(other->link_address, UNKNOWN, LINK_ADDRESS) == 0)
        return false;
    bool known = sharing_find_link_address(daemon, peer, found);
    return known ? memcmp(other->link_address, found, LINK_ADDRESS) != 0 : connects;
}

/* Whether somebody else has to be heard of first: by the interface rows of another may lead here, who is no neighbour
 * any more. Whoever has that one's address speaks for both. */
static bool is_doubtful(struct daemon *daemon, const struct peer *peer, bool connects)
{
    in_addr_t address = peer->config.address.s_addr;
    if (peer->removed)
        return peer_of(daemon, peer->config.address);
    for (const struct peer *other = daemon->peers; other < peers_end(daemon); other++)
        if (other->used && other->removed && !other->cleared && other->interface[0]
            && strcmp(other->interface, peer->interface) == 0
            && (other->config.address.s_addr != address || other->leaving || other->stale)
            && !is_apart(daemon, peer, other, connects))
            return true;
    return false;
}

/* When a session may begin, as far as time goes. */
static int64_t begins_at(const struct peer *peer)
{
    return later(peer->next_try, later(peer->waits_until, peer->rests_until));
}

/* Whether a new session may come: the last one is over, and no row by it forwards. Then a hello may be said, also to
 * one that is no neighbour any more, to hear the same of its rows. */
static bool may_begin(struct daemon *daemon, const struct peer *peer, bool connects)
{
    return peer->used && peer->config.address.s_addr && !peer->shut && !peer->leaving && !peer->stale && !daemon->blocked
           && (!daemon->kernel.installs || peer->index) && now_ms() >= begins_at(peer)
           && !is_doubtful(daemon, peer, connects);
}

void sessions_rows_are_new(struct daemon *daemon)
{
    for (struct peer *peer = daemon->peers; peer < peers_end(daemon); peer++) {
        if (!peer->stale || peer->leaving)
            continue;
        if (daemon->kernel.installs && peer->index)
            kernel_drop_waiting(daemon, peer);
        peer->stale = false;
    }
}

/* ---- what is sent */

void peer_put(struct daemon *daemon, struct peer *peer, const struct frame *frame)
{
    if (peer->out_from > 0 && peer->out_from + peer->out_count + FRAME_SIZE > QUEUE) {
        memmove(peer->out, peer->out + peer->out_from, peer->out_count);
        peer->out_from = 0;
    }
    if (peer->out_count + FRAME_SIZE > QUEUE) {
        peer_hang_up(daemon, peer, BY_SILENCE, "it does not read");
        return;
    }
    frame_write(frame, peer->out + peer->out_from + peer->out_count);
    if (peer->out_count == 0)
        peer->drained = now_ms();
    peer->out_count += FRAME_SIZE;
}

/* Writes what waits, as far as the neighbour takes it: whether the connection stands. */
static bool write_out(struct peer *peer)
{
    if (peer->fd < 0 || peer->state == PEER_CONNECTING || peer->out_count == 0)
        return true;
    ssize_t sent = send(peer->fd, peer->out + peer->out_from, peer->out_count, MSG_NOSIGNAL | MSG_DONTWAIT);
    bool stands = sent > 0 || errno == EAGAIN || errno == EINTR;
    peer->said = now_ms();
    if (sent > 0) {
        peer->drained = peer->said;
        peer->out_count -= (size_t)sent;
        peer->out_from = peer->out_count ? peer->out_from + (size_t)sent : 0;
    }
    return stands;
}

void sessions_flush(struct daemon *daemon, struct peer *peer)
{
    if (!write_out(peer))
        peer_hang_up(daemon, peer, BY_LINK, "the connection is lost");
}

static bool is_crowded(const struct peer *peer)
{
    return peer->state == PEER_UP && peer->out_count > QUEUE - QUEUE_KEPT;
}

/* A neighbour is told of every prefix when its session begins, which may be more than its queue takes. */
size_t sessions_room(struct daemon *daemon)
{
    size_t least = (QUEUE - QUEUE_KEPT) / FRAME_SIZE;
    for (struct peer *peer = daemon->peers; peer < daemon->peers + port_count(daemon); peer++) {
        if (is_crowded(peer))
            sessions_flush(daemon, peer);
        if (is_crowded(peer))
            return 0;
        size_t room = (QUEUE - QUEUE_KEPT - peer->out_count) / FRAME_SIZE + 1;
        least = peer->state == PEER_UP && room < least ? room : least;
    }
    return least;
}

/* A hello, and the terms behind it. */
static void write_greeting(const struct daemon *daemon, const struct peer *peer, unsigned char bytes[2 * FRAME_SIZE])
{
    const struct frame hello = {.type = FRAME_HELLO, .kind = FIRST_VERSION, .number = peer->last,
                                .addr = ntohl(daemon->config.router_id.s_addr)};
    const struct frame terms = {.type = FRAME_TERMS, .kind = FRAME_VERSION, .value = daemon->config.dead_ms};
    frame_write(&hello, bytes);
    frame_write(&terms, bytes + FRAME_SIZE);
}

/* ---- beginnings of sessions */

/* What is wrong with a hello; NULL: nothing. One that names a session far ahead would use up numbers. A process that
 * has just begun knows of no session, and believes its neighbour. */
static const char *wrong_hello(const struct daemon *daemon, const struct peer *peer, const struct frame *hello)
{
    if (hello->type != FRAME_HELLO)
        return "a frame is not due";
    if (hello->addr == ntohl(daemon->config.router_id.s_addr))
        return "it has the router id of this router";
    if (hello->number > (peer->last ? peer->last + FAR_AHEAD : UINT16_MAX - FAR_AHEAD) || hello->number == UINT16_MAX)
        return "it names a session that is far ahead";
    return NULL;
}

/* It is no neighbour any more, and no row of it leads here: its filter goes, unless another needs it. Its port is free once
 * it was told so, or another port of its address tells it all, or it does not listen for too long. */
static void release(struct daemon *daemon, struct peer *peer, int64_t now)
{
    bool is_elsewhere = peer_of(daemon, peer->config.address);
    if (!peer->cleared && (!kernel_mark(daemon, peer, false) || !kernel_filter(daemon, peer, false)))
        return;
    if (!peer->cleared) {
        peer->cleared = now;
        /* Whoever is left there alone need not be told apart any more. */
        if (sharing_has_one(daemon, peer->interface))
            sharing_write(daemon);
    }
    if (!peer->told && !is_elsewhere && now - peer->cleared <= MOST_PARTING_MS)
        return;
    if (!is_elsewhere)
        unsign(daemon, peer);
    drop_connections(daemon, peer, "it is gone");
    router_leave_share(daemon, peer);
    peer->used = false;
}

/* Whoever has this address has said hello, so none of its rows leads here: also not by an interface at which it was
 * before. */
static void clear_of_rows(struct daemon *daemon, struct in_addr address)
{
    for (struct peer *peer = daemon->peers; peer < peers_end(daemon); peer++) {
        if (!peer->used || !peer->removed || peer->config.address.s_addr != address.s_addr)
            continue;
        if (peer->marked)
            say(LOG_NOTICE, "%s: it is gone, and no row of it leads here by %s any more", peer->name, peer->interface);
        peer->marked = false;
        if (!peer->leaving && !peer->stale)
            release(daemon, peer, now_ms());
    }
}

static const struct frame PARTING = {.type = FRAME_PARTING, .kind = FRAME_VERSION};

/* One that is no neighbour any more has said hello over this connection. It is told to part, and the connection stays until
 * it closes it: then it has read that. */
static void part(struct daemon *daemon, struct peer *peer)
{
    if (!peer->parted)
        peer_put(daemon, peer, &PARTING);
    peer->parted = peer->fd >= 0;
    clear_of_rows(daemon, peer->config.address);
}

/* Whether the other end has read all that was sent to it. One that closes without that resets the connection. */
static bool is_read(int fd)
{
    int left = 0;
    return ioctl(fd, SIOCOUTQ, &left) == 0 && left == 0;
}

/* Who connects, and is to have no session, is told so. What it has said is read first, or the kernel would throw this
 * away, too. A neighbour says no more than its greeting before it is answered. Whoever says more is not read to its end, which
 * may never come. */
static void say_parting(int fd)
{
    unsigned char bytes[FRAME_SIZE], read[4 * FRAME_SIZE];
    frame_write(&PARTING, bytes);
    ssize_t got = recv(fd, read, sizeof read, MSG_DONTWAIT);
    ssize_t sent = send(fd, bytes, sizeof bytes, MSG_NOSIGNAL | MSG_DONTWAIT);
    (void)got;
    (void)sent;
}

/* It has no session with this router, and no row of it leads here. */
static void note_parting(struct daemon *daemon, struct peer *peer)
{
    if (peer->removed) {
        peer->told = true;
        clear_of_rows(daemon, peer->config.address);
        return;
    }
    peer_hang_up(daemon, peer, BY_LINK, "it parts");
    if (peer->marked)
        say(LOG_NOTICE, "%s: it parts, and no row of it leads here", peer->name);
    kernel_mark(daemon, peer, false);
}

/* Signs of life come three times in the time after which the other end takes silence for an end, or as often as we say
 * them to all. */
static void agree(const struct daemon *daemon, struct peer *peer)
{
    uint32_t alive_ms = daemon->config.alive_ms, third = peer->greeting.dead_ms / 3;
    peer->alive_ms = third && third < alive_ms ? third : alive_ms;
    if (peer->greeting.version == FIRST_VERSION)
        say(LOG_WARNING, "%s: it speaks version %d of the protocol: upgrade it, since it lets packets in by time alone when a "
            "neighbour is taken out", peer->name, FIRST_VERSION);
}

/* From now on the neighbour may have rows that lead here, and that is noted first, also on the disk: whether it is. */
static bool is_noted(struct daemon *daemon, struct peer *peer)
{
    unsigned char found[LINK_ADDRESS] = {0};
    sharing_find_link_address(daemon, peer, found);
    daemon->marks.due |= peer->marked && memcmp(found, peer->link_address, LINK_ADDRESS) != 0;
    memcpy(peer->link_address, found, LINK_ADDRESS);
    if (!kernel_mark(daemon, peer, true))
        peer_hang_up(daemon, peer, BY_LINK, "that it has a session cannot be noted");
    marks_save(daemon);
    return peer->state == PEER_GREETING && marks_stand(daemon);
}

/* Both ends have said which session they had last: the next after both begins. After 65535 there is none. That the
 * other end said hello tells that it has no row by an old session, so what comes in from it may be let in. A sign of life
 * tells the end that connects that this one is in the session. The other end has answered this one's hello, so carrier was there
 * since losses were counted. */
static void begin_session(struct daemon *daemon, struct peer *peer)
{
    struct frame alive = {.type = FRAME_ALIVE};
    uint16_t named = peer->greeting.hello.number, last = named > peer->last ? named : peer->last;
    clear_of_rows(daemon, peer->config.address);
    peer->last = (uint16_t)(last + (last < UINT16_MAX));
    uint32_t status = router_link_up(daemon, peer);
    if (status != TUHVONDI_DONE) {
        say(LOG_ERR, "%s: no session %u: %s", peer->name, peer->last, tuhvondi_status_text(status));
        peer_hang_up(daemon, peer, status == TUHVONDI_NO_MEMORY ? BY_LINK : BY_FAULT, "no session begins");
        return;
    }
    peer->state = PEER_UP;
    peer->begun = now_ms();
    peer->counters.sessions++;
    say(LOG_NOTICE, "%s: session %u", peer->name, peer->last);
    if (!peer->signs_as_before)
        forget_former(peer);
    agree(daemon, peer);
    control_tell_peer(daemon, peer, "up");
    if (!kernel_has_carrier(daemon, peer))
        peer_hang_up(daemon, peer, BY_LINK, "its interface has no carrier");
    else if (!kernel_filter(daemon, peer, false))
        peer_hang_up(daemon, peer, BY_LINK, "what comes in from it is still dropped");
    else
        peer_put(daemon, peer, &alive);
    sessions_keep_alive(daemon);
}

/* Hellos go there and back over links that may be long, whatever is agreed on for the session. */
static int64_t greeting_patience(const struct daemon *daemon)
{
    return daemon->config.dead_ms > GREETING_MS ? (int64_t)daemon->config.dead_ms : GREETING_MS;
}

/* ---- connections that go from here */

/* A socket has one secret for an address, also while it is connected: another one takes its place. */
static bool sign(int fd, struct in_addr with, const char *secret)
{
    struct tcp_md5sig key = {.tcpm_keylen = (uint16_t)strlen(secret)};
    struct sockaddr_in address = {.sin_family = AF_INET, .sin_addr = with};
    memcpy(&key.tcpm_addr, &address, sizeof address);
    memcpy(key.tcpm_key, secret, key.tcpm_keylen);
    bool done = setsockopt(fd, IPPROTO_TCP, TCP_MD5SIG, &key, sizeof key) == 0;
    explicit_bzero(&key, sizeof key);
    return done;
}

bool sessions_set_secret(int fd, const struct neighbour *neighbour)
{
    return sign(fd, neighbour->address, neighbour->secret);
}

static bool set_options(const struct daemon *daemon, const struct peer *peer, int fd)
{
    int one = 1, ttl = OWN_TTL;
    setsockopt(fd, IPPROTO_TCP, TCP_NODELAY, &one, sizeof one);
    setsockopt(fd, IPPROTO_IP, IP_TTL, &ttl, sizeof ttl);
    if (peer->config.ttl_security)
        setsockopt(fd, IPPROTO_IP, IP_MINTTL, &ttl, sizeof ttl);
    return kernel_bind(daemon, peer, fd);
}

static struct sockaddr_in endpoint(struct in_addr address, uint16_t port)
{
    return (struct sockaddr_in){.sin_family = AF_INET, .sin_port = htons(port), .sin_addr = address};
}

/* An attempt to connect, signed by this secret, if there is one; -1: there is none. */
static int begin_to_connect(const struct daemon *daemon, const struct peer *peer, const char *secret)
{
    struct sockaddr_in from = endpoint(daemon->config.listen, 0), to = endpoint(peer->config.address, TCP_PORT);
    int fd = socket(AF_INET, SOCK_STREAM | SOCK_NONBLOCK | SOCK_CLOEXEC, 0);
    if (fd < 0)
        return -1;
    if (set_options(daemon, peer, fd) && (!*secret || sign(fd, to.sin_addr, secret))
        && !bind(fd, (struct sockaddr *)&from, sizeof from)
        && (!connect(fd, (struct sockaddr *)&to, sizeof to) || errno == EINPROGRESS))
        return fd;
    close(fd);
    return -1;
}

/* While the other end may have the former secret alone, each other attempt is signed by that. */
static void try_to_connect(struct daemon *daemon, struct peer *peer)
{
    peer->signs_as_before = peer->former[0] && !peer->signs_as_before;
    peer->fd = begin_to_connect(daemon, peer, peer->signs_as_before ? peer->former : peer->config.secret);
    peer->heard = now_ms();
    if (peer->fd >= 0) {
        peer->next_try = peer->heard + RETRY_MS;
        peer->state = PEER_CONNECTING;
        return;
    }
    peer->tried = "it does not answer";
    back_off(peer, BY_LINK);
}

/* The attempt to connect is over: each end says which session the link had last. It also says by this that no row of
 * that session forwards. To one that is no neighbour any more nothing is said until it has said hello, so no session
 * begins. */
static void connected(struct daemon *daemon, struct peer *peer)
{
    struct sockaddr_in to;
    socklen_t size = sizeof to;
    if (getpeername(peer->fd, (struct sockaddr *)&to, &size)) {
        peer_hang_up(daemon, peer, BY_LINK, "it does not answer");
        return;
    }
    if (is_doubtful(daemon, peer, false)) {
        peer_hang_up(daemon, peer, BY_LINK, "another that was there has yet to be heard");
        return;
    }
    stop(&peer->late);
    peer->state = PEER_GREETING;
    peer->heard = now_ms();
    peer->greeting = (struct greeting){.version = FIRST_VERSION};
    peer->carrier_losses = kernel_carrier_losses(daemon, peer);
    if (peer->removed)
        return;
    write_greeting(daemon, peer, peer->out);
    peer->out_count = (size_t)2 * FRAME_SIZE;
}

/* An answer may take longer than CONNECT_MS. So one attempt goes on, as long as hellos may take, and later ones begin beside
 * it as if it were over. Where there are two secrets, each has its turn. */
static void set_aside(struct peer *peer)
{
    bool has_turn = !peer->former[0] || peer->signs_as_before != peer->late_signs_as_before;
    if (peer->late < 0 && has_turn) {
        peer->late = peer->fd;
        peer->late_since = peer->heard;
        peer->late_signs_as_before = peer->signs_as_before;
    } else {
        close(peer->fd);
    }
    peer->tried = "it is silent";
    back_off(peer, BY_LINK);
    be_idle(peer);
}

/* Since it began there was no session, so what a hello says holds as it did then. */
static void look_at_late(struct daemon *daemon, struct peer *peer, int64_t now)
{
    struct sockaddr_in to;
    int error = 0;
    socklen_t size = sizeof to, error_size = sizeof error;
    if (peer->late < 0 || daemon->blocked)
        return;
    if (getpeername(peer->late, (struct sockaddr *)&to, &size) == 0) {
        stop(&peer->fd);
        peer->fd = peer->late;
        peer->late = -1;
        peer->signs_as_before = peer->late_signs_as_before;
        connected(daemon, peer);
    } else if (getsockopt(peer->late, SOL_SOCKET, SO_ERROR, &error, &error_size) || error
               || now - peer->late_since > greeting_patience(daemon)) {
        stop(&peer->late);
    }
}

/* ---- secrets that change */

/* Those who wait to be accepted have come by the former secret. A connection cannot begin to be signed, or end it. */
void peer_sign_anew(struct daemon *daemon, struct peer *peer, const char *secret)
{
    bool signs_on = peer->config.secret[0] && *secret;
    sessions_accept(daemon);
    drop_candidates(peer);
    if (peer->state != PEER_UP || !signs_on)
        peer_hang_up(daemon, peer, BY_OPERATOR, "its secret is another now");
    if (!signs_on || (peer->config.passive && peer->state != PEER_UP)) {
        forget_former(peer);
        return;
    }
    if (!peer->former[0])
        memcpy(peer->former, peer->config.secret, sizeof peer->former);
    peer->signs_as_before = true;
    peer->asked = 0;
}

/* A connection by the new secret has shown to each end that the other has it, too, so each signs by it from now on. What one end
 * sends before the other has done so is dropped there, and TCP sends it again. */
static void renew(struct daemon *daemon, struct peer *peer)
{
    stop(&peer->asking);
    forget_former(peer);
    peer->signs_as_before = false;
    if (sessions_set_secret(peer->fd, &peer->config))
        say(LOG_NOTICE, "%s: session %u goes on by the new secret", peer->name, peer->last);
    else
        peer_hang_up(daemon, peer, BY_OPERATOR, "its secret is another now");
}

/* How long an answer takes over a connection that goes on, as TCP has measured it. */
static int64_t round_trip(int fd)
{
    struct tcp_info info = {0};
    socklen_t size = sizeof info;
    return getsockopt(fd, IPPROTO_TCP, TCP_INFO, &info, &size) ? 0 : info.tcpi_rtt / 1000;
}

/* The end that connects asks by a connection that says nothing. One that has another secret does not answer it. */
static void ask_for_secret(struct daemon *daemon, struct peer *peer, int64_t now)
{
    struct sockaddr_in to;
    int error = 0;
    socklen_t size = sizeof to, error_size = sizeof error;
    if (peer->asking < 0 && now - peer->asked >= ASK_MS) {
        peer->asking = begin_to_connect(daemon, peer, peer->config.secret);
        peer->asked = now;
    }
    if (peer->asking < 0)
        return;
    if (getpeername(peer->asking, (struct sockaddr *)&to, &size) == 0)
        renew(daemon, peer);
    else if (getsockopt(peer->asking, SOL_SOCKET, SO_ERROR, &error, &error_size) || error
             || now - peer->asked > CONNECT_MS + 2 * round_trip(peer->fd))
        stop(&peer->asking);
}

/* ---- what neighbours send */

static void note_terms(struct greeting *greeting, const struct frame *terms)
{
    greeting->version = terms->kind;
    greeting->dead_ms = terms->value;
}

/* Each end has said hello when a session begins, and each has heard of the other since. The end that connects is answered by
 * the first frame of the session, which the other sends once it is in it; until then it may have gone on with an older
 * connection. An empty answer: the disk has yet to take the mark. */
static const char *take_while_greeting(struct daemon *daemon, struct peer *peer, const struct frame *frame)
{
    struct frame alive = {.type = FRAME_ALIVE};
    const char *wrong = peer->greeted ? NULL : wrong_hello(daemon, peer, frame);
    if (wrong)
        return wrong;
    if (peer->removed) {
        part(daemon, peer);
    } else if (peer->greeted) {
        if (!is_noted(daemon, peer))
            return peer->state == PEER_GREETING ? "" : NULL;
        begin_session(daemon, peer);
    } else {
        peer->greeting.hello = *frame;
        peer->greeted = true;
        peer_put(daemon, peer, &alive);
    }
    return NULL;
}

/* Gives a message to the router. Why it is refused, if it is; an empty answer: there was no memory for it. */
static const char *take_message(struct daemon *daemon, struct peer *peer, const struct frame *frame)
{
    uint32_t status = router_take(daemon, peer, frame);
    peer->lets_in |= status == TUHVONDI_DONE;
    return status == TUHVONDI_DONE ? NULL : status == TUHVONDI_NO_MEMORY ? "" : tuhvondi_status_text(status);
}

/* Takes a frame. What is wrong with it, if anything; an empty answer asks for it again later. */
static const char *take_frame(struct daemon *daemon, struct peer *peer, const unsigned char *bytes)
{
    struct frame frame;
    const char *wrong = frame_read(bytes, &frame);
    if (wrong || peer->parted)
        return peer->parted ? NULL : wrong;
    if (frame.type == FRAME_PARTING) {
        note_parting(daemon, peer);
        return NULL;
    }
    if (frame.type == FRAME_TERMS && peer->state == PEER_GREETING && peer->greeted
        && peer->greeting.version == FIRST_VERSION) {
        note_terms(&peer->greeting, &frame);
        return NULL;
    }
    bool is_late = peer->state == PEER_UP || peer->greeted;
    if (frame.type == FRAME_ANNOUNCEMENT || frame.type == FRAME_TERMS || (is_late && frame.type == FRAME_HELLO))
        return "a frame is not due";
    if (peer->state == PEER_GREETING) {
        wrong = take_while_greeting(daemon, peer, &frame);
        if (wrong || peer->state != PEER_UP)
            return wrong;
    }
    if (frame.type == FRAME_MESSAGE)
        return take_message(daemon, peer, &frame);
    if (frame.type == FRAME_WAIT)
        router_excuse(daemon, peer, &frame);
    if (frame.type == FRAME_TRACE)
        trace_begin(daemon, &(struct trace){.asked = frame.number, .from = port_of(daemon, peer)}, frame.addr,
                    frame.kind);
    if (frame.type == FRAME_ROUTER)
        trace_answered(daemon, peer, &frame);
    return NULL;
}

/* Takes the frames that are there, whole. */
static void take_frames(struct daemon *daemon, struct peer *peer)
{
    while (peer->fd >= 0 && peer->in_count - peer->in_from >= FRAME_SIZE) {
        const char *wrong = take_frame(daemon, peer, peer->in + peer->in_from);
        if (wrong && !*wrong)
            return;
        if (peer->fd >= 0)
            peer->in_from += FRAME_SIZE;
        if (wrong)
            peer_hang_up(daemon, peer, BY_FAULT, wrong);
    }
    memmove(peer->in, peer->in + peer->in_from, peer->in_count - peer->in_from);
    peer->in_count -= peer->in_from;
    peer->in_from = 0;
}

/* ---- connections that come here */

/* Which neighbour connects is known only afterwards, so what one asks for holds of all. */
void sessions_set_ttl(int fd, const struct config *config)
{
    int own = OWN_TTL, least = 0;
    for (size_t i = 0; i < config->neighbour_count; i++)
        least = config->neighbours[i].ttl_security ? OWN_TTL : least;
    setsockopt(fd, IPPROTO_IP, IP_TTL, &own, sizeof own);
    setsockopt(fd, IPPROTO_IP, IP_MINTTL, &least, sizeof least);
}

/* When the host begins, its addresses may come later than the daemon. */
static int bind_to(int fd, const struct sockaddr_in *here)
{
    int one = 1, failed = bind(fd, (const struct sockaddr *)here, sizeof *here);
    if (!failed || errno != EADDRNOTAVAIL)
        return failed;
    say(LOG_WARNING, "listen: this host does not have the address yet");
    setsockopt(fd, IPPROTO_IP, IP_FREEBIND, &one, sizeof one);
    return bind(fd, (const struct sockaddr *)here, sizeof *here);
}

int sessions_listen(struct daemon *daemon)
{
    struct sockaddr_in here = endpoint(daemon->config.listen, TCP_PORT);
    int fd = socket(AF_INET, SOCK_STREAM | SOCK_NONBLOCK | SOCK_CLOEXEC, 0), one = 1;
    setsockopt(fd, SOL_SOCKET, SO_REUSEADDR, &one, sizeof one);
    sessions_set_ttl(fd, &daemon->config);
    for (size_t i = 0; i < daemon->config.neighbour_count; i++) {
        const struct neighbour *neighbour = &daemon->config.neighbours[i];
        if (neighbour->secret[0] && !sessions_set_secret(fd, neighbour)) {
            say(LOG_ERR, "secret: this kernel has no MD5 option of TCP: %s", strerror(errno));
            return -1;
        }
    }
    if (bind_to(fd, &here) || listen(fd, 64)) {
        say(LOG_ERR, "listen: port %d: %s", TCP_PORT, strerror(errno));
        return -1;
    }
    return fd;
}

static void greet(const struct daemon *daemon, const struct peer *peer, struct candidate *candidate)
{
    unsigned char bytes[2 * FRAME_SIZE];
    candidate->carrier_losses = kernel_carrier_losses(daemon, peer);
    write_greeting(daemon, peer, bytes);
    candidate->greeted = send(candidate->fd, bytes, sizeof bytes, MSG_NOSIGNAL | MSG_DONTWAIT) == sizeof bytes;
    if (!candidate->greeted)
        drop(candidate);
}

/* A free place, or that of the oldest which has said no hello: a neighbour says its own at once. */
static struct candidate *place_for(struct peer *peer)
{
    struct candidate *oldest = NULL;
    for (struct candidate *candidate = peer->candidates; candidate < peer->candidates + CANDIDATES; candidate++) {
        if (candidate->fd < 0)
            return candidate;
        if (!candidate->proved && (!oldest || candidate->since < oldest->since))
            oldest = candidate;
    }
    complain_of(peer, "there are too many from its address");
    if (oldest)
        drop(oldest);
    return oldest;
}

/* Whether no row leads to whoever connects, and is to have no session: one who is shut, or a stranger. That one may have
 * been a neighbour, and the port of a neighbour is free only then. */
static bool may_part(struct daemon *daemon, const struct peer *peer, struct in_addr from)
{
    if (peer)
        return peer->shut && peer->state == PEER_IDLE && !peer->leaving && !peer->stale;
    return kernel_is_free(daemon, from);
}

/* A neighbour that is to connect is known by its address. That alone ends nothing: a session goes on until the new
 * connection has said a hello that fits, and the old one is closed or silent. */
static void accept_one(struct daemon *daemon, int fd, struct in_addr from)
{
    struct peer *peer = peer_of(daemon, from);
    if (!peer)
        peer = removed_of(daemon, from);
    if (peer && !peer->config.passive)
        complain_of(peer, "it connects, and is not passive in the configuration");
    if (!peer || !peer->config.passive || peer->shut) {
        daemon->strangers += !peer;
        if (may_part(daemon, peer, from))
            say_parting(fd);
        close(fd);
        return;
    }
    if (peer->state == PEER_UP && peer->signs_as_before)
        renew(daemon, peer);
    struct candidate *place = place_for(peer);
    if (!place || !set_options(daemon, peer, fd)) {
        close(fd);
        return;
    }
    *place = (struct candidate){.fd = fd, .since = now_ms(), .greeting = {.version = FIRST_VERSION}};
}

/* Without a free descriptor the connection stays in the queue, and the loop would be woken for it at once, again and
 * again. So nobody is accepted for a moment. */
int accept_from(struct daemon *daemon, int listener, struct sockaddr_in *from)
{
    socklen_t size = sizeof *from;
    int fd = accept4(listener, (struct sockaddr *)from, from ? &size : NULL, SOCK_NONBLOCK | SOCK_CLOEXEC);
    if (fd < 0 && (errno == EMFILE || errno == ENFILE || errno == ENOBUFS || errno == ENOMEM)) {
        if (now_ms() - daemon->accepts_at > COMPLAIN_MS)
            say(LOG_WARNING, "a connection has to wait: %s", strerror(errno));
        daemon->accepts_at = now_ms() + ACCEPT_MS;
    }
    return fd;
}

void sessions_accept(struct daemon *daemon)
{
    for (int i = 0; i < ACCEPTS; i++) {
        struct sockaddr_in from = {0};
        int fd = accept_from(daemon, daemon->listener, &from);
        if (fd < 0)
            return;
        accept_one(daemon, fd, from.sin_addr);
    }
}

/* The hello of a connection has come. If a session goes on, its connection is asked for a sign of life: a neighbour
 * that has begun anew answers that it knows nothing of it. */
static void prove(struct daemon *daemon, struct peer *peer, struct candidate *candidate)
{
    struct frame frame, alive = {.type = FRAME_ALIVE};
    const char *wrong = frame_read(candidate->in, &frame);
    if (!wrong && frame.type == FRAME_PARTING && candidate->greeted && peer->state != PEER_UP) {
        drop(candidate);
        note_parting(daemon, peer);
        return;
    }
    if (!wrong)
        wrong = wrong_hello(daemon, peer, &frame);
    if (wrong) {
        complain_of(peer, wrong);
        drop(candidate);
        return;
    }
    candidate->greeting.hello = frame;
    candidate->proved = true;
    candidate->proved_at = now_ms();
    if (peer->state == PEER_UP)
        peer_put(daemon, peer, &alive);
}

/* Takes a hello, and the terms behind it. What comes behind these is the session's, and tells that the other end has read
 * our hello over this connection. */
static void take_greeting(struct daemon *daemon, struct peer *peer, struct candidate *candidate)
{
    while (candidate->fd >= 0 && !candidate->answered && candidate->in_count - candidate->in_from >= FRAME_SIZE) {
        const unsigned char *bytes = candidate->in + candidate->in_from;
        struct frame frame;
        if (!candidate->proved)
            prove(daemon, peer, candidate);
        else if (!frame_read(bytes, &frame) && frame.type == FRAME_TERMS && candidate->greeting.version == FIRST_VERSION)
            note_terms(&candidate->greeting, &frame);
        else
            candidate->answered = true;
        if (candidate->fd >= 0 && !candidate->answered)
            candidate->in_from += FRAME_SIZE;
    }
}

void sessions_read_candidates(struct daemon *daemon, struct peer *peer)
{
    for (struct candidate *candidate = peer->candidates; candidate < peer->candidates + CANDIDATES; candidate++) {
        if (candidate->fd < 0 || candidate->answered)
            continue;
        ssize_t got = recv(candidate->fd, candidate->in + candidate->in_count, sizeof candidate->in - candidate->in_count,
                           MSG_DONTWAIT);
        if (got == 0 || (got < 0 && errno != EAGAIN && errno != EINTR)) {
            if (candidate->in_count % FRAME_SIZE)
                complain_of(peer, "it closed in the middle of a frame");
            drop(candidate);
        } else if (got > 0) {
            candidate->in_count += (size_t)got;
            take_greeting(daemon, peer, candidate);
        }
    }
}

/* The connection becomes the neighbour's, and its session begins; one that is no neighbour any more parts. */
static void adopt(struct daemon *daemon, struct peer *peer, struct candidate *candidate)
{
    peer->fd = candidate->fd;
    peer->greeting = candidate->greeting;
    peer->carrier_losses = candidate->carrier_losses;
    peer->in_count = candidate->in_count - candidate->in_from;
    memcpy(peer->in, candidate->in + candidate->in_from, peer->in_count);
    candidate->fd = -1;
    for (struct candidate *other = peer->candidates; other < peer->candidates + CANDIDATES; other++)
        drop(other);
    stop(&peer->late);
    peer->state = PEER_GREETING;
    peer->heard = now_ms();
    peer->greeted = true;
    peer->signs_as_before = false;
    take_frames(daemon, peer);
}

/* Looks whether a connection may take the place of the session that goes on: not while that one is heard. */
static void compare(struct daemon *daemon, struct peer *peer, struct candidate *candidate, int64_t now)
{
    if (peer->heard > candidate->proved_at) {
        complain_of(peer, "the session goes on over another");
        drop(candidate);
    } else if (now - candidate->proved_at > (int64_t)daemon->config.dead_ms * 2 / 3) {
        peer_hang_up(daemon, peer, BY_LINK, "it connects anew");
    }
}

static void tick_candidates(struct daemon *daemon, struct peer *peer, int64_t now)
{
    for (struct candidate *candidate = peer->candidates; candidate < peer->candidates + CANDIDATES; candidate++) {
        if (candidate->fd >= 0 && (peer->shut || now - candidate->since > greeting_patience(daemon)))
            drop(candidate);
        if (candidate->fd >= 0 && candidate->proved && peer->state == PEER_UP)
            compare(daemon, peer, candidate, now);
        if (candidate->fd >= 0 && !candidate->greeted && peer->state == PEER_IDLE && may_begin(daemon, peer, false))
            greet(daemon, peer, candidate);
        if (candidate->fd >= 0 && candidate->greeted && candidate->answered && peer->state == PEER_IDLE
            && may_begin(daemon, peer, false)) {
            adopt(daemon, peer, candidate);
            return;
        }
    }
}

void sessions_read(struct daemon *daemon, struct peer *peer, bool writable)
{
    if (peer->state == PEER_CONNECTING) {
        if (writable)
            connected(daemon, peer);
        return;
    }
    if (peer->in_count - peer->in_from < FRAME_SIZE) {
        ssize_t got = recv(peer->fd, peer->in + peer->in_count, sizeof peer->in - peer->in_count, MSG_DONTWAIT);
        if (got < 0 && (errno == EAGAIN || errno == EINTR))
            return;
        if (got <= 0) {
            if (got == 0 && peer->parted && is_read(peer->fd))
                peer->told = true;
            peer_hang_up(daemon, peer, BY_LINK, peer->in_count ? "it closed in the middle of a frame" : "it closed");
            return;
        }
        peer->in_count += (size_t)got;
        peer->heard = now_ms();
    }
    take_frames(daemon, peer);
}

/* ---- time */

/* How long the other end may be silent now. One of the first version was not told of our time. */
static int64_t patience(const struct daemon *daemon, const struct peer *peer)
{
    if (peer->state == PEER_CONNECTING)
        return CONNECT_MS;
    if (peer->state == PEER_GREETING || peer->greeting.version == FIRST_VERSION)
        return greeting_patience(daemon);
    return daemon->config.dead_ms;
}

/* Whoever configures two ends with two secrets sees nothing else: the kernel drops what is not signed as it has to be. */
static void miss(struct peer *peer, int64_t now)
{
    bool is_missed = is_somebody(peer) && !peer->shut && (peer->state != PEER_UP || peer->signs_as_before);
    if (!is_missed || !peer->missed) {
        peer->missed = is_missed ? now + MISSED_MS : 0;
        return;
    }
    if (now < peer->missed)
        return;
    peer->missed = now + HOUR_MS;
    if (peer->state == PEER_UP)
        say(LOG_WARNING, "%s: it does not have the new secret, so its session goes on by the former one", peer->name);
    else
        say(LOG_WARNING, "%s: there is no session: %s%s", peer->name, peer->tried ? peer->tried : "it does not connect",
            peer->config.secret[0] ? "; its secret may be another" : "");
}

/* Whether it was silent for so long that its session is over. What lies in its socket is yet to be read, if this daemon itself stood
 * still when it came. */
static bool is_silent(const struct daemon *daemon, const struct peer *peer, int64_t now)
{
    bool has_frame = peer->in_count - peer->in_from >= FRAME_SIZE;
    int unread = 0;
    return now - peer->heard > patience(daemon, peer) && (has_frame || ioctl(peer->fd, FIONREAD, &unread) || unread == 0);
}

static void tick_peer(struct daemon *daemon, struct peer *peer, int64_t now)
{
    struct frame alive = {.type = FRAME_ALIVE};
    miss(peer, now);
    if (peer->leaving && !daemon->blocked)
        tell_down(daemon, peer);
    if (peer->state == PEER_UP && peer->lost)
        peer_hang_up(daemon, peer, BY_LINK, "the kernel takes no route by it");
    if (peer->state == PEER_CONNECTING && !daemon->blocked && now - peer->heard > CONNECT_MS)
        set_aside(peer);
    look_at_late(daemon, peer, now);
    if (peer->state != PEER_IDLE && !daemon->blocked && is_silent(daemon, peer, now))
        peer_hang_up(daemon, peer, BY_SILENCE, "it is silent");
    if (is_crowded(peer) && now - peer->drained > (int64_t)daemon->config.dead_ms)
        peer_hang_up(daemon, peer, BY_SILENCE, "it does not read");
    tick_candidates(daemon, peer, now);
    bool connects = !peer->config.passive || (peer->removed && now - peer->heard > PARTING_MS);
    if (peer->state == PEER_IDLE && connects && may_begin(daemon, peer, true))
        try_to_connect(daemon, peer);
    if (peer->state == PEER_UP && peer->out_count == 0 && now - peer->said >= (int64_t)peer->alive_ms)
        peer_put(daemon, peer, &alive);
    if (peer->state == PEER_UP && peer->signs_as_before && !peer->config.passive && !daemon->blocked)
        ask_for_secret(daemon, peer, now);
    if (peer->used && peer->removed && !peer->marked && !peer->leaving && !peer->stale)
        release(daemon, peer, now);
}

/* A turn may take longer than neighbours wait, or a service manager. That a connection is lost is found at the end of the turn: who
 * asks for this may be in the middle of something that an end of a session would change. */
void sessions_keep_alive(struct daemon *daemon)
{
    const struct frame alive = {.type = FRAME_ALIVE};
    int64_t now = now_ms();
    if (now == daemon->kept_alive)
        return;
    daemon->kept_alive = now;
    service_watch(now);
    for (struct peer *peer = daemon->peers; peer < peers_end(daemon); peer++) {
        if (!peer->used || peer->state != PEER_UP || now - peer->said < (int64_t)peer->alive_ms)
            continue;
        if (peer->out_count == 0)
            peer_put(daemon, peer, &alive);
        write_out(peer);
    }
}

/* A router that tells its neighbours nothing new is none to them: whoever awaits a reply would wait for ever. */
static void end_blocked(struct daemon *daemon)
{
    for (struct peer *peer = daemon->peers; peer < peers_end(daemon); peer++)
        if (peer->used && peer->state != PEER_IDLE)
            peer_hang_up(daemon, peer, BY_LINK, "rows have been waiting for the kernel for too long");
}

void sessions_tick(struct daemon *daemon, int64_t now)
{
    if (daemon->blocked && now - daemon->blocked_at > (int64_t)daemon->config.dead_ms)
        end_blocked(daemon);
    kernel_ask_for_carrier(daemon, now);
    for (struct peer *peer = daemon->peers; peer < peers_end(daemon); peer++)
        if (peer->used)
            tick_peer(daemon, peer, now);
    marks_save(daemon);
}

static int64_t earlier(int64_t one, int64_t other)
{
    return one < other ? one : other;
}

/* When something of the neighbour is due next. What was refused is tried again soon. An attempt to connect that was due
 * for a while waits for something else than time. */
static int64_t deadline_of(const struct daemon *daemon, const struct peer *peer, int64_t now)
{
    int64_t next = now + IDLE_MS, begins = begins_at(peer);
    if (peer->leaving || peer->stale || peer->lost || (peer->removed && !peer->marked))
        next = now + SOON_MS;
    if (peer->state != PEER_IDLE)
        next = earlier(next, peer->heard + patience(daemon, peer) + 1);
    else if (!peer->config.passive && begins > now - SOON_MS)
        next = earlier(next, begins);
    if (peer->state == PEER_UP)
        next = earlier(next, peer->said + peer->alive_ms);
    if (peer->state == PEER_UP && daemon->kernel.installs)
        next = earlier(next, daemon->kernel.next_carrier);
    for (size_t i = 0; i < CANDIDATES; i++)
        if (peer->candidates[i].fd >= 0)
            next = earlier(next, now + SOON_MS / 2);
    return next;
}

int64_t sessions_deadline(const struct daemon *daemon, int64_t now)
{
    int64_t next = now + IDLE_MS;
    for (const struct peer *peer = daemon->peers; peer < daemon->peers + daemon->peer_count; peer++)
        if (peer->used)
            next = earlier(next, deadline_of(daemon, peer, now));
    return next > now ? next : now + 1;
}

/* ---- neighbours that come and go */

/* A port goes on behind its sessions, also for another neighbour, because the router takes no session twice. So a
 * neighbour gets the port again that it had. Another gets the one whose number is lowest, because it refuses a number
 * that is far ahead of its own. */
static struct peer *free_port(struct daemon *daemon, struct in_addr address)
{
    struct peer *found = NULL;
    for (struct peer *peer = daemon->peers; peer < daemon->peers + TUHVONDI_PORTS; peer++) {
        if (peer->used)
            continue;
        if (address.s_addr && peer->config.address.s_addr == address.s_addr)
            return peer;
        if (!found || peer->last < found->last)
            found = peer;
    }
    return found;
}

/* One that is to get no session needs no port of the router, so it takes none away from a neighbour. */
static struct peer *free_place(struct daemon *daemon)
{
    for (struct peer *peer = daemon->peers + TUHVONDI_PORTS; peer < daemon->peers + PLACES; peer++)
        if (!peer->used)
            return peer;
    return NULL;
}

/* The neighbour has a port, or a place behind the ports if that will do; NULL: there is none for it. */
static struct peer *take_port(struct daemon *daemon, const struct neighbour *neighbour, bool is_former)
{
    struct peer *peer = is_former ? free_place(daemon) : NULL;
    if (!peer)
        peer = free_port(daemon, neighbour->address);
    if (!peer)
        return NULL;
    uint16_t last = peer->last;
    memset(peer, 0, offsetof(struct peer, in));
    peer->config = *neighbour;
    peer->last = last;
    peer->fd = peer->asking = peer->late = -1;
    peer->next_try = now_ms();
    name_peer(peer);
    for (size_t i = 0; i < CANDIDATES; i++)
        peer->candidates[i].fd = -1;
    peer->used = true;
    if (peer >= peers_end(daemon))
        daemon->peer_count = (size_t)(peer - daemon->peers) + 1;
    return peer;
}

/* One that was removed is a neighbour again, before it has said anything. Its interface is looked up anew. */
static void take_back(struct daemon *daemon, struct peer *peer, const struct neighbour *neighbour)
{
    drop_connections(daemon, peer, "it is a neighbour again");
    forget_former(peer);
    if (!neighbour->secret[0])
        unsign(daemon, peer);
    peer->config = *neighbour;
    peer->removed = peer->told = false;
    peer->cleared = 0;
    peer->index = 0;
    peer->counters = (struct peer_counters){0};
    peer->faults = 0;
    peer_wake(peer);
}

/* One of a process before this one stays where it is until it is heard, and has a port besides. */
const char *peer_add(struct daemon *daemon, const struct neighbour *neighbour)
{
    struct peer *peer = neighbour->address.s_addr ? removed_of(daemon, neighbour->address) : NULL;
    bool was_removed = peer && port_of(daemon, peer) < TUHVONDI_PORTS;
    if (was_removed)
        take_back(daemon, peer, neighbour);
    else
        peer = take_port(daemon, neighbour, false);
    if (!peer)
        return "there are at most 32 neighbours, with those that are taken out and have yet to be heard";
    const char *wrong = kernel_find_interface(daemon, peer);
    if (wrong == kernel_no_interface) {
        say(LOG_WARNING, "%s: %s yet", peer->name, wrong);
        wrong = NULL;
    }
    peer->removed = wrong && was_removed;
    peer->used = !wrong || was_removed;
    return wrong;
}

/* What comes in from it is dropped until it has said hello once more, however long that takes: then none of its rows leads
 * here. So its secret stays as long. Who never had a session has no rows, so another may have its port at once. */
void peer_remove(struct daemon *daemon, struct peer *peer)
{
    drop_connections(daemon, peer, "it is no neighbour any more");
    peer->rests_until = 0;
    peer->removed = true;
    peer->told = !peer->marked;
    peer->shut = false;
    if (peer->marked)
        say(LOG_NOTICE, "%s: what comes in by %s is dropped until it says that no row of it leads here", peer->name,
            peer->interface);
    else if (!peer->leaving && !peer->stale)
        release(daemon, peer, now_ms());
}

/* It stands as one that was removed, if the configuration neither names it nor seeks neighbours on its interface. */
bool peer_inherit(struct daemon *daemon, const struct neighbour *neighbour, const char *interface,
                  const unsigned char *link_address)
{
    struct peer *found = NULL;
    for (struct peer *peer = daemon->peers; peer < peers_end(daemon); peer++) {
        bool is_it = peer->config.address.s_addr == neighbour->address.s_addr;
        if (peer->used && peer->marked && is_it && strcmp(peer->interface, interface) == 0) {
            if (link_address)
                memcpy(peer->link_address, link_address, LINK_ADDRESS);
            return true;
        }
        bool is_place = !peer->config.address.s_addr && strcmp(peer->config.interface, interface) == 0;
        if (peer->used && !peer->marked && (is_it || (is_place && !found)))
            found = peer;
    }
    if (found && !found->config.address.s_addr && !peer_give(daemon, found, neighbour->address))
        found = NULL;
    if (found && found->config.interface[0])
        found->config.passive = neighbour->passive;
    if (!found) {
        found = take_port(daemon, neighbour, true);
        if (!found)
            return false;
        found->removed = true;
        say(LOG_WARNING, "%s: it was a neighbour, and is none now: what comes in by %s is dropped until it says that no "
            "row of it leads here, or until `dualnetctl unfilter %s`", found->name, interface, interface);
    }
    snprintf(found->interface, sizeof found->interface, "%s", interface);
    if (link_address)
        memcpy(found->link_address, link_address, LINK_ADDRESS);
    found->marked = true;
    return true;
}

bool peer_leave_behind(struct daemon *daemon, struct peer *peer)
{
    struct peer *left = take_port(daemon, &peer->config, true);
    if (!left)
        return false;
    left->removed = left->marked = true;
    memcpy(left->interface, peer->interface, sizeof left->interface);
    memcpy(left->link_address, peer->link_address, sizeof left->link_address);
    left->filtered = peer->filtered;
    /* Of one that is none any more it is not known at which of both it is. */
    peer->marked = peer->removed;
    peer->filtered = false;
    daemon->marks.due = true;
    say(LOG_NOTICE, "%s: what comes in by %s, where it was, is dropped until its next session", peer->name,
        left->interface);
    return kernel_filter(daemon, left, true);
}

bool peer_unfilter(struct daemon *daemon, const char *interface)
{
    bool found = false;
    for (struct peer *peer = daemon->peers; peer < peers_end(daemon); peer++) {
        bool is_gone = peer->removed || (peer->config.interface[0] && peer->state != PEER_UP);
        if (!peer->used || !peer->marked || !is_gone || strcmp(peer->interface, interface) != 0)
            continue;
        if (!kernel_mark(daemon, peer, false))
            continue;
        found = true;
        peer->told = true;
        if (!peer->removed)
            peer_give(daemon, peer, (struct in_addr){0});
    }
    return found;
}

/* It has no session now. Packets may wait for its link address, as after a session. */
bool peer_give(struct daemon *daemon, struct peer *peer, struct in_addr address)
{
    unsign(daemon, peer);
    drop_connections(daemon, peer, "it is no neighbour any more");
    forget_former(peer);
    router_leave_share(daemon, peer);
    peer->config.address = address;
    bool done = !address.s_addr || !peer->config.secret[0] || sessions_set_secret(daemon->listener, &peer->config);
    if (!done)
        peer->config.address.s_addr = 0;
    name_peer(peer);
    peer->config.passive = false;
    peer->counters = (struct peer_counters){0};
    peer->attempts = peer->faults = peer->shorts = peer->silences = 0;
    peer->rests_until = 0;
    peer->stale = true;
    peer->over = now_ms();
    return done;
}
