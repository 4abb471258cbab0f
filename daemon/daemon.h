/* The daemon's state, which is handed about, and what each room offers to the others. */
#ifndef DUALNETD_DAEMON_H
#define DUALNETD_DAEMON_H

#include "config.h"
#include "frames.h"
#include "log.h"
#include "netlink.h"
#include "prefixes.h"
#include "text.h"
#include "tuhvondi_router.h"

#include <ifaddrs.h>
#include <net/if.h>
#include <netinet/in.h>
#include <sys/stat.h>

enum {
    TCP_PORT = 6187,
    PART = 256,         /* rows that are put in force at a time */
    QUEUE = 1 << 20,    /* bytes that wait for a neighbour at most */
    QUEUE_KEPT = 1 << 16, /* of these, for what is no message of the router */
    CANDIDATES = 4,     /* connections of a neighbour that have yet to prove themselves */
    TRACES = 64,        /* traces on their way at a time */
    CLIENTS = 40,       /* that ask at the control socket, or for metrics, at a time */
    METRICS_CLIENTS = 8, /* of these, those for metrics */
    CLIENT_MS = 10000,  /* without progress, after which a client is left */
    ACCEPT_MS = 200,    /* without new connections, after there was no descriptor for one */
    MONITOR_BYTES = 1 << 20, /* that wait for a client that follows changes */
    FORGET_MS = 1000,   /* between looks for prefixes to forget */
    CHECK_MS = 30000,   /* between looks at what the kernel has */
    CARRIER_MS = 100,   /* between questions for carrier */
    LINK_ADDRESS = 6,   /* bytes of one of Ethernet */
    MOST_FOUND = 4096,  /* subnets of interfaces and routes of others that are attached at a time */
    FAR_AHEAD = 1000,   /* sessions: a hello that names one so far ahead is refused */
    PLACES = 2 * TUHVONDI_PORTS, /* the router's ports, and behind them places for neighbours of a process before */
};

/* ---- neighbours */

enum peer_state { PEER_IDLE, PEER_CONNECTING, PEER_GREETING, PEER_UP };

/* How a session ends: by what fails on the way, by a neighbour that says or reads nothing, that breaks the protocol or owes a
 * reply for too long, or by the operator. */
enum ending { BY_LINK, BY_SILENCE, BY_FAULT, BY_DEBT, BY_OPERATOR };

/* What an end said when a connection began: its hello, and the terms behind it (version FIRST_VERSION: there were none). */
struct greeting {
    struct frame hello;
    uint8_t version;
    uint32_t dead_ms;
};

/* A connection from the neighbour's address, which ends nothing until it has said a hello that fits. `greeted`: it was
 * told ours. `proved`: its hello has come, at `proved_at`. `answered`: a frame came behind its greeting, which nobody sends
 * before he has read ours. */
struct candidate {
    int fd;
    bool greeted, proved, answered;
    struct greeting greeting;
    int64_t since, proved_at, carrier_losses;
    size_t in_count, in_from;
    unsigned char in[3 * FRAME_SIZE];
};

/* Messages by kind: update, query, reply. */
struct peer_counters {
    uint64_t taken[3], told[3], sessions, faults, left; /* reports of prefixes that were not taken */
};

/* A neighbour: the port of its number. `last`: the session that the link had last. `leaving`: the link went down, and
 * the router could not be told yet. `stale`: rows by the last session may still forward. With routes in the kernel it
 * is reached by the interface `index`; `filtered`: what comes in by it is dropped; `lost`: the kernel refused a
 * route. `marked`: it had a session, so rows of it may lead here until it says hello again. `removed`: it is no
 * neighbour any more, and its filter goes once it is not marked: at `cleared`. Then its port goes once it is `told`, so that
 * it need not ask when our line goes there. `parted`: it was told so over `fd`. `greeted`: its hello has come over `fd`, and
 * was answered. `waits_until`: after faults, no session before; `rests_until`: nor before that, after several that
 * ended soon. `alive_ms`: between signs of life, which may be less than ours for its sake. `said`: when something was last given to
 * the socket, or it was full. `crowded`: there was a line of prefixes that were left. `former`: the secret before the one of the
 * configuration, as long as the other end may have no other. `signs_as_before`: `fd` signs by it; then the end that connects finds
 * out by the connection `asking`, begun at `asked`, whether the other end has the new one. `late`: an attempt to connect that goes
 * on beside later ones while there is no hello, begun at `late_since` and signed as before if `late_signs_as_before`. Of one that is
 * sought: `announced`, when it said last that it is there; `over`, since when there is no session. */
struct peer {
    struct neighbour config;
    char name[INET_ADDRSTRLEN], interface[IF_NAMESIZE], former[SECRET_SIZE];
    bool used, shut, removed, marked, told, leaving, stale, filtered, lost, lets_in, crowded, greeted, parted, signs_as_before,
        late_signs_as_before;
    enum peer_state state;
    int fd, asking, late;
    uint16_t last;
    unsigned char link_address[LINK_ADDRESS];
    unsigned index, attempts, faults, shorts, silences, complaints;
    uint32_t reported; /* prefixes of which it told a finite distance last */
    uint32_t alive_ms;
    int64_t heard, said, drained, begun, next_try, waits_until, rests_until, complained, announced, over, cleared, asked, late_since;
    int64_t carrier_losses; /* of its interface, before this end said hello over `fd`; -1: they are not counted */
    struct greeting greeting;
    const char *why, *tried; /* the last session ended; the last attempt did */
    int64_t missed; /* when a line is due that there is no session */
    size_t in_count, in_from, out_count, out_from;
    struct candidate candidates[CANDIDATES];
    struct peer_counters counters;
    unsigned char in[256 * FRAME_SIZE], out[QUEUE];
};

/* A trace that went on from here, to the port `next`, by this number. It was asked for by the port `from`, by its own
 * number, or else (-1) by a client. `left`: routers that it may still pass. */
struct trace {
    bool used;
    uint8_t left;
    uint16_t number, asked;
    int from, next;
    uint64_t client;
    int64_t until;
};

/* An interface on which neighbours are sought. The socket `fd` is of the interface of the number `index`. Announcements
 * go from the address `own` (zero: there is none), and come from those beside `base`. `told`: of what there was a line. */
struct segment {
    char interface[IF_NAMESIZE];
    int fd;
    unsigned index, told;
    struct in_addr own, base, mask;
};

/* What came to a segment. A size of more than a frame tells that it was longer. */
struct announcement {
    struct in_addr from;
    int ttl;
    size_t size;
    unsigned char bytes[FRAME_SIZE + 1];
};

/* ---- clients */

enum client_state { CLIENT_ASKS, CLIENT_WAITS, CLIENT_ANSWERED, CLIENT_FOLLOWS };

struct client {
    bool used, for_metrics, json;
    enum client_state state;
    int fd;
    uint64_t number;
    int64_t since; /* of its last progress */
    size_t in_count, out_from;
    char in[512];
    struct text out;
};

/* ---- the whole */

/* `check_due`: the kernel may have lost something, and nothing is released until it was seen. `tables_due`: the
 * table of shared interfaces could not be written, so all that comes in by them is dropped where anybody is to be. `has_source`: the address of the
 * configuration is one of this host, so routes may name it. */
struct kernel {
    bool installs, check_due, tables_due, has_source;
    int requests, dumps, links, routes, lock, device; /* sockets; `device` is for questions about interfaces */
    int tables, table_notices; /* of nf_tables; -1: there is none */
    uint32_t number, port, table_number, table_port;
    int64_t next_check, next_carrier, complained;
    uint64_t set, refused, repaired; /* routes */
};

struct router {
    struct tuhvondi_router machine;
    /* What forwards, and a handle of it for look-ups, which is let go of while it changes. */
    struct tuhvondi_image image, reader;
    /* Rows that were published and do not forward yet: until they do, nothing is released. */
    struct tuhvondi_row rows[PART];
    size_t row_count;
    /* How many prefixes it may know, and room for a list of all their rows, and of those that forward. */
    size_t most_known;
    struct tuhvondi_row *known;
    /* Prefixes that may be forgotten, found up to `forgets_from`; `forgets_all`: up to the end. */
    struct tuhvondi_prefix *forgets, forgets_from;
    size_t forget_count;
    bool forgets_all;
    uint64_t generation;
    uint64_t computations, forgotten, late;
    size_t active, brought[TUHVONDI_PORTS]; /* prefixes: whose computation is under way, that a neighbour had it know */
    int64_t longest_ms, next_look;
};

/* The file of `state`. `known`: it was there at the start, so it tells of each neighbour that had a session. `due`: it is to be
 * written, and could not be yet where it `failed`. `writes`: a thread writes it, `since` when, and `done` can be read at its
 * end. */
struct marks {
    bool known, due, failed, writes;
    int done;
    int64_t next_try, since;
};

/* `blocked`: published rows do not forward yet, since `blocked_at`, so the router is told nothing. */
struct daemon {
    struct config config;
    const char *path;
    struct router router;
    struct kernel kernel;
    struct prefixes prefixes;
    struct peer peers[PLACES];
    size_t peer_count; /* places that are, or were, in use */
    struct segment segments[TUHVONDI_PORTS];
    size_t segment_count;
    int64_t next_announcement;
    uint64_t refused; /* announcements */
    struct trace traces[TRACES];
    uint16_t trace_number;
    struct client clients[CLIENTS];
    uint64_t client_number;
    int listener, control, metrics;
    dev_t control_device;
    ino_t control_inode;
    struct marks marks;
    bool blocked, drains, install_asked; /* by the command line */
    struct tuhvondi_attachment found[MOST_FOUND]; /* what is attached because the host has it, in the order of prefixes */
    size_t found_count;
    int64_t next_forget, next_found, accepts_at, blocked_at, kept_alive;
    uint64_t strangers; /* connections from addresses of no neighbour */
};

static inline uint8_t port_of(const struct daemon *daemon, const struct peer *peer)
{
    return (uint8_t)(peer - daemon->peers);
}

static inline struct peer *peers_end(struct daemon *daemon)
{
    return daemon->peers + daemon->peer_count;
}

/* Of the places in use, those that are ports of the router. */
static inline size_t port_count(const struct daemon *daemon)
{
    return daemon->peer_count < TUHVONDI_PORTS ? daemon->peer_count : TUHVONDI_PORTS;
}

/* Whether somebody is at the port: where a neighbour is sought, perhaps nobody was found. */
static inline bool is_somebody(const struct peer *peer)
{
    return peer->used && !peer->removed && peer->config.address.s_addr;
}

static inline bool is_in_session(const struct peer *peer, uint16_t session)
{
    return peer->state == PEER_UP && peer->last == session;
}

/* ---- router.c: calls of the library */

bool router_open(struct daemon *daemon);
void router_close(struct daemon *daemon);
/* Has published rows forward, and shares the image: whether all do. */
bool router_forward(struct daemon *daemon);
/* Publishes until nothing is due, and then releases: whether all is done. */
bool router_publish_and_release(struct daemon *daemon);
/* Forgets what may be forgotten, and takes its rows out of the kernel: whether that is done. */
bool router_forget(struct daemon *daemon);
uint32_t router_take(struct daemon *daemon, struct peer *peer, const struct frame *frame);
uint32_t router_link_up(struct daemon *daemon, struct peer *peer);
uint32_t router_link_down(struct daemon *daemon, struct peer *peer);
uint32_t router_cost(struct daemon *daemon, struct peer *peer, uint32_t cost);
/* The costs of all links, after what the router is to others has changed. */
uint32_t router_costs(struct daemon *daemon);
uint32_t router_attach(struct daemon *daemon, const struct tuhvondi_attachment *attachment);
/* The same of what the host has, which may be more than there is room for. */
uint32_t router_attach_found(struct daemon *daemon, const struct tuhvondi_attachment *attachment);
uint32_t router_detach(struct daemon *daemon, uint32_t addr, uint8_t len);
/* Another neighbour may come to the port, and has the port's share for itself: what this one had the router know counts for those
 * who still tell of it. */
void router_leave_share(struct daemon *daemon, const struct peer *peer);
/* The neighbour says that it waits for others itself. */
void router_excuse(struct daemon *daemon, const struct peer *peer, const struct frame *frame);
/* Looks after computations that take long: tells of them, and ends the sessions of those who owe replies for too long. */
void router_tick(struct daemon *daemon, int64_t now);
/* How long the oldest computation under way has taken, and how many replies are awaited of each port. */
int64_t router_oldest(struct daemon *daemon, int64_t now, size_t awaited[TUHVONDI_PORTS]);

/* ---- sessions.c */

/* What is wrong, if the neighbour cannot be had; NULL: nothing. */
const char *peer_add(struct daemon *daemon, const struct neighbour *neighbour);
void peer_remove(struct daemon *daemon, struct peer *peer);
/* A process before this one had a session with a neighbour of this address, whose link address may be known: whether there is
 * a place for it. */
bool peer_inherit(struct daemon *daemon, const struct neighbour *neighbour, const char *interface,
                  const unsigned char *link_address);
/* The neighbour is reached by another interface now. Its rows may lead here by the one that it had: whether there is a place
 * that keeps the filter there. */
bool peer_leave_behind(struct daemon *daemon, struct peer *peer);
/* The operator knows that no row leads here by the interface, of neighbours that are none any more: whether there was one. */
bool peer_unfilter(struct daemon *daemon, const char *interface);
/* The port is that of the neighbour which was found at this address, or (0) of nobody: whether it can be. */
bool peer_give(struct daemon *daemon, struct peer *peer, struct in_addr address);
struct peer *peer_of(struct daemon *daemon, struct in_addr address);
void peer_put(struct daemon *daemon, struct peer *peer, const struct frame *frame);
void peer_hang_up(struct daemon *daemon, struct peer *peer, enum ending ending, const char *why);
/* The interface works again: an attempt to connect need not wait. */
void peer_wake(struct peer *peer);
/* It is to have no session until it is woken. */
void peer_shut(struct daemon *daemon, struct peer *peer);
/* The configuration is about to have this secret for it (empty: none), which the listening socket has already: its session goes on
 * by the former one until the other end has the new one, too. */
void peer_sign_anew(struct daemon *daemon, struct peer *peer, const char *secret);
void sessions_accept(struct daemon *daemon);
/* The next connection of a listening socket, or -1. */
int accept_from(struct daemon *daemon, int listener, struct sockaddr_in *from);
void sessions_read(struct daemon *daemon, struct peer *peer, bool writable);
void sessions_read_candidates(struct daemon *daemon, struct peer *peer);
void sessions_flush(struct daemon *daemon, struct peer *peer);
/* How many messages more the queue of each neighbour takes. */
size_t sessions_room(struct daemon *daemon);
void sessions_tick(struct daemon *daemon, int64_t now);
/* Says the signs of life that are due, where a turn may be long. No session ends by it. */
void sessions_keep_alive(struct daemon *daemon);
/* All rows in force are of present sessions: what was stale is not any more. */
void sessions_rows_are_new(struct daemon *daemon);
int64_t sessions_deadline(const struct daemon *daemon, int64_t now);
/* A socket that listens, or -1. */
int sessions_listen(struct daemon *daemon);
/* Gives the listening socket the secret of a neighbour: whether the kernel takes it. */
bool sessions_set_secret(int fd, const struct neighbour *neighbour);
/* The listening socket takes only what passed no router, if a neighbour asks for that. */
void sessions_set_ttl(int fd, const struct config *config);

/* ---- discover.c */

/* Seeks neighbours on the interfaces that the configuration names, and on no others. */
void discover_begin(struct daemon *daemon, const struct config *config);
void discover_take(struct daemon *daemon, struct segment *segment, const struct announcement *heard);
void discover_read(struct daemon *daemon);
void discover_tick(struct daemon *daemon, int64_t now);

/* ---- traces.c */

void trace_begin(struct daemon *daemon, const struct trace *asked, uint32_t addr, uint8_t hops);
void trace_answered(struct daemon *daemon, const struct peer *peer, const struct frame *frame);
void traces_tick(struct daemon *daemon, int64_t now);

/* ---- kernel.c */

bool kernel_open(struct daemon *daemon);
/* Whether no routes of a daemon that was killed stand, where this one has none in the kernel. */
bool kernel_is_clear(struct daemon *daemon);
/* Takes away what is the daemon's: whether nothing of it is left. */
bool kernel_close(struct daemon *daemon);
/* What is wrong, if anything. The neighbour's interface may come later where it is this: */
extern const char *const kernel_no_interface;
const char *kernel_find_interface(struct daemon *daemon, struct peer *peer);
/* Finds those of neighbours whose interface is not known yet. */
void kernel_find_interfaces(struct daemon *daemon);
/* Whether, by the addresses of this host, the neighbour's subnet is at another interface now, and no more at the one by which it is
 * reached. */
bool kernel_has_moved(const struct daemon *daemon, const struct peer *peer, const struct ifaddrs *list);
bool kernel_filter(struct daemon *daemon, struct peer *peer, bool drops);
/* Has the kernel keep in mind that the neighbour had a session, also when this process is gone, or forget it. */
bool kernel_mark(struct daemon *daemon, struct peer *peer, bool stands);
/* Looks whether the source of the configuration is an address of this host. */
void kernel_find_source(struct daemon *daemon);
bool kernel_is_free(struct daemon *daemon, struct in_addr address);
bool kernel_bind(const struct daemon *daemon, const struct peer *peer, int fd);
void kernel_drop_waiting(const struct daemon *daemon, const struct peer *peer);
/* How often the neighbour's interface has lost its carrier; -1: that is not counted. */
int64_t kernel_carrier_losses(const struct daemon *daemon, const struct peer *peer);
/* Whether it has not since `carrier_losses` of the neighbour was noted. */
bool kernel_has_carrier(const struct daemon *daemon, const struct peer *peer);
/* Ends sessions whose interfaces have lost their carrier, as soon as that is known. */
void kernel_ask_for_carrier(struct daemon *daemon, int64_t now);
/* Each is true when the kernel has done it. */
bool kernel_set_rows(struct daemon *daemon, const struct tuhvondi_row *rows, size_t count);
bool kernel_remove_row(struct daemon *daemon, uint32_t addr, uint8_t len);
bool kernel_check(struct daemon *daemon);
/* Takes each route of a protocol in the table of the configuration: whether these were all. */
bool kernel_each_route(struct daemon *daemon, uint8_t protocol, void *to, void take(void *to, const struct kernel_route *route));
void kernel_read_links(struct daemon *daemon);
void kernel_read_routes(struct daemon *daemon);

/* ---- marks.c */

bool marks_open(struct daemon *daemon);
/* Has the file written, if that is due, and sees whether it is. */
void marks_save(struct daemon *daemon);
/* Whether the file tells of all who are marked, or cannot. */
bool marks_stand(const struct daemon *daemon);
/* Waits a moment for what is being written, and writes what is due. */
void marks_close(struct daemon *daemon);

/* ---- connected.c */

/* Attaches subnets of interfaces that work, and routes of others, as the configuration says. */
void connected_tick(struct daemon *daemon, int64_t now);
bool connected_is_found(struct daemon *daemon, uint32_t addr, uint8_t len);

/* ---- sharing.c */

void sharing_open(struct daemon *daemon);
void sharing_close(struct daemon *daemon);
/* Whether several are at the interface: neighbours, or former ones whose rows may lead here. */
bool sharing_is_shared(const struct daemon *daemon, const char *interface);
/* Whether a neighbour of the interface is let in. */
bool sharing_has_one(const struct daemon *daemon, const char *interface);
/* Whether nobody else at its interface, whose rows may lead here, has the neighbour's link address. */
bool sharing_is_alone(const struct daemon *daemon, const struct peer *peer);
/* Whether neighbours can be told apart there. */
bool sharing_is_possible(const struct daemon *daemon, const char *interface);
/* Whether the kernel knows the neighbour's link address. */
bool sharing_find_link_address(const struct daemon *daemon, const struct peer *peer, unsigned char found[LINK_ADDRESS]);
/* Has the kernel let in those who are let in at shared interfaces, and nobody else there: whether it does. */
bool sharing_write(struct daemon *daemon);
void sharing_read(struct daemon *daemon);

/* ---- control.c, show.c, metrics.c */

bool control_open(struct daemon *daemon);
void control_close(struct daemon *daemon);
void control_accept(struct daemon *daemon, int listener, bool for_metrics);
void control_serve(struct daemon *daemon, struct client *client, short events);
void control_tick(struct daemon *daemon, int64_t now);
struct client *control_client(struct daemon *daemon, uint64_t number);
/* Tells those who follow changes. */
void control_tell_row(struct daemon *daemon, const struct tuhvondi_row *row);
void control_tell_peer(struct daemon *daemon, const struct peer *peer, const char *what);

/* Answers a question: false if it is none. */
bool show(struct daemon *daemon, struct client *client, size_t count, char **words);
void show_row(const struct daemon *daemon, struct text *out, const struct tuhvondi_row *row, bool json);
/* One router of a trace. */
void show_hop(struct text *out, bool json, uint32_t id, uint8_t end);

bool metrics_open(struct daemon *daemon);
void metrics_answer(struct daemon *daemon, struct client *client);

/* ---- privileges.c */

void service_tell(const char *what);
/* Tells a service manager that asks for it that the daemon lives, twice within the time after which that one would end it. */
void service_watch(int64_t now);
bool drop_privileges(bool installs);

/* ---- reload.c */

/* Reads the configuration at the daemon's path, and has it hold: whether nothing is wrong. Faults are written there (NULL:
 * nowhere), a line each. */
bool reload(struct daemon *daemon, struct text *faults);
bool reload_read(const char *path, struct config *config, struct text *faults);
/* Opens a regular file (else EINVAL): the loop would wait for whoever writes to a FIFO, perhaps for ever. */
FILE *reload_open(const char *path);
/* Reads the secret of a neighbour whose secret stands in a file: what is wrong; NULL: nothing. */
const char *reload_read_secret(struct neighbour *neighbour);

#endif
