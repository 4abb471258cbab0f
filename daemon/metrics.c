/* Counters in Prometheus' text form, at a local port where the configuration asks for it. */
#include "daemon.h"

#include <arpa/inet.h>
#include <errno.h>
#include <inttypes.h>
#include <string.h>
#include <sys/socket.h>

bool metrics_open(struct daemon *daemon)
{
    const struct config *config = &daemon->config;
    struct sockaddr_in here = {.sin_family = AF_INET, .sin_port = htons((uint16_t)config->metrics_port),
                               .sin_addr = config->metrics_address};
    int one = 1;
    if (!config->metrics_port)
        return true;
    daemon->metrics = socket(AF_INET, SOCK_STREAM | SOCK_NONBLOCK | SOCK_CLOEXEC, 0);
    setsockopt(daemon->metrics, SOL_SOCKET, SO_REUSEADDR, &one, sizeof one);
    if (bind(daemon->metrics, (struct sockaddr *)&here, sizeof here) || listen(daemon->metrics, 16)) {
        say(LOG_ERR, "metrics: port %u: %s", (unsigned)config->metrics_port, strerror(errno));
        return false;
    }
    return true;
}

static void put_head(struct text *out, const char *name, const char *type, const char *help)
{
    text_put(out, "# HELP dualnetd_%s %s\n# TYPE dualnetd_%s %s\n", name, help, name, type);
}

static void put(struct text *out, const char *name, const char *type, const char *help, uint64_t value)
{
    put_head(out, name, type, help);
    text_put(out, "dualnetd_%s %" PRIu64 "\n", name, value);
}

static void put_messages(struct daemon *daemon, struct text *out, const char *name, const char *help, bool told)
{
    static const char *const KINDS[] = {"update", "query", "reply"};
    put_head(out, name, "counter", help);
    for (const struct peer *peer = daemon->peers; peer < peers_end(daemon); peer++)
        for (size_t kind = 0; is_somebody(peer) && kind < 3; kind++)
            text_put(out, "dualnetd_%s{neighbour=\"%s\",kind=\"%s\"} %" PRIu64 "\n", name, peer->name, KINDS[kind],
                     told ? peer->counters.told[kind] : peer->counters.taken[kind]);
}

static void put_peers(struct daemon *daemon, struct text *out, const size_t awaited[TUHVONDI_PORTS])
{
    put_head(out, "neighbour_up", "gauge", "1 while the session of the neighbour is up.");
    for (const struct peer *peer = daemon->peers; peer < peers_end(daemon); peer++)
        if (is_somebody(peer))
            text_put(out, "dualnetd_neighbour_up{neighbour=\"%s\"} %d\n", peer->name, peer->state == PEER_UP);
    put_head(out, "sessions_total", "counter", "Sessions that began.");
    for (const struct peer *peer = daemon->peers; peer < peers_end(daemon); peer++)
        if (is_somebody(peer))
            text_put(out, "dualnetd_sessions_total{neighbour=\"%s\"} %" PRIu64 "\n", peer->name,
                     peer->counters.sessions);
    put_head(out, "replies_awaited", "gauge", "Prefixes of which a reply of the neighbour is awaited.");
    for (const struct peer *peer = daemon->peers; peer < peers_end(daemon); peer++)
        if (is_somebody(peer))
            text_put(out, "dualnetd_replies_awaited{neighbour=\"%s\"} %zu\n", peer->name,
                     awaited[port_of(daemon, peer)]);
    put_head(out, "reports_left_total", "counter", "Reports of prefixes that were not taken, since they are too many.");
    for (const struct peer *peer = daemon->peers; peer < peers_end(daemon); peer++)
        if (is_somebody(peer))
            text_put(out, "dualnetd_reports_left_total{neighbour=\"%s\"} %" PRIu64 "\n", peer->name,
                     peer->counters.left);
}

/* Interfaces on which what comes in is dropped because rows of a neighbour that is none any more may lead here. */
static uint64_t removed_count(const struct daemon *daemon)
{
    uint64_t count = 0;
    for (size_t i = 0; i < daemon->peer_count; i++)
        count += daemon->peers[i].used && daemon->peers[i].removed && daemon->peers[i].marked;
    return count;
}

void metrics_answer(struct daemon *daemon, struct client *client)
{
    struct text body = {0};
    struct tuhvondi_counts counts = {0};
    size_t awaited[TUHVONDI_PORTS] = {0};
    int64_t oldest = router_oldest(daemon, now_ms(), awaited);
    tuhvondi_router_counts(&daemon->router.machine, &counts);
    client->state = CLIENT_ANSWERED;
    put_peers(daemon, &body, awaited);
    put_messages(daemon, &body, "messages_taken_total", "Messages of neighbours that were taken, by kind.", false);
    put_messages(daemon, &body, "messages_told_total", "Messages that were sent to neighbours, by kind.", true);
    put(&body, "prefixes", "gauge", "Prefixes that the router knows.", counts.prefixes);
    put(&body, "active_prefixes", "gauge", "Prefixes whose computation is under way.", daemon->router.active);
    put(&body, "oldest_active_milliseconds", "gauge", "How long the oldest computation has been under way.",
        (uint64_t)oldest);
    put(&body, "late_replies_total", "counter", "Sessions that ended because a reply was owed for too long.",
        daemon->router.late);
    put(&body, "removed_neighbours", "gauge", "Neighbours that are gone, and whose interface is filtered.",
        removed_count(daemon));
    put(&body, "computations_total", "counter", "Diffusing computations that began.", daemon->router.computations);
    put(&body, "longest_computation_milliseconds", "gauge", "The longest computation that ended.",
        (uint64_t)daemon->router.longest_ms);
    put(&body, "publications_total", "counter", "Publications of rows.", counts.generation);
    put(&body, "kernel_routes_set_total", "counter", "Routes that the kernel took.", daemon->kernel.set);
    put(&body, "kernel_routes_refused_total", "counter", "Routes that the kernel refused.", daemon->kernel.refused);
    put(&body, "kernel_routes_repaired_total", "counter", "Prefixes whose routes others changed.",
        daemon->kernel.repaired);
    put(&body, "announcements_refused_total", "counter", "Announcements that were not taken.", daemon->refused);
    put(&body, "blocked", "gauge", "1 while published rows do not forward yet.", daemon->blocked);
    text_put(&client->out, "HTTP/1.0 200 OK\r\nContent-Type: text/plain; version=0.0.4\r\nContent-Length: %zu\r\n"
             "Connection: close\r\n\r\n%s", body.count, body.count ? body.bytes : "");
    text_free(&body);
}
