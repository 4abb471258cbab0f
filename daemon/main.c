/* dualnetd: a routing daemon. One loop waits for sockets, signals and time. */
#include "daemon.h"

#include <errno.h>
#include <fcntl.h>
#include <poll.h>
#include <signal.h>
#include <stdlib.h>
#include <string.h>
#include <sys/select.h>
#include <sysexits.h>
#include <unistd.h>

/* Of which there is one, or none. */
enum single { LINKS, ROUTES, TABLES, MARKS, CONTROL, METRICS, LISTENER, SINGLES };

enum { BLOCKED_MS = 50, MOST_POLLS = SINGLES + TUHVONDI_PORTS + PLACES * (3 + CANDIDATES) + CLIENTS };

static volatile sig_atomic_t stopping, reloading;

/* ---- what the loop waits for */

/* What a descriptor is of, beside its place among those that are polled. */
struct polled {
    struct pollfd polls[MOST_POLLS];
    struct peer *peers[MOST_POLLS];
    struct client *clients[MOST_POLLS];
    nfds_t count, singles[SINGLES]; /* MOST_POLLS: it is not polled */
};

static void add(struct polled *polled, int fd, short events, struct peer *peer, struct client *client)
{
    polled->polls[polled->count] = (struct pollfd){fd, events, 0};
    polled->peers[polled->count] = peer;
    polled->clients[polled->count++] = client;
}

/* The kernel polls no more than there may be descriptors, so what is not there takes no place. */
static void add_single(struct polled *polled, enum single single, bool waits, int fd)
{
    polled->singles[single] = waits && fd >= 0 ? polled->count : MOST_POLLS;
    if (waits && fd >= 0)
        add(polled, fd, POLLIN, NULL, NULL);
}

static bool is_awake(const struct polled *polled, enum single single)
{
    return polled->singles[single] < MOST_POLLS && polled->polls[polled->singles[single]].revents;
}

/* While published rows do not forward, neighbours are not read. Nor is it looked whether they have closed: that would
 * wake the loop again and again, since it cannot act on it. */
static void gather(struct daemon *daemon, struct polled *polled)
{
    bool accepts = now_ms() >= daemon->accepts_at;
    polled->count = 0;
    add_single(polled, LINKS, daemon->kernel.installs, daemon->kernel.links);
    add_single(polled, ROUTES, daemon->kernel.installs, daemon->kernel.routes);
    add_single(polled, TABLES, daemon->kernel.installs, daemon->kernel.table_notices);
    add_single(polled, MARKS, daemon->marks.writes, daemon->marks.done);
    add_single(polled, CONTROL, accepts, daemon->control);
    add_single(polled, METRICS, accepts, daemon->metrics);
    add_single(polled, LISTENER, accepts && !daemon->blocked, daemon->listener);
    for (size_t i = 0; i < daemon->segment_count && !daemon->blocked; i++)
        if (daemon->segments[i].fd >= 0)
            add(polled, daemon->segments[i].fd, POLLIN, NULL, NULL);
    for (struct peer *peer = daemon->peers; peer < peers_end(daemon); peer++) {
        bool writes = peer->state == PEER_CONNECTING || peer->out_count > 0;
        if (!peer->used)
            continue;
        if (peer->fd >= 0 && (writes || !daemon->blocked))
            add(polled, peer->fd, (short)((daemon->blocked ? 0 : POLLIN) | (writes ? POLLOUT : 0)), peer, NULL);
        if (peer->asking >= 0 && !daemon->blocked)
            add(polled, peer->asking, POLLOUT, NULL, NULL);
        if (peer->late >= 0 && !daemon->blocked)
            add(polled, peer->late, POLLOUT, NULL, NULL);
        for (size_t i = 0; i < CANDIDATES && !daemon->blocked; i++)
            if (peer->candidates[i].fd >= 0 && !peer->candidates[i].answered)
                add(polled, peer->candidates[i].fd, POLLIN, NULL, NULL);
    }
    for (struct client *client = daemon->clients; client < daemon->clients + CLIENTS; client++) {
        bool reads = client->state == CLIENT_ASKS || client->state == CLIENT_FOLLOWS;
        bool writes = client->out_from < client->out.count;
        if (client->used)
            add(polled, client->fd, (short)((reads ? POLLIN : 0) | (writes ? POLLOUT : 0)), NULL, client);
    }
}

/* Milliseconds until something is due. */
static int patience(const struct daemon *daemon)
{
    int64_t now = now_ms(), next = sessions_deadline(daemon, now);
    if (daemon->blocked || daemon->kernel.check_due)
        next = now + BLOCKED_MS;
    if (next > daemon->next_forget)
        next = daemon->next_forget;
    if (daemon->config.connected_count + daemon->config.redistributed_count > 0 && next > daemon->next_found)
        next = daemon->next_found;
    if (daemon->segment_count > 0 && next > daemon->next_announcement)
        next = daemon->next_announcement;
    if (daemon->accepts_at > now && next > daemon->accepts_at)
        next = daemon->accepts_at;
    return next > now ? (int)(next - now) : 0;
}

/* ---- a turn */

/* What the kernel tells comes first: a link that is down is not read any more. Then come connections that stand,
 * since a new one may take the place of one that is closed. */
static void take(struct daemon *daemon, const struct polled *polled)
{
    if (is_awake(polled, LINKS))
        kernel_read_links(daemon);
    if (is_awake(polled, ROUTES))
        kernel_read_routes(daemon);
    if (is_awake(polled, TABLES))
        sharing_read(daemon);
    if (is_awake(polled, MARKS))
        marks_save(daemon);
    for (nfds_t i = 0; i < polled->count; i++) {
        struct peer *peer = polled->peers[i];
        const struct pollfd *at = &polled->polls[i];
        bool pending = peer && peer->in_count - peer->in_from >= FRAME_SIZE;
        if (peer && peer->fd == at->fd && !daemon->blocked && (pending || (at->revents & ~POLLOUT))) {
            sessions_read(daemon, peer, false);
            sessions_keep_alive(daemon);
        }
        if (peer && peer->fd == at->fd && peer->state == PEER_CONNECTING && (at->revents & POLLOUT))
            sessions_read(daemon, peer, true);
    }
    for (struct peer *peer = daemon->peers; peer < peers_end(daemon) && !daemon->blocked; peer++)
        if (peer->used)
            sessions_read_candidates(daemon, peer);
    if (!daemon->blocked)
        discover_read(daemon);
    if (is_awake(polled, LISTENER))
        sessions_accept(daemon);
}

static void serve(struct daemon *daemon, const struct polled *polled)
{
    for (nfds_t i = 0; i < polled->count; i++) {
        struct client *client = polled->clients[i];
        if (client && client->used && client->fd == polled->polls[i].fd && polled->polls[i].revents) {
            control_serve(daemon, client, polled->polls[i].revents);
            sessions_keep_alive(daemon);
        }
    }
    if (is_awake(polled, CONTROL))
        control_accept(daemon, daemon->control, false);
    if (is_awake(polled, METRICS))
        control_accept(daemon, daemon->metrics, true);
}

/* What was told is published, and set in the kernel; only then is it released, and may the router be told more. */
static void turn(struct daemon *daemon, const sigset_t *mask)
{
    static struct polled polled;
    int wait = patience(daemon);
    struct timespec limit = {wait / 1000, (long)(wait % 1000) * 1000000};
    gather(daemon, &polled);
    if (ppoll(polled.polls, polled.count, &limit, mask) < 0) {
        /* Where fewer descriptors are allowed than there are, nothing can be polled. It ends by a signal all the same. */
        if (errno != EINTR)
            pselect(0, NULL, NULL, NULL, &limit, mask);
        for (nfds_t i = 0; i < polled.count; i++)
            polled.polls[i].revents = 0;
    }
    /* What neighbours have sent since this moment is read at the next turn. So none is silent because this turn is long: a message
     * to the router, or an answer to a client, may be of very many prefixes. */
    int64_t now = now_ms();
    take(daemon, &polled);
    serve(daemon, &polled);
    if (reloading && !daemon->blocked) {
        reloading = 0;
        reload(daemon, NULL);
    }
    if (daemon->kernel.installs && now >= daemon->kernel.next_check && !daemon->kernel.check_due) {
        daemon->kernel.check_due = true;
        kernel_find_interfaces(daemon);
    }
    discover_tick(daemon, now);
    connected_tick(daemon, now);
    sessions_tick(daemon, now);
    traces_tick(daemon, now);
    control_tick(daemon, now);
    router_tick(daemon, now);
    daemon->blocked = !router_publish_and_release(daemon);
    daemon->blocked_at = !daemon->blocked ? 0 : daemon->blocked_at ? daemon->blocked_at : now;
    if (now >= daemon->next_forget) {
        bool done = daemon->blocked || router_forget(daemon);
        daemon->next_forget = done ? now + FORGET_MS : now;
    }
    for (struct peer *peer = daemon->peers; peer < peers_end(daemon); peer++)
        if (peer->used)
            sessions_flush(daemon, peer);
}

/* ---- begin and end */

static void on_signal(int number)
{
    if (number == SIGHUP)
        reloading = 1;
    else
        stopping = 1;
}

/* Signals come only while the loop waits: those that were blocked before stay so. A reload that comes in the first moments
 * waits for the first turn. */
static void take_signals(sigset_t *mask)
{
    static const int NUMBERS[] = {SIGTERM, SIGINT, SIGHUP};
    struct sigaction action = {.sa_handler = on_signal}, ignored = {.sa_handler = SIG_IGN};
    sigset_t own;
    sigemptyset(&own);
    for (size_t i = 0; i < sizeof NUMBERS / sizeof *NUMBERS; i++) {
        sigaction(NUMBERS[i], &action, NULL);
        sigaddset(&own, NUMBERS[i]);
    }
    sigaction(SIGPIPE, &ignored, NULL);
    sigprocmask(SIG_BLOCK, &own, mask);
    for (size_t i = 0; i < sizeof NUMBERS / sizeof *NUMBERS; i++)
        sigdelset(mask, NUMBERS[i]);
}

/* The port comes first: a second daemon of this configuration ends there, and has touched nothing. */
static bool begin(struct daemon *daemon)
{
    const struct config *config = &daemon->config;
    daemon->listener = sessions_listen(daemon);
    if (daemon->listener < 0 || !router_open(daemon) || !metrics_open(daemon))
        return false;
    for (size_t i = 0; i < config->attachment_count; i++) {
        uint32_t status = router_attach(daemon, &config->attachments[i]);
        if (status != TUHVONDI_DONE) {
            say(LOG_ERR, "a prefix is not attached: %s", tuhvondi_status_text(status));
            return false;
        }
    }
    for (size_t i = 0; i < config->neighbour_count; i++)
        peer_add(daemon, &config->neighbours[i]);
    discover_begin(daemon, config);
    if (!control_open(daemon))
        return false;
    if (!(config->installs ? kernel_open(daemon) : kernel_is_clear(daemon))) {
        control_close(daemon);
        return false;
    }
    return true;
}

static bool end(struct daemon *daemon)
{
    bool clean = kernel_close(daemon);
    marks_close(daemon);
    control_close(daemon);
    router_close(daemon);
    /* A thread that the disk does not let go of would keep them open, and no other daemon could begin. */
    close(daemon->listener);
    if (daemon->metrics >= 0)
        close(daemon->metrics);
    say(LOG_NOTICE, "stopped");
    return clean;
}

static int run(struct daemon *daemon, const sigset_t *mask)
{
    if (!begin(daemon)) {
        /* Who starts it by hand sees no line of syslog. */
        if (daemon->config.to_syslog) {
            log_to(false, LOG_ERR);
            say(LOG_ERR, "it cannot begin: syslog has the reason");
        }
        return 1;
    }
    say(LOG_INFO, "dualnetd %s begins: %zu neighbours, %zu prefixes%s", DUALNETD_VERSION,
        daemon->config.neighbour_count, daemon->config.attachment_count,
        daemon->kernel.installs ? ", routes in the kernel" : "");
    if (!drop_privileges(daemon->kernel.installs))
        say(LOG_WARNING, "privileges that are not needed are not dropped: %s", strerror(errno));
    /* Root may have written to a folder of another user, and may not any more: then a line says so now. */
    daemon->marks.due = daemon->kernel.installs;
    marks_save(daemon);
    service_tell("READY=1");
    if (daemon->kernel.installs && !daemon->config.state[0])
        say(LOG_NOTICE, "install: without a line `state' it is not known after a boot who had a session");
    while (!stopping) {
        turn(daemon, mask);
        service_watch(now_ms());
    }
    service_tell("STOPPING=1");
    return end(daemon) ? 0 : 1;
}

static const char USAGE[] = "usage: dualnetd CONFIG [--install] [--check]\n"
                            "       dualnetd --help | --version\n"
                            "\n"
                            "Runs one router of a network, as the file CONFIG says: dualnetd.conf(5) describes it.\n"
                            "\n"
                            "  --install  sets the kernel's routes, as the line `install yes' does\n"
                            "  --check    reads CONFIG, prints what is wrong with it, and ends\n"
                            "\n"
                            "Example: dualnetd /etc/dualnetd.conf --check\n";

/* Whoever starts a program may leave these three closed. A connection would get their numbers, and lines of the log. */
static void keep_standard_files(void)
{
    int fd;
    do
        fd = open("/dev/null", O_RDWR);
    while (fd >= 0 && fd <= STDERR_FILENO);
    close(fd);
}

/* What the words ask for: the configuration's path, or NULL if they are not understood. */
static const char *read_words(int count, char **words, bool *installs, bool *checks)
{
    const char *path = NULL;
    for (int i = 1; i < count; i++) {
        if (strcmp(words[i], "--install") == 0)
            *installs = true;
        else if (strcmp(words[i], "--check") == 0)
            *checks = true;
        else if (words[i][0] == '-' || path)
            return NULL;
        else
            path = words[i];
    }
    return path;
}

int main(int count, char **words)
{
    bool installs = false, checks = false;
    if (count == 2 && strcmp(words[1], "--help") == 0)
        return fputs(USAGE, stdout) < 0 || fflush(stdout);
    if (count == 2 && strcmp(words[1], "--version") == 0)
        return printf("dualnetd %s\n", DUALNETD_VERSION) < 0 || fflush(stdout);
    const char *path = read_words(count, words, &installs, &checks);
    if (!path) {
        fputs(USAGE, stderr);
        return 2;
    }
    sigset_t mask;
    keep_standard_files();
    take_signals(&mask);
    struct daemon *daemon = calloc(1, sizeof *daemon);
    if (!daemon) {
        say(LOG_ERR, "no memory");
        return 1;
    }
    daemon->path = path;
    daemon->listener = daemon->control = daemon->metrics = daemon->marks.done = -1;
    for (size_t i = 0; i < CLIENTS; i++)
        daemon->clients[i].fd = -1;
    /* A service manager need not try a configuration again that was refused: it has a status of its own. */
    int status = checks ? 1 : EX_CONFIG;
    if (reload_read(path, &daemon->config, NULL)) {
        daemon->install_asked = installs;
        daemon->config.installs |= installs;
        log_to(daemon->config.to_syslog, daemon->config.log_level);
        status = checks ? 0 : run(daemon, &mask);
    }
    free(daemon);
    return status;
}
