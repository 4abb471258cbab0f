/* The control socket: answers are made in memory and sent as the client reads, so a client that does not costs nobody
 * anything. */
#include "daemon.h"

#include <arpa/inet.h>
#include <errno.h>
#include <poll.h>
#include <string.h>
#include <sys/socket.h>
#include <unistd.h>

/* Of a command: a neighbour with each of its options has twelve, and there is `json`. */
enum { MOST_WORDS = 16 };

/* ---- the socket */

/* Whether somebody answers at the path, so that it is another daemon's. */
static bool is_alive(const struct sockaddr_un *address)
{
    int fd = socket(AF_UNIX, SOCK_STREAM | SOCK_NONBLOCK | SOCK_CLOEXEC, 0);
    bool alive = fd >= 0 && (connect(fd, (const struct sockaddr *)address, sizeof *address) == 0 || errno == EAGAIN);
    if (fd >= 0)
        close(fd);
    return alive;
}

/* A socket that nobody answers at was left by a daemon that was killed. Whatever else has the name stays. */
bool control_open(struct daemon *daemon)
{
    struct sockaddr_un address = {.sun_family = AF_UNIX};
    struct stat there;
    const char *path = daemon->config.control;
    memcpy(address.sun_path, path, sizeof address.sun_path);
    if (lstat(path, &there) == 0) {
        if (!S_ISSOCK(there.st_mode)) {
            say(LOG_ERR, "control %s: it is there, and is no socket", path);
            return false;
        }
        if (is_alive(&address)) {
            say(LOG_ERR, "control %s: another daemon answers there", path);
            return false;
        }
        unlink(path);
    }
    /* Members of the daemon's group may ask, and command: its folder may keep them out. */
    mode_t mask = umask(0117);
    daemon->control = socket(AF_UNIX, SOCK_STREAM | SOCK_NONBLOCK | SOCK_CLOEXEC, 0);
    bool bound = bind(daemon->control, (struct sockaddr *)&address, sizeof address) == 0;
    umask(mask);
    if (!bound || listen(daemon->control, 64) || lstat(path, &there)) {
        say(LOG_ERR, "control %s: %s", path, strerror(errno));
        return false;
    }
    daemon->control_device = there.st_dev;
    daemon->control_inode = there.st_ino;
    return true;
}

/* Takes the name away, if it is still that of this daemon's socket. */
void control_close(struct daemon *daemon)
{
    struct stat there;
    if (daemon->control < 0)
        return;
    if (lstat(daemon->config.control, &there) == 0 && there.st_dev == daemon->control_device
        && there.st_ino == daemon->control_inode)
        unlink(daemon->config.control);
    close(daemon->control);
    daemon->control = -1;
}

/* ---- clients */

static void leave(struct client *client)
{
    close(client->fd);
    text_free(&client->out);
    *client = (struct client){.fd = -1};
}

/* A free place, or that of the client of its kind which has made no progress for longest. Who can only ask for metrics,
 * perhaps from afar, takes no place of the control socket's. */
static struct client *place_for_client(struct daemon *daemon, bool for_metrics)
{
    struct client *first = daemon->clients + (for_metrics ? 0 : METRICS_CLIENTS), *oldest = first;
    const struct client *end = daemon->clients + (for_metrics ? METRICS_CLIENTS : CLIENTS);
    for (struct client *client = first; client < end; client++) {
        if (!client->used)
            return client;
        if (client->since < oldest->since)
            oldest = client;
    }
    leave(oldest);
    return oldest;
}

void control_accept(struct daemon *daemon, int listener, bool for_metrics)
{
    int fd = accept_from(daemon, listener, NULL);
    if (fd < 0)
        return;
    *place_for_client(daemon, for_metrics) = (struct client){.used = true, .for_metrics = for_metrics, .fd = fd,
                                                .number = ++daemon->client_number, .since = now_ms()};
}

struct client *control_client(struct daemon *daemon, uint64_t number)
{
    for (struct client *client = daemon->clients; client < daemon->clients + CLIENTS; client++)
        if (client->used && client->number == number)
            return client;
    return NULL;
}

/* ---- changes */

static const char *status_text(uint32_t status)
{
    return status == TUHVONDI_DONE ? NULL : tuhvondi_status_text(status);
}

static const char *change_cost(struct daemon *daemon, struct peer *peer, const char *word)
{
    uint32_t cost;
    if (!read_number(word, 1, 65535, &cost))
        return "a cost is a number from 1 to 65535";
    return status_text(router_cost(daemon, peer, cost));
}

static const char *change_prefix(struct daemon *daemon, size_t count, char **words)
{
    struct tuhvondi_attachment attachment;
    struct tuhvondi_prefix prefix;
    if (strcmp(words[0], "attach") == 0) {
        const char *wrong = config_attachment(count - 1, words + 1, &attachment);
        return wrong ? wrong : status_text(router_attach(daemon, &attachment));
    }
    if (count != 2)
        return "expected: detach PREFIX";
    const char *wrong = read_prefix(words[1], &prefix);
    return wrong ? wrong : status_text(router_detach(daemon, prefix.addr, prefix.len));
}

static const char *add_neighbour(struct daemon *daemon, struct neighbour *neighbour)
{
    const char *wrong = reload_read_secret(neighbour);
    if (wrong)
        return wrong;
    if (peer_of(daemon, neighbour->address))
        return "it is a neighbour already";
    if (!config_has_list(&daemon->config, neighbour->list))
        return "the configuration has no line of this list";
    if (neighbour->secret[0] && !sessions_set_secret(daemon->listener, neighbour))
        return "this kernel has no MD5 option of TCP";
    return peer_add(daemon, neighbour);
}

/* A neighbour may be added while the daemon runs; the next reload takes it away, if the file does not name it. */
static const char *change_neighbour(struct daemon *daemon, size_t count, char **words)
{
    static struct config alone;
    alone.neighbour_count = 0;
    const char *wrong = config_neighbour(&alone, count - 1, words + 1);
    if (!wrong)
        wrong = add_neighbour(daemon, &alone.neighbours[0]);
    explicit_bzero(&alone, sizeof alone);
    return wrong;
}

static const char *change_peer(struct daemon *daemon, size_t count, char **words)
{
    struct in_addr address;
    bool sets_cost = strcmp(words[0], "cost") == 0;
    if (count != (sets_cost ? 3 : 2))
        return sets_cost ? "expected: cost NEIGHBOUR COST" : "expected: down NEIGHBOUR, or up NEIGHBOUR";
    struct peer *peer = read_address(words[1], &address) ? peer_of(daemon, address) : NULL;
    if (!peer)
        return "it is the address of no neighbour";
    if (sets_cost)
        return change_cost(daemon, peer, words[2]);
    if (strcmp(words[0], "down") == 0) {
        peer_shut(daemon, peer);
    } else {
        peer->shut = false;
        peer_wake(peer);
    }
    return NULL;
}

static const char *unfilter(struct daemon *daemon, size_t count, char **words)
{
    if (count != 2)
        return "expected: unfilter INTERFACE";
    return peer_unfilter(daemon, words[1]) ? NULL : "no neighbour that is gone has a filter there";
}

/* Packets go round a router whose links cost most, where there is another way. */
static const char *change_drain(struct daemon *daemon, size_t count, char **words)
{
    if (count != 1)
        return "expected: drain, or undrain";
    daemon->drains = words[0][0] == 'd';
    return status_text(router_costs(daemon));
}

/* Makes a change: what is wrong, if anything. While published rows do not forward, the router is told nothing. */
static const char *change(struct daemon *daemon, size_t count, char **words)
{
    static const struct {
        const char *name;
        const char *(*make)(struct daemon *daemon, size_t count, char **words);
    } CHANGES[] = {{"attach", change_prefix}, {"detach", change_prefix}, {"cost", change_peer}, {"down", change_peer},
                   {"up", change_peer},       {"neighbour", change_neighbour}, {"unfilter", unfilter},
                   {"drain", change_drain},   {"undrain", change_drain}};
    for (size_t i = 0; i < sizeof CHANGES / sizeof *CHANGES; i++)
        if (count > 0 && strcmp(words[0], CHANGES[i].name) == 0)
            return daemon->blocked ? "rows wait for the kernel: try again" : CHANGES[i].make(daemon, count, words);
    return "not understood";
}

/* ---- answers */

static void trace_for(struct daemon *daemon, struct client *client, struct in_addr address)
{
    client->state = CLIENT_WAITS;
    trace_begin(daemon, &(struct trace){.from = -1, .client = client->number}, ntohl(address.s_addr), HOPS - 1);
}

/* Each fault of the file is a line of the answer. */
static void answer_reload(struct daemon *daemon, struct client *client)
{
    struct text faults = {0};
    char *rest = NULL;
    bool is_first = true;
    if (!daemon->blocked && reload(daemon, &faults)) {
        text_put(&client->out, client->json ? "{\"done\":true}\n" : "done\n");
        text_free(&faults);
        return;
    }
    if (daemon->blocked)
        text_put(&faults, "rows wait for the kernel: try again");
    text_put(&client->out, client->json ? "{\"error\":[" : "");
    for (char *line = faults.bytes ? strtok_r(faults.bytes, "\n", &rest) : NULL; line; line = strtok_r(NULL, "\n", &rest)) {
        if (client->json && !is_first)
            text_put(&client->out, ",");
        if (client->json)
            text_put_string(&client->out, line);
        else
            text_put(&client->out, "error: %s\n", line);
        is_first = false;
    }
    text_put(&client->out, client->json ? "]}\n" : "");
    text_free(&faults);
}

static void answer(struct daemon *daemon, struct client *client)
{
    char *words[MOST_WORDS];
    struct in_addr address;
    size_t count = split_words(client->in, words, MOST_WORDS);
    char **at = words;
    if (count > 0 && count <= MOST_WORDS && strcmp(words[0], "json") == 0) {
        client->json = true;
        at++;
        count--;
    }
    client->state = CLIENT_ANSWERED;
    if (count == 1 && strcmp(at[0], "reload") == 0) {
        answer_reload(daemon, client);
    } else if (count == 2 && strcmp(at[0], "trace") == 0 && read_address(at[1], &address)) {
        trace_for(daemon, client, address);
    } else if (count == 1 && strcmp(at[0], "monitor") == 0) {
        client->state = CLIENT_FOLLOWS;
    } else if (count > MOST_WORDS || !show(daemon, client, count, at)) {
        const char *wrong = count > MOST_WORDS ? "not understood" : change(daemon, count, at);
        if (client->json)
            text_put(&client->out, wrong ? "{\"error\":\"%s\"}\n" : "{\"done\":true}\n", wrong);
        else
            text_put(&client->out, "%s%s\n", wrong ? "error: " : "done", wrong ? wrong : "");
    }
}

/* A request of HTTP may be longer than there is room. It is read to its end, since an answer is lost if the connection
 * closes with something unread; and only its last three bytes matter for where it ends. */
static void keep_end(struct client *client)
{
    memmove(client->in, client->in + client->in_count - 3, 3);
    client->in_count = 3;
}

/* A line is whole at its end, or when the client sends no more. */
static void read_client(struct daemon *daemon, struct client *client)
{
    ssize_t got = recv(client->fd, client->in + client->in_count, sizeof client->in - 1 - client->in_count,
                       MSG_DONTWAIT);
    if (got < 0 && (errno == EAGAIN || errno == EINTR))
        return;
    client->in_count += got > 0 ? (size_t)got : 0;
    client->in[client->in_count] = '\0';
    bool is_full = client->in_count == sizeof client->in - 1;
    if (got < 0 || (got == 0 && client->in_count == 0)) {
        leave(client);
    } else if (strlen(client->in) < client->in_count || (is_full && !client->for_metrics && !strpbrk(client->in, "\r\n"))) {
        client->state = CLIENT_ANSWERED;
        text_put(&client->out, "error: not understood\n");
    } else if (client->for_metrics) {
        if (got == 0 || strstr(client->in, "\r\n\r\n") || strstr(client->in, "\n\n"))
            metrics_answer(daemon, client);
        else if (is_full)
            keep_end(client);
    } else if (got == 0 || strchr(client->in, '\n')) {
        answer(daemon, client);
    }
}

/* Sends what the client takes. A client that follows changes, and reads none, is left. */
static void write_client(struct client *client)
{
    static const char NO_MEMORY[] = "error: there is no memory for the answer\n";
    if (client->out.refused) {
        ssize_t sent = send(client->fd, NO_MEMORY, strlen(NO_MEMORY), MSG_NOSIGNAL | MSG_DONTWAIT);
        (void)sent;
        leave(client);
        return;
    }
    size_t left = client->out.count - client->out_from;
    ssize_t sent = left ? send(client->fd, client->out.bytes + client->out_from, left, MSG_NOSIGNAL | MSG_DONTWAIT) : 0;
    if (sent < 0 && errno != EAGAIN && errno != EINTR) {
        leave(client);
        return;
    }
    if (sent > 0) {
        client->out_from += (size_t)sent;
        client->since = now_ms();
    }
    if (client->out_from < client->out.count && client->out_from < MONITOR_BYTES / 2)
        return;
    client->out.count -= client->out_from;
    if (client->out.count > 0)
        memmove(client->out.bytes, client->out.bytes + client->out_from, client->out.count);
    client->out_from = 0;
    if (client->out.count > 0)
        return;
    if (client->state == CLIENT_ANSWERED)
        leave(client);
}

/* What a client says that follows changes is thrown away; that it has gone is seen. */
static void drain(struct client *client)
{
    char room[256];
    ssize_t got = recv(client->fd, room, sizeof room, MSG_DONTWAIT);
    if (got == 0 || (got < 0 && errno != EAGAIN && errno != EINTR))
        leave(client);
}

void control_serve(struct daemon *daemon, struct client *client, short events)
{
    if (client->state == CLIENT_ASKS)
        read_client(daemon, client);
    else if (client->state == CLIENT_WAITS && (events & (POLLHUP | POLLERR)))
        leave(client);
    else if (client->state == CLIENT_FOLLOWS && events)
        drain(client);
    if (client->used && client->state != CLIENT_ASKS)
        write_client(client);
}

/* Those who follow changes may be quiet for as long as nothing waits for them. */
void control_tick(struct daemon *daemon, int64_t now)
{
    for (struct client *client = daemon->clients; client < daemon->clients + CLIENTS; client++) {
        if (client->used && client->state == CLIENT_FOLLOWS && client->out.count == 0)
            client->since = now;
        if (client->used && now - client->since > CLIENT_MS)
            leave(client);
    }
}

/* ---- those who follow changes */

/* Where a change is written for a client; NULL: nowhere. A client to which some were not told is left, so that it can
 * tell. */
static struct text *out_of_follower(struct client *client)
{
    bool follows = client->used && client->state == CLIENT_FOLLOWS;
    if (follows && (client->out.count > MONITOR_BYTES || client->out.refused)) {
        leave(client);
        follows = false;
    }
    return follows ? &client->out : NULL;
}

void control_tell_row(struct daemon *daemon, const struct tuhvondi_row *row)
{
    for (struct client *client = daemon->clients; client < daemon->clients + CLIENTS; client++) {
        struct text *out = out_of_follower(client);
        if (!out)
            continue;
        show_row(daemon, out, row, client->json);
        text_put(out, "\n");
    }
}

void control_tell_peer(struct daemon *daemon, const struct peer *peer, const char *what)
{
    for (struct client *client = daemon->clients; client < daemon->clients + CLIENTS; client++) {
        struct text *out = out_of_follower(client);
        if (out && client->json)
            text_put(out, "{\"neighbour\":\"%s\",\"state\":\"%s\",\"session\":%u}\n", peer->name, what, peer->last);
        else if (out)
            text_put(out, "neighbour %s %s %u\n", peer->name, what, peer->last);
    }
}
