/* SIGHUP: the file is read again, and sessions that it leaves as they are go on. */
#include "daemon.h"

#include <errno.h>
#include <fcntl.h>
#include <string.h>
#include <unistd.h>

static void note_fault(void *faults, const char *what)
{
    say(LOG_ERR, "%s", what);
    if (faults)
        text_put(faults, "%s\n", what);
}

FILE *reload_open(const char *path)
{
    struct stat info;
    int fd = open(path, O_RDONLY | O_CLOEXEC | O_NONBLOCK);
    if (fd < 0)
        return NULL;
    bool is_regular = fstat(fd, &info) == 0 && S_ISREG(info.st_mode);
    FILE *file = is_regular ? fdopen(fd, "r") : NULL;
    int error = is_regular ? errno : EINVAL;
    if (!file)
        close(fd);
    errno = error;
    return file;
}

const char *reload_read_secret(struct neighbour *neighbour)
{
    char text[SECRET_SIZE + 2] = "";
    struct stat info;
    if (!neighbour->secret_file[0])
        return NULL;
    FILE *file = reload_open(neighbour->secret_file);
    if (!file)
        return errno == EINVAL ? "it is no regular file" : strerror(errno);
    bool read = fgets(text, sizeof text, file);
    if (fstat(fileno(file), &info) == 0 && (info.st_mode & 007))
        say(LOG_WARNING, "%s has a secret, and others may read it", neighbour->secret_file);
    fclose(file);
    const char *wrong = config_take_secret(neighbour, read ? text : "");
    explicit_bzero(text, sizeof text);
    return wrong;
}

bool reload_read(const char *path, struct config *config, struct text *faults)
{
    FILE *file = fopen(path, "re");
    struct stat info;
    if (!file) {
        char what[512];
        snprintf(what, sizeof what, "%s: %s", path, strerror(errno));
        note_fault(faults, what);
        return false;
    }
    bool done = config_read(file, path, config, note_fault, faults);
    if (done && config->has_secret && fstat(fileno(file), &info) == 0 && (info.st_mode & 007))
        say(LOG_WARNING, "%s has a secret, and others may read it", path);
    fclose(file);
    for (size_t i = 0; done && i < config->neighbour_count; i++) {
        const char *wrong = reload_read_secret(&config->neighbours[i]);
        char what[512];
        if (!wrong)
            continue;
        snprintf(what, sizeof what, "%s: %s", config->neighbours[i].secret_file, wrong);
        note_fault(faults, what);
        done = false;
    }
    return done;
}

/* What could not be done, although nothing is wrong with the file. */
struct outcome {
    struct text *faults;
    bool done;
};

static void fail(struct outcome *outcome, const char *whom, const char *what)
{
    char text[256];
    snprintf(text, sizeof text, "reload: %s: %s", whom, what);
    note_fault(outcome->faults, text);
    outcome->done = false;
}

/* ---- what differs */

enum { KEEP_ALIVE = 1024 }; /* prefixes that are looked at between signs of life: there may be very many */

static void keep(bool differs, const char *what)
{
    if (differs)
        say(LOG_WARNING, "reload: %s is changed only by a new start", what);
}

/* These are of sockets and of routes that stand. */
static void keep_fixed(const struct config *old, struct config *new)
{
    keep(old->router_id.s_addr != new->router_id.s_addr, "router-id");
    keep(old->listen.s_addr != new->listen.s_addr, "listen");
    keep(strcmp(old->control, new->control) != 0, "control");
    keep(strcmp(old->state, new->state) != 0, "state");
    keep(old->prefixes != new->prefixes, "prefixes");
    keep(old->source.s_addr != new->source.s_addr, "source");
    keep(old->installs != new->installs, "install");
    keep(old->table != new->table || old->metric != new->metric || old->protocol != new->protocol,
         "table, metric or protocol");
    keep(old->metrics_port != new->metrics_port || old->metrics_address.s_addr != new->metrics_address.s_addr,
         "metrics");
    new->router_id = old->router_id;
    new->listen = old->listen;
    memcpy(new->control, old->control, sizeof new->control);
    memcpy(new->state, old->state, sizeof new->state);
    new->prefixes = old->prefixes;
    new->source = old->source;
    new->installs = old->installs;
    new->table = old->table;
    new->metric = old->metric;
    new->protocol = old->protocol;
    new->metrics_port = old->metrics_port;
    new->metrics_address = old->metrics_address;
}

/* Those that are sought on one interface differ by their order alone. */
static bool is_same(const struct neighbour *one, const struct neighbour *other)
{
    return strcmp(one->interface, other->interface) == 0
           && (*one->interface || one->address.s_addr == other->address.s_addr);
}

/* What the configuration has of the neighbour, behind as many as are like it. */
static const struct neighbour *neighbour_of(const struct config *config, const struct neighbour *neighbour,
                                            size_t behind)
{
    for (size_t i = 0; i < config->neighbour_count; i++)
        if (is_same(&config->neighbours[i], neighbour) && behind-- == 0)
            return &config->neighbours[i];
    return NULL;
}

/* How many ports before this one have a neighbour like it. */
static size_t count_like(const struct daemon *daemon, const struct peer *end, const struct neighbour *neighbour)
{
    size_t count = 0;
    for (const struct peer *peer = daemon->peers; peer < end; peer++)
        count += peer->used && !peer->removed && is_same(&peer->config, neighbour);
    return count;
}

/* A session ends if its connection would be another, or if its neighbour has to tell anew what a list refused. It goes on if its
 * secret alone is another. Who was found stays so. */
static void change_peer(struct daemon *daemon, struct peer *peer, struct neighbour to, const struct config *new,
                        struct outcome *outcome)
{
    struct neighbour *old = &peer->config;
    if (*to.interface) {
        to.address = old->address;
        to.passive = old->passive;
    }
    bool signs_anew = strcmp(old->secret, to.secret) != 0 && to.address.s_addr;
    bool is_set = !signs_anew || sessions_set_secret(daemon->listener, &to) || !to.secret[0];
    /* The other end was told of the longer time, and would be taken for silent. */
    bool is_less_patient = new->dead_ms < daemon->config.dead_ms;
    bool connects_anew = is_less_patient || old->passive != to.passive || old->ttl_security != to.ttl_security || !is_set;
    bool takes_other = strcmp(old->list, to.list) != 0 || !config_same_list(&daemon->config, new, to.list);
    if (!is_set)
        fail(outcome, peer->name, "its secret is not set");
    else if (signs_anew)
        peer_sign_anew(daemon, peer, to.secret);
    if (connects_anew || takes_other)
        peer_hang_up(daemon, peer, BY_OPERATOR, "its configuration changed");
    uint32_t status = old->cost == to.cost ? TUHVONDI_DONE : router_cost(daemon, peer, to.cost);
    if (status != TUHVONDI_DONE)
        fail(outcome, peer->name, tuhvondi_status_text(status));
    to.cost = peer->config.cost;
    peer->config = to;
}

static void add_neighbour(struct daemon *daemon, const struct neighbour *to, struct outcome *outcome)
{
    const char *wrong = NULL;
    char name[INET_ADDRSTRLEN];
    if (to->address.s_addr && peer_of(daemon, to->address))
        wrong = "it was found on an interface";
    else if (to->address.s_addr && to->secret[0] && !sessions_set_secret(daemon->listener, to))
        wrong = "its secret is not set";
    else
        wrong = peer_add(daemon, to);
    if (wrong)
        fail(outcome, to->address.s_addr ? address_text(to->address, name) : to->interface, wrong);
}

static void change_neighbours(struct daemon *daemon, const struct config *new, struct outcome *outcome)
{
    for (struct peer *peer = daemon->peers; peer < peers_end(daemon); peer++) {
        const struct neighbour *to = neighbour_of(new, &peer->config, count_like(daemon, peer, &peer->config));
        if (peer->used && !peer->removed && !to)
            peer_remove(daemon, peer);
        else if (peer->used && !peer->removed)
            change_peer(daemon, peer, *to, new, outcome);
    }
    for (size_t i = 0; i < new->neighbour_count; i++) {
        const struct neighbour *to = &new->neighbours[i];
        if (neighbour_of(new, to, count_like(daemon, peers_end(daemon), to)) == to)
            add_neighbour(daemon, to, outcome);
    }
    discover_begin(daemon, new);
}

static const struct tuhvondi_attachment *attachment_of(const struct tuhvondi_attachment *list, size_t count,
                                                       const struct tuhvondi_row *of)
{
    for (size_t i = 0; i < count; i++)
        if (list[i].addr == of->addr && list[i].len == of->len)
            return &list[i];
    return NULL;
}

/* The file holds, whatever commands attached or detached. What the host has is looked at next. */
static void change_attachments(struct daemon *daemon, const struct config *new, struct outcome *outcome)
{
    struct tuhvondi_row *known = daemon->router.known;
    struct tuhvondi_prefix_state state;
    uint32_t status = TUHVONDI_DONE;
    size_t count = 0;
    tuhvondi_router_rows(&daemon->router.machine, known, daemon->router.most_known, &count);
    for (size_t i = 0; i < count; i++) {
        const struct tuhvondi_row row = known[i];
        if ((i + 1) % KEEP_ALIVE == 0)
            sessions_keep_alive(daemon);
        bool is_attached = !tuhvondi_router_state(&daemon->router.machine, row.addr, row.len, &state) && state.attached;
        if (is_attached && !attachment_of(new->attachments, new->attachment_count, &row)
            && !connected_is_found(daemon, row.addr, row.len)
            && router_detach(daemon, row.addr, row.len) == TUHVONDI_NO_MEMORY)
            status = TUHVONDI_NO_MEMORY;
    }
    for (size_t i = 0; i < new->attachment_count && status == TUHVONDI_DONE; i++) {
        const struct tuhvondi_attachment *to = &new->attachments[i];
        bool is_known = !tuhvondi_router_state(&daemon->router.machine, to->addr, to->len, &state);
        if (!is_known || state.attached != to->cost)
            status = router_attach(daemon, to);
    }
    if (status != TUHVONDI_DONE)
        fail(outcome, "a prefix is not attached, or still is", tuhvondi_status_text(status));
}

bool reload(struct daemon *daemon, struct text *faults)
{
    static struct config new;
    struct outcome outcome = {faults, true};
    struct stat info;
    bool may_wait = stat(daemon->path, &info) == 0 && !S_ISREG(info.st_mode);
    if (may_wait)
        note_fault(faults, "the configuration is no regular file, so it is not read again");
    if (may_wait || !reload_read(daemon->path, &new, faults)) {
        say(LOG_ERR, "reload: all stays as it is");
        return false;
    }
    new.installs |= daemon->install_asked;
    keep_fixed(&daemon->config, &new);
    log_to(new.to_syslog, new.log_level);
    sessions_set_ttl(daemon->listener, &new);
    change_neighbours(daemon, &new, &outcome);
    change_attachments(daemon, &new, &outcome);
    bool offers_other = daemon->config.stub != new.stub;
    daemon->config = new;
    if (offers_other && router_costs(daemon) != TUHVONDI_DONE)
        fail(&outcome, "stub", "the costs of links are not changed");
    explicit_bzero(&new, sizeof new);
    daemon->next_found = 0;
    say(LOG_NOTICE, outcome.done ? "reload: done" : "reload: done, but for what the lines above tell");
    return outcome.done;
}
