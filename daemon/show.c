/* Answers to questions, as lines or as JSON. */
#include "daemon.h"

#include <arpa/inet.h>
#include <inttypes.h>
#include <string.h>

enum { KEEP_ALIVE = 1024 }; /* rows that are shown between signs of life: there may be very many */

static const char *const KINDS[] = {"local", "via", "unreachable", "none"};

/* ---- rows */

static void show_ports(const struct daemon *daemon, struct text *out, const uint8_t awaited[TUHVONDI_PORTS], bool json)
{
    bool is_first = true;
    for (size_t i = 0; i < port_count(daemon); i++) {
        if (!awaited[i])
            continue;
        text_put(out, json ? "%s\"%s\"" : "%s%s", json ? is_first ? "" : "," : " ", daemon->peers[i].name);
        is_first = false;
    }
}

static void show_distance(struct text *out, const char *name, uint32_t distance)
{
    if (distance == TUHVONDI_INFINITY)
        text_put(out, ",\"%s\":null", name);
    else
        text_put(out, ",\"%s\":%" PRIu32, name, distance);
}

static void show_row_json(const struct daemon *daemon, struct text *out, const struct tuhvondi_row *row)
{
    char text[PREFIX_TEXT];
    text_put(out, "{\"prefix\":\"%s\",\"kind\":\"%s\"", prefix_text(row->addr, row->len, text), KINDS[row->kind]);
    if (row->kind == TUHVONDI_VIA)
        text_put(out, ",\"neighbour\":\"%s\",\"session\":%u", daemon->peers[row->port].name, row->session);
}

static void show_state_json(const struct daemon *daemon, struct text *out, const struct tuhvondi_prefix_state *state)
{
    show_distance(out, "distance", state->rd);
    show_distance(out, "feasible", state->fd);
    text_put(out, ",\"active\":%s,\"awaits\":[", state->active ? "true" : "false");
    show_ports(daemon, out, state->awaited, true);
    text_put(out, "]");
    if (state->owed < port_count(daemon))
        text_put(out, ",\"owes\":\"%s\"", daemon->peers[state->owed].name);
}

void show_row(const struct daemon *daemon, struct text *out, const struct tuhvondi_row *row, bool json)
{
    char text[PREFIX_TEXT];
    if (json) {
        show_row_json(daemon, out, row);
        text_put(out, "}");
        return;
    }
    text_put(out, "%s %s", prefix_text(row->addr, row->len, text), KINDS[row->kind]);
    if (row->kind == TUHVONDI_VIA)
        text_put(out, " %s %u", daemon->peers[row->port].name, row->session);
}

/* A row, and what the router knows of its prefix. */
static void show_state(const struct daemon *daemon, struct text *out, const struct tuhvondi_row *row,
                       const struct tuhvondi_prefix_state *state, bool json)
{
    if (json) {
        show_row_json(daemon, out, row);
        show_state_json(daemon, out, state);
        text_put(out, "}");
        return;
    }
    show_row(daemon, out, row, false);
    text_put(out, ", distance %" PRIu32 ", feasible %" PRIu32 ", %s", state->rd, state->fd,
             state->active ? "active: awaits" : "passive");
    show_ports(daemon, out, state->awaited, false);
    if (state->owed < port_count(daemon))
        text_put(out, ", owes %s", daemon->peers[state->owed].name);
}

/* ---- tables */

/* A neighbour from which packets are let in that tell no session is `heard`. */
static void show_head(struct daemon *daemon, struct text *out, bool json)
{
    uint64_t in_force = 0;
    bool is_first = true;
    tuhvondi_image_generation(&daemon->router.image, &in_force);
    text_put(out, json ? "{\"generation\":%" PRIu64 ",\"neighbours\":[" : "generation %" PRIu64 "\n", in_force);
    for (const struct peer *peer = daemon->peers; peer < peers_end(daemon); peer++) {
        bool up = peer->state == PEER_UP, heard = up && peer->lets_in;
        if (!is_somebody(peer))
            continue;
        if (json)
            text_put(out, "%s{\"address\":\"%s\",\"up\":%s,\"session\":%u,\"heard\":%s}", is_first ? "" : ",",
                     peer->name, up ? "true" : "false", peer->last, heard ? "true" : "false");
        else
            text_put(out, "neighbour %s %s %u%s\n", peer->name, up ? "up" : "down", peer->last, heard ? " heard" : "");
        is_first = false;
    }
    text_put(out, json ? "],\"rows\":[" : "");
}

/* The rows in force, or what the router knows of each prefix. */
static void show_rows(struct daemon *daemon, struct text *out, bool all, bool json)
{
    struct tuhvondi_row *known = daemon->router.known;
    size_t most = daemon->router.most_known;
    struct tuhvondi_prefix from = TUHVONDI_FIRST_PREFIX;
    struct tuhvondi_prefix_state state;
    size_t count = 0;
    show_head(daemon, out, json);
    if (all)
        tuhvondi_router_rows(&daemon->router.machine, known, most, &count);
    else
        tuhvondi_image_rows(&daemon->router.image, &from, known, most + PART, &count);
    for (size_t i = 0; i < count; i++) {
        if ((i + 1) % KEEP_ALIVE == 0)
            sessions_keep_alive(daemon);
        text_put(out, json && i > 0 ? "," : "");
        if (all
            && tuhvondi_router_state(&daemon->router.machine, known[i].addr, known[i].len, &state) == TUHVONDI_DONE)
            show_state(daemon, out, &known[i], &state, json);
        else
            show_row(daemon, out, &known[i], json);
        text_put(out, json ? "" : "\n");
    }
    text_put(out, json ? "]}\n" : "");
}

/* The rows in force as other programs show routes: by which router and interface, how far, and for how long. */
static void show_route(struct daemon *daemon, struct text *out, const struct tuhvondi_row *row, bool json)
{
    struct tuhvondi_prefix_state state = {.rd = TUHVONDI_INFINITY};
    const struct noted *noted = prefixes_find(&daemon->prefixes, row->addr, row->len);
    const struct peer *peer = row->kind == TUHVONDI_VIA ? &daemon->peers[row->port] : NULL;
    char text[PREFIX_TEXT];
    tuhvondi_router_state(&daemon->router.machine, row->addr, row->len, &state);
    int64_t age = noted && noted->since ? (now_ms() - noted->since) / 1000 : -1;
    prefix_text(row->addr, row->len, text);
    if (json) {
        text_put(out, "{\"prefix\":\"%s\",\"kind\":\"%s\",\"next_hop\":\"%s\",\"interface\":", text, KINDS[row->kind],
                 peer ? peer->name : "");
        text_put_string(out, peer ? peer->interface : "");
        show_distance(out, "distance", state.rd);
        text_put(out, ",\"seconds\":%" PRId64 "}", age);
        return;
    }
    text_put(out, "%-18s %s", text, KINDS[row->kind]);
    if (peer)
        text_put(out, " %s%s%s", peer->name, peer->interface[0] ? " dev " : "", peer->interface);
    if (state.rd != TUHVONDI_INFINITY)
        text_put(out, ", distance %" PRIu32, state.rd);
    if (age >= 0)
        text_put(out, ", for %" PRId64 " s", age);
    text_put(out, "\n");
}

static void show_routes(struct daemon *daemon, struct text *out, bool json)
{
    struct tuhvondi_row *rows = daemon->router.known;
    struct tuhvondi_prefix from = TUHVONDI_FIRST_PREFIX;
    size_t count = 0;
    tuhvondi_image_rows(&daemon->router.image, &from, rows, daemon->router.most_known + PART, &count);
    text_put(out, json ? "[" : "");
    for (size_t i = 0; i < count; i++) {
        if ((i + 1) % KEEP_ALIVE == 0)
            sessions_keep_alive(daemon);
        text_put(out, json && i > 0 ? "," : "");
        show_route(daemon, out, &rows[i], json);
    }
    text_put(out, json ? "]\n" : count == 0 ? "no routes\n" : "");
}

static void show_fault(struct text *out, const char *what, bool json)
{
    text_put(out, json ? "{\"error\":\"%s\"}\n" : "error: %s\n", what);
}

/* One prefix, as in `state`; `why`: in words. */
static void show_prefix(struct daemon *daemon, struct text *out, const char *word, bool why, bool json)
{
    struct tuhvondi_prefix prefix;
    struct tuhvondi_prefix_state state;
    char text[PREFIX_TEXT];
    const char *wrong = read_prefix(word, &prefix);
    uint32_t status = wrong ? 0 : tuhvondi_router_state(&daemon->router.machine, prefix.addr, prefix.len, &state);
    if (wrong || status != TUHVONDI_DONE) {
        show_fault(out, wrong ? wrong : tuhvondi_status_text(status), json);
        return;
    }
    const struct noted *noted = prefixes_find(&daemon->prefixes, prefix.addr, prefix.len);
    state.chosen.addr = prefix.addr;
    state.chosen.len = prefix.len;
    if (!why || json) {
        show_state(daemon, out, &state.chosen, &state, json);
        text_put(out, "\n");
        return;
    }
    text_put(out, "%s is %s", prefix_text(prefix.addr, prefix.len, text), state.active ? "active" : "passive");
    if (state.active) {
        int64_t begun = noted && noted->active_since ? noted->active_since : now_ms();
        text_put(out, " for %" PRId64 " ms: it awaits replies from", now_ms() - begun);
        show_ports(daemon, out, state.awaited, false);
    }
    if (state.owed < port_count(daemon))
        text_put(out, ", and owes one to %s", daemon->peers[state.owed].name);
    text_put(out, "\n");
}

static void show_lookup(struct daemon *daemon, struct text *out, struct in_addr address, bool json)
{
    uint32_t addr = ntohl(address.s_addr);
    struct tuhvondi_row row;
    if (tuhvondi_image_lookup(&daemon->router.reader, &addr, 1, &row, 1) != TUHVONDI_DONE) {
        show_fault(out, "rows wait for the kernel: try again", json);
    } else if (row.kind == TUHVONDI_NO_ROW) {
        text_put(out, json ? "{\"kind\":\"none\"}\n" : "none\n");
    } else {
        show_row(daemon, out, &row, json);
        text_put(out, "\n");
    }
}

void show_hop(struct text *out, bool json, uint32_t id, uint8_t end)
{
    static const char *const ENDS[] = {"local", "", "unreachable", "none", "dead link", "given up"};
    struct in_addr address = {htonl(id)};
    char host[INET_ADDRSTRLEN];
    address_text(address, host);
    if (json)
        text_put(out, "{\"router\":\"%s\",\"end\":\"%s\"}\n", host, ENDS[end]);
    else
        text_put(out, "%s%s%s\n", host, *ENDS[end] ? " " : "", ENDS[end]);
}

/* ---- neighbours and counters */

static const char *state_name(const struct peer *peer)
{
    static const char *const STATES[] = {"idle", "connecting", "greeting", "up"};
    return peer->removed ? "removed" : !is_somebody(peer) ? "sought" : peer->shut ? "shut" : STATES[peer->state];
}

static void show_neighbour_json(struct text *out, const struct peer *peer, int64_t now)
{
    const struct peer_counters *counters = &peer->counters;
    text_put(out, peer->config.address.s_addr ? "{\"address\":\"%s\"" : "{\"address\":null", peer->name);
    text_put(out, ",\"state\":\"%s\",\"session\":%u,\"cost\":%" PRIu32 ",\"interface\":", state_name(peer), peer->last,
             peer->config.cost);
    text_put_string(out, peer->interface);
    text_put(out, ",\"discover\":");
    text_put_string(out, peer->config.interface);
    text_put(out, ",\"seconds\":%" PRId64 ",\"filtered\":%s,\"passive\":%s,\"prefixes\":%" PRIu32
             ",\"sessions\":%" PRIu64 ",\"faults\":%" PRIu64 ",\"left\":%" PRIu64, peer->begun ? (now - peer->begun) / 1000 : 0,
             peer->filtered ? "true" : "false", peer->config.passive ? "true" : "false", peer->reported,
             counters->sessions, counters->faults, counters->left);
    text_put(out, ",\"down_seconds\":%" PRId64 ",\"why\":", peer->why && !peer->begun ? (now - peer->over) / 1000 : 0);
    text_put_string(out, peer->why && !peer->begun ? peer->why : "");
    text_put(out, ",\"version\":%u,\"former_secret\":%s", peer->begun ? peer->greeting.version : 0,
             peer->former[0] ? "true" : "false");
    text_put(out, ",\"taken\":[%" PRIu64 ",%" PRIu64 ",%" PRIu64 "],\"told\":[%" PRIu64 ",%" PRIu64 ",%" PRIu64 "]}",
             counters->taken[0], counters->taken[1], counters->taken[2], counters->told[0], counters->told[1],
             counters->told[2]);
}

static void show_neighbour(struct text *out, const struct peer *peer, int64_t now)
{
    text_put(out, "%-15s %-10s session %u, cost %" PRIu32 ", %" PRIu32 " prefixes", peer->name, state_name(peer),
             peer->last, peer->config.cost, peer->reported);
    if (peer->begun)
        text_put(out, ", for %" PRId64 " s", (now - peer->begun) / 1000);
    else if (peer->why)
        text_put(out, ", down for %" PRId64 " s: %s", (now - peer->over) / 1000, peer->why);
    if (peer->interface[0])
        text_put(out, ", %s%s", peer->interface, peer->filtered ? " (filtered)" : "");
    if (peer->counters.left)
        text_put(out, ", %" PRIu64 " reports left", peer->counters.left);
    int64_t until = peer->waits_until > peer->rests_until ? peer->waits_until : peer->rests_until;
    if (now < until)
        text_put(out, ", waits %" PRId64 " s", (until - now + 999) / 1000);
    if (peer->former[0])
        text_put(out, ", its former secret serves still");
    if (peer->config.interface[0] && is_somebody(peer))
        text_put(out, ", found on %s", peer->config.interface);
    text_put(out, "%s\n", peer->config.passive ? ", passive" : "");
}

static void show_neighbours(struct daemon *daemon, struct text *out, bool json)
{
    bool is_first = true;
    int64_t now = now_ms();
    text_put(out, json ? "[" : "");
    for (const struct peer *peer = daemon->peers; peer < peers_end(daemon); peer++) {
        if (!peer->used || (peer->removed && !peer->marked))
            continue;
        text_put(out, json && !is_first ? "," : "");
        if (json)
            show_neighbour_json(out, peer, now);
        else
            show_neighbour(out, peer, now);
        is_first = false;
    }
    text_put(out, json ? "]\n" : is_first ? "no neighbours\n" : "");
}

static struct peer_counters sums_of(struct daemon *daemon)
{
    struct peer_counters sums = {0};
    for (const struct peer *peer = daemon->peers; peer < peers_end(daemon); peer++) {
        for (size_t kind = 0; kind < 3; kind++) {
            sums.taken[kind] += peer->counters.taken[kind];
            sums.told[kind] += peer->counters.told[kind];
        }
        sums.sessions += peer->counters.sessions;
        sums.faults += peer->counters.faults;
    }
    return sums;
}

static void show_counters(struct daemon *daemon, struct text *out, bool json)
{
    struct tuhvondi_counts counts = {0};
    struct peer_counters sums = sums_of(daemon);
    tuhvondi_router_counts(&daemon->router.machine, &counts);
    const struct {
        const char *name;
        uint64_t value;
    } LINES[] = {{"updates taken", sums.taken[TUHVONDI_UPDATE]},
                 {"queries taken", sums.taken[TUHVONDI_QUERY]},
                 {"replies taken", sums.taken[TUHVONDI_REPLY]},
                 {"updates told", sums.told[TUHVONDI_UPDATE]},
                 {"queries told", sums.told[TUHVONDI_QUERY]},
                 {"replies told", sums.told[TUHVONDI_REPLY]},
                 {"computations", daemon->router.computations},
                 {"longest computation ms", (uint64_t)daemon->router.longest_ms},
                 {"sessions ended for late replies", daemon->router.late},
                 {"sessions", sums.sessions},
                 {"faults of neighbours", sums.faults},
                 {"connections of strangers", daemon->strangers},
                 {"announcements refused", daemon->refused},
                 {"prefixes", counts.prefixes},
                 {"prefixes forgotten", daemon->router.forgotten},
                 {"publications", counts.generation},
                 {"kernel routes set", daemon->kernel.set},
                 {"kernel routes refused", daemon->kernel.refused},
                 {"kernel routes put right", daemon->kernel.repaired}};
    for (size_t i = 0; i < sizeof LINES / sizeof *LINES; i++) {
        char name[32];
        snprintf(name, sizeof name, "%s", LINES[i].name);
        for (char *gap = name; json && (gap = strchr(gap, ' '));)
            *gap = '_';
        text_put(out, json ? "%s\"%s\":%" PRIu64 : "%s%s %" PRIu64 "\n", json ? i > 0 ? "," : "{" : "", name,
                 LINES[i].value);
    }
    text_put(out, json ? "}\n" : "");
}

/* ---- questions */

bool show(struct daemon *daemon, struct client *client, size_t count, char **words)
{
    struct text *out = &client->out;
    struct in_addr address;
    const char *verb = count > 0 ? words[0] : "";
    if (count == 1 && (strcmp(verb, "table") == 0 || strcmp(verb, "state") == 0))
        show_rows(daemon, out, verb[0] == 's', client->json);
    else if (count == 1 && strcmp(verb, "routes") == 0)
        show_routes(daemon, out, client->json);
    else if (count == 2 && (strcmp(verb, "state") == 0 || strcmp(verb, "why") == 0))
        show_prefix(daemon, out, words[1], verb[0] == 'w', client->json);
    else if (count == 2 && strcmp(verb, "lookup") == 0 && read_address(words[1], &address))
        show_lookup(daemon, out, address, client->json);
    else if (count == 1 && strcmp(verb, "neighbours") == 0)
        show_neighbours(daemon, out, client->json);
    else if (count == 1 && strcmp(verb, "counters") == 0)
        show_counters(daemon, out, client->json);
    else if (count == 1 && strcmp(verb, "version") == 0)
        text_put(out, client->json ? "{\"version\":\"%s\"}\n" : "dualnetd %s\n", DUALNETD_VERSION);
    else
        return false;
    return true;
}
