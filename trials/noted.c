/* Linked before a daemon's library (--wrap): notes what its router chooses and publishes, for trials/reasons.py.
 *
 * A line is a kind, the nanoseconds of CLOCK_MONOTONIC before and after the call, and numbers:
 *
 *     new                       a router is made, which knows nothing
 *     up PORT SESSION           a link came up
 *     chosen ADDR LEN FD        the feasible distance of a prefix is another one
 *     published ADDR LEN FD     and is now that with which the router has published
 *     row ADDR LEN KIND PORT    a row is published. It is in force by the next line of kind `stands`
 *     stands
 *     gone ADDR LEN             a prefix is forgotten
 *
 * NOTES names the file, to which it appends. */
#define _GNU_SOURCE
#include <tuhvondi_router.h>

#include <stdio.h>
#include <stdlib.h>
#include <time.h>

enum { PREFIXES = 256 };

static struct prefix {
    uint32_t addr, chosen, published;
    uint8_t len;
} known[PREFIXES];
static size_t known_count;
static uint64_t begun;
static int is_waiting;

static uint64_t now(void)
{
    struct timespec at;
    clock_gettime(CLOCK_MONOTONIC, &at);
    return (uint64_t)at.tv_sec * 1000000000u + (uint64_t)at.tv_nsec;
}

static FILE *notes(void)
{
    static FILE *file;
    const char *path = getenv("NOTES");
    if (!file && path && !(file = fopen(path, "a")))
        exit(1);
    return file;
}

#define NOTE(kind, ...) (notes() ? (void)(fprintf(notes(), "%s %llu %llu", kind, (unsigned long long)begun, (unsigned long long)now()), \
                                          fprintf(notes(), __VA_ARGS__), fflush(notes())) : (void)0)

static struct prefix *find(uint32_t addr, uint8_t len)
{
    for (size_t i = 0; i < known_count; i++)
        if (known[i].addr == addr && known[i].len == len)
            return &known[i];
    if (known_count == PREFIXES)
        exit(1);
    known[known_count] = (struct prefix){addr, TUHVONDI_INFINITY, TUHVONDI_INFINITY, len};
    return &known[known_count++];
}

static void note_prefix(struct tuhvondi_router *router, uint32_t addr, uint8_t len)
{
    struct tuhvondi_prefix_state state;
    if (tuhvondi_router_state(router, addr, len, &state) != TUHVONDI_DONE)
        return;
    struct prefix *prefix = find(addr, len);
    if (prefix->chosen != state.fd)
        NOTE("chosen", " %u %u %u\n", addr, len, state.fd);
    prefix->chosen = state.fd;
}

static void note_all(struct tuhvondi_router *router)
{
    for (size_t i = 0; i < known_count; i++)
        note_prefix(router, known[i].addr, known[i].len);
}

static void note_published(struct prefix *prefix)
{
    if (prefix->published != prefix->chosen)
        NOTE("published", " %u %u %u\n", prefix->addr, prefix->len, prefix->chosen);
    prefix->published = prefix->chosen;
}

static void note_standing(void)
{
    if (is_waiting)
        NOTE("stands", "\n");
    is_waiting = 0;
}

uint32_t __real_tuhvondi_router_new(const uint32_t *, size_t, const struct tuhvondi_attachment *, size_t, size_t, struct tuhvondi_router *);
uint32_t __wrap_tuhvondi_router_new(const uint32_t *costs, size_t cost_count, const struct tuhvondi_attachment *attachments,
                                    size_t count, size_t most, struct tuhvondi_router *router)
{
    begun = now();
    uint32_t status = __real_tuhvondi_router_new(costs, cost_count, attachments, count, most, router);
    NOTE("new", "\n");
    return status;
}

uint32_t __real_tuhvondi_router_link_up(struct tuhvondi_router *, uint8_t, uint16_t, uint32_t);
uint32_t __wrap_tuhvondi_router_link_up(struct tuhvondi_router *router, uint8_t port, uint16_t session, uint32_t cost)
{
    begun = now();
    uint32_t status = __real_tuhvondi_router_link_up(router, port, session, cost);
    if (status == TUHVONDI_DONE)
        NOTE("up", " %u %u\n", port, session);
    note_all(router);
    return status;
}

uint32_t __real_tuhvondi_router_link_down(struct tuhvondi_router *, uint8_t);
uint32_t __wrap_tuhvondi_router_link_down(struct tuhvondi_router *router, uint8_t port)
{
    begun = now();
    uint32_t status = __real_tuhvondi_router_link_down(router, port);
    note_all(router);
    return status;
}

uint32_t __real_tuhvondi_router_link_cost(struct tuhvondi_router *, uint8_t, uint32_t);
uint32_t __wrap_tuhvondi_router_link_cost(struct tuhvondi_router *router, uint8_t port, uint32_t cost)
{
    begun = now();
    uint32_t status = __real_tuhvondi_router_link_cost(router, port, cost);
    note_all(router);
    return status;
}

uint32_t __real_tuhvondi_router_message(struct tuhvondi_router *, const struct tuhvondi_message *);
uint32_t __wrap_tuhvondi_router_message(struct tuhvondi_router *router, const struct tuhvondi_message *message)
{
    begun = now();
    uint32_t status = __real_tuhvondi_router_message(router, message);
    note_prefix(router, message->addr, message->len);
    return status;
}

uint32_t __real_tuhvondi_router_attached(struct tuhvondi_router *, uint32_t, uint8_t, uint32_t);
uint32_t __wrap_tuhvondi_router_attached(struct tuhvondi_router *router, uint32_t addr, uint8_t len, uint32_t cost)
{
    begun = now();
    uint32_t status = __real_tuhvondi_router_attached(router, addr, len, cost);
    note_prefix(router, addr, len);
    return status;
}

uint32_t __real_tuhvondi_router_detached(struct tuhvondi_router *, uint32_t, uint8_t);
uint32_t __wrap_tuhvondi_router_detached(struct tuhvondi_router *router, uint32_t addr, uint8_t len)
{
    begun = now();
    uint32_t status = __real_tuhvondi_router_detached(router, addr, len);
    note_prefix(router, addr, len);
    return status;
}

uint32_t __real_tuhvondi_router_publish(struct tuhvondi_router *, struct tuhvondi_row *, size_t, size_t *, uint8_t *, uint64_t *);
uint32_t __wrap_tuhvondi_router_publish(struct tuhvondi_router *router, struct tuhvondi_row *rows, size_t room, size_t *written,
                                        uint8_t *more, uint64_t *generation)
{
    /* The daemon publishes again only once the rows of the last part stand. */
    begun = now();
    note_standing();
    uint32_t status = __real_tuhvondi_router_publish(router, rows, room, written, more, generation);
    if (status != TUHVONDI_DONE)
        return status;
    is_waiting = 1;
    for (size_t i = 0; i < *written; i++) {
        note_published(find(rows[i].addr, rows[i].len));
        NOTE("row", " %u %u %u %u\n", rows[i].addr, rows[i].len, rows[i].kind, rows[i].port);
    }
    for (size_t i = 0; i < known_count && !*more; i++)
        note_published(&known[i]);
    return status;
}

uint32_t __real_tuhvondi_router_forget(struct tuhvondi_router *, uint32_t, uint8_t);
uint32_t __wrap_tuhvondi_router_forget(struct tuhvondi_router *router, uint32_t addr, uint8_t len)
{
    begun = now();
    uint32_t status = __real_tuhvondi_router_forget(router, addr, len);
    if (status == TUHVONDI_DONE) {
        struct prefix *prefix = find(addr, len);
        prefix->chosen = prefix->published = TUHVONDI_INFINITY;
        NOTE("gone", " %u %u\n", addr, len);
    }
    return status;
}
