/* Three routers in a line, in one process: what a daemon does, with queues in place of connections.
 *
 *     cc -o router examples/c/router.c $(pkg-config --cflags --libs tuhvondi) && ./router
 *
 * It prints what stands in router.out beside it.
 */
#include <tuhvondi_router.h>

#include <inttypes.h>
#include <stdio.h>
#include <stdlib.h>

/* Rows are put in force one at a time here, to show how; a larger list takes fewer calls. */
enum { ROUTERS = 3, PREFIXES = 16, ROWS = 1, QUEUE = 64 };

/* A router, its table that forwards, and what is on its way to it. Port 0 is to the left, port 1 to the right. */
struct node {
    struct tuhvondi_router router;
    struct tuhvondi_image image;
    struct tuhvondi_message queue[QUEUE];
    size_t queued;
};

static struct node nodes[ROUTERS];

static void need(uint32_t status)
{
    if (status == TUHVONDI_DONE)
        return;
    fprintf(stderr, "router: %s\n", tuhvondi_status_text(status));
    exit(1);
}

static struct node *neighbour(size_t i, uint8_t port)
{
    return &nodes[port == 0 ? i - 1 : i + 1];
}

/* Publishes, has the rows forward, part by part, and only then sends what the router releases. */
static bool publish(size_t i)
{
    struct node *node = &nodes[i];
    for (uint8_t more = 1; more;) {
        struct tuhvondi_row rows[ROWS];
        size_t written;
        uint64_t generation;
        uint32_t status = tuhvondi_router_publish(&node->router, rows, ROWS, &written, &more, &generation);
        if (status == TUHVONDI_NOTHING_DUE)
            return false;
        need(status);
        need(tuhvondi_image_apply(&node->image, generation, rows, written));
    }
    struct tuhvondi_message message;
    while (tuhvondi_router_release(&node->router, &message) == TUHVONDI_DONE) {
        struct node *next = neighbour(i, message.port);
        message.port = message.port == 0 ? 1 : 0;
        if (next->queued == QUEUE)
            exit(1);
        next->queue[next->queued++] = message;
    }
    return true;
}

/* A message of a session that has ended is refused, and that is all; for any other fault a daemon ends the session. */
static void deliver(struct node *node, const struct tuhvondi_message *message)
{
    uint32_t status = tuhvondi_router_message(&node->router, message);
    if (status != TUHVONDI_OTHER_SESSION && status != TUHVONDI_IS_DOWN)
        need(status);
}

/* Takes turns until there is nothing more to do. */
static void settle(void)
{
    for (bool more = true; more;) {
        more = false;
        for (size_t i = 0; i < ROUTERS; i++) {
            for (size_t k = 0; k < nodes[i].queued; k++)
                deliver(&nodes[i], &nodes[i].queue[k]);
            nodes[i].queued = 0;
            more = publish(i) || more;
        }
    }
}

/* Forgets a prefix of which nothing is known any more, and takes its row out of the table. */
static void forget(size_t i, struct tuhvondi_prefix prefix)
{
    uint64_t generation;
    need(tuhvondi_router_forget(&nodes[i].router, prefix.addr, prefix.len));
    need(tuhvondi_image_generation(&nodes[i].image, &generation));
    need(tuhvondi_image_remove(&nodes[i].image, generation, &prefix, 1));
}

static void print(const char *what)
{
    printf("%s\n", what);
    for (size_t i = 0; i < ROUTERS; i++) {
        struct tuhvondi_prefix_state state;
        struct tuhvondi_row row;
        uint32_t addr = 0x0a010203; /* 10.1.2.3 */
        need(tuhvondi_image_lookup(&nodes[i].image, &addr, 1, &row, 1));
        need(tuhvondi_router_state(&nodes[i].router, row.addr, row.len, &state));
        printf("  router %zu: 10.1.2.3 (/%u) ", i, row.len);
        if (row.kind == TUHVONDI_VIA)
            printf("by port %u, session %u", row.port, row.session);
        else
            printf("%s", row.kind == TUHVONDI_LOCAL ? "is here" : "cannot be reached");
        if (state.rd == TUHVONDI_INFINITY)
            printf("\n");
        else
            printf(", distance %" PRIu32 "\n", state.rd);
    }
}

int main(void)
{
    const uint32_t costs[2] = {5, 5};
    /* 10.0.0.0/8, and 10.1.0.0/16 in it */
    const struct tuhvondi_attachment nets[2] = {{.addr = 0x0a000000, .cost = 1, .len = 8},
                                                {.addr = 0x0a010000, .cost = 1, .len = 16}};
    const struct tuhvondi_row local[2] = {{.addr = 0x0a000000, .len = 8, .kind = TUHVONDI_LOCAL},
                                          {.addr = 0x0a010000, .len = 16, .kind = TUHVONDI_LOCAL}};
    for (size_t i = 0; i < ROUTERS; i++) {
        /* Router 0 is attached to the prefixes; its table begins with their rows. */
        need(tuhvondi_router_new(costs, 2, nets, i == 0 ? 2 : 0, PREFIXES, &nodes[i].router));
        need(tuhvondi_image_new(local, i == 0 ? 2 : 0, &nodes[i].image));
    }
    for (size_t i = 0; i + 1 < ROUTERS; i++) {
        need(tuhvondi_router_link_up(&nodes[i].router, 1, 1, 5));
        need(tuhvondi_router_link_up(&nodes[i + 1].router, 0, 1, 7));
    }
    settle();
    print("all links are up:");
    need(tuhvondi_router_link_down(&nodes[0].router, 1));
    need(tuhvondi_router_link_down(&nodes[1].router, 0));
    settle();
    print("the link of routers 0 and 1 is down:");
    need(tuhvondi_router_link_up(&nodes[0].router, 1, 2, 5));
    need(tuhvondi_router_link_up(&nodes[1].router, 0, 2, 3));
    settle();
    print("it is up again, in its second session:");
    need(tuhvondi_router_detached(&nodes[0].router, 0x0a010000, 16));
    settle();
    print("router 0 is detached from 10.1.0.0/16:");
    for (size_t i = 0; i < ROUTERS; i++)
        forget(i, (struct tuhvondi_prefix){0x0a010000, 16});
    print("all have forgotten it, and 10.0.0.0/8 is next:");
    for (size_t i = 0; i < ROUTERS; i++) {
        tuhvondi_router_free(&nodes[i].router);
        tuhvondi_image_free(&nodes[i].image);
    }
    return 0;
}
