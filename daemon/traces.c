/* Traces: how an address is forwarded, router by router. A trace goes over the connection of its row's session. */
#include "daemon.h"

#include <arpa/inet.h>

/* Tells who asked of one router of a trace, and whether the trace goes on from it or how it ends. */
static void tell(struct daemon *daemon, struct trace *trace, uint8_t end, uint32_t id)
{
    trace->used = end == TUHVONDI_VIA;
    if (trace->from >= 0) {
        struct peer *peer = &daemon->peers[trace->from];
        struct frame frame = {.type = FRAME_ROUTER, .kind = end, .number = trace->asked, .addr = id};
        if (peer->state == PEER_UP)
            peer_put(daemon, peer, &frame);
        return;
    }
    struct client *client = control_client(daemon, trace->client);
    if (!client) {
        trace->used = false;
        return;
    }
    show_hop(&client->out, client->json, id, end);
    client->since = now_ms();
    if (!trace->used)
        client->state = CLIENT_ANSWERED;
}

/* No neighbour takes more than a share, so that others, and who asks here, have room. */
static struct trace *free_trace(struct daemon *daemon, int from)
{
    struct trace *found = NULL;
    size_t count = 0;
    for (struct trace *trace = daemon->traces; trace < daemon->traces + TRACES; trace++) {
        if (!trace->used)
            found = trace;
        else if (from >= 0 && trace->from == from)
            count++;
    }
    return count < TRACES / 4 ? found : NULL;
}

void trace_begin(struct daemon *daemon, const struct trace *asked, uint32_t addr, uint8_t hops)
{
    struct tuhvondi_row row;
    struct trace begun = *asked, *trace = free_trace(daemon, asked->from);
    uint8_t end = tuhvondi_image_lookup(&daemon->router.reader, &addr, 1, &row, 1) ? TRACE_GIVEN_UP : row.kind;
    if (end == TUHVONDI_VIA && !is_in_session(&daemon->peers[row.port], row.session))
        end = TRACE_DEAD_LINK;
    if (end == TUHVONDI_VIA && (hops == 0 || !trace))
        end = TRACE_GIVEN_UP;
    /* No trace has the number 0: a frame of it has another meaning. */
    daemon->trace_number += daemon->trace_number == UINT16_MAX ? 2 : 1;
    begun.number = daemon->trace_number;
    tell(daemon, &begun, end, ntohl(daemon->config.router_id.s_addr));
    if (!begun.used)
        return;
    begun.next = row.port;
    begun.left = hops;
    begun.until = now_ms() + daemon->config.dead_ms;
    *trace = begun;
    struct frame frame = {.type = FRAME_TRACE, .kind = (uint8_t)(hops - 1), .number = begun.number, .addr = addr};
    peer_put(daemon, &daemon->peers[row.port], &frame);
}

/* A neighbour may tell of as many routers as the trace may still pass, and of no more. */
void trace_answered(struct daemon *daemon, const struct peer *peer, const struct frame *frame)
{
    for (struct trace *trace = daemon->traces; trace < daemon->traces + TRACES; trace++)
        if (trace->used && trace->number == frame->number && trace->next == port_of(daemon, peer))
            tell(daemon, trace, trace->left-- > 0 ? frame->kind : TRACE_GIVEN_UP, frame->addr);
}

void traces_tick(struct daemon *daemon, int64_t now)
{
    for (struct trace *trace = daemon->traces; trace < daemon->traces + TRACES; trace++)
        if (trace->used && now > trace->until)
            tell(daemon, trace, TRACE_GIVEN_UP, ntohl(daemon->config.router_id.s_addr));
}
