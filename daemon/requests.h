/* Requests to the kernel by rtnetlink, many in one message. The kernel answers each that it refuses, and the last. */
#ifndef DUALNETD_REQUESTS_H
#define DUALNETD_REQUESTS_H

#include "netlink.h"

enum { BATCH = 64 };

/* Requests that go together. After requests_send `errors` has 0, or the number of the error, for each. */
struct batch {
    size_t count, size;
    int errors[BATCH];
    const void *of[BATCH]; /* whatever the caller wants to find by the request */
    _Alignas(struct nlmsghdr) unsigned char room[BATCH * REQUEST_SIZE];
};

/* A socket for requests, and its number in the kernel's notices; -1: none. */
int requests_socket(uint32_t *port);

/* The request that netlink_route or netlink_rule wrote at batch_room is one more; `of` stands beside it. */
void *batch_room(struct batch *batch);
void batch_add(struct batch *batch, size_t size, const void *of);

/* Has the kernel do all of them, in order, and waits until it has done the last. `number` is that of the last request, and goes
 * on. If the last is not answered, or an answer was lost, each that was not answered has the error EIO. */
void requests_send(int fd, uint32_t *number, struct batch *batch);

/* What the bytes of an answer tell, without a socket: whether they answer the last request of the batch, whose numbers begin with
 * `first`; whether a dump goes on (0), is over (1), or has failed (-1). */
bool requests_note_answers(struct batch *batch, uint32_t first, void *bytes, size_t size);
int requests_read_dump(uint32_t number, void *bytes, size_t size, bool *changed, void *to,
                       void take(void *to, const struct nlmsghdr *message));

/* Asks for a dump, on a socket for that alone, and calls `take` for each message of it: whether all of it came, and
 * nothing changed meanwhile. The socket stays open, because later there may be no free descriptor for one. */
bool requests_dump(int fd, uint32_t *number, void *request, size_t size, void *to,
                   void take(void *to, const struct nlmsghdr *message));

#endif
