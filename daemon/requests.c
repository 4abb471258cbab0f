#include "requests.h"

#include <errno.h>
#include <linux/rtnetlink.h>
#include <string.h>
#include <sys/socket.h>
#include <sys/time.h>
#include <unistd.h>

#ifndef SOL_NETLINK
#define SOL_NETLINK 270
#endif

enum { ANSWER_MS = 2000, ROOM = 1 << 16, UNANSWERED = -1 };

int requests_socket(uint32_t *port)
{
    struct timeval moment = {.tv_sec = ANSWER_MS / 1000};
    int one = 1, bytes = 1 << 20;
    int fd = socket(AF_NETLINK, SOCK_RAW | SOCK_CLOEXEC, NETLINK_ROUTE);
    struct sockaddr_nl own = {.nl_family = AF_NETLINK};
    socklen_t size = sizeof own;
    if (fd < 0)
        return -1;
    setsockopt(fd, SOL_SOCKET, SO_RCVTIMEO, &moment, sizeof moment);
    setsockopt(fd, SOL_SOCKET, SO_SNDTIMEO, &moment, sizeof moment);
    setsockopt(fd, SOL_SOCKET, SO_RCVBUFFORCE, &bytes, sizeof bytes);
    setsockopt(fd, SOL_NETLINK, NETLINK_CAP_ACK, &one, sizeof one);
    setsockopt(fd, SOL_NETLINK, NETLINK_GET_STRICT_CHK, &one, sizeof one);
    if (bind(fd, (struct sockaddr *)&own, sizeof own) || getsockname(fd, (struct sockaddr *)&own, &size)) {
        close(fd);
        return -1;
    }
    *port = own.nl_pid;
    return fd;
}

void *batch_room(struct batch *batch)
{
    return batch->room + batch->size;
}

void batch_add(struct batch *batch, size_t size, const void *of)
{
    batch->of[batch->count] = of;
    batch->errors[batch->count++] = EIO;
    batch->size += size;
}

bool requests_note_answers(struct batch *batch, uint32_t first, void *bytes, size_t size)
{
    bool is_last = false;
    size_t place = 0;
    for (const struct nlmsghdr *at; (at = netlink_next(bytes, size, &place));) {
        struct nlmsgerr answer;
        uint32_t number = at->nlmsg_seq - first;
        if (at->nlmsg_type != NLMSG_ERROR || at->nlmsg_len < NLMSG_LENGTH(sizeof answer) || number >= batch->count)
            continue;
        memcpy(&answer, NLMSG_DATA(at), sizeof answer);
        batch->errors[number] = netlink_error(answer.error);
        is_last = is_last || number == batch->count - 1;
    }
    return is_last;
}

/* The kernel answers in order, so what it has not refused before it answers the last is done. It tells if there was no memory for
 * an answer (ENOBUFS), and then it is not known which one is missing. */
static bool wait_for_last(int fd, struct batch *batch, uint32_t first)
{
    _Alignas(struct nlmsghdr) unsigned char room[8192];
    for (;;) {
        ssize_t got = recv(fd, room, sizeof room, 0);
        if (got < 0 && errno == EINTR)
            continue;
        if (got <= 0)
            return false;
        if (requests_note_answers(batch, first, room, (size_t)got))
            return true;
    }
}

void requests_send(int fd, uint32_t *number, struct batch *batch)
{
    uint32_t first = *number + 1;
    if (batch->count == 0)
        return;
    size_t place = 0;
    struct nlmsghdr *last = NULL;
    for (struct nlmsghdr *at; (at = netlink_next(batch->room, batch->size, &place)); last = at)
        at->nlmsg_seq = ++*number;
    if (last)
        last->nlmsg_flags |= NLM_F_ACK;
    for (size_t i = 0; i < batch->count; i++)
        batch->errors[i] = UNANSWERED;
    bool done = send(fd, batch->room, batch->size, 0) >= 0 && wait_for_last(fd, batch, first);
    for (size_t i = 0; i < batch->count; i++)
        if (batch->errors[i] == UNANSWERED)
            batch->errors[i] = done ? 0 : EIO;
}

int requests_read_dump(uint32_t number, void *bytes, size_t size, bool *changed, void *to,
                       void take(void *to, const struct nlmsghdr *message))
{
    size_t place = 0;
    for (const struct nlmsghdr *at; (at = netlink_next(bytes, size, &place));) {
        int error = 0;
        if (at->nlmsg_seq != number)
            continue;
        *changed |= (at->nlmsg_flags & NLM_F_DUMP_INTR) != 0;
        if (at->nlmsg_type == NLMSG_DONE || at->nlmsg_type == NLMSG_ERROR) {
            if (at->nlmsg_len >= NLMSG_LENGTH(sizeof error))
                memcpy(&error, NLMSG_DATA(at), sizeof error);
            /* A table of which there is none has no routes. */
            return error == 0 || error == -ENOENT ? 1 : -1;
        }
        take(to, at);
    }
    return 0;
}

bool requests_dump(int fd, uint32_t *number, void *request, size_t size, void *to,
                   void take(void *to, const struct nlmsghdr *message))
{
    _Alignas(struct nlmsghdr) static unsigned char room[ROOM];
    bool changed = false;
    /* One that was given up is read to its end first. */
    while (recv(fd, room, sizeof room, MSG_DONTWAIT) > 0)
        ;
    uint32_t own = ++*number;
    ((struct nlmsghdr *)request)->nlmsg_seq = own;
    int state = send(fd, request, size, 0) < 0 ? -1 : 0;
    while (state == 0) {
        ssize_t got = recv(fd, room, sizeof room, 0);
        if (got < 0 && errno == EINTR)
            continue;
        state = got <= 0 ? -1 : requests_read_dump(own, room, (size_t)got, &changed, to, take);
    }
    return state == 1 && !changed;
}
