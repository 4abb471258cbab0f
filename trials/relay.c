/* Links that are slow: carries frames between interfaces, each after its delay, and notes the packets of trials/traffic.c.
 *
 *     relay FILE < LIST
 *
 * LIST has a line for each link: two interfaces of this namespace, and the microseconds that a frame takes from the first to
 * the second, and back. Frames of one direction keep their order. It ends at SIGTERM, and then FILE has 32 bytes for each
 * packet that a link carried (struct hop). Times are of CLOCK_MONOTONIC, in nanoseconds. */
#define _GNU_SOURCE
#include <arpa/inet.h>
#include <errno.h>
#include <linux/if_packet.h>
#include <linux/virtio_net.h>
#include <net/ethernet.h>
#include <net/if.h>
#include <netinet/ip.h>
#include <netinet/udp.h>
#include <poll.h>
#include <signal.h>
#include <stdbool.h>
#include <stdint.h>
#include <stdio.h>
#include <stdlib.h>
#include <string.h>
#include <sys/prctl.h>
#include <sys/socket.h>
#include <time.h>

enum { LINKS = 256, ENDS = 2 * LINKS, LONGEST = 66000, PORT = 9000, BATCH = 64, BUFFER = 8 << 20 };

/* A packet that came to a link at an end of it, 0 or 1, and left it at the other. */
struct hop {
    uint64_t number, came, left;
    uint8_t link, end, ttl, zero[5];
};

_Static_assert(sizeof(struct hop) == 32, "the reader of FILE takes 32 bytes each");

struct frame {
    struct frame *next;
    uint64_t due;
    struct hop hop;
    bool is_packet;
    size_t length;
    unsigned char bytes[];
};

/* The frames that came in at an end and have yet to leave at the other, in their order. */
struct end {
    int socket;
    uint64_t delay;
    struct frame *first, **last;
};

static struct end ends[ENDS];
static size_t end_count;
static volatile sig_atomic_t stopping;
static uint64_t since_boot; /* what is to be taken from a time of CLOCK_REALTIME */

#define FAIL(what) (perror(what), exit(1))

static void stop(int number)
{
    stopping = number;
}

static uint64_t now(clockid_t clock)
{
    struct timespec at;
    clock_gettime(clock, &at);
    return (uint64_t)at.tv_sec * 1000000000u + (uint64_t)at.tv_nsec;
}

static int open_end(const char *name)
{
    struct sockaddr_ll at = {.sll_family = AF_PACKET, .sll_protocol = htons(ETH_P_ALL), .sll_ifindex = (int)if_nametoindex(name)};
    int on = 1, buffer = BUFFER;
    int fd = socket(AF_PACKET, SOCK_RAW | SOCK_CLOEXEC, 0);
    if (fd < 0 || at.sll_ifindex == 0 || setsockopt(fd, SOL_PACKET, PACKET_VNET_HDR, &on, sizeof on)
        || setsockopt(fd, SOL_PACKET, PACKET_IGNORE_OUTGOING, &on, sizeof on)
        || setsockopt(fd, SOL_SOCKET, SO_TIMESTAMPNS, &on, sizeof on)
        || setsockopt(fd, SOL_SOCKET, SO_RCVBUFFORCE, &buffer, sizeof buffer) || bind(fd, (void *)&at, sizeof at))
        FAIL(name);
    return fd;
}

/* Whether a frame is a packet of trials/traffic.c, and which. */
static bool is_counted(const unsigned char *bytes, size_t length, struct hop *hop)
{
    struct ether_header ether;
    struct iphdr ip;
    struct udphdr udp;
    size_t at = sizeof(struct virtio_net_hdr);
    if (length < at + sizeof ether + sizeof ip + sizeof udp + sizeof hop->number)
        return false;
    memcpy(&ether, bytes + at, sizeof ether);
    at += sizeof ether;
    memcpy(&ip, bytes + at, sizeof ip);
    at += sizeof ip;
    memcpy(&udp, bytes + at, sizeof udp);
    memcpy(&hop->number, bytes + at + sizeof udp, sizeof hop->number);
    hop->ttl = ip.ttl;
    return ether.ether_type == htons(ETHERTYPE_IP) && ip.ihl == 5 && ip.protocol == IPPROTO_UDP && udp.dest == htons(PORT);
}

/* When the kernel got it. */
static uint64_t time_of(struct msghdr *message)
{
    struct timespec at;
    for (struct cmsghdr *option = CMSG_FIRSTHDR(message); option; option = CMSG_NXTHDR(message, option))
        if (option->cmsg_level == SOL_SOCKET && option->cmsg_type == SO_TIMESTAMPNS) {
            memcpy(&at, CMSG_DATA(option), sizeof at);
            return (uint64_t)at.tv_sec * 1000000000u + (uint64_t)at.tv_nsec - since_boot;
        }
    return now(CLOCK_MONOTONIC);
}

/* Takes one frame: whether there was one. */
static bool take(size_t number)
{
    static unsigned char bytes[LONGEST];
    struct end *end = &ends[number];
    char control[128];
    struct iovec room = {bytes, sizeof bytes};
    struct msghdr message = {.msg_iov = &room, .msg_iovlen = 1, .msg_control = control, .msg_controllen = sizeof control};
    ssize_t got = recvmsg(end->socket, &message, MSG_DONTWAIT);
    if (got <= 0)
        return false;
    struct frame *frame = malloc(sizeof *frame + (size_t)got);
    if (!frame)
        FAIL("memory for a frame");
    *frame = (struct frame){.length = (size_t)got, .hop = {.link = (uint8_t)(number / 2), .end = number % 2}};
    memcpy(frame->bytes, bytes, (size_t)got);
    frame->is_packet = is_counted(bytes, (size_t)got, &frame->hop);
    frame->hop.came = time_of(&message);
    frame->due = frame->hop.came + end->delay;
    *end->last = frame;
    end->last = &frame->next;
    return true;
}

/* Sends what is due. A link that is down takes nothing, and what was on it is lost. */
static void send_due(size_t number, FILE *file)
{
    struct end *end = &ends[number];
    uint64_t at = now(CLOCK_MONOTONIC);
    while (end->first && end->first->due <= at) {
        struct frame *frame = end->first;
        end->first = frame->next;
        if (!end->first)
            end->last = &end->first;
        frame->hop.left = now(CLOCK_MONOTONIC);
        if (send(ends[number ^ 1].socket, frame->bytes, frame->length, 0) > 0 && frame->is_packet)
            fwrite(&frame->hop, sizeof frame->hop, 1, file);
        free(frame);
    }
}

/* Nanoseconds until something is due; not longer than a tenth of a second. */
static long patience(void)
{
    uint64_t at = now(CLOCK_MONOTONIC), next = at + 100000000;
    for (size_t i = 0; i < end_count; i++)
        if (ends[i].first && ends[i].first->due < next)
            next = ends[i].first->due > at ? ends[i].first->due : at;
    return (long)(next - at);
}

int main(int count, char **words)
{
    struct pollfd polls[ENDS];
    char first[IF_NAMESIZE], second[IF_NAMESIZE];
    unsigned long there, back;
    FILE *file = count == 2 ? fopen(words[1], "w") : NULL;
    if (!file)
        FAIL("usage: relay FILE < LIST");
    prctl(PR_SET_PDEATHSIG, SIGKILL);
    signal(SIGTERM, stop);
    signal(SIGINT, stop);
    since_boot = now(CLOCK_REALTIME) - now(CLOCK_MONOTONIC);
    while (end_count < ENDS && scanf("%15s %15s %lu %lu", first, second, &there, &back) == 4) {
        ends[end_count++] = (struct end){.socket = open_end(first), .delay = there * 1000};
        ends[end_count++] = (struct end){.socket = open_end(second), .delay = back * 1000};
    }
    for (size_t i = 0; i < end_count; i++) {
        ends[i].last = &ends[i].first;
        polls[i] = (struct pollfd){ends[i].socket, POLLIN, 0};
    }
    puts("ready");
    fflush(stdout);
    while (!stopping) {
        struct timespec limit = {0, patience()};
        if (ppoll(polls, end_count, &limit, NULL) < 0 && errno != EINTR)
            FAIL("poll");
        for (size_t i = 0; i < end_count; i++)
            for (int batch = 0; polls[i].revents && batch < BATCH && take(i); batch++)
                ;
        for (size_t i = 0; i < end_count; i++)
            send_due(i, file);
    }
    if (ferror(file) || fclose(file))
        FAIL(words[1]);
    return 0;
}
