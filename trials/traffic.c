/* Streams of UDP between all routers of a test network, from one process.
 *
 *     traffic FOLDER RATE TTL SECONDS < LIST
 *
 * LIST has a line for each router: its network namespace, an address, and how many prefixes of 24 bits begin with the one
 * of this address. Packets go there to the same host of each prefix. RATE packets a second leave, in turn, from each router to
 * each other one, with this TTL. It ends at SIGTERM, at SIGINT, or after SECONDS, and then writes two files:
 *
 *     FOLDER/packets   24 bytes for each packet, in the order in which they left (struct packet)
 *     FOLDER/expired   a line for each moment at which a router had counted expired TTLs: the time, the router's place in LIST,
 *                      and how many since the last look. The counter is InHdrErrors of Ip in /proc/net/snmp; it is read
 *                      every 20 ms.
 *
 * All times are of CLOCK_MONOTONIC, in nanoseconds. */
#define _GNU_SOURCE
#include <arpa/inet.h>
#include <errno.h>
#include <fcntl.h>
#include <inttypes.h>
#include <pthread.h>
#include <sched.h>
#include <signal.h>
#include <stdatomic.h>
#include <stdbool.h>
#include <stdio.h>
#include <stdlib.h>
#include <string.h>
#include <sys/epoll.h>
#include <sys/mman.h>
#include <sys/prctl.h>
#include <sys/socket.h>
#include <time.h>
#include <unistd.h>

enum {
    ROUTERS = 64,
    PORT = 9000,
    PAYLOAD = 64,             /* bytes */
    BURST = 64,               /* packets that leave at once at most, if the process was late */
    RECEIVE_MS = 100,         /* that the receiver waits at most, before it looks whether it is to end */
    LOOK_NS = 20000000,       /* between looks at the counters */
    UNDER_WAY_NS = 700000000, /* that packets have to arrive after the last one left */
    BUFFER = 4 << 20,         /* bytes that may wait at a receiver */
};

/* `ttl` is what it came with, and 0 if it did not come. `error`: why it could not be sent. */
struct packet {
    uint64_t sent, got;
    uint8_t ttl, copies, error, from, to, zero[3];
};

_Static_assert(sizeof(struct packet) == 24, "the reader of FOLDER/packets takes 24 bytes each");

struct router {
    int socket, counters;
    uint32_t address, prefixes;
};

static struct router routers[ROUTERS];
static uint64_t router_count;
static struct packet *packets;
static uint64_t most;
static FILE *expired;
/* What ends the streams: the number of a signal; -1: all packets have had their time, and the threads end. */
static atomic_int stopping;

#define FAIL(what) (perror(what), exit(1))

static void stop(int number)
{
    stopping = number;
}

static uint64_t now(void)
{
    struct timespec at;
    clock_gettime(CLOCK_MONOTONIC, &at);
    return (uint64_t)at.tv_sec * 1000000000u + (uint64_t)at.tv_nsec;
}

static void wait_ns(long ns)
{
    struct timespec time = {0, ns};
    nanosleep(&time, NULL);
}

/* ---- packets that come */

/* Takes one packet from a socket: whether there was one. */
static bool take_packet(int socket)
{
    uint64_t number[PAYLOAD / sizeof(uint64_t)];
    char control[64];
    struct iovec bytes = {number, sizeof number};
    struct msghdr message = {
        .msg_iov = &bytes, .msg_iovlen = 1, .msg_control = control, .msg_controllen = sizeof control};
    ssize_t got = recvmsg(socket, &message, MSG_DONTWAIT);
    if (got < 0)
        return false;
    struct cmsghdr *option = CMSG_FIRSTHDR(&message);
    if (got == sizeof number && number[0] < most && option && option->cmsg_type == IP_TTL) {
        struct packet *packet = &packets[number[0]];
        if (packet->copies == 0)
            packet->got = now();
        packet->ttl = (uint8_t)*(int *)(void *)CMSG_DATA(option);
        if (packet->copies < UINT8_MAX)
            packet->copies++;
    }
    return true;
}

static void *receive(void *none)
{
    struct epoll_event events[ROUTERS];
    int all = epoll_create1(EPOLL_CLOEXEC);
    for (uint64_t i = 0; i < router_count; i++) {
        struct epoll_event event = {.events = EPOLLIN, .data.fd = routers[i].socket};
        if (epoll_ctl(all, EPOLL_CTL_ADD, routers[i].socket, &event))
            FAIL("epoll");
    }
    while (stopping >= 0) {
        int count = epoll_wait(all, events, ROUTERS, RECEIVE_MS);
        for (int i = 0; i < count; i++)
            while (take_packet(events[i].data.fd))
                ;
    }
    return none;
}

/* ---- TTLs that expire */

/* InHdrErrors: the third number of the second line that begins with Ip. */
static bool read_counter(int counters, uint64_t *count)
{
    char text[4096];
    ssize_t got = pread(counters, text, sizeof text - 1, 0);
    text[got > 0 ? got : 0] = '\0';
    const char *values = strstr(text, "\nIp: ");
    return values && sscanf(values, " Ip: %*u %*u %*u %" SCNu64, count) == 1;
}

/* Looks at each router's counter, and notes what is new but the first time. */
static void look(uint64_t before[ROUTERS], bool notes)
{
    for (uint64_t i = 0; i < router_count; i++) {
        uint64_t count = before[i];
        if (!read_counter(routers[i].counters, &count))
            FAIL("/proc/net/snmp");
        if (notes && count != before[i])
            fprintf(expired, "%" PRIu64 " %" PRIu64 " %" PRIu64 "\n", now(), i, count - before[i]);
        before[i] = count;
    }
}

static void *watch(void *before)
{
    while (stopping >= 0) {
        look(before, true);
        wait_ns(LOOK_NS);
    }
    return NULL;
}

/* ---- packets that leave */

static struct sockaddr_in endpoint(uint32_t address)
{
    return (struct sockaddr_in){
        .sin_family = AF_INET, .sin_port = htons(PORT), .sin_addr.s_addr = htonl(address)};
}

/* A socket in the namespace, and its counters, which stay open when the thread leaves the namespace. */
static void open_router(struct router *router, const char *namespace)
{
    char path[300];
    int on = 1, buffer = BUFFER;
    struct sockaddr_in any = endpoint(INADDR_ANY);
    snprintf(path, sizeof path, "/run/netns/%s", namespace);
    int inside = open(path, O_RDONLY | O_CLOEXEC);
    if (inside < 0 || setns(inside, CLONE_NEWNET))
        FAIL(path);
    close(inside);
    router->socket = socket(AF_INET, SOCK_DGRAM | SOCK_CLOEXEC, 0);
    router->counters = open("/proc/thread-self/net/snmp", O_RDONLY | O_CLOEXEC);
    if (router->socket < 0 || router->counters < 0 || bind(router->socket, (struct sockaddr *)&any, sizeof any)
        || setsockopt(router->socket, IPPROTO_IP, IP_RECVTTL, &on, sizeof on)
        || setsockopt(router->socket, SOL_SOCKET, SO_RCVBUFFORCE, &buffer, sizeof buffer))
        FAIL(namespace);
}

static void read_list(int ttl)
{
    char namespace[64], address[32];
    struct in_addr found;
    uint32_t prefixes;
    int outside = open("/proc/self/ns/net", O_RDONLY | O_CLOEXEC);
    while (router_count < ROUTERS && scanf("%63s %31s %" SCNu32, namespace, address, &prefixes) == 3) {
        struct router *router = &routers[router_count++];
        if (inet_pton(AF_INET, address, &found) != 1 || prefixes == 0)
            FAIL(address);
        *router = (struct router){.address = ntohl(found.s_addr), .prefixes = prefixes};
        open_router(router, namespace);
        if (setsockopt(router->socket, IPPROTO_IP, IP_TTL, &ttl, sizeof ttl))
            FAIL("TTL");
    }
    if (outside < 0 || setns(outside, CLONE_NEWNET) || router_count < 2)
        FAIL("the list of routers");
    close(outside);
}

/* The flows are as many as ordered pairs of routers. A stride that has no divisor in common with their number takes each
 * in turn, and so one source does not send all of its packets in a row. */
static uint64_t stride(uint64_t flows)
{
    for (uint64_t step = 17;; step++) {
        uint64_t a = step, b = flows;
        while (b > 0) {
            uint64_t rest = a % b;
            a = b;
            b = rest;
        }
        if (a == 1)
            return step;
    }
}

static void send_packet(uint64_t number, uint64_t step)
{
    uint64_t payload[PAYLOAD / sizeof(uint64_t)] = {number};
    uint64_t others = router_count - 1, flows = router_count * others;
    uint64_t flow = number % flows * step % flows;
    uint64_t from = flow / others, to = flow % others;
    to += to >= from;
    uint32_t prefix = (uint32_t)(number / flows % routers[to].prefixes);
    struct sockaddr_in there = endpoint(routers[to].address + (prefix << 8));
    struct packet *packet = &packets[number];
    packet->from = (uint8_t)from;
    packet->to = (uint8_t)to;
    packet->sent = now();
    if (sendto(routers[from].socket, payload, sizeof payload, MSG_DONTWAIT, (struct sockaddr *)&there, sizeof there) < 0)
        packet->error = (uint8_t)errno;
}

/* Sends until it is told to stop: how many packets. */
static uint64_t send_all(double rate)
{
    uint64_t step = stride(router_count * (router_count - 1)), begun = now(), number = 0;
    while (!stopping && number < most) {
        uint64_t due = (uint64_t)((double)(now() - begun) * rate / 1e9) + 1;
        for (int burst = 0; burst < BURST && number < most && number < due; burst++)
            send_packet(number++, step);
        wait_ns(1000000);
    }
    return number;
}

static void write_packets(const char *folder, uint64_t count)
{
    char path[300];
    snprintf(path, sizeof path, "%s/packets", folder);
    FILE *file = fopen(path, "w");
    if (!file || fwrite(packets, sizeof *packets, count, file) != count || fclose(file))
        FAIL(path);
    if (ferror(expired) || fclose(expired))
        FAIL("expired");
}

int main(int count, char **words)
{
    static uint64_t before[ROUTERS];
    char path[300];
    pthread_t receiver, watcher;
    double rate = count == 5 ? atof(words[2]) : 0, seconds = count == 5 ? atof(words[4]) : 0;
    int ttl = count == 5 ? atoi(words[3]) : 0;
    if (rate < 1 || rate > 100000 || ttl < 1 || ttl > 255 || seconds < 1 || seconds > 36000) {
        fprintf(stderr, "usage: traffic FOLDER RATE TTL SECONDS < LIST\n");
        return 2;
    }
    prctl(PR_SET_PDEATHSIG, SIGKILL);
    signal(SIGTERM, stop);
    signal(SIGINT, stop);
    read_list(ttl);
    most = (uint64_t)(rate * seconds);
    packets = mmap(NULL, most * sizeof *packets, PROT_READ | PROT_WRITE, MAP_PRIVATE | MAP_ANONYMOUS | MAP_NORESERVE, -1, 0);
    if (packets == MAP_FAILED)
        FAIL("memory for the packets");
    snprintf(path, sizeof path, "%s/expired", words[1]);
    if (!(expired = fopen(path, "w")))
        FAIL(path);
    look(before, false);
    if (pthread_create(&receiver, NULL, receive, NULL) || pthread_create(&watcher, NULL, watch, before))
        FAIL("threads");
    uint64_t sent = send_all(rate);
    wait_ns(UNDER_WAY_NS);
    stopping = -1;
    pthread_join(receiver, NULL);
    pthread_join(watcher, NULL);
    look(before, true);
    write_packets(words[1], sent);
    return 0;
}
