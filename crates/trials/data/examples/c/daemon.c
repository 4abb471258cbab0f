/* The duties of a daemon (docs/daemons.md) in code: one router, whose neighbours are other processes, over TCP.
 *
 *     cc -o daemon examples/c/daemon.c $(pkg-config --cflags --libs tuhvondi)
 *     ./daemon 1 2:1 3:9 </dev/null & ./daemon 2 1:1 3:1 </dev/null &        in one terminal
 *     ./daemon 3 1:9 2:1                                                     in another
 *
 * Router N, of 1 to 31, is attached to 10.N.0.0/16, and 2:1 is a link to router 2 that costs 1 from here. A row is printed
 * when it forwards. After `kill %2' router 3 reaches 10.1.0.0/16 by its link that costs 9. Start router 2 again, and its
 * links have another session. If you type an address, a packet goes there.
 *
 * Numbers in the code are those of the duties; no port gets another neighbour (6). If both ends of a link begin anew at
 * once, nothing of before is left, and sessions begin at 1 again. What is left out: signs of life and other timers, routes
 * of the kernel, secrets, hostile neighbours, prefixes to forget, and what to do without memory, where it ends. The daemon
 * for real networks is daemon/.
 */
#define _DEFAULT_SOURCE
#include <tuhvondi_router.h>

#include <arpa/inet.h>
#include <err.h>
#include <poll.h>
#include <stdio.h>
#include <sys/socket.h>
#include <unistd.h>

enum { TCP_PORT = 6200, PREFIXES = 64, ROWS = 16, PACKET = 3, QUIET_MS = 1000 };

/* Port N leads to router N. A frame is a message as it stands in memory, because both ends are on one machine. The first
 * of a connection tells the session that its sender had last. One of kind PACKET is a packet. */
static struct peer {
    uint32_t cost; /* 0: it is no neighbour */
    int fd;        /* -1: there is no connection */
    bool up;
    uint16_t session; /* the last one */
} peers[TUHVONDI_PORTS];

static struct tuhvondi_router router = TUHVONDI_NO_ROUTER;
static struct tuhvondi_image image = TUHVONDI_NO_IMAGE;
static unsigned self;

static void need(uint32_t status)
{
    if (status != TUHVONDI_DONE)
        errx(1, "%s", tuhvondi_status_text(status));
}

/* A frame that is not sent whole is the last of its connection, so that none comes behind a gap (1). */
static void put(uint8_t port, const struct tuhvondi_message *frame)
{
    if (send(peers[port].fd, frame, sizeof *frame, MSG_NOSIGNAL | MSG_DONTWAIT) != (ssize_t)sizeof *frame)
        shutdown(peers[port].fd, SHUT_RDWR);
}

static void hang_up(uint8_t port, const char *why)
{
    printf("%u: the connection with %u ends: %s\n", self, port, why);
    close(peers[port].fd);
    peers[port].fd = -1;
    if (peers[port].up)
        need(tuhvondi_router_link_down(&router, port));
    peers[port].up = false;
}

static void greet(uint8_t port, int fd)
{
    struct tuhvondi_message hello = {.session = peers[port].session};
    if (peers[port].fd >= 0)
        hang_up(port, "there is a new one");
    peers[port].fd = fd;
    put(port, &hello);
}

/* Both ends have said which session they had last: the next after both begins (2). */
static void begin_session(uint8_t port, uint16_t theirs)
{
    struct peer *peer = &peers[port];
    peer->session = theirs > peer->session ? theirs : peer->session;
    peer->up = peer->session < UINT16_MAX;
    if (peer->up)
        need(tuhvondi_router_link_up(&router, port, ++peer->session, peer->cost));
    else
        hang_up(port, "there is no later session");
}

/* A packet goes by the image, and tells the session of the row by which it goes. */
static void forward(struct tuhvondi_message packet)
{
    struct tuhvondi_row row;
    need(tuhvondi_image_lookup(&image, &packet.addr, 1, &row, 1));
    bool goes_on = row.kind == TUHVONDI_VIA && peers[row.port].up;
    packet.session = row.session;
    if (goes_on)
        put(row.port, &packet);
    printf("%u: a packet %s\n", self, goes_on ? "goes on" : row.kind == TUHVONDI_LOCAL ? "is here" : "goes no further");
}

static void take(uint8_t port)
{
    struct tuhvondi_message frame;
    if (recv(peers[port].fd, &frame, sizeof frame, MSG_WAITALL) != (ssize_t)sizeof frame) {
        hang_up(port, "it is closed");
    } else if (!peers[port].up) {
        begin_session(port, frame.session);
    } else if (frame.kind == PACKET) {
        if (frame.session == peers[port].session) /* it is let in only then (4) */
            forward(frame);
    } else {
        frame.port = port;
        uint32_t status = tuhvondi_router_message(&router, &frame);
        need(status == TUHVONDI_NO_MEMORY ? status : TUHVONDI_DONE);
        if (status != TUHVONDI_DONE)
            hang_up(port, tuhvondi_status_text(status));
    }
}

static void print_row(const struct tuhvondi_row *row)
{
    struct in_addr address = {htonl(row->addr)};
    printf("%u: %s/%u ", self, inet_ntoa(address), row->len);
    if (row->kind == TUHVONDI_VIA)
        printf("by router %u, session %u\n", row->port, row->session);
    else
        printf("%s\n", row->kind == TUHVONDI_LOCAL ? "is here" : "cannot be reached");
}

/* Has the rows forward, part by part. Only then messages leave (3), but for those of a session that is over (2). */
static void publish_and_release(void)
{
    struct tuhvondi_row rows[ROWS];
    struct tuhvondi_message message = {0};
    uint64_t generation;
    uint32_t status;
    uint8_t more;
    size_t count;
    while ((status = tuhvondi_router_publish(&router, rows, ROWS, &count, &more, &generation)) == TUHVONDI_DONE) {
        need(tuhvondi_image_apply(&image, generation, rows, count));
        for (size_t i = 0; i < count; i++)
            print_row(&rows[i]);
    }
    need(status == TUHVONDI_NOTHING_DUE ? TUHVONDI_DONE : status);
    while (tuhvondi_router_release(&router, &message) == TUHVONDI_DONE)
        if (peers[message.port].up && peers[message.port].session == message.session)
            put(message.port, &message);
}

/* A socket of the link. The end with the smaller number listens, and the other one connects, if somebody listens. */
static int link_socket(uint8_t port)
{
    unsigned number = port < self ? port * TUHVONDI_PORTS + self : self * TUHVONDI_PORTS + port;
    struct sockaddr_in at = {AF_INET, htons((uint16_t)(TCP_PORT + number)), {htonl(INADDR_LOOPBACK)}, {0}};
    int fd = socket(AF_INET, SOCK_STREAM, 0), one = 1;
    if (fd < 0 || setsockopt(fd, SOL_SOCKET, SO_REUSEADDR, &one, sizeof one))
        err(1, "a socket");
    if (port > self && (bind(fd, (void *)&at, sizeof at) || listen(fd, 1)))
        err(1, "the link to router %u", port);
    if (port > self || connect(fd, (void *)&at, sizeof at) == 0)
        return fd;
    close(fd);
    return -1;
}

static void read_words(int count, char **words)
{
    unsigned port, cost;
    char rest;
    if (count < 2 || sscanf(words[1], "%2u%c", &self, &rest) != 1 || self - 1 >= TUHVONDI_PORTS - 1)
        errx(1, "usage: daemon NUMBER NEIGHBOUR:COST ..; a number is from 1 to 31");
    for (int i = 2; i < count; i++) {
        if (sscanf(words[i], "%2u:%5u%c", &port, &cost, &rest) != 2 || port - 1 >= TUHVONDI_PORTS - 1 || port == self
            || cost == 0)
            errx(1, "%s: expected the number of another router, and a cost from 1 to 65535, as in 2:5", words[i]);
        peers[port].cost = cost;
    }
}

int main(int count, char **words)
{
    read_words(count, words);
    struct tuhvondi_attachment own = {.addr = 0x0a000000 | self << 16, .cost = 1, .len = 16};
    struct tuhvondi_row local = {.addr = own.addr, .len = own.len, .kind = TUHVONDI_LOCAL};
    struct pollfd polls[2 * TUHVONDI_PORTS + 1];
    struct pollfd *listeners = polls + TUHVONDI_PORTS, *typed = listeners + TUHVONDI_PORTS;
    uint32_t costs[TUHVONDI_PORTS];
    for (uint8_t port = 0; port < TUHVONDI_PORTS; port++) {
        costs[port] = peers[port].cost ? peers[port].cost : 1;
        peers[port].fd = -1;
        listeners[port] = (struct pollfd){peers[port].cost && port > self ? link_socket(port) : -1, POLLIN, 0};
    }
    *typed = (struct pollfd){STDIN_FILENO, POLLIN, 0};
    need(tuhvondi_router_new(costs, TUHVONDI_PORTS, &own, 1, PREFIXES, &router));
    need(tuhvondi_image_new(&local, 1, &image));
    setvbuf(stdin, NULL, _IONBF, 0);
    setvbuf(stdout, NULL, _IOLBF, 0);
    print_row(&local);
    for (;;) { /* one thread does one thing after another (5) */
        char line[64];
        struct in_addr to;
        for (uint8_t port = 0; port < TUHVONDI_PORTS; port++)
            polls[port] = (struct pollfd){peers[port].fd, POLLIN, 0};
        int fd, ready = poll(polls, sizeof polls / sizeof *polls, QUIET_MS);
        if (ready < 0)
            err(1, "poll");
        for (uint8_t port = 0; port < TUHVONDI_PORTS; port++) {
            bool is_lacking = peers[port].cost && port < self && peers[port].fd < 0;
            if (polls[port].revents)
                take(port);
            if (listeners[port].revents && (fd = accept(listeners[port].fd, NULL, NULL)) >= 0)
                greet(port, fd);
            if (ready == 0 && is_lacking && (fd = link_socket(port)) >= 0)
                greet(port, fd);
        }
        if (typed->revents && !fgets(line, sizeof line, stdin))
            typed->fd = -1;
        else if (typed->revents && inet_aton(line, &to))
            forward((struct tuhvondi_message){.addr = ntohl(to.s_addr), .kind = PACKET});
        publish_and_release();
    }
}
