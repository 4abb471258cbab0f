/* A daemon whose kernel says what nobody should: answers, dumps and notices of rtnetlink and nf_tables, good ones and spoilt ones,
 * in any order.
 *
 * `make fuzz' has libFuzzer look for inputs that reach more of the code. Without it this is a program that draws them:
 *
 *     fuzz_kernel [SECONDS [SEED]]
 *
 * All sockets are none, and the linker puts functions from here in place of those that ask the kernel (--wrap). An input has the pieces that
 * the kernel sends, and what the daemon does next. If it says nothing, the kernel has done what it was asked. After each step what
 * comes in from a neighbour without a session has to be filtered. Built with sanitizers it finds reads and writes outside of memory. */
#include "daemon.h"
#include "requests.h"
#include "test.h"

#include <arpa/inet.h>
#include <errno.h>
#include <ifaddrs.h>
#include <linux/fib_rules.h>
#include <linux/rtnetlink.h>
#include <linux/sockios.h>
#include <net/if_arp.h>
#include <stddef.h>
#include <string.h>
#include <sys/socket.h>
#include <time.h>

enum {
    FIRST_SOCKET = 5000,
    FIRST_INDEX = 5, /* of the interfaces e0, e1 and so on */
    INTERFACES = 4,
    MOST_CALLS = 4096, /* of recv in a run */
    MOST_STEPS = 24,
    NEIGHBOURS = 4,
    PREFIXES = 6,
    NOTES = 64, /* prefixes of which something may be noted: each look goes through all */
    LOST = 0xfff,    /* the length of a piece that was lost */
    NUMBERED = 0x8000, /* added to the length: the piece answers the last request */
    PIECE = 512,
};

/* What is left of the input, and of which number the last request is that is answered. */
static const uint8_t *given;
static size_t left;
static uint32_t asked;
static bool asked_for_dump;
static unsigned calls;
static int sockets;
static struct daemon *daemon_of_run;

static uint32_t next_number(size_t size)
{
    uint32_t number = 0;
    for (; size > 0 && left > 0; size--, left--)
        number = number << 8 | *given++;
    return number;
}

/* ---- the kernel */

/* The linker has each call of `socket' go to the symbol __wrap_socket, and so on. */
int fake_socket(int domain, int type, int protocol) __asm__("__wrap_socket");
int fake_bind(int fd, const struct sockaddr *address, socklen_t size) __asm__("__wrap_bind");
int fake_getsockname(int fd, struct sockaddr *address, socklen_t *size) __asm__("__wrap_getsockname");
int fake_ioctl(int fd, unsigned long request, void *to) __asm__("__wrap_ioctl");
ssize_t fake_send(int fd, const void *bytes, size_t size, int flags) __asm__("__wrap_send");
ssize_t fake_recv(int fd, void *bytes, size_t size, int flags) __asm__("__wrap_recv");
int fake_getifaddrs(struct ifaddrs **list) __asm__("__wrap_getifaddrs");
unsigned fake_if_nametoindex(const char *name) __asm__("__wrap_if_nametoindex");
char *fake_if_indextoname(unsigned index, char *name) __asm__("__wrap_if_indextoname");

int fake_socket(int domain, int type, int protocol)
{
    (void)domain, (void)type, (void)protocol;
    return FIRST_SOCKET + sockets++;
}

int fake_bind(int fd, const struct sockaddr *address, socklen_t size)
{
    (void)fd, (void)address, (void)size;
    return 0;
}

int fake_getsockname(int fd, struct sockaddr *address, socklen_t *size)
{
    const struct sockaddr_nl own = {.nl_family = AF_NETLINK, .nl_pid = (uint32_t)fd};
    memcpy(address, &own, *size < sizeof own ? *size : sizeof own);
    return 0;
}

int fake_getifaddrs(struct ifaddrs **list)
{
    *list = NULL;
    return -1;
}

unsigned fake_if_nametoindex(const char *name)
{
    bool is_there = name[0] == 'e' && name[1] >= '0' && name[1] < '0' + INTERFACES && !name[2];
    return is_there ? FIRST_INDEX + (unsigned)(name[1] - '0') : 0;
}

char *fake_if_indextoname(unsigned index, char *name)
{
    if (index < FIRST_INDEX || index >= FIRST_INDEX + INTERFACES)
        return NULL;
    snprintf(name, IF_NAMESIZE, "e%u", index - FIRST_INDEX);
    return name;
}

/* Each interface is one of Ethernet with a carrier, and each neighbour has the link address of its last byte. */
int fake_ioctl(int fd, unsigned long request, void *to)
{
    (void)fd;
    if (request == SIOCGIFHWADDR)
        ((struct ifreq *)to)->ifr_hwaddr.sa_family = ARPHRD_ETHER;
    if (request == SIOCGARP) {
        struct arpreq *entry = to;
        entry->arp_flags = ATF_COM;
        memset(entry->arp_ha.sa_data, ((unsigned char *)&entry->arp_pa)[7], LINK_ADDRESS);
    }
    return request == SIOCGIFHWADDR || request == SIOCGARP || request == SIOCGIFFLAGS ? 0 : -1;
}

ssize_t fake_send(int fd, const void *bytes, size_t size, int flags)
{
    _Alignas(struct nlmsghdr) static unsigned char copy[1 << 17];
    size_t place = 0;
    (void)fd, (void)flags;
    EXPECT(size <= sizeof copy);
    memcpy(copy, bytes, size);
    for (const struct nlmsghdr *at; (at = netlink_next(copy, size, &place));) {
        bool is_dump = (at->nlmsg_flags & NLM_F_DUMP) == NLM_F_DUMP;
        if (is_dump || (at->nlmsg_flags & NLM_F_ACK)) {
            asked = at->nlmsg_seq;
            asked_for_dump = is_dump;
        }
    }
    EXPECT(place == size);
    return (ssize_t)size;
}

/* The kernel has done what it was asked. */
static ssize_t answer(void *bytes)
{
    struct {
        struct nlmsghdr head;
        struct nlmsgerr error;
    } done = {.head = {.nlmsg_len = sizeof done, .nlmsg_type = asked_for_dump ? NLMSG_DONE : NLMSG_ERROR, .nlmsg_seq = asked}};
    memcpy(bytes, &done, sizeof done);
    return (ssize_t)sizeof done;
}

ssize_t fake_recv(int fd, void *bytes, size_t size, int flags)
{
    const struct kernel *kernel = &daemon_of_run->kernel;
    bool is_notice = fd == kernel->links || fd == kernel->routes || fd == kernel->table_notices;
    errno = EAGAIN;
    if ((flags & MSG_DONTWAIT) || ++calls > MOST_CALLS || (is_notice && left == 0))
        return -1;
    uint32_t word = left > 0 ? next_number(2) : 0;
    size_t length = word & LOST;
    if (length == LOST)
        errno = ENOBUFS;
    if (length == LOST || (length == 0 && is_notice))
        return -1;
    if (length == 0)
        return answer(bytes);
    length = length < left ? length : left;
    length = length < size ? length : size;
    memcpy(bytes, given, length);
    given += length;
    left -= length;
    size_t place = 0;
    for (struct nlmsghdr *at; (word & NUMBERED) && (at = netlink_next(bytes, length, &place));)
        at->nlmsg_seq = asked;
    return (ssize_t)length;
}

/* ---- the daemon */

/* What is kept from run to run is the memory of it alone. */
static void begin(struct daemon *daemon)
{
    for (size_t i = 0; i < PLACES; i++)
        memset(&daemon->peers[i], 0, offsetof(struct peer, in));
    daemon->peer_count = daemon->found_count = 0;
    daemon->router = (struct router){0};
    daemon->kernel = (struct kernel){.links = -1, .routes = -1, .tables = -1, .table_notices = -1};
    daemon->blocked = false;
    daemon->config.prefixes = PREFIXES;
    daemon->config.alive_ms = 100;
    daemon->config.dead_ms = daemon->config.active_ms = 60000;
    daemon->config.table = 254;
    daemon->config.metric = daemon->config.protocol = 201;
    daemon->listener = daemon->control = daemon->metrics = daemon->marks.done = -1;
    EXPECT(router_open(daemon));
    prefixes_close(&daemon->prefixes);
    EXPECT(prefixes_open(&daemon->prefixes, NOTES));
}

/* Two neighbours at an interface of their own, and two that share one. All but the last have a session, and tell of prefixes. */
static void add_neighbours(struct daemon *daemon)
{
    for (uint32_t i = 0; i < NEIGHBOURS; i++) {
        struct neighbour neighbour = {.address = {htonl(0x0afe0001 + i)}, .cost = 1};
        if (peer_add(daemon, &neighbour))
            return;
        struct peer *peer = peer_of(daemon, neighbour.address);
        snprintf(peer->interface, sizeof peer->interface, "e%u", i < 2 ? i : 2);
        peer->index = FIRST_INDEX + (i < 2 ? i : 2);
        peer->marked = peer->filtered = true;
        if (i == NEIGHBOURS - 1)
            continue;
        peer->state = PEER_UP;
        peer->last = 1;
        EXPECT(router_link_up(daemon, peer) == TUHVONDI_DONE);
        if (!kernel_filter(daemon, peer, false))
            peer_hang_up(daemon, peer, BY_LINK, "it is filtered");
        for (uint32_t k = 0; k < PREFIXES && peer->state == PEER_UP; k++) {
            struct frame frame = {.type = FRAME_MESSAGE, .len = 24, .number = 1, .addr = 0x14000000 + (k << 8), .value = 5 + i};
            EXPECT(router_take(daemon, peer, &frame) == TUHVONDI_DONE);
        }
    }
}

static void count_route(void *to, const struct kernel_route *route)
{
    EXPECT(route->len <= 32);
    ++*(size_t *)to;
}

static void step(struct daemon *daemon)
{
    size_t count = 0;
    struct peer *peer = &daemon->peers[next_number(1) % NEIGHBOURS];
    switch (next_number(1) % 8) {
    case 0:
        kernel_read_links(daemon);
        break;
    case 1:
        kernel_read_routes(daemon);
        break;
    case 2:
        sharing_read(daemon);
        break;
    case 3:
        kernel_each_route(daemon, 186, &count, count_route);
        break;
    case 4:
        if (peer->used && peer->state == PEER_UP)
            peer_hang_up(daemon, peer, BY_LINK, "a step");
        break;
    case 5:
        router_forget(daemon);
        break;
    case 6:
        daemon->kernel.check_due = true;
        break;
    default:
        kernel_check(daemon);
        break;
    }
    daemon->blocked = !router_publish_and_release(daemon);
}

static void check(const struct daemon *daemon)
{
    EXPECT(daemon->peer_count <= PLACES && daemon->prefixes.count <= daemon->prefixes.size / 2);
    for (const struct peer *peer = daemon->peers; peer < daemon->peers + daemon->peer_count; peer++) {
        EXPECT(memchr(peer->interface, '\0', sizeof peer->interface));
        EXPECT(!peer->used || peer->removed || !peer->index || peer->filtered || peer->state == PEER_UP || peer->leaving);
    }
}

static void run(const uint8_t *data, size_t size)
{
    static struct daemon *daemon;
    daemon = daemon ? daemon : calloc(1, sizeof *daemon);
    EXPECT(daemon);
    daemon_of_run = daemon;
    given = data;
    left = size;
    calls = 0;
    sockets = 0;
    begin(daemon);
    if (kernel_open(daemon)) {
        add_neighbours(daemon);
        daemon->blocked = !router_publish_and_release(daemon);
        for (int i = 0; i < MOST_STEPS && left > 0; i++) {
            step(daemon);
            check(daemon);
        }
        kernel_close(daemon);
    }
    router_close(daemon);
}

/* ---- good pieces */

static uint64_t state_of_draws = 1993;

static uint32_t drawn(uint32_t below)
{
    state_of_draws = state_of_draws * 6364136223846793005U + 1442695040888963407U;
    return (uint32_t)((state_of_draws >> 33) % below);
}

/* A message as the kernel sends one. */
static size_t put_message(unsigned char *at)
{
    struct nlmsghdr *head = (void *)at;
    struct kernel_route route = {.addr = 0x14000000 + (drawn(PREFIXES) << 8), .len = 24, .table = 254, .protocol = drawn(4) ? 201 : 186,
                                 .metric = drawn(2) ? 201 : WORST_METRIC, .type = drawn(2) ? RTN_UNICAST : RTN_UNREACHABLE,
                                 .by = {htonl(0x0afe0001 + drawn(NEIGHBOURS))}, .index = FIRST_INDEX + drawn(INTERFACES)};
    struct kernel_rule rule = {.preference = 1 + drawn(3), .protocol = 201, .action = drawn(2) ? FR_ACT_NOP : FR_ACT_BLACKHOLE,
                               .from = {htonl(0x0afe0001 + drawn(40))}, .interface = "e0"};
    struct ifinfomsg link = {.ifi_family = AF_UNSPEC, .ifi_index = (int)(FIRST_INDEX + drawn(INTERFACES)), .ifi_flags = drawn(2) ? IFF_UP | IFF_RUNNING : 0};
    rule.interface[1] = (char)('0' + drawn(INTERFACES));
    switch (drawn(6)) {
    case 0:
        return netlink_route(at, &route, drawn(4), 0);
    case 1:
        return netlink_rule(at, &rule, drawn(4), 0);
    case 2: {
        const struct {
            struct rtattr head;
            char name[4];
        } name = {{sizeof(struct rtattr) + 3, IFLA_IFNAME}, {'e', (char)('0' + drawn(INTERFACES))}};
        *head = (struct nlmsghdr){.nlmsg_len = NLMSG_LENGTH(sizeof link) + sizeof name, .nlmsg_type = drawn(4) ? RTM_NEWLINK : RTM_DELLINK};
        memcpy(at + NLMSG_LENGTH(0), &link, sizeof link);
        memcpy(at + NLMSG_LENGTH(sizeof link), &name, sizeof name);
        return head->nlmsg_len;
    }
    case 3:
        *head = (struct nlmsghdr){.nlmsg_len = NLMSG_LENGTH(0), .nlmsg_type = drawn(2) ? RTM_NEWADDR : 0x0a03};
        return head->nlmsg_len;
    default: {
        static const int ERRORS[] = {0, 0, -EEXIST, -ENOENT, -ESRCH, -ENETDOWN, -EPERM, -ENOBUFS};
        const struct nlmsgerr error = {.error = ERRORS[drawn(sizeof ERRORS / sizeof *ERRORS)]};
        *head = (struct nlmsghdr){.nlmsg_len = NLMSG_LENGTH(sizeof error), .nlmsg_type = drawn(3) ? NLMSG_ERROR : NLMSG_DONE,
                                  .nlmsg_seq = drawn(8), .nlmsg_flags = drawn(8) ? 0 : NLM_F_DUMP_INTR};
        memcpy(at + NLMSG_LENGTH(0), &error, sizeof error);
        return head->nlmsg_len;
    }
    }
}

/* Up to three messages, or none, and what stands before them. */
static size_t put_piece(uint8_t *to)
{
    _Alignas(struct nlmsghdr) unsigned char room[PIECE];
    size_t size = 0;
    memset(room, 0, sizeof room);
    for (uint32_t i = drawn(4); i > 0; i--)
        size += NLMSG_ALIGN(put_message(room + size));
    uint32_t word = drawn(30) ? (uint32_t)size | (drawn(4) ? NUMBERED : 0) : LOST;
    to[0] = (uint8_t)(word >> 8);
    to[1] = (uint8_t)word;
    memcpy(to + 2, room, size);
    return size + 2;
}

/* Puts a good piece, or a step, somewhere into an input: its size then. */
static size_t insert(uint8_t *data, size_t size, size_t most)
{
    uint8_t piece[PIECE + 2];
    size_t count = drawn(3) ? put_piece(piece) : 2, at = size ? drawn((uint32_t)size + 1) : 0;
    if (count == 2) {
        piece[0] = (uint8_t)drawn(NEIGHBOURS);
        piece[1] = (uint8_t)drawn(8);
    }
    if (size + count > most)
        return size;
    memmove(data + at + count, data + at, size - at);
    memcpy(data + at, piece, count);
    return size + count;
}

#ifdef LIBFUZZER

size_t LLVMFuzzerMutate(uint8_t *data, size_t size, size_t most);
size_t LLVMFuzzerCustomMutator(uint8_t *data, size_t size, size_t most, unsigned seed);
int LLVMFuzzerTestOneInput(const uint8_t *data, size_t size);

size_t LLVMFuzzerCustomMutator(uint8_t *data, size_t size, size_t most, unsigned seed)
{
    state_of_draws = seed;
    return drawn(2) ? insert(data, size, most) : LLVMFuzzerMutate(data, size, most);
}

int LLVMFuzzerTestOneInput(const uint8_t *data, size_t size)
{
    log_to(false, LOG_EMERG);
    run(data, size);
    return 0;
}

#else

int main(int count, char **words)
{
    static uint8_t data[4096];
    int64_t until = now_ms() + 1000 * (count > 1 ? strtoll(words[1], NULL, 10) : 5);
    uint64_t runs = 0;
    state_of_draws = count > 2 ? strtoull(words[2], NULL, 10) : 1993;
    log_to(false, LOG_EMERG);
    for (; now_ms() < until; runs++) {
        size_t size = 0;
        for (uint32_t i = drawn(24); i > 0; i--)
            size = insert(data, size, sizeof data);
        for (uint32_t i = size ? drawn(4) : 0; i > 0; i--)
            data[drawn((uint32_t)size)] = (uint8_t)drawn(256);
        run(data, size);
    }
    printf("kernel: %llu inputs of drawn answers, dumps and notices\n", (unsigned long long)runs);
    return 0;
}

#endif
