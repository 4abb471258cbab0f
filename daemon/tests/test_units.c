/* Frames, numbers, configurations, prefix lists, ports, the table of prefixes, and messages of rtnetlink. */
#include "daemon.h"
#include "netlink.h"
#include "test.h"

#include <arpa/inet.h>
#include <linux/fib_rules.h>
#include <linux/rtnetlink.h>
#include <string.h>

/* ---- frames */

static bool is_frame(const char *hex)
{
    unsigned char bytes[FRAME_SIZE];
    struct frame frame;
    EXPECT(strlen(hex) == 2 * sizeof bytes);
    for (size_t i = 0; i < sizeof bytes; i++)
        EXPECT(sscanf(hex + 2 * i, "%2hhx", &bytes[i]) == 1);
    return !frame_read(bytes, &frame);
}

static void test_frames(void)
{
    struct frame frame = {.type = FRAME_MESSAGE, .kind = TUHVONDI_QUERY, .len = 24, .number = 0x1234,
                          .addr = 0x0a010200, .value = 0xdeadbeef},
                 back;
    unsigned char bytes[FRAME_SIZE];
    frame_write(&frame, bytes);
    EXPECT(memcmp(bytes, "M\x01\x12\x34\x0a\x01\x02\x00\xde\xad\xbe\xef\x18\0\0\0", FRAME_SIZE) == 0);
    EXPECT(!frame_read(bytes, &back));
    EXPECT(back.type == 'M' && back.kind == 1 && back.len == 24 && back.number == 0x1234);
    EXPECT(back.addr == frame.addr && back.value == frame.value);
    /* A hello, of another version, with a value, with a length; a sign of life, a trace, a router; with a field too many. */
    EXPECT(is_frame("4801000aac10000100000000" "00000000"));
    EXPECT(!is_frame("4802000aac10000100000000" "00000000"));
    EXPECT(!is_frame("4801000aac10000100000dac" "00000000"));
    EXPECT(!is_frame("4801000aac10000100000000" "01000000"));
    EXPECT(!is_frame("4801000aac10000100000000" "00000100"));
    /* Terms: of a version before them, too impatient, too patient, with a kind; and none by a type of their own. */
    EXPECT(is_frame("5200000002000dac00000000" "00000000"));
    EXPECT(is_frame("5200000003000dac00000000" "00000000"));
    EXPECT(!is_frame("5200000001000dac00000000" "00000000"));
    EXPECT(!is_frame("520000000200001d00000000" "00000000"));
    EXPECT(!is_frame("52000000020927c100000000" "00000000"));
    EXPECT(!is_frame("5201000002000dac00000000" "00000000"));
    EXPECT(!is_frame("560200000000000000000dac" "00000000"));
    frame = (struct frame){.type = FRAME_TERMS, .kind = 2, .value = 3500};
    frame_write(&frame, bytes);
    EXPECT(memcmp(bytes, "R\0\0\0\x02\0\x0d\xac\0\0\0\0\0\0\0\0", FRAME_SIZE) == 0);
    EXPECT(!frame_read(bytes, &back) && back.type == FRAME_TERMS && back.kind == 2 && back.value == 3500 && back.addr == 0);
    EXPECT(is_frame("410000000000000000000000" "00000000"));
    EXPECT(!is_frame("410000010000000000000000" "00000000"));
    EXPECT(!is_frame("410100000000000000000000" "00000000"));
    EXPECT(!is_frame("410000000000000100000000" "00000000"));
    EXPECT(is_frame("543f00070a01020300000000" "00000000"));
    EXPECT(!is_frame("544000070a01020300000000" "00000000"));
    EXPECT(is_frame("520500070a01020300000000" "00000000"));
    EXPECT(!is_frame("520600070a01020300000000" "00000000"));
    /* An announcement of another version, without a port, without an address, with a length. */
    EXPECT(is_frame("4e01182b0aff00010a000001" "00000000"));
    EXPECT(!is_frame("4e02182b0aff00010a000001" "00000000"));
    EXPECT(!is_frame("4e0100000aff00010a000001" "00000000"));
    EXPECT(!is_frame("4e01182b0aff000100000000" "00000000"));
    EXPECT(!is_frame("4e01182b0aff00010a000001" "01000000"));
    /* Who parts: another version, a field too many. */
    EXPECT(is_frame("500200000000000000000000" "00000000"));
    EXPECT(!is_frame("500100000000000000000000" "00000000"));
    EXPECT(!is_frame("500200010000000000000000" "00000000"));
    EXPECT(!is_frame("500200000000000100000000" "00000000"));
    /* Who waits: a value, a kind, bits after the length. */
    EXPECT(is_frame("570000010a00000000000000" "08000000"));
    EXPECT(!is_frame("570000010a00000000000001" "08000000"));
    EXPECT(!is_frame("570100010a00000000000000" "08000000"));
    EXPECT(!is_frame("570000010a01000000000000" "08000000"));
    /* Messages: a length above 32, bits after the length, a kind above 2, a type that is none. */
    EXPECT(is_frame("4d0200010a00000000000005" "08000000"));
    EXPECT(is_frame("4d0200010a0102030000000520000000"));
    EXPECT(!is_frame("4d0200010a00000000000005" "21000000"));
    EXPECT(!is_frame("4d0200010a01000000000005" "08000000"));
    EXPECT(!is_frame("4d0200010a00000000000005" "00000000"));
    EXPECT(!is_frame("4d0300010a00000000000005" "08000000"));
    EXPECT(!is_frame("000000000000000000000000" "00000000"));
}

/* ---- words */

static void test_words(void)
{
    char line[] = "  a\tbc  d#e # rest", *words[4], text[PREFIX_TEXT];
    uint32_t number = 7;
    struct in_addr address;
    struct tuhvondi_prefix prefix;
    EXPECT(split_words(line, words, 4) == 3);
    EXPECT(strcmp(words[2], "d#e") == 0);
    EXPECT(split_words((char[]){"a b c d e"}, words, 4) == 5);
    EXPECT(read_number("4294967295", 0, UINT32_MAX, &number) && number == UINT32_MAX);
    EXPECT(!read_number("4294967296", 0, UINT32_MAX, &number) && number == UINT32_MAX);
    EXPECT(!read_number("18446744073709551617", 0, UINT32_MAX, &number));
    EXPECT(!read_number("", 0, 9, &number) && !read_number("-1", 0, 9, &number) && !read_number("+1", 0, 9, &number));
    EXPECT(!read_number("1x", 0, 9, &number) && !read_number(" 1", 0, 9, &number));
    EXPECT(!read_number("0x1", 0, 9, &number));
    EXPECT(!read_address("10.0.0.256", &address) && !read_address("10.0.0", &address));
    EXPECT(!read_address("10.0.0.1 ", &address) && read_address("10.0.0.1", &address));
    EXPECT(!read_prefix("10.1.0.0/16", &prefix) && prefix.addr == 0x0a010000 && prefix.len == 16);
    EXPECT(!read_prefix("0.0.0.0/0", &prefix) && !read_prefix("1.2.3.4/32", &prefix));
    EXPECT(read_prefix("10.0.0.0/264", &prefix) && read_prefix("0.0.0.0/256", &prefix));
    EXPECT(read_prefix("10.0.0.0/33", &prefix) && read_prefix("10.0.0.0/8x", &prefix));
    EXPECT(read_prefix("10.0.0.1/8", &prefix) && read_prefix("10.0.0.0", &prefix) && read_prefix("/8", &prefix));
    EXPECT(read_prefix("100.100.100.100.100/8", &prefix) && read_prefix("", &prefix));
    EXPECT(strcmp(prefix_text(0xffffffff, 32, text), "255.255.255.255/32") == 0);
}

/* The kernel lets an interface have any name without a slash, a colon or a space. */
static void test_strings(void)
{
    struct text text = {0};
    text_put_string(&text, "e\"0\\\x01\xc3");
    EXPECT(text.bytes && strcmp(text.bytes, "\"e\\\"0\\\\\\u0001\\u00c3\"") == 0);
    text_free(&text);
}

/* ---- configurations */

struct told {
    char first[256];
    unsigned count;
};

static void note(void *whom, const char *what)
{
    struct told *told = whom;
    if (told->count++ == 0)
        snprintf(told->first, sizeof told->first, "%s", what);
}

static struct config config;

/* Reads a text as a configuration; the first fault is in `told`. */
static bool reads_bytes(const char *text, size_t size, struct told *told)
{
    char bytes[4096];
    EXPECT(size <= sizeof bytes);
    memcpy(bytes, text, size);
    FILE *file = fmemopen(bytes, size, "r");
    EXPECT(file || size == 0);
    if (!file)
        file = fopen("/dev/null", "re");
    *told = (struct told){0};
    bool done = config_read(file, "f", &config, note, told);
    fclose(file);
    EXPECT(done == (told->count == 0));
    return done;
}

static bool reads(const char *text)
{
    struct told told;
    return reads_bytes(text, strlen(text), &told);
}

/* Whether these lines, after those that have to be there, are refused, with a line number and this text. */
static bool refused(const char *lines, const char *place, const char *text)
{
    char all[4096];
    struct told told;
    snprintf(all, sizeof all, "router-id 1.1.1.1\ncontrol c\n%s", lines);
    if (reads_bytes(all, strlen(all), &told))
        return false;
    if (strncmp(told.first, place, strlen(place)) != 0 || !strstr(told.first, text))
        fprintf(stderr, "it says: %s\n", told.first);
    return strncmp(told.first, place, strlen(place)) == 0 && strstr(told.first, text);
}

static void test_good_config(void)
{
    EXPECT(reads("# c\nrouter-id 10.255.0.1\r\nlisten 10.0.0.1\ncontrol /run/x # here\n\n"
                 "neighbour 10.0.0.2 10\n"
                 "neighbor 10.0.0.6 65535 passive secret a#b ttl-security most-prefixes 9 list l\n"
                 "discover eth1 7 most 3 secret s\n"
                 "accept l 10.0.0.0/8 le 24\nattach 10.1.0.0/16 1\nattach 0.0.0.0/0 2\ninstall yes\ntable 100\n"
                 "metric 7\nprotocol 250\nalive 100\ndead 350\nlog syslog debug\nmetrics 127.0.0.1 9187\n"));
    EXPECT(config.neighbour_count == 5 && config.neighbours[1].interface[0] == '\0');
    for (size_t i = 2; i < 5; i++)
        EXPECT(strcmp(config.neighbours[i].interface, "eth1") == 0 && !config.neighbours[i].address.s_addr
               && config.neighbours[i].cost == 7 && strcmp(config.neighbours[i].secret, "s") == 0);
    EXPECT(config.attachment_count == 2 && config.installs && config.to_syslog);
    EXPECT(config.table == 100 && config.metric == 7 && config.protocol == 250 && config.dead_ms == 350);
    EXPECT(config.neighbours[1].passive && config.neighbours[1].ttl_security && config.has_secret);
    EXPECT(strcmp(config.neighbours[1].secret, "a#b") == 0 && config.neighbours[1].most_prefixes == 9);
    EXPECT(reads("router-id 1.1.1.1\ncontrol c\nstate /s\nprefixes 1000000\nsource 10.0.0.9\nattach connected e0 3\n"
                 "attach connected e1 4\nattach protocol 4 7 list l\nattach protocol 186 8\naccept l 10.0.0.0/8\n"
                 "neighbour 10.0.0.2 1 warn-prefixes 7 secret-file /k\nactive 2000\n"));
    EXPECT(strcmp(config.state, "/s") == 0 && config.prefixes == 1000000 && config.source.s_addr == htonl(0x0a000009));
    EXPECT(config.connected_count == 2 && strcmp(config.connected[1].interface, "e1") == 0 && config.connected[1].cost == 4);
    EXPECT(config.redistributed_count == 2 && config.redistributed[0].protocol == 4 && config.redistributed[0].cost == 7);
    EXPECT(strcmp(config.redistributed[0].list, "l") == 0 && config.redistributed[1].list[0] == '\0');
    EXPECT(config.neighbours[0].warn_prefixes == 7 && strcmp(config.neighbours[0].secret_file, "/k") == 0);
    EXPECT(reads("router-id 1.1.1.1\ncontrol c\nalive 20\ndead 100\n") && config.active_ms == 2000);
    EXPECT(reads("\xef\xbb\xbfrouter-id 1.1.1.1\ncontrol c"));
    EXPECT(!config.installs && config.table == 254 && config.metric == 201 && config.protocol == 201);
    EXPECT(config.alive_ms == 100 && config.dead_ms == 500 && config.log_level == LOG_INFO);
}

static void test_bad_config(void)
{
    EXPECT(!reads("") && !reads("router-id 1.1.1.1\n") && !reads("control c\n"));
    EXPECT(refused("router-id 2.2.2.2\n", "f:3:", "twice"));
    EXPECT(refused("attach connected e0 0\n", "f:3:", "a cost") && refused("attach connected e0\n", "f:3:", "prefix"));
    EXPECT(refused("attach connected e0 1\nattach connected e0 2\n", "f:4:", "twice"));
    EXPECT(refused("attach connected 0123456789012345 1\n", "f:3:", "15 bytes") && refused("attach near e0 1\n", "f:3:", "expected"));
    EXPECT(refused("attach protocol 2 1\n", "f:3:", "3 to 255") && refused("attach protocol 4 1\nattach protocol 4 2\n", "f:4:", "twice"));
    EXPECT(refused("attach protocol 4 1 liste l\n", "f:3:", "list NAME") && refused("attach protocol 4 1 list l\n", "f:", "no line"));
    EXPECT(refused("attach protocol 201 1\n", "f:", "own protocol"));
    EXPECT(refused("prefixes 0\n", "f:3:", "1 to 1000000") && refused("prefixes 1000001\n", "f:3:", "1 to 1000000"));
    EXPECT(refused("source 0.0.0.0\n", "f:3:", "address") && refused("active 1999\n", "f:3:", "2000"));
    EXPECT(refused("neighbour 10.0.0.2 1 secret a secret-file b\n", "f:3:", "one secret"));
    EXPECT(refused("neighbour 10.0.0.2 1 warn-prefixes 0\n", "f:3:", "1 to 1000000"));
    EXPECT(refused("neighbour 10.0.0.2\n", "f:3:", "expected: neighbour"));
    EXPECT(refused("neighbour 10.0.0.2 0\n", "f:3:", "1 to 65535"));
    EXPECT(refused("neighbour 10.0.0.2 4294967298\n", "f:3:", "1 to 65535"));
    EXPECT(refused("neighbour 10.0.0.2 5 pasive\n", "f:3:", "an option is passive"));
    EXPECT(refused("neighbour 10.0.0.2 5 secret\n", "f:3:", "an option is passive"));
    /* More words than a line may have, each of which is an option. */
#define SEVEN " passive passive passive passive passive passive passive"
    EXPECT(refused("neighbour 10.0.0.2 5" SEVEN SEVEN "\n", "f:3:", "expected: neighbour"));
    EXPECT(refused("neighbour 10.0.0.2 5" SEVEN SEVEN SEVEN "\n", "f:3:", "expected: neighbour"));
    EXPECT(refused("\nneighbour 10.0.0.2 5 list a passive list a\n", "f:4:", "an option stands twice"));
    EXPECT(refused("neighbour 10.0.0.2 5 secret passive passive secret x\n", "f:3:", "an option stands twice"));
    EXPECT(refused("neighbour 10.0.0.2 5 most 2\n", "f:3:", "an option is passive"));
    EXPECT(refused("discover e0 5 passive\n", "f:3:", "an option is most N"));
    EXPECT(refused("discover e0 5 most 2 most 2\n", "f:3:", "an option stands twice"));
    EXPECT(refused("discover e0 5 most 0\n", "f:3:", "1 to 32"));
    EXPECT(refused("discover e0 5 most 33\n", "f:3:", "1 to 32"));
    EXPECT(refused("discover e0 0\n", "f:3:", "1 to 65535"));
    EXPECT(refused("discover e0\n", "f:3:", "expected: discover"));
    EXPECT(refused("discover e0 5\ndiscover e1 5\ndiscover e0 6\n", "f:5:", "the interface stands twice"));
    EXPECT(refused("discover a123456789012345 5\n", "f:3:", "at most 15 bytes"));
    EXPECT(refused("neighbour 10.0.0.2 5\ndiscover e0 5 most 32\n", "f:4:", "at most 32 neighbours"));
    EXPECT(refused("discover e0 5 list l\n", "f:", "no line"));
    EXPECT(refused("neighbour 10.0.0.2 5\n#\nneighbour 10.0.0.2 6\n", "f:5:", "twice"));
    EXPECT(refused("listen 10.0.0.2\nneighbour 10.0.0.2 5\n", "f:", "listens"));
    EXPECT(refused("attach 10.0.0.0/264 1\n", "f:3:", "0 to 32"));
    EXPECT(refused("attach 10.0.0.1/8 1\n", "f:3:", "bits set after"));
    EXPECT(refused("attach 10.0.0.0/8 1 junk\n", "f:3:", "expected: attach"));
    EXPECT(refused("attach 10.0.0.0/8 1\nattach 10.0.0.0/8 1\n", "f:4:", "twice"));
    EXPECT(refused("atach 10.0.0.0/8 1\n", "f:3:", "no keyword"));
    EXPECT(refused("install maybe\n", "f:3:", "yes or no"));
    EXPECT(refused("table 255\n", "f:3:", "not 255"));
    EXPECT(refused("metric 4294967295\n", "f:3:", "4294967294"));
    EXPECT(refused("protocol 4\n", "f:3:", "5 to 255") && refused("protocol 256\n", "f:3:", "5 to 255"));
    EXPECT(refused("alive 1000\ndead 1500\n", "f:", "twice alive"));
    EXPECT(refused("log file\n", "f:3:", "stderr or syslog") && refused("log stderr loud\n", "f:3:", "debug"));
    EXPECT(refused("metrics 127.0.0.1 65536\n", "f:3:", "1 to 65535"));
    EXPECT(refused("neighbour 10.0.0.2 5 list l\n", "f:", "no line"));
    EXPECT(refused("accept l 10.0.0.0/8 le 7\n", "f:3:", "le N"));
    EXPECT(refused("accept l 0.0.0.0/0 le 0 le 5\n", "f:3:", "le N"));
    EXPECT(refused("accept l 10.0.0.0/8 le\n", "f:3:", "le N"));
    EXPECT(refused("accept l 10.0.0.0/8 ge 24 le 16\n", "f:3:", "no length"));
}

/* Lines, and a path, that are too long; a zero byte; a neighbour too many. */
static void test_long_config(void)
{
    char path[256], lines[4096] = "";
    struct told told;
    memset(path, 'p', sizeof path);
    memcpy(path, "control ", 8);
    path[8 + 108] = '\0';
    EXPECT(!reads_bytes(path, strlen(path), &told) && strstr(told.first, "at most 107"));
    path[8 + 107] = '\0';
    EXPECT(!reads_bytes(path, strlen(path), &told) && strstr(told.first, "router-id"));
    memset(lines, 'x', 1100);
    EXPECT(refused(lines, "f:3:", "at most 1023"));
    EXPECT(!reads_bytes("router-id 1.1.1.1\ncontrol c\n\0\n", 30, &told) && strstr(told.first, "zero byte"));
    for (int i = 0, at = 0; i < 33; i++)
        at += sprintf(lines + at, "neighbour 10.0.0.%d 5\n", i + 1);
    EXPECT(refused(lines, "f:35:", "at most 32"));
}

static void test_secret(void)
{
    struct neighbour one = {.cost = 1};
    char longest[SECRET_SIZE + 1];
    memset(longest, 'x', sizeof longest);
    longest[SECRET_SIZE - 1] = '\0';
    EXPECT(!config_take_secret(&one, "hush\r\nmore") && strcmp(one.secret, "hush") == 0);
    EXPECT(!config_take_secret(&one, longest) && strlen(one.secret) == SECRET_SIZE - 1);
    longest[SECRET_SIZE - 1] = 'x';
    longest[SECRET_SIZE] = '\0';
    EXPECT(config_take_secret(&one, longest) && config_take_secret(&one, "") && config_take_secret(&one, "\nx"));
    EXPECT(config_take_secret(&one, "two words") && strlen(one.secret) == SECRET_SIZE - 1);
}

static void test_martians(void)
{
    EXPECT(is_martian(0, 8) && is_martian(0x00010000, 16) && is_martian(0x7f000001, 32) && is_martian(0xe0000000, 4));
    EXPECT(is_martian(0xffffffff, 32) && is_martian(0xf0000000, 4) && is_martian(0xe0000000, 3));
    EXPECT(!is_martian(0, 0) && !is_martian(0, 7) && !is_martian(0x0a000000, 8) && !is_martian(0xc0000000, 2));
    EXPECT(!config_accepts(&config, "", 0x7f000000, 8) && config_accepts(&config, "", 0, 0));
}

static void test_lists(void)
{
    static struct config other;
    const char *lines = "router-id 1.1.1.1\ncontrol c\ndeny l 10.9.0.0/16 le 32\naccept l 10.0.0.0/8 ge 16 le 24\n"
                        "accept l 0.0.0.0/0\naccept m 0.0.0.0/0 le 32\naccept n 0.0.0.0/0 ge 0\n";
    EXPECT(reads(lines));
    EXPECT(config_accepts(&config, "", 0x0a090000, 16));
    EXPECT(!config_accepts(&config, "l", 0x0a090000, 16) && !config_accepts(&config, "l", 0x0a090100, 24));
    EXPECT(config_accepts(&config, "l", 0x0a010000, 16) && config_accepts(&config, "l", 0x0a010100, 24));
    EXPECT(!config_accepts(&config, "l", 0x0a000000, 8) && !config_accepts(&config, "l", 0x0a010100, 25));
    EXPECT(config_accepts(&config, "l", 0, 0) && !config_accepts(&config, "l", 0x0b000000, 8));
    EXPECT(config_accepts(&config, "n", 0x0a090100, 24) && config_accepts(&config, "n", 0, 0));
    EXPECT(config_accepts(&config, "m", 0x0a090100, 24) && !config_accepts(&config, "none", 0, 0));
    other = config;
    EXPECT(config_same_list(&config, &other, "l") && config_same_list(&config, &other, "none"));
    other.lines[1].most = 25;
    EXPECT(!config_same_list(&config, &other, "l") && config_same_list(&config, &other, "m"));
    other.line_count = 3;
    EXPECT(!config_same_list(&config, &other, "m"));
}

/* ---- ports */

static struct daemon state;

static size_t port_for(uint32_t address)
{
    const struct neighbour neighbour = {.address = {htonl(address)}, .cost = 1};
    EXPECT(!peer_add(&state, &neighbour));
    return port_of(&state, peer_of(&state, neighbour.address));
}

static void let_all_go(void)
{
    for (size_t i = 0; i < PLACES; i++)
        state.peers[i].used = false;
}

/* A neighbour has the port again that it had; another the one of the lowest session; and none is left behind 32. */
static void test_ports(void)
{
    const struct neighbour more = {.address = {htonl(99)}, .cost = 1};
    state.listener = -1;
    EXPECT(port_for(1) == 0 && port_for(2) == 1);
    state.peers[0].last = 5;
    state.peers[1].last = 6;
    let_all_go();
    EXPECT(port_for(3) == 2 && port_for(2) == 1 && port_for(1) == 0);
    EXPECT(state.peers[0].last == 5 && state.peers[1].last == 6);
    for (uint32_t i = 4; i <= TUHVONDI_PORTS; i++)
        EXPECT(port_for(i) == i - 1);
    EXPECT(peer_add(&state, &more) && !peer_of(&state, more.address));
    for (size_t i = 0; i < TUHVONDI_PORTS; i++)
        state.peers[i].last = (uint16_t)(i == 7 ? 3 : 10 + i);
    let_all_go();
    EXPECT(port_for(99) == 7 && state.peers[7].last == 3);
}

/* Neighbours of a process before take no port away from those of the configuration, nor do these from them; and one that is a
 * neighbour again has a port besides, until it is heard. */
static void test_former(void)
{
    let_all_go();
    for (uint32_t i = 1; i <= TUHVONDI_PORTS; i++)
        EXPECT(port_for(i) < TUHVONDI_PORTS);
    for (uint32_t i = 1; i <= PLACES - TUHVONDI_PORTS; i++) {
        const struct neighbour former = {.address = {htonl(100 + i)}, .cost = 1};
        EXPECT(peer_inherit(&state, &former, "e0", NULL) && peer_inherit(&state, &former, "e0", NULL));
        EXPECT(!peer_of(&state, former.address) && state.peer_count == TUHVONDI_PORTS + i);
    }
    EXPECT(!peer_inherit(&state, &(struct neighbour){.address = {htonl(200)}, .cost = 1}, "e0", NULL));
    EXPECT(peer_inherit(&state, &(struct neighbour){.address = {htonl(5)}, .cost = 1}, "e0", NULL));
    EXPECT(peer_of(&state, (struct in_addr){htonl(5)})->marked);
    EXPECT(peer_add(&state, &(struct neighbour){.address = {htonl(101)}, .cost = 1}));
    state.peers[3].used = false;
    EXPECT(port_for(101) == 3 && state.peers[TUHVONDI_PORTS].used && state.peers[TUHVONDI_PORTS].removed);
}

/* ---- the table of prefixes, beside a plain list */

static void test_prefixes(void)
{
    static struct prefixes table;
    static bool there[4096];
    uint32_t state = 1993;
    EXPECT(prefixes_open(&table, 4096) && table.size == 8192);
    for (int turn = 0; turn < 200000; turn++) {
        state = state * 1664525 + 1013904223;
        uint32_t number = state >> 20, addr = number << 20 | (number & 1 ? 0x12300 : 0);
        uint8_t len = (uint8_t)(24 + number % 3);
        struct noted *found = prefixes_find(&table, addr, len);
        EXPECT((found != NULL) == there[number]);
        if (!found) {
            found = prefixes_add(&table, addr, len);
            EXPECT(found && !found->behind);
            found->behind = true;
        } else {
            found->behind = false;
            EXPECT(prefixes_let_go(&table, found));
        }
        there[number] = !there[number];
    }
    size_t count = 0;
    for (size_t i = 0; i < 4096; i++)
        count += there[i];
    EXPECT(table.count == count);
    for (size_t i = 0; i < table.size; i++)
        table.slots[i].behind = false;
    prefixes_tidy(&table);
    EXPECT(table.count == 0);
    for (uint32_t i = 0; i < table.size / 2; i++)
        EXPECT(prefixes_add(&table, i, 32));
    EXPECT(!prefixes_add(&table, (uint32_t)table.size, 32));
    prefixes_close(&table);
}

/* ---- how many prefixes each may tell */

static void begin_session(struct daemon *daemon, struct peer *peer)
{
    peer->last++;
    peer->state = PEER_UP;
    EXPECT(router_link_up(daemon, peer) == TUHVONDI_DONE);
}

/* Tells so many prefixes from this one on: how many of them are left. */
static uint64_t tell(struct daemon *daemon, struct peer *peer, uint32_t first, uint32_t count)
{
    uint64_t before = peer->counters.left;
    for (uint32_t i = 0; i < count; i++) {
        const struct frame frame = {.type = FRAME_MESSAGE, .kind = TUHVONDI_UPDATE, .len = 24, .number = peer->last,
                                    .addr = first + (i << 8), .value = 5};
        EXPECT(router_take(daemon, peer, &frame) == TUHVONDI_DONE);
    }
    EXPECT(router_publish_and_release(daemon));
    return peer->counters.left - before;
}

/* Who comes to the port of another has a share of its own, although a third one still tells what the other brought. */
static void test_shares(void)
{
    const uint32_t common = 100, all = common + SHARE;
    struct daemon *daemon = calloc(1, sizeof *daemon);
    EXPECT(daemon);
    daemon->config.prefixes = common;
    daemon->listener = -1;
    EXPECT(router_open(daemon));
    for (uint32_t i = 1; i <= 2; i++)
        EXPECT(!peer_add(daemon, &(struct neighbour){.address = {htonl(i)}, .cost = 1}));
    struct peer *first = &daemon->peers[0], *second = &daemon->peers[1];
    begin_session(daemon, first);
    begin_session(daemon, second);
    EXPECT(tell(daemon, first, 0x14000000, all + 7) == 7 && tell(daemon, second, 0x14000000, all) == 0);
    EXPECT(daemon->router.brought[0] == all && daemon->router.brought[1] == 0);
    first->state = PEER_IDLE;
    EXPECT(router_link_down(daemon, first) == TUHVONDI_DONE && router_publish_and_release(daemon));
    router_leave_share(daemon, first);
    EXPECT(daemon->router.brought[0] == 0 && daemon->router.brought[1] == all);
    begin_session(daemon, first);
    EXPECT(tell(daemon, first, 0x15000000, SHARE + 7) == 7 && tell(daemon, second, 0x16000000, 7) == 7);
    router_close(daemon);
    free(daemon);
}

/* ---- a place where nobody is yet */

static void test_sought(void)
{
    const struct neighbour nobody = {.interface = "e0", .cost = 1};
    let_all_go();
    state.peers[7].last = 1;
    EXPECT(!peer_add(&state, &nobody) && strcmp(state.peers[7].name, "e0") == 0);
    EXPECT(!peer_of(&state, nobody.address));
}

/* ---- messages of rtnetlink */

static void test_netlink(void)
{
    _Alignas(struct nlmsghdr) unsigned char room[REQUEST_SIZE];
    struct nlmsghdr *message = (void *)room;
    struct kernel_route route = {.addr = 0x0a010000, .len = 16, .table = 1000, .metric = 201, .type = RTN_UNICAST,
                                 .protocol = 201, .by = {htonl(0x0a000002)}, .index = 9},
                        back;
    struct kernel_rule rule = {.preference = 1, .protocol = 201, .action = FR_ACT_NOP, .from = {htonl(0x0a000002)}},
                       rule_back;
    struct kernel_link link;
    EXPECT(netlink_route(room, &route, true, 0) <= sizeof room);
    EXPECT(netlink_read_route(message, &back) && back.addr == route.addr && back.len == 16 && back.table == 1000);
    EXPECT(back.metric == 201 && back.by.s_addr == route.by.s_addr && back.index == 9 && back.protocol == 201);
    EXPECT(!netlink_read_rule(message, &rule_back) && !netlink_read_link(message, &link));
    memset(rule.interface, 'i', IF_NAMESIZE - 1);
    EXPECT(netlink_rule(room, &rule, true, 0) <= sizeof room);
    EXPECT(netlink_read_rule(message, &rule_back) && strcmp(rule.interface, rule_back.interface) == 0);
    EXPECT(rule_back.preference == 1 && rule_back.protocol == 201 && rule_back.action == FR_ACT_NOP);
    EXPECT(rule_back.from.s_addr == rule.from.s_addr);
    EXPECT(netlink_dump_routes(room, 254, 201) <= sizeof room && netlink_dump_rules(room) <= sizeof room);
}

int main(void)
{
    test_frames();
    test_words();
    test_strings();
    test_good_config();
    test_bad_config();
    test_long_config();
    test_secret();
    test_martians();
    test_lists();
    log_to(false, LOG_EMERG);
    test_ports();
    test_former();
    test_prefixes();
    test_shares();
    test_sought();
    test_netlink();
    puts("units: frames, words, configurations, lists, ports, prefixes and rtnetlink are as they have to be");
    return 0;
}
