/* What dualnetd.conf says. */
#ifndef DUALNETD_CONFIG_H
#define DUALNETD_CONFIG_H

#include "text.h"
#include "tuhvondi_router.h"

#include <net/if.h>
#include <stdio.h>
#include <sys/un.h>

enum {
    DEFAULT_PREFIXES = 4096, /* that all neighbours together may have the router know at a time */
    MOST_PREFIXES = 1000000,
    SHARE = 64,              /* beside these, for each neighbour */
    OWN_PREFIXES = 256,      /* beside these, for attachments */
    MOST_ATTACHMENTS = 4096, /* lines of them */
    MOST_LIST_LINES = 1024,
    MOST_CONNECTED = 64,     /* interfaces whose subnets are attached, and kinds of routes of others */
    SECRET_SIZE = 81, /* of TCP's MD5 option: 80 bytes, and the end */
    NAME_SIZE = 32,
    STATE_PATH = 256,
};

/* With an `interface` it is sought there, and the address is that of whoever was found; zero: nobody yet. */
struct neighbour {
    struct in_addr address;
    char interface[IF_NAMESIZE];
    uint32_t cost;
    bool passive, ttl_security;
    uint32_t most_prefixes; /* that are taken of it at a time; 0: as many as there is room for */
    uint32_t warn_prefixes; /* of which a line tells when it has told more; 0: none does */
    char secret[SECRET_SIZE], list[NAME_SIZE];
    char secret_file[STATE_PATH]; /* where the secret stands; empty: in the line, if there is one */
};

/* A line of a prefix list: prefixes below this one, whose length is within these bounds. */
struct list_line {
    char name[NAME_SIZE];
    bool accepts;
    struct tuhvondi_prefix prefix;
    uint8_t least, most;
};

/* The subnets of an interface, which are attached while it works. */
struct connected {
    char interface[IF_NAMESIZE];
    uint32_t cost;
};

/* Routes of a protocol number in the kernel, which are attached if the list takes them. */
struct redistributed {
    uint32_t protocol, cost;
    char list[NAME_SIZE];
};

/* `source`: of packets that the host itself sends by routes of rows; zero: the kernel chooses. `stub`: packets are to go round
 * this router, where there is another way. */
struct config {
    struct in_addr router_id, listen, source;
    char control[sizeof((struct sockaddr_un *)NULL)->sun_path], state[STATE_PATH];
    bool installs, stub, to_syslog, has_secret;
    int log_level;
    uint32_t table, metric, protocol, alive_ms, dead_ms, active_ms, prefixes;
    struct in_addr metrics_address;
    uint32_t metrics_port; /* 0: none */
    struct neighbour neighbours[TUHVONDI_PORTS];
    size_t neighbour_count;
    struct tuhvondi_attachment attachments[MOST_ATTACHMENTS];
    size_t attachment_count;
    struct connected connected[MOST_CONNECTED];
    size_t connected_count;
    struct redistributed redistributed[MOST_CONNECTED];
    size_t redistributed_count;
    struct list_line lines[MOST_LIST_LINES];
    size_t line_count;
    uint32_t seen; /* keywords that may stand once, and did */
};

/* Is told each thing that is wrong, as FILE:LINE: what. */
typedef void complain(void *whom, const char *what);

/* Reads a configuration: whether nothing is wrong with it. */
bool config_read(FILE *file, const char *name, struct config *config, complain *complain, void *whom);

/* Reads what stands after `neighbour`, or after `attach`: what is wrong; NULL: nothing. Nothing changes where something
 * is wrong. */
const char *config_neighbour(struct config *config, size_t count, char **words);
const char *config_attachment(size_t count, char **words, struct tuhvondi_attachment *attachment);

/* Takes the secret from the text of a file, which is its first line: what is wrong; NULL: nothing. */
const char *config_take_secret(struct neighbour *neighbour, const char *text);

/* Whether this list takes the prefix: the first line that matches it decides; where none does, it is refused. No list
 * (an empty name) takes all but martians. */
bool config_accepts(const struct config *config, const char *list, uint32_t addr, uint8_t len);

/* Whether there is a line of this list, or it is none (an empty name). */
bool config_has_list(const struct config *config, const char *list);

/* Whether two configurations have this list alike. */
bool config_same_list(const struct config *one, const struct config *other, const char *list);

#endif
