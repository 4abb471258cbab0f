/* dualnetctl: asks a dualnetd at its control socket. It sends one line, and writes what is answered. */
#include <errno.h>
#include <stdbool.h>
#include <stdio.h>
#include <stdlib.h>
#include <string.h>
#include <sys/socket.h>
#include <sys/time.h>
#include <sys/un.h>
#include <unistd.h>

enum { ANSWER_S = 5, MOST_SECONDS = 3600 };

static const char USAGE[] =
    "usage: dualnetctl [--socket PATH] [--json] [--timeout SECONDS] COMMAND\n"
    "       dualnetctl --help | --version\n"
    "\n"
    "Sends a command to a dualnetd that runs, and prints its answer. With --json that is JSON.\n"
    "\n"
    "Commands that ask:\n"
    "  table                prints the neighbours with their sessions, and the rows in force\n"
    "  routes               prints each row's next hop, interface, distance and age\n"
    "  state [PREFIX]       prints what the router knows of each prefix, or of one\n"
    "  neighbours           prints each neighbour's session, cost and interface\n"
    "  why PREFIX           prints why a prefix is active: whose replies it awaits\n"
    "  counters             prints messages by kind, computations, and the longest of them\n"
    "  lookup ADDRESS       prints the row by which packets to the address go\n"
    "  trace ADDRESS        prints the routers that such a packet passes\n"
    "  monitor              prints changes as they come, until you end it\n"
    "  version              prints the version of the daemon\n"
    "\n"
    "Commands that change something:\n"
    "  attach PREFIX COST   attaches the router to the prefix, at this cost\n"
    "  detach PREFIX        ends the attachment\n"
    "  cost NEIGHBOUR COST  sets the cost of the link to the neighbour\n"
    "  down NEIGHBOUR       ends the session, and lets none begin\n"
    "  up NEIGHBOUR         lets one begin again\n"
    "  neighbour ADDRESS COST [OPTION ..]\n"
    "                       adds a neighbour; dualnetd.conf(5) has the options\n"
    "  unfilter INTERFACE   lets in what comes by it, where a neighbour that is gone may have\n"
    "                       routes that lead here: you know that it has none\n"
    "  drain, undrain       sets the cost of each link to 65535, so that packets go round this\n"
    "                       router where they can, or back\n"
    "  reload               reads the configuration again, so that it holds\n"
    "\n"
    "If you give no --socket, the socket is DUALNETD_SOCKET, or else /run/dualnetd/dualnetd.sock.\n"
    "If the daemon says nothing for 5 seconds, or as many as --timeout says (0: any), the status is 1.\n"
    "Example: dualnetctl why 10.1.0.0/16\n";

static int fail(const char *what, const char *why)
{
    fprintf(stderr, "dualnetctl: %s%s%s\n", what, why ? ": " : "", why ? why : "");
    return 1;
}

/* The words as one line, or false if they are too long, or have an end of line within. */
static bool join(char *line, size_t size, bool json, char **words)
{
    size_t at = (size_t)snprintf(line, size, "%s", json ? "json " : "");
    for (bool first = true; *words; words++, first = false) {
        if (strpbrk(*words, "\r\n"))
            return false;
        int more = snprintf(line + at, size - at, "%s%s", first ? "" : " ", *words);
        if (more < 0 || (size_t)more >= size - at - 1)
            return false;
        at += (size_t)more;
    }
    line[at++] = '\n';
    line[at] = '\0';
    return true;
}

/* Limits how long each step may take; a monitor may be quiet. */
static void limit(int fd, unsigned seconds)
{
    struct timeval most = {.tv_sec = seconds};
    setsockopt(fd, SOL_SOCKET, SO_SNDTIMEO, &most, sizeof most);
    setsockopt(fd, SOL_SOCKET, SO_RCVTIMEO, &most, sizeof most);
}

static int connect_to(const char *path, unsigned seconds)
{
    struct sockaddr_un address = {.sun_family = AF_UNIX};
    if (strlen(path) >= sizeof address.sun_path) {
        errno = ENAMETOOLONG;
        return -1;
    }
    strcpy(address.sun_path, path);
    int fd = socket(AF_UNIX, SOCK_STREAM | SOCK_CLOEXEC, 0);
    limit(fd, seconds);
    if (fd >= 0 && connect(fd, (struct sockaddr *)&address, sizeof address) == 0)
        return fd;
    int error = errno;
    if (fd >= 0)
        close(fd);
    errno = error;
    return -1;
}

static bool send_all(int fd, const char *text)
{
    size_t left = strlen(text);
    while (left > 0) {
        ssize_t sent = send(fd, text, left, MSG_NOSIGNAL);
        if (sent < 0 && errno != EINTR)
            return false;
        text += sent > 0 ? sent : 0;
        left -= sent > 0 ? (size_t)sent : 0;
    }
    return true;
}

/* Writes what is answered as it comes. An answer that says what is wrong goes to standard error: status 1. */
static int copy_answer(int fd)
{
    static const char WRONG[] = "error: ", WRONG_JSON[] = "{\"error\":";
    char room[65536];
    size_t total = 0;
    bool wrong = false;
    for (;;) {
        ssize_t got = recv(fd, room, sizeof room, 0);
        if (got < 0 && errno == EINTR)
            continue;
        if (got < 0)
            return fail("the daemon", errno == EAGAIN ? "it says nothing" : strerror(errno));
        if (got == 0)
            break;
        if (total == 0)
            wrong = ((size_t)got >= strlen(WRONG) && memcmp(room, WRONG, strlen(WRONG)) == 0)
                    || ((size_t)got >= strlen(WRONG_JSON) && memcmp(room, WRONG_JSON, strlen(WRONG_JSON)) == 0);
        total += (size_t)got;
        FILE *to = wrong ? stderr : stdout;
        if (fwrite(room, 1, (size_t)got, to) != (size_t)got || fflush(to))
            return fail("standard output", strerror(errno));
    }
    if (total == 0)
        return fail("the daemon closed the connection, and said nothing", NULL);
    return wrong;
}

int main(int count, char **words)
{
    const char *path = getenv("DUALNETD_SOCKET");
    char line[512], *end;
    bool json = false;
    unsigned long seconds = ANSWER_S;
    int at = 1;
    for (; at < count && words[at][0] == '-'; at++) {
        if (strcmp(words[at], "--json") == 0) {
            json = true;
        } else if (strcmp(words[at], "--socket") == 0 && at + 1 < count) {
            path = words[++at];
        } else if (strcmp(words[at], "--timeout") == 0 && at + 1 < count) {
            seconds = strtoul(words[++at], &end, 10);
            if (!*words[at] || *end || seconds > MOST_SECONDS)
                return fail("--timeout", "0 to 3600 seconds are expected");
        } else if (strcmp(words[at], "--help") == 0) {
            return fputs(USAGE, stdout) < 0 || fflush(stdout);
        } else if (strcmp(words[at], "--version") == 0) {
            return printf("dualnetctl %s\n", DUALNETD_VERSION) < 0 || fflush(stdout);
        } else {
            break;
        }
    }
    if (at >= count || words[at][0] == '-') {
        fputs(USAGE, stderr);
        return 2;
    }
    path = path ? path : "/run/dualnetd/dualnetd.sock";
    if (!join(line, sizeof line, json, words + at))
        return fail("a command is one line of at most 500 bytes", NULL);
    int fd = connect_to(path, strcmp(words[at], "monitor") == 0 ? 0 : (unsigned)seconds);
    if (fd < 0)
        return fail(path, strerror(errno));
    if (!send_all(fd, line))
        return fail(path, strerror(errno));
    int status = copy_answer(fd);
    close(fd);
    return status;
}
