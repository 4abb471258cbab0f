/* Who had a session, in a file. The kernel keeps the same as rules, but forgets them when the host begins anew; and then a
 * neighbour may still have rows that lead here. */
#include "daemon.h"

#include <arpa/inet.h>
#include <errno.h>
#include <fcntl.h>
#include <poll.h>
#include <pthread.h>
#include <stdio.h>
#include <string.h>
#include <sys/eventfd.h>
#include <unistd.h>

enum {
    RETRY_MS = 1000,
    SLOW_MS = 2000, /* for which a session that begins waits for the disk */
    LINE_SIZE = 256,
    WORDS = 4,
};

static const char HEAD[] = "# Neighbours of dualnetd whose routes may lead here: interface, address, which end connects, link address\n";

/* ---- to the disk */

/* What is written, and what came of it: an error's number, or 0. While the thread writes, it alone touches this. */
static struct writing {
    char path[STATE_PATH];
    struct text text;
    int done, error;
} writing;

/* Has what was written reach the disk, and the name of it too. */
static bool settle(const char *path, const char *written)
{
    char folder[STATE_PATH];
    const char *slash = strrchr(path, '/');
    snprintf(folder, sizeof folder, "%.*s", slash ? (int)(slash - path) + 1 : 1, slash ? path : ".");
    if (rename(written, path))
        return false;
    int fd = open(folder, O_RDONLY | O_DIRECTORY | O_CLOEXEC);
    bool done = fd >= 0 && fsync(fd) == 0;
    if (fd >= 0)
        close(fd);
    return done;
}

static bool write_text(int fd)
{
    for (size_t from = 0; from < writing.text.count;) {
        ssize_t written = write(fd, writing.text.bytes + from, writing.text.count - from);
        if (written < 0 && errno != EINTR)
            return false;
        from += written > 0 ? (size_t)written : 0;
    }
    return fsync(fd) == 0;
}

/* The file is written beside the old one and then takes its name, so it is always whole. */
static int replace(void)
{
    char beside[STATE_PATH + sizeof ".new"];
    snprintf(beside, sizeof beside, "%s.new", writing.path);
    if (writing.text.refused)
        return ENOMEM;
    int fd = open(beside, O_WRONLY | O_CREAT | O_TRUNC | O_CLOEXEC | O_NOFOLLOW, 0600);
    if (fd < 0)
        return errno;
    int error = write_text(fd) ? 0 : errno;
    if (close(fd) && !error)
        error = errno;
    return error ? error : settle(writing.path, beside) ? 0 : errno;
}

static void *write_file(void *unused)
{
    uint64_t one = 1;
    (void)unused;
    writing.error = replace();
    ssize_t told = write(writing.done, &one, sizeof one);
    (void)told;
    return NULL;
}

static void put_marks(struct daemon *daemon, struct text *text)
{
    text_free(text);
    text_put(text, "%s", HEAD);
    for (const struct peer *peer = daemon->peers; peer < peers_end(daemon); peer++) {
        char address[INET_ADDRSTRLEN];
        const unsigned char *link = peer->link_address;
        if (peer->used && peer->marked && peer->interface[0])
            text_put(text, "%s %s %s %02x:%02x:%02x:%02x:%02x:%02x\n", peer->interface,
                     address_text(peer->config.address, address), peer->config.passive ? "passive" : "connects", link[0],
                     link[1], link[2], link[3], link[4], link[5]);
    }
}

/* ---- when it is written */

static void note_failure(struct daemon *daemon, const char *why)
{
    if (!daemon->marks.failed)
        say(LOG_ERR, "state %s: %s: if the host begins anew now, what neighbours may send here is not known",
            daemon->config.state, why);
    daemon->marks.failed = true;
}

/* A full disk is to cut no network: sessions go on, since the kernel's marks stand all the same, and it is tried again. */
static void note_end(struct daemon *daemon, int64_t now)
{
    struct marks *marks = &daemon->marks;
    marks->writes = false;
    if (writing.error == 0) {
        marks->failed = false;
        return;
    }
    marks->due = true;
    marks->next_try = now + RETRY_MS;
    note_failure(daemon, strerror(writing.error));
}

static void look_at_end(struct daemon *daemon, int64_t now)
{
    uint64_t count;
    if (read(daemon->marks.done, &count, sizeof count) > 0)
        note_end(daemon, now);
    else if (now - daemon->marks.since > SLOW_MS)
        note_failure(daemon, "the disk does not answer");
}

static void begin(struct daemon *daemon, int64_t now, bool may_wait)
{
    struct marks *marks = &daemon->marks;
    pthread_t thread;
    marks->due = false;
    marks->since = now;
    snprintf(writing.path, sizeof writing.path, "%s", daemon->config.state);
    writing.done = marks->done;
    put_marks(daemon, &writing.text);
    marks->writes = !may_wait && marks->done >= 0 && pthread_create(&thread, NULL, write_file, NULL) == 0;
    if (marks->writes) {
        pthread_detach(thread);
        return;
    }
    writing.error = replace();
    note_end(daemon, now);
}

/* The disk may take longer than neighbours wait for a sign of life, so a thread writes the file. */
void marks_save(struct daemon *daemon)
{
    int64_t now = now_ms();
    if (daemon->marks.writes)
        look_at_end(daemon, now);
    if (!daemon->marks.writes && daemon->marks.due && daemon->config.state[0] && now >= daemon->marks.next_try)
        begin(daemon, now, false);
}

bool marks_stand(const struct daemon *daemon)
{
    const struct marks *marks = &daemon->marks;
    return !daemon->config.state[0] || marks->failed || (!marks->due && !marks->writes);
}

void marks_close(struct daemon *daemon)
{
    struct pollfd end = {daemon->marks.done, POLLIN, 0};
    if (daemon->marks.writes && poll(&end, 1, SLOW_MS) > 0)
        look_at_end(daemon, now_ms());
    if (!daemon->marks.writes && daemon->marks.due && daemon->config.state[0])
        begin(daemon, now_ms(), true);
    if (!daemon->marks.writes)
        text_free(&writing.text);
}

/* ---- at a start */

/* What is wrong with a line; NULL: nothing. */
static const char *take_line(struct daemon *daemon, char *line)
{
    char *words[WORDS];
    struct neighbour neighbour = {.cost = 1};
    unsigned char link[LINK_ADDRESS];
    size_t count = split_words(line, words, WORDS);
    if (count == 0)
        return NULL;
    if (count != WORDS || strlen(words[0]) >= IF_NAMESIZE || !read_address(words[1], &neighbour.address)
        || !neighbour.address.s_addr || (strcmp(words[2], "passive") != 0 && strcmp(words[2], "connects") != 0)
        || sscanf(words[3], "%2hhx:%2hhx:%2hhx:%2hhx:%2hhx:%2hhx", link, link + 1, link + 2, link + 3, link + 4, link + 5) != 6)
        return "expected: INTERFACE ADDRESS passive|connects LINK-ADDRESS";
    neighbour.passive = words[2][0] == 'p';
    return peer_inherit(daemon, &neighbour, words[0], link) ? NULL : "there is no place for this former neighbour";
}

static bool read_marks(struct daemon *daemon, FILE *file)
{
    char line[LINE_SIZE];
    bool done = true;
    for (unsigned number = 1; fgets(line, sizeof line, file); number++) {
        bool whole = strchr(line, '\n') != NULL;
        const char *wrong = whole ? take_line(daemon, line) : "the line has no end, or more than 254 bytes";
        if (wrong)
            say(LOG_ERR, "state %s:%u: %s", daemon->config.state, number, wrong);
        if (!whole)
            return false;
        done = done && !wrong;
    }
    return done && !ferror(file);
}

/* Reads whom processes before had sessions with, and sees that the file can be written: whether all is well. Where there is no
 * file, nobody is known of; nor by one that is empty, since what a daemon writes begins with a head. Where there was one, a disk
 * that is full now is to stop no router: a line tells of it. */
bool marks_open(struct daemon *daemon)
{
    const char *path = daemon->config.state;
    if (!path[0])
        return true;
    FILE *file = reload_open(path);
    if (!file && errno != ENOENT) {
        say(LOG_ERR, "state %s: %s", path, errno == EINVAL ? "it is no regular file" : strerror(errno));
        return false;
    }
    bool read = !file || read_marks(daemon, file);
    daemon->marks.known = file && ftell(file) > 0;
    if (file)
        fclose(file);
    if (!read)
        return false;
    daemon->marks.done = eventfd(0, EFD_CLOEXEC | EFD_NONBLOCK);
    begin(daemon, now_ms(), true);
    return !daemon->marks.due || daemon->marks.known;
}
