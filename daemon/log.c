#include "log.h"

#include <poll.h>
#include <stdarg.h>
#include <stdio.h>
#include <stdlib.h>
#include <string.h>
#include <sys/socket.h>
#include <sys/stat.h>
#include <sys/un.h>
#include <time.h>
#include <unistd.h>

static const char *const LEVELS[] = {"emergency", "alert", "critical", "error", "warning", "notice", "info", "debug"};

/* `fd`: the socket by which lines go to syslog. It is not connected, so a log daemon that began anew gets them too. */
static struct {
    bool to_syslog;
    int level, fd;
} settings = {false, LOG_INFO, -1};

int64_t now_ms(void)
{
    struct timespec now;
    clock_gettime(CLOCK_MONOTONIC, &now);
    return (int64_t)now.tv_sec * 1000 + now.tv_nsec / 1000000;
}

void log_to(bool to_syslog, int level)
{
    if (to_syslog && settings.fd < 0)
        settings.fd = socket(AF_UNIX, SOCK_DGRAM | SOCK_CLOEXEC, 0);
    settings.to_syslog = to_syslog;
    settings.level = level;
}

int log_level(const char *name)
{
    for (int level = LOG_ERR; level <= LOG_DEBUG; level++)
        if (strcmp(name, LEVELS[level]) == 0)
            return level;
    return -1;
}

/* Whether standard error is the journal's. The variable alone does not tell: whoever a service starts has it too. */
static bool is_journal(void)
{
    const char *stream = getenv("JOURNAL_STREAM");
    struct stat info;
    char own[64];
    if (!stream || fstat(STDERR_FILENO, &info))
        return false;
    snprintf(own, sizeof own, "%ju:%ju", (uintmax_t)info.st_dev, (uintmax_t)info.st_ino);
    return strcmp(own, stream) == 0;
}

/* What stands before a line: the journal has the time by itself, and takes the level as <N>. Syslog has the form of
 * RFC 3164. */
static int head(char *line, size_t size, int level)
{
    struct timespec now;
    struct tm parts;
    char stamp[32];
    if (!settings.to_syslog && is_journal())
        return snprintf(line, size, "<%d>", level);
    clock_gettime(CLOCK_REALTIME, &now);
    if (settings.to_syslog) {
        localtime_r(&now.tv_sec, &parts);
        strftime(stamp, sizeof stamp, "%b %e %H:%M:%S", &parts);
        return snprintf(line, size, "<%d>%s dualnetd[%d]: ", LOG_DAEMON | level, stamp, (int)getpid());
    }
    gmtime_r(&now.tv_sec, &parts);
    strftime(stamp, sizeof stamp, "%Y-%m-%dT%H:%M:%S", &parts);
    return snprintf(line, size, "%s.%03ldZ dualnetd %s: ", stamp, now.tv_nsec / 1000000, LEVELS[level]);
}

void say(int level, const char *format, ...)
{
    static const struct sockaddr_un SYSLOG = {.sun_family = AF_UNIX, .sun_path = "/dev/log"};
    struct pollfd ready = {STDERR_FILENO, POLLOUT, 0};
    char line[512];
    va_list words;
    if (level > settings.level)
        return;
    int begun = head(line, sizeof line, level);
    va_start(words, format);
    vsnprintf(line + begun, sizeof line - (size_t)begun - 1, format, words);
    va_end(words);
    size_t count = strlen(line);
    ssize_t written = 0;
    if (settings.to_syslog) {
        written = sendto(settings.fd, line, count, MSG_DONTWAIT | MSG_NOSIGNAL, (const struct sockaddr *)&SYSLOG,
                         sizeof SYSLOG);
    } else if (poll(&ready, 1, 0) == 1) {
        line[count++] = '\n';
        written = write(STDERR_FILENO, line, count);
    }
    (void)written;
}
