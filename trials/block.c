/* Before a daemon (LD_PRELOAD), by the file that BLOCK_FILE names. While it is empty, the kernel takes no request about routes,
 * but in the daemon's first two seconds, since one that cannot take routes of old away does not begin. While it has `slow`, each
 * such request takes 150 ms. While it has `pause`, the daemon stands still for 800 ms whenever it has seen that nothing came. */
#define _GNU_SOURCE
#include <dlfcn.h>
#include <errno.h>
#include <fcntl.h>
#include <linux/netlink.h>
#include <linux/rtnetlink.h>
#include <poll.h>
#include <signal.h>
#include <stdlib.h>
#include <sys/socket.h>
#include <sys/syscall.h>
#include <time.h>
#include <unistd.h>

enum { START_S = 2, SLOW_MS = 150, PAUSE_MS = 800, NO_FILE = -1, EMPTY = 0 };

/* The first letter in the file. */
static int order(void)
{
    const char *path = getenv("BLOCK_FILE");
    char letter = EMPTY;
    int fd = path ? open(path, O_RDONLY | O_CLOEXEC) : -1;
    if (fd < 0)
        return NO_FILE;
    ssize_t got = read(fd, &letter, 1);
    close(fd);
    return got < 0 ? NO_FILE : letter;
}

static void rest(long ms)
{
    const struct timespec time = {0, ms * 1000000};
    nanosleep(&time, NULL);
}

ssize_t send(int fd, const void *bytes, size_t size, int flags)
{
    static ssize_t (*kernel_send)(int, const void *, size_t, int);
    static time_t begun;
    struct timespec now;
    const struct nlmsghdr *first = bytes;
    clock_gettime(CLOCK_MONOTONIC, &now);
    if (!kernel_send) {
        *(void **)&kernel_send = dlsym(RTLD_NEXT, "send");
        begun = now.tv_sec;
    }
    if (size >= sizeof *first && first->nlmsg_len <= size
        && (first->nlmsg_type == RTM_NEWROUTE || first->nlmsg_type == RTM_DELROUTE)) {
        int letter = order();
        if (letter == 's')
            rest(SLOW_MS);
        if (letter == EMPTY && now.tv_sec - begun > START_S) {
            errno = ENOBUFS;
            return -1;
        }
    }
    return kernel_send(fd, bytes, size, flags);
}

/* Whoever was built with checks of the C library calls it by another name. */
int __ppoll_chk(struct pollfd *polls, nfds_t count, const struct timespec *limit, const sigset_t *mask, size_t size)
{
    struct timespec left = limit ? *limit : (struct timespec){0};
    (void)size;
    int found = (int)syscall(SYS_ppoll, polls, count, limit ? &left : NULL, mask, _NSIG / 8);
    if (found == 0 && order() == 'p')
        rest(PAUSE_MS);
    return found;
}

int ppoll(struct pollfd *polls, nfds_t count, const struct timespec *limit, const sigset_t *mask)
{
    return __ppoll_chk(polls, count, limit, mask, 0);
}
