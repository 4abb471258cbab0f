/* What the daemon tells a service manager, and which privileges it keeps. */
#include "daemon.h"

#include <errno.h>
#include <linux/capability.h>
#include <stddef.h>
#include <stdlib.h>
#include <string.h>
#include <sys/prctl.h>
#include <sys/socket.h>
#include <sys/syscall.h>
#include <sys/utsname.h>
#include <unistd.h>

/* A datagram to the socket of NOTIFY_SOCKET, as sd_notify(3) sends one. */
void service_tell(const char *what)
{
    const char *path = getenv("NOTIFY_SOCKET");
    struct sockaddr_un to = {.sun_family = AF_UNIX};
    if (!path || (path[0] != '/' && path[0] != '@') || strlen(path) >= sizeof to.sun_path)
        return;
    size_t size = strlen(path);
    memcpy(to.sun_path, path, size);
    if (path[0] == '@')
        to.sun_path[0] = '\0';
    int fd = socket(AF_UNIX, SOCK_DGRAM | SOCK_CLOEXEC, 0);
    if (fd < 0)
        return;
    ssize_t sent = sendto(fd, what, strlen(what), MSG_NOSIGNAL | MSG_DONTWAIT, (struct sockaddr *)&to,
                          (socklen_t)(offsetof(struct sockaddr_un, sun_path) + size));
    (void)sent;
    close(fd);
}

void service_watch(int64_t now)
{
    static int64_t told;
    const char *limit = getenv("WATCHDOG_USEC");
    if (!limit || now - told < strtoll(limit, NULL, 10) / 2000)
        return;
    service_tell("WATCHDOG=1");
    told = now;
}

/* Whether this kernel lets anybody bind a connection to an interface, as each since 5.7 does. */
static bool binds_freely(void)
{
    struct utsname name;
    unsigned major = 0, minor = 0;
    return uname(&name) == 0 && sscanf(name.release, "%u.%u", &major, &minor) == 2 && (major > 5 || (major == 5 && minor >= 7));
}

/* All that is needed later is to change routes, rules and link addresses, and nothing of that where rows are no routes. What was
 * opened stays open. */
bool drop_privileges(bool installs)
{
    struct __user_cap_header_struct head = {.version = _LINUX_CAPABILITY_VERSION_3};
    struct __user_cap_data_struct kept[2] = {{0}, {0}}, now[2];
    const uint32_t bit = installs ? 1U << CAP_NET_ADMIN | (binds_freely() ? 0 : 1U << CAP_NET_RAW) : 0;
    if (syscall(SYS_capget, &head, now))
        return false;
    for (unsigned long capability = 0; capability <= CAP_LAST_CAP; capability++)
        if (capability >= 32 || !(bit >> capability & 1))
            prctl(PR_CAPBSET_DROP, capability, 0, 0, 0);
    kept[0].effective = kept[0].permitted = bit & now[0].permitted;
    kept[0].inheritable = 0;
    return prctl(PR_SET_NO_NEW_PRIVS, 1, 0, 0, 0) == 0 && syscall(SYS_capset, &head, kept) == 0;
}
