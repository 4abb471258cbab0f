/* Before a daemon (LD_PRELOAD): while the file that SLOW_FILE names is there, the disk takes 1.2 seconds for what is to stay. */
#include <stdlib.h>
#include <sys/syscall.h>
#include <time.h>
#include <unistd.h>

int fsync(int fd)
{
    const struct timespec wait = {1, 200000000};
    const char *file = getenv("SLOW_FILE");
    if (file && access(file, F_OK) == 0)
        nanosleep(&wait, NULL);
    return (int)syscall(SYS_fsync, fd);
}
