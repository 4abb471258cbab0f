/* What the daemon notes of each prefix: its routes in the kernel, who tells of it, and since when it is active. */
#ifndef DUALNETD_PREFIXES_H
#define DUALNETD_PREFIXES_H

#include <netinet/in.h>
#include <stdbool.h>
#include <stddef.h>
#include <stdint.h>

enum { NOT_ASKED = 255 };

/* `behind`: the unreachable route of the worst metric stands in the kernel, and is ours. `via`: so does the route by
 * the neighbour `by` at the interface `index`, which names `source`. `foreign`: a route that is not ours stands in the place of one of
 * these. `asked`: the port by which a route is being asked for. `found_behind`, `found_via`, `differs`: what a look
 * at the kernel found. `reported`: the ports whose neighbours told a finite distance last. `active_since` is 0 while
 * no computation is under way. `excused`: the ports that said since the last look that they wait themselves; `judged_at`:
 * when who has not, and owes a reply, has its session ended; `excuses`: how often that was looked at; `awaited`: the ports to which
 * a question has left, and whose replies are awaited. `told`: there was a line. `since`:
 * its row forwards. `brought`: by the neighbour of the port
 * before this number the router came to know the prefix; zero: by nobody. */
struct noted {
    uint32_t addr;
    uint8_t len, asked, brought, excuses;
    bool used, behind, via, foreign, found_behind, found_via, differs, told;
    struct in_addr by, source;
    unsigned index;
    uint32_t reported, excused, awaited;
    int64_t active_since, judged_at, since;
};

/* The slots are a power of two, and at most half of them are used. */
struct prefixes {
    struct noted *slots;
    size_t size, count;
};

/* Room for so many: false where memory is refused. */
bool prefixes_open(struct prefixes *prefixes, size_t most);
void prefixes_close(struct prefixes *prefixes);

/* What is noted of a prefix, or NULL. What is added has nothing noted; NULL: there are too many. A pointer is good
 * until the next prefix is let go of. */
struct noted *prefixes_find(struct prefixes *prefixes, uint32_t addr, uint8_t len);
struct noted *prefixes_add(struct prefixes *prefixes, uint32_t addr, uint8_t len);

/* Lets go of the prefix if nothing is noted of it: whether it did. Others may move into its place. */
bool prefixes_let_go(struct prefixes *prefixes, struct noted *noted);

/* Lets go of each prefix of which nothing is noted. */
void prefixes_tidy(struct prefixes *prefixes);

#endif
