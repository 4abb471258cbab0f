#include "prefixes.h"

#include <stdlib.h>

bool prefixes_open(struct prefixes *prefixes, size_t most)
{
    *prefixes = (struct prefixes){.size = 2};
    while (prefixes->size / 2 < most)
        prefixes->size *= 2;
    prefixes->slots = calloc(prefixes->size, sizeof *prefixes->slots);
    return prefixes->slots;
}

void prefixes_close(struct prefixes *prefixes)
{
    free(prefixes->slots);
    *prefixes = (struct prefixes){0};
}

/* Prefixes stand at the first free place from their hash on, so a search ends at a free place. */
static size_t place_of(const struct prefixes *prefixes, uint32_t addr, uint8_t len)
{
    uint64_t mixed = ((uint64_t)addr << 8 | len) * 0x9e3779b97f4a7c15U;
    return (size_t)(mixed >> 40) & (prefixes->size - 1);
}

static struct noted *slot_of(struct prefixes *prefixes, uint32_t addr, uint8_t len)
{
    size_t place = place_of(prefixes, addr, len);
    struct noted *at = &prefixes->slots[place];
    while (at->used && (at->addr != addr || at->len != len)) {
        place = (place + 1) & (prefixes->size - 1);
        at = &prefixes->slots[place];
    }
    return at;
}

struct noted *prefixes_find(struct prefixes *prefixes, uint32_t addr, uint8_t len)
{
    struct noted *at = slot_of(prefixes, addr, len);
    return at->used ? at : NULL;
}

struct noted *prefixes_add(struct prefixes *prefixes, uint32_t addr, uint8_t len)
{
    struct noted *at = slot_of(prefixes, addr, len);
    if (at->used)
        return at;
    if (prefixes->count == prefixes->size / 2)
        return NULL;
    *at = (struct noted){.addr = addr, .len = len, .used = true};
    prefixes->count++;
    return at;
}

/* Whether `place` is passed by a search that begins at `from` and comes to `to`. */
static bool is_between(const struct prefixes *prefixes, size_t from, size_t place, size_t to)
{
    return ((place - from) & (prefixes->size - 1)) <= ((to - from) & (prefixes->size - 1));
}

bool prefixes_let_go(struct prefixes *prefixes, struct noted *noted)
{
    if (noted->behind || noted->via || noted->reported || noted->active_since || noted->brought)
        return false;
    size_t gap = (size_t)(noted - prefixes->slots);
    prefixes->count--;
    /* No search may end at the gap that goes on behind it. */
    size_t mask = prefixes->size - 1;
    for (size_t at = (gap + 1) & mask; prefixes->slots[at].used; at = (at + 1) & mask) {
        const struct noted *moved = &prefixes->slots[at];
        if (is_between(prefixes, place_of(prefixes, moved->addr, moved->len), gap, at)) {
            prefixes->slots[gap] = *moved;
            gap = at;
        }
    }
    prefixes->slots[gap] = (struct noted){0};
    return true;
}

void prefixes_tidy(struct prefixes *prefixes)
{
    for (size_t i = 0; i < prefixes->size; i++)
        while (prefixes->slots[i].used && prefixes_let_go(prefixes, &prefixes->slots[i]))
            ;
}
