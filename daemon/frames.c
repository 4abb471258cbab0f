#include "frames.h"

#include "tuhvondi_router.h"

#include <stdbool.h>

enum { VERSION_SHIFT = 24 };

TUHVONDI_ASSERT((int)TRACE_DEAD_LINK > (int)TUHVONDI_NO_ROW, "the ends of a trace go on behind the kinds of rows");

static uint32_t number_at(const unsigned char *bytes, size_t count)
{
    uint32_t number = 0;
    for (size_t i = 0; i < count; i++)
        number = number << 8 | bytes[i];
    return number;
}

static void put_number(unsigned char *bytes, size_t count, uint32_t number)
{
    for (size_t i = count; i > 0; i--, number >>= 8)
        bytes[i - 1] = (unsigned char)number;
}

void frame_write(const struct frame *frame, unsigned char bytes[FRAME_SIZE])
{
    if (frame->type == FRAME_TERMS) {
        frame_write(&(struct frame){.type = FRAME_ROUTER, .addr = (uint32_t)frame->kind << VERSION_SHIFT | frame->value},
                    bytes);
        return;
    }
    bytes[0] = frame->type;
    bytes[1] = frame->kind;
    put_number(bytes + 2, 2, frame->number);
    put_number(bytes + 4, 4, frame->addr);
    put_number(bytes + 8, 4, frame->value);
    bytes[12] = frame->len;
    put_number(bytes + 13, 3, 0);
}

/* Terms have the version in the highest byte of the address, and the time below it. */
static struct frame terms_of(const struct frame *frame)
{
    return (struct frame){.type = FRAME_TERMS, .kind = (uint8_t)(frame->addr >> VERSION_SHIFT),
                          .value = frame->addr & (((uint32_t)1 << VERSION_SHIFT) - 1)};
}

static const char *wrong_prefix(const struct frame *frame)
{
    if (frame->len > 32)
        return tuhvondi_status_text(TUHVONDI_BAD_LENGTH);
    if (frame->len < 32 && (frame->addr << frame->len) != 0)
        return tuhvondi_status_text(TUHVONDI_HOST_BITS);
    return NULL;
}

/* A message has the faults that the library has for its fields. */
static const char *wrong_message(const struct frame *frame)
{
    const char *wrong = wrong_prefix(frame);
    if (wrong)
        return wrong;
    return frame->kind > TUHVONDI_REPLY ? tuhvondi_status_text(TUHVONDI_BAD_KIND) : NULL;
}

static bool is_well_formed(const struct frame *frame)
{
    bool has_prefix = frame->value != 0 || frame->len != 0;
    switch (frame->type) {
    case FRAME_HELLO:
        return frame->kind == FIRST_VERSION && !has_prefix;
    case FRAME_TERMS:
        return frame->kind >= FRAME_VERSION && frame->value >= LEAST_DEAD_MS && frame->value <= MOST_DEAD_MS;
    case FRAME_ALIVE:
        return frame->kind == 0 && frame->number == 0 && frame->addr == 0 && !has_prefix;
    case FRAME_PARTING:
        return frame->kind >= FRAME_VERSION && frame->number == 0 && frame->addr == 0 && !has_prefix;
    case FRAME_ANNOUNCEMENT:
        return frame->kind == FIRST_VERSION && frame->number != 0 && frame->value != 0 && frame->len == 0;
    case FRAME_WAIT:
        return frame->kind == 0 && frame->value == 0 && !wrong_prefix(frame);
    case FRAME_TRACE:
        return frame->kind < HOPS && !has_prefix;
    case FRAME_ROUTER:
        return frame->kind <= TRACE_GIVEN_UP && !has_prefix;
    default:
        return false;
    }
}

const char *frame_read(const unsigned char bytes[FRAME_SIZE], struct frame *frame)
{
    *frame = (struct frame){.type = bytes[0], .kind = bytes[1], .len = bytes[12],
                            .number = (uint16_t)number_at(bytes + 2, 2), .addr = number_at(bytes + 4, 4),
                            .value = number_at(bytes + 8, 4)};
    if (number_at(bytes + 13, 3) == 0 && frame->type == FRAME_MESSAGE)
        return wrong_message(frame);
    if (frame->type == FRAME_HELLO && frame->kind != FIRST_VERSION)
        return "it speaks another version of the protocol";
    bool formed = number_at(bytes + 13, 3) == 0 && frame->type != FRAME_TERMS && is_well_formed(frame);
    if (formed && frame->type == FRAME_ROUTER && frame->number == 0) {
        formed = frame->kind == 0;
        *frame = terms_of(frame);
        formed = formed && is_well_formed(frame);
    }
    return formed ? NULL : "a frame is malformed";
}
