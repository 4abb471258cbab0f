/* Frames: what goes over a connection between two daemons. Nothing here reads or writes a socket. */
#ifndef DUALNETD_FRAMES_H
#define DUALNETD_FRAMES_H

#include <stddef.h>
#include <stdint.h>

enum {
    FRAME_SIZE = 16,
    FIRST_VERSION = 1, /* of the protocol, with which every hello and every announcement begins */
    FRAME_VERSION = 2, /* which the terms behind a hello tell */
    HOPS = 64,         /* routers that a trace passes at most */
    LEAST_DEAD_MS = 30,
    MOST_DEAD_MS = 600000,
};

/* Each frame takes 16 bytes, and numbers have their high byte first:
 *
 *     byte   0     1      2       4        8      12      13
 *            type  kind   number  address  value  length  zero
 *
 * A field that a type does not have is zero. */
enum frame_type {
    /* Kind: the first version. Number: the session that the link had last. Address: the sender's router id. */
    FRAME_HELLO = 'H',
    /* Behind a hello. Kind: the sender's version. Value: how long the receiver may be silent, in milliseconds. It goes as
     * a router of trace 0, of which there is none: a daemon of the first version leaves it, and takes the hello. */
    FRAME_TERMS = 'V',
    /* A sign of life: all else is zero. */
    FRAME_ALIVE = 'A',
    /* To a whole segment, as a datagram. Kind: the version. Number: the port of TCP. Address: the sender's router id.
     * Value: the sender's address there. */
    FRAME_ANNOUNCEMENT = 'N',
    /* A message of the router: its kind, session (number), prefix (address, length) and value. */
    FRAME_MESSAGE = 'M',
    /* Instead of a hello, or in a session: no row of the sender leads to the receiver, and it is to have none, as no
     * neighbour, or as one that is shut. Kind: the version. */
    FRAME_PARTING = 'P',
    /* A reply is late, because the sender waits for others itself: of a prefix (address, length), in a session (number). */
    FRAME_WAIT = 'W',
    /* A trace goes on. Kind: how many hops more. Number: the trace at the sender. Address: the packet's. */
    FRAME_TRACE = 'T',
    /* A router of a trace. Kind: how the trace ends there. Number: the trace at the receiver. Address: its id. */
    FRAME_ROUTER = 'R',
};

/* How a trace ends at a router, or goes on: the kinds of rows, and these two. */
enum { TRACE_DEAD_LINK = 4, TRACE_GIVEN_UP = 5 };

struct frame {
    uint8_t type, kind, len;
    uint16_t number;
    uint32_t addr, value;
};

void frame_write(const struct frame *frame, unsigned char bytes[FRAME_SIZE]);

/* What is wrong with the bytes as a frame; NULL: each field is one that its type may have. The session of a message,
 * and whether the router awaits it, is tested where the session is known. */
const char *frame_read(const unsigned char bytes[FRAME_SIZE], struct frame *frame);

#endif
