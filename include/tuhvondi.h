/* SPDX-License-Identifier: MIT OR Apache-2.0 */
/* Forwarding images for C and C++ programs.
 *
 * For each packet a router needs the row of its table with the longest prefix that covers the packet's
 * address (RFC 1812, section 5.2.4.3; RFC 4632). An image holds rows of prefixes, and looks addresses up.
 *
 * For example, these lines make an image of one row and look 10.1.2.3 up, without a test of the statuses:
 *
 *   struct tuhvondi_row row = {.addr = 0x0a000000, .len = 8, .kind = TUHVONDI_VIA, .port = 1, .session = 4};
 *   struct tuhvondi_row answer;
 *   struct tuhvondi_image image = TUHVONDI_NO_IMAGE;
 *   uint32_t addr = 0x0a010203;
 *   tuhvondi_image_new(&row, 1, &image);
 *   tuhvondi_image_lookup(&image, &addr, 1, &answer, 1);
 *   tuhvondi_image_free(&image);
 *
 * The answer is that row: 10.0.0.0/8 via port 1, in session 4. examples/c/lookup.c has more.
 *
 * The functions are those of the static library `lookup_ffi`. It is proved what each answers, and what it
 * leaves in its handles and lists, except for what no contract can say, which is only tested:
 *
 *   - that TUHVONDI_SHARED, and TUHVONDI_BAD_COUNT of tuhvondi_writer_reader and tuhvondi_reader_learn, are
 *     answered in the cases below alone, and TUHVONDI_NO_MEMORY only if memory was refused
 *   - that no two readers of a writer have the same place
 *   - that a look-up by a reader sees each publication that was done before it began (but it is proved of those
 *     that tuhvondi_reader_learn told it of)
 *   - what tuhvondi_image_bytes writes
 *
 * The proof holds for every call that keeps to these rules:
 *
 *   - A handle begins as TUHVONDI_NO_IMAGE, TUHVONDI_NO_WRITER or TUHVONDI_NO_READER, and goes to these
 *     functions alone. Never read, write or copy its fields, because only the library knows what they mean.
 *     You may move a handle to another place if you do not use the old one again.
 *   - Give a handle to one call at a time, and let no two arguments of a call overlap. If threads look up at
 *     once, each needs a handle of its own, for which tuhvondi_image_share puts an image into one more
 *     handle, so that all read the same one. If a handle goes to another thread, order that by a lock, by a
 *     thread's start or join, or by a sequentially consistent atomic.
 *   - A handle that holds something holds memory until tuhvondi_image_free, tuhvondi_writer_free or
 *     tuhvondi_reader_free. An image is freed with the last handle that holds it, and what a writer and its
 *     readers hold with the last of them, in whichever order they go.
 *   - `malloc`, `realloc` and `free` are those of one allocator, which aligns a block to each power of two up
 *     to 16 that divides its size. So make no call from a signal handler, and none from the forked child of a
 *     process with threads.
 *   - A list is an aligned pointer, and then the number of its elements. It may be null only if the list is
 *     empty, and other pointers are never null.
 */
#ifndef TUHVONDI_H
#define TUHVONDI_H

#include <stdbool.h>
#include <stddef.h>
#include <stdint.h>

#ifdef __cplusplus
#define TUHVONDI_ASSERT(test, text) static_assert(test, text)
extern "C" {
#else
#define TUHVONDI_ASSERT(test, text) _Static_assert(test, text)
#endif

/* The version of this header, and that of the library that a program runs with, which may be a later one. */
#define TUHVONDI_VERSION "0.2.0"
const char *tuhvondi_version(void);

/* What a call answers: done, or why it is refused, and then what its handle holds stays as it is. A call
 * tests for faults in the order of their numbers, and for want of memory last, unless its comment gives
 * another order. Of a list, the first element that has a fault counts. */
enum tuhvondi_status {
    TUHVONDI_DONE = 0,
    /* A prefix's length is above 32. */
    TUHVONDI_BAD_LENGTH = 3,
    /* A prefix's address has bits set after the first `len`. */
    TUHVONDI_HOST_BITS = 4,
    /* A cost is outside 1 to 65535. */
    TUHVONDI_BAD_COST = 5,
    /* A row's or a message's kind is above 2. */
    TUHVONDI_BAD_KIND = 6,
    /* The handle is empty: it holds no image, writer, reader or router. */
    TUHVONDI_NO_IMAGE_HELD = 7,
    TUHVONDI_NO_ROUTER_HELD = 7,
    /* A list has another length than the call can use. */
    TUHVONDI_BAD_COUNT = 8,
    /* Other handles hold the image too, or a reader is still in the copy that would change. */
    TUHVONDI_SHARED = 9,
    /* The router has no such port. */
    TUHVONDI_UNKNOWN_PORT = 11,
    /* The port's link is up. */
    TUHVONDI_ALREADY_UP = 13,
    /* The port's link is down. */
    TUHVONDI_IS_DOWN = 14,
    /* No publication is due. */
    TUHVONDI_NOTHING_DUE = 17,
    /* No message may leave. */
    TUHVONDI_NOTHING_RIPE = 18,
    /* Memory was refused. */
    TUHVONDI_NO_MEMORY = 20,
    /* A router would have more than 32 ports. */
    TUHVONDI_TOO_MANY_PORTS = 26,
    /* A router would know more prefixes than it may. */
    TUHVONDI_TOO_MANY_PREFIXES = 27,
    /* The router has not heard of the prefix. */
    TUHVONDI_UNKNOWN_PREFIX = 28,
    /* The router is not attached to the prefix. */
    TUHVONDI_NOT_ATTACHED = 29,
    /* A message is of another session than its port, or a link comes up in no later session. */
    TUHVONDI_OTHER_SESSION = 36,
    /* The router has published 2^64 - 1 times. */
    TUHVONDI_GENERATIONS_SPENT = 37,
    /* A reply to no query: the router awaits none of this prefix from this port. */
    TUHVONDI_UNASKED = 38,
    /* A query of a prefix from a port to which the router still owes the reply to the one before. */
    TUHVONDI_ASKED_TWICE = 39,
    /* The router knows something of the prefix, or its row is not yet in force as unreachable. */
    TUHVONDI_STILL_USED = 44
};

/* A status in words, for messages: never null, and not to be freed. */
static inline const char *tuhvondi_status_text(uint32_t status)
{
    switch (status) {
    case TUHVONDI_DONE:
        return "done";
    case TUHVONDI_BAD_LENGTH:
        return "a prefix's length is above 32";
    case TUHVONDI_HOST_BITS:
        return "a prefix's address has bits set after its length";
    case TUHVONDI_BAD_COST:
        return "a cost is outside 1 to 65535";
    case TUHVONDI_BAD_KIND:
        return "a kind is above 2";
    case TUHVONDI_NO_IMAGE_HELD:
        return "the handle is empty";
    case TUHVONDI_BAD_COUNT:
        return "a list has another length than the call can use";
    case TUHVONDI_SHARED:
        return "others still hold the image";
    case TUHVONDI_UNKNOWN_PORT:
        return "the router has no such port";
    case TUHVONDI_ALREADY_UP:
        return "the link is up";
    case TUHVONDI_IS_DOWN:
        return "the link is down";
    case TUHVONDI_NOTHING_DUE:
        return "no publication is due";
    case TUHVONDI_NOTHING_RIPE:
        return "no message may leave";
    case TUHVONDI_NO_MEMORY:
        return "memory was refused";
    case TUHVONDI_TOO_MANY_PORTS:
        return "a router has at most 32 ports";
    case TUHVONDI_TOO_MANY_PREFIXES:
        return "the router knows as many prefixes as it may";
    case TUHVONDI_UNKNOWN_PREFIX:
        return "the router has not heard of the prefix";
    case TUHVONDI_NOT_ATTACHED:
        return "the router is not attached to the prefix";
    case TUHVONDI_OTHER_SESSION:
        return "the session is another";
    case TUHVONDI_GENERATIONS_SPENT:
        return "the router has published as often as can be counted";
    case TUHVONDI_UNASKED:
        return "it answers what nobody asked";
    case TUHVONDI_ASKED_TWICE:
        return "it asks again before it is answered";
    case TUHVONDI_STILL_USED:
        return "something is still known of the prefix";
    default:
        return "no status of this library";
    }
}

/* What happens to the packets that a row's prefix matches. */
enum tuhvondi_kind {
    /* They go to this router itself. */
    TUHVONDI_LOCAL = 0,
    /* They go to the neighbour at `port`, while its link is up in `session`. */
    TUHVONDI_VIA = 1,
    /* They go nowhere. */
    TUHVONDI_UNREACHABLE = 2,
    /* In answers only: no row covers the address. */
    TUHVONDI_NO_ROW = 3
};

/* A row: a prefix, and where packets go. The prefix is the first `len` bits, 0 to 32, of `addr`. The
 * address is in the machine's own byte order: for example, 10.0.0.0 is 0x0a000000. A row of kind
 * TUHVONDI_VIA has a `port` and a `session`. In rows of other kinds they are not read, and in answers they
 * are 0. In an answer of kind TUHVONDI_NO_ROW all other fields are 0. */
struct tuhvondi_row {
    uint32_t addr;
    uint8_t len;
    uint8_t kind;
    uint8_t port;
    uint16_t session;
};

TUHVONDI_ASSERT(sizeof(struct tuhvondi_row) == 12, "a row takes 12 bytes");
TUHVONDI_ASSERT(offsetof(struct tuhvondi_row, session) == 8, "a row's session stands at byte 8");

/* A prefix: the first `len` bits, 0 to 32, of `addr`, with no bit set after them.
 * It is also a cursor through rows. A cursor begins as TUHVONDI_FIRST_PREFIX, or as the prefix from which on
 * you want rows. If its `len` is TUHVONDI_NO_PREFIX, it stands at the end, after all rows. */
struct tuhvondi_prefix {
    uint32_t addr;
    uint8_t len;
};

TUHVONDI_ASSERT(sizeof(struct tuhvondi_prefix) == 8, "a prefix takes 8 bytes");

/* 0.0.0.0/0, which comes first in the order of prefixes. */
#define TUHVONDI_FIRST_PREFIX {0, 0}

/* The length of the cursor at the end. */
#define TUHVONDI_NO_PREFIX 33

/* A handle, which holds an image or none. */
struct tuhvondi_image {
    void *image_;
    bool holds_;
};

TUHVONDI_ASSERT(sizeof(struct tuhvondi_image) == 16, "a handle takes 16 bytes");
TUHVONDI_ASSERT(offsetof(struct tuhvondi_image, holds_) == 8, "a handle's flag stands at byte 8");

/* What a handle begins with: it holds no image. */
#define TUHVONDI_NO_IMAGE {NULL, false}

/* Makes an image of generation 0 of the rows, set in order. If several rows have one prefix, the last stays.
 * Puts the image into the handle, and lets go of the one that the handle held.
 * Refused: TUHVONDI_BAD_LENGTH, TUHVONDI_HOST_BITS, TUHVONDI_BAD_KIND, TUHVONDI_NO_MEMORY. */
uint32_t tuhvondi_image_new(const struct tuhvondi_row *rows, size_t row_count,
                            struct tuhvondi_image *image);

/* Sets rows in place over those of the image, in order, and sets its generation. If it is refused, it changes
 * nothing. Its time grows with the number of rows that you give, and not with the number that are there, with
 * two exceptions. A row of at most 19 bits is written for each part of the image's array that it covers: a
 * default route takes a millisecond in a large image. And an image that has outgrown its array is made anew
 * from its rows, which are listed and set again. The longest such call was measured at a quarter of a million
 * rows: 0.07 seconds for rows of 24 bits, and 0.25 for rows of 32 bits. If you have many rows at once, give
 * them to tuhvondi_image_new, which takes a quarter to a half of that time.
 * Refused: as tuhvondi_image_new, TUHVONDI_NO_IMAGE_HELD, and TUHVONDI_SHARED while other handles hold
 * the image. */
uint32_t tuhvondi_image_apply(struct tuhvondi_image *image, uint64_t generation,
                              const struct tuhvondi_row *rows, size_t row_count);

/* Takes the rows of the prefixes out of the image, if it has them, and sets its generation. If such a row
 * answered an address, the row with the next shorter prefix then answers it. The call takes no memory, and
 * room that only those rows needed serves later ones.
 * Refused: TUHVONDI_BAD_LENGTH, TUHVONDI_HOST_BITS, TUHVONDI_NO_IMAGE_HELD, and TUHVONDI_SHARED while other
 * handles hold the image. */
uint32_t tuhvondi_image_remove(struct tuhvondi_image *image, uint64_t generation,
                               const struct tuhvondi_prefix *prefixes, size_t prefix_count);

/* Puts the image of `image` into `other` too, and lets go of the image that `other` held.
 * Refused: TUHVONDI_NO_IMAGE_HELD, TUHVONDI_NO_MEMORY. */
uint32_t tuhvondi_image_share(struct tuhvondi_image *image, struct tuhvondi_image *other);

/* Puts a copy of the image, with the same rows and generation, into `other`, and lets go of the image that
 * `other` held. Its time and memory grow with the number of rows, but you can then change one of the two
 * images while others read the other one.
 * Refused: TUHVONDI_NO_IMAGE_HELD, TUHVONDI_NO_MEMORY. */
uint32_t tuhvondi_image_copy(struct tuhvondi_image *image, struct tuhvondi_image *other);

/* Writes into answers[i] the row with the longest prefix that covers addrs[i]. If no row covers it, the kind
 * is TUHVONDI_NO_ROW. No memory is taken.
 * Refused, and then nothing is written: TUHVONDI_NO_IMAGE_HELD, and TUHVONDI_BAD_COUNT if there are not as
 * many answers as addresses. */
uint32_t tuhvondi_image_lookup(struct tuhvondi_image *image,
                               const uint32_t *addrs, size_t addr_count,
                               struct tuhvondi_row *answers, size_t answer_count);

/* Writes rows of the image from the cursor on, as many as there is room for, and how many they are. They are
 * in the order of their prefixes, by address and then by length. It takes no memory.
 * The cursor then stands at the next row. So go on with the same cursor until a call writes fewer than
 * row_count: then you have all rows. If you want the rows below a prefix, begin there, and stop at the
 * first row that the prefix does not cover.
 * Refused, and then nothing is written: TUHVONDI_BAD_LENGTH, TUHVONDI_HOST_BITS, TUHVONDI_NO_IMAGE_HELD. */
uint32_t tuhvondi_image_rows(struct tuhvondi_image *image, struct tuhvondi_prefix *from,
                             struct tuhvondi_row *rows, size_t row_count, size_t *written);

/* Writes how many rows the image has, for which it goes through all of them.
 * Refused, and then nothing is written: TUHVONDI_NO_IMAGE_HELD. */
uint32_t tuhvondi_image_row_count(struct tuhvondi_image *image, size_t *count);

/* Writes how many bytes the image takes, with the room that is set aside for more rows.
 * Refused, and then nothing is written: TUHVONDI_NO_IMAGE_HELD. */
uint32_t tuhvondi_image_bytes(struct tuhvondi_image *image, size_t *bytes);

/* Writes the generation of the image.
 * Refused, and then nothing is written: TUHVONDI_NO_IMAGE_HELD. */
uint32_t tuhvondi_image_generation(struct tuhvondi_image *image, uint64_t *generation);

/* Lets go of the image, if there is one. The handle then holds none. */
void tuhvondi_image_free(struct tuhvondi_image *image);

/* ---- rows with a word of your own
 *
 * A data plane often keeps more for a row than where packets go, for example the index of a next hop in an
 * adjacency table. So a row can have a word of 32 bits. The library never reads it, and a look-up gives it
 * back.
 *
 *     struct tuhvondi_row rows[] = {{0x0a000000, 8, TUHVONDI_VIA, 1, 4}};
 *     uint32_t indices[] = {700}, addrs[] = {0x0a010203}, found[1];
 *     tuhvondi_image_new_words(rows, 1, indices, 1, &image);
 *     tuhvondi_image_lookup_words(&image, addrs, 1, found, 1);      (found[0] is 700)
 *
 * examples/c/adjacency.c has more. You can mix these calls with the others. If another call sets a row, its
 * word is TUHVONDI_NO_WORD. An image takes no memory for words until a call gives it a row with a word, and
 * that call makes the image anew, in memory of its own, in the time of listing all rows and setting them. An
 * image with words has at most 16,777,214 rows, and takes 8 to 32 bytes more for each. */

/* The word of a row that another call set. A look-up answers it, too, if no row covers the address. */
#define TUHVONDI_NO_WORD UINT32_MAX

/* As tuhvondi_image_new, and words[i] is the word of rows[i].
 * Refused, in this order: as tuhvondi_image_new for the rows; TUHVONDI_BAD_COUNT if there are not as many
 * words as rows; TUHVONDI_NO_MEMORY, also if there are more than 16,777,214 rows. */
uint32_t tuhvondi_image_new_words(const struct tuhvondi_row *rows, size_t row_count,
                                  const uint32_t *words, size_t word_count,
                                  struct tuhvondi_image *image);

/* As tuhvondi_image_apply, and words[i] is the word of rows[i]. From time to time such a call makes the image
 * anew from its rows, because rows that are set again or taken out leave room behind.
 * Refused, in this order: as tuhvondi_image_apply for the rows; TUHVONDI_BAD_COUNT if there are not as many
 * words as rows; TUHVONDI_NO_IMAGE_HELD; TUHVONDI_SHARED while other handles hold the image;
 * TUHVONDI_NO_MEMORY, also if these rows and those of the image are more than 16,777,214. */
uint32_t tuhvondi_image_apply_words(struct tuhvondi_image *image, uint64_t generation,
                                    const struct tuhvondi_row *rows, size_t row_count,
                                    const uint32_t *words, size_t word_count);

/* Looks up as tuhvondi_image_lookup does, and writes into words[i] the word of the row that answers addrs[i],
 * and nothing else. If no row covers the address, the word is TUHVONDI_NO_WORD. It takes no memory.
 * Refused, and then nothing is written: TUHVONDI_NO_IMAGE_HELD, and TUHVONDI_BAD_COUNT if there are not as
 * many words as addresses. */
uint32_t tuhvondi_image_lookup_words(struct tuhvondi_image *image,
                                     const uint32_t *addrs, size_t addr_count,
                                     uint32_t *words, size_t word_count);

/* As tuhvondi_image_rows, and writes the word of rows[i] into words[i].
 * Refused, in this order, and then nothing is written: TUHVONDI_BAD_LENGTH, TUHVONDI_HOST_BITS;
 * TUHVONDI_BAD_COUNT if there is not room for as many words as rows; TUHVONDI_NO_IMAGE_HELD. */
uint32_t tuhvondi_image_rows_words(struct tuhvondi_image *image, struct tuhvondi_prefix *from,
                                   struct tuhvondi_row *rows, size_t row_count,
                                   uint32_t *words, size_t word_count, size_t *written);

/* ---- a table that changes while it forwards
 *
 * An image that several handles hold cannot be changed, and with a lock packets would wait. A writer therefore
 * holds two copies of an image, of which one is shown and the other is hidden, as in a double buffer.
 * The writer changes the hidden copy, and then shows that one. Readers look up in the copy that is shown,
 * each in a thread of its own. They take no lock, wait for nobody, and see only published images. */

/* A handle, which holds a writer or none. */
struct tuhvondi_writer {
    void *writer_;
    bool holds_;
};

TUHVONDI_ASSERT(sizeof(struct tuhvondi_writer) == 16, "a handle takes 16 bytes");

/* What a handle begins with: it holds no writer. */
#define TUHVONDI_NO_WRITER {NULL, false}

/* A handle, which holds a reader or none. */
struct tuhvondi_reader {
    void *reader_;
    bool holds_;
};

TUHVONDI_ASSERT(sizeof(struct tuhvondi_reader) == 16, "a handle takes 16 bytes");

/* What a handle begins with: it holds no reader. */
#define TUHVONDI_NO_READER {NULL, false}

/* Makes a writer that holds two copies of the image, with room for so many readers, at most 1,024. The image
 * stays as it is. The writer that the handle held is freed.
 * Refused: TUHVONDI_NO_IMAGE_HELD, TUHVONDI_BAD_COUNT if reader_count is above 1,024, TUHVONDI_NO_MEMORY. */
uint32_t tuhvondi_writer_new(struct tuhvondi_image *image, size_t reader_count,
                             struct tuhvondi_writer *writer);

/* Publishes: sets rows over those of the image in order, then takes the rows of the prefixes out, and sets
 * the generation. Readers see all of it or nothing. If the call is refused, nothing was published. What is
 * tricky: each change is made twice, once in each copy. The next publication makes it in the second copy, so
 * the writer keeps rows and prefixes until then, in memory of its own.
 * Refused, in this order: TUHVONDI_BAD_LENGTH, TUHVONDI_HOST_BITS, TUHVONDI_BAD_KIND; TUHVONDI_NO_IMAGE_HELD
 * if the handle holds no writer; TUHVONDI_NO_MEMORY; TUHVONDI_SHARED while a look-up goes on that began
 * before the last publication. After TUHVONDI_SHARED, call again. */
uint32_t tuhvondi_writer_publish(struct tuhvondi_writer *writer, uint64_t generation,
                                 const struct tuhvondi_row *rows, size_t row_count,
                                 const struct tuhvondi_prefix *prefixes, size_t prefix_count);

/* Writes how many images the writer has published. The first is the one that it was made of. Hand the number to
 * the threads that read, so that they learn of the publication (tuhvondi_reader_learn).
 * Refused: TUHVONDI_NO_IMAGE_HELD if the handle holds no writer. */
uint32_t tuhvondi_writer_published(struct tuhvondi_writer *writer, uint64_t *published);

/* Makes a reader of the writer, puts it into the reader's handle, and frees the one that the handle held.
 * The reader may go to another thread. Each call writes the handle, so keep those of two threads 128 bytes
 * apart.
 * Refused: TUHVONDI_NO_IMAGE_HELD if the handle holds no writer, TUHVONDI_BAD_COUNT if handles hold all
 * readers, TUHVONDI_NO_MEMORY. */
uint32_t tuhvondi_writer_reader(struct tuhvondi_writer *writer, struct tuhvondi_reader *reader);

/* Looks up as tuhvondi_image_lookup does, and writes the generation of the image that answered. That image
 * was published. No earlier call by this reader saw a later one. It takes no memory.
 * Refused, and then nothing is written: TUHVONDI_NO_IMAGE_HELD if the handle holds no reader;
 * TUHVONDI_BAD_COUNT if there are not as many answers as addresses; TUHVONDI_SHARED if the writer published
 * a thousand times during the call. */
uint32_t tuhvondi_reader_lookup(struct tuhvondi_reader *reader,
                                const uint32_t *addrs, size_t addr_count,
                                struct tuhvondi_row *answers, size_t answer_count,
                                uint64_t *generation);

/* Has the reader learn that so many images were published. From now on it never answers by an image that is older
 * than the last of these. For example, a withdrawn route is published, and tuhvondi_writer_published writes 7.
 * Another thread is told 7, and its reader learns 7: no packet of that thread takes the old route any more.
 * Refused: TUHVONDI_NO_IMAGE_HELD if the handle holds no reader; TUHVONDI_BAD_COUNT if fewer were published;
 * TUHVONDI_SHARED if the writer published a thousand times during the call. */
uint32_t tuhvondi_reader_learn(struct tuhvondi_reader *reader, uint64_t published);

/* As tuhvondi_writer_publish, and words[i] is the word of rows[i] (see above, rows with a word of your own).
 * Refused, in this order: TUHVONDI_BAD_LENGTH, TUHVONDI_HOST_BITS, TUHVONDI_BAD_KIND for the rows;
 * TUHVONDI_BAD_COUNT if there are not as many words as rows; and then as tuhvondi_writer_publish for the
 * prefixes and the rest. TUHVONDI_NO_MEMORY, also if these rows and those of the image are more than
 * 16,777,214. */
uint32_t tuhvondi_writer_publish_words(struct tuhvondi_writer *writer, uint64_t generation,
                                       const struct tuhvondi_row *rows, size_t row_count,
                                       const uint32_t *words, size_t word_count,
                                       const struct tuhvondi_prefix *prefixes, size_t prefix_count);

/* Looks up as tuhvondi_reader_lookup does, and writes into words[i] the word of the row that answers addrs[i],
 * and nothing else. If no row covers the address, the word is TUHVONDI_NO_WORD. It takes no memory.
 * Refused, and then nothing is written: as tuhvondi_reader_lookup, with words in place of answers. */
uint32_t tuhvondi_reader_lookup_words(struct tuhvondi_reader *reader,
                                      const uint32_t *addrs, size_t addr_count,
                                      uint32_t *words, size_t word_count,
                                      uint64_t *generation);

/* Frees the reader, if there is one. You may then make another in its place. */
void tuhvondi_reader_free(struct tuhvondi_reader *reader);

/* Frees the writer, if there is one. Its readers go on with the image that it published last. */
void tuhvondi_writer_free(struct tuhvondi_writer *writer);

#ifdef __cplusplus
}
#endif

#endif
