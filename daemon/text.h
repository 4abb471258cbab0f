/* Words, numbers, addresses and prefixes, read in full; and answers that are made in memory. */
#ifndef DUALNETD_TEXT_H
#define DUALNETD_TEXT_H

#include "tuhvondi.h"

#include <netinet/in.h>
#include <stdbool.h>
#include <stddef.h>
#include <stdint.h>

enum { PREFIX_TEXT = INET_ADDRSTRLEN + 3 };

/* Cuts a line into words at spaces, tabs and ends of lines. `#` at the begin of a word begins a comment.
 * How many words there are; most + 1: more than that. */
size_t split_words(char *line, char **words, size_t most);

/* Each is true only where the whole text is read, and nothing is left over. A number has digits alone. */
bool read_number(const char *text, uint32_t least, uint32_t most, uint32_t *number);
bool read_address(const char *text, struct in_addr *address);

/* What is wrong with the prefix; NULL: nothing. */
const char *read_prefix(const char *text, struct tuhvondi_prefix *prefix);

/* Whether no router forwards to any address of the prefix: those of this network, of the host itself, of multicast, and above. */
bool is_martian(uint32_t addr, uint8_t len);

const char *address_text(struct in_addr address, char text[INET_ADDRSTRLEN]);
const char *prefix_text(uint32_t addr, uint8_t len, char text[PREFIX_TEXT]);

/* A text that grows. After memory was refused it is empty and stays so. */
struct text {
    char *bytes;
    size_t count, room;
    bool refused;
};

void text_put(struct text *text, const char *format, ...) __attribute__((format(printf, 2, 3)));
/* Writes the text as a string of JSON, with its quotes. A byte that is no ASCII is told by its number, \u00XX. */
void text_put_string(struct text *text, const char *string);
void text_free(struct text *text);

#endif
