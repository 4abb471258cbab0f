#include "text.h"

#include <arpa/inet.h>
#include <stdarg.h>
#include <stdio.h>
#include <stdlib.h>
#include <string.h>

size_t split_words(char *line, char **words, size_t most)
{
    static const char GAPS[] = " \t\r\n\v\f";
    size_t count = 0;
    char *rest = NULL;
    for (char *word = strtok_r(line, GAPS, &rest); word && *word != '#'; word = strtok_r(NULL, GAPS, &rest)) {
        if (count == most)
            return most + 1;
        words[count++] = word;
    }
    return count;
}

bool read_number(const char *text, uint32_t least, uint32_t most, uint32_t *number)
{
    uint64_t found = 0;
    size_t digits = strspn(text, "0123456789");
    if (digits == 0 || digits > 10 || text[digits])
        return false;
    for (size_t i = 0; i < digits; i++)
        found = found * 10 + (uint64_t)(text[i] - '0');
    if (found < least || found > most)
        return false;
    *number = (uint32_t)found;
    return true;
}

bool read_address(const char *text, struct in_addr *address)
{
    return inet_pton(AF_INET, text, address) == 1;
}

const char *read_prefix(const char *text, struct tuhvondi_prefix *prefix)
{
    char host[INET_ADDRSTRLEN];
    struct in_addr address;
    uint32_t len;
    const char *slash = strchr(text, '/');
    if (!slash || (size_t)(slash - text) >= sizeof host)
        return "a prefix is an address, / and a length, as 10.1.0.0/16";
    memcpy(host, text, (size_t)(slash - text));
    host[slash - text] = '\0';
    if (!read_address(host, &address))
        return "a prefix is an address, / and a length, as 10.1.0.0/16";
    if (!read_number(slash + 1, 0, 32, &len))
        return "a prefix's length is 0 to 32";
    *prefix = (struct tuhvondi_prefix){ntohl(address.s_addr), (uint8_t)len};
    return len < 32 && (prefix->addr << len) != 0 ? tuhvondi_status_text(TUHVONDI_HOST_BITS) : NULL;
}

bool is_martian(uint32_t addr, uint8_t len)
{
    uint32_t first = addr >> 24;
    return (len >= 8 && (first == 0 || first == 127)) || (len >= 3 && first >= 224);
}

const char *address_text(struct in_addr address, char text[INET_ADDRSTRLEN])
{
    return inet_ntop(AF_INET, &address, text, INET_ADDRSTRLEN);
}

const char *prefix_text(uint32_t addr, uint8_t len, char text[PREFIX_TEXT])
{
    struct in_addr address = {htonl(addr)};
    char host[INET_ADDRSTRLEN];
    snprintf(text, PREFIX_TEXT, "%s/%u", address_text(address, host), (unsigned)(len % 100));
    return text;
}

static bool has_room(struct text *text, size_t more)
{
    size_t room = text->room ? text->room : 512;
    while (room < text->count + more)
        room *= 2;
    char *bytes = room == text->room ? text->bytes : realloc(text->bytes, room);
    if (!bytes)
        return false;
    text->bytes = bytes;
    text->room = room;
    return true;
}

void text_put(struct text *text, const char *format, ...)
{
    va_list words;
    va_start(words, format);
    int size = vsnprintf(NULL, 0, format, words);
    va_end(words);
    if (size < 0 || text->refused || !has_room(text, (size_t)size + 1)) {
        text->refused = true;
        text->count = 0;
        return;
    }
    va_start(words, format);
    vsnprintf(text->bytes + text->count, (size_t)size + 1, format, words);
    va_end(words);
    text->count += (size_t)size;
}

void text_put_string(struct text *text, const char *string)
{
    text_put(text, "\"");
    for (const unsigned char *at = (const unsigned char *)string; *at; at++) {
        if (*at == '"' || *at == '\\')
            text_put(text, "\\%c", *at);
        else
            text_put(text, *at < ' ' || *at > '~' ? "\\u%04x" : "%c", *at);
    }
    text_put(text, "\"");
}

void text_free(struct text *text)
{
    free(text->bytes);
    *text = (struct text){0};
}
