#include "config.h"

#include "frames.h"
#include "log.h"

#include <errno.h>
#include <string.h>

enum { MOST_WORDS = 16, LINE_SIZE = 1024, MOST_COMPLAINTS = 20, NO_BOUND = 33, ACTIVE_DEADS = 10 };

/* Who waits himself says so once a second. */
enum { LEAST_ACTIVE_MS = 2000 };

/* ---- what each keyword takes: what is wrong with its words; NULL: nothing */

static const char *take_router_id(struct config *config, size_t count, char **words)
{
    (void)count;
    if (!read_address(words[0], &config->router_id) || !config->router_id.s_addr)
        return "a router id has the form of an address, as 10.255.0.1";
    return NULL;
}

static const char *take_listen(struct config *config, size_t count, char **words)
{
    (void)count;
    return read_address(words[0], &config->listen) ? NULL : "an address is expected, as 10.0.0.1";
}

static const char *take_control(struct config *config, size_t count, char **words)
{
    (void)count;
    if (strlen(words[0]) >= sizeof config->control)
        return "the path of a socket has at most 107 bytes";
    strcpy(config->control, words[0]);
    return NULL;
}

static const char *take_state(struct config *config, size_t count, char **words)
{
    (void)count;
    if (strlen(words[0]) >= sizeof config->state)
        return "the path of a file has at most 255 bytes";
    strcpy(config->state, words[0]);
    return NULL;
}

static bool copy_name(const char *word, char name[NAME_SIZE])
{
    size_t size = strlen(word);
    if (size >= NAME_SIZE)
        return false;
    memcpy(name, word, size + 1);
    return true;
}

enum option { PASSIVE, TTL_SECURITY, MOST, SECRET, SECRET_FILE, PREFIXES, WARN, LIST, NO_OPTION };

static enum option option_of(const char *word)
{
    static const char *const NAMES[] = {"passive",     "ttl-security",  "most",          "secret",
                                        "secret-file", "most-prefixes", "warn-prefixes", "list"};
    unsigned option = 0;
    while (option < NO_OPTION && strcmp(word, NAMES[option]) != 0)
        option++;
    return option;
}

/* Takes an option, and the word behind it where it has one: what is wrong; NULL: nothing. */
static const char *take_option(struct neighbour *to, uint32_t *most, enum option option, const char *value)
{
    switch (option) {
    case PASSIVE:
        to->passive = true;
        return NULL;
    case TTL_SECURITY:
        to->ttl_security = true;
        return NULL;
    case MOST:
        return read_number(value, 1, TUHVONDI_PORTS, most) ? NULL : "most is a number from 1 to 32";
    case SECRET:
        if (strlen(value) >= SECRET_SIZE)
            return "a secret has at most 80 bytes";
        strcpy(to->secret, value);
        return NULL;
    case SECRET_FILE:
        if (strlen(value) >= sizeof to->secret_file)
            return "the path of a file has at most 255 bytes";
        strcpy(to->secret_file, value);
        return NULL;
    case PREFIXES:
        return read_number(value, 1, MOST_PREFIXES, &to->most_prefixes) ? NULL : "most-prefixes is a number from 1 to 1000000";
    case WARN:
        return read_number(value, 1, MOST_PREFIXES, &to->warn_prefixes) ? NULL : "warn-prefixes is a number from 1 to 1000000";
    default:
        return copy_name(value, to->list) ? NULL : "the name of a list has at most 31 bytes";
    }
}

/* Takes the cost and the options behind it, each once. Who is sought (`most`) is not told to be passive. */
static const char *take_link(struct neighbour *to, uint32_t *most, size_t count, char **words)
{
    const char *wrong = NULL;
    unsigned seen = 0;
    if (!read_number(words[0], 1, 65535, &to->cost))
        return "a cost is a number from 1 to 65535";
    for (size_t at = 1; at < count && !wrong; at++) {
        enum option option = option_of(words[at]);
        bool has_value = option >= MOST;
        if (option == NO_OPTION || option == (most ? PASSIVE : MOST) || (has_value && at + 1 == count))
            return most ? "an option is most N, ttl-security, secret TEXT, secret-file PATH, most-prefixes N, warn-prefixes N or list NAME"
                        : "an option is passive, ttl-security, secret TEXT, secret-file PATH, most-prefixes N, warn-prefixes N or list NAME";
        if (seen >> option & 1)
            return "an option stands twice";
        seen |= 1U << option;
        at += has_value;
        wrong = take_option(to, most, option, words[at]);
    }
    return !wrong && to->secret[0] && to->secret_file[0] ? "a neighbour has one secret, in its line or in a file" : wrong;
}

const char *config_take_secret(struct neighbour *neighbour, const char *text)
{
    size_t size = strcspn(text, "\r\n");
    if (size == 0 || size >= SECRET_SIZE || memchr(text, ' ', size) || memchr(text, '\t', size))
        return "the first line of the file is a secret of at most 80 bytes, without spaces";
    memcpy(neighbour->secret, text, size);
    neighbour->secret[size] = '\0';
    return NULL;
}

static const char *add_neighbours(struct config *config, const struct neighbour *neighbour, uint32_t count)
{
    if (config->neighbour_count + count > TUHVONDI_PORTS)
        return "there are at most 32 neighbours";
    for (; count > 0; count--)
        config->neighbours[config->neighbour_count++] = *neighbour;
    config->has_secret |= neighbour->secret[0] != '\0';
    return NULL;
}

const char *config_neighbour(struct config *config, size_t count, char **words)
{
    struct neighbour found = {0};
    if (count < 2)
        return "expected: neighbour ADDRESS COST, and options";
    if (!read_address(words[0], &found.address) || !found.address.s_addr)
        return "a neighbour has an address, as 10.0.0.2";
    const char *wrong = take_link(&found, NULL, count - 1, words + 1);
    for (size_t i = 0; i < config->neighbour_count && !wrong; i++)
        if (config->neighbours[i].address.s_addr == found.address.s_addr)
            wrong = "the neighbour stands twice";
    return wrong ? wrong : add_neighbours(config, &found, 1);
}

/* Each neighbour that may be found is one of the configuration, and has its port from the beginning. */
static const char *take_discover(struct config *config, size_t count, char **words)
{
    struct neighbour sought = {0};
    uint32_t most = 1;
    if (strlen(words[0]) >= sizeof sought.interface)
        return "the name of an interface has at most 15 bytes";
    strcpy(sought.interface, words[0]);
    const char *wrong = take_link(&sought, &most, count - 1, words + 1);
    for (size_t i = 0; i < config->neighbour_count && !wrong; i++)
        if (strcmp(config->neighbours[i].interface, sought.interface) == 0)
            wrong = "the interface stands twice";
    return wrong ? wrong : add_neighbours(config, &sought, most);
}

const char *config_attachment(size_t count, char **words, struct tuhvondi_attachment *attachment)
{
    struct tuhvondi_prefix prefix;
    uint32_t cost;
    if (count != 2)
        return "expected: attach PREFIX COST";
    const char *wrong = read_prefix(words[0], &prefix);
    if (!wrong && !read_number(words[1], 1, 65535, &cost))
        wrong = "a cost is a number from 1 to 65535";
    if (!wrong)
        *attachment = (struct tuhvondi_attachment){.addr = prefix.addr, .len = prefix.len, .cost = cost};
    return wrong;
}

static const char *take_connected(struct config *config, const char *interface, const char *cost)
{
    struct connected found = {0};
    if (strlen(interface) >= sizeof found.interface)
        return "the name of an interface has at most 15 bytes";
    strcpy(found.interface, interface);
    if (!read_number(cost, 1, 65535, &found.cost))
        return "a cost is a number from 1 to 65535";
    for (size_t i = 0; i < config->connected_count; i++)
        if (strcmp(config->connected[i].interface, interface) == 0)
            return "the interface stands twice";
    if (config->connected_count == MOST_CONNECTED)
        return "there are at most 64 interfaces whose subnets are attached";
    config->connected[config->connected_count++] = found;
    return NULL;
}

static const char *take_redistributed(struct config *config, size_t count, char **words)
{
    struct redistributed found = {0};
    if (!read_number(words[0], 3, 255, &found.protocol))
        return "a protocol is a number from 3 to 255, as `ip route' shows it";
    if (!read_number(words[1], 1, 65535, &found.cost))
        return "a cost is a number from 1 to 65535";
    if (count == 4 && (strcmp(words[2], "list") != 0 || !copy_name(words[3], found.list)))
        return "expected: list NAME, of at most 31 bytes";
    for (size_t i = 0; i < config->redistributed_count; i++)
        if (config->redistributed[i].protocol == found.protocol)
            return "the protocol stands twice";
    if (config->redistributed_count == MOST_CONNECTED)
        return "there are at most 64 protocols whose routes are attached";
    config->redistributed[config->redistributed_count++] = found;
    return NULL;
}

static const char *take_attach(struct config *config, size_t count, char **words)
{
    struct tuhvondi_attachment found;
    if (count == 3 && strcmp(words[0], "connected") == 0)
        return take_connected(config, words[1], words[2]);
    if ((count == 3 || count == 5) && strcmp(words[0], "protocol") == 0)
        return take_redistributed(config, count - 1, words + 1);
    if (count != 2)
        return "expected: attach PREFIX COST, attach connected INTERFACE COST, or attach protocol NUMBER COST, and list NAME";
    const char *wrong = config_attachment(count, words, &found);
    for (size_t i = 0; i < config->attachment_count && !wrong; i++)
        if (config->attachments[i].addr == found.addr && config->attachments[i].len == found.len)
            wrong = "the prefix stands twice";
    if (!wrong && config->attachment_count == MOST_ATTACHMENTS)
        wrong = "there are at most 4096 lines of attachments";
    if (!wrong)
        config->attachments[config->attachment_count++] = found;
    return wrong;
}

static const char *take_source(struct config *config, size_t count, char **words)
{
    (void)count;
    return read_address(words[0], &config->source) && config->source.s_addr ? NULL : "an address is expected, as 10.0.0.1";
}

static const char *take_answer(const char *word, bool *is_yes)
{
    *is_yes = strcmp(word, "yes") == 0;
    return *is_yes || strcmp(word, "no") == 0 ? NULL : "yes or no is expected";
}

static const char *take_stub(struct config *config, size_t count, char **words)
{
    (void)count;
    return take_answer(words[0], &config->stub);
}

static const char *take_install(struct config *config, size_t count, char **words)
{
    (void)count;
    return take_answer(words[0], &config->installs);
}

/* 255 is the table of local addresses, and 0 is none. */
static const char *take_table(struct config *config, size_t count, char **words)
{
    (void)count;
    bool fits = read_number(words[0], 1, UINT32_MAX, &config->table) && config->table != 255;
    return fits ? NULL : "a table is a number from 1 to 4294967295, but not 255";
}

static const char *take_metric(struct config *config, size_t count, char **words)
{
    (void)count;
    bool fits = read_number(words[0], 1, UINT32_MAX - 1, &config->metric);
    return fits ? NULL : "a metric is a number from 1 to 4294967294";
}

/* Numbers to 4 are the kernel's and the administrator's. */
static const char *take_protocol(struct config *config, size_t count, char **words)
{
    (void)count;
    return read_number(words[0], 5, 255, &config->protocol) ? NULL : "a protocol is a number from 5 to 255";
}

static const char *take_alive(struct config *config, size_t count, char **words)
{
    (void)count;
    return read_number(words[0], 10, 60000, &config->alive_ms) ? NULL : "milliseconds are expected, 10 to 60000";
}

static const char *take_dead(struct config *config, size_t count, char **words)
{
    (void)count;
    return read_number(words[0], LEAST_DEAD_MS, MOST_DEAD_MS, &config->dead_ms)
               ? NULL : "milliseconds are expected, 30 to 600000";
}

static const char *take_active(struct config *config, size_t count, char **words)
{
    (void)count;
    return read_number(words[0], LEAST_ACTIVE_MS, 6000000, &config->active_ms)
               ? NULL : "milliseconds are expected, 2000 to 6000000";
}

static const char *take_prefixes(struct config *config, size_t count, char **words)
{
    (void)count;
    bool fits = read_number(words[0], 1, MOST_PREFIXES, &config->prefixes);
    return fits ? NULL : "the prefixes of all neighbours are a number from 1 to 1000000";
}

static const char *take_log(struct config *config, size_t count, char **words)
{
    config->to_syslog = strcmp(words[0], "syslog") == 0;
    if (count == 2)
        config->log_level = log_level(words[1]);
    bool fits = (config->to_syslog || strcmp(words[0], "stderr") == 0) && config->log_level >= 0;
    return fits ? NULL : "expected: stderr or syslog, and then error, warning, notice, info or debug";
}

static const char *take_metrics(struct config *config, size_t count, char **words)
{
    (void)count;
    if (!read_address(words[0], &config->metrics_address))
        return "an address is expected, as 127.0.0.1";
    return read_number(words[1], 1, 65535, &config->metrics_port) ? NULL : "a port is a number from 1 to 65535";
}

static const char *take_list_line(struct config *config, size_t count, char **words, bool accepts)
{
    struct list_line line = {.accepts = accepts};
    uint32_t least = NO_BOUND, most = NO_BOUND;
    if (!copy_name(words[0], line.name))
        return "the name of a list has at most 31 bytes";
    const char *wrong = read_prefix(words[1], &line.prefix);
    for (size_t i = 2; i < count && !wrong; i += 2) {
        uint32_t *bound = strcmp(words[i], "le") == 0 ? &most : strcmp(words[i], "ge") == 0 ? &least : NULL;
        if (!bound || *bound != NO_BOUND || i + 1 == count || !read_number(words[i + 1], line.prefix.len, 32, bound))
            wrong = "expected: le N and ge N, each no less than the prefix's length, and at most 32";
    }
    if (!wrong && least != NO_BOUND && least > most)
        wrong = "no length is within these bounds";
    if (!wrong && config->line_count == MOST_LIST_LINES)
        wrong = "there are at most 1024 lines of prefix lists";
    if (wrong)
        return wrong;
    line.most = (uint8_t)(most != NO_BOUND ? most : least != NO_BOUND ? 32 : line.prefix.len);
    line.least = (uint8_t)(least != NO_BOUND ? least : line.prefix.len);
    config->lines[config->line_count++] = line;
    return NULL;
}

static const char *take_accept(struct config *config, size_t count, char **words)
{
    return take_list_line(config, count, words, true);
}

static const char *take_deny(struct config *config, size_t count, char **words)
{
    return take_list_line(config, count, words, false);
}

/* ---- lines */

static const struct keyword {
    const char *name;
    const char *(*take)(struct config *config, size_t count, char **words);
    size_t least, most; /* words after it */
    bool once;
    const char *form;
} KEYWORDS[] = {
    {"router-id", take_router_id, 1, 1, true, "router-id ADDRESS"},
    {"listen", take_listen, 1, 1, true, "listen ADDRESS"},
    {"control", take_control, 1, 1, true, "control PATH"},
    {"state", take_state, 1, 1, true, "state PATH"},
    {"neighbour", config_neighbour, 2, MOST_WORDS - 1, false, "neighbour ADDRESS COST, and options"},
    {"neighbor", config_neighbour, 2, MOST_WORDS - 1, false, "neighbor ADDRESS COST, and options"},
    {"discover", take_discover, 2, MOST_WORDS - 1, false, "discover INTERFACE COST, and options"},
    {"attach", take_attach, 2, 5, false, "attach PREFIX COST, attach connected INTERFACE COST, or attach protocol NUMBER COST"},
    {"stub", take_stub, 1, 1, true, "stub yes|no"},
    {"install", take_install, 1, 1, true, "install yes|no"},
    {"table", take_table, 1, 1, true, "table NUMBER"},
    {"metric", take_metric, 1, 1, true, "metric NUMBER"},
    {"source", take_source, 1, 1, true, "source ADDRESS"},
    {"protocol", take_protocol, 1, 1, true, "protocol NUMBER"},
    {"alive", take_alive, 1, 1, true, "alive MILLISECONDS"},
    {"dead", take_dead, 1, 1, true, "dead MILLISECONDS"},
    {"active", take_active, 1, 1, true, "active MILLISECONDS"},
    {"prefixes", take_prefixes, 1, 1, true, "prefixes NUMBER"},
    {"log", take_log, 1, 2, true, "log stderr|syslog, and a level"},
    {"metrics", take_metrics, 2, 2, true, "metrics ADDRESS PORT"},
    {"accept", take_accept, 2, 6, false, "accept NAME PREFIX, and le N, ge N"},
    {"deny", take_deny, 2, 6, false, "deny NAME PREFIX, and le N, ge N"},
};

enum { KEYWORD_COUNT = sizeof KEYWORDS / sizeof *KEYWORDS };

/* Where something is wrong, and how much was. */
struct reading {
    const char *name;
    unsigned line, faults;
    complain *complain;
    void *whom;
};

static void fault(struct reading *at, const char *word, const char *what)
{
    char text[LINE_SIZE];
    at->faults++;
    if (at->faults > MOST_COMPLAINTS)
        return;
    if (at->line > 0)
        snprintf(text, sizeof text, "%s:%u: %s%s%s", at->name, at->line, word, *word ? ": " : "", what);
    else
        snprintf(text, sizeof text, "%s: %s", at->name, what);
    at->complain(at->whom, text);
}

static void obey(struct reading *at, struct config *config, char *line)
{
    char *words[MOST_WORDS], text[128];
    size_t count = split_words(line, words, MOST_WORDS), number = 0;
    if (count == 0)
        return;
    while (number < KEYWORD_COUNT && strcmp(words[0], KEYWORDS[number].name) != 0)
        number++;
    if (number == KEYWORD_COUNT) {
        snprintf(text, sizeof text, "`%.40s' is no keyword (dualnetd.conf(5) lists them)", words[0]);
        fault(at, "", text);
        return;
    }
    const struct keyword *keyword = &KEYWORDS[number];
    const char *wrong = NULL;
    if (count - 1 < keyword->least || count - 1 > keyword->most) {
        snprintf(text, sizeof text, "expected: %s", keyword->form);
        wrong = text;
    } else if (keyword->once && (config->seen >> number & 1)) {
        wrong = "it stands twice";
    } else {
        wrong = keyword->take(config, count - 1, words + 1);
    }
    config->seen |= keyword->once ? 1U << number : 0;
    if (wrong)
        fault(at, words[0], wrong);
}

/* Reads a line, whole: false at the end. A line that is too long, or has a zero byte, is a fault, and empty. */
static bool next_line(struct reading *at, FILE *file, char line[LINE_SIZE])
{
    size_t count = 0;
    bool fits = true, is_text = true;
    int byte = getc(file);
    if (byte == EOF)
        return false;
    at->line++;
    for (; byte != EOF && byte != '\n'; byte = getc(file)) {
        is_text = is_text && byte != '\0';
        fits = fits && count < LINE_SIZE - 1;
        if (fits)
            line[count++] = (char)byte;
    }
    if (!fits || !is_text) {
        fault(at, "", fits ? "the line has a zero byte" : "a line has at most 1023 bytes");
        count = 0;
    }
    line[count] = '\0';
    return true;
}

/* What no line alone can tell. */
static void check_whole(struct reading *at, const struct config *config)
{
    at->line = 0;
    if (!config->router_id.s_addr)
        fault(at, "", "expected: a line router-id ADDRESS");
    if (!config->control[0])
        fault(at, "", "expected: a line control PATH");
    if (config->dead_ms < 2 * config->alive_ms)
        fault(at, "", "dead is to be at least twice alive, or sessions end while both ends are there");
    if (config->attachment_count > config->prefixes + OWN_PREFIXES)
        fault(at, "", "there are more attachments than the router may know prefixes");
    if (config->active_ms < 2 * config->dead_ms)
        fault(at, "", "active is to be at least twice dead, so that a silent neighbour is found silent first");
    for (size_t i = 0; i < config->redistributed_count; i++) {
        if (!config_has_list(config, config->redistributed[i].list))
            fault(at, "", "a line `attach protocol' names a list of which there is no line");
        if (config->redistributed[i].protocol == config->protocol)
            fault(at, "", "a line `attach protocol' names the daemon's own protocol");
    }
    for (size_t i = 0; i < config->neighbour_count; i++) {
        const struct neighbour *one = &config->neighbours[i];
        char text[NAME_SIZE + 64];
        snprintf(text, sizeof text, "a neighbour names the list %s, of which there is no line", one->list);
        if (!config_has_list(config, one->list))
            fault(at, "", text);
        if (one->address.s_addr && one->address.s_addr == config->listen.s_addr)
            fault(at, "", "a neighbour has the address at which this router listens");
    }
}

bool config_read(FILE *file, const char *name, struct config *config, complain *complain, void *whom)
{
    static const unsigned char MARK[] = {0xef, 0xbb, 0xbf};
    struct reading at = {.name = name, .complain = complain, .whom = whom};
    char line[LINE_SIZE];
    *config = (struct config){.log_level = LOG_INFO, .table = 254, .metric = 201, .protocol = 201,
                              .alive_ms = 100, .dead_ms = 500, .prefixes = DEFAULT_PREFIXES};
    while (next_line(&at, file, line)) {
        bool marked = at.line == 1 && memcmp(line, MARK, sizeof MARK) == 0;
        obey(&at, config, line + (marked ? sizeof MARK : 0));
    }
    if (!config->active_ms)
        config->active_ms = ACTIVE_DEADS * config->dead_ms;
    if (config->active_ms < LEAST_ACTIVE_MS)
        config->active_ms = LEAST_ACTIVE_MS;
    if (ferror(file)) {
        at.line = 0;
        fault(&at, "", strerror(errno));
    } else if (at.faults == 0) {
        check_whole(&at, config);
    }
    return at.faults == 0;
}

/* ---- prefix lists */

bool config_accepts(const struct config *config, const char *list, uint32_t addr, uint8_t len)
{
    if (!*list)
        return !is_martian(addr, len);
    for (size_t i = 0; i < config->line_count; i++) {
        const struct list_line *line = &config->lines[i];
        uint32_t mask = line->prefix.len ? UINT32_MAX << (32 - line->prefix.len) : 0;
        if (strcmp(line->name, list) == 0 && ((addr ^ line->prefix.addr) & mask) == 0 && len >= line->least
            && len <= line->most)
            return line->accepts;
    }
    return false;
}

static const struct list_line *next_of(const struct config *config, const char *list, size_t *at)
{
    while (*at < config->line_count && strcmp(config->lines[*at].name, list) != 0)
        ++*at;
    return *at < config->line_count ? &config->lines[(*at)++] : NULL;
}

bool config_has_list(const struct config *config, const char *list)
{
    size_t at = 0;
    return !*list || next_of(config, list, &at);
}

bool config_same_list(const struct config *one, const struct config *other, const char *list)
{
    size_t here = 0, there = 0;
    const struct list_line *a, *b;
    do {
        a = next_of(one, list, &here);
        b = next_of(other, list, &there);
        if (!a != !b)
            return false;
        if (a && (a->accepts != b->accepts || a->prefix.addr != b->prefix.addr || a->prefix.len != b->prefix.len
                  || a->least != b->least || a->most != b->most))
            return false;
    } while (a);
    return true;
}
