/* library TABLE KEYS ROUNDS: types a stream of keys, four bytes each, on one table by libcomposecheck and by libxkbcommon, in turns in one process.
 * Prints a figure a line, a name, a tab and a number: the nanoseconds of the quickest round of each, of keys with their status and text, of feeding
 * alone, of compiling the table into arrays that are kept, and of reading it with its result keysyms; and at how many keys the two answer
 * otherwise. Each is done three times in a row in each round. Ends with 2 where a table can't be read.
 *
 *   library ours|theirs TABLE KEYS   types the keys once by the one or the other, with status and text: for counts of instructions */
#define _GNU_SOURCE
#include "block.h"
#include <stdint.h>
#include <stdio.h>
#include <stdlib.h>
#include <string.h>
#include <time.h>
#include <xkbcommon/xkbcommon-compose.h>

static void *table;
static size_t table_size;
static struct composecheck_state state;
static struct xkb_context *context;
static struct xkb_compose_state *their_state;
static char *bytes;
static size_t length;
static uint32_t *keys;
static size_t key_count, text_bytes;

static void *read_file(const char *path, size_t *size)
{
    FILE *file = fopen(path, "rb");
    if (!file)
        exit(2);
    fseek(file, 0, SEEK_END);
    *size = (size_t) ftell(file);
    rewind(file);
    void *held = malloc(*size + 1);
    if (!held || fread(held, 1, *size, file) != *size)
        exit(2);
    fclose(file);
    return held;
}

static uint64_t now(void)
{
    struct timespec time;
    clock_gettime(CLOCK_MONOTONIC, &time);
    return (uint64_t) time.tv_sec * 1000000000u + (uint64_t) time.tv_nsec;
}

static void ours(void)
{
    for (size_t i = 0; i < key_count; i++) {
        uint8_t text[COMPOSECHECK_MOST_TEXT];
        uint32_t count;
        composecheck_table_feed(table, table_size, &state, keys[i], text, &count);
        text_bytes += count + composecheck_status(&state);
    }
}

static void theirs(void)
{
    for (size_t i = 0; i < key_count; i++) {
        char text[256];
        xkb_compose_state_feed(their_state, keys[i]);
        text_bytes += (size_t) xkb_compose_state_get_status(their_state);
        text_bytes += (size_t) xkb_compose_state_get_utf8(their_state, text, sizeof text);
    }
}

static void our_feed(void)
{
    for (size_t i = 0; i < key_count; i++) {
        uint8_t text[COMPOSECHECK_MOST_TEXT];
        uint32_t count;
        text_bytes += composecheck_table_feed(table, table_size, &state, keys[i], text, &count);
    }
}

static void their_feed(void)
{
    for (size_t i = 0; i < key_count; i++)
        text_bytes += (size_t) xkb_compose_state_feed(their_state, keys[i]);
}

/* At how many keys fed, status and text are not the same. */
static size_t differences(void)
{
    size_t wrong = 0;
    composecheck_reset(&state);
    xkb_compose_state_reset(their_state);
    for (size_t i = 0; i < key_count; i++) {
        uint8_t text[COMPOSECHECK_MOST_TEXT];
        char their_text[256];
        uint32_t count, fed = composecheck_table_feed(table, table_size, &state, keys[i], text, &count);
        bool same = fed == (uint32_t) xkb_compose_state_feed(their_state, keys[i])
                    && composecheck_status(&state) == (uint32_t) xkb_compose_state_get_status(their_state);
        /* (an ignored key leaves their text as it was) */
        if (fed == COMPOSECHECK_ACCEPTED)
            same = same && (size_t) xkb_compose_state_get_utf8(their_state, their_text, sizeof their_text) == count && !memcmp(text, their_text, count);
        wrong += !same;
    }
    return wrong;
}

static void *our_table(size_t *size)
{
    struct composecheck_source source = { "root", bytes, length };
    struct composecheck_input input = { .sources = &source, .source_count = 1, .longest = true };
    struct composecheck_fault fault;
    void *read = composecheck_table_new(&input, size, &fault);
    if (!read)
        exit(2);
    return read;
}

static struct xkb_compose_table *their_table(void)
{
    struct xkb_compose_table *read =
        xkb_compose_table_new_from_buffer(context, bytes, length, "en_US.UTF-8", XKB_COMPOSE_FORMAT_TEXT_V1, XKB_COMPOSE_COMPILE_NO_FLAGS);
    if (!read)
        exit(2);
    return read;
}

static void our_reading(void)
{
    size_t size;
    composecheck_table_free(our_table(&size));
}

/* A bundle of the one source, and a block for its table, which the caller keeps. */
static uint8_t *bundle, *kept;
static size_t bundle_length;

static void keep_arrays(void)
{
    const uint8_t head[] = { 0, 1, 0, 1, 'r', (uint8_t) (length >> 24), (uint8_t) (length >> 16), (uint8_t) (length >> 8), (uint8_t) length };
    bundle_length = sizeof head + length + 4;
    bundle = calloc(1, bundle_length);
    kept = malloc(table_size);
    if (!bundle || !kept)
        exit(2);
    memcpy(kept, table, table_size);
    memcpy(bundle, head, sizeof head);
    memcpy(bundle + sizeof head, bytes, length);
}

static void our_compiling(void)
{
    size_t header_length;
    const uint8_t *header = composecheck_builtin_names(&header_length);
    struct composecheck_sizes sizes;
    struct composecheck_fault fault;
    if (composecheck_compile(header, header_length, bundle, bundle_length, true, array_of(kept, NODES), count_of(kept, NODES), array_of(kept, EDGES),
                             count_of(kept, EDGES), array_of(kept, TEXTS), count_of(kept, TEXTS), array_of(kept, LONG_TEXTS), count_of(kept, LONG_TEXTS),
                             array_of(kept, HINTS), count_of(kept, HINTS), &sizes, &fault) != COMPOSECHECK_DONE)
        exit(2);
}

static void our_check(void)
{
    if (composecheck_table_is_table(table, table_size) != 1)
        exit(2);
}

static void our_locale(void)
{
    size_t size;
    composecheck_table_free(composecheck_table_from_locale("en_US.UTF-8", NULL, NULL, &size));
}

static void our_cached_locale(void)
{
    size_t size;
    struct composecheck_options options = { .is_cached = true };
    composecheck_table_free(composecheck_table_from_locale("en_US.UTF-8", &options, NULL, &size));
}

static void their_locale(void)
{
    xkb_compose_table_unref(xkb_compose_table_new_from_locale(context, "en_US.UTF-8", XKB_COMPOSE_COMPILE_NO_FLAGS));
}

static void their_reading(void)
{
    xkb_compose_table_unref(their_table());
}

static void begin(const char *table_path, const char *key_path)
{
    bytes = read_file(table_path, &length);
    context = xkb_context_new(XKB_CONTEXT_NO_DEFAULT_INCLUDES);
    xkb_context_set_log_level(context, XKB_LOG_LEVEL_CRITICAL);
    table = our_table(&table_size);
    keep_arrays();
    their_state = xkb_compose_state_new(their_table(), XKB_COMPOSE_STATE_NO_FLAGS);
    keys = read_file(key_path, &key_count);
    key_count /= sizeof *keys;
}

int main(int count, char **words)
{
    if (count != 4)
        return 2;
    if (!strcmp(words[1], "ours") || !strcmp(words[1], "theirs")) {
        begin(words[2], words[3]);
        (words[1][0] == 'o' ? ours : theirs)();
        return 0;
    }
    static void (*const parts[])(void) = { ours, theirs, our_feed, their_feed, our_compiling, our_reading, our_check, their_reading,
                                           our_locale, our_cached_locale, their_locale };
    static const char *const names[] = { "ours", "theirs", "our feed", "their feed", "our compiling", "our table", "our check", "their table",
                                         "our locale", "our cached locale", "their locale" };
    /* (several turns in a row: after a million keys the first one has nothing in the caches) */
    enum { PARTS = sizeof parts / sizeof *parts, TURNS = 3 };
    uint64_t least[PARTS];
    memset(least, 0xff, sizeof least);
    begin(words[1], words[2]);
    printf("differences\t%zu\n", differences());
    for (int round = atoi(words[3]); round > 0; round--)
        for (int part = 0; part < PARTS; part++) {
            for (int turn = 0; turn < TURNS; turn++) {
                uint64_t start = now();
                parts[part]();
                uint64_t taken = now() - start;
                least[part] = taken < least[part] ? taken : least[part];
            }
        }
    for (int part = 0; part < PARTS; part++)
        printf("%s\t%llu\n", names[part], (unsigned long long) least[part]);
    return text_bytes == 0;
}
