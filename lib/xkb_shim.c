/* libxkbcommon's xkb_compose_* over composecheck: for LD_PRELOAD, or to be linked in front of libxkbcommon. C, and unproved: the reference counts,
 * and the order of an iterator's entries. Which files of the user come first and how they are read says user_table.c.
 *
 * What differs from libxkbcommon: a table with a faulty line is refused, for a reason that is printed to stderr; with COMPOSECHECK_SHIM_SKIP=1 up to ten
 * faulty lines are left out, each with a message. Where a line names no result keysym, xkb_compose_state_get_one_sym gives that of a text of
 * one character. Modifier lists are refused. A relative include is looked for beside the including file too. A path that is not UTF-8 is refused. */
#define _GNU_SOURCE
#include "user_table.h"
#include <stdlib.h>
#include <string.h>

enum { TEXT_FORMAT = 1, MOST_KEYS = COMPOSECHECK_MOST_PENDING + 1 };

/* What of libxkbcommon's own is used where it is loaded. */
struct xkb_context;
extern struct xkb_context *xkb_context_ref(struct xkb_context *context) __attribute__((weak));
extern void xkb_context_unref(struct xkb_context *context) __attribute__((weak));

struct xkb_compose_table {
    int references;
    struct xkb_context *context;
    void *table;
    size_t length;
};
struct xkb_compose_state {
    struct composecheck_state state;
    int references;
    struct xkb_compose_table *table;
    uint32_t keysym;
    uint8_t text[COMPOSECHECK_MOST_TEXT + 1];
};
struct xkb_compose_table_entry {
    uint32_t keysyms[MOST_KEYS], keysym;
    size_t count;
    char text[COMPOSECHECK_MOST_TEXT + 1];
};
/* What is pending at each depth, which of the keys that can follow comes next there, and how many depths there are. */
struct xkb_compose_table_iterator {
    struct xkb_compose_table *table;
    struct composecheck_state states[MOST_KEYS];
    uint32_t next[MOST_KEYS];
    size_t depths;
    struct xkb_compose_table_entry entry;
};

/* The twenty functions, as xkbcommon-compose.h of libxkbcommon 1.6 declares them. */
struct xkb_compose_table *xkb_compose_table_new_from_locale(struct xkb_context *context, const char *locale, int flags);
struct xkb_compose_table *xkb_compose_table_new_from_file(struct xkb_context *context, FILE *file, const char *locale, int format, int flags);
struct xkb_compose_table *xkb_compose_table_new_from_buffer(struct xkb_context *context, const char *buffer, size_t length, const char *locale,
                                                            int format, int flags);
struct xkb_compose_table *xkb_compose_table_ref(struct xkb_compose_table *table);
void xkb_compose_table_unref(struct xkb_compose_table *table);
struct xkb_compose_state *xkb_compose_state_new(struct xkb_compose_table *table, int flags);
struct xkb_compose_state *xkb_compose_state_ref(struct xkb_compose_state *state);
void xkb_compose_state_unref(struct xkb_compose_state *state);
struct xkb_compose_table *xkb_compose_state_get_compose_table(struct xkb_compose_state *state);
int xkb_compose_state_feed(struct xkb_compose_state *state, uint32_t keysym);
void xkb_compose_state_reset(struct xkb_compose_state *state);
int xkb_compose_state_get_status(struct xkb_compose_state *state);
int xkb_compose_state_get_utf8(struct xkb_compose_state *state, char *buffer, size_t size);
uint32_t xkb_compose_state_get_one_sym(struct xkb_compose_state *state);
struct xkb_compose_table_iterator *xkb_compose_table_iterator_new(struct xkb_compose_table *table);
void xkb_compose_table_iterator_free(struct xkb_compose_table_iterator *iterator);
struct xkb_compose_table_entry *xkb_compose_table_iterator_next(struct xkb_compose_table_iterator *iterator);
const uint32_t *xkb_compose_table_entry_sequence(struct xkb_compose_table_entry *entry, size_t *count);
uint32_t xkb_compose_table_entry_keysym(struct xkb_compose_table_entry *entry);
const char *xkb_compose_table_entry_utf8(struct xkb_compose_table_entry *entry);

/* ---- tables */

static void report(void *context, const struct composecheck_message *message)
{
    (void) context;
    fprintf(stderr, "composecheck: %s%s\n", message->text, message->is_left_out ? "; the line is left out" : "");
}

/* Whether the variable is 1. */
static bool is_on(const char *name)
{
    const char *given = secure_getenv(name);
    return given && strcmp(given, "1") == 0;
}

/* Faulty lines are left out with COMPOSECHECK_SHIM_SKIP=1, and the table of a locale is cached with COMPOSECHECK_SHIM_CACHE=1. */
static struct composecheck_options options(void)
{
    return (struct composecheck_options) { .is_strict = !is_on("COMPOSECHECK_SHIM_SKIP"), .is_cached = is_on("COMPOSECHECK_SHIM_CACHE") };
}

static struct xkb_compose_table *kept(struct xkb_context *context, void *table, size_t length)
{
    struct xkb_compose_table *made = table ? calloc(1, sizeof *made) : NULL;
    if (!made) {
        composecheck_table_free(table);
        return NULL;
    }
    made->references = 1;
    made->context = xkb_context_ref ? xkb_context_ref(context) : context;
    made->table = table;
    made->length = length;
    return made;
}

struct xkb_compose_table *xkb_compose_table_new_from_buffer(struct xkb_context *context, const char *buffer, size_t length, const char *locale,
                                                            int format, int flags)
{
    struct composecheck_options given = options();
    size_t size;
    if (flags || format != TEXT_FORMAT)
        return NULL;
    void *table = composecheck_table_of_root(length ? buffer : "", length, "(input string)", locale, &given, report, &size);
    return kept(context, table, size);
}

struct xkb_compose_table *xkb_compose_table_new_from_file(struct xkb_context *context, FILE *file, const char *locale, int format, int flags)
{
    struct composecheck_options given = options();
    size_t length, size = 0;
    char *bytes = flags || format != TEXT_FORMAT ? NULL : composecheck_read_all(file, &length);
    void *table = bytes ? composecheck_table_of_root(bytes, length, "(unknown file)", locale, &given, report, &size) : NULL;
    free(bytes);
    return kept(context, table, size);
}

struct xkb_compose_table *xkb_compose_table_new_from_locale(struct xkb_context *context, const char *locale, int flags)
{
    struct composecheck_options given = options();
    size_t size;
    void *table = flags ? NULL : composecheck_table_from_locale(locale, &given, report, &size);
    return table ? kept(context, table, size) : NULL;
}

struct xkb_compose_table *xkb_compose_table_ref(struct xkb_compose_table *table)
{
    table->references++;
    return table;
}

void xkb_compose_table_unref(struct xkb_compose_table *table)
{
    if (!table || --table->references > 0)
        return;
    composecheck_table_free(table->table);
    if (xkb_context_unref)
        xkb_context_unref(table->context);
    free(table);
}

/* ---- states */

struct xkb_compose_state *xkb_compose_state_new(struct xkb_compose_table *table, int flags)
{
    struct xkb_compose_state *state = flags ? NULL : calloc(1, sizeof *state);
    if (state) {
        state->references = 1;
        state->table = xkb_compose_table_ref(table);
    }
    return state;
}

struct xkb_compose_state *xkb_compose_state_ref(struct xkb_compose_state *state)
{
    state->references++;
    return state;
}

void xkb_compose_state_unref(struct xkb_compose_state *state)
{
    if (!state || --state->references > 0)
        return;
    xkb_compose_table_unref(state->table);
    free(state);
}

struct xkb_compose_table *xkb_compose_state_get_compose_table(struct xkb_compose_state *state)
{
    return state->table;
}

/* What is pending, for the result keysym of the sequence that the next key completes. */
static struct composecheck_state pending_of(const struct composecheck_state *state)
{
    struct composecheck_state pending = { 0 };
    pending.count = composecheck_pending(state, pending.pending);
    return pending;
}

/* Feeds what no sequence has: a number above the greatest keysym. */
static void cancel(struct composecheck_state *state)
{
    bool was_composing = composecheck_status(state) == COMPOSECHECK_COMPOSING;
    composecheck_reset(state);
    state->status = was_composing ? COMPOSECHECK_CANCELLED : COMPOSECHECK_NOTHING;
}

int xkb_compose_state_feed(struct xkb_compose_state *state, uint32_t keysym)
{
    uint32_t length = 0;
    uint8_t text[COMPOSECHECK_MOST_TEXT];
    struct composecheck_state before = pending_of(&state->state);
    if (keysym > COMPOSECHECK_GREATEST_KEYSYM)
        cancel(&state->state);
    else if (composecheck_table_feed(state->table->table, state->table->length, &state->state, keysym, text, &length) == COMPOSECHECK_IGNORED)
        return 0;
    bool is_composed = composecheck_status(&state->state) == COMPOSECHECK_COMPOSED;
    state->keysym = is_composed ? composecheck_table_result(state->table->table, state->table->length, &before, keysym) : 0;
    memcpy(state->text, text, length);
    state->text[length] = 0;
    return 1;
}

void xkb_compose_state_reset(struct xkb_compose_state *state)
{
    composecheck_reset(&state->state);
    state->text[0] = 0;
    state->keysym = 0;
}

int xkb_compose_state_get_status(struct xkb_compose_state *state)
{
    return (int) composecheck_status(&state->state);
}

int xkb_compose_state_get_utf8(struct xkb_compose_state *state, char *buffer, size_t size)
{
    return snprintf(buffer, size, "%s", (const char *) state->text);
}

uint32_t xkb_compose_state_get_one_sym(struct xkb_compose_state *state)
{
    return state->keysym;
}

/* ---- iterators: the sequences of a table, in rising order of their keysyms */

struct xkb_compose_table_iterator *xkb_compose_table_iterator_new(struct xkb_compose_table *table)
{
    struct xkb_compose_table_iterator *iterator = calloc(1, sizeof *iterator);
    if (iterator) {
        iterator->table = xkb_compose_table_ref(table);
        iterator->depths = 1;
    }
    return iterator;
}

void xkb_compose_table_iterator_free(struct xkb_compose_table_iterator *iterator)
{
    if (iterator)
        xkb_compose_table_unref(iterator->table);
    free(iterator);
}

/* Goes on to the keys that can follow one more, which is the last of the entry. */
static void descend(struct xkb_compose_table_iterator *iterator, uint32_t keysym)
{
    struct composecheck_state *state = &iterator->states[iterator->depths];
    uint8_t text[COMPOSECHECK_MOST_TEXT];
    uint32_t length;
    *state = iterator->states[iterator->depths - 1];
    composecheck_table_feed(iterator->table->table, iterator->table->length, state, keysym, text, &length);
    iterator->next[iterator->depths++] = 0;
}

struct xkb_compose_table_entry *xkb_compose_table_iterator_next(struct xkb_compose_table_iterator *iterator)
{
    const void *table = iterator->table->table;
    size_t size = iterator->table->length;
    struct xkb_compose_table_entry *entry = &iterator->entry;
    while (iterator->depths > 0) {
        size_t depth = iterator->depths - 1;
        uint32_t *keysym = &entry->keysyms[depth], status, length;
        const struct composecheck_state *state = &iterator->states[depth];
        if (!composecheck_table_following(table, size, state, iterator->next[depth]++, keysym, &status, (uint8_t *) entry->text, &length)) {
            iterator->depths--;
        } else if (status == COMPOSECHECK_COMPOSING) {
            descend(iterator, *keysym);
        } else {
            entry->count = iterator->depths;
            entry->text[length] = 0;
            entry->keysym = composecheck_table_result(table, size, state, *keysym);
            return entry;
        }
    }
    return NULL;
}

const uint32_t *xkb_compose_table_entry_sequence(struct xkb_compose_table_entry *entry, size_t *count)
{
    *count = entry->count;
    return entry->keysyms;
}

uint32_t xkb_compose_table_entry_keysym(struct xkb_compose_table_entry *entry)
{
    return entry->keysym;
}

const char *xkb_compose_table_entry_utf8(struct xkb_compose_table_entry *entry)
{
    return entry->text;
}
