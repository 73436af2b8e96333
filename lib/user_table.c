/* The table of a user: which of his files it is, and which of its lines are left out. What includes lead to and the path of a locale's table come from
 * the proved library. C, and unproved. */
#define _GNU_SOURCE
#include "user_table.h"
#include "cache.h"
#include <errno.h>
#include <stdlib.h>
#include <string.h>

#ifndef XLOCALEDIR
#define XLOCALEDIR "/usr/share/X11/locale"
#endif
enum { MOST_LEFT_OUT = 10, MOST_SENTENCE = 1024 };

static const struct composecheck_options defaults;

/* ---- files */

enum outcome { UNKNOWN, FOUND, ABSENT, OUT_OF_MEMORY };

/* A table that is made: how, whom messages go to and whether there was one, the path of the locale's table, what was found before the search for its
 * files, where it is kept (or null), and its length. */
struct making {
    const struct composecheck_options *options;
    composecheck_report *report;
    bool has_message;
    enum outcome locale;
    char locale_path[MOST_PATH];
    struct composecheck_files found;
    const struct cache *cache;
    size_t length;
};

char *composecheck_read_all(FILE *file, size_t *length)
{
    size_t room = 1 << 16, got;
    char *bytes = malloc(room);
    *length = 0;
    while (bytes && (got = fread(bytes + *length, 1, room - *length, file)) > 0) {
        *length += got;
        if (*length == room) {
            char *more = realloc(bytes, room *= 2);
            if (!more)
                free(bytes);
            bytes = more;
        }
    }
    /* (a folder can be opened, but not read) */
    if (bytes && ferror(file)) {
        free(bytes);
        return NULL;
    }
    return bytes;
}

/* The bytes of the file at a path, in a block of malloc. */
static enum outcome read_file(const char *path, char **bytes, size_t *length)
{
    FILE *file = fopen(path, "rb");
    *bytes = NULL;
    *length = 0;
    if (!file)
        return errno == ENOMEM ? OUT_OF_MEMORY : ABSENT;
    *bytes = composecheck_read_all(file, length);
    enum outcome outcome = *bytes ? FOUND : ferror(file) ? ABSENT : OUT_OF_MEMORY;
    fclose(file);
    return outcome;
}

/* Notes what was found at a path. What can't be noted isn't kept. */
static void note(struct making *making, const char *path, const char *bytes, size_t length)
{
    if (making->cache && !composecheck_add_answer(&making->found, path, strlen(path), bytes, length))
        making->cache = NULL;
}

/* Puts a folder and a path in it one behind the other; false where there is no folder, or the path is longer than a path can be. */
static bool put_path(char path[MOST_PATH], const char *folder, const char *below)
{
    return folder && snprintf(path, MOST_PATH, "%s%s", folder, below) < MOST_PATH;
}

/* ---- locales */

/* The variable of the environment, if it isn't empty. A program with more rights than its user takes none. */
static const char *variable(const char *name)
{
    const char *value = secure_getenv(name);
    return value && *value ? value : NULL;
}

static const char *folder_of(const struct composecheck_options *options)
{
    const char *given = options->system ? options->system : secure_getenv("XLOCALEDIR");
    return given ? given : XLOCALEDIR;
}

/* The locale of the environment, as setlocale reads it for LC_CTYPE. */
static const char *locale_of_environment(void)
{
    static const char *const names[] = { "LC_ALL", "LC_CTYPE", "LANG" };
    for (size_t i = 0; i < sizeof names / sizeof *names; i++) {
        const char *value = variable(names[i]);
        if (value)
            return value;
    }
    return "C";
}

/* The bytes of a file in the folder of locales, none where it isn't there; null where memory is wanting. */
static char *listing(struct making *making, const char *folder, const char *below, size_t *length)
{
    char path[MOST_PATH], *bytes = NULL;
    if (!put_path(path, folder, below))
        path[0] = 0;
    enum outcome outcome = read_file(path, &bytes, length);
    if (outcome != OUT_OF_MEMORY)
        note(making, path, bytes, *length);
    if (outcome != ABSENT)
        return bytes;
    *length = 0;
    return calloc(1, 1);
}

static const uint8_t *as_bytes(const char *text)
{
    return (const uint8_t *) text;
}

/* Looks up the path of the Compose file of a locale; that of C is en_US.UTF-8's. */
static enum outcome find_locale_path(struct making *making, const char *given)
{
    const char *folder = folder_of(making->options), *locale = strcmp(given, "C") == 0 ? "en_US.UTF-8" : given;
    size_t files_length, aliases_length, length;
    char *files = listing(making, folder, "/compose.dir", &files_length);
    char *aliases = files ? listing(making, folder, "/locale.alias", &aliases_length) : NULL;
    uint32_t done = 3;
    if (aliases)
        done = composecheck_locale_file(as_bytes(folder), strlen(folder), as_bytes(files), files_length, as_bytes(aliases), aliases_length, as_bytes(locale),
                                        strlen(locale), (uint8_t *) making->locale_path, MOST_PATH - 1, &length);
    free(files);
    free(aliases);
    if (done == 1)
        making->locale_path[length] = 0;
    return done == 1 ? FOUND : done == 3 ? OUT_OF_MEMORY : ABSENT;
}

/* The outcome of the look-up, which is done once. */
static enum outcome locale_outcome(struct making *making, const char *locale)
{
    if (making->locale == UNKNOWN)
        making->locale = find_locale_path(making, locale);
    return making->locale;
}

/* ---- messages */

static void tell(struct making *making, const char *text, const struct composecheck_fault *fault, bool is_left_out)
{
    struct composecheck_message message = { .text = text, .fault = *fault, .is_left_out = is_left_out };
    making->has_message = true;
    if (making->report)
        making->report(making->options->context, &message);
}

static void tell_fault(struct making *making, const struct composecheck_files *files, const struct composecheck_fault *fault, bool is_left_out)
{
    char text[MOST_SENTENCE];
    composecheck_files_explain(files, true, fault, text, sizeof text);
    tell(making, text, fault, is_left_out);
}

/* Says that there is no file, or no memory, before there is one that a fault could name. */
static void tell_end(struct making *making, uint32_t part, const char *locale)
{
    struct composecheck_fault fault = { .part = part, .code = part == COMPOSECHECK_SEARCH ? 2 : 0 };
    char text[MOST_SENTENCE];
    bool is_absent = part == COMPOSECHECK_SEARCH;
    snprintf(text, sizeof text, "%s%s", is_absent ? "there is no Compose file for the locale " : "out of memory", is_absent ? locale : "");
    tell(making, text, &fault, false);
}

/* ---- lines that are left out */

/* Whether the fault is one line's own, which libxkbcommon passes over: no UTF-8, no line of the grammar, or a name that is no keysym's or an ignored
 * one's. */
static bool is_of_line(const struct composecheck_fault *fault)
{
    return fault->part == COMPOSECHECK_SOURCE && fault->code >= 2 && fault->code <= 5;
}

/* Blanks out the line of a fault. */
static void blank(const struct composecheck_files *files, const struct composecheck_fault *fault)
{
    const char *name;
    size_t name_length, length;
    uint8_t *line = composecheck_files_source(files, fault->source, &name, &name_length, &length), *end = line + length;
    for (uint64_t at = 1; line < end; at++) {
        uint8_t *stop = memchr(line, '\n', (size_t) (end - line));
        size_t size = (size_t) ((stop ? stop : end) - line);
        if (at == fault->line) {
            memset(line, ' ', size);
            return;
        }
        line += size + 1;
    }
}

/* The table of files that were found. */
static void *read_table(struct making *making, const struct composecheck_files *files, struct composecheck_fault *fault)
{
    struct composecheck_input input = { .bundle = files->bundle, .bundle_length = files->bundle_length, .longest = true };
    void *table = composecheck_table_new(&input, &making->length, fault);
    for (int count = 0; !table && count < MOST_LEFT_OUT && !making->options->is_strict && is_of_line(fault); count++) {
        tell_fault(making, files, fault, true);
        blank(files, fault);
        table = composecheck_table_new(&input, &making->length, fault);
    }
    return table;
}

/* The table of a root, for whose %L the table of the locale is known or not. It is kept if nothing had to be said of it. */
static void *table_of(struct making *making, const void *bytes, size_t length, const char *name, const struct composecheck_places *places)
{
    struct composecheck_files files;
    struct composecheck_fault fault;
    bool is_found = composecheck_files_find(&files, name, bytes, length, places, &fault);
    void *table = is_found ? read_table(making, &files, &fault) : NULL;
    if (!table)
        tell_fault(making, &files, &fault, false);
    else if (making->cache && !making->has_message)
        composecheck_cache_write(making->cache, table, making->length, &making->found, &files);
    composecheck_files_free(&files);
    return table;
}

/* The table of a root of these bytes; %L is the table of the locale. */
static void *table_of_root(struct making *making, const void *bytes, size_t length, const char *name, const char *locale)
{
    enum outcome outcome = locale_outcome(making, locale);
    struct composecheck_places places = { folder_of(making->options), outcome == FOUND ? making->locale_path : NULL, secure_getenv("HOME"), NULL };
    if (outcome != OUT_OF_MEMORY)
        return table_of(making, bytes, length, name, &places);
    tell_end(making, COMPOSECHECK_MEMORY, locale);
    return NULL;
}

void *composecheck_table_of_root(const void *bytes, size_t length, const char *name, const char *locale, const struct composecheck_options *options,
                                 composecheck_report *report, size_t *table_length)
{
    struct making making = { .options = options, .report = report };
    void *table = table_of_root(&making, bytes, length, name, locale);
    *table_length = making.length;
    return table;
}

/* ---- whose file it is */

/* The path of the user's Compose file of this number, if he may have one: in the order in which libxkbcommon looks at them. */
static enum outcome put_user_path(struct making *making, char path[MOST_PATH], int number, const char *locale)
{
    const char *home = secure_getenv("HOME"), *config = secure_getenv("XDG_CONFIG_HOME");
    bool is_absolute = config && config[0] == '/';
    switch (number) {
    case 0: return put_path(path, secure_getenv("XCOMPOSEFILE"), "") ? FOUND : ABSENT;
    case 1: return put_path(path, is_absolute ? config : home, is_absolute ? "/XCompose" : "/.config/XCompose") ? FOUND : ABSENT;
    case 2: return put_path(path, home, "/.XCompose") ? FOUND : ABSENT;
    default:
        if (locale_outcome(making, locale) == FOUND)
            memcpy(path, making->locale_path, MOST_PATH);
        return making->locale;
    }
}

/* The table of the first file that can be read. */
static void *first_table(struct making *making, const char *locale)
{
    char path[MOST_PATH], *bytes = NULL;
    size_t length;
    enum outcome outcome = ABSENT;
    for (int number = 0; number < 4 && outcome == ABSENT; number++) {
        outcome = put_user_path(making, path, number, locale);
        if (outcome == FOUND)
            outcome = read_file(path, &bytes, &length);
        else
            path[0] = 0;
        if (outcome == ABSENT)
            note(making, path, NULL, 0);
    }
    if (outcome != FOUND) {
        tell_end(making, outcome == ABSENT ? COMPOSECHECK_SEARCH : COMPOSECHECK_MEMORY, locale);
        return NULL;
    }
    void *table = table_of_root(making, bytes, length, path, locale);
    free(bytes);
    return table;
}

void *composecheck_table_from_locale(const char *locale, const struct composecheck_options *options, composecheck_report *report, size_t *length)
{
    struct making making = { .options = options ? options : &defaults, .report = report };
    const char *named = locale ? locale : locale_of_environment();
    /* (all that a table is made by but files) */
    const char *const texts[] = { composecheck_build, named, folder_of(making.options), secure_getenv("HOME"), secure_getenv("XDG_CONFIG_HOME"),
                                  secure_getenv("XCOMPOSEFILE") };
    struct cache cache;
    bool is_cached = making.options->is_cached && composecheck_cache_begin(&cache, texts, sizeof texts / sizeof *texts);
    void *table = is_cached ? composecheck_cache_read(&cache, &making.length) : NULL;
    if (!table) {
        making.cache = is_cached ? &cache : NULL;
        table = first_table(&making, named);
    }
    composecheck_files_free(&making.found);
    if (is_cached)
        composecheck_cache_end(&cache);
    *length = table ? making.length : 0;
    return table;
}
