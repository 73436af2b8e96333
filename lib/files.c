/* The files of a table: composecheck_find says which, and stdio reads them. C, and unproved. */
#include "cache.h"
#include <errno.h>
#include <stdio.h>
#include <stdlib.h>
#include <string.h>

static struct composecheck_fault fault_of(uint32_t part, uint32_t code)
{
    struct composecheck_fault fault = { .part = part, .code = code };
    return fault;
}

static size_t number_at(const uint8_t *at, int bytes)
{
    size_t number = 0;
    while (bytes-- > 0)
        number = number << 8 | *at++;
    return number;
}

static uint8_t *put_number(uint8_t *at, size_t number, int bytes)
{
    while (bytes-- > 0)
        *at++ = (uint8_t) (number >> (8 * bytes));
    return at;
}

/* ---- answers */

bool composecheck_add_answer(struct composecheck_files *files, const void *path, size_t path_length, const void *bytes, size_t length)
{
    size_t count = files->answers ? number_at(files->answers, 2) : 0, old = files->answers ? files->answers_length : 2;
    size_t needed = old + 2 + path_length + 1 + (bytes ? 4 + length : 0);
    uint8_t *answers = count < 0xffff && path_length <= 0xffff && length <= 1u << 30 ? realloc(files->answers, needed) : NULL;
    if (!answers)
        return false;
    put_number(answers, count + 1, 2);
    uint8_t *at = put_number(answers + old, path_length, 2);
    memcpy(at, path, path_length);
    at[path_length] = bytes != NULL;
    if (bytes)
        memcpy(put_number(at + path_length + 1, length, 4), bytes, length);
    files->answers = answers;
    files->answers_length = needed;
    return true;
}

/* The bytes of a file that is there, in a block of malloc. */
static char *read_all(FILE *file, size_t *length)
{
    size_t room = 1 << 16, got;
    char *bytes = malloc(room);
    *length = 0;
    while (bytes && (got = fread(bytes + *length, 1, room - *length, file)) > 0) {
        *length += got;
        if (*length == room) {
            char *more = realloc(bytes, room *= 2);
            if (!more)
                free(bytes);
            bytes = more;
        }
    }
    return bytes;
}

/* Codes of a search that ends since a file isn't read. */
enum { NO_ROOT = 2, NO_INCLUDED = 3 };

/* What stands at a path: the number is a fault's value, where no file is read. */
enum found { ABSENT, UNREADABLE, FOLDER, READ, OUT_OF_MEMORY };

/* What an error of stdio says of a path. */
static enum found found_by(int error)
{
    switch (error) {
    case ENOENT: case ENOTDIR: return ABSENT;
    case EISDIR: return FOLDER;
    case ENOMEM: return OUT_OF_MEMORY;
    default: return UNREADABLE;
    }
}

/* The bytes of the file at a path, in a block of malloc; null where none is read. (A folder can be opened, but not read.) */
static enum found read_file(const char *name, char **bytes, size_t *length)
{
    *bytes = NULL;
    *length = 0;
    FILE *file = fopen(name, "rb");
    if (!file)
        return found_by(errno);
    errno = 0;
    *bytes = read_all(file, length);
    enum found found = ferror(file) ? found_by(errno) : *bytes ? READ : OUT_OF_MEMORY;
    fclose(file);
    if (found == READ)
        return READ;
    free(*bytes);
    *bytes = NULL;
    return found;
}

/* Looks for a file at a path, which has no end mark, and adds what is found. */
static enum found look(struct composecheck_files *files, const uint8_t *path, size_t path_length)
{
    char *name = malloc(path_length + 1), *bytes = NULL;
    size_t length = 0;
    if (!name)
        return OUT_OF_MEMORY;
    memcpy(name, path, path_length);
    name[path_length] = 0;
    enum found found = strlen(name) == path_length ? read_file(name, &bytes, &length) : ABSENT;
    if (found != OUT_OF_MEMORY && !composecheck_add_answer(files, name, path_length, bytes, length))
        found = OUT_OF_MEMORY;
    free(bytes);
    free(name);
    return found;
}

/* ---- the search */

static const uint8_t *bytes_of(const char *text)
{
    return (const uint8_t *) (text ? text : "");
}

static size_t length_of(const char *text)
{
    return text ? strlen(text) : 0;
}

static uint32_t find(const struct composecheck_files *files, const char *root, const struct composecheck_places *places, size_t *length,
                     struct composecheck_fault *fault)
{
    static const struct composecheck_places nowhere;
    static const uint8_t none[2];
    const struct composecheck_places *p = places ? places : &nowhere;
    return composecheck_find(files->answers ? files->answers : none, files->answers ? files->answers_length : sizeof none, bytes_of(root), length_of(root),
                             bytes_of(p->system), length_of(p->system), bytes_of(p->locale), length_of(p->locale), bytes_of(p->home), length_of(p->home),
                             bytes_of(p->sysroot), length_of(p->sysroot), none, 0, files->bundle, files->bundle_length, length, fault);
}

/* Gives the target this much room. */
static bool widen(struct composecheck_files *files, size_t room)
{
    uint8_t *wider = realloc(files->bundle, room);
    if (!wider)
        return false;
    files->bundle = wider;
    files->bundle_length = room;
    return true;
}

/* Searches until the bundle is whole, which is *size bytes long. A file that isn't read has a reason: of the paths that were tried for it, the first
 * one at which something stands. */
static bool search(struct composecheck_files *files, const char *root, const struct composecheck_places *places, size_t *size,
                   struct composecheck_fault *fault)
{
    enum found reason = ABSENT;
    while (files->bundle_length >= files->answers_length + 4096 || widen(files, 2 * files->answers_length + 4096)) {
        uint32_t done = find(files, root, places, size, fault);
        if (done == COMPOSECHECK_REFUSED && fault->part == COMPOSECHECK_SEARCH && (fault->code == NO_ROOT || fault->code == NO_INCLUDED))
            fault->value = (uint32_t) reason;
        if (done == COMPOSECHECK_DONE || done == COMPOSECHECK_REFUSED)
            return done == COMPOSECHECK_DONE;
        enum found found = done == COMPOSECHECK_WANTED ? look(files, files->bundle, *size) : widen(files, *size) ? reason : OUT_OF_MEMORY;
        if (found == OUT_OF_MEMORY)
            return false;
        reason = found == READ ? ABSENT : reason == ABSENT ? found : reason;
    }
    return false;
}

bool composecheck_files_find(struct composecheck_files *files, const char *root, const void *bytes, size_t length,
                             const struct composecheck_places *places, struct composecheck_fault *wanted)
{
    struct composecheck_files none = { 0 };
    struct composecheck_fault unwanted, *fault = wanted ? wanted : &unwanted;
    size_t size;
    *files = none;
    *fault = fault_of(COMPOSECHECK_MEMORY, 0);
    if (bytes && !composecheck_add_answer(files, root, strlen(root), bytes, length))
        return false;
    if (!search(files, root, places, &size, fault))
        return false;
    files->bundle_length = size;
    *fault = fault_of(0, 0);
    return true;
}

void composecheck_files_free(struct composecheck_files *files)
{
    struct composecheck_files none = { 0 };
    free(files->answers);
    free(files->bundle);
    *files = none;
}

/* ---- sentences */

/* What a fault of a search says. */
static const char *search_words(const struct composecheck_fault *fault)
{
    static const char *const unread[][2] = {
        { "the file can't be read", "the file of the include can't be read" }, { "the file is a folder", "the file of the include is a folder" }
    };
    static const char *const words[] = {
        "the search is refused", "the answers or the paths have another form", "the file isn't there", "the file of the include isn't there",
        "the text of the include is faulty", "a percent sign is followed by none of %, S, L and H", "%L isn't known", "%H isn't known",
        "the same text led to another file before", "a 65th source", "more than eight includes lead to the file"
    };
    if ((fault->code == NO_ROOT || fault->code == NO_INCLUDED) && (fault->value == UNREADABLE || fault->value == FOLDER))
        return unread[fault->value - UNREADABLE][fault->code - NO_ROOT];
    return words[fault->code < sizeof words / sizeof *words ? fault->code : 0];
}

/* The path of the answer with this index. */
static const uint8_t *answer_path(const struct composecheck_files *files, size_t index, size_t *length)
{
    const uint8_t *at = files->answers + 2;
    for (; index > 0; index--) {
        at += 2 + number_at(at, 2);
        at += *at ? 5 + number_at(at + 1, 4) : 1;
    }
    *length = number_at(at, 2);
    return at + 2;
}

uint8_t *composecheck_files_source(const struct composecheck_files *files, size_t index, const char **name, size_t *name_length, size_t *length)
{
    uint8_t *at = files->bundle + 2;
    for (; index > 0; index--) {
        at += 2 + number_at(at, 2);
        at += 4 + number_at(at, 4);
    }
    *name = (const char *) at + 2;
    *name_length = number_at(at, 2);
    at += 2 + *name_length;
    *length = number_at(at, 4);
    return at + 4;
}

size_t composecheck_files_explain(const struct composecheck_files *files, bool longest, const struct composecheck_fault *fault, char *text, size_t room)
{
    char said[512];
    const char *name = "";
    size_t name_length = 0, length;
    struct composecheck_input input = { .bundle = files->bundle, .bundle_length = files->bundle_length, .longest = longest };
    bool is_search = fault->part == COMPOSECHECK_SEARCH;
    if (is_search && files->answers && fault->source < number_at(files->answers, 2))
        name = (const char *) answer_path(files, fault->source, &name_length);
    else if (fault->part == COMPOSECHECK_SOURCE)
        composecheck_files_source(files, fault->source, &name, &name_length, &length);
    if (is_search || fault->part == COMPOSECHECK_MEMORY || fault->part == COMPOSECHECK_BUNDLE)
        snprintf(said, sizeof said, "%s", is_search ? search_words(fault) : fault->part == COMPOSECHECK_MEMORY ? "out of memory" : "the bundle is too large");
    else
        composecheck_table_explain(&input, said, sizeof said);
    if (fault->line)
        return (size_t) snprintf(text, room, "%.*s:%llu:%llu: %s", (int) name_length, name, (unsigned long long) fault->line, (unsigned long long) fault->column, said);
    return (size_t) snprintf(text, room, "%.*s%s%s", (int) name_length, name, name_length ? ": " : "", said);
}

/* ---- tables */

void *composecheck_table_from_file(const char *path, const struct composecheck_places *places, bool longest, size_t *length,
                                   struct composecheck_fault *wanted, char *text, size_t room)
{
    struct composecheck_files files;
    struct composecheck_fault unwanted, *fault = wanted ? wanted : &unwanted;
    void *table = NULL;
    *length = 0;
    if (composecheck_files_find(&files, path, NULL, 0, places, fault)) {
        struct composecheck_input input = { .bundle = files.bundle, .bundle_length = files.bundle_length, .longest = longest };
        table = composecheck_table_new(&input, length, fault);
    }
    if (!table && room > 0)
        composecheck_files_explain(&files, longest, fault, text, room);
    composecheck_files_free(&files);
    return table;
}
