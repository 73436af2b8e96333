/* The calls of libxkbcommon that the shim has: what each returns, and that nothing is leaked or read outside. Compiled with
 * -fsanitize=address,undefined. The argument is a folder that may be written to. */
#include <stdbool.h>
#include <stdint.h>
#include <stdio.h>
#include <stdlib.h>
#include <string.h>
#include <xkbcommon/xkbcommon-compose.h>

/* Of libxkbcommon 1.6, which may be newer than the header. */
struct xkb_compose_table_entry;
struct xkb_compose_table_iterator;
struct xkb_compose_table_iterator *xkb_compose_table_iterator_new(struct xkb_compose_table *table);
void xkb_compose_table_iterator_free(struct xkb_compose_table_iterator *iterator);
struct xkb_compose_table_entry *xkb_compose_table_iterator_next(struct xkb_compose_table_iterator *iterator);
const xkb_keysym_t *xkb_compose_table_entry_sequence(struct xkb_compose_table_entry *entry, size_t *count);
xkb_keysym_t xkb_compose_table_entry_keysym(struct xkb_compose_table_entry *entry);
const char *xkb_compose_table_entry_utf8(struct xkb_compose_table_entry *entry);

static const char text[] = "<z> : \"z\" F1\n<Multi_key> <b> : \"\xc3\xa9\" eacute\n<Multi_key> <a> <a> : \"xyz\"\n<Multi_key> <a> <b> : F2\n";
static int failed;

static void expect(bool holds, const char *what)
{
    if (!holds && failed++ < 20)
        printf("FAILED: %s\n", what);
}

static struct xkb_compose_table *table_of(const char *bytes, int format, int flags)
{
    return xkb_compose_table_new_from_buffer(NULL, bytes, strlen(bytes), "C", format, flags);
}

/* ---- tables */

static void tables(const char *folder)
{
    char path[512];
    expect(!table_of(text, 0, 0) && !table_of(text, XKB_COMPOSE_FORMAT_TEXT_V1, 1), "another format, or a flag, makes no table");
    expect(!table_of("<a : x\n", XKB_COMPOSE_FORMAT_TEXT_V1, 0), "a table with a fault is refused");
    struct xkb_compose_table *empty = xkb_compose_table_new_from_buffer(NULL, NULL, 0, "C", XKB_COMPOSE_FORMAT_TEXT_V1, 0);
    expect(empty, "no bytes are a table");
    xkb_compose_table_unref(empty);
    xkb_compose_table_unref(NULL);
    xkb_compose_state_unref(NULL);
    snprintf(path, sizeof path, "%s/shim", folder);
    FILE *file = fopen(path, "w+b");
    expect(file && fputs(text, file) >= 0 && fseek(file, 0, SEEK_SET) == 0, "a file is written");
    struct xkb_compose_table *table = file ? xkb_compose_table_new_from_file(NULL, file, "C", XKB_COMPOSE_FORMAT_TEXT_V1, 0) : NULL;
    expect(table, "a table of a file");
    xkb_compose_table_unref(table);
    if (file)
        fclose(file);
    remove(path);
}

/* ---- states */

static void texts(struct xkb_compose_state *state)
{
    for (size_t room = 0; room < 6; room++) {
        char *buffer = malloc(room ? room : 1);
        expect(xkb_compose_state_get_utf8(state, buffer, room) == 3, "the length of a text");
        expect(room == 0 || (strlen(buffer) == (room < 4 ? room - 1 : 3) && strncmp(buffer, "xyz", room - 1) == 0), "a text is cut to its room");
        free(buffer);
    }
}

static void states(struct xkb_compose_table *table)
{
    struct xkb_compose_state *state = xkb_compose_state_new(table, 0), *same = xkb_compose_state_ref(state);
    expect(!xkb_compose_state_new(table, 1), "a flag makes no state");
    expect(same == state && xkb_compose_state_get_compose_table(state) == table, "a state of a table");
    xkb_compose_state_unref(same);
    expect(xkb_compose_state_get_one_sym(state) == 0 && xkb_compose_state_get_status(state) == XKB_COMPOSE_NOTHING, "a new state");
    expect(xkb_compose_state_feed(state, 'z') == XKB_COMPOSE_FEED_ACCEPTED && xkb_compose_state_get_one_sym(state) == 0xffbe, "a result keysym");
    expect(xkb_compose_state_feed(state, 0xffe1) == XKB_COMPOSE_FEED_IGNORED && xkb_compose_state_get_one_sym(state) == 0xffbe, "an ignored key changes nothing");
    xkb_compose_state_reset(state);
    expect(xkb_compose_state_get_one_sym(state) == 0 && xkb_compose_state_get_utf8(state, NULL, 0) == 0, "nothing is left after a reset");
    xkb_compose_state_feed(state, 0xff20);
    expect(xkb_compose_state_feed(state, 0x20000000) == XKB_COMPOSE_FEED_ACCEPTED, "a number above every keysym is fed");
    expect(xkb_compose_state_get_status(state) == XKB_COMPOSE_CANCELLED, "and is part of no sequence");
    static const xkb_keysym_t keys[] = { 0xff20, 'a', 'a' };
    for (int i = 0; i < 3; i++)
        xkb_compose_state_feed(state, keys[i]);
    texts(state);
    xkb_compose_state_unref(state);
}

/* ---- iterators */

static void entries(struct xkb_compose_table *table)
{
    static const struct { size_t count; xkb_keysym_t keysyms[3], keysym; const char *text; } wanted[] = {
        { 1, { 'z' }, 0xffbe, "z" }, { 3, { 0xff20, 'a', 'a' }, 0, "xyz" }, { 3, { 0xff20, 'a', 'b' }, 0xffbf, "" }, { 2, { 0xff20, 'b' }, 0xe9, "\xc3\xa9" },
    };
    struct xkb_compose_table_iterator *iterator = xkb_compose_table_iterator_new(table);
    for (size_t i = 0; i < sizeof wanted / sizeof *wanted; i++) {
        struct xkb_compose_table_entry *entry = xkb_compose_table_iterator_next(iterator);
        size_t count = 0;
        const xkb_keysym_t *keysyms = entry ? xkb_compose_table_entry_sequence(entry, &count) : NULL;
        expect(count == wanted[i].count && memcmp(keysyms, wanted[i].keysyms, count * sizeof *keysyms) == 0, "the sequences in rising order");
        expect(entry && xkb_compose_table_entry_keysym(entry) == wanted[i].keysym, "the result keysym of a sequence");
        expect(entry && strcmp(xkb_compose_table_entry_utf8(entry), wanted[i].text) == 0, "the text of a sequence");
    }
    expect(!xkb_compose_table_iterator_next(iterator) && !xkb_compose_table_iterator_next(iterator), "no sequence follows the last one");
    xkb_compose_table_iterator_free(iterator);
    xkb_compose_table_iterator_free(NULL);
    iterator = xkb_compose_table_iterator_new(table);
    xkb_compose_table_iterator_next(iterator);
    xkb_compose_table_iterator_free(iterator);
}

/* A sequence of 32 keys, which is the longest. */
static void longest(void)
{
    char line[512], *at = line;
    for (int i = 0; i < 32; i++)
        at += sprintf(at, "<%c> ", "ab"[i % 2]);
    sprintf(at, ": \"x\"\n");
    struct xkb_compose_table *table = table_of(line, XKB_COMPOSE_FORMAT_TEXT_V1, 0);
    struct xkb_compose_table_iterator *iterator = xkb_compose_table_iterator_new(table);
    struct xkb_compose_table_entry *entry = xkb_compose_table_iterator_next(iterator);
    size_t count = 0;
    expect(entry && xkb_compose_table_entry_sequence(entry, &count)[31] == 'b' && count == 32, "the longest sequence");
    expect(!xkb_compose_table_iterator_next(iterator), "there is one sequence");
    xkb_compose_table_iterator_free(iterator);
    xkb_compose_table_unref(table);
}

int main(int count, char **arguments)
{
    tables(count > 1 ? arguments[1] : ".");
    struct xkb_compose_table *table = table_of(text, XKB_COMPOSE_FORMAT_TEXT_V1, 0), *same = xkb_compose_table_ref(table);
    if (!table)
        return 1;
    expect(same == table, "a table is the same after a reference");
    states(table);
    xkb_compose_table_unref(table);
    entries(same);
    xkb_compose_table_unref(same);
    longest();
    return failed ? 1 : 0;
}
