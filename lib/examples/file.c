/* Types keys over a Compose file with its includes: file FILE LOCALE-TABLE KEYSYM.., as in:
 * file ~/.XCompose /usr/share/X11/locale/en_US.UTF-8/Compose 0xff20 0x27 0x65 */
#include <composecheck.h>
#include <stdio.h>
#include <stdlib.h>

int main(int count, char **arguments)
{
    if (count < 3)
        return 2;
    struct composecheck_places places = { "/usr/share/X11/locale", arguments[2], getenv("HOME"), NULL };
    struct composecheck_fault fault;
    char line[512];
    size_t size;
    void *table = composecheck_table_from_file(arguments[1], &places, true, &size, &fault, line, sizeof line);
    if (!table) {
        fprintf(stderr, "%s\n", line);
        return 1;
    }
    struct composecheck_state state = { 0 };
    for (int i = 3; i < count; i++) {
        uint8_t text[COMPOSECHECK_MOST_TEXT];
        uint32_t length;
        composecheck_table_feed(table, size, &state, (uint32_t) strtoul(arguments[i], NULL, 0), text, &length);
        printf("%u \"%.*s\"\n", composecheck_status(&state), (int) length, (const char *) text);
    }
    composecheck_table_free(table);
}
