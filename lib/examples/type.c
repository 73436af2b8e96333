/* Types keys over a Compose file: type FILE KEYSYM.., as in: type table.compose 0xff20 0x27 0x65 */
#include <composecheck.h>
#include <stdio.h>
#include <stdlib.h>

int main(int count, char **arguments)
{
    static char bytes[1 << 20];
    FILE *file = count > 1 ? fopen(arguments[1], "rb") : NULL;
    if (!file)
        return 2;
    struct composecheck_source source = { "root", bytes, fread(bytes, 1, sizeof bytes, file) };
    fclose(file);

    struct composecheck_input input = { .sources = &source, .source_count = 1, .longest = true };
    struct composecheck_fault fault;
    size_t size;
    void *table = composecheck_table_new(&input, &size, &fault);
    if (!table) {
        char said[256];
        composecheck_table_explain(&input, said, sizeof said);
        fprintf(stderr, "%s:%d:%d: %s\n", arguments[1], (int) fault.line, (int) fault.column, said);
        return 1;
    }
    struct composecheck_state state = { 0 };
    for (int i = 2; i < count; i++) {
        static const char *const words[] = { "nothing", "composing", "composed", "cancelled" };
        uint8_t text[COMPOSECHECK_MOST_TEXT];
        uint32_t length;
        composecheck_table_feed(table, size, &state, (uint32_t) strtoul(arguments[i], NULL, 0), text, &length);
        printf("%s \"%.*s\"\n", words[composecheck_status(&state)], (int) length, (const char *) text);
    }
    composecheck_table_free(table);
}
