/* Prints whether the program has more rights than its user, and what the shim's table and the library's type for Multi_key, apostrophe, e: by the
 * user's own file, if variables are read, else by the locale's. The library's is cached, if it may be. */
#define _GNU_SOURCE
#include <composecheck.h>
#include <stdio.h>
#include <stdlib.h>
#include <xkbcommon/xkbcommon-compose.h>

static const uint32_t keys[] = { 0xff20, 0x27, 0x65 };

static void type_by_shim(void)
{
    struct xkb_compose_table *table = xkb_compose_table_new_from_locale(NULL, "en_US.UTF-8", 0);
    struct xkb_compose_state *state = table ? xkb_compose_state_new(table, 0) : NULL;
    char text[256] = "";
    for (int i = 0; state && i < 3; i++)
        xkb_compose_state_feed(state, keys[i]);
    if (state)
        xkb_compose_state_get_utf8(state, text, sizeof text);
    printf(" \"%s\"", text);
    xkb_compose_state_unref(state);
    xkb_compose_table_unref(table);
}

static void type_by_library(void)
{
    size_t size;
    struct composecheck_options options = { .is_cached = true };
    void *table = composecheck_table_from_locale("en_US.UTF-8", &options, NULL, &size);
    struct composecheck_state state = { 0 };
    uint8_t text[COMPOSECHECK_MOST_TEXT];
    uint32_t length = 0;
    for (int i = 0; table && i < 3; i++)
        composecheck_table_feed(table, size, &state, keys[i], text, &length);
    printf(" \"%.*s\"\n", (int) length, (const char *) text);
    composecheck_table_free(table);
}

int main(void)
{
    printf("%s", getenv("HOME") && !secure_getenv("HOME") ? "secure" : "plain");
    type_by_shim();
    type_by_library();
}
