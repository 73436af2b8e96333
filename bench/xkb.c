/* libxkbcommon at the same work, to measure it and to compare its answers:
 *
 *   xkb compile FILE ROUNDS   compiles a table from its bytes; its memory, and the nanoseconds of the quickest round
 *   xkb type FILE KEYS        types a stream of keys, four bytes each; its nanoseconds, and how often each status came
 *   xkb answers FILE KEYS     a line for each key: `ignored`, or the status and the text
 *   xkb process FILE NAME..   compiles a table and types the named keys: a whole process
 */
#include <malloc.h>
#include <stdint.h>
#include <stdio.h>
#include <stdlib.h>
#include <string.h>
#include <time.h>
#include <xkbcommon/xkbcommon-compose.h>

static const char *const words[] = {"nothing", "composing", "composed", "cancelled"};

static char *read_file(const char *path, size_t *length)
{
    FILE *file = fopen(path, "rb");
    if (file == NULL)
        exit(2);
    fseek(file, 0, SEEK_END);
    *length = (size_t)ftell(file);
    rewind(file);
    char *bytes = malloc(*length + 1);
    if (bytes == NULL || fread(bytes, 1, *length, file) != *length)
        exit(2);
    fclose(file);
    return bytes;
}

static uint64_t now(void)
{
    struct timespec time;
    clock_gettime(CLOCK_MONOTONIC, &time);
    return (uint64_t)time.tv_sec * 1000000000u + (uint64_t)time.tv_nsec;
}

static struct xkb_compose_table *compile_bytes(struct xkb_context *context, const char *bytes, size_t length)
{
    return xkb_compose_table_new_from_buffer(context, bytes, length, "en_US.UTF-8", XKB_COMPOSE_FORMAT_TEXT_V1, XKB_COMPOSE_COMPILE_NO_FLAGS);
}

static int compile(struct xkb_context *context, const char *path, int rounds)
{
    size_t length;
    char *bytes = read_file(path, &length);
    uint64_t least = UINT64_MAX;
    size_t memory = 0;
    for (int i = 0; i < rounds; i++) {
        size_t before = mallinfo2().uordblks + mallinfo2().hblkhd;
        uint64_t start = now();
        struct xkb_compose_table *table = compile_bytes(context, bytes, length);
        uint64_t taken = now() - start;
        if (table == NULL)
            return 1;
        memory = mallinfo2().uordblks + mallinfo2().hblkhd - before;
        if (taken < least)
            least = taken;
        xkb_compose_table_unref(table);
    }
    printf("memory\t%zu\ncompile\t%llu\n", memory, (unsigned long long)least);
    return 0;
}

static int type(struct xkb_compose_state *state, const char *path, int told)
{
    size_t length, text_bytes = 0, first_bytes = 0, counts[4] = {0};
    char *bytes = read_file(path, &length);
    uint64_t start = now();
    for (size_t at = 0; at + 4 <= length; at += 4) {
        uint32_t key;
        char text[256];
        memcpy(&key, bytes + at, 4);
        enum xkb_compose_feed_result result = xkb_compose_state_feed(state, key);
        enum xkb_compose_status status = xkb_compose_state_get_status(state);
        text_bytes += (size_t)xkb_compose_state_get_utf8(state, text, sizeof text);
        first_bytes += (unsigned char)text[0];
        counts[status]++;
        if (told && result == XKB_COMPOSE_FEED_IGNORED)
            printf("ignored\n");
        else if (told)
            printf("%s %s\n", words[status], text);
    }
    if (told)
        return 0;
    printf("type\t%llu\n", (unsigned long long)(now() - start));
    for (int i = 0; i < 4; i++)
        printf("%s\t%zu\n", words[i], counts[i]);
    printf("text bytes\t%zu\nfirst bytes\t%zu\n", text_bytes, first_bytes);
    return 0;
}

static int type_names(struct xkb_compose_state *state, int count, char **names)
{
    for (int i = 0; i < count; i++) {
        char text[256];
        xkb_compose_state_feed(state, xkb_keysym_from_name(names[i], XKB_KEYSYM_NO_FLAGS));
        xkb_compose_state_get_utf8(state, text, sizeof text);
        printf("%s \"%s\"\n", words[xkb_compose_state_get_status(state)], text);
    }
    return 0;
}

int main(int argc, char **argv)
{
    if (argc < 3)
        return 2;
    struct xkb_context *context = xkb_context_new(XKB_CONTEXT_NO_DEFAULT_INCLUDES);
    xkb_context_set_log_level(context, XKB_LOG_LEVEL_CRITICAL);
    if (strcmp(argv[1], "compile") == 0 && argc == 4)
        return compile(context, argv[2], atoi(argv[3]));
    size_t length;
    char *bytes = read_file(argv[2], &length);
    struct xkb_compose_table *table = compile_bytes(context, bytes, length);
    if (table == NULL)
        return 1;
    struct xkb_compose_state *state = xkb_compose_state_new(table, XKB_COMPOSE_STATE_NO_FLAGS);
    if (strcmp(argv[1], "type") == 0 && argc == 4)
        return type(state, argv[3], 0);
    if (strcmp(argv[1], "answers") == 0 && argc == 4)
        return type(state, argv[3], 1);
    if (strcmp(argv[1], "process") == 0)
        return type_names(state, argc - 3, argv + 3);
    return 2;
}
