/* xkbcommon < STEPS: libxkbcommon. The word for a key is `ignored`, or the status after it. */
#include <xkbcommon/xkbcommon-compose.h>
#include "steps.h"

static const char *const words[] = {"nothing", "composing", "composed", "cancelled"};
static struct xkb_context *context;
static struct xkb_compose_state *state;

static void open_table(const char *path)
{
    FILE *file = fopen(path, "rb");
    if (file == NULL)
        exit(2);
    struct xkb_compose_table *table =
        xkb_compose_table_new_from_file(context, file, "en_US.UTF-8", XKB_COMPOSE_FORMAT_TEXT_V1, XKB_COMPOSE_COMPILE_NO_FLAGS);
    fclose(file);
    xkb_compose_state_unref(state);
    state = table == NULL ? NULL : xkb_compose_state_new(table, XKB_COMPOSE_STATE_NO_FLAGS);
    xkb_compose_table_unref(table);
}

static void press(xkb_keysym_t keysym)
{
    char text[2048] = "";
    if (state == NULL) {
        print_answer("refused", "", 0);
    } else if (xkb_compose_state_feed(state, keysym) == XKB_COMPOSE_FEED_IGNORED) {
        print_answer("ignored", "", 0);
    } else {
        xkb_compose_state_get_utf8(state, text, sizeof text);
        print_answer(words[xkb_compose_state_get_status(state)], text, strlen(text));
    }
}

int main(void)
{
    context = xkb_context_new(XKB_CONTEXT_NO_DEFAULT_INCLUDES);
    xkb_context_set_log_level(context, XKB_LOG_LEVEL_CRITICAL);
    read_steps();
    for (size_t at = 0; at < step_count; at++) {
        if (steps[at].what == TABLE)
            open_table(steps[at].path);
        else if (steps[at].what == KEY)
            press((xkb_keysym_t)steps[at].keysym);
        else if (state != NULL)
            xkb_compose_state_reset(state);
    }
    return 0;
}
