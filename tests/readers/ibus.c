/* ibus < STEPS: the simple engine of IBus, without a bus: what it would send over one is taken here. The words are those of x11.c. */
#include <ibus.h>
#include "steps.h"

static GString *committed;

static void drop(IBusText *text)
{
    g_object_ref_sink(text);
    g_object_unref(text);
}

/* These four stand in the place of libibus' own. */
void ibus_engine_commit_text(IBusEngine *engine, IBusText *text)
{
    (void)engine;
    g_string_append(committed, ibus_text_get_text(text));
    drop(text);
}

void ibus_engine_update_preedit_text(IBusEngine *engine, IBusText *text, guint cursor, gboolean is_visible)
{
    (void)engine, (void)cursor, (void)is_visible;
    drop(text);
}

void ibus_engine_update_preedit_text_with_mode(IBusEngine *engine, IBusText *text, guint cursor, gboolean is_visible, IBusPreeditFocusMode mode)
{
    (void)engine, (void)cursor, (void)is_visible, (void)mode;
    drop(text);
}

void ibus_engine_hide_preedit_text(IBusEngine *engine)
{
    (void)engine;
}

static void press(IBusEngine *engine, unsigned keysym)
{
    gboolean is_taken = FALSE;
    g_string_truncate(committed, 0);
    g_signal_emit_by_name(engine, "process-key-event", keysym, 9u, 0u, &is_taken);
    print_answer(committed->len > 0 ? "committed" : is_taken ? "filtered" : "passed", committed->str, committed->len);
}

int main(void)
{
    ibus_init();
    committed = g_string_new("");
    IBusEngine *engine = g_object_new(IBUS_TYPE_ENGINE_SIMPLE, "engine-name", "simple", "object-path", "/org/freedesktop/IBus/Engine/1", NULL);
    read_steps();
    for (size_t at = 0; at < step_count; at++) {
        if (steps[at].what == TABLE)
            ibus_engine_simple_add_compose_file(IBUS_ENGINE_SIMPLE(engine), steps[at].path);
        else if (steps[at].what == KEY)
            press(engine, (unsigned)steps[at].keysym);
        else
            g_signal_emit_by_name(engine, "reset");
    }
    return 0;
}
