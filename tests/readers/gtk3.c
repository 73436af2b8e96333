/* gtk3 < STEPS: the input method of GTK 3, which adds each table to those that it has. The words are those of x11.c. */
#include <gtk/gtk.h>
#include "steps.h"

static GString *committed;

static void on_commit(GtkIMContext *context, const char *text, gpointer data)
{
    (void)context, (void)data;
    g_string_append(committed, text);
}

static void press(GtkIMContext *context, GdkWindow *window, unsigned keysym)
{
    GdkEvent *event = gdk_event_new(GDK_KEY_PRESS);
    GdkSeat *seat = gdk_display_get_default_seat(gdk_display_get_default());
    event->key.window = g_object_ref(window);
    event->key.keyval = keysym;
    event->key.hardware_keycode = 9;
    gdk_event_set_device(event, gdk_seat_get_keyboard(seat));
    g_string_truncate(committed, 0);
    gboolean is_taken = gtk_im_context_filter_keypress(context, &event->key);
    print_answer(committed->len > 0 ? "committed" : is_taken ? "filtered" : "passed", committed->str, committed->len);
    gdk_event_free(event);
}

int main(int argc, char **argv)
{
    gtk_init(&argc, &argv);
    committed = g_string_new("");
    GtkWidget *widget = gtk_window_new(GTK_WINDOW_TOPLEVEL);
    gtk_widget_realize(widget);
    GdkWindow *window = gtk_widget_get_window(widget);
    GtkIMContext *context = gtk_im_context_simple_new();
    gtk_im_context_set_client_window(context, window);
    g_signal_connect(context, "commit", G_CALLBACK(on_commit), NULL);
    read_steps();
    for (size_t at = 0; at < step_count; at++) {
        if (steps[at].what == TABLE)
            gtk_im_context_simple_add_compose_file(GTK_IM_CONTEXT_SIMPLE(context), steps[at].path);
        else if (steps[at].what == KEY)
            press(context, window, (unsigned)steps[at].keysym);
        else
            gtk_im_context_reset(context);
    }
    return 0;
}
