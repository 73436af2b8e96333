/* gtk4 < STEPS: the input method of GTK 4, which adds each table to those that it has. The words are those of x11.c. Only a display can make an
 * event of a key, so the keys of one of X are mapped. */
#include <gtk/gtk.h>
#include <gdk/x11/gdkx.h>
#include <X11/keysym.h>
#include "steps.h"
#include "keyboard.h"

static GdkDisplay *display;
static GdkSurface *surface;
static GtkIMContext *context;
static GString *committed;

static void on_commit(GtkIMContext *from, const char *text, gpointer data)
{
    (void)from, (void)data;
    g_string_append(committed, text);
}

static GdkModifierType shift_of(int place)
{
    return has_shift(place) ? GDK_SHIFT_MASK : 0;
}

static unsigned keysym_at(int place)
{
    guint keysym = 0;
    gdk_display_translate_key(display, code_of(place), shift_of(place), group_of(place), &keysym, NULL, NULL, NULL);
    return keysym;
}

/* Has GTK take notice of the mapping: it reads this when it next needs it, after the event that reports it. */
static void wait_for_mapping(void)
{
    for (int i = 0; i < 6; i++) {
        while (g_main_context_pending(NULL))
            g_main_context_iteration(NULL, FALSE);
        g_usleep(50000);
    }
}

/* Maps the keyboard for the steps from this one on, and returns the first one for which there was no place. */
static size_t map_for(size_t from)
{
    size_t end;
    int is_new;
    do {
        end = give_places(from);
        map_keyboard(gdk_x11_display_get_xdisplay(display));
        wait_for_mapping();
        is_new = 0;
        for (int place = 0; place < places_used; place++)
            if (keysym_at(place) != places[place])
                is_new |= set_alone(place);
    } while (is_new);
    return end;
}

static void press(KeySym keysym)
{
    int place = place_of(keysym);
    if (keysym_at(place) != keysym) {
        print_answer("unmapped", "", 0);
        return;
    }
    GdkDevice *keyboard = gdk_seat_get_keyboard(gdk_display_get_default_seat(display));
    g_string_truncate(committed, 0);
    gboolean is_taken = gtk_im_context_filter_key(context, TRUE, surface, keyboard, 0, code_of(place), shift_of(place), group_of(place));
    print_answer(committed->len > 0 ? "committed" : is_taken ? "filtered" : "passed", committed->str, committed->len);
}

static void do_step(const struct step *step)
{
    if (step->what == TABLE)
        gtk_im_context_simple_add_compose_file(GTK_IM_CONTEXT_SIMPLE(context), step->path);
    else if (step->what == KEY)
        press(step->keysym);
    else
        gtk_im_context_reset(context);
}

int main(void)
{
    gtk_init();
    committed = g_string_new("");
    display = gdk_display_get_default();
    GtkWidget *widget = gtk_window_new();
    gtk_widget_realize(widget);
    surface = gtk_native_get_surface(GTK_NATIVE(widget));
    context = gtk_im_context_simple_new();
    gtk_im_context_set_client_widget(context, widget);
    g_signal_connect(context, "commit", G_CALLBACK(on_commit), NULL);
    read_steps();
    for (size_t at = 0; at < step_count;) {
        size_t end = map_for(at);
        for (; at < end; at++)
            do_step(&steps[at]);
    }
    return 0;
}
