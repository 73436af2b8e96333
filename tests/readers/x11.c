/* x11 < STEPS: the local input method of libX11, which reads the tables that XCOMPOSEFILE names. Each key is a KeyPress that is given to
 * XFilterEvent. `passed` says that this left it to the application, `filtered` that it took it, `committed` that it gave a text for it. */
#include <locale.h>
#include <X11/Xlib.h>
#include <X11/Xutil.h>
#include <X11/keysym.h>
#include "steps.h"
#include "keyboard.h"

static Display *display;
static Window window;
static XIM method;
static XIC context;

static void open_table(const char *path)
{
    if (context != NULL)
        XDestroyIC(context);
    if (method != NULL)
        XCloseIM(method);
    setenv("XCOMPOSEFILE", path, 1);
    method = XOpenIM(display, NULL, NULL, NULL);
    if (method == NULL)
        exit(2);
    context = XCreateIC(method, XNInputStyle, XIMPreeditNothing | XIMStatusNothing, XNClientWindow, window, NULL);
}

static XKeyEvent press_of(int place)
{
    XKeyEvent press;
    memset(&press, 0, sizeof press);
    press.type = KeyPress;
    press.display = display;
    press.window = window;
    press.same_screen = True;
    press.keycode = code_of(place);
    press.state = (has_shift(place) ? ShiftMask : 0) | (unsigned)group_of(place) << 13;
    return press;
}

static KeySym keysym_at(int place)
{
    XKeyEvent press = press_of(place);
    KeySym keysym = NoSymbol;
    char text[64];
    XLookupString(&press, text, sizeof text, &keysym, NULL);
    return keysym;
}

static void refresh_mapping(void)
{
    while (XPending(display) > 0) {
        XEvent event;
        XNextEvent(display, &event);
        if (event.type == MappingNotify)
            XRefreshKeyboardMapping(&event.xmapping);
    }
}

/* Maps the keyboard for the steps from this one on, and returns the first one for which there was no place. */
static size_t map_for(size_t from)
{
    size_t end;
    int is_new;
    do {
        end = give_places(from);
        map_keyboard(display);
        refresh_mapping();
        is_new = 0;
        for (int place = 0; place < places_used; place++)
            if (keysym_at(place) != places[place])
                is_new |= set_alone(place);
    } while (is_new);
    return end;
}

static void print_lookup(const char *word, XKeyEvent *press)
{
    char text[2048];
    KeySym keysym;
    Status status;
    int length = Xutf8LookupString(context, press, text, sizeof text, &keysym, &status);
    print_answer(word, text, (size_t)length);
}

/* The event with the key code 0 that libX11 puts back for a text, if it did. */
static int take_committed(XEvent *event)
{
    while (XQLength(display) > 0) {
        XNextEvent(display, event);
        if (event->type == KeyPress && event->xkey.keycode == 0)
            return 1;
    }
    return 0;
}

static void press(KeySym keysym)
{
    int place = place_of(keysym);
    XEvent event;
    if (keysym_at(place) != keysym) {
        print_answer("unmapped", "", 0);
        return;
    }
    event.xkey = press_of(place);
    if (!XFilterEvent(&event, window))
        print_lookup("passed", &event.xkey);
    else if (take_committed(&event))
        print_lookup("committed", &event.xkey);
    else
        print_answer("filtered", "", 0);
}

static void do_step(const struct step *step)
{
    if (step->what == TABLE)
        open_table(step->path);
    else if (step->what == KEY)
        press(step->keysym);
    else
        XFree(Xutf8ResetIC(context));
}

int main(void)
{
    if (setlocale(LC_ALL, "C.UTF-8") == NULL || !XSupportsLocale() || XSetLocaleModifiers("@im=none") == NULL)
        return 2;
    display = XOpenDisplay(NULL);
    if (display == NULL)
        return 2;
    window = XCreateSimpleWindow(display, DefaultRootWindow(display), 0, 0, 10, 10, 0, 0, 0);
    read_steps();
    for (size_t at = 0; at < step_count;) {
        size_t end = map_for(at);
        for (; at < end; at++)
            do_step(&steps[at]);
    }
    return 0;
}
