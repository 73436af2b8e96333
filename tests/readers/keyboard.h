/* A keyboard of X whose keys are given the keysyms of the steps: key codes 9 to 255, each with two groups of two levels.
 *
 * X gives some pairs of keysyms a meaning (a letter and its capital, the key pad), so that a key may have another keysym at a level than it was
 * given. Such a keysym has a key alone, at all four levels. */
#include <X11/Xlib.h>

enum { FIRST_CODE = 9, CODES = 247, LEVELS = 4, PLACES = CODES * LEVELS, NOWHERE = -1 };

static KeySym places[PLACES];
static int places_used;
static KeySym alone[PLACES];
static int alone_count;

static int index_in(const KeySym *list, int count, KeySym keysym)
{
    for (int i = 0; i < count; i++)
        if (list[i] == keysym)
            return i;
    return NOWHERE;
}

static int place_of(KeySym keysym)
{
    return index_in(places, places_used, keysym);
}

static unsigned code_of(int place)
{
    return FIRST_CODE + (unsigned)place / LEVELS;
}

static int has_shift(int place)
{
    return place % LEVELS & 1;
}

static int group_of(int place)
{
    return place % LEVELS >> 1;
}

static int is_key_pad(KeySym keysym)
{
    return keysym >= 0xff80 && keysym <= 0xffbd;
}

static void fill_key(KeySym keysym)
{
    do
        places[places_used++] = keysym;
    while (places_used % LEVELS != 0);
}

/* Gives the keysym a place, and returns whether it has one now. */
static int give_place(KeySym keysym)
{
    if (place_of(keysym) != NOWHERE)
        return 1;
    if (places_used > PLACES - 2 * LEVELS)
        return 0;
    if (!is_key_pad(keysym) && index_in(alone, alone_count, keysym) == NOWHERE) {
        places[places_used++] = keysym;
        return 1;
    }
    if (places_used % LEVELS != 0)
        fill_key(XK_space);
    fill_key(keysym);
    return 1;
}

/* Gives places to the keysyms of the steps from this one on, as long as there are any, and returns the first step for which there is none. */
static size_t give_places(size_t from)
{
    places_used = 0;
    while (from < step_count && (steps[from].what != KEY || give_place(steps[from].keysym)))
        from++;
    return from;
}

/* Puts the keysyms on the keys of the display. */
static void map_keyboard(Display *display)
{
    KeySym keysyms[PLACES];
    for (int i = 0; i < PLACES; i++)
        keysyms[i] = i < places_used ? places[i] : XK_space;
    XChangeKeyboardMapping(display, FIRST_CODE, LEVELS, keysyms, CODES);
    XSync(display, False);
}

/* Has the keysym of a place stand alone from now on, and returns whether that is new: whether the keys have to be mapped again. */
static int set_alone(int place)
{
    if (places[place] == XK_space || index_in(alone, alone_count, places[place]) != NOWHERE || alone_count == PLACES)
        return 0;
    alone[alone_count++] = places[place];
    return 1;
}
