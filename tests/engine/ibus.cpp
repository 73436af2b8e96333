// The engine of IBus (ibus/engine.cpp, ibus/choices.cpp) without a daemon, for tests/engine.py: what it would send to the daemon is printed.
//
// ibus SOCKET TABLE: each line of standard input is a call of the daemon: `key KEYSYM MODIFIERS`, `reset`, `focus-out`, `disable`, `page-up`,
// `page-down`, or `set NAME VALUE` for a choice of the user. The answer is whether a key is done with, and then what would be sent, in order:
// `commit=TEXT`, `shown=TEXT`, `hidden`, and `listed=KEY:GIVES,..` for the list, with texts in hexadecimal.
#include "engine.h"

#include <iostream>
#include <sstream>

namespace {

std::string sent;

std::string hexadecimal(const char *text) {
    static const char digits[] = "0123456789abcdef";
    std::string made;
    for (; *text; text++) {
        made += digits[static_cast<uint8_t>(*text) >> 4];
        made += digits[*text & 15];
    }
    return made;
}

std::string taken(IBusText *text) {
    g_object_ref_sink(text);
    auto made = hexadecimal(ibus_text_get_text(text));
    g_object_unref(text);
    return made;
}

} // namespace

// What the engine calls in the place of IBus's own functions.
extern "C" {

void ibus_engine_commit_text(IBusEngine *, IBusText *text) { sent += " commit=" + taken(text); }

void ibus_engine_hide_preedit_text(IBusEngine *) { sent += " hidden"; }

void ibus_engine_update_preedit_text_with_mode(IBusEngine *, IBusText *text, guint, gboolean, IBusPreeditFocusMode) { sent += " shown=" + taken(text); }

void ibus_engine_update_auxiliary_text(IBusEngine *, IBusText *text, gboolean) { taken(text); }

void ibus_engine_update_lookup_table(IBusEngine *, IBusLookupTable *table, gboolean isShown) {
    g_object_ref_sink(table);
    sent += " listed=";
    for (guint at = 0; isShown && at < ibus_lookup_table_get_number_of_candidates(table); at++) {
        sent += hexadecimal(ibus_text_get_text(ibus_lookup_table_get_label(table, at))) + ":";
        sent += hexadecimal(ibus_text_get_text(ibus_lookup_table_get_candidate(table, at))) + ",";
    }
    g_object_unref(table);
}
}

namespace {

void log(bool, const std::string &what) { std::cerr << what << std::endl; }

// A choice of the user: true, false, or a name.
void choose(const std::string &name, const std::string &value) {
    auto settings = g_settings_new("org.freedesktop.ibus.engine.composecheck");
    if (value == "true" || value == "false") {
        g_settings_set_boolean(settings, name.c_str(), value == "true");
    } else {
        g_settings_set_string(settings, name.c_str(), value.c_str());
    }
    g_object_unref(settings);
    while (g_main_context_iteration(nullptr, FALSE)) {
    }
}

bool call(IBusEngine *engine, const std::string &line) {
    std::istringstream words(line);
    std::string what, name, value;
    guint keysym, modifiers;
    auto made = IBUS_ENGINE_GET_CLASS(engine);
    words >> what;
    if (what == "key" && words >> keysym >> modifiers) {
        return made->process_key_event(engine, keysym, 0, modifiers);
    }
    if (what == "set" && words >> name >> value) {
        choose(name, value);
    }
    for (auto [word, method] : {std::pair("reset", made->reset), {"focus-out", made->focus_out}, {"disable", made->disable}, {"page-up", made->page_up}, {"page-down", made->page_down}}) {
        if (what == word) {
            method(engine);
        }
    }
    return false;
}

} // namespace

int main(int, char **words) {
    ibus_init();
    composecheck::Service service(words[1], log, std::chrono::seconds(30));
    composecheck::Following following(words[2], composecheck::characterOf, composecheck::nameOf, log);
    composecheck::Choices choices;
    auto engine = composecheck::newEngine(nullptr, "/org/freedesktop/IBus/Engine/Composecheck/1", {service, following, choices});
    g_object_ref_sink(engine);
    for (std::string line; std::getline(std::cin, line);) {
        sent.clear();
        bool isTaken = call(engine, line);
        std::cout << isTaken << sent << std::endl;
    }
    ibus_object_destroy(IBUS_OBJECT(engine));
    g_object_unref(engine);
}
