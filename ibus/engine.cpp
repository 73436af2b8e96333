#include "engine.h"

#include <algorithm>

namespace composecheck {

namespace {

// With one of these held down a key is a command, and none of a sequence. (AltGr is Mod5, and NumLock is Mod2.)
constexpr guint Commands = IBUS_CONTROL_MASK | IBUS_MOD1_MASK | IBUS_MOD4_MASK | IBUS_SUPER_MASK | IBUS_HYPER_MASK | IBUS_META_MASK;

// (what gets a text of this kind owns it)
IBusText *textOf(const std::string &text) { return ibus_text_new_from_string(text.c_str()); }

// Where somebody types. The daemon moves one engine from application to application, and reports each change of the focus.
class Place {
public:
    Place(IBusEngine *engine, const Shared &shared) : engine_(engine), choices_(shared.choices), keys_(shared.service, characterOf), listing_(shared.following) {}

    // Whether the key is done with; else the application gets it.
    bool press(uint32_t keysym, uint32_t state);
    // Whether the key shows or hides the list, or turns its page; that is done then.
    bool isForList(uint32_t keysym);
    // Forgets what is pending.
    void drop();
    // Nobody types here any more.
    void close() { keys_.close(); }

private:
    bool isTextField() const;
    void show();
    void lookUp();
    void showList();

    IBusEngine *engine_;
    Choices &choices_;
    Keys keys_;
    Listing listing_;
    std::string shown_;
};

bool Place::press(uint32_t keysym, uint32_t state) {
    if (state & (IBUS_RELEASE_MASK | Commands)) {
        return false;
    }
    if (!shown_.empty() && isForList(keysym)) {
        return true;
    }
    auto answer = keys_.press(keysym, choices_.settings(), isTextField());
    show();
    if (!answer.text.empty()) {
        ibus_engine_commit_text(engine_, textOf(answer.text));
    }
    return answer.isTaken;
}

bool Place::isForList(uint32_t keysym) {
    if (choices_.switchList(keysym)) {
        lookUp();
    } else if (listing_.turn(keysym)) {
        showList();
    } else {
        return false;
    }
    return true;
}

void Place::drop() {
    keys_.drop();
    show();
}

// Whether a plain key is nothing but its text here. (A game reports no text around the cursor.)
bool Place::isTextField() const {
    guint purpose, hints;
    ibus_engine_get_content_type(engine_, &purpose, &hints);
    return (engine_->client_capabilities & IBUS_CAP_SURROUNDING_TEXT) && purpose != IBUS_INPUT_PURPOSE_TERMINAL;
}

// Shows what is pending, underlined, where the next text will stand.
void Place::show() {
    auto shown = keys_.shown();
    if (shown == shown_) {
        return;
    }
    shown_ = shown;
    if (shown.empty()) {
        ibus_engine_hide_preedit_text(engine_);
    } else {
        auto text = textOf(shown);
        auto length = ibus_text_get_length(text);
        ibus_text_append_attribute(text, IBUS_ATTR_TYPE_UNDERLINE, IBUS_ATTR_UNDERLINE_SINGLE, 0, static_cast<gint>(length));
        // (an application that loses the focus drops the text, and doesn't keep it)
        ibus_engine_update_preedit_text_with_mode(engine_, text, length, TRUE, IBUS_ENGINE_PREEDIT_CLEAR);
    }
    lookUp();
}

// Lists the keys that can follow, if that is chosen.
void Place::lookUp() {
    bool wasListed = !listing_.rows().empty();
    if (wasListed || choices_.listsFollowing()) {
        listing_.lookUp(choices_.listsFollowing() ? keys_.pending() : std::vector<uint32_t>{});
    }
    if (wasListed || !listing_.rows().empty()) {
        showList();
    }
}

// Shows a page of the keys that can follow, each with what it gives, or takes it away.
void Place::showList() {
    auto rows = listing_.rows();
    auto place = listing_.place();
    auto table = ibus_lookup_table_new(static_cast<guint>(std::max<size_t>(rows.size(), 1)), 0, FALSE, FALSE);
    for (guint at = 0; at < rows.size(); at++) {
        ibus_lookup_table_append_candidate(table, textOf(rows[at].gives));
        ibus_lookup_table_set_label(table, at, textOf(rows[at].key));
    }
    ibus_engine_update_lookup_table(engine_, table, !rows.empty());
    ibus_engine_update_auxiliary_text(engine_, textOf(place), !place.empty());
}

// ---- the object

struct ComposecheckEngine {
    IBusEngine parent;
    Place *place;
};

struct ComposecheckEngineClass {
    IBusEngineClass parent;
};

G_DEFINE_TYPE(ComposecheckEngine, engine, IBUS_TYPE_ENGINE)

Place &placeOf(gpointer engine) { return *static_cast<ComposecheckEngine *>(engine)->place; }

gboolean processKeyEvent(IBusEngine *engine, guint keysym, guint, guint state) { return placeOf(engine).press(keysym, state); }

void drop(IBusEngine *engine) { placeOf(engine).drop(); }

void pageUp(IBusEngine *engine) { placeOf(engine).isForList(PageUp); }

void pageDown(IBusEngine *engine) { placeOf(engine).isForList(PageDown); }

// The daemon needs the engine no more; what else refers to the object may keep it for a while.
void destroy(IBusObject *engine) {
    placeOf(engine).close();
    IBUS_OBJECT_CLASS(engine_parent_class)->destroy(engine);
}

void finalize(GObject *engine) {
    delete &placeOf(engine);
    G_OBJECT_CLASS(engine_parent_class)->finalize(engine);
}

void engine_class_init(ComposecheckEngineClass *made) {
    G_OBJECT_CLASS(made)->finalize = finalize;
    IBUS_OBJECT_CLASS(made)->destroy = destroy;
    auto &engine = made->parent;
    engine.process_key_event = processKeyEvent;
    engine.reset = engine.focus_out = engine.disable = drop;
    engine.page_up = pageUp;
    engine.page_down = pageDown;
}

void engine_init(ComposecheckEngine *) {}

} // namespace

std::string characterOf(uint32_t keysym) {
    auto character = ibus_keyval_to_unicode(keysym);
    char bytes[6];
    return {bytes, character ? static_cast<size_t>(g_unichar_to_utf8(character, bytes)) : 0};
}

std::string nameOf(uint32_t keysym) {
    auto name = ibus_keyval_name(keysym);
    return name ? name : "";
}

IBusEngine *newEngine(GDBusConnection *connection, const std::string &path, const Shared &shared) {
    auto made = static_cast<ComposecheckEngine *>(g_object_new(engine_get_type(), "object-path", path.c_str(), "connection", connection, nullptr));
    made->place = new Place(&made->parent, shared);
    return &made->parent;
}

} // namespace composecheck
