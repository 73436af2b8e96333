#include "choices.h"

#include <ibus.h>

namespace composecheck {

namespace {

constexpr const char *Schema = "org.freedesktop.ibus.engine.composecheck";

bool isInstalled() {
    auto source = g_settings_schema_source_get_default();
    auto schema = source ? g_settings_schema_source_lookup(source, Schema, TRUE) : nullptr;
    if (!schema) {
        return false;
    }
    g_settings_schema_unref(schema);
    return true;
}

} // namespace

Choices::Choices() {
    if (isInstalled()) {
        stored_ = g_settings_new(Schema);
        g_signal_connect_swapped(stored_, "changed", G_CALLBACK(+[](Choices *it) { it->read(); }), this);
        read();
    }
}

Choices::~Choices() {
    if (stored_) {
        g_signal_handlers_disconnect_by_data(stored_, this);
        g_object_unref(stored_);
    }
}

void Choices::read() {
    settings_ = {g_settings_get_boolean(stored_, "keep-accents") != FALSE, g_settings_get_boolean(stored_, "commit-plain") != FALSE};
    listsFollowing_ = g_settings_get_boolean(stored_, "list-following");
    auto name = g_settings_get_string(stored_, "list-key");
    listKey_ = name;
    g_free(name);
}

bool Choices::switchList(uint32_t keysym) {
    auto name = ibus_keyval_name(keysym);
    if (!stored_ || !name || name != listKey_) {
        return false;
    }
    listsFollowing_ = !listsFollowing_;
    g_settings_set_boolean(stored_, "list-following", listsFollowing_);
    return true;
}

} // namespace composecheck
