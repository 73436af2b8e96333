#include "engines.h"

#include "layouts.h"

#include <cstdlib>
#include <ibus.h>

namespace composecheck {

namespace {

constexpr const char *Name = "composecheck";

// Whether the desktop is GNOME, by one of its names.
bool isGnome() {
    auto desktops = std::getenv("XDG_CURRENT_DESKTOP");
    return desktops && (":" + std::string(desktops) + ":").find(":GNOME:") != std::string::npos;
}

// (GNOME Shell reads no variant of an engine, but has its own name for a layout with one, which no X server knows)
void write(const Layout &layout, bool isForGnome, const std::string &setup, GString *list) {
    bool isOneWord = isForGnome && !layout.variant.empty();
    auto name = std::string(Name) + ":" + layout.name + (layout.variant.empty() ? "" : ":" + layout.variant);
    auto set = isOneWord ? layout.name + "+" + layout.variant : layout.name;
    auto longName = layout.description + ", Compose";
    auto engine = ibus_engine_desc_new_varargs(
        "name", name.c_str(), "longname", longName.c_str(), "description", "Types by a Compose table that may be replaced while you type", "language",
        layout.language.c_str(), "license", "MIT", "author", "The composecheck authors", "icon", "ibus-composecheck", "layout", set.c_str(), "layout-variant",
        isOneWord ? "" : layout.variant.c_str(), "symbol", layout.label.c_str(), "setup", setup.c_str(), nullptr);
    g_object_ref_sink(engine);
    ibus_engine_desc_output(engine, list, 1);
    g_object_unref(engine);
}

} // namespace

bool isEngine(const std::string &name) {
    auto prefix = std::string(Name) + ":";
    return name == Name || name.compare(0, prefix.size(), prefix) == 0;
}

std::string listOfEngines(const std::string &layouts, const std::string &setup) {
    auto list = g_string_new("<engines>\n");
    bool isForGnome = isGnome();
    for (const auto &it : layoutsOf(layouts)) {
        write(it, isForGnome, setup, list);
    }
    g_string_append(list, "</engines>\n");
    std::string written(list->str, list->len);
    g_string_free(list, TRUE);
    return written;
}

} // namespace composecheck
