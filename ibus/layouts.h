// The keyboard layouts that the system has, each of which gets an engine: a desktop sets the layout of the engine that is chosen.
#pragma once

#include <string>
#include <vector>

namespace composecheck {

// A layout, or a variant of one, as XKB's list of them says.
struct Layout {
    // `variant` is empty for the layout itself.
    std::string name, variant;
    // What settings show ("German (no dead keys)"), the code of the first language ("de"; "other" where there is none), and two or three letters.
    std::string description, language, label;
};

// The list of xkeyboard-config.
constexpr const char *LayoutsFile = "/usr/share/X11/xkb/rules/evdev.xml";

// The layouts of such a list in its order, each before its variants. None where the file can't be read.
std::vector<Layout> layoutsOf(const std::string &file);

} // namespace composecheck
