// The engines of the component: the one that leaves the keyboard's layout alone, and one for each layout of the system.
#pragma once

#include <string>

namespace composecheck {

// Whether the component has engines of this name: "composecheck", or that with a layout, and its variant if there is one, as "composecheck:de:neo".
bool isEngine(const std::string &name);

// The list of those with a layout, in the form of a component file, which asks for it when IBus starts. `setup` is the program of the settings.
std::string listOfEngines(const std::string &layouts, const std::string &setup);

} // namespace composecheck
