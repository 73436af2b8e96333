// The engine of IBus: an object of a message bus for each place where somebody types.
#pragma once

#include "choices.h"
#include "following.h"

#include <ibus.h>

namespace composecheck {

// What all engines of the process share.
struct Shared {
    Service &service;
    Following &following;
    Choices &choices;
};

// The character of a keysym and its name, as IBus has them.
std::string characterOf(uint32_t keysym);
std::string nameOf(uint32_t keysym);

// Makes an engine at this path of the connection, which whoever sinks its reference owns. What is shared has to outlast it.
IBusEngine *newEngine(GDBusConnection *connection, const std::string &path, const Shared &shared);

} // namespace composecheck
