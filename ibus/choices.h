// What the user of the engine of IBus has chosen.
#pragma once

#include "keys.h"

#include <gio/gio.h>

namespace composecheck {

// The settings, which are read once, and again when one changes. Where their schema isn't installed, the defaults.
class Choices {
public:
    Choices();
    ~Choices();
    Choices(const Choices &) = delete;
    Choices &operator=(const Choices &) = delete;

    const Settings &settings() const { return settings_; }
    // Whether the keys that can follow are listed.
    bool listsFollowing() const { return listsFollowing_; }
    // Whether the key is the one that shows and hides the list; if so, it does.
    bool switchList(uint32_t keysym);

private:
    void read();

    // Null where the schema isn't installed.
    GSettings *stored_ = nullptr;
    Settings settings_;
    bool listsFollowing_ = false;
    std::string listKey_;
};

} // namespace composecheck
