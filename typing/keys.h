// What an input method does with a key: whether it takes it, which text it commits, and what it shows as pending. No toolkit is in it.
#pragma once

#include "typing.h"

namespace composecheck {

// What people may choose.
struct Settings {
    // Where a key cancels a sequence, its dead keys are typed as accents, and the key counts by itself; else both are lost.
    bool keepAccents = true;
    // In text fields a plain key is committed as a text, so that no text overtakes it; else the application gets the key.
    bool commitPlain = true;
};

// Whether a key is done with, or the application gets it; and a text that is committed before.
struct Answer {
    bool isTaken;
    std::string text;
};

// The character of a keysym, in UTF-8, or nothing.
using CharacterOf = std::function<std::string(uint32_t)>;

// What is shown for a key that has no character.
constexpr const char *Other = "•";
// What is shown for a key.
std::string signOf(uint32_t keysym, const CharacterOf &characterOf);
// Whether a text stands for itself: it is there, and has no control characters.
bool isPrinted(const std::string &text);

// The keys of a place where somebody types.
class Keys {
public:
    Keys(Service &service, CharacterOf characterOf) : typing_(service), characterOf_(std::move(characterOf)) {}

    // Answers a key that is pressed, and is no command. It takes no longer than the patience.
    Answer press(uint32_t keysym, const Settings &settings, bool isTextField);
    // The pending keys, as the person at the keyboard sees them.
    std::string shown() const;
    std::vector<uint32_t> pending() const { return typing_.pending(); }
    bool isPending() const { return !pending().empty(); }
    // Forgets the pending keys: the focus has left, or the application wants it.
    void drop() { typing_.reset(); }
    // Ends the session: nobody types here any more.
    void close() { typing_.close(); }

private:
    Typing typing_;
    CharacterOf characterOf_;
};

} // namespace composecheck
