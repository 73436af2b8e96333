#include "keys.h"

#include <algorithm>

namespace composecheck {

namespace {

constexpr uint32_t MultiKey = 0xff20, BackSpace = 0xff08, Escape = 0xff1b;
constexpr uint32_t FirstDeadKey = 0xfe50, LastDeadKey = 0xfe93;
constexpr const char *ComposeSign = "·";
// The dead keys from the first to the last. (A mark that has no form of its own stands on a no-break space.)
constexpr const char *Accents[] = {
    "`", "´", "^", "~", "¯", "˘", "˙", "¨", "˚", "˝", "ˇ", "¸", "˛", "ͺ", "゛", "゜",
    "\u00a0\u0323", "\u00a0\u0309", "\u00a0\u031b", "/", "᾿", "῾", "\u00a0\u030f", "˳", "ˍ", "\u00a0\u032d", "˷", "\u00a0\u032e", "\u00a0\u0324", "\u00a0\u0311", ",", "¤",
    "", "", "", "", "", "", "", "", "", "", "", "", "", "", "", "",
    "a", "A", "e", "E", "i", "I", "o", "O", "u", "U", "ə", "Ə", "µ", "\u00a0\u0654", "", "",
    "_", "ˈ", "ˌ", "\u00a0\u0338",
};
static_assert(std::size(Accents) == LastDeadKey - FirstDeadKey + 1);

bool isDeadKey(uint32_t keysym) { return FirstDeadKey <= keysym && keysym <= LastDeadKey; }

std::string accent(uint32_t keysym) { return isDeadKey(keysym) ? Accents[keysym - FirstDeadKey] : ""; }

} // namespace

bool isPrinted(const std::string &text) {
    for (size_t at = 0; at < text.size(); at++) {
        auto byte = static_cast<uint8_t>(text[at]);
        bool isUpperControl = byte == 0xc2 && at + 1 < text.size() && static_cast<uint8_t>(text[at + 1]) < 0xa0;
        if (byte < 0x20 || byte == 0x7f || isUpperControl) {
            return false;
        }
    }
    return !text.empty();
}

std::string signOf(uint32_t keysym, const CharacterOf &characterOf) {
    auto sign = keysym == MultiKey ? ComposeSign : accent(keysym);
    auto character = sign.empty() ? characterOf(keysym) : sign;
    return isPrinted(character) ? character : Other;
}

Answer Keys::press(uint32_t keysym, const Settings &settings, bool isTextField) {
    auto end = typing_.deadline();
    if (keysym == BackSpace && isPending()) {
        typing_.erase();
        return {true, ""};
    }
    bool keeps = settings.keepAccents && keysym != Escape;
    std::string accents;
    for (auto it : typing_.pending()) {
        accents += keeps ? accent(it) : "";
    }
    auto typed = typing_.key(keysym, end);
    if (typed && typed->isAccepted && typed->status == Status::Cancelled) {
        if (!keeps) {
            return {true, ""};
        }
        typed = typing_.key(keysym, end);
    } else if (typed) {
        accents.clear();
    }
    if (!typed && !accents.empty() && isPrinted(characterOf_(keysym))) {
        // (no service is reached: an accent that is committed and a key that passes might change places)
        return {true, accents + characterOf_(keysym)};
    }
    if (!typed || !typed->isAccepted) {
        return {false, accents};
    }
    if (typed->status != Status::Nothing) {
        return {true, accents + typed->text};
    }
    if (isPrinted(typed->text) && (!accents.empty() || (settings.commitPlain && isTextField))) {
        return {true, accents + typed->text};
    }
    // (a toolkit that gets a dead key begins a sequence of its own table with it: then two tables would type at once)
    return {typed->text.empty() && (keysym == MultiKey || isDeadKey(keysym)), accents};
}

std::string Keys::shown() const {
    std::string text;
    for (auto it : pending()) {
        text += signOf(it, characterOf_);
    }
    return text;
}

} // namespace composecheck
