#include "following.h"

#include <algorithm>
#include <cstdlib>
#include <dlfcn.h>
#include <fstream>
#include <iterator>
#include <set>
#include <string_view>
#include <sys/stat.h>

namespace composecheck {

namespace {

constexpr const char *LibraryName = "libcomposecheck.so.1";
// What is shown in the place of a text where the sequence goes on; how many keys are listed at most, and how many a page has.
constexpr const char *GoesOn = "…";
constexpr size_t Most = 1000, PageSize = 10;

// What is called of libcomposecheck.
struct Library {
    decltype(&composecheck_table_new) newTable;
    decltype(&composecheck_table_free) freeTable;
    decltype(&composecheck_table_feed) feed;
    decltype(&composecheck_pending) pending;
    decltype(&composecheck_table_following) following;
};

template <typename Function>
bool find(void *opened, const char *name, Function &function) {
    function = reinterpret_cast<Function>(dlsym(opened, name));
    return function != nullptr;
}

// The library, which stays open; null where it isn't installed. (So keys are typed without it.)
const Library *library() {
    static Library found;
    static void *opened = dlopen(LibraryName, RTLD_NOW | RTLD_LOCAL);
    static bool isFound = opened && find(opened, "composecheck_table_new", found.newTable) && find(opened, "composecheck_table_free", found.freeTable) &&
                          find(opened, "composecheck_table_feed", found.feed) && find(opened, "composecheck_pending", found.pending) &&
                          find(opened, "composecheck_table_following", found.following);
    return isFound ? &found : nullptr;
}

// Types keys from rest. Nothing: they aren't pending then, since no sequence goes on after them.
std::optional<composecheck_state> typed(const Table &table, const std::vector<uint32_t> &keysyms) {
    composecheck_state state{};
    uint8_t text[COMPOSECHECK_MOST_TEXT];
    uint32_t length, pending[COMPOSECHECK_MOST_PENDING];
    for (auto it : keysyms) {
        library()->feed(table.block, table.length, &state, it, text, &length);
    }
    bool isPending = std::equal(keysyms.begin(), keysyms.end(), pending, pending + library()->pending(&state, pending));
    return isPending ? std::optional(state) : std::nullopt;
}

// What a file of a table keeps: the payload of a load, the lines of its names (none if they are the built-in ones), and whether the longest of
// overlapping sequences counts.
struct Stored {
    std::string_view payload, names;
    bool isLongest;
};

// A part of the bytes whose length stands before it, in four bytes; the bytes are those behind it then. Nothing: they end before.
std::optional<std::string_view> partOf(std::string_view &bytes) {
    size_t length = 0;
    for (size_t at = 0; at < 4 && at < bytes.size(); at++) {
        length = length << 8 | static_cast<uint8_t>(bytes[at]);
    }
    if (bytes.size() < 4 || bytes.size() - 4 < length) {
        return std::nullopt;
    }
    auto part = bytes.substr(4, length);
    bytes.remove_prefix(4 + length);
    return part;
}

// Takes the words off the beginning of the bytes, if they begin with them.
bool begins(std::string_view &bytes, std::string_view words) {
    bool does = bytes.substr(0, words.size()) == words;
    bytes.remove_prefix(does ? words.size() : 0);
    return does;
}

// A source of this name, which stands at the beginning of the bytes with its length before it; the bytes are those behind it then.
std::optional<std::string_view> sourceOf(std::string_view &bytes, std::string_view name) {
    return begins(bytes, name) ? partOf(bytes) : std::nullopt;
}

// Reads such a file (docs/FORMATS.md), or one of an earlier form: without names, or the payload alone.
Stored storedIn(std::string_view file) {
    using namespace std::literals;
    for (bool isLongest : {true, false}) {
        auto rest = file;
        if (begins(rest, isLongest ? "\0\3\0\x1c"sv "composecheck-table 2 longest"sv : "\0\3\0\x1b"sv "composecheck-table 2 refuse"sv)) {
            auto repertoire = partOf(rest), names = sourceOf(rest, "\0\5names"sv), fresh = sourceOf(rest, "\0\5fresh"sv), payload = partOf(rest);
            return repertoire && names && fresh && payload ? Stored{*payload, *names, isLongest} : Stored{"", "", isLongest};
        }
        if (begins(rest, isLongest ? "\0\1\0\x1c"sv "composecheck-table 1 longest"sv : "\0\1\0\x1b"sv "composecheck-table 1 refuse"sv)) {
            auto repertoire = partOf(rest), payload = partOf(rest);
            return {repertoire && payload ? *payload : "", "", isLongest};
        }
    }
    return {file, "", true};
}

// Letters that need no Shift, what else has a sign, and what has a name alone.
using Ranks = std::array<std::vector<Row>, 3>;

// All rows without those that look like one before. (A digit of the keypad looks like the other one.)
std::vector<Row> distinct(const Ranks &ranks) {
    std::set<std::pair<std::string, std::string>> met;
    std::vector<Row> kept;
    for (const auto &rows : ranks) {
        std::copy_if(rows.begin(), rows.end(), std::back_inserter(kept), [&met](const Row &it) { return met.emplace(it.key, it.gives).second; });
    }
    return kept;
}

} // namespace

std::string storedPath() {
    const char *states = std::getenv("XDG_STATE_HOME"), *home = std::getenv("HOME");
    std::string folder = states && *states ? states : std::string(home ? home : "") + "/.local/state";
    return folder + "/composecheck/table";
}

std::vector<Row> Following::rows(const std::vector<uint32_t> &pending) {
    struct stat found {};
    stat(path_.c_str(), &found);
    std::array<int64_t, 3> seen{static_cast<int64_t>(found.st_ino), found.st_mtim.tv_sec, found.st_mtim.tv_nsec};
    if (seen_ != seen) {
        seen_ = seen;
        table_ = read();
    }
    auto state = table_ ? typed(*table_, pending) : std::nullopt;
    Ranks ranks;
    uint8_t text[COMPOSECHECK_MOST_TEXT];
    uint32_t keysym, status, length;
    auto next = [&](uint32_t at) { return library()->following(table_->block, table_->length, &*state, at, &keysym, &status, text, &length); };
    for (uint32_t at = 0; state && at < Most && next(at); at++) {
        std::string shown = sign(keysym), given(text, text + length);
        std::string gives = status == COMPOSECHECK_COMPOSING ? GoesOn : isPrinted(given) ? given : Other;
        size_t rank = shown >= "a" && shown <= "z" ? 0 : shown.empty() ? 2 : 1;
        ranks[rank].push_back({shown.empty() ? nameOf_(keysym) : shown, gives});
    }
    return distinct(ranks);
}

std::shared_ptr<const Table> Following::read() const {
    if (!library()) {
        tell(std::string("there is no ") + LibraryName);
        return nullptr;
    }
    std::ifstream file(path_, std::ios::binary);
    std::string bytes{std::istreambuf_iterator<char>(file), {}};
    auto stored = storedIn(bytes);
    composecheck_input input{};
    if (!stored.names.empty()) {
        input.header = stored.names.data();
        input.header_length = stored.names.size();
    }
    input.bundle = stored.payload.data();
    input.bundle_length = stored.payload.size();
    input.longest = stored.isLongest;
    composecheck_fault fault{};
    size_t length = 0;
    void *block = library()->newTable(&input, &length, &fault);
    if (!block) {
        tell("there is no table in " + path_);
        return nullptr;
    }
    return std::make_shared<const Table>(block, length, library()->freeTable);
}

// What is shown for a key, or nothing where that can't be told apart.
std::string Following::sign(uint32_t keysym) const {
    auto sign = signOf(keysym, characterOf_);
    return sign == Other || sign == " " || sign == "\u00a0" ? "" : sign;
}

void Listing::lookUp(const std::vector<uint32_t> &pending) {
    rows_ = pending.empty() ? std::vector<Row>{} : following_.rows(pending);
    page_ = 0;
}

bool Listing::turn(uint32_t keysym) {
    if ((keysym != PageUp && keysym != PageDown) || rows_.size() <= PageSize) {
        return false;
    }
    size_t pages = (rows_.size() + PageSize - 1) / PageSize;
    page_ = (page_ + (keysym == PageDown ? 1 : pages - 1)) % pages;
    return true;
}

std::vector<Row> Listing::rows() const {
    auto first = rows_.begin() + static_cast<ptrdiff_t>(std::min(page_ * PageSize, rows_.size()));
    return {first, first + std::min<ptrdiff_t>(PageSize, rows_.end() - first)};
}

std::string Listing::place() const {
    if (rows_.size() <= PageSize) {
        return "";
    }
    size_t first = page_ * PageSize;
    return std::to_string(first + 1) + "–" + std::to_string(first + rows().size()) + " / " + std::to_string(rows_.size());
}

} // namespace composecheck
