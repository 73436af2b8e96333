// Which keys can follow those that are pending, and what they give, by the table that `composecheck update` stored. No toolkit is in it.
#pragma once

#include "keys.h"

#include <composecheck.h>
#include <memory>

namespace composecheck {

// A key, and what it gives: the text of the sequence that it completes, or "…" where the sequence goes on.
struct Row {
    std::string key, gives;
};

// Where `composecheck update` stores the table.
std::string storedPath();

// The keys that turn the page.
constexpr uint32_t PageUp = 0xff55, PageDown = 0xff56;

// A table of the library, one block of bytes, which is freed with this.
struct Table {
    Table(void *givenBlock, size_t givenLength, void (*givenFree)(void *)) : block(givenBlock), length(givenLength), free_(givenFree) {}
    Table(const Table &) = delete;
    Table &operator=(const Table &) = delete;
    ~Table() { free_(block); }

    void *const block;
    const size_t length;

private:
    void (*const free_)(void *);
};

// What can follow, in all places where somebody types. libcomposecheck.so.1 reads the table, and again once that has changed.
class Following {
public:
    // `log` is told once why nothing is listed: there is no library, or no table.
    Following(std::string path, CharacterOf characterOf, CharacterOf nameOf, Log log)
        : path_(std::move(path)), characterOf_(std::move(characterOf)), nameOf_(std::move(nameOf)), log_(std::move(log)) {}

    // The keys that can follow: letters, other signs, names. None where the stored table has no sequence that begins with what is pending.
    std::vector<Row> rows(const std::vector<uint32_t> &pending);

private:
    std::shared_ptr<const Table> read() const;
    void tell(const std::string &why) const { log_(true, "the keys that can follow are not listed: " + why); }
    std::string sign(uint32_t keysym) const;

    std::string path_;
    CharacterOf characterOf_, nameOf_;
    Log log_;
    // What changes with the file, as it was when the table was read.
    std::optional<std::array<int64_t, 3>> seen_;
    std::shared_ptr<const Table> table_;
};

// What can follow in a place where somebody types, a page of it at a time.
class Listing {
public:
    explicit Listing(Following &following) : following_(following) {}

    // Lists what can follow these keys, from the first page on; of no keys nothing.
    void lookUp(const std::vector<uint32_t> &pending);
    // Turns the page, if the key is one for that and there are several.
    bool turn(uint32_t keysym);
    // The rows of the page.
    std::vector<Row> rows() const;
    // Which rows of how many these are; nothing where they are all.
    std::string place() const;

private:
    Following &following_;
    std::vector<Row> rows_;
    size_t page_ = 0;
};

} // namespace composecheck
