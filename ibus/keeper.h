// A process that starts another one again where that is killed.
#pragma once

#include <functional>
#include <string>

namespace composecheck {

// A short text that a process leaves to the one that takes its place, whatever ends it.
class Note {
public:
    Note();
    ~Note();
    Note(const Note &) = delete;
    Note &operator=(const Note &) = delete;

    // What was written last; nothing, if nothing was, or if there is no memory for it.
    std::string read() const { return page_ ? page_ : ""; }
    // Writes a text, or nothing in the place of one that is too long.
    void write(const std::string &text);

private:
    char *page_;
};

// Runs the work in a process of its own, and returns its status. If a signal kills that which was not sent to this process, the work is run again,
// unless it has only just begun; it learns so by its argument. What ends this process ends it.
int keepRunning(const std::function<int(bool isAgain)> &work);

} // namespace composecheck
