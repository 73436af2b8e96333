// Messages to the journal of systemd, from a process whose standard error nobody keeps.
#pragma once

#include <string>
#include <sys/un.h>

namespace composecheck {

class Journal {
public:
    // `name` is what `journalctl --user -t NAME` finds the messages by.
    explicit Journal(std::string name, const std::string &path = "/run/systemd/journal/socket");
    ~Journal();
    Journal(const Journal &) = delete;
    Journal &operator=(const Journal &) = delete;

    // Hands a message over in the journal's own form. What the journal doesn't take goes to standard error.
    void write(bool isFault, std::string message) const;

private:
    std::string name_;
    sockaddr_un address_{};
    int descriptor_;
};

} // namespace composecheck
