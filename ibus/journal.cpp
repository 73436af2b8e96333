#include "journal.h"

#include <algorithm>
#include <cstdio>
#include <sys/socket.h>
#include <unistd.h>

namespace composecheck {

namespace {

// The priorities of syslog.
constexpr const char *Warning = "4", *Information = "6";

} // namespace

// (a journal that is slow holds no key up)
Journal::Journal(std::string name, const std::string &path) : name_(std::move(name)), descriptor_(socket(AF_UNIX, SOCK_DGRAM | SOCK_CLOEXEC | SOCK_NONBLOCK, 0)) {
    address_.sun_family = AF_UNIX;
    path.copy(address_.sun_path, sizeof(address_.sun_path) - 1);
}

Journal::~Journal() { close(descriptor_); }

void Journal::write(bool isFault, std::string message) const {
    // (a further line would be another field)
    std::replace(message.begin(), message.end(), '\n', ' ');
    std::string fields = std::string("PRIORITY=") + (isFault ? Warning : Information) + "\nSYSLOG_IDENTIFIER=" + name_ + "\nMESSAGE=" + message + "\n";
    if (sendto(descriptor_, fields.data(), fields.size(), MSG_NOSIGNAL, reinterpret_cast<const sockaddr *>(&address_), sizeof(address_)) < 0) {
        std::fprintf(stderr, "%s: %s\n", name_.c_str(), message.c_str());
    }
}

} // namespace composecheck
