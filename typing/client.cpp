#include "client.h"

#include <algorithm>
#include <cerrno>
#include <poll.h>
#include <sys/socket.h>
#include <sys/un.h>
#include <unistd.h>

namespace composecheck {

std::unique_ptr<Connection> Connection::open(const std::string &path) {
    sockaddr_un address{};
    address.sun_family = AF_UNIX;
    if (path.size() >= sizeof(address.sun_path)) {
        return nullptr;
    }
    path.copy(address.sun_path, path.size());
    // (a full queue of a service that hangs is an error at once)
    int descriptor = socket(AF_UNIX, SOCK_STREAM | SOCK_CLOEXEC | SOCK_NONBLOCK, 0);
    if (descriptor < 0) {
        return nullptr;
    }
    std::unique_ptr<Connection> made(new Connection(descriptor));
    if (::connect(descriptor, reinterpret_cast<sockaddr *>(&address), sizeof(address)) != 0) {
        return nullptr;
    }
    return made;
}

Connection::~Connection() { ::close(descriptor_); }

bool Connection::send(const uint8_t *bytes, size_t count) {
    // (at most 448 bytes, which a socket takes whole. What the service sent before it closed may still be read)
    ssize_t taken = ::send(descriptor_, bytes, count, MSG_NOSIGNAL);
    return taken < 0 || static_cast<size_t>(taken) == count;
}

Came Connection::read(uint8_t *bytes, size_t room, size_t &count, Clock::time_point end) {
    for (;;) {
        auto left = std::chrono::ceil<std::chrono::milliseconds>(end - Clock::now()).count();
        pollfd polled{descriptor_, POLLIN, 0};
        int ready = poll(&polled, 1, static_cast<int>(std::max<decltype(left)>(left, 0)));
        if (ready == 0) {
            return Came::TimeUp;
        }
        ssize_t came = ready < 0 ? -1 : recv(descriptor_, bytes, room, 0);
        if (came < 0 && (errno == EINTR || errno == EAGAIN)) {
            continue;
        }
        count = static_cast<size_t>(std::max<ssize_t>(came, 0));
        return count == 0 ? Came::Lost : Came::Bytes;
    }
}

} // namespace composecheck
