// A connection to a composecheck service. Which bytes are sent, and what those that come mean, is libcomposecheck-client's.
#pragma once

#include <chrono>
#include <cstddef>
#include <cstdint>
#include <memory>
#include <string>

namespace composecheck {

using Clock = std::chrono::steady_clock;

// How a wait for bytes ended.
enum class Came { Bytes, TimeUp, Lost };

class Connection {
public:
    // Null where nobody listens.
    static std::unique_ptr<Connection> open(const std::string &path);
    ~Connection();
    Connection(const Connection &) = delete;
    Connection &operator=(const Connection &) = delete;

    // False: the connection is lost.
    bool send(const uint8_t *bytes, size_t count);
    // Waits until some bytes come, as many as there is room for at most, and counts them.
    Came read(uint8_t *bytes, size_t room, size_t &count, Clock::time_point end);

private:
    explicit Connection(int descriptor) : descriptor_(descriptor) {}

    int descriptor_;
};

} // namespace composecheck
