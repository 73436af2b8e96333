// Typing by a composecheck service: one Service in a process, and one Typing in each place where somebody types. What is sent, and what a reply or
// a lost connection means, is decided by a proved library (composecheck_client.h); it is what composecheck_typing.py is in Python.
#pragma once

#include "client.h"

#include <array>
#include <composecheck_client.h>
#include <functional>
#include <optional>
#include <vector>

namespace composecheck {

// No key waits longer than the patience; after one that waited so long none waits during the pause.
constexpr std::chrono::milliseconds Patience{500};
constexpr std::chrono::seconds Pause{2};

enum class Status : uint8_t { Nothing, Composing, Composed, Cancelled };

// What a key did.
struct Typed {
    Status status;
    bool isAccepted;
    std::string text;
};

// Where messages go.
using Log = std::function<void(bool isFault, const std::string &what)>;

// Where the service listens: $COMPOSECHECK_SOCKET, or composecheck.socket in $XDG_RUNTIME_DIR.
std::string socketPath();

// The way to a service. It is connected to when a key needs it.
class Service {
public:
    // `log` is told what keeps keys from the service, once while it lasts; and, where it is none, that the service answers again.
    Service(std::string path, Log log, std::chrono::milliseconds patience = Patience) : path_(std::move(path)), log_(std::move(log)), patience_(patience) {}

    // When a key that is asked about now is given up.
    Clock::time_point deadline() const { return Clock::now() + patience_; }
    // The connection that stands, or null.
    Connection *connection() const { return connection_.get(); }
    // Connects, unless there is a connection. False: nobody listens, or somebody has just not answered in time.
    bool connect();
    // Gives the connection up. A reply that still comes on it answers nothing that is asked later. Unfit: there was none in time, or no reply at all.
    void lose(bool isUnfit);
    // Logs what keeps keys from the service; nothing where it answers.
    void tell(const std::string &what);
    // How many connections there were. What is known of a session holds on the connection where it was seen.
    uint64_t connections() const { return connections_; }

private:
    std::string path_;
    Log log_;
    std::chrono::milliseconds patience_;
    std::unique_ptr<Connection> connection_;
    std::string told_;
    Clock::time_point silentUntil_{};
    uint64_t connections_ = 0;
};

// A session of a service, and what is pending in it.
class Typing {
public:
    explicit Typing(Service &service) : service_(service) {}
    ~Typing() { close(); }
    Typing(const Typing &) = delete;
    Typing &operator=(const Typing &) = delete;

    std::vector<uint32_t> pending() const;
    Clock::time_point deadline() const { return service_.deadline(); }
    // Types a key. Nothing: no service was reached, and nothing is pending any more.
    std::optional<Typed> key(uint32_t keysym, Clock::time_point end);
    // Takes the last pending key back.
    void erase();
    // Drops what is pending.
    void reset() { composecheck_client_drop(&client_); }
    // Ends the session, if it was opened. A key opens another one.
    void close();

private:
    void meetConnection();
    void run(Clock::time_point end);
    bool connects();
    void next(Clock::time_point end);
    void giveUp();

    Service &service_;
    composecheck_client client_{};
    composecheck_action action_{};
    composecheck_answer answer_{};
    // The connection on which the session was used last, by its number.
    uint64_t number_ = 0;
    // Bytes that came, and which of them are left.
    std::array<uint8_t, 4096> piece_;
    size_t at_ = 0, end_ = 0;
};

} // namespace composecheck
