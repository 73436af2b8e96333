#include "typing.h"

#include <cstdlib>
#include <random>

namespace composecheck {

std::string socketPath() {
    const char *path = std::getenv("COMPOSECHECK_SOCKET"), *folder = std::getenv("XDG_RUNTIME_DIR");
    return path && *path ? path : std::string(folder ? folder : "/run") + "/composecheck.socket";
}

bool Service::connect() {
    if (!connection_ && Clock::now() >= silentUntil_) {
        connection_ = Connection::open(path_);
        connections_ += connection_ != nullptr;
        if (!connection_) {
            tell("nobody listens on " + path_ + "; keys pass");
        }
    }
    return connection_ != nullptr;
}

void Service::lose(bool isUnfit) {
    if (connection_ && isUnfit) {
        silentUntil_ = Clock::now() + Pause;
        tell("no reply from " + path_ + "; keys pass for " + std::to_string(Pause.count()) + " s");
    }
    connection_.reset();
}

void Service::tell(const std::string &what) {
    if (what != told_) {
        log_(!what.empty(), what.empty() ? path_ + " answers" : what);
    }
    told_ = what;
}

std::vector<uint32_t> Typing::pending() const {
    std::vector<uint32_t> keysyms(31);
    keysyms.resize(composecheck_client_pending(&client_, keysyms.data()));
    return keysyms;
}

std::optional<Typed> Typing::key(uint32_t keysym, Clock::time_point end) {
    meetConnection();
    answer_ = {};
    composecheck_client_press(&client_, keysym, &action_);
    run(end);
    if (action_.kind != COMPOSECHECK_VERDICT) {
        return std::nullopt;
    }
    service_.tell("");
    return Typed{static_cast<Status>(answer_.status), answer_.accepted == 1, {answer_.text, answer_.text + answer_.text_length}};
}

void Typing::erase() {
    meetConnection();
    composecheck_client_erase(&client_, &action_);
    run(deadline());
}

void Typing::close() {
    meetConnection();
    composecheck_client_close(&client_, &action_);
    run(deadline());
    number_ = 0;
}

// Another place may have found that the connection is lost.
void Typing::meetConnection() {
    if (number_ != service_.connections() || !service_.connection()) {
        composecheck_client_lose(&client_, &action_);
    }
}

// Does what the library says, until nothing is waited for.
void Typing::run(Clock::time_point end) {
    while (action_.kind == COMPOSECHECK_SEND || action_.kind == COMPOSECHECK_CONNECT || !composecheck_client_is_idle(&client_)) {
        if (action_.kind == COMPOSECHECK_CONNECT && connects()) {
            composecheck_client_connected(&client_, std::random_device()(), &action_);
        } else if (action_.kind == COMPOSECHECK_CONNECT) {
            composecheck_client_lose(&client_, &action_);
        } else if (action_.kind == COMPOSECHECK_SEND && !service_.connection()->send(action_.bytes, action_.byte_count)) {
            service_.lose(false);
            composecheck_client_lose(&client_, &action_);
        } else {
            next(end);
        }
    }
    if (action_.kind == COMPOSECHECK_ABANDON || action_.kind == COMPOSECHECK_CLOSE) {
        giveUp();
    }
}

// Takes the connection that there is, or a new one if this place had it already. False: there is none.
bool Typing::connects() {
    if (number_ == service_.connections()) {
        service_.lose(false);
    }
    if (!service_.connect()) {
        return false;
    }
    number_ = service_.connections();
    at_ = end_ = 0;
    return true;
}

// What to do at the next reply.
void Typing::next(Clock::time_point end) {
    size_t used;
    while (!composecheck_client_receive(&client_, piece_.data() + at_, end_ - at_, &used, &action_, &answer_)) {
        at_ = end_ = 0;
        auto came = service_.connection()->read(piece_.data(), piece_.size(), end_, end);
        if (came == Came::Bytes) {
            continue;
        }
        service_.lose(came == Came::TimeUp);
        (came == Came::TimeUp ? composecheck_client_time_out : composecheck_client_lose)(&client_, &action_);
        return;
    }
    at_ += used;
}

// Closes the connection. Bytes that are no reply of the protocol are still held.
void Typing::giveUp() {
    if (!service_.connection()) {
        return;
    }
    service_.lose(client_.held_count != 0);
    if (client_.held_count == 0) {
        service_.tell("the service refuses the session; keys pass");
    }
}

} // namespace composecheck
