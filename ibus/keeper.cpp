#include "keeper.h"

#include <cerrno>
#include <chrono>
#include <csignal>
#include <cstdlib>
#include <sys/mman.h>
#include <sys/prctl.h>
#include <sys/wait.h>
#include <unistd.h>

namespace composecheck {

namespace {

// The size of a note, with the zero at its end.
constexpr size_t Size = 256;
// Work that is killed sooner is not run again.
constexpr std::chrono::seconds Settled{1};

volatile sig_atomic_t ended = 0;
volatile pid_t child = 0;

void end(int signal) {
    ended = 1;
    if (child > 0) {
        kill(child, signal);
    }
}

// The work's process. (It ends with this one, also if this one is killed.)
pid_t start(const std::function<int(bool)> &work, bool isAgain) {
    pid_t parent = getpid(), made = fork();
    if (made == 0) {
        std::signal(SIGTERM, SIG_DFL);
        std::signal(SIGINT, SIG_DFL);
        prctl(PR_SET_PDEATHSIG, SIGTERM);
        std::exit(getppid() == parent ? work(isAgain) : 0);
    }
    return made;
}

int statusOf(pid_t process) {
    int status = 0;
    while (waitpid(process, &status, 0) < 0 && errno == EINTR) {
    }
    return status;
}

} // namespace

// (the child of a process shares such memory with it)
Note::Note() : page_(static_cast<char *>(mmap(nullptr, Size, PROT_READ | PROT_WRITE, MAP_SHARED | MAP_ANONYMOUS, -1, 0))) {
    if (page_ == MAP_FAILED) {
        page_ = nullptr;
    }
}

Note::~Note() {
    if (page_) {
        munmap(page_, Size);
    }
}

void Note::write(const std::string &text) {
    if (page_) {
        page_[text.copy(page_, text.size() < Size ? Size : 0)] = 0;
    }
}

int keepRunning(const std::function<int(bool isAgain)> &work) {
    std::signal(SIGTERM, end);
    std::signal(SIGINT, end);
    for (bool isAgain = false;; isAgain = true) {
        auto began = std::chrono::steady_clock::now();
        child = start(work, isAgain);
        if (child < 0) {
            return work(isAgain);
        }
        int status = statusOf(child);
        child = 0;
        if (WIFEXITED(status)) {
            return WEXITSTATUS(status);
        }
        if (ended || std::chrono::steady_clock::now() - began < Settled) {
            return 128 + WTERMSIG(status);
        }
    }
}

} // namespace composecheck
