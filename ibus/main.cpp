// An engine of IBus that types by the Compose table of a running composecheck service. ibus-daemon starts it, by its component file.
#include "engine.h"
#include "engines.h"
#include "journal.h"
#include "keeper.h"
#include "layouts.h"

#include <csignal>
#include <glib-unix.h>
#include <iostream>

namespace {

constexpr const char *BusName = "org.freedesktop.IBus.Composecheck";
constexpr const char *Paths = "/org/freedesktop/IBus/Engine/Composecheck/";
constexpr const char *Setup = COMPOSECHECK_PROGRAMS "/ibus-setup-composecheck";
constexpr const char *Usage = "usage: ibus-engine-composecheck --ibus | --xml [FILE]\n";
constexpr const char *Help = R"(
An engine of IBus that types by the Compose table of a running composecheck service. ibus-daemon starts it, by its component file.

--xml prints the engines with a keyboard layout, one for each layout of FILE (/usr/share/X11/xkb/rules/evdev.xml). ibus-daemon asks for them.

The socket is $COMPOSECHECK_SOCKET, or composecheck.socket in $XDG_RUNTIME_DIR. Messages go to the journal:
`journalctl --user -t ibus-engine-composecheck`; without a journal to standard error.
)";

// What IBus has just made, which goes with the last that refers to it.
template <typename Object>
std::unique_ptr<Object, decltype(&g_object_unref)> owned(Object *made) {
    g_object_ref_sink(made);
    return {made, g_object_unref};
}

gboolean end(gpointer loop) {
    g_main_loop_quit(static_cast<GMainLoop *>(loop));
    return G_SOURCE_CONTINUE;
}

// The process of the engines: one connection to the daemon, and one to the service.
class Process {
public:
    // `used` has the name of the engine that is in use.
    explicit Process(composecheck::Note &used) : used_(used) {}
    // Serves the daemon until it ends, or a signal comes. False: there is none. `isAgain`: in the place of a process that was killed.
    bool serve(bool isAgain);

private:
    static IBusEngine *create(IBusFactory *factory, const char *name, Process *process);
    static void destroyed(IBusEngine *engine, Process *process);
    void useAgain(IBusBus *bus) const;

    composecheck::Note &used_;
    // The engine that was made last; the daemon moves it to where somebody types.
    IBusEngine *last_ = nullptr;

    composecheck::Journal journal_{"ibus-engine-composecheck"};
    composecheck::Log log_ = [this](bool isFault, const std::string &what) { journal_.write(isFault, what); };
    composecheck::Service service_{composecheck::socketPath(), log_};
    composecheck::Following following_{composecheck::storedPath(), composecheck::characterOf, composecheck::nameOf, log_};
    composecheck::Choices choices_;
    uint64_t made_ = 0;
};

bool Process::serve(bool isAgain) {
    auto bus = owned(ibus_bus_new());
    if (!ibus_bus_is_connected(bus.get())) {
        return false;
    }
    g_autoptr(GMainLoop) loop = g_main_loop_new(nullptr, FALSE);
    g_signal_connect_swapped(bus.get(), "disconnected", G_CALLBACK(g_main_loop_quit), loop);
    for (int it : {SIGTERM, SIGINT}) {
        g_unix_signal_add(it, end, loop);
    }
    auto factory = owned(ibus_factory_new(ibus_bus_get_connection(bus.get())));
    g_signal_connect(factory.get(), "create-engine", G_CALLBACK(create), this);
    ibus_bus_request_name(bus.get(), BusName, 0);
    if (isAgain) {
        log_(true, "the engine was killed, and runs again; what was pending is lost");
        useAgain(bus.get());
    }
    g_main_loop_run(loop);
    // (with it go the engines, each of which ends its session)
    ibus_object_destroy(IBUS_OBJECT(factory.get()));
    return true;
}

IBusEngine *Process::create(IBusFactory *factory, const char *name, Process *process) {
    if (!composecheck::isEngine(name)) {
        return nullptr;
    }
    auto connection = ibus_service_get_connection(IBUS_SERVICE(factory));
    auto path = Paths + std::to_string(++process->made_);
    process->last_ = composecheck::newEngine(connection, path, {process->service_, process->following_, process->choices_});
    process->used_.write(name);
    g_signal_connect(process->last_, "destroy", G_CALLBACK(destroyed), process);
    return process->last_;
}

// The daemon needs an engine no more: another one is chosen.
void Process::destroyed(IBusEngine *engine, Process *process) {
    if (engine == process->last_) {
        process->last_ = nullptr;
        process->used_.write("");
    }
}

// Has the daemon make the engine anew that was in use: its object has gone with the process that had it. (To wait for the daemon, which waits for
// the engine then, would be for ever.)
void Process::useAgain(IBusBus *bus) const {
    auto name = used_.read();
    if (!name.empty()) {
        ibus_bus_set_global_engine_async(bus, name.c_str(), -1, nullptr, nullptr, nullptr);
    }
}

} // namespace

int main(int count, char **words) {
    std::string word = count > 1 && count <= 3 ? words[1] : "";
    if (word == "--help" || word == "-h") {
        std::cout << Usage << Help;
        return 0;
    }
    if (word == "--xml") {
        ibus_init();
        std::cout << composecheck::listOfEngines(count == 3 ? words[2] : composecheck::LayoutsFile, Setup);
        return 0;
    }
    if (word != "--ibus" || count != 2) {
        std::cerr << Usage;
        return 2;
    }
    composecheck::Note used;
    return composecheck::keepRunning([&](bool isAgain) {
        ibus_init();
        if (!Process(used).serve(isAgain)) {
            std::cerr << words[0] << ": no ibus-daemon is running\n";
            return 1;
        }
        return 0;
    });
}
