// The classes of typing/ and the journal of the engine of IBus, without a toolkit, for tests/engine.py: it answers each line of standard input.
//
// probe press SOCKET [PATIENCE]: a line is a keysym, both settings, and whether it is a text field (0 or 1; of another place 2 or 3); its answer
// whether the key is taken, the text, and what is shown, both in hexadecimal. Keysym 0 drops what is pending, and 4294967295 closes the session. The
// patience is in milliseconds; without one it is the engines' own. `probe signals SOCKET PATIENCE` does the same, while signals come all the time.
//
// probe list TABLE: `look KEYSYM..` lists what can follow these, by a stored table, and `turn KEYSYM` turns the page; the answer is whether it did,
// which rows these are, and each row, in hexadecimal.
//
// probe write PATH: writes each line to a journal, as a fault.
//
// probe stored: prints where the stored table is. probe socket: prints where the service listens.
#include "following.h"
#include "journal.h"

#include <csignal>
#include <iostream>
#include <iterator>
#include <sstream>
#include <sys/time.h>

namespace {

// The character that a keysym is numbered by, here of two bytes at most, or that a key of the keypad has.
std::string numberedCharacter(uint32_t keysym) {
    uint32_t code = keysym >= 0x1000100 ? keysym - 0x1000000 : keysym;
    if (keysym >= 0xffb0 && keysym <= 0xffb9) {
        code = '0' + keysym - 0xffb0;
    }
    if (code < 0x80) {
        return std::string(1, static_cast<char>(code));
    }
    if (code > 0x7ff || (code > 0xff && keysym < 0x1000100)) {
        return "";
    }
    return {static_cast<char>(0xc0 | code >> 6), static_cast<char>(0x80 | (code & 0x3f))};
}

std::string hexadecimal(const std::string &text) {
    static const char digits[] = "0123456789abcdef";
    std::string made;
    for (char it : text) {
        made += digits[static_cast<uint8_t>(it) >> 4];
        made += digits[it & 15];
    }
    return made;
}

std::string nameOf(uint32_t keysym) {
    std::ostringstream name;
    name << "0x" << std::hex << keysym;
    return name.str();
}

void log(bool, const std::string &what) { std::cerr << what << std::endl; }

// Has a signal come each few milliseconds. It ends no program and no call of read, but each wait of poll.
void sendSignals() {
    struct sigaction action {};
    action.sa_handler = [](int) {};
    action.sa_flags = SA_RESTART;
    sigaction(SIGALRM, &action, nullptr);
    itimerval every{{0, 5000}, {0, 5000}};
    setitimer(ITIMER_REAL, &every, nullptr);
}

void press(composecheck::Service service) {
    composecheck::Keys first(service, numberedCharacter), second(service, numberedCharacter);
    uint32_t keysym, field;
    bool keepsAccents, commitsPlain;
    while (std::cin >> keysym >> keepsAccents >> commitsPlain >> field) {
        auto &keys = field < 2 ? first : second;
        if (keysym == 0 || keysym == 0xffffffff) {
            keysym == 0 ? keys.drop() : keys.close();
            std::cout << "1  " << hexadecimal(keys.shown()) << std::endl;
            continue;
        }
        auto answer = keys.press(keysym, {keepsAccents, commitsPlain}, field % 2 == 1);
        std::cout << answer.isTaken << ' ' << hexadecimal(answer.text) << ' ' << hexadecimal(keys.shown()) << std::endl;
    }
}

void list(const std::string &table) {
    composecheck::Following following(table, numberedCharacter, nameOf, log);
    composecheck::Listing listing(following);
    for (std::string line; std::getline(std::cin, line);) {
        std::istringstream words(line);
        std::string what;
        words >> what;
        std::vector<uint32_t> keysyms{std::istream_iterator<uint32_t>(words), {}};
        bool isTurned = what == "turn" && listing.turn(keysyms.at(0));
        if (what == "look") {
            listing.lookUp(keysyms);
        }
        std::cout << isTurned << ' ' << hexadecimal(listing.place());
        for (const auto &row : listing.rows()) {
            std::cout << ' ' << hexadecimal(row.key) << '=' << hexadecimal(row.gives);
        }
        std::cout << std::endl;
    }
}

void write(const std::string &path) {
    composecheck::Journal journal("ibus-engine-composecheck", path);
    for (std::string line; std::getline(std::cin, line);) {
        // (a message of two lines has a vertical bar in the place of their end)
        std::replace(line.begin(), line.end(), '|', '\n');
        journal.write(true, line);
        std::cout << "written" << std::endl;
    }
}

} // namespace

int main(int count, char **words) {
    std::string what = words[1];
    if (what == "signals") {
        sendSignals();
    }
    if (what == "press" && count == 3) {
        press({words[2], log});
    } else if (what == "press" || what == "signals") {
        press({words[2], log, std::chrono::milliseconds(std::stoi(words[3]))});
    } else if (what == "list") {
        list(words[2]);
    } else if (what == "write") {
        write(words[2]);
    } else {
        std::cout << (what == "socket" ? composecheck::socketPath() : composecheck::storedPath()) << std::endl;
    }
}
