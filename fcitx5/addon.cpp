// An addon of fcitx5 that types by the Compose table of a running composecheck service, under every keyboard layout and before every input
// method: so nobody has to choose it, and it is on as soon as it is installed.
#include "following.h"

#include <fcitx-config/configuration.h>
#include <fcitx-config/iniparser.h>
#include <fcitx-utils/key.h>
#include <fcitx-utils/log.h>
#include <fcitx-utils/textformatflags.h>
#include <fcitx/addonfactory.h>
#include <fcitx/addoninstance.h>
#include <fcitx/addonmanager.h>
#include <fcitx/candidatelist.h>
#include <fcitx/event.h>
#include <fcitx/inputcontext.h>
#include <fcitx/inputcontextmanager.h>
#include <fcitx/inputcontextproperty.h>
#include <fcitx/inputpanel.h>
#include <fcitx/instance.h>

namespace {

using composecheck::Following;
using composecheck::Keys;
using composecheck::Listing;
using composecheck::Row;
using composecheck::Service;
using composecheck::Settings;

FCITX_DEFINE_LOG_CATEGORY(composecheckLog, "composecheck");

constexpr const char *ConfigurationFile = "conf/composecheck.conf";

FCITX_CONFIGURATION(
    Configuration,
    fcitx::Option<bool> keepAccents{this, "KeepAccents", "Keep the accents of a cancelled sequence", true};
    fcitx::Option<bool> commitPlain{this, "CommitPlain", "Keep quick keys and texts in order in text fields", true};
    fcitx::Option<bool> listFollowing{this, "ListFollowing", "List the keys that can follow what is pending", false};
    fcitx::KeyListOption listKey{
        this, "ListKey", "Show or hide the list, while keys are pending", {fcitx::Key(FcitxKey_F1)},
        fcitx::KeyListConstrain({fcitx::KeyConstrainFlag::AllowModifierLess})};);

std::string characterOf(uint32_t keysym) { return fcitx::Key::keySymToUTF8(static_cast<fcitx::KeySym>(keysym)); }

std::string nameOf(uint32_t keysym) { return fcitx::Key::keySymToString(static_cast<fcitx::KeySym>(keysym)); }

// The keys of an input context, and those that can follow.
class Place : public fcitx::InputContextProperty {
public:
    Place(Service &service, Following &following) : keys(service, characterOf), listing(following) {}
    Keys keys;
    Listing listing;
};

// A key that can follow, which is shown and can't be chosen.
class Candidate : public fcitx::DisplayOnlyCandidateWord {
public:
    explicit Candidate(const Row &row) : DisplayOnlyCandidateWord(fcitx::Text(row.gives)) { setCustomLabel(fcitx::Text(row.key + " ")); }
};

// The page of the list; null where nothing is listed.
std::unique_ptr<fcitx::CandidateList> candidates(const Listing &listing) {
    auto rows = listing.rows();
    if (rows.empty()) {
        return nullptr;
    }
    auto list = std::make_unique<fcitx::CommonCandidateList>();
    list->setPageSize(static_cast<int>(rows.size()));
    list->setLayoutHint(fcitx::CandidateLayoutHint::Vertical);
    for (const auto &it : rows) {
        list->append<Candidate>(it);
    }
    return list;
}

void log(bool isFault, const std::string &what) {
    if (isFault) {
        FCITX_LOGC(composecheckLog, Warn) << what;
    } else {
        FCITX_LOGC(composecheckLog, Info) << what;
    }
}

// Whether a plain key is nothing but its text here. (A game reports no text around the cursor.)
bool isTextField(const fcitx::InputContext &context) {
    auto flags = context.capabilityFlags();
    return flags.test(fcitx::CapabilityFlag::SurroundingText) && !flags.test(fcitx::CapabilityFlag::Terminal);
}

class Composecheck : public fcitx::AddonInstance {
public:
    explicit Composecheck(fcitx::Instance *instance)
        : service_(composecheck::socketPath(), log), following_(composecheck::storedPath(), characterOf, nameOf, log),
          places_([this](fcitx::InputContext &) { return new Place(service_, following_); }) {
        reloadConfig();
        instance->inputContextManager().registerProperty("composecheckPlace", &places_);
        watchers_.push_back(instance->watchEvent(fcitx::EventType::InputContextKeyEvent, fcitx::EventWatcherPhase::PreInputMethod, [this](fcitx::Event &event) {
            press(static_cast<fcitx::KeyEvent &>(event));
        }));
        for (auto type : {fcitx::EventType::InputContextReset, fcitx::EventType::InputContextFocusOut, fcitx::EventType::InputContextSwitchInputMethod}) {
            watchers_.push_back(instance->watchEvent(type, fcitx::EventWatcherPhase::PreInputMethod, [this](fcitx::Event &event) {
                drop(*static_cast<fcitx::InputContextEvent &>(event).inputContext());
            }));
        }
    }

    void reloadConfig() override { fcitx::readAsIni(configuration_, ConfigurationFile); }
    const fcitx::Configuration *getConfig() const override { return &configuration_; }
    void setConfig(const fcitx::RawConfig &chosen) override {
        configuration_.load(chosen, true);
        fcitx::safeSaveAsIni(configuration_, ConfigurationFile);
    }

private:
    void press(fcitx::KeyEvent &event) {
        // With one of these held down a key is a command, and none of a sequence. (AltGr is Mod5.)
        static const fcitx::KeyStates commands{fcitx::KeyState::Ctrl, fcitx::KeyState::Alt, fcitx::KeyState::Super, fcitx::KeyState::Hyper, fcitx::KeyState::Meta};
        if (event.isRelease()) {
            return;
        }
        auto &context = *event.inputContext();
        auto &place = *context.propertyFor(&places_);
        bool wasPending = place.keys.isPending();
        if (wasPending && isForList(event.key(), place)) {
            event.filterAndAccept();
            show(context, place);
            return;
        }
        auto key = event.rawKey();
        if (key.states().testAny(commands)) {
            return;
        }
        auto answer = place.keys.press(key.sym(), Settings{*configuration_.keepAccents, *configuration_.commitPlain}, isTextField(context));
        if (answer.isTaken) {
            event.filterAndAccept();
        }
        if (wasPending || place.keys.isPending()) {
            lookUp(place);
            show(context, place);
        }
        if (!answer.text.empty()) {
            context.commitString(answer.text);
        }
    }

    // Whether the key shows or hides the list of keys that can follow, or turns its page; that is done then.
    bool isForList(const fcitx::Key &key, Place &place) {
        if (!key.checkKeyList(*configuration_.listKey)) {
            return place.listing.turn(key.sym());
        }
        configuration_.listFollowing.setValue(!*configuration_.listFollowing);
        fcitx::safeSaveAsIni(configuration_, ConfigurationFile);
        lookUp(place);
        return true;
    }

    void drop(fcitx::InputContext &context) {
        auto &place = *context.propertyFor(&places_);
        if (place.keys.isPending()) {
            place.keys.drop();
            lookUp(place);
            show(context, place);
        }
    }

    // Looks up the keys that can follow, if they are to be listed.
    void lookUp(Place &place) const { place.listing.lookUp(*configuration_.listFollowing ? place.keys.pending() : std::vector<uint32_t>{}); }

    // Shows what is pending, underlined, where the next text will stand, and the list.
    static void show(fcitx::InputContext &context, const Place &place) {
        // (where the focus leaves, it is dropped: fcitx5 would commit it)
        fcitx::Text text(place.keys.shown(), {fcitx::TextFormatFlag::Underline, fcitx::TextFormatFlag::DontCommit});
        text.setCursor(static_cast<int>(text.textLength()));
        auto &panel = context.inputPanel();
        panel.reset();
        if (context.capabilityFlags().test(fcitx::CapabilityFlag::Preedit)) {
            panel.setClientPreedit(text);
        } else {
            panel.setPreedit(text);
        }
        panel.setCandidateList(candidates(place.listing));
        panel.setAuxDown(fcitx::Text(place.listing.place()));
        context.updatePreedit();
        context.updateUserInterface(fcitx::UserInterfaceComponent::InputPanel);
    }

    Configuration configuration_;
    Service service_;
    Following following_;
    fcitx::LambdaInputContextPropertyFactory<Place> places_;
    std::vector<std::unique_ptr<fcitx::HandlerTableEntry<fcitx::EventHandler>>> watchers_;
};

class Factory : public fcitx::AddonFactory {
public:
    fcitx::AddonInstance *create(fcitx::AddonManager *manager) override { return new Composecheck(manager->instance()); }
};

} // namespace

FCITX_ADDON_FACTORY(Factory)
