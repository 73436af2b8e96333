#include "layouts.h"

#include <cstring>
#include <functional>
#include <ibus.h>
#include <map>
#include <memory>

namespace composecheck {

namespace {

// The codes of languages, of iso-codes, on which IBus depends for their names.
constexpr const char *LanguagesFile = "/usr/share/xml/iso-codes/iso_639.xml";

using Visit = std::function<void(const XMLNode &)>;

std::unique_ptr<XMLNode, decltype(&ibus_xml_free)> treeOf(const std::string &file) {
    bool isThere = g_file_test(file.c_str(), G_FILE_TEST_IS_REGULAR);
    return {isThere ? ibus_xml_parse_file(file.c_str()) : nullptr, ibus_xml_free};
}

// Visits the parts of a node that have this name.
void forEach(const XMLNode &node, const char *name, const Visit &visit) {
    for (auto it = node.sub_nodes; it; it = it->next) {
        auto part = static_cast<const XMLNode *>(it->data);
        if (std::strcmp(part->name, name) == 0) {
            visit(*part);
        }
    }
}

std::string textOf(const XMLNode &node, const char *name) {
    std::string found;
    forEach(node, name, [&](const XMLNode &it) { found = it.text ? it.text : ""; });
    return found;
}

std::string attributeOf(const XMLNode &node, const char *name) {
    for (auto it = node.attributes; it && it[0]; it += 2) {
        if (std::strcmp(it[0], name) == 0) {
            return it[1];
        }
    }
    return "";
}

// The codes of two letters by those of three. (A layout names its languages by three; desktops sort engines by two, where there are two.)
std::map<std::string, std::string> shortCodes() {
    std::map<std::string, std::string> codes;
    if (auto tree = treeOf(LanguagesFile)) {
        forEach(*tree, "iso_639_entry", [&](const XMLNode &it) {
            auto code = attributeOf(it, "iso_639_1_code");
            if (!code.empty()) {
                codes[attributeOf(it, "iso_639_2T_code")] = code;
            }
        });
    }
    return codes;
}

// The first language of a layout, if it has one.
std::string languageOf(const XMLNode &configured) {
    std::string found;
    forEach(configured, "languageList", [&](const XMLNode &list) {
        forEach(list, "iso639Id", [&](const XMLNode &it) { found = found.empty() && it.text ? it.text : found; });
    });
    return found;
}

// What a layout says of itself. What a variant leaves out, it has of the layout above it.
Layout configured(const XMLNode &node, const Layout &above) {
    Layout made = above;
    forEach(node, "configItem", [&](const XMLNode &it) {
        auto language = languageOf(it), label = textOf(it, "shortDescription");
        (above.name.empty() ? made.name : made.variant) = textOf(it, "name");
        made.description = textOf(it, "description");
        made.language = language.empty() ? above.language : language;
        made.label = label.empty() ? above.label : label;
    });
    return made;
}

} // namespace

std::vector<Layout> layoutsOf(const std::string &file) {
    std::vector<Layout> layouts;
    auto tree = treeOf(file);
    if (!tree) {
        return layouts;
    }
    forEach(*tree, "layoutList", [&](const XMLNode &list) {
        forEach(list, "layout", [&](const XMLNode &it) {
            auto layout = configured(it, {});
            layouts.push_back(layout);
            forEach(it, "variantList", [&](const XMLNode &variants) {
                forEach(variants, "variant", [&](const XMLNode &variant) { layouts.push_back(configured(variant, layout)); });
            });
        });
    });
    auto codes = shortCodes();
    for (auto &it : layouts) {
        auto found = codes.find(it.language);
        it.language = it.language.empty() ? "other" : found == codes.end() ? it.language : found->second;
    }
    return layouts;
}

} // namespace composecheck
