#!/bin/sh
# use.sh [FILE]: takes a Compose file into use for typing: it stores the table, has systemd serve it now and from each login on and watch the file,
# types one of its sequences through the service, and prints what to choose on this desktop, and what is in use (`composecheck status`). Without FILE
# it is your own Compose file, the one that `composecheck manifest` reads. unuse.sh takes it back.
# $COMPOSECHECK is the program, where it isn't `composecheck` on the path. The status is 0 if the sequence was typed, that of `composecheck update`
# where the table isn't stored, and else 1.
program=${COMPOSECHECK:-composecheck}
socket=${COMPOSECHECK_SOCKET:-${XDG_RUNTIME_DIR:-/run}/composecheck.socket}
shared=$(dirname "$(realpath "$0")")

fail() {
    printf 'use.sh: %s\n' "$1" >&2
    exit "${2:-1}"
}

# Whether a program of this name runs for this user.
runs() {
    ps -u "$(id -u)" -o comm= | grep -qx "$1"
}

# Whether a file is there, below the folder of a system's data or of these scripts.
is_installed() {
    for it in "${shared%/*}" /usr/share /usr/local/share; do
        [ -e "$it/$1" ] && return
    done
    return 1
}

# Types the first sequence of the file through the service, and compares the text. (One with a backslash would have to be read first.)
try_typing() {
    line=$("$program" list -- "$file" 2> /dev/null | grep '^<' | grep -v '\\' | head -n 1)
    keys=$(printf '%s\n' "${line%%:*}" | tr -d '<>')
    text=$(printf '%s\n' "$line" | sed -n 's/^[^"]*"\([^"]*\)".*/\1/p')
    [ -n "$text" ] || fail "$file has no sequence with a text"
    # shellcheck disable=SC2086 # (each key is a word)
    typed=$("$program" session --names builtin --open --close "$socket" "$$" $keys 2>&1) || fail "the service doesn't type: $typed"
    case $typed in
    *"\"$text\""*) printf 'typed: %s-> %s\n' "$keys" "$text" ;;
    *) fail "the service types another table: $keys should give $text, and gives: $typed" ;;
    esac
}

# The input sources of GNOME, with an engine in the place of each layout.
with_engines() {
    gsettings get org.gnome.desktop.input-sources sources | sed -E \
        -e "s/\('xkb', '([^'+]*)'\)/('ibus', 'composecheck:\1')/g" -e "s/\('xkb', '([^'+]*)\+([^']*)'\)/('ibus', 'composecheck:\1:\2')/g" \
        -e "s/^@a\(ss\) \[\]$/[('ibus', 'composecheck')]/"
}

advise() {
    case :$XDG_CURRENT_DESKTOP: in
    *:GNOME:*)
        is_installed ibus/component/composecheck.xml || printf 'First install the engine of IBus: the package composecheck-ibus, or make install-ibus.\n'
        printf 'GNOME: log out and in, and choose in Settings, Keyboard, Input Sources, + and your language the layout with ", Compose" after its name. Or at once:\n'
        printf '  ibus restart; gsettings set org.gnome.desktop.input-sources sources "%s"\n' "$(with_engines)"
        return
        ;;
    esac
    if runs fcitx5; then
        is_installed fcitx5/addon/composecheck.conf || printf 'First install the addon of fcitx5: the package fcitx5-composecheck, or make install-fcitx5.\n'
        printf 'fcitx5: restart it (fcitx5 -r -d). It types so under each keyboard layout; nothing has to be chosen.\n'
        return
    fi
    if runs ibus-daemon; then
        is_installed ibus/component/composecheck.xml || printf 'First install the engine of IBus: the package composecheck-ibus, or make install-ibus.\n'
        printf 'IBus: run ibus restart, and choose in ibus-setup, Input Method, Add your layout with ", Compose" after its name. Or for now:\n'
        printf '  ibus restart; ibus engine composecheck\n'
        return
    fi
    printf 'No input method runs. Install fcitx5 with fcitx5-composecheck, or ibus with composecheck-ibus, and have it started at login:\n'
    case :$XDG_CURRENT_DESKTOP: in
    *:KDE:*) printf '  KDE: choose "Fcitx 5" in System Settings, Input Devices, Virtual Keyboard.\n' ;;
    *:sway:*) printf '  sway: put the line "exec fcitx5 -d" into ~/.config/sway/config.\n' ;;
    *) printf '  X11: im-config -n fcitx5, or im-config -n ibus, and log out and in.\n' ;;
    esac
}

# The units that watch a file, without the ends of their names. (only one file is watched)
watches() {
    for it in "${XDG_CONFIG_HOME:-$HOME/.config}"/systemd/user/default.target.wants/composecheck-update@*.path; do
        [ ! -L "$it" ] || basename "$it" .path
    done
}

file=$1
if [ -z "$file" ]; then
    file=$("$program" manifest | cut -f 1 | head -n 1)
    [ -n "$file" ] || fail "no Compose file of yours was found" 2
fi
file=$(realpath -s "$file")
others=$(watches)
# (an update of another file meanwhile would show a change that is meant)
for it in $others; do systemctl --user --quiet stop "$it.path" "$it.service"; done
"$program" update -- "$file" || {
    status=$?
    for it in $others; do systemctl --user --quiet start "$it.path"; done
    fail "the table in use stays as it was; see 'Typing changes only if you say so' in SERVICE.md" "$status"
}
systemctl --user daemon-reload || fail "there is no systemd for users here; start the service yourself: $program serve --state '' ..."
for it in $others; do systemctl --user --quiet disable --now "$it.path"; done
systemctl --user --quiet is-enabled composecheck.service 2> /dev/null || systemctl --user --quiet enable --now composecheck.socket ||
    fail "composecheck.socket isn't started: journalctl --user -u composecheck.socket"
systemctl --user --quiet enable --now "composecheck-update@$(systemd-escape -p "$file").path" || fail "$file isn't watched"
try_typing
advise
"$program" status
