#!/bin/sh
# unuse.sh: takes back what use.sh has done, and what was chosen then: ends the service and the watch of the file, also at later logins, removes the
# stored table and the one before it, and takes the engines out of the input sources of GNOME and of IBus. A layout takes the place of its engine.
# The programs stay installed. At last it prints what is in use then, as `composecheck status` does. The status is 0 if all of it is gone.
# $COMPOSECHECK is the program, where it isn't `composecheck` on the path.
program=${COMPOSECHECK:-composecheck}
state=${XDG_STATE_HOME:-$HOME/.local/state}/composecheck
wants=${XDG_CONFIG_HOME:-$HOME/.config}/systemd/user/default.target.wants
status=0

has_key() {
    command -v gsettings > /dev/null && gsettings writable "$1" "$2" > /dev/null 2>&1
}

# Changes a setting by a script of sed, if that changes it.
change() {
    has_key "$1" "$2" || return 0
    before=$(gsettings get "$1" "$2")
    after=$(printf '%s\n' "$before" | sed -E "$3")
    [ "$before" = "$after" ] || gsettings set "$1" "$2" "$after" || status=1
}

# (a job that another one takes the place of is a fault of systemctl; what counts is what is there at the end)
for it in "$wants"/composecheck-update@*.path; do
    [ ! -L "$it" ] || systemctl --user --quiet disable --now "${it##*/}"
done
systemctl --user --quiet disable --now composecheck.socket composecheck.service
systemctl --user --quiet stop 'composecheck-update@*'
for it in composecheck.socket composecheck.service; do
    ! systemctl --user --quiet is-active "$it" && ! systemctl --user --quiet is-enabled "$it" 2> /dev/null || status=1
done
rm -rf "$state" || status=1

# (the last two leave no comma where an engine without a layout was)
for it in sources mru-sources; do
    change org.gnome.desktop.input-sources "$it" "
        s/\('ibus', 'composecheck:([^':]*)'\)/('xkb', '\1')/g
        s/\('ibus', 'composecheck:([^':]*):([^']*)'\)/('xkb', '\1+\2')/g
        s/(, )?\('ibus', 'composecheck'\)//g
        s/^\[, /[/
        s/^\[\]$/@a(ss) []/"
done
change org.freedesktop.ibus.general preload-engines "s/(, )?'composecheck[^']*'//g; s/^\[, /[/; s/^\[\]$/@as []/"
[ "$status" -eq 0 ] && printf 'composecheck is not used any more. `use.sh` takes a Compose file into use again.\n'
# (the status of this is 1, as nothing is in use)
! command -v "$program" > /dev/null || "$program" status
exit "$status"
