#!/bin/sh
# machine.sh [--accept LIST | --back | --upgrade]: keeps the table that all users of a machine begin with, in /var/lib/composecheck. Root runs it.
#
# The machine's file is the system's Compose file for the locale in /etc/locale.conf or /etc/default/locale; or PATH, by the line `file=PATH` of
# /etc/composecheck/machine.conf; `file=` alone switches this off. The first run takes the file as it is. Later ones take what is new in it and
# changes nothing that people type, and print what the file would change beyond that.
#
#   --accept LIST  takes the file as it is, if LIST names each change, in the lines of `composecheck diff`
#   --back         takes back the table before the last change, and again the later one. Until then, or until a run by hand, no upgrade is taken
#   --upgrade      what dpkg runs: prints only what is new since the last run, and has the status 0 whatever happens
#
# The table is /var/lib/composecheck/Compose, a file without includes. Each user's service begins with it (composecheck.service), and takes its
# changes if they change nothing for this user (composecheck-update@.path). /var/lib/composecheck/state is what root's `composecheck update` keeps:
# `composecheck status --state /var/lib/composecheck/state`.
#
# $COMPOSECHECK is the program, where it isn't `composecheck` on the path. The status is that of the program: 1 if a change isn't in LIST.
top=/var/lib/composecheck
table=$top/Compose state=$top/state
program=${COMPOSECHECK:-composecheck}
mode=$1
umask 022

say() {
    printf 'composecheck: %s\n' "$1"
}

fail() {
    say "$1" >&2
    [ "$mode" = --upgrade ] && exit 0
    exit "${2:-2}"
}

# The locale of the machine, if it is in UTF-8 and has a table; else the one whose table most others are made of.
machine_locale() {
    found=$(cat /etc/locale.conf /etc/default/locale 2> /dev/null | sed -n "s/^LANG=[\"']\{0,1\}\([^\"']*\).*/\1/p" | tail -n 1)
    case $found in
    C.* | POSIX.*) echo en_US.UTF-8 ;;
    *.[Uu][Tt][Ff]8 | *.[Uu][Tt][Ff]-8) printf '%s\n' "$found" ;;
    *) echo en_US.UTF-8 ;;
    esac
}

# Runs the program without a home, and without the service of whoever is root here.
run() {
    env -i PATH="$PATH" HOME=/nonexistent LANG="$locale" "$program" "$@"
}

# Runs `update` on the machine's folder. What it refuses ends this.
update() {
    run update --state "$state" "$@" > "$top/said" 2>&1 || {
        status=$?
        fail "the machine's table stays as it was:
$(cat "$top/said")" "$status"
    }
}

# Prints of what the file, as it is, would change the first sequences whose text is lost, the counts, and what to do.
say_changes() {
    say "$file would change what people type:"
    grep ' now: none$' "$top/said" | sed -n -e '1,5s/^/  /p' -e '6s/.*/  ../p'
    sed -n 's/^diff: /  /p' "$top/said"
    echo "  Nobody's typing changes. To have all of it: machine.sh --accept LIST, with the changes that you mean of"
    echo "  composecheck diff --write-accept $table $file"
}

# Writes into Compose.new what the program prints: a table without includes, here without places too.
write_new() {
    run "$@" > "$top/listed" 2> "$top/said" || fail "the machine's table stays as it was:
$(cat "$top/said")"
    sed 's/  # [^"]*$//' "$top/listed" > "$table.new" || fail "$top can't be written"
}

# Takes Compose.new into use, by these options of `update`.
take() {
    [ ! -e "$table" ] || ln -f "$table" "$table.before" || fail "$top can't be written"
    sync "$table.new"
    mv "$table.new" "$table" || fail "$top can't be written"
    update "$@" -- "$table"
}

go_back() {
    [ -e "$table.before" ] || fail "no table is kept from before"
    update --back
    ln -f "$table" "$table.new"
    { mv "$table.before" "$table" && mv "$table.new" "$table.before"; } || fail "$top can't be written"
    if [ -e "$top/held" ]; then rm "$top/held"; else : > "$top/held"; fi
    say "the machine has the table before; people whom that changes something for keep theirs"
}

# Takes what is new in the file, and prints what it would change beyond that, if that is news.
upgrade() {
    run diff --skip-faulty --no-fold "$table" "$file" > "$top/said" 2> /dev/null
    sed -e '/^added: /d' -e '/^diff: /d' -e 's/ [^ "]*:[0-9][0-9]*//g' "$top/said" > "$top/changes"
    if [ -s "$top/changes" ] && { [ "$mode" != --upgrade ] || ! cmp -s "$top/changes" "$top/reported"; }; then say_changes; fi
    mv "$top/changes" "$top/reported"
    added=0
    if [ ! -e "$top/held" ]; then
        before=$(wc -l < "$table")
        write_new merge --skip-faulty "$table" "$file"
        cmp -s "$table.new" "$table" || take
        added=$(($(wc -l < "$table") - before))
    fi
    [ ! -e "$top/held" ] || say "since --back the machine's table stays as it is, until machine.sh is run by hand"
    if [ "$mode" != --upgrade ] || [ "$added" -gt 0 ]; then say "new sequences for all users, from $file: $added"; fi
}

begin() {
    write_new list "$file"
    take
    say "$file is the table of this machine, for users who have taken none"
}

case $mode in
'' | --back | --upgrade) ;;
--accept) list=$(realpath -e "${2:?"machine.sh --accept LIST"}") || exit 2 ;;
*) fail "usage: machine.sh [--accept LIST | --back | --upgrade]" ;;
esac
locale=$(machine_locale)
unset file
# shellcheck disable=SC1091 # (the administrator's)
if [ -e /etc/composecheck/machine.conf ]; then . /etc/composecheck/machine.conf; fi
[ -n "${file+given}" ] || file=$(run manifest 2> /dev/null | cut -f 1 | head -n 1)
if [ "$mode" = --upgrade ] && [ ! -e "$file" ]; then exit 0; fi
[ -n "$file" ] || fail "there is no file; is it switched off in /etc/composecheck/machine.conf?"
{ mkdir -p "$top" && exec 9> "$top/lock" && flock 9; } || fail "$top can't be written"
trap 'rm -f "$table.new" "$top/changes" "$top/listed" "$top/said"' EXIT
case $mode in
--back) go_back ;;
--accept)
    write_new list "$file"
    update --dry-run --accept "$list" -- "$table.new"
    take --accept "$list"
    say "$file is the table of this machine; people whom that changes something for keep theirs"
    ;;
*)
    [ -n "$mode" ] || rm -f "$top/held"
    if [ -e "$table" ]; then upgrade; else begin; fi
    ;;
esac
