#!/bin/sh
# update.sh FILE [OPTION..]: runs `composecheck update`, and shows what it doesn't take as a notification too, where `notify-send` is installed.
# A file of the system, below /usr/share/X11/locale or the folder of --system, and the machine's table (machine.sh) are merged into the table in use
# (--merge): an upgrade then takes no sequence away. A person's own file is not: a line that they delete would come back.
# The machine's table is for people who have taken no other file: for others it is judged, and neither taken nor shown.
# What was shown is in the file `shown` of the folder of the table. It is not shown again, until an update has gone through.
# The status is that of `composecheck update`. $COMPOSECHECK is the program, where it isn't `composecheck` on the path.
file=${1:?"usage: update.sh FILE [OPTION..]"}
shift
program=${COMPOSECHECK:-composecheck}
machine=/var/lib/composecheck/Compose
shown=${XDG_STATE_HOME:-$HOME/.local/state}/composecheck/shown
system=/usr/share/X11/locale merge=--merge is_judged='' before=
for it; do
    case $before in
    --state) shown=$it/shown ;;
    --system) system=$it ;;
    esac
    case $it in
    --state=*) shown=${it#--state=}/shown ;;
    --system=*) system=${it#--system=} ;;
    --accept*) merge= ;;
    esac
    before=$it
done
case $file in "${system%/}"/* | "$machine") ;; *) merge= ;; esac
if [ "$file" = "$machine" ]; then
    [ -e "$file" ] || exit 0
    in_use=$("$program" status 2> /dev/null | sed -n 's/^in use: //p')
    case $in_use in '' | *"$file"*) ;; *) is_judged=--dry-run ;; esac
fi

# The path unit doesn't see a change that comes while this runs, so it is looked for here.
stamp() {
    stat -L -c '%d %i %s %Z' -- "$file" 2> /dev/null
}

# Shows these words below a title, but not for the second time.
show() {
    [ "$2" != "$(cat "$shown" 2> /dev/null)" ] && command -v notify-send > /dev/null || return 0
    notify-send --app-name=composecheck "$1" "$2" && printf '%s\n' "$2" > "$shown"
}

for _ in 1 2 3 4 5; do
    before=$(stamp)
    printed=$("$program" update ${merge:+"$merge"} ${is_judged:+"$is_judged"} "$@" -- "$file" 2>&1)
    status=$?
    test "$(stamp)" = "$before" && break
done
printf '%s\n' "$printed"
[ -z "$is_judged" ] || exit 0
left=$(printf '%s\n' "$printed" | sed -n '/^left out: /s/ [^ "]*:[0-9]*\(:\|$\)/\1/gp')
accept="composecheck update --accept LIST $file, with the changes that you mean in LIST; composecheck update --accept /dev/null $file prints all."
case $status$left in
0) [ "$merge$printed" = --mergeunchanged ] || rm -f "$shown" ;;
0*) show "You type as before" "What is new in $file was taken. This was not, as it would change how you type:
$left
To have it: $accept" ;;
1*) show "Your Compose table stays as it was" "$file would change how you type:
$printed
To have what is new and type on as before: composecheck update --merge $file
To have all of it: $accept" ;;
*) show "Your Compose table stays as it was" "$file was not taken into use:
$printed" ;;
esac
exit "$status"
