#!/bin/bash
# user_manager.sh FOLDER COMMAND [ARGUMENT..]: runs COMMAND beside a real `systemd --user`, where no system was booted.
#
# It has to run as root, and so does COMMAND: $MANAGED is the number of the manager's user, and FOLDER/home is the home, $HOME. What the manager
# and its services print is in FOLDER/log. All places are those after a login, as /run/user/$MANAGED: systemd looks for some of them by name, and in
# others no service can be confined. They are made in namespaces of their own, and all processes are in one, too: no process goes on and nothing is
# left, however this ends, but an empty control group after a SIGKILL. COMMAND may change the folders that $CHANGED names, as `/usr /var`: they are
# overlaid there, and nobody else sees it.
#
# The status is that of COMMAND; 77 where there is no systemd, or namespaces, control groups or overlays are refused; and 70 if the manager doesn't start
# within 30 seconds. On a machine without controllers of control groups, a unit's limits of memory and of tasks have no effect.
set -e
user=54321 name=typist home=/home/typist runtime=/run/user/54321 groups=/sys/fs/cgroup

# Has changes of folders go into a place of their own.
overlay() {
    [ -n "$CHANGED" ] || return 0
    mkdir "$folder/changed"
    mount -t tmpfs tmpfs "$folder/changed"
    for it in $CHANGED; do
        mkdir -p "$folder/changed$it" "$folder/changed/work$it"
        mount -t overlay -o "lowerdir=$it,upperdir=$folder/changed$it,workdir=$folder/changed/work$it" overlay "$it" 2> /dev/null || exit 77
    done
}

# Makes what a boot and a login would have made.
prepare() {
    overlay
    mount -t cgroup2 cgroup2 "$groups" 2> /dev/null && group=$(mktemp -d "$groups/user-manager-XXXXXX") || exit 77
    for it in /home /run; do mount -t tmpfs -o mode=755 tmpfs "$it"; done
    mkdir -p "$folder/home/.config/systemd" "$home" "$runtime" /run/systemd/system
    chmod 700 "$runtime"
    # (below one of these two, by its version, a manager builds what a confined service sees)
    mkdir -m 700 /run/systemd/unit-root
    mkdir -m 555 /run/systemd/mount-rootfs
    mount --bind "$folder/home" "$home"
    for it in passwd group; do cp "/etc/$it" "$folder/$it"; done
    echo "$name:x:$user:$user::$home:/bin/sh" >> "$folder/passwd"
    echo "$name:x:$user:" >> "$folder/group"
    for it in passwd group; do mount --bind "$folder/$it" "/etc/$it"; done
    # (there is no journal)
    printf '[Manager]\nDefaultStandardOutput=inherit\n' > "$home/.config/systemd/user.conf"
    chown -R "$user:$user" "$home" "$runtime" "$group"
}

# Runs a command as the manager's user.
as_user() {
    setpriv --reuid "$user" --regid "$user" --clear-groups env -i HOME="$home" XDG_RUNTIME_DIR="$runtime" PATH=/usr/local/bin:/usr/bin:/bin LANG=C.UTF-8 "$@"
}

# Ends all processes, and takes the control group away as soon as they have left it.
end() {
    kill -KILL "$inside" 2> /dev/null || true
    for _ in $(seq 50); do
        find "$group" -depth -type d -exec rmdir {} \; 2> /dev/null
        [ -d "$group" ] || break
        sleep 0.1
    done
}

is_up() {
    [ "$(as_user timeout 10 systemctl --user is-active default.target 2> /dev/null)" = active ]
}

case $1 in
--outside)
    folder=$2
    shift 2
    prepare
    setpriv --pdeathsig KILL unshare --pid --fork --kill-child --mount-proc bash "$0" --inside "$folder" "$group" "$@" <&0 &
    inside=$!
    trap end EXIT
    status=0
    wait "$inside" || status=$?
    exit "$status"
    ;;
--inside)
    # (as the first process of a PID namespace, with which the others end)
    folder=$2
    echo $$ > "$3/cgroup.procs"
    shift 3
    as_user unshare --user --mount true 2> /dev/null || exit 77
    as_user /usr/lib/systemd/systemd --user --log-target=console > "$folder/log" 2>&1 &
    manager=$!
    until is_up; do
        if [ "$SECONDS" -ge 30 ] || ! kill -0 "$manager"; then
            cat "$folder/log"
            exit 70
        fi
        sleep 0.1
    done
    status=0
    HOME=$home XDG_RUNTIME_DIR=$runtime MANAGED=$user "$@" || status=$?
    as_user timeout 30 systemctl --user exit || kill -KILL "$manager"
    wait "$manager" || true
    exit "$status"
    ;;
*)
    [ -x /usr/lib/systemd/systemd ] && unshare --mount --pid --fork true 2> /dev/null || exit 77
    exec setpriv --pdeathsig TERM unshare --mount bash "$0" --outside "$(realpath "$1")" "${@:2}"
    ;;
esac
