# Rooms: folders outside the checkout in which a build or a run works, and how all ends by a signal. Read by the launcher
# `deals` and by `check`.

child="" # the process group that works in the room, or `new` while it is started
room=""
helper="" # a process of this shell's own group that it waits for
young="" # the room's first name

# Ends the child and all that it started, and then this shell, by a signal, as a terminal would end them together.
end_by() {
    trap '' INT TERM HUP QUIT
    [ "$child" != new ] || child=${!-}
    [ -z "$helper" ] || kill "$helper" 2>/dev/null || true
    if [ -n "$child" ]; then
        kill -s "$1" -- "-$child" || true
        for _ in {1..50}; do
            kill -0 -- "-$child" || break
            sleep 0.1
        done
        kill -KILL -- "-$child" || true
        disown "$child" || true
    fi 2>/dev/null
    leave_room
    trap - "$1"
    kill -s "$1" $$
}

# bash itself can't end by SIGQUIT.
end_by_signals() {
    trap 'end_by INT' INT
    trap 'end_by TERM' TERM QUIT
    trap 'end_by HUP' HUP
}

# Makes a room of this kind, and removes what killed shells left. A room is locked while its shell lives, and it gets
# the name by which others find it once it is locked; before, it is young.
make_room() {
    local left within=${TMPDIR:-/var/tmp}
    [ "${within::1}" = / ] || within=$PWD/$within
    for left in "$within/deals-$1".*/; do
        # A link's target isn't a room, whoever made the link.
        [ ! -L "${left%/}" ] && [ -O "$left" ] && flock -n "$left" rm -rf -- "${left%/}" || true
    done 2>/dev/null
    find "$within/" -maxdepth 1 -type d -name 'deals.??????' -user "$(id -u)" -empty -mmin +10 -delete 2>/dev/null || true
    young=$(trap '' INT TERM HUP QUIT && exec mktemp -d -- "$within/deals.XXXXXX" 2>/dev/null) ||
        refuse 1 "there is no folder to work in: set TMPDIR to one"
    trap leave_room EXIT
    exec 4<"$young"
    flock 4
    room=$within/deals-$1.${young##*.}
    mv -T -- "$young" "$room"
}

leave_room() {
    [ -z "$young" ] || rm -rf -- "$young" ${room:+"$room"}
    young="" room=""
}

# Says with `how_far` on a terminal how far the child is.
show_progress() {
    while kill -0 "$child" 2>/dev/null; do
        printf '\r%s' "$(how_far)" >&2 2>/dev/null || return 0
        sleep 0.5
    done
    printf '\r\033[K' >&2 2>/dev/null || true
}

# Starts a command in a process group of its own.
start() {
    child=new
    set -m
    "$@" &
    child=$!
    set +m
}

# Runs a command so that a signal is heard at once, and not when the command ends.
beside() {
    local ended=0
    "$@" <&0 4<&- &
    helper=$!
    wait "$helper" || ended=$?
    helper=""
    return "$ended"
}

# Waits for the child, and shows on a terminal how far it is. Sets `ended` to its status.
wait_for_child() {
    ended=0
    [ ! -t 2 ] || show_progress
    wait "$child" 2>/dev/null || ended=$?
    child=""
}
