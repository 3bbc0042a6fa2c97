# Runs the sources as they are without proofs: `rt try` compiles them with checks. Read by the launcher `deals`.
#
# What the program wrote and said comes once it has ended, whole or not at all.

# The most input that `rt try` passes on, in bytes.
MOST_INPUT=$((64 << 20))
ADVICE="./check program proves and builds it"

# Whether the program reads its input for these words.
reads_input() {
    case ${1-} in
        pick | show) return 0 ;;
    esac
    local word
    for word; do
        [ "$word" != --tricks ] || return 0
    done
    return 1
}

# Keeps the program's input, to its end.
keep_input() {
    reads_input "$@" && [ -e /proc/self/fd/0 ] || return 0
    [ ! -t 0 ] || echo "deals: the input is read first, to its end (Ctrl-D)" >&2
    beside head -c $((MOST_INPUT + 1)) >"$room/input" || give_up "its input can't be read"
    [ "$(stat -c %s "$room/input")" -le "$MOST_INPUT" ] || give_up "its input has more than 64 MiB"
}

# Ends without the program's answer.
give_up() {
    refuse 1 "without proofs it can't be run here: $1; $ADVICE"
}

how_far() {
    printf 'deals: %s seconds' "$((SECONDS - began))"
}

try_program() {
    cd -- "${top}crates/deals" && TMPDIR=$room exec rt try -- "$@" <"$room/input" >"$room/written" 2>"$room/said" 4<&-
}

# What the program said, without the lines of the toolchain: those that begin with its name, and the last ones.
say_own() {
    local from
    from=$(grep -an '^checked: ended ' "$room/said" | tail -n 1)
    head -n "$((${from%%:*} - 1))" "$room/said" | sed '/^rt: /d'
}

# Passes on what the program wrote and said, and ends with its status. A closed pipe is what it is for the program.
pass_on() {
    trap '' PIPE
    if ! LC_ALL=C cat "$room/written" 2>"$room/refused"; then
        grep -q 'Broken pipe$' "$room/refused" || echo "output failed" >&2
        exit 4
    fi
    say_own >&2 2>/dev/null || true
    exit "$1"
}

# Says why there is no answer.
explain_failure() {
    local reason
    reason=$(sed -n 's/^checked: no-answer: //p' "$room/said" | tail -n 1)
    [ -z "$reason" ] || give_up "$reason"
    tail -n 40 "$room/said" >&2
    give_up "see above"
}

say_first() {
    local why="not built here: running it"
    [ ! -x "$program" ] || why="the sources have changed since the program was built: running them"
    echo "deals: $why without proofs, with checks, in about a minute; $ADVICE" >&2 2>/dev/null || true
}

run_unproved() {
    local began=$SECONDS last
    command -v rt >/dev/null ||
        refuse 127 "the program isn't built, and what runs or builds it isn't here: install Rattle's toolchain, so that \
rt is on the PATH, or install a package of deals, which needs none"
    { : >&2; } 2>/dev/null || exec 2>/dev/null
    end_by_signals
    trap : PIPE
    make_room try
    say_first
    : >"$room/input"
    keep_input "$@"
    start try_program "$@"
    wait_for_child
    last=$(tail -n 1 "$room/said")
    if [[ $last =~ ^run=ended\ status=([0-9]+)\ .*proved=no$ ]]; then
        pass_on "${BASH_REMATCH[1]}"
    fi
    explain_failure
}
