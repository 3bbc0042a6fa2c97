# Which sources the program is built from, and whether the one that is there was built from them. Read by the launcher
# `deals` and by `check`, which set `top`, the folder of the checkout.

out=${top}crates/deals/out
program=$out/deals
built=$out/built-from

# What `find` begins with, and what it takes: the files of crates that aren't tests, without the must-fail edits, and
# what the program's stored run reads and writes.
places=(-L crates.txt HANDLES crates)
kinds=(\( -name out -o -name must-fail -o -name 'test_*' \) -prune -o -type f
    \( -name '*.rt' -o -name '*.antt' -o -name crates.txt -o -name HANDLES -o
        -path 'crates/deals/*' ! -path 'crates/deals/src/*' \))

# The files that the program is built from, each ended by a NUL.
list_sources() (
    cd -- "$top" && find "${places[@]}" "${kinds[@]}" -print0 | LC_ALL=C sort -z
)

# One line that says from what a build is made: the name and the bytes of every source. A line feed in a name is
# written as \n there, so that no two trees have the same.
sum_sources() {
    list_sources | (cd -- "$top" && xargs -0 -r sha256sum --) | sha256sum
}

sum_program() {
    sha256sum <"$program"
}

# One line that tells the sources and the program from any others without reading them: their places, sizes and times
# of change, which nobody can set. It is another one after a copy of the checkout, and the sums aren't. A proof changes
# neither the program nor what it promises, so proofs aren't looked at, which takes half the time.
stamp() {
    (cd -- "$top" && find "${places[@]}" crates/deals/out/deals -name proofs -prune -o \
        "${kinds[@]}" -printf '%D %i %s %C@ %p\0' -o -path crates/deals/out/deals -printf '%D %i %s %C@ %#m\0') |
        sha256sum
}

# Whether a file changed in the last two seconds, so that a change of now might have the same time.
is_fresh() {
    [ -n "$(cd -- "$top" && find "${places[@]}" crates/deals/out/deals -newerct '2 seconds ago' -type f -print -quit)" ]
}

# Notes that the program, with the second sum, was built from the sources with the first. It is known by its stamp from
# then on if the sources are still those, and not a change of the meantime.
note_built() {
    local seen=""
    is_fresh || seen=$(stamp)
    [ -z "$seen" ] || [ "$(sum_sources)" = "$1" ] && [ "$(sum_program)" = "$2" ] || seen=""
    { printf '%s\n' "$1" "$2" "$seen" >"$built.$$" && mv -f -- "$built.$$" "$built"; } 2>/dev/null ||
        { rm -f -- "$built.$$" && return 1; }
}

# Whether the program is there, is the one that was built, and was built and proved from the sources as they are.
is_proved() {
    local noted sum
    [ -x "$program" ] && [ -f "$built" ] || return 1
    mapfile -t noted <"$built"
    sum=$(sum_sources) || refuse 1 "the sources can't be read"
    [ "${noted[0]-}" = "$sum" ] && [ "${noted[1]-}" = "$(sum_program)" ] || return 1
    [ ! -w "$out" ] || note_built "$sum" "${noted[1]}" || true
}

# The same, at once where nothing but proofs may have changed since that was noted.
is_built() {
    local noted seen
    [ -x "$program" ] && [ -f "$built" ] || return 1
    mapfile -t noted <"$built"
    seen=$(stamp) || return 1
    [ "${noted[2]-}" = "$seen" ] || is_proved
}
