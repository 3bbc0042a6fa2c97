# Builds the program with its proofs, in a room, where its crates are a repository of their own. Read by `check`.

# Waits until nobody else builds in this checkout.
lock_build() {
    exec 5<"$top"
    flock -n 5 || {
        echo "check: waiting for another build in this checkout" >&2
        beside flock 5 </dev/null
    }
}

# Refuses a checkout in which the program couldn't be kept.
refuse_unwritable() {
    mkdir -p -- "$out" 2>/dev/null && : 2>/dev/null >"$built.$$" && rm -f -- "$built.$$" ||
        refuse 1 "$out can't be written, so there is no place for the program"
}

need_toolchain() {
    command -v rt >/dev/null ||
        refuse 127 "what proves and builds isn't here: install Rattle's toolchain, so that rt is on the PATH"
}

fill_room() {
    list_sources | tar -C "$top" -h --null --no-recursion -T - -cf - | tar -C "$room" -xf - &&
        sed -i '/^test_/d' "$room/crates.txt"
}

# What the build says is a file without a name, which is open as 3.
prove_program() {
    cd -- "$room" && exec rt ci </dev/null >&3 2>&1 3>&- 4<&- 5<&-
}

how_far() {
    local all now
    all=$(grep -c '^[a-z]' "$room/crates.txt")
    now=$(grep -cE '^rt: [a-z0-9_]+ (proved|is kept)' /dev/fd/3) || true
    printf 'check: %s of %s crates proved, %s minutes' "$now" "$all" "$(((SECONDS - began) / 60))"
}

# Builds the program, unless it is there.
build() {
    local began=$SECONDS sources made
    ! is_proved || return 0
    need_toolchain
    refuse_unwritable
    end_by_signals
    lock_build
    ! is_proved || return 0
    sources=$(sum_sources) || refuse 1 "the sources can't be read"
    echo "check: proving and building the program, which takes some 20 minutes on four cores" >&2
    make_room build
    fill_room || refuse 1 "the sources can't be copied to $room"
    made=$room/crates/deals/out/deals
    exec 3<>"$room/said"
    rm -f -- "$room/said"
    start prove_program
    wait_for_child
    if [ "$ended" != 0 ] || [ ! -x "$made" ]; then
        tail -n 40 /dev/fd/3 >&2
        refuse 1 "the build failed"
    fi
    rm -f -- "$built"
    mv -f -- "$made" "$program"
    note_built "$sources" "$(sum_program)"
    leave_room
    exec 3>&- 4<&- 5<&-
    trap - INT TERM HUP QUIT
}
