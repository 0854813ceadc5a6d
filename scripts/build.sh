# Proves and builds the program of the sources as they are. For bin/desk, which has `top`, `say` and `give_up`.
#
# The toolchain proves a copy of the program's crates, side by side on all processors, so that a source may be changed meanwhile.

# The time since the build began, as minutes and seconds.
elapsed() { printf '%d:%02d' $(((SECONDS - began) / 60)) $(((SECONDS - began) % 60)); }

# How far the toolchain is, by its log.
doing() {
    local done_crates
    done_crates=$(grep -caE '^rt: desk_[a-z]+ (proved|is kept)' "$log")
    if [ "$done_crates" -lt "${#crates[@]}" ]; then
        printf 'proving: %d of %d crates are done' "$done_crates" "${#crates[@]}"
    else
        printf 'building the program, and trying it'
    fi
}

# Ends what a build started, and removes what it alone needed.
end_build() {
    if [ -n "$job" ]; then
        kill -TERM -- "-$job"
        wait "$job"
    fi 2> /dev/null
    [ -z "$room" ] || rm -rf "$room"
}

# Copies the program's crates, and sets `sources` to the checksum of the copy.
copy_sources() {
    (cd "$top" && tar -cf - --exclude out crates.txt HANDLES "${crates[@]/#/crates/}") | tar -xf - -C "$room" || return 1
    rm -rf "$room"/crates/*/must-fail
    sources=$(checksum_of_sources "$room") || return 1
    # The copy has no other crates.
    awk -v crates="${crates[*]}" 'BEGIN { split(crates, list, " "); for (i in list) is_wanted[list[i]] } { name = $1; sub(/:.*/, "", name) } name in is_wanted' \
        "$top/crates.txt" > "$room/crates.txt"
}

# Runs the toolchain, and tells each step and, at least every ten seconds, that it goes on.
prove_and_build() {
    local now told='' at=0
    set -m
    (cd "$room" && TMPDIR=$room/tmp exec rt ci) < /dev/null > "$log" 2>&1 9>&- &
    job=$!
    set +m
    while kill -0 "$job" 2> /dev/null; do
        now=$(doing)
        if [ "$now" != "$told" ] || [ $((SECONDS - at)) -ge 10 ]; then
            say "$(elapsed) $now"
            told=$now at=$SECONDS
        fi
        sleep 0.5
    done
    wait "$job"
    now=$?
    job=
    return "$now"
}

reason_to_build() {
    if [ ! -r "$release/desk.txt" ]; then
        printf 'there is no released program'
    elif [ "$(checksum_of_sources "$top")" = "$(told_of_release sources)" ]; then
        printf "the released program can't be unpacked, since release/desk.gz isn't whole, or neither out/ nor ~/.cache can be written"
    else
        printf 'the sources were changed since the release'
    fi
}

# What to do where the program can't be built.
say_of_release() {
    [ -n "$(told_of_release program)" ] && say "to run the released program all the same: bin/desk --released COMMAND"
}

build() {
    local patience=0 began=$SECONDS job='' room='' log sources crates
    top=$(cd "$top" && pwd) || give_up "the folder of the repository can't be entered"
    . "$top/scripts/program.sh"
    log=$top/out/desk.log
    mapfile -t crates < <(crates_of_program "$top")
    say "$(reason_to_build), so the program has to be proved and built"
    if ! command -v rt > /dev/null; then
        say_of_release
        give_up "the command rt of the Rattle toolchain isn't on the PATH: install the toolchain that docs/PROOF.md names, or add its folder bin to PATH"
    fi
    if ! mkdir -p "$top/out" 2> /dev/null || [ ! -w "$top/out" ]; then
        say_of_release
        give_up "you can't write into $top: have its owner run bin/desk once, or clone the repository into a folder of your own"
    fi
    exec 9> "$top/out/desk.lock" || give_up "no lock could be taken in $top/out"
    until flock -w "$patience" 9; do
        say "$(elapsed) waiting for another bin/desk that builds the program here"
        patience=10
    done
    choose_program && return
    say "that takes an hour on four processors the first time, and less after a change; the toolchain's own words go to $log"
    trap end_build EXIT
    trap 'exit 130' INT
    trap 'exit 143' TERM
    trap 'exit 129' HUP
    trap 'exit 141' PIPE
    # (its folder .git makes the copy a checkout of its own, which the toolchain asks for)
    room=$(mktemp -d "$top/out/build.XXXXXX") && mkdir "$room/tmp" "$room/.git" || give_up "no folder could be made in $top/out"
    : > "$log" || give_up "no log could be written to $log"
    copy_sources || give_up "the sources can't be read, or copied into $top/out"
    if ! prove_and_build; then
        say "a proof failed, or the program wasn't built or didn't run; $log says why, such as"
        { grep -aE 'NOT PROVED|: (not proved|no proof)|error: ' "$log" || tail -n 3 "$log"; } | head -n 3 >&2
        exit 70
    fi
    keep_program "$room/crates/$program/out/$program" "$sources" || give_up "the program couldn't be kept in $top/out"
    end_build
    trap - EXIT INT TERM HUP PIPE
    exec 9>&-
    say "$(elapsed) built; from now on it starts at once"
    choose_program || { say "a source was changed meanwhile: this runs the program of the sources as they were" && chosen=$built; }
}
