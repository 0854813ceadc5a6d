# Which program belongs to the sources as they are. For bin/desk, scripts/keep-program and scripts/release, which set `top`, the
# folder of the repository.
#
# A program is either the released one, of release/, or one that was built here. Each is told by two checksums: that of the
# sources that it was built of, and its own. In out/ stand
#   desk           the program that was built here, and desk.told, its two checksums
#   desk-released  the released program, unpacked
#   desk.current   which of them belongs to the sources, with what tells that no source was changed since that was found

program=desk_main
release=$top/release
built=$top/out/desk
unpacked=$top/out/desk-released
current=$top/out/desk.current

# The crates that the program is made of, each after those that it stands on.
crates_of_program() {
    awk -v program="$program" '
        { sub(/#.*/, "") }
        match($0, /^[a-z0-9_]+[^:]*:/) { name = $1; sub(/:.*/, "", name); sub(/^[^:]*:/, ""); uses[name] = $0 }
        function visit(crate,    parts, count, i) {
            if (!(crate in uses) || crate in seen) return
            seen[crate]
            count = split(uses[crate], parts, " ")
            for (i = 1; i <= count; i++) visit(parts[i])
            print crate
        }
        END { visit(program) }
    ' "$1/crates.txt"
}

# The names of the sources in a folder, each ended by a NUL: two files, and the text of each crate that the program is made of.
# With -d, their folders too.
sources_of() (
    cd "$1" || exit
    kind=(-type f)
    [ "${2-}" = -d ] && kind=()
    folders=()
    for crate in $(crates_of_program .); do
        for folder in crates/$crate/{src,specs,proofs}; do
            [ -d "$folder" ] && folders+=("$folder")
        done
    done
    exec find -L crates.txt HANDLES "${folders[@]}" "${kind[@]}" -print0
)

checksum_of_file() { sha256sum < "$1" | cut -d' ' -f1; }

# The checksum of the sources in a folder, by their names and their bytes.
checksum_of_sources() (
    set -o pipefail
    sources_of "$1" | LC_ALL=C sort -z | (cd "$1" && xargs -0 sha256sum --) | checksum_of_file /dev/stdin
)

# What release/desk.txt says behind a word: `sources`, `program` or `proved`.
told_of_release() { sed -n "s/^$1: //p" "$release/desk.txt" 2> /dev/null; }

# A file as it can't be told from another one by its bytes alone: its inode, size and time of the last change of any kind.
identity_of() { find "$1" -printf '%i %s %C@\n'; }

# Unpacks the released program to a file, where it isn't there already.
unpack_release() {
    local wanted
    wanted=$(told_of_release program) && [ -n "$wanted" ] || return 1
    [ -x "$1" ] && [ "$(checksum_of_file "$1")" = "$wanted" ] && return
    mkdir -p "${1%/*}" 2> /dev/null
    { gzip -dc "$release/desk.gz" > "$1.$$" && chmod +x "$1.$$" && [ "$(checksum_of_file "$1.$$")" = "$wanted" ] && mv -f "$1.$$" "$1"; } 2> /dev/null && return
    rm -f "$1.$$" 2> /dev/null
    return 1
}

# Unpacks the released program, and sets `chosen` to it: in out/, or where that can't be written in the user's own cache.
choose_release() {
    for chosen in "$unpacked" "${XDG_CACHE_HOME:-${HOME-}/.cache}/zegcumi/desk-released"; do
        unpack_release "$chosen" && return
    done
    return 1
}

# Notes that this program of out/ belongs to the sources, none of which was changed since this moment.
note_current() {
    { printf '%s\n' "$2" "$1" "$(identity_of "$top/out/$1")" && sources_of "$top" -d && printf '%s\0' "out/$1"; } > "$current.$$" && mv -f "$current.$$" "$current" && return
    rm -f "$current.$$"
    return 1
} 2> /dev/null

# Sets `chosen` to the program that is noted, where no source and no folder of sources was changed since then, and the program's
# file is the same. What was changed is told by times of the last change of any kind, which no copy and no `touch` sets back.
# This takes a tenth of the time of a checksum, and most of what a start waits for is this.
is_noted() {
    [ -r "$current" ] || return 1
    local since name identity now seen=
    printf -v now '%(%s)T' -1
    {
        read -r since && read -r name && read -r identity && [[ $since =~ ^[0-9]+$ ]] || return 1
        # (nothing is told by a clock that was set back)
        [ "$since" -gt "$now" ] || seen=$(find_changes)
    } < "$current"
    chosen=$top/out/$name
    [ -n "$seen" ] && [ "$seen" = "$identity" ]
}

# The identity of the program, whose name is the last on standard input; other words where one of the names there was changed since
# the moment in `since`, or is gone or can't be read. What is added to a folder changes the folder.
find_changes() {
    cd "$top" && exec find -L -files0-from - -maxdepth 0 -path "out/$name" -printf '%i %s %C@\n' -o -newerct "@$since" -printf 'changed\n' -quit 2>&1
}

# Sets `chosen` to the program that belongs to the sources as they are, where there is one.
choose_program() {
    is_noted && return
    local now sources
    printf -v now '%(%s)T' -1
    sources=$(checksum_of_sources "$top") || return 1
    if [ "$sources" = "$(told_of_release sources)" ] && choose_release; then
        :
    elif [ -x "$built" ] && [ "$(cat "$built.told" 2> /dev/null)" = "$sources $(checksum_of_file "$built")" ]; then
        chosen=$built
    else
        return 1
    fi
    [ "${chosen%/*}" != "$top/out" ] || note_current "${chosen##*/}" $((now - 1))
    return 0
}

# Keeps a program that was built of sources with this checksum.
keep_program() {
    mkdir -p "$top/out" && rm -f "$built.told" &&
        cp "$1" "$built.$$" && mv -f "$built.$$" "$built" &&
        printf '%s %s\n' "$2" "$(checksum_of_file "$built")" > "$built.told" && return
    rm -f "$built.$$"
    return 1
}
