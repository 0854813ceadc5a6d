# Why the program refused its words, or failed: lines on standard error, for a person. For bin/desk, which has `say`.
#
# What the program writes and its status are exact and stand in docs/FORMATS.md; what is said here is a guess at the cause.

commands=(check session serve export import audit sample)
# The kinds of equipment, by their codes.
kinds=(1 2 3 4 5 6 7 7t 8 8i 9 9i 10 11)

# Explains a status of the program to these words.
explain() {
    local status=$1
    shift
    case $status in
        2) explain_words "$@" ;;
        3) explain_console 4>&1 ;;
        4) explain_store "$@" ;;
        5) explain_damage ;;
    esac
}

# --- Status 2: words that are no command line.

explain_words() {
    local faults line
    faults=$(faults_of_words "$@")
    while IFS= read -r line; do
        say "$line"
    done <<< "${faults:-the words are no command line; docs/GUIDE.md has all commands}"
}

# What is wrong with these words, a line each; nothing where they are a command line.
faults_of_words() {
    local command=${1-} name is_ended='' LC_ALL=C
    local -a values=()
    # How often each option stands, and its last value.
    local -A count=() given=()
    case " ${commands[*]} " in
        *" $command "*) ;;
        *)
            fault_of_command "$command"
            return
            ;;
    esac
    shift
    while [ $# -gt 0 ]; do
        name=${1#--} name=${name%%=*}
        case $is_ended$1 in
            --) is_ended=x ;;
            --store | --port | --seats | --connections)
                if [ $# -lt 2 ] || [ "${2#-}" != "$2" ]; then
                    printf '%s\n' "$1 wants $(wanted_of "$name") behind it; what begins with - is written $1=${2--NAME}"
                    return
                fi
                count[$name]=$((${count[$name]-0} + 1)) given[$name]=$2
                shift
                ;;
            --store=* | --port=* | --seats=* | --connections=*) count[$name]=$((${count[$name]-0} + 1)) given[$name]=${1#*=} ;;
            -*) printf "there is no option %s%s\n" "$1" "$([[ $1 == --s* || $1 == -s* ]] && printf ': did you mean --store?')" ;;
            *) values+=("${1}") ;;
        esac
        shift
    done
    faults_of_store
    faults_of_serving
    faults_of_values
}

# What an option wants behind it.
wanted_of() {
    case $1 in
        store) printf 'the name of a file' ;;
        port) printf 'a number from 1 to 65535' ;;
        seats) printf 'a number from 1 to 8' ;;
        connections) printf 'a number from 1 to 1000000' ;;
    esac
}

# What is wrong with how a store is named, by `command`, `count` and `given`.
faults_of_store() {
    local stores=${count[store]-0} store=${given[store]-}
    case $command in
        check | sample) [ "$stores" = 0 ] || printf '%s\n' "$command has no --store: it looks at its input alone" ;;
        *)
            [ "$stores" -le 1 ] || printf '%s\n' '--store stands more than once'
            [ "$stores" != 0 ] || [ "$command" = session ] || [ "$command" = serve ] || printf '%s\n' "$command wants --store FILE, the file of the desk"
            [ "$stores" = 0 ] || [ -n "$store" ] || printf '%s\n' 'the name of the store is empty'
            [ "${#store}" -le 200 ] || printf '%s\n' "the path of the store has ${#store} bytes, and 200 is the most"
            ;;
    esac
}

# What is wrong with the options of `serve`, by `command`, `count` and `given`.
faults_of_serving() {
    local name
    for name in port seats connections; do
        if [ "$command" != serve ]; then
            [ -z "${count[$name]-}" ] || printf '%s\n' "$command has no --$name: that is an option of serve"
            continue
        fi
        [ "${count[$name]-0}" -le 1 ] || printf '%s\n' "--$name stands more than once"
        [ -z "${count[$name]-}" ] || is_number_of "$name" "${given[$name]}" || printf "'%s' is none: --%s is %s, without a leading zero\n" "${given[$name]}" "$name" "$(wanted_of "$name")"
    done
    [ "$command" != serve ] || [ -n "${count[port]-}" ] || printf '%s\n' 'serve wants --port N, the port that it listens at'
}

# Whether a value is one that an option of `serve` takes.
is_number_of() {
    local -A most=([port]=65535 [seats]=8 [connections]=1000000)
    [[ $2 =~ ^[1-9][0-9]{0,6}$ ]] && [ "$2" -le "${most[$1]}" ]
}

# What is wrong with the values, by `command` and `values`.
faults_of_values() {
    local -a wanted=()
    case $command in
        check) wanted=(DAY KIND) ;;
        audit) wanted=(DAY) ;;
        sample) wanted=(N) ;;
    esac
    if [ ${#values[@]} -lt ${#wanted[@]} ]; then
        printf '%s\n' "$command wants ${wanted[*]}: ${wanted[${#values[@]}]} isn't there"
    elif [ ${#values[@]} -gt ${#wanted[@]} ]; then
        printf "%s has nothing like the word '%s'\n" "$command" "${values[${#wanted[@]}]}"
    fi
    local place
    for place in "${!wanted[@]}"; do
        [ "$place" -lt ${#values[@]} ] || break
        case ${wanted[place]} in
            DAY) fault_of_day "${values[place]}" ;;
            KIND) fault_of_kind "${values[place]}" ;;
            N) fault_of_size "${values[place]}" ;;
        esac
    done
}

fault_of_day() {
    local year month day
    if [[ $1 =~ ^([0-9]{4})-([0-9]{2})-([0-9]{2})$ ]]; then
        if ! date -d "$1" > /dev/null 2>&1; then
            printf "there is no day '%s' in the calendar\n" "$1"
        elif [[ $1 < 2014-07-22 || $1 > 2099-12-31 ]]; then
            printf "the day '%s' can't be asked: the first is 2014-07-22 and the last 2099-12-31\n" "$1"
        fi
        return
    elif [[ $1 =~ ^([0-9]{1,2})[./-]([0-9]{1,2})[./-]([0-9]{4})$ ]]; then
        day=${BASH_REMATCH[1]} month=${BASH_REMATCH[2]} year=${BASH_REMATCH[3]}
    elif [[ $1 =~ ^([0-9]{4})[./-]?([0-9]{1,2})[./-]?([0-9]{1,2})$ ]]; then
        year=${BASH_REMATCH[1]} month=${BASH_REMATCH[2]} day=${BASH_REMATCH[3]}
    else
        printf "'%s' is no day: a day is written 2024-01-23\n" "$1"
        return
    fi
    printf "'%s' is no day: write year, month and day, as in %s-%02d-%02d\n" "$1" "$year" "$((10#$month))" "$((10#$day))"
}

fault_of_kind() {
    case " ${kinds[*]} " in
        *" $1 "*) ;;
        *) printf "'%s' is no kind of equipment: the kinds are %s, and docs/RULES.md says which is which\n" "$1" "${kinds[*]}" ;;
    esac
}

fault_of_size() {
    [[ $1 =~ ^[1-9][0-9]{0,3}$ && $1 -le 2000 ]] || printf "'%s' is no size: it is a whole number from 1 to 2000, without a leading zero\n" "$1"
}

fault_of_command() {
    local near
    near=$(nearest_command "$1")
    printf "there is no command '%s'%s\n" "$1" "${near:+: did you mean $near?}"
    printf '%s\n' "the commands are ${commands[*]}; bin/desk help shows them"
}

# The command that is the fewest changes of a letter away, where these are at most two, or three of a long word.
nearest_command() {
    local word=${1,,} command least=3 near='' changes
    [ ${#word} -le 40 ] || return
    for command in "${commands[@]}"; do
        changes=$(changes_between "$word" "$command")
        [ "$changes" -lt "$least" ] && least=$changes near=$command
    done
    printf '%s' "$near"
}

# How many letters have to be put in, taken out or replaced to get from one word to another.
changes_between() {
    local one=$1 other=$2 row=() above i j cost
    for ((j = 0; j <= ${#other}; j++)); do row[j]=$j; done
    for ((i = 1; i <= ${#one}; i++)); do
        above=${row[0]} row[0]=$i
        for ((j = 1; j <= ${#other}; j++)); do
            [ "${one:i-1:1}" = "${other:j-1:1}" ] && cost=$above || cost=$((above + 1))
            above=${row[j]}
            [ $((above + 1)) -lt $cost ] && cost=$((above + 1))
            [ $((row[j - 1] + 1)) -lt $cost ] && cost=$((row[j - 1] + 1))
            row[j]=$cost
        done
    done
    printf '%s' "${row[${#other}]}"
}

# --- Status 3: the console.

# Its descriptor 4 is standard output, for where a command's own is another.
explain_console() {
    local cause=''
    if [ ! -e /proc/self/fd/0 ]; then
        cause='standard input is closed'
    elif [ -d /dev/stdin ]; then
        cause='standard input is a folder: name a file behind <'
    elif [ ! -e /proc/self/fd/1 ]; then
        cause='standard output is closed'
    elif [ -p /dev/stdout ]; then
        cause='nobody reads standard output any more'
    elif [ /dev/stdout -ef /dev/full ] || [ "$(room_for /proc/self/fd/4)" = 0 ]; then
        cause='standard output has no room: the disk is full'
    else
        cause="standard input can't be read, or standard output can't be written"
    fi
    say "$cause; what was written is at most the beginning of an answer"
}

# The free bytes of the disk with this file, as far as they can be told.
room_for() { df --output=avail -B1 -- "$1" 2> /dev/null | tail -n 1 | tr -d ' '; }

# --- Status 4: the store.

# The name of the store among these words.
store_among() {
    local name=''
    while [ $# -gt 0 ]; do
        case $1 in
            --) break ;;
            --store) name=${2-} ;;
            --store=*) name=${1#--store=} ;;
        esac
        shift
    done
    printf '%s' "$name"
}

# Tells where a command that only reads names a store that isn't there yet, and can be made.
tell_new_store() {
    local store folder
    store=$(store_among "$@")
    folder=$(folder_of "$store")
    [ -n "$store" ] && [ ! -e "$store" ] && [ -w "$folder" ] && [ -z "$(faults_of_words "$@")" ] &&
        say "there is no store $store yet: a new one is made, with the ten restricted substances alone"
}

explain_store() {
    local store
    store=$(store_among "$@")
    say "the store $store can't be used: $(cause_of_store "$store")"
}

folder_of() { case $1 in */*) printf '%s/' "${1%/*}" ;; *) printf . ;; esac }

# Why a store can't be used, as far as it can be told from outside.
cause_of_store() {
    local store=$1 folder
    folder=$(folder_of "$store")
    if [ ! -d "$folder" ]; then
        printf "the folder %s isn't there" "$folder"
    elif [ ! -x "$folder" ]; then
        printf 'you may not enter the folder %s' "$folder"
    elif [ -d "$store" ]; then
        printf 'it is a folder, and a store is a file'
    elif [ -e "$store" ] && [ ! -f "$store" ]; then
        printf 'it is no ordinary file'
    elif [ -e "$store" ] && [ ! -r "$store" ]; then
        printf 'you may not read it'
    elif [ -e "$store" ] && [ ! -w "$store" ]; then
        printf 'you may not write it, and each command writes a log beside it'
    elif [ ! -w "$folder" ]; then
        printf 'you may not write into the folder %s, where it and its log stand' "$folder"
    else
        cause_of_file "$store" "$folder"
    fi
}

cause_of_file() {
    local holder
    if [ -s "$1" ] && [ "$(head -c 15 -- "$1" | tr -d '\0')" != 'SQLite format 3' ]; then
        printf 'the file is no SQLite database'
    elif holder=$(holder_of "$1") && [ -n "$holder" ]; then
        printf 'it is open in another program, %s, and one desk at a time has a store open' "$holder"
    elif [ "$(room_for "$2")" = 0 ]; then
        printf 'the disk is full'
    elif is_truncated "$1"; then
        printf 'the database is cut short: it has fewer bytes than its head says'
    elif [ -s "$1" ] && ! head -c 4096 -- "$1" | grep -aqi 'create table *"\{0,1\}record"\{0,1\}'; then
        printf "the database isn't a desk's: it has no table \`record\`"
    else
        printf "the file is damaged, it isn't a desk's database, or the disk fails or is full"
    fi
}

# The program that has a file open, by its number and its name, where that can be seen.
holder_of() {
    local open process
    for open in /proc/[0-9]*/fd/*; do
        [ "$open" -ef "$1" ] || continue
        process=${open#/proc/}
        process=${process%%/*}
        [ "$process" != $$ ] && printf '%s (%s)' "$process" "$(cat "/proc/$process/comm" 2> /dev/null)" && return
    done
}

# Whether a database has fewer bytes than its head counts: the size of a page, which is written as 1 where it is 65,536, by the pages.
is_truncated() {
    local -a head
    read -r -a head < <(od -An -v -tu1 -j16 -N16 -- "$1" 2> /dev/null | tr '\n' ' ')
    [ ${#head[@]} = 16 ] || return
    local page=$((head[0] * 256 + head[1]))
    [ $page != 1 ] || page=65536
    [ "$(stat -c %s -- "$1")" -lt $((page * (((head[12] * 256 + head[13]) * 256 + head[14]) * 256 + head[15]))) ]
}

# --- Status 5: damage.

explain_damage() {
    say "what the store keeps is no sound desk; the line names a record that shows it, by the number of its table and its code"
    say "the tables: 1 substance, 2 member, 3 material, 4 part, 5 line, 6 product, 7 exemption, 8 candidate, 9 shipment, 10 ticket"
    say "take the newest copy that is sound, or send the edits again to a new store; nothing was changed"
}
