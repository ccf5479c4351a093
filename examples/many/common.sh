# shellcheck shell=bash
# What the engines of this folder share. Each of them goes from a list of names to a table: `parts_of` makes the tasks, the engine
# has `judge` run over them, and `table_of` puts the rows together. Its name is `here`, as set by the engine.
# shellcheck source=examples/common.sh
. "${here:?}/../common.sh"

# How a machine is reached that doesn't keep waiting for one that was lost.
export VYRD_SSH=${VYRD_SSH:-ssh -o BatchMode=yes -o ConnectTimeout=10 -o ServerAliveInterval=10 -o ServerAliveCountMax=3}

# number WORD NAME: ends the script if a word is no number from 1 on.
number() {
    case $1 in
        '' | 0* | *[!0-9]* | ??????*) fail "$misuse" "$2 is a number from 1 to 99999, and '$1' isn't" ;;
    esac
}

# begin NAMES FOLDER: makes the parts, and says from then on how many have rows. One call at a time works in a folder: it has a
# lock, by the descriptor 9, which the engine closes for its workers.
begin() {
    [ $# -ge 2 ] || fail "$misuse" 'it wants a list of names and a folder; --help says more'
    mkdir -p -- "$2" || exit "$misuse"
    folder=$(cd -- "$2" && pwd) || exit "$misuse"
    exec 9>"$folder/lock" || exit "$misuse"
    flock -n 9 || fail "$misuse" "another call is at work in $folder"
    cat -- "$1" >"$folder/names" || exit "$misuse"
    "$here/parts_of" --bytes "${BYTES:-60000000}" "$folder/names" "$folder" 9>&- || exit
    now=$(left)
    idle=0
    tell_progress 9>&- &
    teller=$!
}

# todo: the parts that have no rows, each with a zero byte after it.
todo() {
    local part
    for part in "$folder"/parts/*; do
        if [ -e "$part" ] && [ ! -e "$folder/rows/${part##*/}" ]; then
            printf '%s\0' "$part"
        fi
    done
}

# left: how many these are.
left() {
    todo | tr -dc '\0' | wc -c
}

# tell_progress: until the script has ended.
tell_progress() {
    local all said='' done_now
    all=$(find "$folder/parts" -type f | wc -l)
    while kill -0 $$ 2>/dev/null; do
        done_now="$((all - $(left))) of $all parts"
        [ "$done_now" = "$said" ] || printf '%s: %s\n' "${0##*/}" "$done_now" >&2
        said=$done_now
        sleep 1
    done
}

# is_left: whether the engine is to go over the parts, once more too. Two rounds in a row without a new row are the end.
is_left() {
    local before=$now
    now=$(left)
    [ "$now" -lt "$before" ] && idle=0
    idle=$((idle + 1))
    [ "$now" -gt 0 ] && [ "$idle" -le 2 ]
}

# finish: makes the table, and ends the script.
finish() {
    kill "$teller" 2>/dev/null
    "$here/table_of" "$folder/names" "$folder"
    exit
}
