# shellcheck shell=bash
# What the scripts of this folder share. batch_of and rows_of don't read it: each of these is one file that can be copied away.

# What they end with if they can't do their work. 1 is left for what they find.
misuse=64
no_program=70

# fail STATUS SENTENCE
fail() {
    printf '%s: %s\n' "${0##*/}" "$2" >&2
    exit "$1"
}

# answer_help "$@": the comment at a script's beginning is its help.
answer_help() {
    if [ "${1-}" = --help ]; then
        sed -n '1d; /^#/!q; s/^# \{0,1\}//; p' "$0"
        exit
    fi
}

# take_no_words "$@"
take_no_words() {
    answer_help "$@"
    [ $# -eq 0 ] || fail "$misuse" "it takes no words but --help, and '$1' is one"
}

# need COMMAND WHAT: ends the script if the command can't be run.
need() {
    command -v -- "$1" >/dev/null || fail "$no_program" "$2 can't be run: $1"
}
