# is_current FILE LIST: whether FILE is there, and nothing that LIST names is newer. tools/crates.py leaves that list, as words of the
# shell. This is for sh, and calls no other program, since starting one would take longer than to judge a small tile. Where it says
# no, tools/crates.py can tell. `top` is the caller's: the repository's folder. It sets IFS and `sources`.
# shellcheck shell=sh disable=SC2154,SC3013
is_current() {
    # (a file that is newer than the list was built by `rt`, perhaps from other sources)
    [ -f "$1" ] && [ -r "$2" ] && ! [ "$1" -nt "$2" ] || return 1
    # shellcheck source=/dev/null
    . "$2"
    IFS='
'
    # a folder is newer where a file came or went
    for source in $sources; do
        ! [ "$top/$source" -nt "$1" ] || return 1
    done
}
