# For tests/package: the manual pages and the completion.
# (the names that aren't set here are those of tests/package)
# shellcheck shell=bash disable=SC2154

# is_silent WORD..: whether the words succeed and say nothing on either end.
is_silent() {
    local said
    said=$("$@" 2>&1 >/dev/null) || return 1
    # (these are about the machine's list of pages, in which ours aren't)
    said=$(grep -vE 'outdated mandoc.db|referenced manual not found: Xr mvtgate' <<<"$said" || true)
    [ -z "$said" ] || { echo "$said"; return 1; }
}

# lint PAGE: what mandoc has to say goes to its standard output.
lint() { mandoc -T lint "$1" >&2 || true; }

# options_of MODULE PAGE: whether the options of a manual page are those of a program's help.
options_of() {
    diff <(PYTHONPATH=bindings/python/src "$python" -m "$1" --help | grep -oE -- '--[a-z-]+' | sort -u) \
        <(sed -n 's/^\.It Fl Fl //p' "$2" | sed 's/ , Fl Fl /\n/; s/ Ar.*//' | sed 's/^/--/' | sort -u)
}

# The exit statuses of the manual page are those of the help.
statuses_of_check() {
    diff <(PYTHONPATH=bindings/python/src "$python" -m mvtgate.checking.command --help | tr '\n' ' ' | sed 's/.*Exit *status//' |
        grep -oE '[0-9]+:' | tr -d :) <(sed -n 's/^\.It \([0-9][0-9]*\)$/\1/p' packaging/mvtgate-check.1)
}

test_pages() {
    local page
    for page in packaging/*.[13]; do
        ! has /usr/bin/mandoc "the lint of $page" || expect "the lint of $page" is_silent lint "$page"
        ! has /usr/bin/groff "groff's warnings on $page" || expect "groff's warnings on $page" is_silent groff -ww -mandoc -Tutf8 -z "$page"
        ! has /usr/bin/man "the warnings of man on $page" ||
            expect "the warnings of man on $page" is_silent env LC_ALL=C.UTF-8 man --warnings -E UTF-8 -l -Tutf8 -Z "$page"
    done
    expect "the faults of mvtgate.1" "$python" packaging/tests/manual.py faults
    ! has /usr/bin/mandoc "the statuses of mvtgate.1" ||
        expect "the statuses of mvtgate.1" "$python" packaging/tests/manual.py statuses ./mvtgate
    expect "the lines of mvtgate.1" "$python" packaging/tests/manual.py lines ./mvtgate
    expect "the diagnostics of mvtgate.1" "$python" packaging/tests/manual.py diagnostics ./mvtgate
    expect "the options of mvtgate-planet.1" options_of mvtgate.planet packaging/mvtgate-planet.1
    expect "the options of mvtgate-check.1" options_of mvtgate.checking.command packaging/mvtgate-check.1
    expect "the statuses of mvtgate-check.1" statuses_of_check
    expect "the functions of mvtgate.3" "$python" packaging/tests/manual.py functions
    expect "the constants of mvtgate.3" "$python" packaging/tests/manual.py constants
    expect "the members of mvtgate-planet.1" "$python" packaging/tests/manual.py members
}

# offered_by PROGRAM WORD..: what the function of the program's completion offers for the words, of which the last one is at
# the cursor.
offered_by() {
    # shellcheck disable=SC2016
    bash --norc -c '
        name=_${1//-/_}
        . "packaging/$1.bash-completion"
        compopt() { COMPREPLY+=("a file by readline: $*"); }
        [ "$(complete -p "$1")" = "complete -F $name $1" ] || echo "there is no completion"
        COMP_WORDS=("$@") COMP_CWORD=$(($# - 1))
        $name
        echo "${COMPREPLY[*]}"' bash "$@"
}

offered() { offered_by mvtgate "$@"; }
offered_by_check() { offered_by mvtgate-check "$@"; }

# Lines 'WORDS|OFFERS': what is offered after these words; the last one is at the cursor, and is empty after a space.
offers='|check confirm mend dump fields help --help --version
c|check confirm
--|--help --version
x|
nothing |
check |FILE
check a |
check -|--profile --all --quick --advice --not-empty --help
check --a|--all --advice
check --q|--quick
check --all --a|--advice
check --profile |polygon feature
check --profile f|feature
check --profile =|polygon feature
check --profile = p|polygon
check --profile = polygon |FILE
check --profile polygon -|--all --quick --advice --not-empty --help
check --profile feature a |
check --advice -|--profile --all --quick --not-empty --help
check --not-empty --n|
confirm |FILE
confirm -|--profile --help
confirm a |FILE
confirm a b |
confirm --profile p|polygon
confirm --profile feature a |FILE
m|mend
mend |FILE
mend -|--profile --drop --report --help
mend --drop --r|--report
mend --profile |polygon feature
mend --profile = p|polygon
mend --report |FILE
mend --report a -|--profile --drop --help
mend --report = |FILE
mend --report a |FILE
mend --report = a |FILE
mend --report a b |
dump |FILE
dump -|--help
fields |FILE
fields -|--help
help |check confirm mend dump fields
help d|dump
help dump |'

# The same for mvtgate-check.
offers_of_check='|FILE
x|FILE
--q|--quick --quiet
--al|--all --allow-empty
--jobs |
--jobs 2 |FILE
--profile |polygon feature
--profile f|feature
--profile =|polygon feature
--profile = p|polygon
--profile = polygon |FILE
--junit |FILE
--sarif = |FILE
a --js|--json
-- -|FILE'

# The same for mvtgate-proxy, which takes no files.
offers_of_proxy='|--admin --client-time --connections --drain-time --drop --exact --health-path --help --host --judge-wait --judgements --last-good --listen --log-lines --max-packed --max-tile --memory --mode --not-empty --path --profile --remember --type --upstream --upstream-time --version
--up|--upstream --upstream-time
--mode |report refuse mend
--mode = r|report refuse
--profile f|feature
--drop --m|--max-packed --max-tile --memory --mode
--upstream |'

# test_offers PROGRAM LINES
test_offers() {
    local line words wanted
    while IFS= read -r line; do
        mapfile -td ' ' words < <(printf '%s ' "${line%|*}")
        wanted=${line#*|}
        expect "the completion of '$1 ${line%|*}'" are_lines "${wanted/FILE/a file by readline: -o default}" offered_by "$1" "${words[@]}"
    done <<<"$2"
}

# The options that are offered are those of the help.
offers_all_of_check() {
    diff <(PYTHONPATH=bindings/python/src "$python" -m mvtgate.checking.command --help | grep -oE -- '--[a-z-]+' | sort -u) \
        <(offered_by_check -- | tr ' ' '\n' | sort -u)
}

# offers_all COMMAND: whether the options that the program's help of a command has, or its own, are those that are offered.
offers_all() {
    local words=()
    [ -z "$1" ] || words=("$1")
    diff <(./mvtgate "${words[@]}" --help | grep -oE -- '^ +(-., )?--[a-z-]+' | grep -oE -- '--[a-z-]+' | sort -u) \
        <(offered "${words[@]}" -- | tr ' ' '\n' | sort -u)
}

test_documents() {
    local it
    test_pages
    test_offers mvtgate "$offers"
    test_offers mvtgate-check "$offers_of_check"
    test_offers mvtgate-proxy "$offers_of_proxy"
    expect "the options of mvtgate-check" offers_all_of_check
    for it in "" check confirm mend dump fields; do
        expect "the options of 'mvtgate $it'" offers_all "$it"
    done
    expect "typing at bash" "$python" packaging/tests/typed.py packaging/mvtgate.bash-completion
}
