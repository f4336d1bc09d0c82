# Counts the checks of a script of the shell, which begins with `set -u` and `. "${0%/*}/checks.sh"`. tests/module_tests
# tests it.
# It gives `root`, the top of the repository, and `folder`, a new one that is gone at the end of the script.
# Needs: bash, and cmp and mktemp of the system. Leaves out: nothing.
root=$(cd "$(dirname "$0")/.." && pwd)
script=tests/${0##*/}
folder=$(mktemp -d) || exit 1
trap 'rm -rf "$folder"' EXIT
passed=0
failed=0
chosen=('')
is_list=''
listed=''
eol=$'\r\n'

# choose WORD..: takes the words of a script that names cases. With -l these are listed. With other words those are run
# whose names begin with all words, as one name; where none does, with one of the words.
choose() {
    local name
    if [ "$*" = -l ]; then
        is_list=yes
    elif [ $# -gt 0 ]; then
        chosen=("$*")
        while read -r name; do
            is_chosen "$name" && return
        done < <("$0" -l)
        chosen=("$@")
    fi
}

# Whether a case or a check is chosen: its name begins with one that is given, or that is of one of its checks.
is_chosen() {
    local start
    for start in "${chosen[@]}"; do
        [[ $1 == "$start"* || $start == "$1: "* ]] && return
    done
    return 1
}

# wanted NAME: whether a case is to be run. Where cases are listed it is listed, once, and none is run.
wanted() {
    [ -n "$is_list" ] || { is_chosen "$1"; return; }
    [ "$1" = "$listed" ] || printf '%s\n' "$1"
    listed=$1
    return 1
}

# need CRATE..: ends the script where the program of one of these crates is not built.
need() {
    local crate
    for crate in "$@"; do
        [ -n "$is_list" ] || [ -x "$root/crates/$crate/out/$crate" ] && continue
        echo "$script: there is no built program $crate; rt ci builds it, or the script that runs it" >&2
        exit 1
    done
}

# check NAME COMMAND..: counts a check, that a command succeeds. Its name begins with that of its case.
check() {
    local name=$1
    [ -z "$is_list" ] && is_chosen "$name" || return 0
    shift
    if "$@"; then
        passed=$((passed + 1))
    else
        failed=$((failed + 1))
        printf 'failed: %s\n' "$name"
    fi
}

# What a check compares: a file with bytes, two files, two texts, a text with its beginning, its end or a part of it, and
# whether a command fails.
has() {
    printf '%s' "$2" | cmp -s - "$1"
}

same() {
    cmp -s "$1" "$2"
}

is() {
    [ "$1" = "$2" ]
}

begins() {
    [[ $1 == "$2"* ]]
}

ends() {
    [[ $1 == *"$2" ]]
}

contains() {
    [[ $1 == *"$2"* ]]
}

not() {
    ! "$@"
}

# finish: says how many passed and failed, and fails where one did. It ends with 2 where no case was chosen.
finish() {
    [ -z "$is_list" ] || return 0
    if [ $((passed + failed)) -eq 0 ]; then
        echo "$script: no case has a name that begins with: ${chosen[*]}" >&2
        return 2
    fi
    printf '%s passed, %s failed\n' "$passed" "$failed"
    [ "$failed" -eq 0 ]
}
