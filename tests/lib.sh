# shellcheck shell=bash
# What the scripts of this folder share; each of them that is in bash sources it first. The program is MAL, where that is set, and
# else crates/mal/out/mal, which `./mal --build` and `rt ci` build. `folder` is there for a script's files, and is removed behind it.
root=$(cd "$(dirname "${BASH_SOURCE[0]}")/.." && pwd)
mal=${MAL:-$root/crates/mal/out/mal}
suite=${0##*/run_}
passed=0
failed=0
total='' # how many tests there are, where a script knows it

# Tells on the terminal, where standard error is one, how far this is, on one line that is written anew.
tell() {
    [ ! -t 2 ] || printf '\r\033[K%s' "$1" >&2
}

# Counts a test by its name and whether it passed.
count() {
    if [ "$2" -eq 0 ]; then
        passed=$((passed + 1))
    else
        failed=$((failed + 1))
        tell ''
        echo "failed: $1"
    fi
    tell "$suite: $((passed + failed))${total:+ of $total}"
}

# Says the last line, with what was left out, if something was. Whether no test failed, and some passed or were left out.
finish() {
    tell ''
    echo "$suite: $passed passed, $failed failed${1:+ ($1)}"
    [ "$failed" -eq 0 ] && { [ "$passed" -gt 0 ] || [ $# -gt 0 ]; }
}

# Runs the program for 10 s at most; what takes longer ends with status 124.
run_mal() {
    timeout --foreground 10 "$mal" "$@"
}

if [ ! -x "$mal" ]; then
    count "the program $mal is not there" 1
    finish
    exit 1
fi
folder=$(mktemp -d) || exit 1
trap 'rm -rf "$folder"' EXIT
trap 'tell ""; exit 130' INT TERM HUP
