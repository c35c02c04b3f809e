# shellcheck shell=bash disable=SC2034,SC2154
# Checks that are counted, in an empty folder that goes at the end; scripts that run the finished program set `top` and source this.
"$top/scripts/lib/built.sh" dmstack
program=$top/crates/dmstack/out/dmstack
room=$(mktemp -d)
trap 'rm -rf "$room"' EXIT
cd "$room" || exit
passed=0 failed=0

# check WHAT COMMAND..: the command says that WHAT holds.
check() {
    local what=$1
    shift
    if "$@" > /dev/null 2>&1; then passed=$((passed + 1)); else failed=$((failed + 1)) && echo "not so: $what"; fi
}

# total NAME: how many there were; the status says whether all held.
total() {
    echo "$1: $passed passed, $failed failed"
    [ "$failed" = 0 ]
}
