#!/usr/bin/env bash
# Runs each row of tests/rows on the program as LLVM and as Rattle's own compiler build it.
#
# rows.sh [--program FILE] [NAME..]: all rows, or those of these names, on both programs or on that file alone. A row is a case
# as scripts/lib/case.sh says, with the file `stdout`, what is printed and what `after` prints after it, and `status`, where that
# isn't 0. Standard error has the sentence on a refusal or fault, or at most three lines if the words are no command.
#
# A row of several steps has `steps` in place of `args`, `stdin`, `stdout` and `status`: a transcript as scripts/lib/transcript.sh says.
# `dmstack` is the program there; a step prints what it writes on standard output and standard error together, and where it
# ends with a status N that isn't 0, a last line `status N`. What is said of wrong words on standard error is left out.
set -eu
top=$(dirname "$(dirname "$(dirname "$(readlink -f "$0")")")")
out=$top/crates/dmstack/out
programs=("$out/dmstack" "$out/dmstack.by-rattle")
if [ "${1-}" = --program ]; then
    programs=("$(realpath "$2")")
    shift 2
else
    "$top/scripts/lib/built.sh" dmstack dmstack.by-rattle
fi
room=$(mktemp -d)
trap 'rm -rf "$room"' EXIT
. "$top/scripts/lib/case.sh"
. "$top/scripts/lib/transcript.sh"
if [ $# = 0 ]; then
    set -- "$top"/tests/rows/*
    set -- "${@##*/}"
fi
passed=0 failed=0

# check ROW PROGRAM: says how the run differs from the row's files, if it does.
check() {
    local row=$top/tests/rows/$1 wanted=0
    [ ! -e "$row/status" ] || wanted=$(cat "$row/status")
    run_case "$row" timeout 60 "$2"
    if [ "$case_status" != "$wanted" ]; then
        echo "$1 (${2##*/}): status $case_status, and not $wanted"
    elif ! cmp -s "$row/stdout" "$room/out"; then
        echo "$1 (${2##*/}): the output differs (< wanted, > printed)"
        diff -a "$row/stdout" "$room/out" | head -n 20
    elif [ -s "$room/errors" ] && ! { [ "$case_status" = 2 ] && [ "$(wc -l < "$room/errors")" -le 3 ]; }; then
        echo "$1 (${2##*/}): standard error has $(head -c 300 "$room/errors")"
    else
        return 0
    fi
    return 1
}

# step NAME: runs the step that was read, and compares.
step() {
    local status=0
    printf %s "$input" > "$room/in"
    (cd "$room/files" && PATH=$room/bin:$PATH timeout 60 bash -c "$command") < "$room/in" > "$room/all" 2>&1 || status=$?
    sed -e '/^dmstack: /d' -e '/^usage: dmstack /d' -e '/^`dmstack manual .*` says more$/d' "$room/all" > "$room/out"
    [ $status = 0 ] || echo "status $status" >> "$room/out"
    if ! printf %s "$wanted" | cmp -s - "$room/out"; then
        printf '%s: %s (< wanted, > printed)\n' "$1" "$command"
        printf %s "$wanted" | diff -a - "$room/out" | head -n 20
        same=1
    fi
}

# check_steps ROW PROGRAM: says how the steps differ from what is wanted, if they do.
check_steps() {
    local row=$top/tests/rows/$1 same=0
    rm -rf "${room:?}/files" "${room:?}/bin"
    mkdir "$room/files" "$room/bin"
    ln -s "$2" "$room/bin/dmstack"
    [ ! -e "$row/files" ] || cp -R "$row/files/." "$room/files"
    [ ! -e "$row/before" ] || (cd "$room/files" && bash "$row/before")
    each_step "$row/steps" '' step "$1 (${2##*/})"
    return $same
}

for name in "$@"; do
    form=check
    [ ! -e "$top/tests/rows/$name/steps" ] || form=check_steps
    for program in "${programs[@]}"; do
        if $form "$name" "$program"; then passed=$((passed + 1)); else failed=$((failed + 1)); fi
    done
done
echo "rows: $passed passed, $failed failed"
[ $failed = 0 ] && [ $passed -gt 0 ]
