#!/usr/bin/env bash
# Runs the commands of the documents that users read, and compares what they print with what the documents say.
#
# transcripts.sh [--program FILE]: on the program that ./prove built, or on that file. A document's transcript is as
# scripts/lib/transcript.sh says, indented. The commands of one document run one after another, in one shell and one empty folder
# that has `dmstack` and `examples`.
set -u
top=$(dirname "$(dirname "$(dirname "$(readlink -f "$0")")")")
program=$top/crates/dmstack/out/dmstack
if [ "${1-}" = --program ]; then
    program=$(realpath "$2")
else
    "$top/scripts/lib/built.sh" dmstack || exit 1
fi
. "$top/scripts/lib/transcript.sh"
passed=0 failed=0

# Runs the step that was read, and compares.
step() {
    printf %s "$input" > "$room.in"
    eval "$command" > "$room.out" 2>&1 < "$room.in"
    if printf %s "$wanted" | cmp -s - "$room.out"; then
        passed=$((passed + 1))
    else
        failed=$((failed + 1))
        printf '%s: %s\nprinted\n%s\nin place of\n%s\n' "$document" "$command" "$(cat "$room.out")" "$wanted"
    fi
}

for document in "$top"/README.md "$top"/docs/*.md; do
    room=$(mktemp -d)
    cd "$room" || exit 1
    ln -s "$program" dmstack
    ln -s "$top/examples" examples
    each_step "$document" '    ' step
    cd "$top" || exit 1
    rm -rf "$room" "$room.in" "$room.out"
done
echo "transcripts: $passed passed, $failed failed"
[ $failed = 0 ] && [ $passed -gt 0 ]
