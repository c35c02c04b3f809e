# shellcheck shell=bash disable=SC2154,SC2034
# The form of a case, for scripts that run the program on one; they set `top` and `room`, a folder of their own, and source this.
#
# A case is a folder with `args` (the words, one a line), `stdin`, and, where there is one, a folder `files`, whose files
# lie in the empty folder that the program runs in, a script `before`, which makes further files there (large or sparse
# ones, FIFOs, links), and a script `after`: what it prints, as of what the files hold, comes after the output.

# run_case FOLDER COMMAND..: runs the command with the case's words. Leaves the output in $room/out, standard error in
# $room/errors without the sentence on a refusal or fault, and the status in $case_status.
run_case() {
    local folder=$1 words=()
    shift
    [ ! -e "$folder/args" ] || mapfile -t words < "$folder/args"
    rm -rf "$room/files"
    mkdir "$room/files"
    [ ! -e "$folder/files" ] || cp -R "$folder/files/." "$room/files"
    case_status=0
    (
        cd "$room/files"
        [ ! -e "$folder/before" ] || bash "$folder/before"
        exec "$@" "${words[@]}" < "$folder/stdin" > "$room/out" 2> "$room/errors"
    ) || case_status=$?
    "$top/scripts/model/sentences.py" "$case_status" "$room/out" "$room/errors" "${words[@]}" >> "$room/errors" || true
    [ ! -e "$folder/after" ] || (cd "$room/files" && bash "$folder/after") >> "$room/out" 2>&1
}
