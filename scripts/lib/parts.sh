# shellcheck shell=bash disable=SC2154
# The parts of the gate: runs them in turn or side by side, says how long each took, and ends at the first that failed, also
# where others still run beside it. It is read by a script that has made the folder $room.
times=()
begun=()

# part NAME COMMAND..: runs a part.
part() {
    local name=$1 status=0 TIMEFORMAT='%R %U %S'
    shift
    echo "== $name"
    { time "$@" 2>&1 || status=$?; } 2> "$room/times"
    ended "$name" "$room/times" $status
}

# begin NAME COMMAND..: runs a part beside those that were begun before, as many at a time as there are processors. Each has
# a group of processes of its own, and what it prints is kept apart.
begin() {
    local name=$1 at=${#begun[@]}
    shift
    begun+=("$name")
    while [ "$(jobs -pr | wc -l)" -ge "$(nproc)" ]; do wait_for_one; done
    set -m
    run_part "$room/part.$at" "$@" &
    set +m
}

# run_part FILE COMMAND..: keeps the output in the file, and beside it the time and the status.
run_part() {
    local file=$1 status=0 TIMEFORMAT='%R %U %S'
    shift
    { time "$@" > "$file" 2>&1 || status=$?; } 2> "$file.times"
    echo $status > "$file.status"
}

# wait_for_one: waits until a part that was begun has ended. Where one has failed, it is shown, and that is the end.
wait_for_one() {
    local at
    wait -n || true
    for at in "${!begun[@]}"; do
        ! grep -qsvx 0 "$room/part.$at.status" || show "$at"
    done
}

# finish: waits for the parts that were begun, and shows what each printed, in the order in which they were begun.
finish() {
    local at
    while [ -n "$(jobs -pr)" ]; do wait_for_one; done
    for at in "${!begun[@]}"; do show "$at"; done
    begun=()
}

# show NUMBER: what a part printed that was begun and has ended.
show() {
    local file=$room/part.$1
    echo "== ${begun[$1]}"
    cat "$file"
    ended "${begun[$1]}" "$file.times" "$(cat "$file.status" || echo 1)"
}

# ended NAME TIMES STATUS: says how long a part took, and ends where it failed.
ended() {
    local wall user system
    read -r wall user system < <(tail -n 1 "$2")
    times+=("$wall $user $system")
    awk -v name="$1" -v wall="$wall" -v cpu="$user $system" \
        'BEGIN { split(cpu, part, " "); printf "== %s: %.0f s, %.0f s of CPU\n", name, wall, part[1] + part[2] }'
    [ "$3" = 0 ] || { echo "check: failed at: $1"; exit "$3"; }
}

# stop_parts: ends the parts that still run, and waits until they have ended.
stop_parts() {
    local it
    for it in $(jobs -pr); do kill -- "-$it" 2> /dev/null || true; done
    wait || true
}

# total: how long all parts took together.
total() {
    printf '%s\n' "${times[@]}" |
        awk -v wall=$SECONDS '{ cpu += $2 + $3 } END { printf "check: %d parts passed in %.1f min, %.1f min of CPU\n", NR, wall / 60, cpu / 60 }'
}
