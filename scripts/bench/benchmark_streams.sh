#!/usr/bin/env bash
# Measures, by the clock and by processor time, bytes out of a device and into one: `cat` of a linear stack to a file beside dd,
# `store` of a file and of standard input beside dd with a sync, `copy` with a map beside one without, and `cat` of a verity
# volume beside a scan of it, 256 MiB each, least of RUNS turns; and the most memory that each takes. Files are in FOLDER, by
# default in memory. Not a part of the gate. Other programs disturb it: stop them.
#
# benchmark_streams.sh PROGRAM [RUNS [FOLDER]]
set -eu
program=$(readlink -f "$1")
runs=${2:-5}
room=$(mktemp -d -p "${3:-/dev/shm}")
trap 'rm -rf "$room"' EXIT
trap 'exit 1' INT TERM
cd "$room"
head -c $((256 << 20)) /dev/urandom > data
truncate -s 256M disk
truncate -s 4M tree
root=$("$program" format --salt "$(printf '%064d' 7)" data tree | sed -n 's/^root //p')
(printf 'v,,,ro,' && "$program" table tree "$root" DATA HASH) > v.stack
printf 'l,,,ro,0 524288 linear DATA 0\n' > l.stack
printf 'w,,,rw,0 524288 linear DISK 0\n' > w.stack

# measure NAME INPUT WORD..: adds a row of seconds and KiB: user, system, clock, the most memory
measure() {
    local name=$1 input=$2
    shift 2
    /usr/bin/time -a -o "times_$name" -f '%U %S %e %M' "$@" < "$input" > out 2> errors || { cat errors; exit 1; }
}

for _ in $(seq "$runs"); do
    measure dd /dev/null dd if=data of=copied bs=1M status=none
    measure cat /dev/null "$program" cat l.stack l DATA=ro:data
    measure dd_fsync /dev/null dd if=data of=disk bs=1M conv=notrunc,fsync status=none
    measure store_file /dev/null "$program" store w.stack w data DISK=rw:disk
    measure store_input data "$program" store w.stack w - DISK=rw:disk
    measure scan_verity /dev/null "$program" scan v.stack v DATA=ro:data HASH=ro:tree
    measure cat_verity /dev/null "$program" cat v.stack v DATA=ro:data HASH=ro:tree
    measure copy /dev/null "$program" copy l.stack l disk DATA=ro:data
    rm -f map
    measure copy_by_map /dev/null "$program" copy --map map l.stack l disk DATA=ro:data
done
for it in times_*; do
    awk -v name="${it#times_}" '{ cpu = $1 + $2; if (NR == 1 || cpu < least) least = cpu; if (NR == 1 || $3 < clock) clock = $3; if ($4 > most) most = $4 }
        END { printf "%s: processor %.2f s, clock %.2f s, memory %d KiB\n", name, least, clock, most }' "$it"
done
