#!/usr/bin/env bash
# units.sh: what examples/systemd lets its services do, by systemd's tools and strace (systemd, strace, socat, libnbd-bin).
# No service manager is needed. It looks that each unit is exposed by at most 2.0 of 10, and that a service of a client who reads,
# or writes and flushes, makes no system call that its unit refuses.
set -u
top=$(dirname "$(dirname "$(dirname "$(readlink -f "$0")")")")
. "$top/scripts/lib/checks.sh"

# The system calls of a set and of those that it contains, one a line.
calls_of() {
    local it
    systemd-analyze syscall-filter "$1" | sed -n 's/^ *\([-@a-z_0-9]*\)$/\1/p' | while read -r it; do
        case $it in
        "$1") ;;
        @*) calls_of "$it" ;;
        *) echo "$it" ;;
        esac
    done
}

for unit in "$top"/examples/systemd/*.service; do
    name=${unit##*/}
    check "$name is exposed little" systemd-analyze security --offline=true --no-pager --threshold=20 "$unit"
    check "$name refuses what the tool is asked here" grep -qx 'SystemCallFilter=~@privileged @resources' "$unit"
done
sort -u <(calls_of @system-service) > allowed
sort -u <(calls_of @privileged) <(calls_of @resources) > refused
comm -23 allowed refused > left

head -c 1M /dev/urandom > data.img
"$program" format --grow data.img hash.img | sed -n 's/^root //p' > root
"$program" table --name v --root-hash-file root hash.img D H > v.stack
echo 'w,,,rw,0 2048 linear D 0' > w.stack
served() {
    printf '#!/bin/sh\nexec strace -f -o %s.calls %s nbd %s\n' "$1" "$program" "$2" > serve
    chmod +x serve
    socat UNIX-LISTEN:socket EXEC:./serve &
    for _ in $(seq 100); do [ ! -S socket ] || break; sleep 0.05; done
}
served reads 'v.stack v D=ro:data.img H=ro:hash.img'
nbdcopy --connections=1 'nbd+unix:///?socket=socket' copy.img
wait $!
served writes 'w.stack w D=rw:copy.img'
nbdcopy --flush data.img 'nbd+unix:///?socket=socket'
wait $!
for it in reads writes; do
    sed -n 's/^[0-9]* *\([a-z_0-9]*\)(.*/\1/p' "$it.calls" | sort -u > made
    check "a service that $it makes calls" test -s made
    check "a service that $it makes none that its unit refuses" test -z "$(comm -23 made left | tee /dev/stderr)"
done
total units
