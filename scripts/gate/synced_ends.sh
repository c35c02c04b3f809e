#!/usr/bin/env bash
# What `write`, `store` and `repair` wrote is synced when they end early: their last call of a device is its sync, after the last
# write. If that sync fails too, the first fault is printed all the same. Each call is seen by letting it fail (scripts/gate/fail_calls.c).
#
# shellcheck disable=SC2154 # checks.sh sets what is named here
set -eu
top=$(dirname "$(dirname "$(dirname "$(readlink -f "$0")")")")
. "$top/scripts/lib/checks.sh"
cc -shared -fPIC -O2 -o fail.so "$top/scripts/gate/fail_calls.c" -ldl

# filled COUNT: so many bytes that aren't zeros
filled() { head -c "$1" /dev/zero | tr '\0' x; }

# prints CALL STATUS TEXT WORD..: over new images and with the input of `input` the command prints the text with the status, if its
# call of that number fails.
prints() {
    local call=$1 wanted=$2 text=$3 status=0
    shift 3
    rm -f met
    truncate -s 0 disk
    truncate -s 128K disk
    FAIL=$call FAIL_KIND=device FAIL_MET=met LD_PRELOAD=$PWD/fail.so "$program" "$@" < input > out 2> errors || status=$?
    "$top/scripts/model/sentences.py" "$status" out errors && [ "$status" = "$wanted" ] && [ "$(cat out errors)" = "$text" ]
}

# met CALL: the call that failed, and how many sectors were read and written until then; or that none did
met() { [ "$(cut -d ' ' -f 1-3 met 2> /dev/null || echo none)" = "$1" ]; }

# ends LABEL CALL SECTORS STATUS TEXT WORD..: the command ends so, and its last call, of that number, is the sync after writes of so
# many sectors.
ends() {
    local label=$1 call=$2 sectors=$3
    shift 3
    check "$label: what it prints" prints 0 "$@"
    check "$label: what it prints if its sync fails" prints "$call" "$@"
    check "$label: the sync of $sectors sectors, and not $(cat met 2>&1)" met "sync 0 $sectors"
    prints $((call + 1)) "$@" || true
    check "$label: no call after it, and not $(cat met 2>&1)" met none
}

printf 'a,,,rw,0 256 linear D 0' > whole
printf 'a,,,rw,0 136 linear D 0,136 120 error' > broken
filled $((256 * 512 + 1)) > longer
filled $((256 * 512)) > full
filled 8192 > few
printf 'a,,,rw,0 8 linear D 0,8 248 error' > short

cp longer input
ends 'store of more than there is room for' 3 256 1 $'written 256\nrefused 7 TooLong' store whole a - D=rw:disk
filled 700 > input
ends 'store that ends inside a sector' 2 1 1 $'written 1\nrefused 8 PartSector' store whole a - D=rw:disk
cp full input
ends 'store up to an error line' 3 136 3 $'written 128\nfault 1 ErrorTarget' store broken a - D=rw:disk
: > input
ends 'write up to an error line' 2 8 3 'fault 1 ErrorTarget' write short a 0 few D=rw:disk

# Nothing was written, so nothing is synced.
for words in 'write whole a 250 few D=rw:disk' 'write whole a 0 few D=ro:disk' 'store whole b - D=rw:disk'; do
    # shellcheck disable=SC2086 # words
    prints 1 1 "$("$program" $words < input 2> /dev/null)" $words || true
    check "$words: no call, and not $(cat met 2>&1)" met none
done

# The sectors of a file are read before each write.
check 'store of a file: what it prints if its sync fails' prints 5 3 $'written 128\nfault 1 ErrorTarget' store broken a full D=rw:disk
check "store of a file: the sync, and not $(cat met 2>&1)" met 'sync 256 136'
# `repair` of two blocks, of which the second can't be written since it lies past the limit of a file's size.
filled 262144 > good
"$program" format --grow --salt - good tree | sed -n 's/^root //p' > root
cp good bad
for block in 3 60; do printf y | dd of=bad bs=1 seek=$((block * 4096)) conv=notrunc status=none; done

# repairs WORD=VALUE..: leaves what the repair prints and its status in `out`; the words say which call fails.
repairs() {
    rm -f met
    cp bad data
    cp tree hash
    (trap '' XFSZ; ulimit -f 100; env "$@" "$program" repair data hash "$(cat root)" good tree > out 2> errors) || echo "status $?" >> out
}

# The calls of both devices, in their order.
calls=()
while repairs FAIL=$((${#calls[@]} + 1)) FAIL_KIND=device FAIL_MET=met LD_PRELOAD="$PWD/fail.so" && [ -e met ]; do
    calls+=("$(sed 's, .*/, ,' met)")
done
printf '%s\n' 'repaired data 3 copy 1' 'refused 10 Device' 'status 1' > wanted
check 'repair: what it prints' cmp out wanted
count=${#calls[@]}
check "repair: both devices are synced last, and not ${calls[*]: -2}" test "${calls[*]: -2}" = 'sync data sync hash'
check "repair: the write that failed is the call before, and not ${calls[count - 3]}" test "${calls[count - 3]}" = 'write data'
for call in $((count - 1)) "$count"; do
    repairs FAIL="$call" FAIL_KIND=device FAIL_MET=met LD_PRELOAD="$PWD/fail.so"
    check "repair: what it prints if the sync that is call $call fails" cmp out wanted
done
total 'ends that are synced'
