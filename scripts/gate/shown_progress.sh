#!/usr/bin/env bash
# What `--progress` of the commands on verity images shows: on standard error a line that is written over, at most twice a
# second, of so many MiB as the data have; on standard output the same as without it. Of a command that takes no half
# of a second nothing is shown.
#
# shellcheck disable=SC2154 # checks.sh sets what is named here
set -eu
top=$(dirname "$(dirname "$(dirname "$(readlink -f "$0")")")")
. "$top/scripts/lib/checks.sh"
salt=(--salt 00112233 --uuid 00000000-0000-4000-8000-000000000001)
bare=(--no-superblock --salt 00112233)

milliseconds() { echo $(($(date +%s%N) / 1000000)); }

# measure WORD..: a command without `--progress`, and in `took` how long it takes, in milliseconds
measure() {
    local begun
    begun=$(milliseconds)
    "$program" "$@" > plain
    took=$(($(milliseconds) - begun))
}

# progress WORD..: the same with `--progress`, of data of $mib MiB
progress() {
    local name=$1 begun most lines
    shift
    measure "$name" "$@"
    begun=$(milliseconds)
    "$program" "$name" --progress "$@" > told 2> shown
    most=$((($(milliseconds) - begun) / 500 + 1))
    sed 's/\x1b\[A\r//; s/\x1b\[K$//' shown > lines
    lines=$(wc -l < lines)
    check "$name $*: the same on standard output" cmp plain told
    check "$name $*: at most twice a second, and there are $lines" test "$lines" -le "$most"
    check "$name $*: something of $took ms" test "$lines" -ge 1 -o "$took" -lt 1000
    check "$name $*: how far it has come" awk -v all="$mib" '
        !/^[0-9]+ of [0-9]+ MiB, [0-9]+ MiB\/s, [0-9]+ s left$/ || $1 > all || $3 != all || $1 < had { exit 1 }
        { had = $1 }' lines
    check "$name $*: the first line is new, the others are written over" awk '
        (NR == 1) == /^\033\[A\r/ { exit 1 }' shown
}

# Data without a block on the disk, so many that a command takes longer than a second, or 16 GiB.
mib=64
while truncate -s "${mib}M" data && measure format --grow "${salt[@]}" data hash && [ "$took" -lt 1500 ] && [ $mib -lt 16384 ]; do
    mib=$((mib * 2))
done
root=$(awk '$1 == "root" { print $2 }' plain)
progress format --grow "${salt[@]}" data hash
progress verify data hash "$root"
progress verify --all data hash "$root"
progress format --grow "${bare[@]}" data tree
root=$(awk '$1 == "root" { print $2 }' plain)
progress verify "${bare[@]}" data tree "$root"
progress verify --all "${bare[@]}" data tree "$root"

# Half of the data, by their number of blocks.
mib=$((mib / 2))
progress format --grow "${salt[@]}" --blocks $((mib * 256)) data half

# `assemble` reads data twice: for the copy, and for the tree.
truncate -s 512M data
mib=1024
progress assemble --draw-from seed disk data
rm disk

# Of little nothing is shown.
truncate -s 1M data
"$program" format --progress --grow "${salt[@]}" data few > told 2> shown
check 'nothing is shown of 1 MiB' test ! -s shown
check 'its root is printed' grep -q '^root ' told

total 'shown_progress'
