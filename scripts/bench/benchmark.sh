#!/usr/bin/env bash
# Measures reads, printing and writes beside system tools, as ratios of medians of interleaved runs. Not a part of the gate.
#
# A ratio is the tool's time divided by the program's: 1 is as fast, less is slower.
set -eu
top=$(dirname "$(dirname "$(dirname "$(readlink -f "$0")")")")
room=$(mktemp -d)
trap 'rm -rf "$room"' EXIT
cd "$room"
"$top/scripts/lib/built.sh" dmstack
program=$top/crates/dmstack/out/dmstack
runs=7

microseconds() {
    local start end
    start=$(date +%s%N)
    "$@" > /dev/null
    end=$(date +%s%N)
    echo $(((end - start) / 1000))
}

median() { sort -n | sed -n "$((runs / 2 + 1))p"; }

session() { "$program" session "${bindings[@]}" < input; }

# compare NAME TOOL..: a session over the file `input`, beside a tool
compare() {
    local name=$1 ours tool
    shift
    : > ours
    : > tools
    for _ in $(seq $runs); do
        microseconds session >> ours
        microseconds "$@" >> tools
    done
    ours=$(median < ours)
    tool=$(median < tools)
    awk -v name="$name" -v ours="$ours" -v tool="$tool" -v what="$1" \
        'BEGIN { printf "%s: %.2f (%.1f ms, %s %.1f ms)\n", name, tool / ours, ours / 1000, what, tool / 1000 }'
}

bindings=(D=ramp:4096)
{
    echo 'load a,,,ro,0 4096 linear D 0'
    for i in $(seq 0 99999); do echo "read a $((i % 4096)) 1"; done
} > input
session > written
compare '100,000 reads of one sector, beside cat of what is printed' cat written

{
    echo 'load a,,,ro,0 4096 linear D 0'
    for i in $(seq 0 499); do echo "read a $((i % 2048)) 2048"; done
} > input
session > written
compare '500 reads of 2,048 sectors, beside cat of what is printed' cat written

# An image of 64 MiB in two halves, whose chunks of 64 KiB take turns, read through `linear` over `striped`.
head -c 33554432 /dev/urandom > first
head -c 33554432 /dev/urandom > second
cat first second > both
bindings=(A=ro:first B=ro:second)
{
    echo 'load s,,,ro,0 131072 striped 2 128 A 0 B 0;top,,,ro,0 131072 linear /dev/mapper/s 0'
    for i in $(seq 0 63); do echo "read top $((i * 2048)) 2048"; done
} > input
compare 'an image of 64 MiB through linear over striped, beside xxd' xxd -p -c 512 both

# The same image written in pieces of 1 MiB, and synced at the end.
bindings=(A=rw:first B=rw:second)
{
    echo 'load s,,,rw,0 131072 striped 2 128 A 0 B 0;top,,,rw,0 131072 linear /dev/mapper/s 0'
    for i in $(seq 0 63); do echo "write top $((i * 2048)) 2048 5a"; done
} > input
compare '64 MiB written through linear over striped, beside dd' dd if=/dev/zero of=both bs=64K count=1024 conv=notrunc,fsync status=none
