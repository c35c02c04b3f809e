#!/usr/bin/env bash
# Measures XTS beside OpenSSL's aes-256-xts, whose AES instructions are masked. Not a part of the gate.
#
# benchmark_ciphers.sh [RUNS]: units of 512 and of 4,096 bytes, both ways, RUNS times each in turn (5). A ratio is our speed
# divided by OpenSSL's, both by processor time, as medians and at their highest: more than 1 is faster. Both our builds are
# measured: the kit's default, and the one for AVX2 where the machine has it. Other programs on the same cores slow both
# down, and not alike.
set -eu
runs=${1:-5}
top=$(dirname "$(dirname "$(dirname "$(readlink -f "$0")")")")
room=$(mktemp -d)
# The content of out/ is restored.
put_back() {
    [ ! -d "$room/kept" ] || cp -p "$room"/kept/* "$top/crates/bench/out" 2> "$room/log" || :
    rm -rf "$room"
}
trap put_back EXIT
trap 'exit 1' INT TERM

command -v openssl > "$room/log" || { echo 'openssl is not installed'; exit 1; }
mkdir "$room/kept"
[ ! -d "$top/crates/bench/out" ] || find "$top/crates/bench/out" -maxdepth 1 -type f -name 'bench*' -exec cp -p {} "$room/kept" \;
builds=(default)
! grep -q '^flags.* avx2 ' /proc/cpuinfo || builds+=(avx2)
for build in "${builds[@]}"; do
    words=()
    [ $build = default ] || words=(--cpu x86-64-v3)
    (cd "$top/crates/bench" && rt run "${words[@]}" -- none) > "$room/log" 2>&1 || { cat "$room/log"; exit 1; }
    cp "$top/crates/bench/out/bench" "$room/bench-$build"
done
cd "$room"
sed -n 's/^model name.*: /processor: /p;T;q' /proc/cpuinfo
echo "of its instructions: $(grep -m 1 '^flags' /proc/cpuinfo | grep -owE 'ssse3|avx2|avx512f|aes|vaes|gfni' | paste -sd ' ')"
echo "runs: $runs, load average: $(cut -d ' ' -f 1-2 /proc/loadavg) on $(nproc) processors"
openssl version

# Megabytes a second of OpenSSL without AES instructions and carry-less products: encrypt or decrypt, and the unit's size.
openssl_speed() {
    local words=()
    [ "$1" = encrypt ] || words=(-decrypt)
    OPENSSL_ia32cap='~0x200000200000000' openssl speed -seconds 1 -bytes "$2" "${words[@]}" -evp aes-256-xts 2> log |
        awk 'tolower($1) == "aes-256-xts" { printf "%d\n", $2 / 1000 }'
}

for _ in $(seq "$runs"); do
    for build in "${builds[@]}"; do
        "./bench-$build" xts | tr -d , | while read -r _ _ size _ _ encrypted _ _ decrypted _; do
            echo "$encrypted" >> "$build-encrypt-$size"
            echo "$decrypted" >> "$build-decrypt-$size"
        done
    done
    for way in encrypt decrypt; do
        for size in 512 4096; do openssl_speed $way $size >> "openssl-$way-$size"; done
    done
done

# at FILE RANK: one of the speeds, by its rank among the runs.
at() { sort -n "$1" | sed -n "$2p"; }
middle=$(((runs + 1) / 2))

for build in "${builds[@]}"; do
    for way in encrypt decrypt; do
        for size in 512 4096; do
            ours=$build-$way-$size theirs=openssl-$way-$size
            awk -v what="$build build, $way, units of $size bytes" -v ours="$(at "$ours" $middle)" -v theirs="$(at "$theirs" $middle)" \
                -v our_best="$(at "$ours" "$runs")" -v their_best="$(at "$theirs" "$runs")" \
                'BEGIN { printf "%s: median %.2f (%d and %d MB/s), highest %.2f (%d and %d MB/s)\n", what, ours / theirs, ours, theirs, our_best / their_best, our_best, their_best }'
        done
    done
done
