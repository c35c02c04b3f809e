#!/usr/bin/env bash
# Measures digests beside the kit's `sha2`, reads of verified volumes and their service to clients (benchmark_reads.py), and
# `format` and `verify` beside veritysetup, where it is installed. Not a part of the gate.
#
# benchmark_verity.sh [MIB [RUNS]]: beside veritysetup an image of MIB mebibytes (512) in blocks of 4,096 bytes, RUNS times each in
# turn (9); what is read is 256 MiB, five times. A ratio is the other's time divided by ours: more than 1 is faster. Other programs
# disturb the least processor time least, and wall time most. Both our builds are measured: the kit's default, and the one for AVX2
# where the machine has it.
set -eu
mib=${1:-512}
runs=${2:-9}
top=$(dirname "$(dirname "$(dirname "$(readlink -f "$0")")")")
room=$(mktemp -d)
# The content of out/ is restored, since ./dmstack runs the program there if its record agrees.
put_back() {
    for it in dmstack bench; do
        [ ! -e "$room/kept/$it" ] || { rm -f "$top/crates/$it/out/$it.stamp"; cp -p "$room/kept/$it"* "$top/crates/$it/out" || :; }
    done
    rm -rf "$room"
}
trap put_back EXIT
trap 'exit 1' INT TERM

"$top/scripts/lib/built.sh" dmstack
mkdir "$room/kept"
for it in dmstack bench; do
    [ ! -e "$top/crates/$it/out/$it" ] || find "$top/crates/$it/out" -maxdepth 1 -type f -name "$it*" -exec cp -p {} "$room/kept" \;
done
builds=(default)
! grep -q '^flags.* avx2 ' /proc/cpuinfo || builds+=(avx2)
for build in "${builds[@]}"; do
    for it in dmstack bench; do
        words=()
        [ $build = default ] || words=(--cpu x86-64-v3)
        (cd "$top/crates/$it" && rt run "${words[@]}" -- session < /dev/null) > "$room/log" 2>&1 || { cat "$room/log"; exit 1; }
        cp "$top/crates/$it/out/$it" "$room/$it-$build"
    done
done
cd "$room"
sed -n 's/^model name.*: /processor: /p;T;q' /proc/cpuinfo
echo "of its instructions: $(grep -m 1 '^flags' /proc/cpuinfo | grep -owE 'ssse3|avx2|avx512f|sha_ni' | paste -sd ' ')"

# The row of milliseconds of a command: processor time and wall time.
measure() {
    local TIMEFORMAT='%U %S %R' name=$1
    shift
    { time "$@" > out 2> errors; } 2>> "$name" || { cat out errors; exit 1; }
}

# at NAME RANK WALL: one of a command's times, in milliseconds, by its rank among the runs.
at() { awk -v wall="$3" '{ print int(1000 * (wall ? $3 : $1 + $2)) }' "$1" | sort -n | sed -n "$2p"; }

# compare NAME OURS THEIRS: the ratios of what was measured.
compare() {
    local half=$((runs / 2 + 1))
    printf '%s: ' "$1"
    ratio "least processor time" 1 0 "$2" "$3"
    ratio ", median" $half 0 "$2" "$3"
    ratio "; wall time, median" $half 1 "$2" "$3"
    echo
}

ratio() {
    awk -v name="$1" -v ours="$(at "$4" "$2" "$3")" -v theirs="$(at "$5" "$2" "$3")" \
        'BEGIN { printf "%s %.2f (%d and %d ms)", name, theirs / ours, ours, theirs }'
}

programs=()
for build in "${builds[@]}"; do
    "./bench-$build" digest | sed "s/^/beside the kit's sha2, 64 MiB, $build build: /"
    "./bench-$build" xts | sed "s/^/the cipher alone, $build build: /"
    programs+=("$build=./dmstack-$build,./bench-$build")
done
"$top/scripts/bench/benchmark_reads.py" "${programs[@]}"

setup=$(PATH=$PATH:/usr/sbin command -v veritysetup) || { echo 'veritysetup is not installed'; exit; }
others=(veritysetup)
! grep -qw sha_ni /proc/cpuinfo || others+=(veritysetup_without_sha)
veritysetup() { "$setup" "$@"; }
# Masks the bit that tells OpenSSL, its usual library (named below), of SHA instructions.
veritysetup_without_sha() { OPENSSL_ia32cap=':~0x20000000' "$setup" "$@"; }
salt=$(printf '%064d' 7)
head -c $((mib << 20)) /dev/urandom > data
truncate -s $(((mib << 13) + (1 << 20))) ours
root=$("./dmstack-default" format --salt "$salt" data ours | sed -n 's/^root //p')
echo "beside $("$setup" --version | cut -d ' ' -f 1-2), $("$setup" --debug format --salt "$salt" data theirs | tee format | sed -n 's/.*Crypto backend (\([^)]*\)).*/\1/p;T'), $mib MiB, $runs runs:"
[ "$(sed -n 's/^Root hash:[^0-9a-f]*//p' format)" = "$root" ] || { echo 'the roots differ'; exit 1; }
for _ in $(seq "$runs"); do
    for it in "${builds[@]}"; do measure "format-$it" "./dmstack-$it" format --salt "$salt" data ours; done
    for it in "${others[@]}"; do measure "format-$it" "$it" format --salt "$salt" data theirs; done
    for it in "${builds[@]}"; do measure "verify-$it" "./dmstack-$it" verify data ours "$root"; done
    for it in "${others[@]}"; do measure "verify-$it" "$it" verify data theirs "$root"; done
done
for work in format verify; do
    for it in "${builds[@]}"; do
        for other in "${others[@]}"; do compare "$work, $it build, beside $other" "$work-$it" "$work-$other"; done
    done
done
