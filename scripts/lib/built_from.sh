# shellcheck shell=bash disable=SC2154,SC2034
# Which sources a program was made from; read by dmstack and prove, which set `top` and `rt`.
#
# A record holds the sum of the sources, the program's size and time, and the sources' sizes and times: it is valid if none of
# these has changed, and where only the sources' times have, as after a checkout, the sum decides.

# The processor that it is built for, where it isn't the kit's default: digests go three times as fast with AVX2.
cpu=x86-64-v3 flags=
[ ! -r /proc/cpuinfo ] || while read -r name _ flags; do [ "$name" != flags ] || break; done < /proc/cpuinfo
for it in avx2 bmi1 bmi2 f16c fma abm movbe; do [[ " $flags " == *" $it "* ]] || cpu=; done

# The sources, the kit and the processor, by sizes and times.
state() {
    cd "$top" || return
    echo "$cpu"
    find -L crates.txt crates/*/src crates/*/specs crates/*/proofs "$rt" -type f -printf '%p %s %T@ %C@\n' 2> /dev/null || :
}

# The same by content.
sum() {
    cd "$top" || return
    {
        find crates.txt crates/*/src crates/*/specs crates/*/proofs -type f -print0 2> /dev/null | LC_ALL=C sort -z | xargs -0 sha256sum
        readlink -f "$rt"
        rt version
        echo "$cpu"
    } | sha256sum
}

# A program by size and time.
program_state() {
    find "$1" -type f -perm -u+x -printf '%s %T@\n' 2> /dev/null || :
}

# stands PROGRAM: whether it was made from the present sources.
stands() {
    local record=() now
    [ -e "$1.from" ] || return 1
    now=$(state)
    mapfile -d '' -t record < "$1.from"
    [ "${record[1]-}" = "$(program_state "$1")" ] || return 1
    [ "${record[2]-}" != "$now" ] || return 0
    [ "${record[0]-}" = "$(sum)" ] || return 1
    # It is valid even if the record can't be written.
    keep_record "$1" "${record[0]}" "$now" 2> /dev/null || :
}

# keep_record PROGRAM SUM STATE: says of a program from which sources it was made.
keep_record() {
    printf '%s\0' "$2" "$(program_state "$1")" "$3" > "$1.from.$$" && mv "$1.from.$$" "$1.from"
}

# alone FILE NAME: waits until no other run holds the file, and says so where it has to.
alone() {
    exec 9> "$1"
    flock -n 9 || {
        echo "$2: waiting for another run of it" >&2
        flock 9
    }
}
