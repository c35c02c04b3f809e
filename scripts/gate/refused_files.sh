#!/usr/bin/env bash
# What tests can't show: files that may not be read or written, words that are no text, a system without randomness, and a
# standard error that stays empty. Where it runs as root, the program runs as nobody, since root may open every file.
set -eu
top=$(dirname "$(dirname "$(dirname "$(readlink -f "$0")")")")
"$top/scripts/lib/built.sh" dmstack
room=$(mktemp -d)
trap 'rm -rf "$room"' EXIT
cp "$top/crates/dmstack/out/dmstack" "$room"
cd "$room"
chmod 755 . dmstack
as=()
[ "$(id -u)" != 0 ] || as=(setpriv --reuid 65534 --regid 65534 --clear-groups)
truncate -s 1024 readable locked
printf 'a,,,ro,0 1 linear D 0\n' > stack
cp stack locked_stack
chmod 444 readable stack
chmod 000 locked locked_stack
passed=0 failed=0 input=/dev/null

# same WHAT COMMAND..: the command says that two files, or parts of them, are the same.
same() {
    local what=$1
    shift
    if "$@" > /dev/null; then passed=$((passed + 1)); else failed=$((failed + 1)) && echo "$what"; fi
}

# expect STATUS OUTPUT WORD..: the program, with standard input from the file $input
expect() {
    local status=$1 output=$2 got=0
    shift 2
    "${as[@]}" ./dmstack "$@" > out 2> errors < "$input" || got=$?
    # of wrong words standard error says more, in three lines at most
    [ "$got" != 2 ] || [ "$(wc -l < errors)" -gt 3 ] || : > errors
    "$top/scripts/model/sentences.py" "$got" out errors "$@" || got="another sentence, $got"
    if [ "$got $(cat out errors)" = "$status $output" ]; then
        passed=$((passed + 1))
    else
        failed=$((failed + 1))
        printf '%s: status %s, %s\n' "$*" "$got" "$(cat out errors)"
    fi
}

root=$(printf '%064d' 0)
expect 0 '0 all 00' read stack a 0 1 D=ro:readable
expect 1 'refused 2 NotAllowed locked' read stack a 0 1 D=ro:locked
expect 1 'refused 2 NotAllowed readable' read stack a 0 1 D=rw:readable
expect 1 'refused 2 NotAllowed locked_stack' load locked_stack D=ro:readable
expect 1 'refused 2 NotAllowed locked' session D=ro:locked
expect 1 'refused 2 NotAllowed locked' format locked readable
expect 1 'refused 2 NotAllowed readable' format readable readable
expect 1 'refused 2 NotAllowed locked' verify readable locked "$root"
expect 1 'refused 2 NotAllowed locked' dump locked
expect 2 usage $'\xff'
expect 2 usage session $'D=ro:\xfe'
expect 2 usage
expect 2 usage help

# Without randomness: only what has to be drawn is refused, and only once the files are open.
printf '#include <errno.h>\n#include <stddef.h>\nint getentropy(void *p, size_t n) { errno = ENOSYS; return -1; }\n' > random.c
cc -shared -fPIC -o random.so random.c
truncate -s 512 image
chmod 666 image
chmod 644 random.so
export LD_PRELOAD=$room/random.so
expect 1 'refused random' format --data-block 512 --hash-block 512 readable image
expect 1 'refused random' format --data-block 512 --hash-block 512 --salt=- readable image
expect 1 'refused 1 NotFound gone' format readable gone
expect 1 'refused 3 HashTooSmall needed 2' format --data-block 512 --hash-block 512 --salt=- --uuid 6c0b2c0e-5a0d-4b5c-9a44-1d1f6a3b2c7e readable image
unset LD_PRELOAD

# A sync that fails, and a write of the tree that the system refuses in its middle (as on a full disk): the fault is told, and
# after the second no superblock is before the tree.
printf '#include <errno.h>\nint fsync(int fd) { errno = EIO; return -1; }\nint fdatasync(int fd) { errno = EIO; return -1; }\n' > sync.c
cc -shared -fPIC -o sync.so sync.c
truncate -s $((33 * 512)) data
truncate -s 2560 made
chmod 666 made
chmod 644 data sync.so
sizes=(--data-block 512 --hash-block 512 --salt=- --uuid 6c0b2c0e-5a0d-4b5c-9a44-1d1f6a3b2c7e)
trap '' XFSZ
limit=$(ulimit -S -f)
ulimit -S -f 2
expect 1 'refused 5 Device' format "${sizes[@]}" data made
ulimit -S -f "$limit"
if cmp -s -n 1024 made /dev/zero && ! cmp -s -n 2048 made /dev/zero; then passed=$((passed + 1)); else failed=$((failed + 1)) && echo 'a superblock is before a tree that was not written'; fi
export LD_PRELOAD=$room/sync.so
expect 1 'refused 5 Device' format "${sizes[@]}" data made
unset LD_PRELOAD

# A write that the system refuses in its middle leaves all sectors alone that weren't asked for.
printf 'a,,,rw,0 4 linear D 1\n' > writable_stack
head -c 2048 /dev/zero | tr '\0' x > source
truncate -s 3072 image zeros
chmod 666 image
chmod 644 writable_stack source zeros
ulimit -S -f 1
expect 3 'fault 3 Device 2' write writable_stack a 0 source E=zero:1 D=rw:image
ulimit -S -f "$limit"
same 'a sector ahead of a refused write was changed' cmp -n 512 image zeros
same 'a sector after a refused write was changed' cmp -i 2560 image zeros

# A sync that fails, of an image that was written; others aren't synced.
printf 'load a,,,rw,0 4 linear D 1\nwrite a 0 1 ab\nread a 0 1\n' > lines
export LD_PRELOAD=$room/sync.so
expect 3 'fault 3 Device 2' write writable_stack a 0 source E=zero:1 D=rw:image
expect 0 '0 all 78' read writable_stack a 0 1 D=rw:image
expect 1 'refused 3 Length' write writable_stack a 0 lines D=rw:image
input=lines
expect 3 $'loaded 1\nwritten\n0 all ab\nfault 3 Device 1' session D=rw:image
expect 0 $'loaded 1\nwritten\n0 all ab' session D=zero:5 E=rw:image
unset LD_PRELOAD
input=/dev/null

# A copy to an image that refuses a write in its middle, or can't be synced.
printf 'a,,,ro,0 4 linear D 0\n' > readable_stack
chmod 644 readable_stack
ulimit -S -f 1
expect 1 'refused 2 Device' copy readable_stack a image D=ramp:4
ulimit -S -f "$limit"
export LD_PRELOAD=$room/sync.so
expect 1 'refused 2 Device' copy readable_stack a image D=ramp:4
unset LD_PRELOAD
expect 0 'read 4 lost 0' copy readable_stack a image D=ramp:4

# So with a map, which marks nothing that isn't synced: none is made, and a complete one stays as it is.
mkdir maps
chmod 777 maps
export LD_PRELOAD=$room/sync.so
expect 1 'refused 2 Device' copy --map maps/map readable_stack a image D=ramp:4
unset LD_PRELOAD
same 'a map was made of what is not synced' test ! -e maps/map
expect 0 'read 4 lost 0' copy --map maps/map readable_stack a image D=ramp:4
cp maps/map maps/kept
export LD_PRELOAD=$room/sync.so
expect 1 'refused 2 Device' copy --map maps/map readable_stack a image D=ramp:4
unset LD_PRELOAD
same 'a complete map was changed' cmp maps/map maps/kept

# A full file system, where this one may mount a small one, of two pages. A failed write is the leaf's fault; a format whose
# tree finds no room leaves no superblock before it, and so does one for which there is no room at all.
mkdir full
if mount -t tmpfs -o size=8k,mode=777 tmpfs full 2> mount_errors; then
    trap 'umount full; rm -rf "$room"' EXIT
    truncate -s 65536 full/image
    chmod 666 full/image
    truncate -s 65536 large
    chmod 644 large
    printf 'a,,,rw,0 128 linear D 0\n' > large_stack
    expect 3 'fault 3 Device 1' write large_stack a 0 large D=rw:full/image
    expect 0 '127 all 00' read large_stack a 127 1 D=rw:full/image
    truncate -s 131072 blocks
    truncate -s 9216 full/made
    chmod 644 blocks
    chmod 666 full/made
    expect 1 'refused 5 Device' format "${sizes[@]}" blocks full/made
    same 'a tree was written where there was no room' cmp -n 9216 full/made /dev/zero
    rm full/image
    expect 1 'refused 5 Device' format "${sizes[@]}" blocks full/made
    same 'a superblock is before a tree that found no room' cmp -n 512 full/made /dev/zero
    same 'no tree was begun' test -n "$(tr -d '\0' < full/made | head -c 1 | od -A n)"
else
    echo 'full file system: not tried, since none may be mounted'
fi
echo "refused files: $passed passed, $failed failed"
[ $failed = 0 ]
