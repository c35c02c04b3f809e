#!/usr/bin/env bash
# What sessions and commands answer while others change their files: images that are cut short, overwritten, removed or put
# in another's place, images that another process writes, maps that are replaced, file systems that are full, and standard
# streams that are full or closed. Each answer is a named fault or status, nothing waits for ever, and no other file is changed.
#
# shellcheck disable=SC2154 # checks.sh sets what is named here
set -eu
top=$(dirname "$(dirname "$(dirname "$(readlink -f "$0")")")")
. "$top/scripts/lib/checks.sh"

# filled BYTE COUNT: so many sectors of that byte, in octal
filled() { head -c $(($2 * 512)) /dev/zero | tr '\0' "\\$1"; }

# begin WORD..: a session, to which `ask` speaks
begin() {
    coproc SESSION { exec timeout 60 "$program" session "$@" 2> errors; }
}

# ask LINE REPLY..: a line, and the lines that answer it
ask() {
    local line=$1 reply
    shift
    printf '%s\n' "$line" >&"${SESSION[1]}"
    for wanted in "$@"; do
        read -r -t 30 reply <&"${SESSION[0]}" || reply='no answer'
        check "$line: $wanted, where it says $reply" test "$reply" = "$wanted"
    done
}

# end STATUS REPLY..: the end of the input, the lines after it, and the status
end() {
    local wanted=$1 reply status=0 process=$SESSION_PID
    shift
    # shellcheck disable=SC1083,SC2093 # it closes the descriptor that the array names
    exec {SESSION[1]}>&-
    for line in "$@"; do
        read -r -t 30 reply <&"${SESSION[0]}" || reply='no answer'
        check "at the end: $line, where it says $reply" test "$reply" = "$line"
    done
    wait "$process" || status=$?
    check "status $wanted, where it is $status" test "$status" = "$wanted"
    printf '%s\n' "$@" > ends
    check 'standard error has the sentence on the end' "$top/scripts/model/sentences.py" "$status" ends errors session
    check 'standard error stays empty otherwise' test ! -s errors
}

# An image is cut short: sectors that are gone are the device's fault, the others and the other device are served, and a
# request in flight ends alone. A write past the end extends the file again.
filled 1 256 > a
filled 2 8 > b
cp b kept
begin A=rw:a B=rw:b
ask 'load a,,,rw,0 256 linear A 0;b,,,rw,0 8 linear B 0' 'loaded 2'
ask 'read a 255 1' '255 all 01'
ask 'submit read a 0 256' 'ticket 2'
ask 'submit read a 0 3' 'ticket 3'
ask 'step 2' more
truncate -s 2048 a
ask 'step 2' 'fault 3 Device 1'
ask 'step 2' 'refused 1 NoSuchTicket'
ask 'step 3' '0 all 01' '1 all 01' '2 all 01'
ask 'read a 3 2' 'fault 3 Device 1'
ask 'read a 3 1' '3 all 01'
ask 'read b 7 1' '7 all 02'
truncate -s 1800 a
ask 'read a 3 1' 'fault 3 Device 1'
ask 'read a 2 1' '2 all 01'
filled 1 4 > a
ask 'write a 5 1 cc' written
ask 'read a 3 3' '3 all 01' '4 all 00' '5 all cc'
ask 'load c,,,ro,0 256 linear A 0' 'loaded 1'
end 0
check 'the other image is as it was' cmp b kept
check 'the image has the sectors up to the one that was written' test "$(wc -c < a)" = 3072

# What is gone when it is read and there again: a request that failed has no sectors, also those that were read before, it counts
# in `moved` as what was asked for, and the next one is served, as is one that was in flight.
python3 -c 'import sys; sys.stdout.buffer.write(b"".join(bytes([k]) * 512 for k in range(256)))' > ramp
cp ramp first
cp ramp second
begin A=rw:first B=rw:second
ask 'load a,,,rw,0 4 linear A 2,4 4 zero' 'loaded 1'
truncate -s 2560 first
ask 'read a 3 2' 'fault 3 Device 1'
cp ramp first
ask 'read a 3 2' '3 all 05' '4 all 00'
ask moved 'moved 2 0'
ask 'load a,,,rw,0 4 linear A 0,4 4 linear B 0' 'loaded 1'
truncate -s 0 second
ask 'read a 2 4' 'fault 3 Device 2'
cp ramp second
ask 'read a 4 1' '4 all 00'
ask moved 'moved 7 0'
ask 'load a,,,rw,0 256 linear B 0' 'loaded 1'
truncate -s 65536 second
ask 'read a 0 200' 'fault 3 Device 2'
cp ramp second
ask 'read a 255 1' '255 all ff'
ask moved 'moved 208 0'
ask 'submit read a 0 200' 'ticket 7'
ask 'submit read a 255 1' 'ticket 8'
ask 'step 7' more
truncate -s 65536 second
ask 'step 7' 'fault 3 Device 2'
ask 'step 7' 'refused 1 NoSuchTicket'
cp ramp second
ask 'step 8' '255 all ff'
ask moved 'moved 409 0'
end 0

# An image is overwritten: reads return its present content, and a verified block isn't served. Its removal, and another
# file under its name, aren't seen: the file that was opened is served.
filled 7 8 > a
begin A=ro:a
ask 'load a,,,ro,0 8 linear A 0' 'loaded 1'
ask 'read a 5 1' '5 all 07'
{ filled 11 1; filled 0 1; } | dd of=a bs=512 seek=5 conv=notrunc status=none
ask 'read a 5 2' '5 all 09' '6 all 00'
ask 'read a 7 1' '7 all 07'
end 0
python3 - << 'END'
from hashlib import sha256
data = [bytes([k + 1]) * 512 for k in range(2)]
open("data", "wb").write(b"".join(data))
top = b"".join(sha256(it).digest() for it in data).ljust(512, b"\0")
open("hash", "wb").write(bytes(512) + top)
open("root", "w").write(sha256(top).hexdigest())
END
root=$(cat root)
for cache in 0 4; do
    filled 1 1 > data
    filled 2 1 >> data
    begin --cache=$cache D=rw:data H=ro:hash
    ask "load v,,,ro,0 2 verity 1 D H 512 512 2 1 sha256 $root -;d,,,rw,0 2 linear D 0" 'loaded 2'
    ask 'read v 0 2' '0 all 01' '1 all 02'
    filled 3 1 | dd of=data bs=512 seek=1 conv=notrunc status=none
    ask 'read v 0 1' '0 all 01'
    ask 'read v 0 2' 'fault 2 Mismatch'
    ask 'read d 1 1' '1 all 03'
    ask 'write d 1 1 02' written
    ask 'read v 0 2' '0 all 01' '1 all 02'
    mv data moved
    filled 4 2 > data
    cp data kept
    ask 'read v 0 2' '0 all 01' '1 all 02'
    ask 'write d 0 1 05' written
    ask 'read v 0 1' 'fault 2 Mismatch'
    rm moved
    ask 'read d 0 2' '0 all 05' '1 all 02'
    end 0
    check "the file under the image's name is as it was" cmp data kept
done

# A hash image that is cut short: no block is served whose way isn't there, whatever was kept, and none that is unlike.
cp hash cut
begin --cache=0 D=ro:b H=ro:cut
ask "load v,,,ro,0 2 verity 1 D H 512 512 2 1 sha256 $root -" 'loaded 1'
truncate -s 512 cut
ask 'read v 0 1' 'fault 3 Device 2'
cp hash cut
ask 'read v 0 1' 'fault 2 Mismatch'
end 0

# ran STATUS OUTPUT COMMAND..: the command ends in time with that status, and writes that
ran() {
    local wanted=$1 output=$2 status=0
    shift 2
    timeout 60 "$@" > out 2> errors < lines || status=$?
    "$top/scripts/model/sentences.py" "$status" out errors || status="$status, with another sentence"
    check "$*: status $wanted, $output, where it is $status, $(head -c 200 out errors)" test "$status $(cat out errors)" = "$wanted $output"
}

# Standard streams that are closed: no image is opened in their place. A stream that is full, or that nobody reads.
filled 1 8 > a
cp a kept
printf 'load a,,,rw,0 8 linear A 0\nread a 0 1\nmoved\n' > lines
printf 'a,,,rw,0 8 linear A 0' > stack
filled 1 4 > source
filled 3 9 > copied
truncate -s 8192 made
sizes='--data-block=512 --hash-block=512 --salt=- --uuid=00000000-0000-0000-0000-000000000001'
unprinted='dmstack: standard output failed'
for closed in '>&-' '<&- >&-' '<&- >&- 2>&-' '> /dev/full' '> /dev/full 2>&-'; do
    said=$unprinted
    [[ $closed != *'2>&-' ]] || said=
    for words in 'session A=rw:a' 'load stack A=rw:a' 'read stack a 0 8 A=rw:a' 'write stack a 0 source A=rw:a' \
        'scan stack a A=rw:a' 'copy stack a copied A=rw:a' 'nbd --quiet stack a A=rw:a'; do
        # A client of nbd that has gone isn't reported, and a session without input writes nothing.
        [[ $words = nbd* || "$words $closed" = session*'<&-'* ]] && output= || output=$said
        ran 1 "$output" bash -c "\"\$0\" $words $closed" "$program"
        check "$words $closed: the image is as it was" cmp a kept
    done
    ran 1 "$said" bash -c "\"\$0\" format $sizes a made $closed" "$program"
    check "format $closed: the data image is as it was" cmp a kept
done
made_root=$("$program" format $sizes a made | sed -n 's/^root //p')
cp made formatted
# If another root than the image's is given, that is said too.
ran 1 $'root differs\n'"$unprinted" bash -c "\"\$0\" verify a made $root > /dev/full" "$program"
for words in "verify a made $made_root" 'dump made' "table made $made_root D H"; do
    ran 1 "$unprinted" bash -c "\"\$0\" $words <&- >&-" "$program"
    check "$words: the images are as they were" cmp made formatted
    check "$words: the images are as they were" cmp a kept
done
ran 1 '' bash -c '"$0" session A=rw:a <&-' "$program"
check 'a session without input: the image is as it was' cmp a kept
ran 0 $'loaded 1\n0 all 01\nmoved 1 0' bash -c '"$0" session A=rw:a 2>&-' "$program"
printf 'moved\n' | dd of=a conv=notrunc status=none
cp a kept
ran 1 '' bash -c '"$0" session A=ro:a <&-' "$program"
check "a session without input: the image isn't taken for it" cmp a kept
# Nobody reads: the session ends at the first reply that can't be written, and reads no further.
yes moved | timeout 60 bash -c '{ "$0" session A=rw:a; echo $? > status; } | head -n 1' "$program" > out 2> errors || true
check 'nobody reads: one reply' test "$(cat out)" = 'moved 0 0'
check 'nobody reads: the status' test "$(cat status)" = 1

# Two processes: what one has open for writing, no other one opens for writing or lengthens, and reading goes on. One process may
# have parts of one file open. A lock ends with its process, also where that is killed.
filled 1 8 > a
cp a kept
filled 4 8 > source
truncate -s 512 made
truncate -s 8192 data
printf 'a,,,rw,0 8 linear A 0' > stack
printf 'a,,,ro,0 8 linear A 0' > reading
printf 'a,,,rw,0 4 linear A 0,4 4 linear B 0' > halves
begin A=rw:a M=rw:made
ask 'load a,,,rw,0 8 linear A 0' 'loaded 1'
ran 1 'refused 7 InUse a' "$program" store stack a source A=rw:a
ran 1 'refused 7 InUse a' "$program" write stack a 0 source A=rw:a
ran 1 'refused 7 InUse ./a' "$program" load halves A=rw@0+4:./a B=rw@4+4:./a
ran 1 'refused 7 InUse a' "$program" copy reading a a A=ro:source
ran 1 'refused 7 InUse made' "$program" format --grow $sizes data made
ran 1 'refused 7 InUse made' "$program" format $sizes data made
check 'the image that is in use is as it was' cmp a kept
check 'the file that is in use has its length' test "$(wc -c < made)" = 512
ran 0 '7 all 01' "$program" read reading a 7 1 A=ro:a
check 'another program sees the lock' test "$(flock -n a echo free)" = ''
ask 'write a 7 1 05' written
ran 0 '7 all 05' "$program" read reading a 7 1 A=ro:a
end 0
ran 0 'written 8' "$program" store stack a source A=rw:a
check 'the image holds what was stored' cmp a source
ran 0 'written 8' "$program" store halves a kept A=rw@0+4:a B=rw@4+4:a
check 'parts of one file are written' cmp a kept
ran 1 'refused 7 InUse a' flock a "$program" store stack a source A=rw:a
begin A=ro:a
ask 'load a,,,ro,0 8 linear A 0' 'loaded 1'
ran 0 'written 8' "$program" store stack a source A=rw:a
ask 'read a 0 1' '0 all 04'
end 0
mkfifo waits
"$program" session A=rw:a < waits > /dev/null &
process=$!
exec 8> waits
for _ in $(seq 600); do flock -n a true || break; sleep 0.05; done
ran 1 'refused 7 InUse a' "$program" store stack a kept A=rw:a
kill -KILL $process
wait $process 2> /dev/null || true
exec 8>&-
ran 0 'written 8' "$program" store stack a kept A=rw:a
ran 0 "$(printf 'root %s\nsalt -\nuuid 00000000-0000-0000-0000-000000000001\nblocks 16' "$("$program" format $sizes data formatted | sed -n 's/^root //p')")" \
    "$program" format --grow $sizes data made

# The map of a device takes another one's place: a link under the name that it is written to first isn't followed, the map keeps
# its permissions and its owner, and where it is a link that stays.
filled 1 8 > a
printf 'a,,,ro,0 4 linear A 0,4 4 error' > lossy
lossy=$'lost 4 4 1 ErrorTarget\nread 4 lost 4'
printf '0 ?\n0 4096 ?\n' > unread
printf '# dmstack scan\n0 +\n0 2048 +\n2048 2048 -\n' > tried
printf 'precious\n' > victim
cp victim kept

# is_scanned MAP: the map is what a scan leaves
is_scanned() {
    ran 3 "$lossy" "$program" scan --map "$1" lossy a A=ro:a
    check "$1: the map" cmp "$1" tried
}

cp unread map
ln -s victim map.dmstack-new
ln victim map.dmstack-new-1
chmod 640 map
is_scanned map
check 'the file that a link names is as it was' cmp victim kept
check 'the link beside the map stays' test "$(readlink map.dmstack-new)" = victim
check 'the file beside the map stays' cmp map.dmstack-new-1 kept
check 'no other file is left beside the map' test "$(echo map*)" = 'map map.dmstack-new map.dmstack-new-1'
check 'the map is no link' test ! -L map
check 'the map keeps its permissions' test "$(stat -c %a map)" = 640
for mode in 600 666 444; do
    cp unread "map$mode"
    chmod $mode "map$mode"
    [ "$(id -u)" != 0 ] || chown 1234:4321 "map$mode"
    owner=$(stat -c %u:%g "map$mode")
    (umask 022; is_scanned "map$mode"; echo "$passed $failed" > counts)
    read -r passed failed < counts
    check "a map of mode $mode keeps it" test "$(stat -c %a:%u:%g "map$mode")" = "$mode:$owner"
done
mkdir folder
cp unread folder/target
ln -s folder/target linked
ln -s target folder/twice
ln -s missing hanging
ln -s around around
is_scanned linked
check 'a map that is a link stays one' test "$(readlink linked)" = folder/target
check 'what the link names is the map' cmp folder/target tried
cp unread folder/target
is_scanned folder/twice
check 'a link in a folder stays one' test "$(readlink folder/twice)" = target
is_scanned hanging
check 'a link to nothing stays one' test "$(readlink hanging)" = missing
check 'the map is written to the target of the link' test -f missing
ran 1 'refused 4 OtherFault around' "$program" scan --map around lossy a A=ro:a
check 'nothing is left beside the links' test "$(echo folder/* linked* hanging* missing*)" = 'folder/target folder/twice linked hanging missing'
# The process is killed before each call in turn: the file has the old map, that of the first pass or the new one, and a draft that is
# left does no harm.
cc -shared -fPIC -O2 -o "$room/fail.so" "$top/scripts/gate/fail_calls.c" -ldl
mkdir killed
printf '# dmstack scan\n0 ?\n0 2048 +\n2048 2048 *\n' > skimmed
calls=''
for number in 1 2 3 4 5 6 7 8 9 10 11 12 13 14 15; do
    rm -rf killed/* met
    cp unread killed/map
    status=0
    (LD_PRELOAD=$room/fail.so FAIL_KIND=cut FAIL=$number FAIL_MET=met "$program" scan --map killed/map lossy a A=ro:a > out 2>&1
        exit $?) 2> /dev/null || status=$?
    [ -e met ] || break
    read -r call _ _ path < met
    calls+=" $call:${path#"$room/"}"
    check "killed before call $number: the status" test "$status" = 137
    # The first two calls try a draft. A map takes the place of the one before by the fourth of its five calls, and has a draft before
    # the second to the fourth.
    wanted=unread draft='killed/*.dmstack-new*'
    [ "$number" -le 6 ] || wanted=skimmed
    [ "$number" -le 11 ] || wanted=tried
    case $number in 2 | 4 | 5 | 6 | 9 | 10 | 11) draft=killed/map.dmstack-new ;; esac
    check "killed before call $number: the map" cmp killed/map $wanted
    check "killed before call $number: the draft" test "$(echo killed/*.dmstack-new*)" = "$draft"
    cp unread killed/map
    is_scanned killed/map
done
draft=killed/map.dmstack-new
replaces=" create:$draft write:$draft sync:$draft rename:$draft sync:killed"
check "the calls by which maps are replaced, and not$calls" test "$calls" = " create:$draft remove:$draft$replaces$replaces"

# The superblock of HASH changes before each read of a repair in turn, to one under which no block verifies. Either the pin refuses
# that superblock, and nothing is written; or the one that was compared with the pin is the one by which the image is repaired.
mkdir changed
(
    cd changed
    head -c 4096 /dev/zero | tr '\0' '\6' > whole
    truncate -s 8192 tree other
    made=$("$program" format --grow $sizes --fec parity whole tree | sed -n 's/^root //p')
    "$program" dump --pin "$made" tree > pin
    "$program" format --data-block=512 --hash-block=512 --salt=ab whole other > /dev/null
    head -c 512 other > head
    { head -c 2560 whole; head -c 512 /dev/zero; tail -c 1024 whole; } > damaged
)
for source in copy\ 1 parity; do
    words=(changed/data changed/hash changed/whole changed/tree)
    [ "$source" != parity ] || words=(--fec changed/parity changed/data changed/hash)
    for number in $(seq 100); do
        cp changed/damaged changed/data
        cp changed/tree changed/hash
        rm -f met
        status=0
        LD_PRELOAD=$room/fail.so FAIL_KIND=changed FAIL=$number FAIL_MET=met FAIL_CHANGED=changed/hash FAIL_TO=changed/head \
            "$program" repair --pin changed/pin "${words[@]}" > out 2> errors || status=$?
        [ -e met ] || break
        wanted="0 repaired data 5 $source"$'\ngood 8 changed 0 unknown 0' left=changed/whole
        [ "$number" != 1 ] || { wanted='1 refused 22 OtherSalt' left=changed/damaged; }
        check "$source, changed before read $number: the sentence" "$top/scripts/model/sentences.py" "$status" out errors
        check "$source, changed before read $number: $wanted, where it is $status $(cat out errors)" test "$status $(cat out errors)" = "$wanted"
        check "$source, changed before read $number: the data" cmp changed/data $left
        check "$source, changed before read $number: the tree" cmp -i 512 changed/hash changed/tree
    done
    check "$source: more than one read was tried" test "$number" -gt 3
done

# A file system that is full in the midst of a session, where a small one can be mounted: the fault is of the right device,
# what was written stays, the other image is served, and once there is room again the write succeeds.
mkdir full
if mount -t tmpfs -o size=32k,mode=777 tmpfs full 2> mount_errors; then
    trap 'umount full; rm -rf "$room"' EXIT
    truncate -s 65536 full/image
    filled 0 8 > full/filling
    filled 2 8 > b
    begin B=rw:b F=rw:full/image
    ask 'load f,,,rw,0 128 linear F 0;b,,,rw,0 8 linear B 0;both,,,rw,0 16 striped 2 1 B 0 F 120' 'loaded 3'
    ask 'write f 0 8 ab' written
    ask 'write f 8 120 cd' 'fault 3 Device 2'
    ask 'read f 0 8' '0 all ab' '1 all ab' '2 all ab' '3 all ab' '4 all ab' '5 all ab' '6 all ab' '7 all ab'
    ask 'read f 127 1' '127 all 00'
    ask 'write both 0 2 ee' 'fault 3 Device 2'
    ask 'read b 0 2' '0 all ee' '1 all 02'
    ask 'write b 0 8 02' written
    ask 'submit write f 120 8 cd' 'ticket 8'
    rm full/filling
    ask 'step 8' written
    ask 'read f 119 2' '119 all 00' '120 all cd'
    end 0
    check 'what was written stays' cmp -n 4096 full/image <(filled 253 0; head -c 4096 /dev/zero | tr '\0' '\253')
    # A tree that has no room: no superblock is left before it.
    rm full/image
    truncate -s 1048576 full/image data
    ran 1 'refused 5 Device' "$program" format $sizes data full/image
    check 'no superblock is before a tree that was not written' cmp -n 512 full/image /dev/zero
    # A parity that has no room: it is the file that is named, and the tree before it is whole.
    rm full/image
    filled 6 2048 > data
    cp data kept
    truncate -s 131072 tree made
    root=$("$program" format $sizes data made | sed -n 's/^root //p')
    truncate -s 1048576 full/parity
    ran 1 'refused 50 FecDevice' "$program" format $sizes --fec full/parity --fec-roots 24 data tree
    check 'the data image is as it was' cmp data kept
    check 'the tree before a parity that was not written is whole' cmp tree made
    ran 3 $'matches\nparity differs in round 2' "$program" verify --fec full/parity --fec-roots 24 data tree "$root"
    ran 0 matches "$program" verify data tree "$root"
    mount -o remount,size=256k full
    ran 0 "$(printf 'root %s\nsalt -\nuuid 00000000-0000-0000-0000-000000000001\nblocks 2048' "$root")" "$program" format $sizes --fec full/parity --fec-roots 24 data tree
    ran 0 $'matches\nparity ok' "$program" verify --fec full/parity --fec-roots 24 data tree "$root"
    rm full/parity
    mount -o remount,size=32k full
    # A repair that has no room, of an image whose last blocks were never written: those that are named are whole, the others as
    # they were, and once there is room it goes on. By a copy, and by parity.
    python3 -c 'import sys; sys.stdout.buffer.write(b"".join(bytes([k + 1]) * 4096 for k in range(8)))' > whole
    truncate -s 8192 tree
    truncate -s 16384 parity
    root=$("$program" format --salt=- --fec parity --fec-roots 4 whole tree | sed -n 's/^root //p')
    cp tree kept
    cp parity parity_kept
    for source in copy\ 1 parity; do
        words=(full/image tree "$root" whole whole)
        [ "$source" != parity ] || words=(--fec parity --fec-roots 4 full/image tree "$root")
        head -c 16384 whole > full/image
        truncate -s 32768 full/image
        head -c 12288 whole > full/filling
        ran 1 "repaired data 4 $source"$'\nrefused 10 Device' "$program" repair "${words[@]}"
        check "$source: the block that is named is whole" cmp -n 20480 full/image whole
        check "$source: the others are as they were" cmp -i 20480:0 -n 12288 full/image /dev/zero
        rm full/filling
        ran 0 "$(printf 'repaired data %s\n' "5 $source" "6 $source" "7 $source"; echo 'good 8 changed 0 unknown 0')" "$program" repair "${words[@]}"
        check "$source: the image is whole" cmp full/image whole
        check "$source: the tree is as it was" cmp tree kept
        check "$source: the parity is as it was" cmp parity parity_kept
        rm full/image
    done
    truncate -s 0 full/image
    # A copy that has no room: the image is named, what is copied is as it was, and once there is room the same copy is whole.
    rm full/image
    truncate -s 65536 full/image
    filled 5 128 > whole
    cp whole kept
    printf 'a,,,ro,0 128 linear A 0' > stack
    ran 1 'refused 2 Device' "$program" copy stack a full/image A=ro:whole
    check 'what is copied is as it was' cmp whole kept
    mount -o remount,size=128k full
    ran 0 'read 128 lost 0' "$program" copy stack a full/image A=ro:whole
    check 'the copy is whole' cmp whole full/image
    truncate -s 0 full/image
    mount -o remount,size=32k full
    # An output file without room.
    rm full/image
    filled 0 128 > full/filling 2> /dev/null || true
    ran 1 "$unprinted" bash -c '"$0" session A=rw:a > full/out' "$program"
else
    echo 'changing files: no small file system could be mounted: the full one is left out'
fi
total 'changing files'
