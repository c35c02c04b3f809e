#!/usr/bin/env bash
# Shows that block devices are images: a loop device is formatted over, verified and read like the file that it shows. With --grow
# a loop device that is too small for the parity is refused before HASH is made or made longer. The script needs root and
# /dev/loop-control; where there is none it says so and ends with status 0.
set -eu
skip() {
    echo "loop devices: skipped, $1"
    exit 0
}
[ "$(id -u)" = 0 ] || skip 'not root'
[ -e /dev/loop-control ] || skip 'no /dev/loop-control'
command -v losetup > /dev/null || skip 'no losetup'
top=$(dirname "$(dirname "$(dirname "$(readlink -f "$0")")")")
"$top/scripts/lib/built.sh" dmstack
program=$top/crates/dmstack/out/dmstack
room=$(mktemp -d)
data='' hash='' parity=''
clean() {
    [ -z "$parity" ] || losetup -d "$parity" || true
    [ -z "$data" ] || losetup -d "$data" || true
    [ -z "$hash" ] || losetup -d "$hash" || true
    rm -rf "$room"
}
trap clean EXIT
cd "$room"
head -c 65536 /dev/urandom > data
truncate -s 65536 hash
cp hash expected
data=$(losetup --find --show data 2> /dev/null) || { data=''; skip 'no loop device can be made'; }
hash=$(losetup --find --show hash 2> /dev/null) || { hash=''; skip 'no second loop device can be made'; }

fail() {
    echo "$1"
    exit 1
}

options=(--salt=5a --uuid=6c0b2c0e-5a0d-4b5c-9a44-1d1f6a3b2c7e)
made=$("$program" format "${options[@]}" data expected)
[ "$("$program" format "${options[@]}" "$data" "$hash")" = "$made" ] || fail 'formatting answers otherwise'
root=$(sed -n 's/^root //p' <<< "$made")
"$program" verify "$data" "$hash" "$root" > /dev/null || fail 'the loop devices do not verify'
losetup -d "$hash" && hash=''
cmp hash expected || fail 'the hash image differs'
printf 'a,,,ro,0 128 linear D 0\n' > stack
[ "$("$program" read stack a 0 128 "D=ro:$data")" = "$("$program" read stack a 0 128 D=ro:data)" ] || fail 'reading answers otherwise'
! "$program" verify /dev/zero "$data" "$root" > /dev/null || fail '/dev/zero is taken'

# As in the row parity: 231 data blocks and the tree that --grow makes room for are one round of parity, 232 are two.
head -c 118784 /dev/zero | tr '\0' x > blocks
truncate -s 4096 file
head -c 700 /dev/zero | tr '\0' z > little
cp little kept
parity=$(losetup --find --show file 2> /dev/null) || { parity=''; skip 'no loop device for the parity can be made'; }
options=(--fec "$parity" --fec-roots 8 --data-block 512 --hash-block 512 --salt 00 --uuid 00000000-0000-0000-0000-000000000001)
for tree in new little; do
    [ "$("$program" format --grow "${options[@]}" blocks $tree)" = 'refused 48 FecTooSmall needed 16' ] || fail "the parity of $tree is taken"
done
[ ! -e new ] || fail 'HASH is made before FILE is refused'
cmp little kept || fail 'HASH is made longer before FILE is refused'
cmp -n 4096 "$parity" /dev/zero || fail 'a FILE that is refused is written'
[ "$("$program" format --grow "${options[@]}" --blocks 231 blocks new | head -n 1)" = 'root 7494c69ac3dad2444fc27033a69e6e7fd22918774d7a6f2271320a4bd701d287' ] || fail 'parity on a loop device is refused'
[ "$(sha256sum < "$parity")" = '07ac6e1b02910f5e6468163bb6c5e9e1108e14c43f63847c10741de6d1401acf  -' ] || fail 'the parity on a loop device differs'
echo 'loop devices: passed'
