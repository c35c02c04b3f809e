#!/usr/bin/env bash
# Compares what `find` prints of images of other programs with their sizes, blkid's UUIDs and the segments that cryptsetup dumps.
#
# found_images.sh [PROGRAM]: file systems, LUKS2 volumes, verity images and a partition table, each from sector 777 of a disk on, and
# 64 MiB of random bytes, which show nothing. Needs e2fsprogs, erofs-utils, squashfs-tools, xfsprogs, btrfs-progs, cryptsetup, sgdisk.
set -eu
export PATH=$PATH:/usr/sbin
top=$(dirname "$(dirname "$(dirname "$(readlink -f "$0")")")")
program=${1:-}
if [ -z "$program" ]; then
    "$top/scripts/lib/built.sh" dmstack
    program=$top/crates/dmstack/out/dmstack
fi
room=$(mktemp -d)
trap 'rm -rf "$room"' EXIT
cd "$room"
start=$((777 * 512))

# shows KIND:SIZE[:OFFSET] ..: `find` prints these things of `image`, with blkid's UUID, and no others.
shows() {
    local uuid thing kind size at
    rm -f disk
    truncate -s $start disk
    cat image >> disk
    truncate -s %512 disk
    uuid=$(blkid -p -O $start -o value -s UUID -s PTUUID disk || true)
    for thing in "$@"; do
        IFS=: read -r kind size at <<< "$thing"
        echo "$((start + ${at:-0})) $kind $size ${uuid:--}"
    done > wanted
    "$program" find disk | sed '$d' | cut -d' ' -f1-3,5 > found
    diff wanted found || { echo "differs: $*"; exit 1; }
    echo "as expected: ${*:-nothing}"
}

# made SIZE COMMAND ..: a file of that size, and what the command makes of it.
made() {
    rm -f image
    truncate -s "$1" image
    "${@:2}" > made.log 2>&1 || { cat made.log; exit 1; }
}

mkdir tree
for it in 1 2 3; do head -c 50000 /dev/urandom > tree/$it; done
for it in 1024 4096; do
    made 64M mkfs.ext4 -F -b $it -O ^64bit image; shows ext4:67108864
    made 64M mkfs.ext4 -F -b $it -O 64bit image; shows ext4:67108864
done
made 16M mkfs.ext2 -F image; shows ext4:16777216
# Each group has a backup superblock, which isn't found.
made 300M mkfs.ext4 -F -b 1024 -O ^sparse_super,^resize_inode image; shows ext4:314572800
made 0 mkfs.erofs image tree; shows "erofs:$(stat -c %s image)"
for it in gzip xz; do
    rm image
    mksquashfs tree image -comp $it -quiet -no-progress > made.log
    shows "squashfs:$(unsquashfs -s image | sed -n 's/^Filesystem size \([0-9]*\) bytes.*/\1/p')"
done
# Each of the four allocation groups has a superblock.
made 512M mkfs.xfs -f -d agcount=4 image; shows xfs:536870912 xfs:536870912:134217728 xfs:536870912:268435456 xfs:536870912:402653184
made 256M mkfs.btrfs -f image; shows btrfs:268435456
# README.md is the key file.
for it in 16384 65536; do
    made 32M cryptsetup -q luksFormat --type luks2 --pbkdf pbkdf2 --pbkdf-force-iterations 1000 --luks2-metadata-size $it \
        --luks2-keyslots-size 1m image "$top/README.md"
    shows luks2:$it luks2-secondary:$it
    [ "$("$program" find disk | grep -c 'cryptsetup open$')" = 2 ]
    "$program" find --json disk > found.json
    printf '\0\0' | dd of=disk bs=1 seek=$((start + 4100)) conv=notrunc status=none
    "$program" find disk | head -n 1 | grep -q 'luks2 .* damaged$'
    cryptsetup luksDump --dump-json-metadata image > header.json
    python3 -c '
import json
found = json.load(open("found.json"))["found"][0]["segments"]
stated = json.load(open("header.json"))["segments"]
sectors = lambda text: None if text == "dynamic" else int(text) // 512
wanted = [(int(id), it["encryption"], sectors(it["offset"]), sectors(it["size"]), int(it["iv_tweak"]), it["sector_size"]) for id, it in stated.items()]
printed = [tuple(it[name] for name in ("id", "encryption", "offset", "size", "iv_tweak", "sector_size")) for it in found]
assert printed == wanted, (printed, wanted)
'
done
head -c 4194304 /dev/urandom > data
for it in 512 1024 4096; do
    made 0 veritysetup format --data-block-size $it --hash-block-size $it data image; shows verity:4194304
done
# What `verify` doesn't read isn't found.
made 0 veritysetup format --hash sha512 data image; shows
made 0 veritysetup format --format 0 data image; shows
made 64M sgdisk -n 1:2048:+10M -n 2:0:0 image; shows gpt:-:512 gpt-backup:-:67108352
head -c 67108864 /dev/urandom > image; shows
