#!/usr/bin/env bash
# partition_images.sh: makes the files of the rows partition_stacks, partition_roots, partition_parity, partition_copies,
# partition_bindings and hash_offsets anew.
#
# Small disks with a GUID partition table, as sgdisk, sfdisk and fdisk make them, one with a verity image in two partitions, as
# systemd-repart lays it out: the UUID of the data partition is the first half of the root digest, that of the verity
# partition the second one. And verity images in one file, as veritysetup makes them. Needs sgdisk, sfdisk, fdisk, veritysetup
# and xxd. A file NAME.hex has the lines of `xxd NAME` that aren't zeros; `xxd -r` gives NAME back, but for zeros at its end.
set -eu
top=$(dirname "$(dirname "$(dirname "$(readlink -f "$0")")")")
room=$(mktemp -d)
trap 'rm -rf "$room"' EXIT
cd "$room"
salt=$(printf 'ab%.0s' {1..32})
identifier=01234567-89ab-cdef-0123-456789abcdef

# numbers COUNT FILE: so many blocks of 512 bytes, of which block k is filled with the number k.
numbers() {
    for ((k = 0; k < $1; k++)); do
        printf "\\x$(printf %02x $((k + 1)))%.0s" {1..512}
    done > "$2"
}

# keep ROW FILE: the lines of the file that aren't zeros.
keep() {
    xxd "$2" | grep -v ': 0000 0000 0000 0000 0000 0000 0000 0000 ' > "$top/tests/rows/$1/files/$2.hex"
}

# uuid HALF: 32 hexadecimal digits as a UUID is printed.
uuid() {
    sed -E 's/(.{8})(.{4})(.{4})(.{4})(.{12})/\1-\2-\3-\4-\5/' <<< "$1"
}

# A verity image in two partitions: data from sector 40, hashes from sector 46 on.
numbers 6 data
root=$(veritysetup format --data-block-size 512 --hash-block-size 512 --salt "$salt" --uuid "$identifier" data hash | sed -n 's/^Root hash:[[:space:]]*//p')
echo "$root" > "$top/tests/rows/partition_roots/files/root"
truncate -s $((100 * 512)) root.img
sgdisk -a 1 -o -U "$identifier" \
    -n 1:40:45 -t 1:4f68bce3-e8cd-4db1-96e7-fbcaf984b709 -u 1:"$(uuid "${root:0:32}")" -c 1:system \
    -n 2:46:55 -t 2:2c7357ed-ebd2-46d9-aec1-23d437ec2bf5 -u 2:"$(uuid "${root:32}")" -c 2:system-verity \
    root.img > /dev/null
dd if=data of=root.img bs=512 seek=40 conv=notrunc status=none
dd if=hash of=root.img bs=512 seek=46 conv=notrunc status=none
keep partition_roots root.img
cp "$top/tests/rows/partition_roots/files/root.img.hex" "$top/examples/system.img.hex"

# The same image with parity of 2 and of 24 bytes in a codeword, over the hash partition to its end; room for one sector less of each.
truncate -s $((10 * 512)) hash
for roots in 2 24; do
    veritysetup format --data-block-size 512 --hash-block-size 512 --salt "$salt" --uuid "$identifier" --fec-device "parity$roots" --fec-roots $roots data hash > /dev/null
done
linux=0fc63daf-8483-4772-8e79-3d69d8477de4
truncate -s $((180 * 512)) parity.img
sgdisk -a 1 -o -U "$identifier" \
    -n 1:40:45 -t 1:4f68bce3-e8cd-4db1-96e7-fbcaf984b709 -u 1:"$(uuid "${root:0:32}")" -c 1:data \
    -n 2:46:55 -t 2:2c7357ed-ebd2-46d9-aec1-23d437ec2bf5 -u 2:"$(uuid "${root:32}")" -c 2:hash \
    -n 3:56:57 -t 3:$linux -u 3:00000000-0000-0000-0000-000000000003 -c 3:parity \
    -n 4:58:81 -t 4:$linux -u 4:00000000-0000-0000-0000-000000000004 -c 4:twice \
    -n 5:82:82 -t 5:$linux -u 5:00000000-0000-0000-0000-000000000005 -c 5:twice \
    -n 6:83:105 -t 6:$linux -u 6:00000000-0000-0000-0000-000000000006 -c 6:short \
    -n 7:140:141 -t 7:$linux -u 7:00000000-0000-0000-0000-000000000007 -c 7:last \
    parity.img > /dev/null
dd if=data of=parity.img bs=512 seek=40 conv=notrunc status=none
dd if=hash of=parity.img bs=512 seek=46 conv=notrunc status=none
dd if=parity2 of=parity.img bs=512 seek=56 conv=notrunc status=none
dd if=parity24 of=parity.img bs=512 seek=58 conv=notrunc status=none
keep partition_parity parity.img
echo "$root" > "$top/tests/rows/partition_parity/files/root"

# Data blocks of 1,024 bytes, and hash blocks of 512.
sizes=$(veritysetup format --data-block-size 1024 --hash-block-size 512 --salt - --uuid "$identifier" data other | sed -n 's/^Root hash:[[:space:]]*//p')
truncate -s $((100 * 512)) sizes.img
sgdisk -a 1 -o -U "$identifier" \
    -n 1:40:45 -t 1:4f68bce3-e8cd-4db1-96e7-fbcaf984b709 -u 1:"$(uuid "${sizes:0:32}")" -c 1:data \
    -n 2:46:55 -t 2:2c7357ed-ebd2-46d9-aec1-23d437ec2bf5 -u 2:"$(uuid "${sizes:32}")" -c 2:hash \
    -n 3:56:57 -t 3:$linux -u 3:00000000-0000-0000-0000-000000000003 -c 3:parity \
    sizes.img > /dev/null
dd if=data of=sizes.img bs=512 seek=40 conv=notrunc status=none
dd if=other of=sizes.img bs=512 seek=46 conv=notrunc status=none
keep partition_parity sizes.img
echo "$sizes" > "$top/tests/rows/partition_parity/files/sizes"

# Labels: one that is a name, one that occurs twice, one with a space, none, and the name of another partition by its number.
truncate -s $((512 * 512)) labels.img
sfdisk -q labels.img << 'TABLE'
label: gpt
label-id: 01234567-89AB-CDEF-0123-456789ABCDEF
first-lba: 40
start=40, size=8, type=0FC63DAF-8483-4772-8E79-3D69D8477DE4, uuid=00000000-0000-0000-0000-000000000001, name="home"
start=48, size=16, type=0FC63DAF-8483-4772-8E79-3D69D8477DE4, uuid=00000000-0000-0000-0000-000000000002, name="twice"
start=64, size=32, type=0FC63DAF-8483-4772-8E79-3D69D8477DE4, uuid=00000000-0000-0000-0000-000000000003, name="twice"
start=96, size=1, type=0FC63DAF-8483-4772-8E79-3D69D8477DE4, uuid=00000000-0000-0000-0000-000000000004, name="a b"
start=100, size=2, type=0FC63DAF-8483-4772-8E79-3D69D8477DE4, uuid=00000000-0000-0000-0000-000000000005
start=104, size=4, type=0FC63DAF-8483-4772-8E79-3D69D8477DE4, uuid=00000000-0000-0000-0000-000000000006, name="p5"
start=108, size=4, type=0FC63DAF-8483-4772-8E79-3D69D8477DE4, uuid=00000000-0000-0000-0000-000000000007, name="p7"
start=112, size=4, type=0FC63DAF-8483-4772-8E79-3D69D8477DE4, uuid=00000000-0000-0000-0000-000000000008, name="x;y"
TABLE
keep partition_stacks labels.img

# 65 partitions without labels, one more than a stack has devices. The disk is cut short after the last one.
words=()
for ((k = 1; k <= 65; k++)); do
    words+=(-n "$k:$((39 + k)):$((39 + k))" -u "$k:$(printf %08d "$k")-0000-0000-0000-000000000000")
done
truncate -s $((160 * 512)) many.img
sgdisk -a 1 -o -U "$identifier" "${words[@]}" many.img > /dev/null
truncate -s $((120 * 512)) many.img
keep partition_stacks many.img

# A disk whose copies differ: the backup is that of a disk with another label. One with a hybrid master boot record. The rows of
# partition_copies cut the first one short, and take its master boot record away.
disk() {
    truncate -s $((128 * 512)) "$1"
    sgdisk -a 1 -o -U "$identifier" -n 1:40:49 -u 1:00000000-0000-0000-0000-000000000001 -c 1:"$2" \
        -n 2:50:90 -u 2:00000000-0000-0000-0000-000000000002 -c 2:rest "$1" > /dev/null
}
disk one.img home
disk other.img other
dd if=other.img of=one.img bs=512 skip=95 seek=95 conv=notrunc status=none
keep partition_copies one.img
disk hybrid.img home
sgdisk -h 1 hybrid.img > /dev/null
keep partition_copies hybrid.img
disk disk.img home
keep partition_bindings disk.img
xxd hybrid.img | sed -n '29,30p' > "$top/tests/rows/partition_bindings/files/hybrid.hex"
xxd other.img | grep -E '^0000(be30|be40|fe10|fe50)' > "$top/tests/rows/partition_bindings/files/other.hex"

# Sectors of 4,096 bytes, and a label that looks like an option.
truncate -s $((64 * 4096)) large.img
printf '%s\n' g x i "$identifier" r n 1 6 10 n 2 20 20 x n 1 home u 1 00000000-0000-0000-0000-000000000001 \
    n 2 -force u 2 00000000-0000-0000-0000-000000000002 r w | fdisk -b 4096 large.img > /dev/null
keep partition_copies large.img
cp "$top/tests/rows/partition_copies/files/large.img.hex" "$top/tests/rows/partition_bindings/files/large.img.hex"

# The tree after the data in one file: as many data blocks as lie before, and one less.
for blocks in 6 5; do
    numbers 6 "one$blocks.img"
    truncate -s $((8 * 512)) "one$blocks.img"
    veritysetup format --data-block-size 512 --hash-block-size 512 --data-blocks $blocks --hash-offset $((6 * 512)) --salt "$salt" --uuid "$identifier" \
        "one$blocks.img" "one$blocks.img" | sed -n 's/^Root hash:[[:space:]]*//p' > "$top/tests/rows/hash_offsets/files/root$blocks"
    keep hash_offsets "one$blocks.img"
done
