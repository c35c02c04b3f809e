#!/usr/bin/env bash
# Compares verity images with those of veritysetup, where it is installed. Not a part of the gate.
#
# interoperation.sh [STEP]: every pair of block sizes, every STEP-th number of data blocks from 1 to 300 (7 if none is
# given), and salts of 0, 1, 32 and 256 bytes in turn. Each image is formatted by both: roots, their files and hash images must be
# equal, each must verify the other's, `dump` must tell the same fields, and `table` the line that a kernel takes. The same is
# compared of trees without a superblock, and, where data and hash blocks have one size, the parity with 2 to 24 bytes in a
# codeword over a hash image that goes on after its tree.
set -eu
step=${1:-7}
PATH=$PATH:/usr/sbin
command -v veritysetup > /dev/null || { echo 'veritysetup is not installed'; exit 1; }
top=$(dirname "$(dirname "$(dirname "$(readlink -f "$0")")")")
"$top/scripts/lib/built.sh" dmstack
program=$top/crates/dmstack/out/dmstack
room=$(mktemp -d)
trap 'rm -rf "$room"' EXIT
cd "$room"
uuid=6c0b2c0e-5a0d-4b5c-9a44-1d1f6a3b2c7e
salts=("-" 5a "$(printf '%064d' 7)" "$(seq -f '%02g' 0 99 | tr -d '\n')$(seq -f '%02g' 0 99 | tr -d '\n')$(seq -f '%02g' 0 55 | tr -d '\n')")
head -c $((300 * 4096)) /dev/urandom > data
head -c $((312 * 4096)) /dev/urandom > junk
cases=0

fail() {
    echo "data blocks of $1, hash blocks of $2, $3 data blocks, salt $4: $5"
    exit 1
}

# The fields that `veritysetup dump` and ours name alike, one a line.
fields() {
    sed -n -e 's/^UUID: *\t*/uuid /p' -e 's/^Hash type: *\t*/hash_type /p' -e 's/^Hash algorithm: *\t*/algorithm /p' \
        -e 's/^Data block size: *\t*\([0-9]*\).*/data_block \1/p' -e 's/^Hash block size: *\t*\([0-9]*\).*/hash_block \1/p' \
        -e 's/^Data blocks: *\t*/data_blocks /p' -e 's/^Salt: *\t*/salt /p' | sort
}

# compare DATA_BLOCK HASH_BLOCK BLOCKS SALT
compare() {
    local root line
    truncate -s 0 theirs ours
    truncate -s $((302 * 4096)) theirs ours
    root=$(veritysetup format --data-block-size="$1" --hash-block-size="$2" --data-blocks="$3" --salt="$4" --uuid=$uuid --root-hash-file=theirs.root data theirs |
        sed -n 's/^Root hash: *\t*//p')
    [ "$("$program" format --data-block "$1" --hash-block "$2" --blocks "$3" --salt="$4" --uuid $uuid --root-hash-file=ours.root data ours | head -n 1)" = "root $root" ] ||
        fail "$@" 'another root'
    cmp -s theirs ours || fail "$@" 'another hash image'
    cmp -s theirs.root ours.root || fail "$@" 'another file of the root hash'
    [ "$("$program" verify data theirs "$root")" = matches ] || fail "$@" 'theirs is not verified'
    veritysetup verify data ours "$root" > /dev/null || fail "$@" 'ours is not verified'
    [ "$("$program" dump theirs | sort)" = "$(veritysetup dump ours | fields)" ] || fail "$@" 'other fields'
    line="0 $(($3 * $1 / 512)) verity 1 DATA HASH $1 $2 $3 1 sha256 $root $4"
    [ "$("$program" table theirs "$root" DATA HASH)" = "$line" ] || fail "$@" 'another table line'
    cases=$((cases + 1))
}

# The same of a tree without a superblock, at a place in a file that holds other bytes: compare_bare DATA_BLOCK HASH_BLOCK
# BLOCKS SALT PLACE
compare_bare() {
    local root line options
    options=(--no-superblock --salt="$4" --hash-offset=$(($5 * $2)))
    cp junk theirs
    cp junk ours
    root=$(veritysetup format --data-block-size="$1" --hash-block-size="$2" --data-blocks="$3" "${options[@]}" data theirs |
        sed -n 's/^Root hash: *\t*//p')
    [ "$("$program" format --data-block "$1" --hash-block "$2" --blocks "$3" "${options[@]}" data ours | head -n 1)" = "root $root" ] ||
        fail "$@" 'another root of a tree alone'
    cmp -s theirs ours || fail "$@" 'another tree alone'
    [ "$("$program" verify --data-block "$1" --hash-block "$2" --blocks "$3" "${options[@]}" data theirs "$root")" = matches ] ||
        fail "$@" 'their tree alone is not verified'
    veritysetup verify --data-block-size="$1" --hash-block-size="$2" --data-blocks="$3" "${options[@]}" data ours "$root" > /dev/null ||
        fail "$@" 'our tree alone is not verified'
    line="0 $(($3 * $1 / 512)) verity 1 DATA HASH $1 $2 $3 $5 sha256 $root $4"
    [ "$("$program" table --data-block "$1" --hash-block "$2" --blocks "$3" "${options[@]}" theirs "$root" DATA HASH)" = "$line" ] ||
        fail "$@" 'another table line of a tree alone'
    cases=$((cases + 1))
}

# The parity of an image: compare_parity BLOCK BLOCK BLOCKS SALT ROOTS
compare_parity() {
    local root
    cp junk theirs
    cp junk ours
    rm -f their_parity our_parity
    : > their_parity
    root=$(veritysetup format --data-block-size="$1" --hash-block-size="$2" --data-blocks="$3" --salt="$4" --uuid=$uuid \
        --fec-device=their_parity --fec-roots="$5" data theirs | sed -n 's/^Root hash: *\t*//p')
    [ "$("$program" format --grow --fec our_parity --fec-roots "$5" --data-block "$1" --hash-block "$2" --blocks "$3" --salt="$4" \
        --uuid $uuid data ours | head -n 1)" = "root $root" ] || fail "$1" "$2" "$3" "$4" 'another root of an image with parity'
    # veritysetup leaves the bytes after the superblock in its block
    cmp -s -i "$1" theirs ours || fail "$1" "$2" "$3" "$4" 'another tree with parity'
    cmp -s their_parity our_parity || fail "$1" "$2" "$3" "$4" "another parity, of $5 bytes in a codeword"
    [ "$("$program" verify --fec their_parity --fec-roots "$5" data theirs "$root" | tail -n 1)" = 'parity ok' ] ||
        fail "$1" "$2" "$3" "$4" "their parity of $5 bytes in a codeword is not verified"
    cases=$((cases + 1))
}

for data_block in 512 1024 2048 4096; do
    for hash_block in 512 1024 2048 4096; do
        for blocks in $(seq 1 "$step" 300); do
            compare $data_block $hash_block "$blocks" "${salts[blocks / step % 4]}"
            compare_bare $data_block $hash_block "$blocks" "${salts[blocks / step % 4]}" $((blocks % 5))
            [ $data_block != $hash_block ] ||
                compare_parity $data_block $hash_block "$blocks" "${salts[blocks / step % 4]}" $((2 + blocks % 23))
        done
    done
done
echo "interoperation: $cases images agree with $(veritysetup --version)"
