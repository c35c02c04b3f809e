#!/usr/bin/env bash
# Reads a disk image that lies on a web server, by docs/REMOTE.md and a pin: what is read of it is checked, and nothing else is
# fetched. Then the server changes a byte of one sector after the other, lowers the number of data blocks, and at last lies at will
# (lying_server.py): no changed byte may come out. Needs nginx, nbdkit with its curl plugin, nbdfuse and a /dev/fuse that the
# caller may open. Not a part of the gate.
#
# remote_image.sh PROGRAM
set -eu
program=$(readlink -f "$1")
top=$(dirname "$(dirname "$(dirname "$(readlink -f "$0")")")")
for it in nginx nbdkit nbdfuse fusermount3 xxd curl python3; do
    command -v "$it" > /dev/null || { echo "$it is not installed"; exit 1; }
done
room=$(mktemp -d)
chmod 755 "$room"
leave() {
    fusermount3 -u "$room/mnt" 2> /dev/null || :
    [ ! -e "$room/pid" ] || kill "$(cat "$room/pid")" 2> /dev/null || :
    [ -z "${liar-}" ] || kill "$liar" 2> /dev/null || :
    rm -rf "$room"
}
trap leave EXIT
trap 'exit 1' INT TERM
cd "$room"
mkdir store mnt logs
xxd -r "$top/examples/system.img.hex" store/system.img
truncate -s 51200 store/system.img
root=37929c904f7143354cd5f38d8cb32b5871f8eb1d928f7dcc5645a2a6bb409dab
"$program" dump --hash-offset $((46 * 512)) --pin $root store/system.img > pin
port=18473
cat > nginx.conf << END
worker_processes 1;
pid $room/pid;
error_log $room/logs/error;
events {}
http { access_log $room/logs/access; sendfile off; open_file_cache off; server { listen 127.0.0.1:$port; location / { root $room/store; } } }
END
nginx -c "$room/nginx.conf" -e "$room/logs/error"

# Shows the image on the server as mnt/nbd.
show() {
    nbdfuse mnt --command nbdkit -s curl "http://127.0.0.1:$port/system.img" 2> logs/nbdfuse &
    shown=$!
    for _ in $(seq 50); do
        [ "$(stat -c %s mnt/nbd 2> /dev/null)" != 51200 ] || return 0
        sleep 0.1
    done
    echo 'nbdfuse shows no image'
    exit 1
}

hide() {
    fusermount3 -u mnt
    wait "$shown" || :
}

show
"$program" partitions --pin pin mnt/nbd > stack
"$program" cat stack root DISK=ro:mnt/nbd > whole
[ "$(wc -c < whole)" = 3072 ] || { echo 'another size'; exit 1; }
: > logs/access
"$program" cat --first 4 --count 2 stack root DISK=ro:mnt/nbd > part
cmp part <(tail -c +2049 whole | head -c 1024)
echo "two sectors: $(wc -l < logs/access) requests"
hide

# read_volume STACK WHEN: what comes out is a beginning of what was formatted, and all of it if the status is 0.
read_volume() {
    status=0
    "$program" cat "$1" root DISK=ro:mnt/nbd > out 2> errors || status=$?
    cmp -s out <(head -c "$(wc -c < out)" whole) || { echo "$2: other bytes came out"; exit 1; }
    [ $status != 0 ] || cmp -s out whole || { echo "$2: status 0, and not all came out"; exit 1; }
}

# read_pinned WHEN: the same by the stack that is printed of the changed image, if the pin allows one.
read_pinned() {
    if "$program" partitions --pin pin mnt/nbd > own 2> errors; then
        read_volume own "$1, by its own stack"
    fi
}

# A byte of each sector of the two partitions is changed in turn. Of the superblock, sector 46, it is one of the salt.
cases=0
refused=0
for sector in $(seq 40 55); do
    cp store/system.img kept
    printf '\252' | dd of=store/system.img bs=1 seek=$((sector * 512 + 100)) conv=notrunc status=none
    show
    read_volume stack "sector $sector changed"
    [ $status = 0 ] || refused=$((refused + 1))
    read_pinned "sector $sector changed"
    [ $sector != 46 ] || grep -qx 'refused 22 OtherSalt' own || { echo 'another salt is taken'; exit 1; }
    hide
    cp kept store/system.img
    cases=$((cases + 1))
done
echo "$cases sectors changed on the server: $refused ended the read, and no changed byte came out"

# The superblock states one data block, and the hash block is in the place of the data: the root hash alone lets it out.
cp store/system.img kept
dd if=kept of=store/system.img bs=512 skip=47 seek=40 count=1 conv=notrunc status=none
printf '\1' | dd of=store/system.img bs=1 seek=$((46 * 512 + 72)) conv=notrunc status=none
show
"$program" partitions --root $root mnt/nbd > own
"$program" cat own root DISK=ro:mnt/nbd | cmp - <(tail -c +$((47 * 512 + 1)) kept | head -c 512)
read_pinned 'fewer data blocks'
grep -qx 'refused 35 OtherDataBlocks' own || { echo 'another number of data blocks is taken'; exit 1; }
hide
cp kept store/system.img
echo 'one data block in place of six: the hash block came out by the root hash, and was refused by the pin'

# A server that lies at will, each time otherwise.
kill "$(cat pid)"
rm -f pid
lies=0
for seed in $(seq 40); do
    port=$((18473 + seed))
    "$top/scripts/by_hand/lying_server.py" store/system.img $port "$seed" &
    liar=$!
    for _ in $(seq 100); do
        curl -fsI -o /dev/null "http://127.0.0.1:$port/system.img" 2> /dev/null && break
        sleep 0.1
    done
    show
    read_volume stack "seed $seed"
    [ $status = 0 ] || lies=$((lies + 1))
    read_pinned "seed $seed"
    hide
    kill "$liar"
    wait "$liar" 2> /dev/null || :
    liar=
done
echo "40 readings from a server that lies at will: $lies were ended, and no other byte came out"
