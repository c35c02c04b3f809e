#!/usr/bin/env bash
# Runs the recipes of the documents: what users do with dmstack beside the programs of others. Not a part of the gate, since
# few machines have all of these.
#
# recipes.sh [--program FILE] [DOCUMENT..]: on the program that ./dmstack runs, or on that file; of docs/*.md where none is
# named. A recipe is an indented block whose first line is `# needs PROGRAM..`. It is run by bash, and fails at its first
# command that fails. The recipes of a document are run one after another in one folder that has `examples`, with dmstack on the
# path; where one of the programs is missing, that is told, and the recipe is left out. $URL is a web server that hands out the
# folder `store`. Behind a line that ends in `&` it is waited for the socket or the file that the line makes.
set -u
top=$(dirname "$(dirname "$(dirname "$(readlink -f "$0")")")")
program=$top/dmstack
if [ "${1-}" = --program ]; then
    program=$(realpath "$2") || exit 2
    shift 2
fi
[ $# != 0 ] || set -- "$top"/docs/*.md
PATH=$PATH:/usr/sbin:/sbin
port=$((18000 + $$ % 1000))
export URL=http://127.0.0.1:$port
# guestfish starts a machine: without KVM, which inside of another machine may be slower than none.
export LIBGUESTFS_BACKEND=direct LIBGUESTFS_BACKEND_SETTINGS=force_tcg
passed=0 failed=0 left=0

# Each recipe begins with this: what it waits for, and that nothing keeps running after it.
read -r -d '' beginning << 'BASH'
set -eu -o pipefail
appears() {
    local word
    for _ in $(seq 300); do
        for word in "$@"; do
            word=${word#*:} word=${word%%,*}
            case $word in
            # it is there before it is listened on, which the kernel's list says
            *socket) [ ! -S "$word" ] || ! grep -q " 00010000 .*[ /]${word##*/}\$" /proc/net/unix || return 0 ;;
            *) [ "$1" != nbdfuse ] || [ ! -s "$2/nbd" ] || return 0 ;;
            esac
        done
        sleep 0.1
    done
    echo "nothing came of: $*"
    return 1
}
leave() {
    local it
    for it in */nbd; do
        [ ! -e "$it" ] || fusermount3 -u "${it%/nbd}" || :
    done
    for it in $(jobs -p) $(cat -- *.pid 2> /dev/null); do
        kill "$it" 2> /dev/null || :
    done
    wait
    rm -rf -- *.pid *socket
}
trap leave EXIT
trap 'exit 1' INT TERM
BASH

# Starts the web server in the folder $room.
serve_store() {
    mkdir -p "$room/store"
    cat > "$room.nginx" << END
worker_processes 1;
pid $room.nginx.pid;
error_log $room.nginx.log;
events {}
http { access_log off; sendfile off; open_file_cache off; server { listen 127.0.0.1:$port; location / { root $room/store; } } }
END
    nginx -c "$room.nginx" -e "$room.nginx.log"
}

end_store() {
    [ ! -e "$room.nginx.pid" ] || kill "$(cat "$room.nginx.pid")"
    rm -f "$room.nginx" "$room.nginx.log"
}

# Runs the recipe whose lines are in $recipe, and which needs the programs of the line $needs.
run_recipe() {
    local it place="${document##*/}: ${heading#"${heading%%[!# ]*}"}"
    for it in $needs; do
        command -v "$it" > /dev/null || {
            echo "$place: not tried: $it isn't installed"
            left=$((left + 1))
            return
        }
    done
    if [[ $recipe == *'$URL'* ]]; then
        command -v nginx > /dev/null || {
            echo "$place: not tried: nginx isn't installed"
            left=$((left + 1))
            return
        }
        serve_store
    fi
    printf '%s\n%s\n' "$beginning" "$recipe" > "$room.sh"
    if (cd "$room" && timeout 300 bash "$room.sh") > "$room.out" 2>&1 < /dev/null; then
        passed=$((passed + 1))
        echo "$place: as it should be ($needs)"
    else
        failed=$((failed + 1))
        printf '%s: not as it should be (%s)\n%s\n' "$place" "$needs" "$(tail -n 20 "$room.out")"
    fi
    end_store
}

# Runs each recipe of the document; the first line after a recipe that isn't indented ends it.
run_document() {
    local line needs='' recipe='' heading=''
    while IFS= read -r line <&8; do
        case $line in
        '    # needs '*) needs=${line#'    # needs '} recipe='' ;;
        '    '*' &') recipe+="${line#    }"$'\n'"appears ${line% &}"$'\n' ;;
        '    '*) recipe+="${line#    }"$'\n' ;;
        *)
            [ -z "$needs" ] || run_recipe
            needs='' recipe=''
            [[ $line != '#'* ]] || heading=$line
            ;;
        esac
    done 8< "$document"
    [ -z "$needs" ] || run_recipe
}

for document in "$@"; do
    room=$(mktemp -d)
    chmod 755 "$room"
    trap 'end_store; rm -rf "$room" "$room".*' EXIT
    mkdir "$room/bin"
    ln -s "$program" "$room/bin/dmstack"
    ln -s "$top/examples" "$room/examples"
    PATH=$room/bin:$PATH run_document
    rm -rf "$room" "$room".*
done
echo "recipes: $passed passed, $failed failed, $left not tried"
[ $failed = 0 ] && [ $passed -gt 0 ]
