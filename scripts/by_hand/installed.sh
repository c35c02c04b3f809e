#!/usr/bin/env bash
# Tries ./install: below a folder of its own, and as a Debian package, which is installed and removed where root may.
#
# installed.sh [--unproved]: the option is passed on to ./install.
set -u
top=$(dirname "$(dirname "$(dirname "$(readlink -f "$0")")")")
room=$(mktemp -d)
trap 'rm -rf "$room"' EXIT
passed=0 failed=0

# holds WHAT COMMAND..: counts whether the command succeeds.
holds() {
    local what=$1
    shift
    if "$@" > "$room/told" 2>&1; then
        passed=$((passed + 1))
    else
        failed=$((failed + 1))
        echo "installed: not so: $what: $(head -n 3 "$room/told")"
    fi
}

# completes WANTED WORD..: whether bash completes the last of dmstack's words to what is wanted.
completes() {
    local wanted=$1
    shift
    (
        . "$room/root/opt/share/bash-completion/completions/dmstack"
        COMP_WORDS=(dmstack "$@") COMP_CWORD=$#
        _dmstack
        [ "${COMPREPLY[*]}" = "$wanted" ]
    )
}

# works PROGRAM: whether it reads a stack in memory.
works() {
    [ "$(printf 'load a,,,rw,0 1 linear D 0\nread a 0 1\n' | "$1" session D=ramp:1)" = $'loaded 1\n0 all 00' ]
}

# verifies COMMAND..: whether this program formats and verifies an image, reads it, and refuses a changed block of it.
verifies() (
    cd "$(mktemp -d -p "$room")" || exit
    head -c 65536 /dev/zero | tr '\0' x > data
    { printf y && tail -c +2 data; } > changed
    root=$("$@" format --grow data hash | sed -n 's/^root //p')
    "$@" table --name v hash "$root" D H > stack
    [ "$("$@" verify data hash "$root")" = matches ] || exit
    "$@" cat stack v D=ro:data H=ro:hash | cmp - data || exit
    "$@" read stack v 0 1 D=ro:changed H=ro:hash
    [ $? = 3 ]
)

# chooses BUILD FILE: whether the launcher runs this build if the file is in place of /proc/cpuinfo.
chooses() {
    sed "s|/proc/cpuinfo|$2|" "$room/unpacked/usr/bin/dmstack" > "$room/unpacked/usr/bin/launcher"
    sh -x "$room/unpacked/usr/bin/launcher" version 2>&1 | grep -q "^+ exec .*/lib/dmstack/$1/dmstack version"
}

# emulated CPU COMMAND..: runs the program on a processor of QEMU's.
emulated() {
    ulimit -c 0
    qemu-x86_64 -cpu "$@"
}

# try_builds FOLDER: tries which of the two builds in the folder is chosen, and the one without AVX2 on processors without it.
try_builds() {
    local it
    holds 'the launcher chooses AVX2' chooses x86-64-v3 /proc/cpuinfo
    for it in avx2 bmi1 bmi2 f16c fma abm movbe; do
        sed "s/\\<$it\\>//" /proc/cpuinfo > "$room/flags"
        holds "the launcher chooses the other build if $it is missing" chooses x86-64 "$room/flags"
    done
    holds 'it chooses the other build if it knows no flags' chooses x86-64 "$room/none"
    holds 'it prints nothing of that' eval "[ -z \"\$(sh '$room/unpacked/usr/bin/launcher' version 2>&1 > /dev/null)\" ]"
    holds 'the other build has no AVX2' eval "! objdump -d '$1/x86-64/dmstack' | grep -q '%ymm'"
    if ! command -v qemu-x86_64 > /dev/null; then
        echo 'installed: no processor without AVX2 was tried: qemu-x86_64 is not installed'
        return
    fi
    holds 'Nehalem has no AVX2' eval "! (emulated Nehalem '$1/x86-64-v3/dmstack' version)"
    for it in Nehalem kvm64,-pni,-cx16; do
        holds "the other build runs on $it" verifies emulated "$it" "$1/x86-64/dmstack"
    done
}

DESTDIR=$room/root holds 'it installs' "$top/install" "$@" /opt
holds 'the program runs' works "$room/root/opt/bin/dmstack"
holds 'the page is there' gzip -t "$room/root/opt/share/man/man1/dmstack.1.gz"
holds 'documents are there' test -s "$room/root/opt/share/doc/dmstack/docs/REMOTE.md"
holds 'a command is completed' completes verify veri
holds 'an option is completed' completes --salt format --sa
holds 'a second folder is refused' eval "! '$top/install' $* /a /b"
if command -v dpkg-deb > /dev/null; then
    holds 'a package is made' "$top/install" "$@" --deb
    package=$top/out/dmstack_$("$top/scripts/lib/version.sh")_amd64.deb
    holds 'the package has the program' eval "dpkg-deb -c '$package' | grep -q ' ./usr/bin/dmstack$'"
    holds 'it is unpacked' dpkg-deb -x "$package" "$room/unpacked"
    holds 'the launched program runs' works "$room/unpacked/usr/bin/dmstack"
    holds 'it verifies an image' verifies "$room/unpacked/usr/bin/dmstack"
    holds 'it runs in its own folder' eval "(cd '$room/unpacked/usr/bin' && ./dmstack version)"
    for program in "$room"/unpacked/usr/lib/dmstack/*/dmstack; do
        [ ! -e "$program" ] || holds "$program runs" works "$program"
    done
    ! grep -qw avx2 /proc/cpuinfo || try_builds "$room/unpacked/usr/lib/dmstack"
    if [ "$(id -u)" = 0 ] && ! dpkg -s dmstack > /dev/null 2>&1 && [ ! -e /usr/bin/dmstack ]; then
        holds 'the package is installed' dpkg -i "$package"
        holds 'the installed program runs' works /usr/bin/dmstack
        holds 'the package is removed' dpkg -P dmstack
        holds 'nothing of it is left' test ! -e /usr/bin/dmstack
    else
        echo 'installed: the package was not installed: not root, or dmstack is installed already'
    fi
fi
echo "installed: $passed passed, $failed failed"
[ $failed = 0 ]
