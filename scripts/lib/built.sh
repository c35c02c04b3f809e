#!/usr/bin/env bash
# Builds what scripts run and what isn't built yet: `built.sh dmstack` the program, `built.sh dmstack.by-rattle` also the
# program as Rattle's own compiler builds it. If GATE_BUILT is set, out/ is used as it is, as `rt ci` has
# just made it.
set -eu
top=$(dirname "$(dirname "$(dirname "$(readlink -f "$0")")")")
cd "$top/crates/dmstack"
[ -z "${GATE_BUILT:-}" ] || { ls out/dmstack out/dmstack.by-rattle > /dev/null; exit; }
"$top/prove"
case " $* " in
*' dmstack.by-rattle '*)
    [ out/dmstack.by-rattle -nt out/dmstack ] && exit
    room=$(mktemp -d -p out)
    trap 'rm -rf "$room"' EXIT
    mkdir "$room/kept"
    cp -p out/dmstack out/dmstack.* "$room/kept"
    status=0
    rt run --backend rattle -- session < /dev/null > "$room/log" 2>&1 || status=$?
    [ $status != 0 ] || mv out/dmstack "$room/dmstack.by-rattle"
    mv -f "$room"/kept/* out
    [ $status = 0 ] || { cat "$room/log" >&2; exit 1; }
    touch "$room/dmstack.by-rattle"
    mv -f "$room/dmstack.by-rattle" out
    ;;
esac
