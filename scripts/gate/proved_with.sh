#!/usr/bin/env bash
# Writes into README.md the kit with which every proof has just been run; `check` calls it if everything has passed. It reports
# if `dmstack version` names another logic: kits that share it have the same prover. It ends with status 2 if the program
# that was built doesn't say that it is proved.
set -eu
top=$(dirname "$(dirname "$(dirname "$(readlink -f "$0")")")")
readme=$top/README.md
kit=$(rt version) version=$("${1:-$PWD/crates/dmstack/out/dmstack}" version)
case $version in
"dmstack 1, proved with rattle ${kit#* }") ;;
"dmstack 1, proved with "*) echo "proved_with: every proof was run with ${kit#* }, and the program's version is: $version" >&2 ;;
*) echo "proved_with: the program was proved, and its version is: $version" >&2; exit 2 ;;
esac
wanted="Proved with \`$kit\`."
! grep -qxF "$wanted" "$readme" || exit 0
grep -q '^Proved with `.*`\.$' "$readme" || { echo "proved_with: README.md has no line 'Proved with'" >&2; exit 1; }
sed -i "s/^Proved with \`.*\`\.$/$wanted/" "$readme"
echo "README.md has now: $wanted"
