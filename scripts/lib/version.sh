#!/usr/bin/env bash
# The version that a package has: the date of the last commit and its short name, or of no commit.
set -eu
cd "$(dirname "$(readlink -f "$0")")/../.."
git log -1 --format=0.%cd.%h --date=format:%Y%m%d 2> /dev/null || echo 0.0
