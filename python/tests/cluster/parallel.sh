#!/bin/sh
# GNU parallel over a list of scenarios, the program of one of which is killed the first time; then its job log.
#
#     python/tests/cluster/parallel.sh [MODELS]
#
# Needs the Debian package parallel, which tools/setup.sh tests installs.
. "$(dirname "$0")/common.sh"
models=${1:-8}
make_mine "$models" 26 22 15
reference
killed_once
start=$($pitplan scenarios "$work/project.toml" --out "$work/parallel" --on parallel --quiet 2>/dev/null)
sh "$start" --jobs 2 > "$work/out" 2> "$work/err" || { cat "$work/err" >&2; exit 1; }
grep killed "$work/err" || cat "$work/err"
echo "the job log, without times and commands (number, exit status, signal):"
cut -f 1,7,8 "$work/parallel/joblog.txt"
compare "$work/parallel"
