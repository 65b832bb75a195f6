#!/bin/sh
# Seconds of many scenarios on this machine with 1, 2 and 4 processes: MODELS simulated models of 97,816 blocks at 31
# factors. The answers of each round are put away before the next.
#
#     python/tests/cluster/workers.sh [MODELS] [WORKERS...]
#
# Needs python3-distributed.
. "$(dirname "$0")/common.sh"
models=${1:-100}
[ $# -gt 0 ] && shift
[ $# -gt 0 ] || set -- 1 2 4
make_mine "$models" 70 60 28
sed -i 's/to = 1.20/to = 1.80/; s/800_000/8_000_000/; s/2_000_000/20_000_000/' "$work/project.toml"
for workers in "$@"; do
    rm -rf "$work/scenarios"
    echo "with $workers processes, load before $(cut -d ' ' -f 1 /proc/loadavg):"
    $pitplan scenarios "$work/project.toml" --out "$work/scenarios" --workers "$workers" 2>&1 | grep -E ' \.\. |solved'
    sha256sum < "$work/scenarios/tables/probability.csv" | cut -c 1-16
done
echo "bytes of a model, of the needs, of what all share, and of an answer (the greatest):"
(cd "$work/scenarios" && stat --format=%s "realisations/$(ls realisations | head -n 1)" solver/mine.prec solver/base.npz &&
    stat --format=%s done/* | sort -n | tail -n 1)
