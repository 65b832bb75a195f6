#!/bin/sh
# A Dask scheduler and two worker processes on this machine, one of which is killed in the middle (kill -9).
#
#     python/tests/cluster/dask.sh [MODELS]
#
# Needs python3-distributed. Everything listens on 127.0.0.1 alone.
. "$(dirname "$0")/common.sh"
models=${1:-24}
address=tcp://127.0.0.1:8798
make_mine "$models" 26 22 15
reference

PYTHONPATH="$root/python"
export PYTHONPATH
dask-scheduler --host 127.0.0.1 --port 8798 --no-dashboard --dashboard-address 127.0.0.1:0 > "$work/scheduler.log" 2>&1 &
started="$started $!"
wait_for 30 grep -q "Scheduler at" "$work/scheduler.log"
for name in first second; do
    dask-worker "$address" --host 127.0.0.1 --name "$name" --nthreads 1 --no-nanny --dashboard-address 127.0.0.1:0 \
        --local-directory "$work" > "$work/$name.log" 2>&1 &
    started="$started $!"
    victim=$!
done
wait_for 60 grep -q "Registered to" "$work/first.log"
wait_for 60 grep -q "Registered to" "$work/second.log"

$pitplan scenarios "$work/project.toml" --out "$work/dask" --on "$address" > "$work/out" 2> "$work/err" &
run=$!
wait_for 120 at_least "$work/dask" $((models / 3))
echo "$(answers "$work/dask") of $models answers stand: the second worker is killed"
kill -9 "$victim"
wait "$run" || { cat "$work/err" >&2; exit 1; }
tail -n 2 "$work/err"
compare "$work/dask"
grep -c "Remove worker" "$work/scheduler.log" | sed 's/^/workers that the scheduler lost: /'
touch "$work/before"
$pitplan scenarios "$work/project.toml" --out "$work/dask" --on "$address" --quiet 2>&1 | grep "answer already"
echo "answers written again: $(find "$work/dask/done" -newer "$work/before" -name '*.npz' | wc -l)"
