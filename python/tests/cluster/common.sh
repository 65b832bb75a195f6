# Read by the scripts beside it: a mine with simulated models in a folder of its own, and what its answer must be.
set -eu
root=$(cd "$(dirname "$0")/../../.." && pwd)
work=$(mktemp -d "${TMPDIR:-/tmp}/pitplan-cluster-XXXXXX")
python=/usr/bin/python3
pitplan="$python $root/tools/pitplan"
started=""

# What a script starts it ends, by the number of the process.
end() {
    for process in $started; do kill "$process" 2>/dev/null || true; done
    wait
    [ -n "${KEEP:-}" ] || rm -rf "$work"
}
trap end EXIT

# make_mine MODELS COLUMNS ROWS LEVELS
make_mine() {
    "$python" "$root/tools/make_table.py" --columns "$2" --rows "$3" --levels "$4" --models "$1" \
        --folder "$work/models" --out "$work/blocks.csv"
    cp "$root/examples/plan/project.toml" "$work/project.toml"
    printf '\n[scenarios]\nrealisations = "models"\n' >> "$work/project.toml"
}

# The same scenarios one after the other, without any scheduler.
reference() {
    $pitplan scenarios "$work/project.toml" --out "$work/reference" --on parallel --quiet 2>/dev/null > "$work/start"
    while read -r number; do sh "$work/reference/scenario.sh" "$number"; done < "$work/reference/jobs.txt"
    $pitplan gather "$work/reference" --quiet > "$work/gathered"
}

# compare FOLDER: every probability, table and quantile is that of the reference.
compare() {
    for name in probability scenarios quantiles; do cmp "$work/reference/tables/$name.csv" "$1/tables/$name.csv"; done
    echo "same probability.csv, scenarios.csv and quantiles.csv as one after the other: yes"
}

# A program that is killed the first time that it is asked for shells, and from then on is the real one. It solves instead of the library,
# where that is there, by which the reference is.
killed_once() {
    cat > "$work/killed_once" <<END
#!/bin/sh
if [ "\$1" = shells ] && mkdir "$work/was_killed" 2>/dev/null; then kill -9 \$\$; fi
exec "$root/build/pitshell" "\$@"
END
    chmod 755 "$work/killed_once"
    export PITSHELL="$work/killed_once"
}

# wait_for SECONDS COMMAND: until it succeeds.
wait_for() {
    left=$(( $1 * 10 ))
    shift
    until "$@" 2>/dev/null; do
        left=$((left - 1))
        [ "$left" -gt 0 ] || { echo "waited in vain for: $*" >&2; exit 1; }
        sleep 0.1
    done
}

# answers FOLDER: how many scenarios have their answer.
answers() {
    find "$1/done" -name '*.npz' 2>/dev/null | wc -l
}

at_least() {
    [ "$(answers "$1")" -ge "$2" ]
}
