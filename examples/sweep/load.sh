#!/bin/sh
# Sweeps the program of `rescue load`: the bytes of its first load, 50 seeds. All bytes that fault
# stand in the last line, so that the sweep can leave them out. Further words go to rescue-sweep.
cd "$(dirname "$0")" || exit 1
exec rescue-sweep ../load/load --points ../load/points.toml --input ../load/input --harts 4 \
    --seeds 0-49 --results load.sqlite --csv load.csv --page load.html "$@"
