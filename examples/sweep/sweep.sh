#!/bin/sh
# Sweeps the JSON server: 40 requests, each between the same others, 50 seeds, three points. Stopped
# and started again it goes on where it was. Further words go to rescue-sweep, as --seeds 0-4.
cd "$(dirname "$0")" || exit 1
make -s -C ../json || exit 1
exec rescue-sweep ../json/json --points points.toml --alone --each requests --before before \
    --behind behind --seeds 0-49 --csv sweep.csv --page sweep.html "$@"
