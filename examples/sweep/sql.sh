#!/bin/sh
# Sweeps SQLite: eleven statements, each between the same others, of which three meet the fault; the
# example's own point, and each function on the way to a fault. Further words go to rescue-sweep.
cd "$(dirname "$0")" || exit 1
{ make -s -C ../sql source && make -s -C ../sql; } || exit 1
exec rescue-sweep ../sql/sql --points ../sql/points.toml --try --before sql/before \
    --each sql/requests --behind sql/behind --budget 20000000 --results sql.sqlite \
    --csv sql.csv --page sql.html "$@"
