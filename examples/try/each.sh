#!/bin/sh
# Says how a guest ends with each of these functions as its only rescue point:
#
#     examples/try/each.sh RESCUE GUEST RETURNS FUNCTION .. < INPUT
#
# A line for each: its name, how the run ended, and how many calls were rescued. A rescued call
# returns RETURNS.

if [ $# -lt 4 ] || [ ! -x "$1" ]; then
    echo "usage: $0 RESCUE GUEST RETURNS FUNCTION .. < INPUT" >&2
    exit 64
fi
rescue=$1 guest=$2 returns=$3
shift 3
came=$(mktemp -d) || exit 1
trap 'rm -rf "$came"' EXIT
cat > "$came/input"

for function in "$@"; do
    printf 'version = 1\n\n[[point]]\nfunction = "%s"\nreturns = %s\nkind = "blocking"\n' \
        "$function" "$returns" > "$came/points.toml"
    timeout 120 "$rescue" alone --points "$came/points.toml" "$guest" < "$came/input" \
        > /dev/null 2> "$came/report"
    echo "$function $(sed -n '/^end /p' "$came/report") $(sed -n '/^rescues /p' "$came/report")"
done
