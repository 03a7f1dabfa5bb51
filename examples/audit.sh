#!/bin/sh
# Saves the history of a run of `workers` on threads, and audits it:
#
#     examples/audit.sh crates/rescue/out/rescue
#
# The audit says yes of the history as it was saved. Then a byte is changed, once of the history and
# once of the output, and the audit says of each where it is. Ends with 1 if it says anything else.

if [ $# -ne 1 ] || [ ! -x "$1" ]; then
    echo "usage: $0 RESCUE" >&2
    exit 64
fi
rescue=$(cd "$(dirname "$1")" && pwd)/$(basename "$1")
cd "$(dirname "$0")/workers" || exit 1
came=$(mktemp -d) || exit 1
trap 'rm -rf "$came"' EXIT
differing=0

# Audits the history $1 with the output $2, and says so unless status and line are $3 and $4.
audit() {
    line=$("$rescue" audit --points points.toml "$1" workers input "$2" "$came/err")
    status=$?
    case "$status $line" in
    "$3 $4"*) ;;
    *)
        echo "audit: $status $line, and not $3 $4"
        differing=1
        ;;
    esac
}

# The file $1 with another byte at the place $2, counted from 0.
changed() {
    cp "$1" "$1.changed"
    printf '\377' | dd of="$1.changed" bs=1 seek="$2" conv=notrunc 2>/dev/null
}

: > "$came/err"
"$rescue" run --points points.toml --save "$came/history" workers < input > "$came/output" \
    2> "$came/report"
audit "$came/history" "$came/output" 0 "audit yes"
changed "$came/history" 33
audit "$came/history.changed" "$came/output" 78 "audit no file tag at 33"
changed "$came/output" 0
audit "$came/history" "$came/output.changed" 78 "audit no device 1"
exit $differing
