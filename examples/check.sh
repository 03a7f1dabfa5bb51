#!/bin/sh
# Runs each example under the built program and says what differs from the files beside it:
#
#     examples/check.sh crates/rescue/out/rescue
#
# `alone` runs it with three seeds, and `run` on threads. What comes on standard output is compared
# with `output`. The report is compared with `report` where that is there, and with `rescues` where
# only faults and codes are the same each time. What meets no fault, `input-good`, which answers
# `output-good`, is run without points, and under qemu-riscv64 (package qemu-user) or
# qemu-riscv64-static (qemu-user-static) where one is there. Prints a line for each example, and for each that is skipped with the reason. Ends
# with 1 if anything differs.

if [ $# -ne 1 ] || [ ! -x "$1" ]; then
    echo "usage: $0 RESCUE" >&2
    exit 64
fi
rescue=$(cd "$(dirname "$1")" && pwd)/$(basename "$1")
cd "$(dirname "$0")" || exit 1
came=$(mktemp -d) || exit 1
trap 'rm -rf "$came"' EXIT
trap 'exit 129' HUP
trap 'exit 130' INT
trap 'exit 143' TERM
differing=0
qemu=$(command -v qemu-riscv64 || command -v qemu-riscv64-static)
if [ -z "$qemu" ]; then
    echo "qemu-riscv64: skipped; it takes qemu-user or qemu-user-static"
fi

# Says so if two files differ.
compare() {
    if ! cmp -s "$1" "$2"; then
        echo "$name, $way: $3 differs"
        differing=1
    fi
}

# Output as it is compared: the answers of `workers` may come in any order.
ordered() {
    if [ "$name" = workers ]; then LC_ALL=C sort "$1"; else cat "$1"; fi
}

# What a report says of rescues without harts, places and steps, in an order of its own.
rescues_of() {
    sed -n -e 's/ hart [0-9]*//' -e 's/ point [0-9a-f]*//' -e 's/ pc [0-9a-f]*//' \
        -e 's/ steps [0-9]*//' -e '/^rescue[s ]/p' -e '/^spent/p' -e '/^end/p' "$1" | LC_ALL=C sort
}

# Compares status and output with what is expected; $1 is the expected output.
compare_run() {
    echo 0 > "$came/success"
    compare "$came/success" "$came/status" status
    ordered "$1" > "$came/expected"
    ordered "$came/output" > "$came/compared"
    compare "$came/expected" "$came/compared" output
}

# Compares the report with what stands beside the example.
compare_report() {
    if [ -f "$name/report" ]; then compare "$name/report" "$came/report" report; fi
    if [ -f "$name/rescues" ]; then
        rescues_of "$came/report" > "$came/rescues"
        compare "$name/rescues" "$came/rescues" rescues
    fi
}

# The example's input of this name, or nothing.
input_of() {
    if [ -f "$name/$1" ]; then echo "$name/$1"; else echo /dev/null; fi
}

# Runs the example of this name under rescue with these words.
check() {
    name=$1 way=$2
    points=
    if [ -f "$name/points.toml" ]; then points="--points $name/points.toml"; fi
    # shellcheck disable=SC2086 # words without spaces
    timeout 120 "$rescue" $way --budget 20000000 $points "$name/$name" < "$(input_of input)" \
        > "$came/output" 2> "$came/report"
    echo $? > "$came/status"
    compare_run "$name/output"
    compare_report
}

# Runs `workers` with these words, its requests and answers over a port.
check_over_port() {
    name=workers way="$1, over a port"
    # shellcheck disable=SC2086 # words without spaces
    timeout 120 "$rescue" $1 --points workers/points.toml workers/workers \
        "workers/input:$came/output" 2> "$came/report"
    echo $? > "$came/status"
    compare_run workers/output
    compare_report
}

# Runs the example of this name on requests that meet no fault: without points, and under qemu.
check_without_faults() {
    name=$1 input=input output=output
    if [ -f "$name/input-good" ]; then input=input-good output=output-good; fi
    way="alone without points"
    timeout 120 "$rescue" alone --budget 20000000 "$name/$name" < "$(input_of $input)" \
        > "$came/output" 2> "$came/report"
    echo $? > "$came/status"
    compare_run "$name/$output"
    if [ -z "$qemu" ]; then return; fi
    way=qemu-riscv64
    timeout 120 "$qemu" "$name/$name" < "$(input_of $input)" > "$came/output"
    echo $? > "$came/status"
    compare_run "$name/$output"
}

# Tries each function on the way to the fault of this guest as its only rescue point: by the command
# itself, and one after the other under alone.
check_tries() {
    name=try/$1 way=try
    echo "try, $1"
    timeout 120 "$rescue" try "try/$1" "try/$1-input" > "$came/tries"
    compare "try/$1-tries" "$came/tries" tries
    way=tries
    sed -n 's/^try [0-9a-f]* //p' "try/$1-tries" > "$came/expected"
    # shellcheck disable=SC2046 # names without spaces
    try/each.sh "$rescue" "try/$1" -1 $(cut -d ' ' -f 1 "$came/expected") < "try/$1-input" \
        > "$came/tries"
    compare "$came/expected" "$came/tries" tries
}

# Makes a guest that isn't kept here; 1 where it can't be had.
make_guest() {
    if ! riscv64-unknown-elf-gcc --specs=picolibc.specs -E - < /dev/null > /dev/null 2>&1; then
        echo "$1: skipped; it takes gcc-riscv64-unknown-elf and picolibc-riscv64-unknown-elf"
    elif grep -q '^source:' "$1/Makefile" && ! make -s -C "$1" source; then
        echo "$1: skipped; its library can't be fetched"
    elif ! make -s -C "$1"; then
        echo "$1: can't be made"
        differing=1
    else
        return 0
    fi
    return 1
}

examples="hello server threads nested workers"
for guest in words json sql xml lua; do
    if make_guest $guest; then examples="$examples $guest"; fi
done
for example in $examples; do
    echo "$example"
    for way in "alone --seed 0" "alone --seed 1" "alone --seed 2" run; do
        check "$example" "$way"
    done
    check_without_faults "$example"
done
echo "workers, over a port"
check_over_port alone
check_over_port run
check_tries payments
if make_guest try; then check_tries scores; fi
# A saved history, and what an audit finds in one that was changed.
if ! ./audit.sh "$rescue"; then differing=1; fi
if [ $differing -eq 0 ]; then echo "as expected: $examples"; fi
exit $differing
