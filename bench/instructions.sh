#!/usr/bin/env bash
# Prints instructions and allocations an event, by callgrind (valgrind has to be there).
#
#     bench/instructions.sh [--program FILE] [RECORDING..]
#
# Of each recording the last 100 lines are the events that are measured: what a replay takes with them, less what it takes
# without them, so that loading falls out; the parsing of their lines counts. With no recording these are networks of
# bench/network.py, and then ranges of 16, 64, 256 and more networks, which are set and dropped ten times each. An allocation
# is a call of malloc, calloc or realloc. Hashes are part of the code that asks for them, and so are not counted. The keys of
# hash maps differ from run to run, and instructions with them: run it more than once. Nothing here asserts a number. The
# program is what `./abr build` built, unless FILE is another.
set -euo pipefail
top=$(cd "$(dirname "$0")/.." && pwd)
program=$top/crates/abr/out/abr
if [ "${1-}" = --program ]; then
    program=$2
    shift 2
fi
[ -x "$program" ] || { echo "instructions: $program is not there: run ./abr build" >&2; exit 1; }
room=$(mktemp -d)
trap 'rm -rf "$room"' EXIT

# Prints the instructions and allocations of a replay.
counts() {
    valgrind --tool=callgrind --callgrind-out-file="$room/out" "$program" replay "$1" > "$room/printed" 2> "$room/said" ||
        { tail -n 3 "$room/said" >&2; exit 1; }
    awk '
        /^c?fn=/ { id = $0; sub(/^c?fn=/, "", id); name = id; sub(/\).*/, ")", id); sub(/^\([0-9]+\) ?/, "", name)
                   if (name != "") names[id] = name
                   if (/^cfn=/) called = names[id] }
        /^calls=/ { split(substr($0, 7), parts, " ")
                    if (called ~ /^(malloc|calloc|realloc)$/) allocations += parts[1] }
        /^(totals|summary):/ { total = $2 }
        END { print total, allocations + 0 }' "$room/out"
}

# Prints a row: what the longer recording takes beyond the shorter one, by so many events.
row() {
    local name=$1 shorter=$2 longer=$3 events=$4 before after
    before=$(counts "$shorter")
    after=$(counts "$longer")
    awk -v name="$name" -v n="$events" '
        { printf "%-28s %12.0f %12.1f\n", name, ($3 - $1) / n, ($4 - $2) / n }' <<< "$before $after"
}

changes() {
    head -n -100 "$2" > "$room/shorter"
    row "$1" "$room/shorter" "$2" 100
}

# A recording of version 3 with no changes, and one in which the range comes and goes.
ranges() {
    local name=$1 area=$2 prefix=$3
    { echo "abr 3"; sed -n 2p "$room/network"; echo "compat disabled"; echo "serial 0"; sed 1,2d "$room/network"; } > "$room/shorter"
    { cat "$room/shorter"
      for _ in 1 2 3 4 5 6 7 8 9 10; do echo "range-set $area $prefix advertise"; echo "range-drop $area $prefix"; done
    } > "$room/longer"
    row "$name" "$room/shorter" "$room/longer" 20
}

printf "%-28s %12s %12s\n" "" instructions allocations
for recording in "$@"; do
    changes "$(basename "$recording")" "$recording"
done
[ $# = 0 ] || exit 0
for network in "random 1000" "random 4000" "areas 300" "ring 300" "externals 20000"; do
    # (the words are a shape and a size)
    "$top/bench/network.py" $network > "$room/network"
    changes "$network" "$room/network"
done
for network in "random 300 0.0.0.0 20" "areas 300 0.0.0.1 21"; do
    read -r shape size area first <<< "$network"
    "$top/bench/network.py" "$shape" "$size" > "$room/network"
    changes "$shape $size" "$room/network"
    "$top/bench/network.py" "$shape" "$size" --changes 0 > "$room/network"
    for length in 20 18 16 14; do
        ranges "$shape $size, range /$length" "$area" "$first.0.0.0/$length"
    done
done
