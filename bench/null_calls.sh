#!/usr/bin/env bash
# Measures the time and the peak memory of drills of 10,000 and of 100,000 NULL calls, each drained before the next.
#
#     bench/null_calls.sh [PROGRAM]
#
# PROGRAM is the built program, by default the one that `rt run` leaves in crates/nfsrdma. The fastest of three runs counts. The status
# is 1 if the program fails or a target is missed. This is not part of the gate.
set -euo pipefail
shopt -s inherit_errexit
export LC_ALL=C

top=$(cd "$(dirname "$0")/.." && pwd)
program=${1:-$top/crates/nfsrdma/out/nfsrdma}
runs=3
few=10000
many=100000
time_target=1.5
memory_target=1.2

if [[ ! -x $program ]]; then
    echo "no program at $program: (cd crates/nfsrdma && rt run -- drill) < drills/null.drill builds it" >&2
    exit 1
fi

room=$(mktemp -d)
trap 'rm -rf "$room"' EXIT

# Writes a script of $1 calls.
script() {
    awk -v calls="$1" 'BEGIN {
        print "clients 1 credits 16"
        for (i = 0; i < calls; i++) print "call 1 auto nfs 0 -\ndrain"
    }'
}

# Runs the program on a script, and prints its peak memory in kilobytes. Without GNU time, python3 measures it; then the result is
# at least the few thousand kilobytes of python3 itself.
peak_of() {
    if [[ -x /usr/bin/time ]]; then
        /usr/bin/time -v -o "$room/told" "$program" drill <"$1" >"$room/printed" || return 1
        awk -F': ' '/Maximum resident set size/ { print $2 }' "$room/told"
    else
        python3 -c '
import resource, subprocess, sys
program, script, printed = sys.argv[1:]
with open(script) as given, open(printed, "w") as out:
    subprocess.run([program, "drill"], stdin=given, stdout=out, check=True)
print(resource.getrusage(resource.RUSAGE_CHILDREN).ru_maxrss)
' "$program" "$1" "$room/printed"
    fi
}

# Whether $1 calls were answered, and none changed anything.
is_right() {
    [[ $(grep -c ' place 0 reply ' "$room/printed") == "$1" && $(tail -n 1 "$room/printed") == "journal 0" ]]
}

# Prints the least time in microseconds and the least peak memory in kilobytes of the runs of a drill of $1 calls.
measure() {
    local calls=$1 fastest='' least='' start end spent peak
    script "$calls" >"$room/script"
    for ((run = 0; run < runs; run++)); do
        start=${EPOCHREALTIME/./}
        if ! peak=$(peak_of "$room/script"); then
            echo "the drill of $calls calls failed" >&2
            return 1
        fi
        end=${EPOCHREALTIME/./}
        if ! is_right "$calls"; then
            echo "the drill of $calls calls printed something else than their replies" >&2
            return 1
        fi
        spent=$((end - start))
        if [[ -z $fastest || $spent -lt $fastest ]]; then fastest=$spent; fi
        if [[ -z $least || $peak -lt $least ]]; then least=$peak; fi
    done
    echo "$fastest $least"
}

few_told=$(measure "$few")
many_told=$(measure "$many")
read -r few_time few_memory <<<"$few_told"
read -r many_time many_memory <<<"$many_told"

awk -v few="$few" -v many="$many" -v ft="$few_time" -v mt="$many_time" -v fm="$few_memory" -v mm="$many_memory" \
    -v time_target="$time_target" -v memory_target="$memory_target" '
function row(calls, time, memory) {
    printf "%7d calls: %9.3f microseconds a call, peak %8d kilobytes, %7.3f kilobytes a call\n", calls, time / calls, memory, memory / calls
}
function ratio(what, value, target) {
    printf "%s a call, %d to %d calls: %.3f (target: at most %s)%s\n", what, many, few, value, target, value <= target ? "" : " MISSED"
    return value > target
}
BEGIN {
    row(few, ft, fm)
    row(many, mt, mm)
    missed = ratio("time", (mt / many) / (ft / few), time_target)
    missed += ratio("memory", (mm / many) / (fm / few), memory_target)
    exit missed > 0
}'
