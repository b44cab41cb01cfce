#!/usr/bin/env bash
# Times `solo` of the proved program on two machines without end: `loop.toml` is the loop of flat.sh, beside `flat` on it, and
# `probe.toml` has a probe whose register is stored to and loaded without end. Prints the rates of the loop in millions of
# events a second, and those of the probe in thousands of accesses a second: of `solo`, of `solo` with a journal, and of the
# replay of that journal, which is the in-process monitor.
#
# The probe's machine has 4,000,000 events, of which half are accesses. A hart waits for the value of a load until the device
# has its turn, so a round has one store, one load and a tick: six entries for two accesses. The programs run in turn.
#
# Use: bench/solo.sh [RUNS], where RUNS (10) runs are made of each, and the least time is told.
cd "$(dirname "$0")/.." || exit 2
runs="${1:-10}"
program=crates/tv/out/tv
events=33000000
accesses=2000000

./tv flat guests/hello/hello.bin >/dev/null || exit 1
folder="$(mktemp -d)" || exit 1
trap 'rm -rf "$folder"' EXIT

# Keeps in the variable named first the microseconds of one run where they are the least. The run must end with the status
# given second.
least() {
    local -n best="$1"
    local wanted="$2"
    shift 2
    local start="${EPOCHREALTIME/./}"
    "$@" >"$folder/out" 2>/dev/null
    local status=$?
    local end="${EPOCHREALTIME/./}"
    if [ "$status" -ne "$wanted" ]; then
        echo "bench: $* ended with status $status" >&2
        exit 1
    fi
    if [ "$best" -eq 0 ] || [ $((end - start)) -lt "$best" ]; then
        best=$((end - start))
    fi
}

flat=0 loop=0 probe=0 kept=0 replayed=0
for _ in $(seq "$runs"); do
    least flat 6 "$program" flat bench/loop.bin --steps "$events"
    least loop 6 "$program" solo bench/loop.toml
    least probe 6 "$program" solo bench/probe.toml
    least kept 6 "$program" solo bench/probe.toml --journal "$folder/probe.tvj"
    least replayed 0 "$program" replay bench/probe.toml "$folder/probe.tvj"
done
if ! grep -q '^legal: .*, status 6$' "$folder/out"; then
    echo "bench: the replay said $(cat "$folder/out")" >&2
    exit 1
fi

# A line of a rate: its name, how many in all, the microseconds, and by how much the rate is divided.
rate() {
    awk -v name="$1" -v many="$2" -v micros="$3" -v unit="$4" 'BEGIN { printf "  %-28s %7.1f\n", name, many / micros * 1e6 / unit }'
}

echo "bench/loop.bin: the least of $runs runs of $events events, in millions of events a second"
rate "flat" "$events" "$flat" 1000000
rate "solo" "$events" "$loop" 1000000
echo "bench/probe.bin: the least of $runs runs of $accesses accesses, in thousands of accesses a second"
rate "solo" "$accesses" "$probe" 1000
rate "solo --journal" "$accesses" "$kept" 1000
rate "replay" "$accesses" "$replayed" 1000
