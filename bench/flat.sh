#!/usr/bin/env bash
# Times the proved program on two images without end, against the yardstick, a plain interpreter in Rust that has the same
# duties in each event and keeps no journal. Prints for each image rates in millions of events a second and their ratios,
# and the peak of resident memory.
#
# `loop` is eleven instructions: loads, stores, sums and a branch. `mixed` sorts, hashes, counts in a table, multiplies
# matrices and calls itself; its C source says how it is built.
#
# The long runs have 33,000,000 events, whose records fill a journal nearly, so the start of a process hardly counts. The
# short runs have 1,000,000 events, the limit of a replay, and there the start counts: in `flat` and in `replay` alike. A
# `flat` with a journal writes its file, a `replay` reads it and checks every entry. The programs run in turn.
#
# Use: bench/flat.sh [RUNS], where RUNS (100) short runs are made of each image and program, and a tenth of it long ones.
# Memory is measured by GNU time (the package `time`), which shows no less than its own start, about 1,000 KiB; without it
# those lines are left out.
cd "$(dirname "$0")/.." || exit 2
runs="${1:-100}"
long_runs=$(((runs + 9) / 10))
long=33000000
short=1000000
program=crates/tv/out/tv
yardstick=bench/yardstick/target/release/yardstick

./tv flat guests/hello/hello.bin >/dev/null || exit 1
(cd bench/yardstick && cargo build --release --quiet) || exit 1
folder="$(mktemp -d)" || exit 1
trap 'rm -rf "$folder"' EXIT

# Adds the microseconds of one run to the variable named first. The run must end with the status given second.
add() {
    local -n sum="$1"
    local wanted="$2"
    shift 2
    local start="${EPOCHREALTIME/./}"
    "$@" >"$folder/out" 2>/dev/null
    local status=$?
    local end="${EPOCHREALTIME/./}"
    if [ "$status" -ne "$wanted" ]; then
        echo "bench: $* ended with status $status" >&2
        exit 1
    fi
    sum=$((sum + end - start))
}

# A line of a rate: its name, events of a run, runs, microseconds of all.
rate() {
    awk -v name="$1" -v events="$2" -v runs="$3" -v micros="$4" \
        'BEGIN { printf "  %-28s %7.1f\n", name, runs * events / micros }'
}

# A line of a ratio of rates: its name, the microseconds of the one that it is the rate of, those of the one compared with.
ratio() {
    awk -v name="$1" -v mine="$2" -v other="$3" 'BEGIN { printf "  %-28s %8.2f\n", name, other / mine }'
}

# The rates and ratios of one image.
measure() {
    local image="$1"
    local plain=0 flat=0 kept=0 short_plain=0 short_flat=0 short_kept=0 replayed=0
    for _ in $(seq "$long_runs"); do
        add plain 6 "$yardstick" "$image" "$long"
        add flat 6 "$program" flat "$image" --steps "$long"
        add kept 6 "$program" flat "$image" --steps "$long" --journal "$folder/long.tvj"
    done
    for _ in $(seq "$runs"); do
        add short_plain 6 "$yardstick" "$image" "$short"
        add short_flat 6 "$program" flat "$image"
        add short_kept 6 "$program" flat "$image" --journal "$folder/short.tvj"
        add replayed 0 "$program" replay --flat "$image" "$folder/short.tvj"
    done
    if [ "$(cat "$folder/out")" != "legal: 31249 records, 1015624 events, status 6" ]; then
        echo "bench: the replay said $(cat "$folder/out")" >&2
        exit 1
    fi
    echo "$image: $long_runs runs of $long events, in millions of events a second"
    rate "yardstick" "$long" "$long_runs" "$plain"
    rate "flat" "$long" "$long_runs" "$flat"
    rate "flat --journal" "$long" "$long_runs" "$kept"
    ratio "flat to yardstick" "$flat" "$plain"
    ratio "flat --journal to yardstick" "$kept" "$plain"
    echo "$image: $runs runs of $short events"
    rate "yardstick" "$short" "$runs" "$short_plain"
    rate "flat" "$short" "$runs" "$short_flat"
    rate "flat --journal" "$short" "$runs" "$short_kept"
    rate "replay" "$short" "$runs" "$replayed"
    ratio "flat to yardstick" "$short_flat" "$short_plain"
    ratio "flat --journal to yardstick" "$short_kept" "$short_plain"
    ratio "replay to flat --journal" "$replayed" "$short_kept"
}

measure bench/mixed.bin
measure bench/loop.bin

if [ ! -x /usr/bin/time ]; then
    exit 0
fi

# A line of the peak of resident memory: its name, and the command.
peak() {
    local name="$1"
    shift
    /usr/bin/time -f %M -o "$folder/peak" "$@" >/dev/null 2>&1
    printf '  %-28s %7s\n' "$name" "$(tail -n 1 "$folder/peak")"
}

image=bench/loop.bin
echo "peak of resident memory in KiB"
peak "yardstick, $short events" "$yardstick" "$image" "$short"
for steps in 1 "$short" "$long"; do
    peak "flat --journal, $steps" "$program" flat "$image" --steps "$steps" --journal "$folder/peak.tvj"
done
"$program" flat "$image" --steps 64 --journal "$folder/small.tvj" 2>/dev/null
peak "replay, 64 events" "$program" replay --flat "$image" "$folder/small.tvj"
peak "replay, $short events" "$program" replay --flat "$image" "$folder/short.tvj"
