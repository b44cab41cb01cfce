#!/usr/bin/env bash
# Times messages on their way through a tube: a push and a pop of messages of several sizes beside two plain copies of as
# many bytes, and a load with its value, each written, pushed, popped and read. Prints the least of all runs, in nanoseconds.
#
# The program that is timed is below. It is proved and built in a folder of its own, over copies of the crates that it stands
# on, which takes some minutes where nothing of it was proved on this machine before.
#
# Use: bench/tube.sh [RUNS], where RUNS (200) runs are made, each of 20,000 rounds.
cd "$(dirname "$0")/.." || exit 2
runs="${1:-200}"
folder="$(mktemp -d)" || exit 1
trap 'rm -rf "$folder"' EXIT

below="tv_base tv_items tv_tube tv_wire"
for crate in $below; do
    mkdir -p "$folder/crates/$crate"
    for part in src specs proofs; do
        [ ! -d "crates/$crate/$part" ] || cp -r "crates/$crate/$part" "$folder/crates/$crate/" || exit 1
    done
    grep "^$crate:" crates.txt >>"$folder/crates.txt" || exit 1
done
cp HANDLES "$folder/" || exit 1
echo "tube_rate: tv_base tv_tube tv_wire anyhow" >>"$folder/crates.txt"
mkdir -p "$folder/crates/tube_rate/src"
cat >"$folder/crates/tube_rate/src/main.rt" <<'END'
//! How long messages take through a tube, in nanoseconds each.
#![tactic(auto)]

ghost use Rattle.std.specs.Prelude.{◌≡◌, ◌≤◌, length};
ghost use Rattle.tv_tube.specs.declared.TheConstants.{PLACE_BYTES};

use anyhow::{Result, bail};
use std::time::Instant;
use tv_base::{TUBE_MESSAGE_BYTES, Width};
use tv_tube::{PLACE_BYTES, PLACES, Tube};
use tv_wire::{Msg, decode, encode};

const ROUNDS: u32 = 20_000;

fn main(rt: HostRuntime) -> Result<()> {
    let mut tube = match Tube::new(rt.alloc(), PLACES) {
        Ok(tube) => tube,
        Err(_) => bail!("out of memory"),
    };
    let mut place = [0; PLACE_BYTES];
    for size in [10, 18, 512, TUBE_MESSAGE_BYTES] {
        let start = Instant::now(&rt)?;
        let sum = through(&mut tube, size);
        let took = start.elapsed(&rt)?.as_nanos() / u128::from(ROUNDS);
        println!(rt; "push and pop, {size} bytes:{took}:{sum}")?;
        let start = Instant::now(&rt)?;
        let sum = copied(&mut place, size);
        let took = start.elapsed(&rt)?.as_nanos() / u128::from(ROUNDS);
        println!(rt; "two plain copies, {size} bytes:{took}:{sum}")?;
    }
    let start = Instant::now(&rt)?;
    let sum = accesses(&mut tube);
    let took = start.elapsed(&rt)?.as_nanos() / u128::from(ROUNDS);
    println!(rt; "a load and its value:{took}:{sum}")?;
    Ok(())
}

/// Pushes a message of so many bytes and pops it, [`ROUNDS`] times; the sum of a byte of each.
#[inline(never)]
fn through(tube: &mut Tube, size: usize) -> u64
    requires { size ≤ PLACE_BYTES }
{
    let mut message = [0; PLACE_BYTES];
    let mut out = [0; PLACE_BYTES];
    let mut sum = 0u64;
    for round in 0..ROUNDS {
        message[0] = (round % 251) as u8;
        tube.push(&message[..size]);
        tube.pop(&mut out);
        sum = sum.wrapping_add(u64::from(out[0]));
    }
    sum
}

/// Copies a message of so many bytes to a place and from there, [`ROUNDS`] times; the sum of a byte of each.
#[inline(never)]
fn copied(place: &mut [u8; PLACE_BYTES], size: usize) -> u64
    requires { size ≤ PLACE_BYTES }
{
    let mut message = [0; PLACE_BYTES];
    let mut out = [0; PLACE_BYTES];
    let mut sum = 0u64;
    for round in 0..ROUNDS {
        message[0] = (round % 251) as u8;
        place[..size].copy_from_slice(&message[..size]);
        out[..size].copy_from_slice(&place[..size]);
        sum = sum.wrapping_add(u64::from(out[0]));
    }
    sum
}

/// A load that is written, pushed, popped and read, and then its value, [`ROUNDS`] times; the sum of their tags.
#[inline(never)]
fn accesses(tube: &mut Tube) -> u64 {
    let mut bytes = [0; PLACE_BYTES];
    let mut sum = 0u64;
    for tag in 0..ROUNDS {
        let load = Msg::Load {
            tag,
            width: Width::B4,
            off: 0x70,
        };
        let value = Msg::Value { tag, value: 7 };
        sum = sum.wrapping_add(u64::from(passed(tube, &mut bytes, &load)));
        sum = sum.wrapping_add(u64::from(passed(tube, &mut bytes, &value)));
    }
    sum
}

/// The tag of a message that was written, pushed, popped and read.
#[inline(never)]
fn passed(tube: &mut Tube, bytes: &mut [u8; PLACE_BYTES], msg: &Msg) -> u32 {
    let size = encode(msg, bytes);
    tube.push(&bytes[..size]);
    let popped = match tube.pop(bytes) {
        Some(size) => decode(&bytes[..size]),
        None => None,
    };
    match popped {
        Some(Msg::Load { tag, .. }) | Some(Msg::Value { tag, .. }) => tag,
        _ => 0,
    }
}
END

if ! (cd "$folder/crates/tube_rate" && rt run) >"$folder/log" 2>&1; then
    echo "bench: the program was not built:" >&2
    tail -n 20 "$folder/log" >&2
    exit 1
fi
for _ in $(seq "$runs"); do
    "$folder/crates/tube_rate/out/tube_rate" || exit 1
done | awk -F: '
    !($1 in least) { names[++count] = $1; least[$1] = $2 }
    $2 + 0 < least[$1] + 0 { least[$1] = $2 }
    END { for (i = 1; i <= count; i++) printf "  %-34s %6d ns\n", names[i], least[names[i]] }
'
