#!/usr/bin/env bash
# Times turns in the lock with seats (enter and leave) beside those in the Mutex of Rust's std, each by one thread and by four
# at the same time. Prints the least of all runs and the one in their middle, in nanoseconds a turn.
#
# The program that is timed is below. It is proved and built in a folder of its own, over copies of the crates that it stands
# on, which takes some minutes where nothing of it was proved on this machine before. The other side needs `rustc`.
#
# Use: bench/seat.sh [RUNS], where RUNS (50) runs are made, each of 4,000,000 turns by one thread and as many by four.
cd "$(dirname "$0")/.." || exit 2
runs="${1:-50}"
folder="$(mktemp -d)" || exit 1
trap 'rm -rf "$folder"' EXIT

for crate in tv_base tv_seat; do
    mkdir -p "$folder/crates/$crate"
    for part in src specs proofs; do
        [ ! -d "crates/$crate/$part" ] || cp -r "crates/$crate/$part" "$folder/crates/$crate/" || exit 1
    done
    grep "^$crate:" crates.txt >>"$folder/crates.txt" || exit 1
done
cp HANDLES "$folder/" || exit 1
echo "seat_rate: tv_base tv_seat anyhow" >>"$folder/crates.txt"
mkdir -p "$folder/crates/seat_rate/src"
cat >"$folder/crates/seat_rate/src/main.rt" <<'END'
//! How long turns in the lock take, in nanoseconds.
#![tactic(auto)]

ghost use Rattle.std.specs.Prelude.{◌≡◌, None, []};

use anyhow::{Result, bail};
use std::sync::Wait;
use std::thread::{Threads, join};
use std::time::Instant;
use tv_seat::{Kept, Seat, SeatLock};

const TURNS: u32 = 4_000_000;

/// A number that counts turns. It has no history, so the lock alone is timed.
#[derive(Drop)]
struct Count {
    turns: u64,
}

impl Kept for Count {
    type Entry = u64;

    ghost history = { λ _. [] };

    ghost tally = { λ _ _. 0 };

    fn entries(&self) -> u64 {
        0
    }
}

fn main(rt: HostRuntime) -> Result<()> {
    let Ok((lock, mut first)) = SeatLock::new(rt.alloc(), Count { turns: 0 }) else {
        bail!("out of memory");
    };
    let seat = lock.split(&mut first);
    let start = Instant::now(&rt)?;
    let last = take_turns(&rt, &lock, seat, TURNS);
    let took = start.elapsed(&rt)?.as_nanos();
    println!(rt; "enter and leave, one thread:{took}:{last}")?;
    let ahead = (lock.split(&mut first), lock.split(&mut first));
    let behind = (lock.split(&mut first), lock.split(&mut first));
    let start = Instant::now(&rt)?;
    let last = by_four(&rt, &lock, ahead, behind);
    let took = start.elapsed(&rt)?.as_nanos();
    println!(rt; "enter and leave, four threads:{took}:{last}")?;
    Ok(())
}

/// Enters, counts and leaves, so many times; the last number that was found.
fn take_turns<R: Wait>(rt: &R, lock: &SeatLock<Count>, mut seat: Seat<Count>, turns: u32) -> u64
    requires lock { seat.lock ≡ lock.now }
    requires out { seat.inside ≡ None }
{
    let mut last = 0;
    for _ in 0..turns {
        let mut guard = lock.enter(rt, &mut seat);
        last = guard.get().turns;
        guard.get_mut().turns = last.wrapping_add(1);
        lock.leave(guard, &mut seat);
    }
    last
}

/// Two threads take a quarter of all turns each.
fn by_two<R: Threads + Wait + Sync>(
    rt: &R,
    lock: &SeatLock<Count>,
    one: Seat<Count>,
    two: Seat<Count>,
) -> u64
    requires lock { (one.lock ≡ lock.now) × (two.lock ≡ lock.now) }
    requires out { (one.inside ≡ None) × (two.inside ≡ None) }
{
    let (a, b) = join(
        rt,
        || -> u64
            requires { (one.lock ≡ lock.now) × (one.inside ≡ None) }
        { take_turns(rt, lock, one, TURNS / 4) },
        || -> u64
            requires { (two.lock ≡ lock.now) × (two.inside ≡ None) }
        { take_turns(rt, lock, two, TURNS / 4) },
    );
    a.max(b)
}

/// Four threads take a quarter of all turns each.
fn by_four<R: Threads + Wait + Sync>(
    rt: &R,
    lock: &SeatLock<Count>,
    ahead: (Seat<Count>, Seat<Count>),
    behind: (Seat<Count>, Seat<Count>),
) -> u64
    requires ahead { (ahead.0.lock ≡ lock.now) × (ahead.1.lock ≡ lock.now) × (ahead.0.inside ≡ None) × (ahead.1.inside ≡ None) }
    requires behind { (behind.0.lock ≡ lock.now) × (behind.1.lock ≡ lock.now) × (behind.0.inside ≡ None) × (behind.1.inside ≡ None) }
{
    let (one, two) = ahead;
    let (three, four) = behind;
    let (a, b) = join(
        rt,
        || -> u64
            requires { (one.lock ≡ lock.now) × (two.lock ≡ lock.now) × (one.inside ≡ None) × (two.inside ≡ None) }
        { by_two(rt, lock, one, two) },
        || -> u64
            requires { (three.lock ≡ lock.now) × (four.lock ≡ lock.now) × (three.inside ≡ None) × (four.inside ≡ None) }
        { by_two(rt, lock, three, four) },
    );
    a.max(b)
}
END
mkdir -p "$folder/crates/seat_rate/proofs/take_turns"
cat >"$folder/crates/seat_rate/proofs/take_turns/Invariants.antt" <<'END'
use Rattle.std.proofs.Common.{◌≡◌, None}
use Rattle.seat_rate.proofs.take_turns.Given as goal

-- the seat is out
abbrev pub invariant-loop : goal.invariant-loop
invariant-loop g l = (l.seat.lock ≡ l.lock) × (l.seat.inside ≡ None)
END
cat >"$folder/mutex.rs" <<'END'
use std::sync::Mutex;
use std::thread;
use std::time::Instant;

const TURNS: u32 = 4_000_000;

fn main() {
    for (name, threads) in [("one thread", 1), ("four threads", 4)] {
        let turns = Mutex::new(0u64);
        let start = Instant::now();
        thread::scope(|scope| {
            for _ in 0..threads {
                scope.spawn(|| {
                    for _ in 0..TURNS / threads {
                        *turns.lock().unwrap() += 1;
                    }
                });
            }
        });
        let took = start.elapsed().as_nanos();
        println!("Mutex of std, {name}:{took}:{}", turns.lock().unwrap());
    }
}
END

rustc -O --edition 2024 -o "$folder/mutex" "$folder/mutex.rs" || exit 1
if ! (cd "$folder/crates/seat_rate" && rt run) >"$folder/log" 2>&1; then
    echo "bench: the program was not built:" >&2
    tail -n 20 "$folder/log" >&2
    exit 1
fi
for _ in $(seq "$runs"); do
    "$folder/crates/seat_rate/out/seat_rate" || exit 1
    "$folder/mutex" || exit 1
done | sort -t: -k1,1 -k2,2n | awk -F: '
    { took[$1, ++runs[$1]] = $2 }
    END {
        for (name in runs) {
            middle = took[name, int((runs[name] + 1) / 2)]
            printf "  %-30s least %7.1f ns, middle %7.1f ns\n", name, took[name, 1] / 4000000, middle / 4000000
        }
    }
' | sort
