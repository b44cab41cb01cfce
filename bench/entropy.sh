#!/usr/bin/env bash
# Times rounds of the entropy device over a port in memory: a driver makes one chain available, notifies, and the device serves
# it. Each of three chains has 4096 writable bytes: in one descriptor alone, in one after a descriptor of 4096 readable bytes,
# and in 128 after 128 that have as many readable bytes. Beside the least of all runs in nanoseconds stand the reads and the
# writes that one round asks for, and the bytes that go with them.
#
# The program that is timed is below. It is proved and built in a folder of its own, over copies of the crates that it stands
# on, which takes some minutes where nothing of it was proved on this machine before.
#
# Use: bench/entropy.sh [RUNS], where RUNS (100) runs are made, each of 2,000 rounds of each chain.
cd "$(dirname "$0")/.." || exit 2
runs="${1:-100}"
folder="$(mktemp -d)" || exit 1
trap 'rm -rf "$folder"' EXIT

below="tv_base tv_items tv_script tv_virtio tv_transport tv_plan tv_port tv_driver tv_regs tv_vring tv_serving tv_small"
for crate in $below; do
    mkdir -p "$folder/crates/$crate"
    for part in src specs proofs; do
        [ ! -d "crates/$crate/$part" ] || cp -r "crates/$crate/$part" "$folder/crates/$crate/" || exit 1
    done
    grep "^$crate:" crates.txt >>"$folder/crates.txt" || exit 1
done
cp HANDLES "$folder/" || exit 1
echo "entropy_rate: tv_base tv_items tv_port tv_small anyhow" >>"$folder/crates.txt"
mkdir -p "$folder/crates/entropy_rate/src"
cat >"$folder/crates/entropy_rate/src/main.rt" <<'END'
//! How long rounds of the entropy device take over a port in memory, in nanoseconds each, and what they ask for.
#![tactic(auto)]

ghost use Rattle.std.specs.Prelude.{◌≡◌, ◌≤◌, ◌+◌, IfSome, length};
ghost use Rattle.tv_base.specs.declared.limits.TheConstants.{PIECE_BYTES};
ghost use Rattle.tv_items.specs.Fits.{FitsAction, IsAction};

use anyhow::{Result, bail};
use std::time::Instant;
use tv_base::{PIECE_BYTES, Width};
use tv_port::{Action, Bytes, Device, Ended, Heard, Item, Port, Verdict};
use tv_small::EntropyDevice;

const ROUNDS: u16 = 2_000;
const MEMORY: usize = 0x8000;
const DESCRIPTORS: u64 = 0x1000;
const AVAILABLE: u64 = 0x3000;
const USED: u64 = 0x4000;
const BUFFERS: u64 = 0x6000;

/// Guest memory, with what was asked of it.
#[derive(Drop)]
struct Guest {
    bytes: [u8; MEMORY],
    reads: u64,
    writes: u64,
    moved: u64,
    left: u64,
    stopped: Option<Action>,
}

impl Port for Guest {
    ghost use Rattle.std.specs.Prelude.{◌≡◌};

    ghost moved = { λ p xs q. Unit {0} };

    ghost left = { λ p. p.left };

    ghost over = { λ p. p.left ≡ 0 };

    ghost stopped = { λ p. p.stopped };

    ghost awaits = { λ p xs w. Unit {0} };

    fn ask(&mut self, action: &Action) -> std::result::Result<Heard, Ended> {
        if self.left == 0 {
            self.stopped = Some(action.copy());
            return Err(Ended);
        }
        self.left -= 1;
        Ok(self.answer(action))
    }

    fn tell(&mut self, _verdict: &Verdict) {}

    ghost stays = { λ p. tt };

    ghost joins = { λ p q r xs ys d e. tt };

    ghost goes_on = { λ p q xs ys w d a. tt };
}

impl Guest {
    fn answer(&mut self, action: &Action) -> Heard
        requires { IsAction action.now }
        ensures fits { FitsAction action.now result }
        ensures left { self.new.left ≡ self.old.left }
    {
        match action {
            Action::Read { addr, len } => {
                self.reads = self.reads.wrapping_add(1);
                self.moved = self.moved.wrapping_add(u64::from(*len));
                let len = usize::from(*len);
                match place(*addr, len) {
                    Some(at) => Heard::Bytes(Bytes::of(&self.bytes[at..at + len])),
                    None => Heard::Refused,
                }
            }
            Action::Write { addr, bytes } => {
                let bytes = bytes.as_slice();
                self.writes = self.writes.wrapping_add(1);
                self.moved = self.moved.wrapping_add(bytes.len() as u64);
                if self.store(*addr, bytes) {
                    Heard::Done
                } else {
                    Heard::Refused
                }
            }
            Action::Random { len } => Heard::Bytes(random_bytes(*len)),
            Action::Raise | Action::Put { .. } => Heard::Done,
            Action::Release { .. } | Action::Regain { .. } => Heard::Refused,
            Action::DiskRead { .. }
            | Action::DiskWrite { .. }
            | Action::Flush
            | Action::SetLen { .. }
            | Action::Input { .. } => Heard::Failed,
        }
    }

    fn store(&mut self, addr: u64, bytes: &[u8]) -> bool
        ensures { self.new.left ≡ self.old.left }
    {
        match place(addr, bytes.len()) {
            Some(at) => {
                self.bytes[at..at + bytes.len()].copy_from_slice(bytes);
                true
            }
            None => false,
        }
    }
}

fn random_bytes(len: u16) -> Bytes
    requires { len ≤ PIECE_BYTES }
    ensures { length result ≡ len }
{
    Bytes::of(&[0x5a; PIECE_BYTES][..usize::from(len)])
}

fn place(addr: u64, len: usize) -> Option<usize>
    ensures { IfSome result (λ at. at + len ≤ MEMORY) }
{
    if addr <= MEMORY as u64 && len <= MEMORY - addr as usize {
        Some(addr as usize)
    } else {
        None
    }
}

fn store(device: &mut EntropyDevice, off: u16, value: u64) {
    let width = Width::B4;
    let _acted = device.act(0, &Item::Store { width, off, value });
}

/// A queue of 256 descriptors, and a driver that is ready.
fn set_up(device: &mut EntropyDevice) {
    for (off, value) in [
        (0x70, 0),
        (0x24, 1),
        (0x20, 1),
        (0x70, 8),
        (0x38, 256),
        (0x80, DESCRIPTORS),
        (0x90, AVAILABLE),
        (0xa0, USED),
        (0x44, 1),
        (0x70, 4),
    ] {
        store(device, off, value);
    }
}

/// A chain of `readable` and then `writable` descriptors with `len` bytes each.
fn lay(guest: &mut Guest, readable: u8, writable: u8, len: u16) {
    let count = u16::from(readable) + u16::from(writable);
    let mut addr = BUFFERS;
    for n in 0..count {
        let at = DESCRIPTORS + 16 * u64::from(n);
        let goes_on = u8::from(n + 1 < count);
        let flags = if n < u16::from(readable) {
            goes_on
        } else {
            2 | goes_on
        };
        let _ = guest.store(at, &addr.to_le_bytes());
        let _ = guest.store(at + 8, &u32::from(len).to_le_bytes());
        let _ = guest.store(at + 12, &[flags, 0]);
        let _ = guest.store(at + 14, &(n + 1).to_le_bytes());
        addr = addr.wrapping_add(u64::from(len));
    }
}

/// Makes a chain available, notifies and serves, [`ROUNDS`] times.
#[inline(never)]
fn rounds(device: &mut EntropyDevice, guest: &mut Guest) {
    for index in 0..ROUNDS {
        let _ = guest.store(AVAILABLE + 2, &index.wrapping_add(1).to_le_bytes());
        store(device, 0x50, 0);
        let _served = device.serve(guest);
    }
}

fn main(rt: HostRuntime) -> Result<()> {
    for (readable, writable, len) in [(0u8, 1u8, 4096u16), (1, 1, 4096), (128, 128, 32)] {
        let mut device = match EntropyDevice::new(rt.alloc()) {
            Ok(device) => device,
            Err(_) => bail!("out of memory"),
        };
        let mut guest = Guest {
            bytes: [0; MEMORY],
            reads: 0,
            writes: 0,
            moved: 0,
            left: 1_000_000_000,
            stopped: None,
        };
        set_up(&mut device);
        lay(&mut guest, readable, writable, len);
        let start = Instant::now(&rt)?;
        rounds(&mut device, &mut guest);
        let took = start.elapsed(&rt)?.as_nanos() / u128::from(ROUNDS);
        let reads = guest.reads / u64::from(ROUNDS);
        let writes = guest.writes / u64::from(ROUNDS);
        let moved = guest.moved / u64::from(ROUNDS);
        println!(rt; "{readable} readable, {writable} writable:{took}:{reads}:{writes}:{moved}")?;
    }
    Ok(())
}
END

if ! (cd "$folder/crates/entropy_rate" && rt run) >"$folder/log" 2>&1; then
    echo "bench: the program was not built:" >&2
    tail -n 20 "$folder/log" >&2
    exit 1
fi
for _ in $(seq "$runs"); do
    "$folder/crates/entropy_rate/out/entropy_rate" || exit 1
done | awk -F: '
    !($1 in least) { names[++count] = $1; least[$1] = $2; asked[$1] = $3 " reads, " $4 " writes, " $5 " bytes" }
    $2 + 0 < least[$1] + 0 { least[$1] = $2 }
    END { for (i = 1; i <= count; i++) printf "  %-27s %7d ns a round, %d rounds a second; %s\n", names[i], least[names[i]], 1000000000 / least[names[i]], asked[names[i]] }
'
