#!/usr/bin/env bash
# Times the block device and the console over a port in memory, in bytes a second: a driver makes one chain of 1 MiB available,
# notifies, and the device serves it. The block device reads 2048 sectors from a disk in memory, and writes as many; the console
# puts the bytes out. Beside them stand the least of so many plain copies of 1 MiB from one place of memory to another.
#
# The program that is timed is below. It is proved and built in a folder of its own, over copies of the crates that it stands
# on, which takes some minutes where nothing of it was proved on this machine before.
#
# Use: bench/devices.sh [RUNS], where RUNS (20) runs are made, each of 50 chains of each kind.
cd "$(dirname "$0")/.." || exit 2
runs="${1:-20}"
folder="$(mktemp -d)" || exit 1
trap 'rm -rf "$folder"' EXIT

below="tv_base tv_items tv_script tv_virtio tv_transport tv_plan tv_port tv_driver tv_regs tv_vring tv_serving tv_blk tv_console"
for crate in $below; do
    mkdir -p "$folder/crates/$crate"
    for part in src specs proofs; do
        [ ! -d "crates/$crate/$part" ] || cp -r "crates/$crate/$part" "$folder/crates/$crate/" || exit 1
    done
    grep "^$crate:" crates.txt >>"$folder/crates.txt" || exit 1
done
cp HANDLES "$folder/" || exit 1
echo "device_rate: tv_base tv_items tv_port tv_driver tv_blk tv_console anyhow" >>"$folder/crates.txt"
mkdir -p "$folder/crates/device_rate/src"
cat >"$folder/crates/device_rate/src/main.rt" <<'END'
//! How long chains of 1 MiB take through the block device and the console over a port in memory, in nanoseconds each.
#![tactic(auto)]

ghost use Rattle.std.specs.Prelude.{◌≡◌, ◌≤◌, ◌+◌, IfSome, length};
ghost use Rattle.tv_items.specs.Fits.{BytesOrRefused, FitsAction, IsAction};
ghost use Rattle.tv_base.specs.declared.limits.TheConstants.{PIECE_BYTES};

use anyhow::{Result, bail};
use std::time::Instant;
use tv_base::DevNo;
use tv_blk::Block;
use tv_console::Console;
use tv_driver::{AVAILABLE, DESCRIPTORS, DRIVER_OK, NEXT, NOTIFY, RING_BYTES, STATUS, WRITE, set_up, store};
use tv_port::{Action, Bytes, Device, Ended, Heard, Port, Verdict};

const CHAINS: u16 = 50;
const MEMORY: usize = 0x30_0000;
const BUFFERS: u64 = 0x10_0000;
const MIB: u32 = 0x10_0000;
const SECTORS: u32 = 0x800;

/// Guest memory, and a disk of which each sector has the same bytes.
#[derive(Drop)]
struct Guest {
    bytes: Vec<u8>,
    sector: [u8; 512],
    left: u64,
    stopped: Option<Action>,
}

impl Port for Guest {
    ghost use Rattle.std.specs.Prelude.{◌≡◌};

    ghost moved = { λ p xs q. Unit {0} };

    ghost left = { λ p. p.left };

    ghost over = { λ p. p.left ≡ 0 };

    ghost stopped = { λ p. p.stopped };

    ghost awaits = { λ p xs w. Unit {0} };

    fn ask(&mut self, action: &Action) -> std::result::Result<Heard, Ended> {
        if self.left == 0 {
            self.stopped = Some(action.copy());
            return Err(Ended);
        }
        self.left -= 1;
        Ok(self.answer(action))
    }

    fn tell(&mut self, _verdict: &Verdict) {}

    ghost stays = { λ p. tt };

    ghost joins = { λ p q r xs ys d e. tt };

    ghost goes_on = { λ p q xs ys w d a. tt };
}

impl Guest {
    fn answer(&mut self, action: &Action) -> Heard
        requires { IsAction action.now }
        ensures fits { FitsAction action.now result }
        ensures left { self.new.left ≡ self.old.left }
    {
        match action {
            Action::Read { addr, len } => self.read(*addr, *len),
            Action::Write { addr, bytes } => {
                if self.store(*addr, bytes.as_slice()) {
                    Heard::Done
                } else {
                    Heard::Refused
                }
            }
            Action::DiskRead { .. } => Heard::Bytes(Bytes::of(&self.sector)),
            Action::DiskWrite { bytes, .. } => {
                self.sector.copy_from_slice(bytes.as_slice());
                Heard::Done
            }
            Action::Raise | Action::Put { .. } | Action::Flush => Heard::Done,
            Action::Release { .. } | Action::Regain { .. } => Heard::Refused,
            Action::SetLen { .. } | Action::Input { .. } | Action::Random { .. } => Heard::Failed,
        }
    }

    fn read(&self, addr: u64, len: u16) -> Heard
        requires { len ≤ PIECE_BYTES }
        ensures { BytesOrRefused len result }
    {
        let len = usize::from(len);
        let bytes = self.bytes.as_slice();
        match place(bytes, addr, len) {
            Some(at) => Heard::Bytes(Bytes::of(&bytes[at..at + len])),
            None => Heard::Refused,
        }
    }

    fn store(&mut self, addr: u64, bytes: &[u8]) -> bool
        ensures { self.new.left ≡ self.old.left }
    {
        match place(self.bytes.as_slice(), addr, bytes.len()) {
            Some(at) => {
                self.bytes[at..at + bytes.len()].copy_from_slice(bytes);
                true
            }
            None => false,
        }
    }

    fn describe(&mut self, queue: u8, number: u16, addr: u64, len: u32, flags: u16) {
        let at = DESCRIPTORS + RING_BYTES * u64::from(queue) + 16 * u64::from(number);
        let _ = self.store(at, &addr.to_le_bytes());
        let _ = self.store(at + 8, &len.to_le_bytes());
        let _ = self.store(at + 12, &flags.to_le_bytes());
        let _ = self.store(at + 14, &number.wrapping_add(1).to_le_bytes());
    }
}

/// Where so many bytes from an address on lie, where all of them are there.
fn place(bytes: &[u8], addr: u64, len: usize) -> Option<usize>
    ensures { IfSome result (λ at. at + len ≤ length bytes.now) }
{
    let there = bytes.len();
    if addr <= there as u64 && len <= there - addr as usize {
        Some(addr as usize)
    } else {
        None
    }
}

/// Makes the chain of a queue available, notifies and serves, [`CHAINS`] times.
#[inline(never)]
fn chains<D: Device>(device: &mut D, guest: &mut Guest, queue: u8) {
    store(device, STATUS, DRIVER_OK);
    for index in 0..CHAINS {
        let at = AVAILABLE + RING_BYTES * u64::from(queue) + 2;
        let _ = guest.store(at, &index.wrapping_add(1).to_le_bytes());
        store(device, NOTIFY, u64::from(queue));
        let _served = device.serve(guest);
    }
}

#[inline(never)]
fn copies(from: &[u8], to: &mut [u8])
    requires { length from.now ≡ length to.old }
{
    for _ in 0..CHAINS {
        to.copy_from_slice(from);
    }
}

fn new_guest(rt: &impl AllocGlobal) -> Result<Guest> {
    let mut bytes = Vec::new(rt.alloc());
    if bytes.resize(MEMORY, 0).is_err() {
        bail!("out of memory");
    }
    Ok(Guest {
        bytes,
        sector: [0x5a; 512],
        left: 1_000_000_000,
        stopped: None,
    })
}

/// The time of a chain through the block device, with a request of this type and its buffer of this flag.
fn block_time(rt: &HostRuntime, kind: u8, flag: u16) -> Result<u128> {
    let Some(slot) = DevNo::new(0) else {
        bail!("no slot");
    };
    let mut device = match Block::new(slot, SECTORS, false, rt.alloc()) {
        Ok(device) => device,
        Err(_) => bail!("out of memory"),
    };
    let mut guest = new_guest(rt)?;
    let _ = guest.store(BUFFERS, &[kind, 0, 0, 0, 0, 0, 0, 0, 0, 0, 0, 0, 0, 0, 0, 0]);
    guest.describe(0, 0, BUFFERS, 16, NEXT);
    guest.describe(0, 1, BUFFERS + 0x1000, MIB, NEXT | flag);
    guest.describe(0, 2, BUFFERS + 0x800, 1, WRITE);
    set_up(&mut device, 0, 1);
    let start = Instant::now(rt)?;
    chains(&mut device, &mut guest, 0);
    Ok(start.elapsed(rt)?.as_nanos() / u128::from(CHAINS))
}

/// The time of a chain that the console puts out.
fn console_time(rt: &HostRuntime) -> Result<u128> {
    let mut device = match Console::new(rt.alloc()) {
        Ok(device) => device,
        Err(_) => bail!("out of memory"),
    };
    let mut guest = new_guest(rt)?;
    guest.describe(1, 0, BUFFERS, MIB, 0);
    set_up(&mut device, 0, 2);
    let start = Instant::now(rt)?;
    chains(&mut device, &mut guest, 1);
    Ok(start.elapsed(rt)?.as_nanos() / u128::from(CHAINS))
}

/// The time of a plain copy of as many bytes.
fn copy_time(rt: &HostRuntime) -> Result<u128> {
    let mut from = Vec::new(rt.alloc());
    let mut to = Vec::new(rt.alloc());
    if from.resize(MIB as usize, 1).is_err() || to.resize(MIB as usize, 0).is_err() {
        bail!("out of memory");
    }
    if from.len() != to.len() {
        bail!("no memory");
    }
    let start = Instant::now(rt)?;
    copies(from.as_slice(), to.as_mut_slice());
    Ok(start.elapsed(rt)?.as_nanos() / u128::from(CHAINS))
}

fn main(rt: HostRuntime) -> Result<()> {
    let read = block_time(&rt, 0, WRITE)?;
    println!(rt; "block read:{read}")?;
    let written = block_time(&rt, 1, 0)?;
    println!(rt; "block write:{written}")?;
    let out = console_time(&rt)?;
    println!(rt; "console out:{out}")?;
    let copied = copy_time(&rt)?;
    println!(rt; "plain copy:{copied}")?;
    Ok(())
}
END

if ! (cd "$folder/crates/device_rate" && rt run) >"$folder/log" 2>&1; then
    echo "bench: the program was not built:" >&2
    tail -n 20 "$folder/log" >&2
    exit 1
fi
for _ in $(seq "$runs"); do
    "$folder/crates/device_rate/out/device_rate" || exit 1
done | awk -F: '
    !($1 in least) { names[++count] = $1; least[$1] = $2 }
    $2 + 0 < least[$1] + 0 { least[$1] = $2 }
    END { for (i = 1; i <= count; i++) printf "  %-12s %9d ns for 1 MiB, %d MiB a second\n", names[i], least[names[i]], 1000000000 / least[names[i]] }
'
