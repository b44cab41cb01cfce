//! A plain interpreter of the same machine in the same shape as `tv flat`: it loads an image, runs it for as many events as
//! a second word says (1,000,000 without it) in rounds of 64, puts its debug bytes after each round and ends with the same
//! statuses. It keeps no journal. It is the yardstick of speed, so it has the duties that `tv` has in each event, and no
//! more: it asks for a pending interrupt over the hart's lines, counts the event and the retired instruction, and asks at
//! each store whether a hart has a reservation.

use std::hint::black_box;
use std::io::Write;
use std::ops::ControlFlow::{self, Break, Continue};
use std::process::ExitCode;

const RAM_BASE: u64 = 0x8000_0000;
const RAM_BYTES: usize = 0x10_0000;
const FINISHER: u64 = 0x0010_0000;
const DEBUG: u64 = 0x1000_0000;
const STEPS: u32 = 1_000_000;
const ROUND: u32 = 64;
const HARTS: usize = 8;

const MIE: u64 = 1 << 3;
const MPIE: u64 = 1 << 7;
const MPP: u64 = 0x1800;
const MISA: u64 = 0x8000_0000_0000_1101;
const INTERRUPTS: u64 = 0x888;
const IS_INTERRUPT: u64 = 1 << 63;
const MCYCLE: u32 = 0xb00;
const MINSTRET: u32 = 0xb02;

/// What an event showed outside.
enum Event {
    Quiet,
    Byte(u8),
    End(u8),
}

/// How an event goes on: towards its end with a value, or no further, as it is over and showed this.
type Flow<T> = ControlFlow<Event, T>;

#[derive(Default)]
struct Csrs {
    mstatus: u64,
    mie: u64,
    mtvec: u64,
    mscratch: u64,
    mepc: u64,
    mcause: u64,
    mtval: u64,
    mcycle: u64,
    minstret: u64,
}

impl Csrs {
    fn read(&self, csr: u32, hart: usize, lines: u64) -> Option<u64> {
        Some(match csr {
            0x300 => self.mstatus | MPP,
            0x301 => MISA,
            0x304 => self.mie,
            0x305 => self.mtvec,
            0x340 => self.mscratch,
            0x341 => self.mepc,
            0x342 => self.mcause,
            0x343 => self.mtval,
            0x344 => lines & INTERRUPTS,
            MCYCLE => self.mcycle,
            MINSTRET => self.minstret,
            0xf11..=0xf13 => 0,
            0xf14 => hart as u64,
            _ => return None,
        })
    }

    fn write(&mut self, csr: u32, value: u64) -> Option<()> {
        match csr {
            0x300 => self.mstatus = value & (MIE | MPIE),
            0x301 | 0x344 => {}
            0x304 => self.mie = value & INTERRUPTS,
            0x305 => self.mtvec = value & !3,
            0x340 => self.mscratch = value,
            0x341 => self.mepc = value & !3,
            0x342 => self.mcause = value,
            0x343 => self.mtval = value,
            MCYCLE => self.mcycle = value,
            MINSTRET => self.minstret = value,
            _ => return None,
        }
        Some(())
    }

    /// The number of the interrupt to take, if any, of those that are up and enabled in mie.
    #[cold]
    fn pending(&self, up: u64) -> Option<u64> {
        if self.mstatus & MIE == 0 {
            return None;
        }
        [11, 3, 7].into_iter().find(|bit| up >> bit & 1 == 1)
    }

    /// Returns from a trap and gives the pc to go on at.
    fn leave(&mut self) -> u64 {
        self.mstatus = MPIE | if self.mstatus & MPIE == 0 { 0 } else { MIE };
        self.mepc
    }
}

/// The aligned 8 bytes that each hart has reserved, if any.
#[derive(Default)]
struct Reservations {
    places: [Option<u64>; HARTS],
    some: bool,
}

impl Reservations {
    fn reserve(&mut self, hart: usize, addr: u64) {
        self.places[hart] = Some(addr / 8);
        self.some = true;
    }

    /// Ends a hart's reservation, and tells whether it held the address.
    fn release(&mut self, hart: usize, addr: u64) -> bool {
        let held = self.places[hart].take() == Some(addr / 8);
        self.some = self.places.iter().any(Option::is_some);
        held
    }

    /// A hart wrote bytes, which lie in one aligned group of 8: it ends the reservations of others there.
    fn write(&mut self, hart: usize, addr: u64) {
        if self.some {
            self.release_others(hart, addr);
        }
    }

    #[cold]
    fn release_others(&mut self, hart: usize, addr: u64) {
        for (other, place) in self.places.iter_mut().enumerate() {
            if other != hart && *place == Some(addr / 8) {
                *place = None;
            }
        }
        self.some = self.places.iter().any(Option::is_some);
    }
}

struct Machine {
    hart: usize,
    x: [u64; 32],
    pc: u64,
    csrs: Csrs,
    ram: Box<[u8; RAM_BYTES]>,
    reservations: Reservations,
    lines: [u64; HARTS],
}

/// Bits of a word from `high` down, with their sign.
fn signed(word: u32, high: u32, bits: u32) -> u64 {
    (((word << (31 - high)) as i32) >> (32 - bits)) as i64 as u64
}

/// The number of a register, which stands in a word from a bit up.
fn register(word: u32, low: u32) -> usize {
    (word >> low & 31) as usize
}

/// The low 32 bits with their sign.
fn word(value: u64) -> u64 {
    value as i32 as i64 as u64
}

/// Whether all bytes of an access lie in the finisher.
fn is_finisher(addr: u64, n: usize) -> bool {
    n <= 4 && (FINISHER..=FINISHER + 4 - n as u64).contains(&addr)
}

/// The multiplications and divisions but MUL. Divisions of 32 bits are these, of numbers that were extended.
#[inline(never)]
fn mul_div(f3: u32, a: u64, b: u64) -> u64 {
    let (sa, sb) = (a as i64, b as i64);
    match f3 {
        1 => (i128::from(sa) * i128::from(sb) >> 64) as u64,
        2 => (i128::from(sa) * i128::from(b) >> 64) as u64,
        3 => (u128::from(a) * u128::from(b) >> 64) as u64,
        4 if b == 0 => u64::MAX,
        4 => sa.wrapping_div(sb) as u64,
        5 => a.checked_div(b).unwrap_or(u64::MAX),
        6 if b == 0 => a,
        6 => sa.wrapping_rem(sb) as u64,
        _ => a.checked_rem(b).unwrap_or(a),
    }
}

/// What an atomic operation stores. Numbers of 32 bits come with their sign, which keeps the order of both kinds.
fn amo(f5: u32, old: u64, b: u64) -> Option<u64> {
    Some(match f5 {
        0x00 => old.wrapping_add(b),
        0x01 => b,
        0x04 => old ^ b,
        0x08 => old | b,
        0x0c => old & b,
        0x10 => (old as i64).min(b as i64) as u64,
        0x14 => (old as i64).max(b as i64) as u64,
        0x18 => old.min(b),
        0x1c => old.max(b),
        _ => return None,
    })
}

impl Machine {
    fn new(image: &[u8]) -> Machine {
        let mut ram = Box::new([0; RAM_BYTES]);
        ram[..image.len()].copy_from_slice(image);
        Machine {
            hart: 0,
            x: [0; 32],
            pc: RAM_BASE,
            csrs: Csrs::default(),
            ram,
            reservations: Reservations::default(),
            // The compiler is not to know that no line goes up.
            lines: black_box([0; HARTS]),
        }
    }

    /// Ends an event with a trap.
    #[cold]
    #[inline(never)]
    fn trap(&mut self, cause: u64, value: u64) -> Event {
        let csrs = &mut self.csrs;
        csrs.mepc = self.pc;
        csrs.mcause = cause;
        csrs.mtval = value;
        csrs.mstatus = if csrs.mstatus & MIE == 0 { 0 } else { MPIE };
        csrs.mcycle = csrs.mcycle.wrapping_add(1);
        self.pc = csrs.mtvec;
        Event::Quiet
    }

    /// Ends an event with an instruction that was carried out. A counter that it wrote stays.
    fn finish(&mut self, pc: u64, written: Option<u32>) {
        self.pc = pc;
        if written != Some(MCYCLE) {
            self.csrs.mcycle = self.csrs.mcycle.wrapping_add(1);
        }
        if written != Some(MINSTRET) {
            self.csrs.minstret = self.csrs.minstret.wrapping_add(1);
        }
    }

    /// Bytes of memory, if all are there.
    fn bytes<const N: usize>(&self, addr: u64) -> Option<[u8; N]> {
        let at = usize::try_from(addr.wrapping_sub(RAM_BASE)).ok()?;
        self.ram.get(at..)?.first_chunk().copied()
    }

    /// Changes bytes of memory, if all are there.
    fn set_bytes<const N: usize>(&mut self, addr: u64, bytes: [u8; N]) -> Option<()> {
        let at = usize::try_from(addr.wrapping_sub(RAM_BASE)).ok()?;
        *self.ram.get_mut(at..)?.first_chunk_mut()? = bytes;
        Some(())
    }

    /// Loads `N` bytes, above which the result has zeros.
    #[inline(always)]
    fn load<const N: usize>(&mut self, addr: u64) -> Flow<u64> {
        if addr % N as u64 != 0 {
            return Break(self.trap(4, addr));
        }
        match self.bytes::<N>(addr) {
            Some(bytes) => {
                let mut value = [0; 8];
                value[..N].copy_from_slice(&bytes);
                Continue(u64::from_le_bytes(value))
            }
            None if (addr == DEBUG && N == 1) || is_finisher(addr, N) => Continue(0),
            None => Break(self.trap(5, addr)),
        }
    }

    #[inline(always)]
    fn store<const N: usize>(&mut self, addr: u64, bytes: [u8; N]) -> Flow<()> {
        if addr % N as u64 != 0 {
            return Break(self.trap(6, addr));
        }
        if self.set_bytes(addr, bytes).is_none() {
            return Break(self.store_port(addr, &bytes));
        }
        self.reservations.write(self.hart, addr);
        Continue(())
    }

    /// Ends an event with a store outside memory.
    #[cold]
    #[inline(never)]
    fn store_port(&mut self, addr: u64, bytes: &[u8]) -> Event {
        let event = match *bytes {
            [byte] if addr == DEBUG => Event::Byte(byte),
            [0x55, 0x55, 0, 0] if addr == FINISHER => Event::End(0),
            [0x33, 0x33, _, _] if addr == FINISHER => Event::End(1),
            _ if is_finisher(addr, bytes.len()) => Event::Quiet,
            _ => return self.trap(7, addr),
        };
        self.finish(self.pc.wrapping_add(4), None);
        event
    }

    /// LR, SC and the atomic operations: what rd gets.
    #[inline(never)]
    fn atomic(&mut self, w: u32) -> Flow<u64> {
        let (addr, b) = (self.x[register(w, 15)], self.x[register(w, 20)]);
        let n = match w >> 12 & 7 {
            2 => 4,
            3 => 8,
            _ => return Break(self.trap(2, u64::from(w))),
        };
        let f5 = w >> 27;
        let is_reserve = f5 == 0x02;
        if is_reserve && w >> 20 & 31 != 0 || !is_reserve && f5 != 0x03 && amo(f5, 0, 0).is_none() {
            return Break(self.trap(2, u64::from(w)));
        }
        if addr % n != 0 {
            return Break(self.trap(if is_reserve { 4 } else { 6 }, addr));
        }
        let (old, b) = if n == 4 {
            (self.bytes(addr).map(|bytes| i32::from_le_bytes(bytes) as u64), word(b))
        } else {
            (self.bytes(addr).map(u64::from_le_bytes), b)
        };
        let Some(old) = old else {
            return Break(self.trap(if is_reserve { 5 } else { 7 }, addr));
        };
        let (put, result) = match f5 {
            0x02 => {
                self.reservations.reserve(self.hart, addr);
                return Continue(old);
            }
            0x03 if !self.reservations.release(self.hart, addr) => return Continue(1),
            0x03 => (b, 0),
            _ => (amo(f5, old, b).unwrap_or(old), old),
        };
        if n == 4 {
            self.store(addr, (put as u32).to_le_bytes())?;
        } else {
            self.store(addr, put.to_le_bytes())?;
        }
        Continue(result)
    }

    /// Ends an event with a CSR instruction.
    #[inline(never)]
    fn csr(&mut self, w: u32) -> Event {
        let (rd, f3, rs1, csr) = (register(w, 7), w >> 12 & 7, register(w, 15), w >> 20);
        let operand = if f3 > 4 { rs1 as u64 } else { self.x[rs1] };
        let Some(old) = self.csrs.read(csr, self.hart, self.lines[self.hart]) else {
            return self.trap(2, u64::from(w));
        };
        let value = match f3 & 3 {
            1 => Some(operand),
            2 => (rs1 != 0).then_some(old | operand),
            _ => (rs1 != 0).then_some(old & !operand),
        };
        if let Some(value) = value
            && self.csrs.write(csr, value).is_none()
        {
            return self.trap(2, u64::from(w));
        }
        if rd != 0 {
            self.x[rd] = old;
        }
        self.finish(self.pc.wrapping_add(4), value.map(|_| csr));
        Event::Quiet
    }

    /// The target of a jump, if an instruction may be there.
    fn target(&mut self, addr: u64) -> Flow<u64> {
        if addr % 4 != 0 {
            return Break(self.trap(0, addr));
        }
        Continue(addr)
    }

    fn instruction(&mut self) -> Flow<()> {
        let Some(bytes) = self.bytes(self.pc) else {
            return Break(self.trap(1, self.pc));
        };
        let w = u32::from_le_bytes(bytes);
        let (rd, f3, a) = (register(w, 7), w >> 12 & 7, self.x[register(w, 15)]);
        let next = self.pc.wrapping_add(4);
        let mut pc = next;
        let put = match w & 0x7f {
            0x37 => Some(word(u64::from(w & 0xffff_f000))),
            0x17 => Some(self.pc.wrapping_add(word(u64::from(w & 0xffff_f000)))),
            0x6f => {
                let offset = u64::from(w & 0xff000 | w >> 9 & 0x800 | w >> 20 & 0x7fe);
                pc = self.target(self.pc.wrapping_add(signed(w, 31, 1) << 20 | offset))?;
                Some(next)
            }
            0x67 if f3 == 0 => {
                pc = self.target(a.wrapping_add(signed(w, 31, 12)) & !1)?;
                Some(next)
            }
            0x63 => {
                let b = self.x[register(w, 20)];
                let taken = match f3 {
                    0 => a == b,
                    1 => a != b,
                    4 => (a as i64) < b as i64,
                    5 => a as i64 >= b as i64,
                    6 => a < b,
                    7 => a >= b,
                    _ => return Break(self.trap(2, u64::from(w))),
                };
                if taken {
                    let offset = u64::from(w << 4 & 0x800 | w >> 20 & 0x7e0 | w >> 7 & 0x1e);
                    pc = self.target(self.pc.wrapping_add(signed(w, 31, 1) << 12 | offset))?;
                }
                None
            }
            0x03 => {
                let addr = a.wrapping_add(signed(w, 31, 12));
                Some(match f3 {
                    0 => self.load::<1>(addr)? as i8 as u64,
                    1 => self.load::<2>(addr)? as i16 as u64,
                    2 => self.load::<4>(addr)? as i32 as u64,
                    3 => self.load::<8>(addr)?,
                    4 => self.load::<1>(addr)?,
                    5 => self.load::<2>(addr)?,
                    6 => self.load::<4>(addr)?,
                    _ => return Break(self.trap(2, u64::from(w))),
                })
            }
            0x23 => {
                let addr = a.wrapping_add(signed(w, 31, 7) << 5 | rd as u64);
                let b = self.x[register(w, 20)];
                match f3 {
                    0 => self.store(addr, (b as u8).to_le_bytes())?,
                    1 => self.store(addr, (b as u16).to_le_bytes())?,
                    2 => self.store(addr, (b as u32).to_le_bytes())?,
                    3 => self.store(addr, b.to_le_bytes())?,
                    _ => return Break(self.trap(2, u64::from(w))),
                }
                None
            }
            0x13 => Some(match (f3, w >> 26) {
                (0, _) => a.wrapping_add(signed(w, 31, 12)),
                (2, _) => u64::from((a as i64) < signed(w, 31, 12) as i64),
                (3, _) => u64::from(a < signed(w, 31, 12)),
                (4, _) => a ^ signed(w, 31, 12),
                (6, _) => a | signed(w, 31, 12),
                (7, _) => a & signed(w, 31, 12),
                (1, 0) => a << (w >> 20 & 63),
                (5, 0) => a >> (w >> 20 & 63),
                (5, 0x10) => (a as i64 >> (w >> 20 & 63)) as u64,
                _ => return Break(self.trap(2, u64::from(w))),
            }),
            0x1b => Some(word(match (f3, w >> 25) {
                (0, _) => a.wrapping_add(signed(w, 31, 12)),
                (1, 0) => a << (w >> 20 & 31),
                (5, 0) => u64::from(a as u32 >> (w >> 20 & 31)),
                (5, 0x20) => (a as i32 >> (w >> 20 & 31)) as u64,
                _ => return Break(self.trap(2, u64::from(w))),
            })),
            0x33 => {
                let b = self.x[register(w, 20)];
                Some(match (w >> 25, f3) {
                    (0, 0) => a.wrapping_add(b),
                    (0x20, 0) => a.wrapping_sub(b),
                    (0, 1) => a << (b & 63),
                    (0, 2) => u64::from((a as i64) < b as i64),
                    (0, 3) => u64::from(a < b),
                    (0, 4) => a ^ b,
                    (0, 5) => a >> (b & 63),
                    (0x20, 5) => (a as i64 >> (b & 63)) as u64,
                    (0, 6) => a | b,
                    (0, 7) => a & b,
                    (1, 0) => a.wrapping_mul(b),
                    (1, _) => mul_div(f3, a, b),
                    _ => return Break(self.trap(2, u64::from(w))),
                })
            }
            0x3b => {
                let b = self.x[register(w, 20)];
                Some(word(match (w >> 25, f3) {
                    (0, 0) => a.wrapping_add(b),
                    (0x20, 0) => a.wrapping_sub(b),
                    (0, 1) => a << (b & 31),
                    (0, 5) => u64::from(a as u32 >> (b & 31)),
                    (0x20, 5) => (a as i32 >> (b & 31)) as u64,
                    (1, 0) => a.wrapping_mul(b),
                    (1, 4 | 6) => mul_div(f3, word(a), word(b)),
                    (1, 5 | 7) => mul_div(f3, u64::from(a as u32), u64::from(b as u32)),
                    _ => return Break(self.trap(2, u64::from(w))),
                }))
            }
            0x0f if f3 < 2 => None,
            0x2f => Some(self.atomic(w)?),
            0x73 => match w {
                0x0000_0073 => return Break(self.trap(11, 0)),
                0x0010_0073 => return Break(self.trap(3, 0)),
                0x3020_0073 => {
                    pc = self.csrs.leave();
                    None
                }
                0x1050_0073 => None,
                _ if f3 & 3 != 0 => return Break(self.csr(w)),
                _ => return Break(self.trap(2, u64::from(w))),
            },
            _ => return Break(self.trap(2, u64::from(w))),
        };
        if let Some(value) = put
            && rd != 0
        {
            self.x[rd] = value;
        }
        self.finish(pc, None);
        Continue(())
    }

    /// One event: an interrupt is taken, or the instruction at the pc is carried out or traps.
    fn step(&mut self) -> Flow<()> {
        let up = self.csrs.mie & self.lines[self.hart];
        if up != 0
            && let Some(bit) = self.csrs.pending(up)
        {
            return Break(self.trap(IS_INTERRUPT + bit, 0));
        }
        self.instruction()
    }
}

fn main() -> ExitCode {
    let Some(name) = std::env::args().nth(1) else {
        return ExitCode::from(2);
    };
    let steps = match std::env::args().nth(2).map(|word| word.parse()) {
        None => STEPS,
        Some(Ok(steps)) => steps,
        Some(Err(_)) => return ExitCode::from(2),
    };
    let Ok(image) = std::fs::read(name) else {
        return ExitCode::from(4);
    };
    if image.is_empty() || image.len() > RAM_BYTES {
        return ExitCode::from(8);
    }
    let mut machine = Machine::new(&image);
    let mut out = std::io::stdout();
    let mut left = steps;
    let mut bytes = Vec::with_capacity(ROUND as usize);
    while left > 0 {
        bytes.clear();
        let mut end = None;
        for _ in 0..ROUND.min(left) {
            match machine.step() {
                Continue(()) | Break(Event::Quiet) => {}
                Break(Event::Byte(byte)) => bytes.push(byte),
                Break(Event::End(status)) => {
                    end = Some(status);
                    break;
                }
            }
        }
        left -= ROUND.min(left);
        if !bytes.is_empty() && out.write_all(&bytes).and_then(|()| out.flush()).is_err() {
            return ExitCode::from(5);
        }
        if let Some(status) = end {
            return ExitCode::from(status);
        }
    }
    ExitCode::from(6)
}
