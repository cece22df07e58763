//! Texts: what the Rust's `format` and `Display` give and the lines that it prints, each at the start of a buffer that has room for it. Their edges,
//! and texts drawn at random, for the streams.
use crate::edges::{pattern, EDGES};
use crate::random::Rng;
use crate::session::*;
use rust::machine_state::MachineState;
use std::panic::{self, AssertUnwindSafe};

const FORMATTED: u64 = 32;
const ARGUMENTS: u64 = 33;
const STATE: u64 = 34;
const LINE: u64 = 35;
const SHOWN: u64 = 36;
const REGISTER: u64 = 37;
const NONE: Op = [0; 5];
const CONTROLS: [u64; 5] = [17, 18, 19, 20, 21];
/// RULES 6.9: no text of operands is longer.
const LONGEST: usize = 57;

/// The text of a record; an event's line is what is printed on the way, and is taken by the caller.
fn text(h: &[u64; 16], m: &MachineState) -> String {
    let first: Op = h[6..11].try_into().unwrap();
    match h[0] {
        FORMATTED => argument(first).unwrap().format(size(h[2])),
        // words 4 and 5 are still 0 here: no repeat
        ARGUMENTS => format!("{}", built(h)),
        STATE => format!("{}", m),
        LINE => {
            // a machine of its own: the event is not one of the session's
            let mut m = MachineState::new();
            match h[6] {
                0 => m.set_value(h[10] as i64, &argument(register(0)).unwrap(), size(0)),
                1 => m.set_value(h[10] as i64, &argument(register(h[7] - 1)).unwrap(), size(0)),
                _ => m.mem_write(0xB8000, &[h[10] as u8]),
            }
            String::new()
        }
        SHOWN => format!("{}", argument(first).unwrap()),
        _ => format!("{}", REGS[h[7] as usize - 1]),
    }
}

impl Session {
    /// The buffer is as long as the text, or up to three bytes longer; what fills it, and what stands above its low byte, changes from text to text.
    fn text(&mut self, kind: u64, size: u64, a: u64, first: Op, second: Op) {
        let mut h = [0u64; 16];
        h[..4].copy_from_slice(&[kind, 0, size, a]);
        h[6..11].copy_from_slice(&first);
        h[11..16].copy_from_slice(&second);
        let outcome = panic::catch_unwind(AssertUnwindSafe(|| text(&h, &self.m)));
        let mut line = self.printed.take();
        let mut a = [0u64; 8];
        let mut lent = vec![];
        let mut room = LONGEST;
        match outcome {
            Ok(t) => {
                lent = t.into_bytes();
                if kind == LINE && h[6] != 0 { assert_eq!(line.pop(), Some(b'\n')); }
                lent.append(&mut line);
                room = lent.len();
                a[1] = 1;
                a[2] = room as u64;
            }
            Err(e) => a[0] = refusal(e),
        }
        assert!(line.is_empty());
        h[4] = room as u64 + self.counted % 4;
        h[5] = Rng(self.counted).next() >> 8 * (self.counted % 8);
        lent.resize(h[4] as usize, h[5] as u8);
        self.put(&h, &[], a, &lent);
        self.counted += 1;
    }
    fn formatted(&mut self, op: Op, size: u64) { self.text(FORMATTED, size, 0, op, NONE) }
    fn shown(&mut self, op: Op) { self.text(SHOWN, 0, 0, op, NONE) }
    fn register_text(&mut self, n: u64) { self.text(REGISTER, 0, 0, register(n), NONE) }
    fn arguments_text(&mut self, first: Op, second: Op, size: u64, opcode: u64) { self.text(ARGUMENTS, size, opcode, first, second) }
    fn state_text(&mut self) { self.text(STATE, 0, 0, NONE, NONE) }
    fn control_line(&mut self, n: u64, v: u64) { self.text(LINE, 0, 0, [1, n + 1, 0, 0, v], NONE) }
    fn screen_line(&mut self, b: u64) { self.text(LINE, 0, 0, [2, 0, 0, 0, b], NONE) }
    fn no_line(&mut self) { self.text(LINE, 0, 0, NONE, NONE) }
}

/// Every register's name in each of its texts; `every` thins out those that say it again.
fn names(s: &mut Session, every: u64) {
    for r in 0..80 {
        s.register_text(r);
        if r % every == 0 { s.shown(register(r)); }
        for size in 0..4 { if (r + size) % every == 0 { s.formatted(register(r), size); } }
    }
}
fn immediates(s: &mut Session, values: &[u64]) {
    for v in values {
        s.shown(immediate(*v));
        for size in 0..4 { s.formatted(immediate(*v), size); }
    }
}
/// Base, index and scale there and not there (an index without a scale is refused), and every displacement given.
fn addresses(s: &mut Session, displacements: &[i32], every: usize) {
    let mut k = 0;
    for base in [0, 1, 6, 35, 80] {
        for index in [0, 3, 34, 79] {
            for scale in [0, 1, 2, 9, 256] {
                for d in displacements {
                    k += 1;
                    if k % every != 0 { continue; }
                    s.shown(address(base, index, scale, *d));
                    s.formatted(address(base, index, scale, *d), k as u64 % 4);
                }
            }
        }
    }
}
/// Operands of every kind and register of every size, two by two, at every size and without one.
fn pairs(s: &mut Session, every: usize) {
    let wide = address(33, 34, 256, i32::MIN);
    let few = [NONE, immediate(0xfedc_ba98_7654_3281), at(-1), address(6, 0, 7, -8), wide, address(0, 3, 0, 1), register(0), register(30),
        register(40), register(57), register(79)];
    let mut k = 0;
    for a in few {
        for b in few {
            for size in 0..5 {
                k += 1;
                if k % every == 0 { s.arguments_text(a, b, size, k as u64 % 257); }
            }
        }
    }
    // the two longest, and what the size of each register cuts off an immediate
    s.arguments_text(wide, wide, 0, 0);
    s.arguments_text(wide, wide, 4, 0);
    for r in (0..80).step_by(every) {
        s.arguments_text(register(r), immediate(u64::MAX - r), 4, 0);
        s.arguments_text(immediate(u64::MAX - r), register(r), 4, 0);
        s.arguments_text(register(r), address(80 - r, 1 + r, 1 + r, -(r as i32)), r % 5, 0);
        s.arguments_text(register(r), NONE, 4, 0);
    }
}
fn states(s: &mut Session, values: &[u64], patterns: u64, alone: bool) {
    for v in values {
        s.reset(&[*v; 25], 1, &[], 0);
        s.state_text();
    }
    for k in 0..patterns {
        let mut w = pattern(100 + k);
        for (i, v) in w.iter_mut().enumerate() { *v >>= (i as u64 * 7 + k * 3) % 64; }
        s.reset(&w, 1, &[], 0);
        s.state_text();
    }
    // each word alone: eight of them have no line
    for i in 0..if alone { 25 } else { 0 } {
        let mut w = [0; 25];
        w[i] = 0x1_0000_0000 + i as u64;
        s.reset(&w, 1, &[], 0);
        s.state_text();
    }
}
fn lines(s: &mut Session, values: &[u64], bytes: &mut dyn Iterator<Item = u64>) {
    s.no_line();
    for v in values {
        for r in CONTROLS { s.control_line(r, *v); }
    }
    for b in bytes { s.screen_line(b); }
}

pub fn all(s: &mut Session) {
    // each number of digits, at both its ends
    let mut values: Vec<u64> = EDGES.to_vec();
    for k in 0..64 { values.extend([1 << k, (1 << k) - 1]); }
    s.reset(&pattern(5), 1, &[], 0);
    names(s, 1);
    immediates(s, &values);
    let displacements = [0, 1, -1, 8, -8, 0xf, 0x10, -0x10, 0x7f, -0x80, 0xffff, -0x1_0000, 0x1000_0000, -0xfff_ffff, -i32::MAX, i32::MIN, i32::MAX];
    addresses(s, &displacements, 1);
    for r in 1..=80 {
        s.shown(address(r, 0, 0, -8));
        s.shown(address(0, r, 9, 0));
        s.shown(address(81 - r, r, 5, r as i32));
    }
    for scale in 0..=256 { s.shown(address(1, 2, scale, 1)); }
    pairs(s, 1);
    states(s, &EDGES, 40, true);
    lines(s, &values, &mut (0..256));
}

pub fn sample(s: &mut Session) {
    s.reset(&pattern(5), 1, &[], 0);
    names(s, 8);
    immediates(s, &[0, 1, 0x80, 0x8080, 0x8000_0000, 0x1_0000_0000, 0xfedc_ba98_7654_3210, 0xffff_ffff_ffff_ffff]);
    addresses(s, &[0, 8, -8, i32::MIN, i32::MAX], 13);
    pairs(s, 7);
    states(s, &[0, 0xffff_ffff_ffff_ffff], 2, false);
    lines(s, &[0, 0x8000_0000_0000_0000, 0xfff, 0x1000, 0xffff_ffff_ffff_ffff], &mut [0, 10, 65, 127, 128, 191, 192, 255].into_iter());
}

/// One text of any kind, of operands that the sequence may also use; those of the state are long, and seldom.
pub fn random(s: &mut Session, g: &mut Rng, mut operand: impl FnMut(&mut Rng) -> Op) {
    let size = g.below(4);
    match g.below(16) {
        0 => s.state_text(),
        1 => s.screen_line(g.below(256)),
        2 => s.control_line(CONTROLS[g.below(5) as usize], g.value()),
        3 => s.register_text(g.below(80)),
        4..=6 => s.shown(operand(g)),
        7..=10 => s.formatted(operand(g), size),
        _ => {
            let a = if g.below(8) == 0 { NONE } else { operand(g) };
            let b = if g.below(3) == 0 { NONE } else { operand(g) };
            s.arguments_text(a, b, g.below(5), g.below(257))
        }
    }
}
