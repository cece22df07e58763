//! Sequences of mixed calls, drawn from a seed. Values and addresses are edges as often as not.
use crate::session::*;

pub struct Rng(pub u64);
impl Rng {
    pub fn next(&mut self) -> u64 {
        self.0 = self.0.wrapping_add(0x9e3779b97f4a7c15);
        let mut z = self.0;
        z = (z ^ (z >> 30)).wrapping_mul(0xbf58476d1ce4e5b9);
        z = (z ^ (z >> 27)).wrapping_mul(0x94d049bb133111eb);
        z ^ (z >> 31)
    }
    pub fn below(&mut self, n: u64) -> u64 { self.next() % n }
    /// A power of two and its neighbours, with both signs, small numbers, or anything.
    pub fn value(&mut self) -> u64 {
        match self.below(8) {
            0 => self.below(4),
            1 => 0u64.wrapping_sub(self.below(4)),
            2 | 3 => (1u64 << self.below(64)).wrapping_add(self.below(3)).wrapping_sub(1),
            4 => 0u64.wrapping_sub(1u64 << self.below(64)).wrapping_add(self.below(3)),
            5 => self.next() & 0xff,
            6 => self.next() >> self.below(64),
            _ => self.next(),
        }
    }
    pub fn bytes(&mut self, n: u64) -> Vec<u8> { (0..n).map(|_| self.next() as u8).collect() }
    fn length(&mut self) -> u64 {
        match self.below(32) {
            0 => 4096 - self.below(3),
            1 => 1 + self.below(4096),
            2..=5 => 1 + self.below(300),
            6..=12 => 8,
            _ => 1 + self.below(17),
        }
    }
}

/// Where a sequence does its work: few pages, so that calls meet each other's bytes.
struct Places { hot: Vec<u64>, walked: Vec<u64> }
impl Places {
    fn address(&self, g: &mut Rng) -> u64 {
        let near = g.below(33).wrapping_sub(16);
        match g.below(16) {
            0..=5 => self.hot[g.below(self.hot.len() as u64) as usize].wrapping_mul(4096).wrapping_add(near),
            6..=8 => self.hot[g.below(self.hot.len() as u64) as usize].wrapping_mul(4096).wrapping_add(g.below(4096)),
            9 => 0xB8000u64.wrapping_add(g.below(4)).wrapping_sub(2),
            10 => 0xB8FA0u64.wrapping_add(g.below(6)).wrapping_sub(3),
            11 => 0u64.wrapping_sub(1 + g.below(20)),
            12 => 0xB8000 + g.below(0xfa2),
            13 if !self.walked.is_empty() => self.walked[g.below(self.walked.len() as u64) as usize].wrapping_add(near),
            14 if g.below(8) == 0 => g.value(),
            _ if !self.walked.is_empty() => self.walked[g.below(self.walked.len() as u64) as usize] ^ g.below(0x200000) ^ (g.below(2) << 60),
            _ => near,
        }
    }
    fn operand(&self, g: &mut Rng) -> Op {
        match g.below(10) {
            0 => immediate(g.value()),
            1..=4 => register(g.below(80)),
            5 => at(self.address(g) as i32),
            _ => {
                let base = if g.below(4) == 0 { 0 } else { 1 + g.below(80) };
                let index = if g.below(3) == 0 { 1 + g.below(80) } else { 0 };
                let has = if index == 0 { g.below(2) == 0 } else { g.below(16) != 0 };
                let scale = if !has { 0 } else if g.below(4) == 0 { 1 + g.below(256) } else { 1 + (1 << g.below(4)) };
                let d = match g.below(4) { 0 => 0, 1 => g.value(), 2 => self.address(g), _ => g.below(64) } as i32;
                address(base, index, scale, d)
            }
        }
    }
}

/// Plants the three entries of a walk from cr3 for one address, each where RULES 3.12 looks for it. Tables lie anywhere: unaligned, across two
/// pages, at the top, so that the sums wrap. The writes are physical: CR3 is 0 here.
pub fn plant(s: &mut Session, g: &mut Rng, cr3: u64, linear: u64, target: u64) {
    let mut table = cr3;
    for (k, shift) in [39, 30, 21].into_iter().enumerate() {
        let place = table.wrapping_add(8 * (linear >> shift & 511));
        let low = g.below(4096);
        let entry = if k == 2 { target & !0xfff | low } else {
            match g.below(6) {
                0 => 0u64.wrapping_sub(4096 * (1 + g.below(3))) | low,
                1 => g.value() & !0xfff | low,
                _ => 0x3000 + 0x1000 * g.below(6) | low,
            }
        };
        if !s.room() { return; }
        s.write_memory(place, &entry.to_le_bytes());
        table = entry & !0xfff;
    }
}

fn start(s: &mut Session, g: &mut Rng, slots: usize) -> Places {
    let mut hot = vec![0, 1, 2, 0xB8, (1 << 52) - 1];
    for _ in 0..4 {
        hot.push(match g.below(4) { 0 => g.below(16), 1 => g.next() >> 12, 2 => (g.value() >> 12) & 0xf_ffff_ffff_ffff, _ => 3 + g.below(8) });
    }
    let mut p = Places { hot, walked: vec![] };
    let mut w = [0u64; 25];
    let edge = g.below(4);
    for v in w.iter_mut() { *v = if edge == 0 { 0 } else if edge < 3 { p.address(g) } else { g.value() }; }
    w[19] = 0;
    let mut pages = vec![];
    for i in 0..g.below(4) { pages.push((p.hot[3 + i as usize], g.bytes(4096))); }
    pages.dedup_by_key(|x| x.0);
    s.reset(&w, slots, &pages, g.next() as u8);
    if g.below(3) != 0 {
        let cr3 = match g.below(6) {
            0 => 0x1000,
            1 => 0x1ffc - g.below(8),
            2 => 0u64.wrapping_sub(8 * (1 + g.below(4))),
            3 => 0u64.wrapping_sub(1 + g.below(4096)),
            4 => 1 + g.below(0x4000),
            _ => g.value(),
        };
        if cr3 != 0 {
            for _ in 0..2 {
                let linear = match g.below(4) { 0 => g.below(0x40_0000), 1 => 0x4020_0000 + g.below(0x20_0000), 2 => g.next(), _ => g.value() };
                let target = match g.below(6) {
                    0 => 0xB8000u64.wrapping_sub(linear & 0x1f_f000),
                    1 => 0u64.wrapping_sub(0x1000 * g.below(0x201)),
                    2 => g.next(),
                    _ => 0x4000 * g.below(8),
                };
                plant(s, g, cr3, linear, target);
                p.walked.push(linear);
            }
            s.write(register(19), 0, cr3);
        }
    }
    p
}

/// One call in eight is a text.
fn one(s: &mut Session, g: &mut Rng, p: &Places) {
    if g.below(8) == 0 { return crate::texts::random(s, g, |g| p.operand(g)); }
    let size = g.below(4);
    let mut kind = g.below(27);
    if !s.room() && (matches!(kind, 3 | 4 | 5 | 7 | 8 | 10 | 11)) { kind = 0; }
    match kind {
        0..=2 => s.read(p.operand(g), size),
        3..=5 => {
            let op = p.operand(g);
            // CR3 changes seldom, and a base that points anywhere would fill the store
            if op[0] == 2 && op[1] == 20 && g.below(8) != 0 { return s.read(op, size); }
            let v = if op[0] == 2 && g.below(2) == 0 { p.address(g) } else { g.value() };
            s.write(op, size, if op[0] == 2 && op[1] == 20 { [0, 0x1000, 0x1ffc][g.below(3) as usize] } else { v })
        }
        6 => s.address(p.operand(g)),
        7 | 8 => {
            let n = if g.below(2) == 0 { 8 } else { g.length() };
            let d = g.bytes(n);
            s.push(&d)
        }
        9 => s.simple(POP, 0, 0, 0),
        10 | 11 => {
            let (to, n) = (p.address(g), g.length());
            let d = g.bytes(n);
            s.write_memory(to, &d)
        }
        12..=14 => { let (from, n) = (p.address(g), g.length()); s.read_memory(from, n) }
        15 => s.simple(READ_BYTE, 0, p.address(g), 0),
        16 => s.simple(TEST_FLAG, 0, g.below(6), 0),
        17 => s.simple(SET_FLAG, 0, g.below(6), g.below(2)),
        18 => s.simple(COMPUTE_FLAGS, size, g.value(), 0),
        19 => s.write(register(4), 0, p.address(g)),
        20 => { let op = register(g.below(80)); if op[1] != 20 { s.write(op, size, g.value()) } else { s.read(op, size) } }
        21 => s.view(p.hot[g.below(p.hot.len() as u64) as usize], 0, 64),
        22 | 23 => {
            let a = g.value();
            // as often as not a value that meets the first, so that what is carried counts
            let b = match g.below(6) { 0 => a, 1 => !a, 2 => a.wrapping_neg(), _ => g.value() };
            s.arithmetic(g.below(5), size, a, b);
            // the next one would rewrite the flags
            s.show_machine()
        }
        24 => {
            s.simple(COMPUTE_SIZED_FLAGS, size, g.value(), 0);
            s.show_machine()
        }
        _ => {
            let a = if g.below(6) == 0 { [0; 5] } else { p.operand(g) };
            let b = if g.below(2) == 0 { [0; 5] } else { p.operand(g) };
            s.arguments(SIZE + g.below(3), a, b, g.below(5), g.below(257), g.below(4))
        }
    }
}

/// `most` is how many pages the dump at the end of each sequence shows whole.
pub fn sequences(s: &mut Session, seed: u64, which: std::ops::Range<u64>, calls: u64, most: usize) {
    for k in which {
        let mut g = Rng(seed.wrapping_mul(0x2545f4914f6cdd1d).wrapping_add(k));
        let slots = [24, 48, 64][g.below(3) as usize];
        let p = start(s, &mut g, slots);
        for i in 0..calls {
            one(s, &mut g, &p);
            if i % 8 == 7 { s.show_machine(); }
        }
        s.dump(most);
    }
}
