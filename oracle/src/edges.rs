//! Calls at the edges of each rule, the same at every run. `part` thins them out for the stored sample.
use crate::random::{plant, Rng};
use crate::session::*;

pub const EDGES: [u64; 26] = [
    0, 1, 2, 0x7f, 0x80, 0x81, 0xff, 0x100, 0x7fff, 0x8000, 0x8080, 0xffff, 0x1_0000, 0x7fff_ffff, 0x8000_0000, 0x8000_8080, 0xffff_ffff,
    0x1_0000_0000, 0x1_ffff_ffff, 0x0123_4567_89ab_cdef, 0xfedc_ba98_7654_3210, 0x7fff_ffff_ffff_ffff, 0x8000_0000_0000_0000, 0xffff_ffff_ffff_ff00,
    0xffff_ffff_0000_0000, 0xffff_ffff_ffff_ffff,
];

/// Distinct words, so that a wrong register shows.
pub fn pattern(k: u64) -> [u64; 25] {
    let mut g = Rng(k);
    let mut w = [0u64; 25];
    for v in w.iter_mut() { *v = g.next() | 0x8080_8080_8080_8080; }
    w[19] = 0;
    w
}
fn same(v: u64) -> [u64; 25] {
    let mut w = [v; 25];
    w[19] = 0;
    w
}

/// Every register reads every edge, at a size that it must ignore.
fn register_reads(s: &mut Session, values: &[u64]) {
    for (i, v) in values.iter().enumerate() {
        s.reset(&[*v; 25], 1, &[], 0);
        for r in 0..80 { s.read(register(r), (r + i as u64) % 4); }
    }
}
/// Every register takes every edge; the whole machine is shown after each write.
fn register_writes(s: &mut Session, values: &[u64], show: u64) {
    for (i, v) in values.iter().enumerate() {
        s.reset(&pattern(i as u64), 1, &[], 0);
        for r in 0..80 {
            s.write(register(r), (r + i as u64) % 4, *v);
            s.read(register(r), 3);
            if r % show == show - 1 { s.show_machine(); }
        }
        s.show_machine();
    }
}
/// Distinct words, with these rflags.
fn flagged(rflags: u64) -> [u64; 25] {
    let mut w = pattern(7);
    w[22] = rflags;
    w
}
const RFLAGS: [u64; 4] = [0, 0xffff_ffff_ffff_ffff, 0x0123_4567_89ab_cdef, 0x8c5];
fn flags(s: &mut Session) {
    for rflags in RFLAGS {
        s.reset(&flagged(rflags), 1, &[], 0);
        for f in 0..6 { s.simple(TEST_FLAG, 0, f, 0); }
        for f in 0..6 {
            for v in [1, 0, 1] {
                s.simple(SET_FLAG, 0, f, v);
                s.simple(TEST_FLAG, 0, f, 0);
            }
            s.show_machine();
        }
    }
}
/// The flags of results at each size, by `compute_flags` or by its sized form; each of the three is tested.
fn result_flags(s: &mut Session, kind: u64, results: &[u64]) {
    for rflags in RFLAGS {
        s.reset(&flagged(rflags), 1, &[], 0);
        for size in 0..4 {
            for r in results {
                s.simple(kind, size, *r, 0);
                for f in 1..4 { s.simple(TEST_FLAG, 0, f, 0); }
            }
            s.show_machine();
        }
    }
}
/// Every operation at every size, on Carry clear and set. Many values have bits above the size. The other bits of rflags are clear for every second
/// of the first values, and set for the rest.
fn arithmetic(s: &mut Session, step: u64) {
    let values = [0, 1, 0x7f, 0x80, 0xff, 0x7fff, 0x8000, 0xffff, 0x7fff_ffff, 0x8000_0000, 0xffff_ffff, 0x7fff_ffff_ffff_ffff, 1 << 63, u64::MAX];
    let mut k = 0;
    for (operation, size, others) in (0..40).map(|i| (i / 8, i / 2 % 4, i % 2)) {
        let mut w = pattern(5);
        w[22] = 0u64.wrapping_sub(others);
        s.reset(&w, 1, &[], 0);
        for first in values.iter().skip(others as usize).step_by(2) {
            for (second, carry) in values.iter().flat_map(|v| [(v, 0), (v, 1)]) {
                k += 1;
                if k % step == 0 {
                    s.simple(SET_FLAG, 0, 0, carry);
                    s.arithmetic(operation, size, *first, *second);
                    s.show_machine();
                }
            }
        }
    }
}
/// Every register as base and as index, with every kind of scale; displacements at their ends.
fn operands(s: &mut Session, scales: &[u64], displacements: &[i32]) {
    s.reset(&pattern(3), 64, &[], 0xEE);
    for (i, r) in (1..=80).enumerate() {
        for d in displacements { s.address(address(r, 0, (i % 3) as u64, *d)); }
        for k in scales {
            s.address(address(0, r, *k, 5));
            s.address(address(1 + (r * 7) % 80, r, *k, displacements[(r as usize + *k as usize) % displacements.len()]));
        }
    }
    for op in [immediate(5), register(0), register(75), at(-1), at(i32::MIN), address(0, 0, 9, 1), address(0, 1, 0, 1), address(2, 3, 0, 0)] {
        s.address(op);
        for size in 0..4 {
            s.read(op, size);
            if s.room() { s.write(op, size, 0x8182_8384_8586_8788); }
        }
    }
    s.dump(1);
    // the 8-bit parts, segments and control registers as base of a memory operand
    let mut w = same(0x1808);
    w[4] = 0x2010;
    for r in [1u64, 18, 23, 39, 55, 59, 63, 75, 80] {
        s.reset(&w, 16, &[], 0xEE);
        for size in 0..4 {
            s.write(address(r, 0, 0, 0x100), size, 0x8182_8384_8586_8788);
            s.read(address(r, 0, 0, 0x100), size);
            s.read(address(0, r, 3, -0x10), size);
        }
        s.dump(1);
    }
}
/// Values of memory at each size and sign.
fn values(s: &mut Session) {
    let page: Vec<u8> = (0..4096u64).map(|i| Rng(i).next() as u8).collect();
    s.reset(&same(0), 4, &[(0, page.clone()), (1, page)], 0xEE);
    for a in 0..24 {
        for size in 0..4 { s.read(at(a * 171), size); }
        s.simple(READ_BYTE, 0, a as u64 * 171, 0);
    }
    for (a, b) in [(0i32, 0x80u64), (8, 0x8080), (16, 0x8000_0000), (24, 0x8000_0000_0000_0000), (4095, 0xfedc_ba98_7654_3210)] {
        for size in 0..4 {
            s.write(at(a), size, b);
            for z in 0..4 { s.read(at(a), z); }
        }
    }
    s.dump(2);
}
/// Both ends of pages and of the address space; stale bytes in slots.
fn page_ends(s: &mut Session) {
    let tops: [u64; 12] = [0, 1, 4088, 4095, 4096, 8191, 0x7fff, 1 << 32, (1 << 52) - 3, 0xffff_ffff_ffff_f000, 0xffff_ffff_ffff_fff8,
        0xffff_ffff_ffff_ffff];
    for a in tops.iter() {
        s.reset(&same(*a), 16, &[], 0xEE);
        for n in [1u64, 2, 8, 9] {
            s.read_memory(*a, n);
            s.write_memory(*a, &Rng(n).bytes(n));
            s.read_memory(*a, n);
            s.read_memory(a.wrapping_sub(4), 8);
        }
        for size in 0..4 {
            s.write(address(1, 0, 0, 0), size, 0xf1f2_f3f4_f5f6_f7f8);
            s.read(address(1, 0, 0, 0), size);
        }
        s.read_memory(0, 16);
        s.dump(1);
    }
}
/// The window of the screen, around both ends, by every call that writes.
fn video(s: &mut Session) {
    let mut w = same(0xB8000);
    for b in [0x00u8, 0x0a, 0x41, 0x7f, 0x80, 0xe9, 0xff] {
        s.reset(&w, 8, &[], 0xEE);
        for a in (0xB7FFC..0xB8006).chain(0xB8F9C..0xB8FA6).chain([0xB8500, 0xB8501]) {
            s.write_memory(a, &[b]);
            if a % 3 == 0 { s.write_memory(a, &[b, 1, 2]); }
            s.write(at(a as i32), a % 4, 0x100 + b as u64);
        }
        s.dump(1);
    }
    for a in [0xB7FFEu64, 0xB8000, 0xB8001, 0xB8002, 0xB8F9E, 0xB8FA0, 0xB8FA1, 0xB8FA2] {
        for n in [1u64, 2, 8] {
            w[4] = a + n;
            s.reset(&w, 8, &[], 0xEE);
            s.push(&Rng(a).bytes(n));
            s.show_machine();
            s.simple(POP, 0, 0, 0);
            s.show_machine();
        }
    }
}
/// Walks from tables anywhere to targets anywhere. In the first walks every bit of the address's three indexes counts.
fn walks(s: &mut Session, n: u64, slots: usize) {
    for k in 0..n {
        let mut g = Rng(1000 + k);
        let cr3 = [0x1000, 0x1ffc, 0x1ff9, 0xffff_ffff_ffff_fff8, 0xffff_ffff_ffff_fffc, 1, 0x2345][(k % 7) as usize];
        let linear = match k % 3 {
            0 => (1 << 39 + k % 9) | (1 << 30 + k / 2 % 9) | (1 << 21 + k / 3 % 9) | g.below(0x20_0000),
            1 => g.next(),
            _ => g.value(),
        };
        let target = match k % 4 { 0 => 0x60_0000, 1 => 0xffff_ffff_ffff_f000, 2 => 0xB8000u64.wrapping_sub(linear & 0x1f_f000), _ => g.next() };
        s.reset(&pattern(k), slots, &[], 0xEE);
        plant(s, &mut g, cr3, linear, target);
        s.write(register(19), 0, cr3);
        s.read_memory(linear, 8);
        s.write_memory(linear, &Rng(k).bytes(9));
        s.read_memory(linear ^ 1 << 48, 8);
        s.write(register(4), 0, linear.wrapping_add(8));
        s.push(&Rng(k + 1).bytes(8));
        s.simple(POP, 0, 0, 0);
        s.read(address(5, 0, 0, -8), k % 4);
        s.simple(READ_BYTE, 0, linear | 0x1f_ffff, 0);
        s.write_memory(linear | 0x1f_ffff, &[k as u8, 2, 3]);
        s.dump(if k % 8 == 0 { 2 } else { 0 });
        s.write(register(19), 0, 0);
        s.read_memory(target.wrapping_add(linear & 0x1f_ffff), 16);
    }
}
/// Pushes of these lengths, each followed by a read of the same length and now and then a pop.
fn stack(s: &mut Session, lengths: &mut dyn Iterator<Item = u64>) {
    let mut w = pattern(9);
    for n in lengths {
        if n % 64 == 1 || !s.room() || n > 2000 {
            w[4] = [0x3000, 4, 0, 0xB9000, 0x8000_0000_0000_0000][(n % 5) as usize] + n / 2;
            s.reset(&w, 64, &[], 0xEE);
        }
        s.push(&Rng(n).bytes(n));
        let rsp = s.m.rsp as u64;
        s.read_memory(rsp, n);
        if n % 4 == 0 { s.simple(POP, 0, 0, 0); }
        s.show_machine();
    }
}
/// Size selection and access, over operands of every kind and register of every size.
fn arguments(s: &mut Session, step: usize) {
    let few = [[0; 5], immediate(0xffff_ffff_ffff_ff80), at(-1), address(6, 0, 7, -8), address(0, 3, 9, 0x7fff_ffff), address(0, 3, 0, 1),
        register(0), register(30), register(40), register(57), register(79)];
    s.reset(&pattern(11), 1, &[], 0);
    let mut k = 0;
    for a in few {
        for b in few {
            for size in 0..5 {
                k += 1;
                if size == 4 || k % step == 0 {
                    for kind in [SIZE, ONE, TWO] { s.arguments(kind, a, b, size, k as u64 % 257, k as u64 % 4); }
                }
            }
        }
    }
    for r in 0..80 {
        s.arguments(SIZE, register(r), [0; 5], 4, 0, 0);
        s.arguments(SIZE, immediate(1), register(r), 4, 0, 0);
        s.arguments(TWO, register(r), address(80 - r, 1 + r, r, -(r as i32)), r % 5, 0, 0);
    }
}

pub fn all(s: &mut Session) {
    let mut results: Vec<u64> = EDGES.to_vec();
    results.extend(0..=256);
    // Parity is that of the low byte alone: clear of 0x101, set of 0x300
    results.extend([0x101, 0x300, 0x1_0000_0080, 0x8000_0000_0000_8000]);
    register_reads(s, &EDGES);
    register_writes(s, &EDGES, 1);
    flags(s);
    result_flags(s, COMPUTE_FLAGS, &results);
    result_flags(s, COMPUTE_SIZED_FLAGS, &results);
    arithmetic(s, 1);
    operands(s, &[0, 1, 2, 3, 5, 9, 128, 256], &[0, 1, -1, 8, -8, i32::MIN, i32::MAX]);
    values(s);
    page_ends(s);
    video(s);
    walks(s, 2000, 32);
    stack(s, &mut (1..=4096));
    arguments(s, 1);
    crate::texts::all(s);
}

pub fn sample(s: &mut Session) {
    register_reads(s, &[0x8000_8080, 0xfedc_ba98_7654_3210, 0x7fff_7f7f, 0xffff_ffff_ffff_ffff]);
    register_writes(s, &[0x0123_4567_89ab_cdef, 0x8000_8080], 16);
    flags(s);
    result_flags(s, COMPUTE_FLAGS, &[0, 1, 0x7f, 0x80, 0xfe, 0x100, 0x8000, 0x8000_0000, 0x1_0000_0000, 0x8000_0000_0000_0000]);
    result_flags(s, COMPUTE_SIZED_FLAGS, &[0, 0x101, 0x180, 0xff00, 0x1_8000_0000, 0x8000_0000_0000_0000]);
    arithmetic(s, 131);
    operands(s, &[0, 9, 256], &[0, i32::MIN]);
    values(s);
    page_ends(s);
    video(s);
    walks(s, 42, 16);
    stack(s, &mut [1, 2, 3, 7, 8, 9, 16, 255, 4095, 4096].into_iter());
    arguments(s, 7);
    crate::texts::sample(s);
}
