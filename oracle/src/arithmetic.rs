//! Arithmetic (RULES 2.12 to 2.14), which the Rust does not have, in two forms. `by_the_rules` is what the comparison expects: the manual's rules
//! over whole numbers, in 128 bits. `operate` is what one would write by hand, in 64-bit words that wrap: pace measures it. Both give the answer,
//! sign-extended (compare has none), and rflags after it. The session holds the one against the other at each call; so does `rustc --test` of this
//! file over all bytes, edges and a million others, which nothing runs by itself. `sized_flags` is the sized form of `compute_flags` (RULES 2.11),
//! written by hand; the session holds it against the Rust's own `compute_flags` of the low bits, sign-extended.
#![allow(dead_code)]

#[derive(Clone, Copy, PartialEq, Debug)]
pub enum Operation {
    Add,
    AddWithCarry,
    Subtract,
    SubtractWithBorrow,
    Compare,
}
use Operation::*;
/// By their numbers in the stream.
pub const OPERATIONS: [Operation; 5] = [Add, AddWithCarry, Subtract, SubtractWithBorrow, Compare];

const CARRY: u64 = 1 << 0;
const PARITY: u64 = 1 << 2;
const ZERO: u64 = 1 << 6;
const SIGN: u64 = 1 << 7;
const OVERFLOW: u64 = 1 << 11;

pub fn by_the_rules(operation: Operation, bits: u32, first: u64, second: u64, rflags: u64) -> (Option<u64>, u64) {
    let all = 1i128 << bits;
    let half = all / 2;
    let unsigned = |v: u64| v as i128 % all;
    let signed = |v: u64| if unsigned(v) < half { unsigned(v) } else { unsigned(v) - all };
    let before = if rflags & CARRY != 0 { 1 } else { 0 };
    let (exact, carry) = match operation {
        Add => (signed(first) + signed(second), unsigned(first) + unsigned(second) >= all),
        AddWithCarry => (signed(first) + signed(second) + before, unsigned(first) + unsigned(second) + before >= all),
        Subtract | Compare => (signed(first) - signed(second), unsigned(first) < unsigned(second)),
        SubtractWithBorrow => (signed(first) - signed(second) - before, unsigned(first) < unsigned(second) + before),
    };
    let result = exact.rem_euclid(all);
    let ones = (0..8).filter(|i| result >> i & 1 == 1).count();
    let mut after = rflags;
    let mut put = |flag: u64, yes: bool| if yes { after |= flag } else { after &= !flag };
    put(CARRY, carry);
    put(PARITY, ones % 2 == 0);
    put(ZERO, result == 0);
    put(SIGN, result >= half);
    put(OVERFLOW, exact < -half || exact >= half);
    let answer = if result < half { result } else { result - all };
    (if operation == Compare { None } else { Some(answer as u64) }, after)
}

pub fn operate(operation: Operation, bits: u32, first: u64, second: u64, rflags: u64) -> (Option<u64>, u64) {
    let above = 64 - bits;
    let mask = u64::MAX >> above;
    let (a, b) = (first & mask, second & mask);
    let c = if matches!(operation, AddWithCarry | SubtractWithBorrow) { rflags & CARRY } else { 0 };
    let (result, carry, overflow) = if matches!(operation, Add | AddWithCarry) {
        let (x, out) = a.overflowing_add(b);
        let (x, again) = x.overflowing_add(c);
        // below 64 bits what is carried out stands above the mask
        (x & mask, out | again | (x > mask), (a ^ x) & (b ^ x))
    } else {
        let (x, out) = a.overflowing_sub(b);
        let (x, again) = x.overflowing_sub(c);
        (x & mask, out | again, (a ^ b) & (a ^ x))
    };
    let mut after = rflags & !(CARRY | PARITY | ZERO | SIGN | OVERFLOW);
    if carry { after |= CARRY }
    if (result as u8).count_ones() % 2 == 0 { after |= PARITY }
    if result == 0 { after |= ZERO }
    if result >> (bits - 1) == 1 { after |= SIGN }
    if overflow >> (bits - 1) & 1 == 1 { after |= OVERFLOW }
    let answer = sign_extended(result, bits);
    (if operation == Compare { None } else { Some(answer) }, after)
}

/// A value's low bits with its sign, and the bits above them set or clear by it.
pub fn sign_extended(value: u64, bits: u32) -> u64 {
    let above = 64 - bits;
    ((value << above) as i64 >> above) as u64
}

/// rflags with Zero, Sign and Parity of the low bits of a result.
pub fn sized_flags(result: u64, bits: u32, rflags: u64) -> u64 {
    let mut after = rflags & !(PARITY | ZERO | SIGN);
    if (result as u8).count_ones() % 2 == 0 { after |= PARITY }
    if result << (64 - bits) == 0 { after |= ZERO }
    if result >> (bits - 1) & 1 == 1 { after |= SIGN }
    after
}

#[cfg(test)]
mod tests {
    use super::*;

    fn same(bits: u32, first: u64, second: u64) {
        for operation in OPERATIONS {
            for rflags in [0, 1, u64::MAX - 1, u64::MAX] {
                let (rules, fast) = (by_the_rules(operation, bits, first, second, rflags), operate(operation, bits, first, second, rflags));
                assert_eq!(rules, fast, "{:?} {} {:x} {:x} {:x}", operation, bits, first, second, rflags);
            }
        }
    }
    #[test]
    fn all_bytes() {
        for first in 0..256 { for second in 0..256 { same(8, first, second) } }
    }
    #[test]
    fn edges() {
        let near = |k: u32| (0..5).map(move |d: u64| (1u64 << k % 64).wrapping_add(d).wrapping_sub(2));
        let values: Vec<u64> = [0, 7, 8, 15, 16, 31, 32, 63].into_iter().flat_map(near).flat_map(|v| [v, v.wrapping_neg()]).collect();
        for bits in [8, 16, 32, 64] { for a in &values { for b in &values { same(bits, *a, *b) } } }
    }
    #[test]
    fn others() {
        let mut x = 1u64;
        for k in 0..1_000_000 {
            x = x.wrapping_mul(0x5851_f42d_4c95_7f2d).wrapping_add(0x1405_7b7e_f767_814f);
            let a = x >> k % 64;
            same([8, 16, 32, 64][k % 4], a, if k % 3 == 0 { a.wrapping_neg() } else { x.swap_bytes() >> k % 61 });
        }
    }
}
