//! pace [ROW TURNS]: the rows of crates/pace over the unchanged Rust: the same calls on the same inputs, the same names and sums. Microseconds of
//! processor time go to standard error. It has no Rust runtime (no_main): under the kit's emulator that one fails on /proc/self/maps.
#![no_main]
extern crate rust;
mod arithmetic;
mod reading;
mod report;
use arithmetic::{operate, sized_flags, Operation};
use rust::instruction_set::Register::{self, *};
use rust::instruction_set::{ArgumentSize, Flags, InstructionArgument};
use rust::machine_state::MachineState;
extern "C" {
    fn clock() -> i64;
}

const NAMES: [&str; 21] = [
    "read 8 bytes, 1 page",
    "read 8 bytes, 16 pages",
    "read 8 bytes, 512 pages",
    "read 8 bytes, walk of 3 levels",
    "write 8 bytes, 1 page",
    "write 8 bytes, 16 pages",
    "write 8 bytes, 512 pages",
    "push and pop",
    "get a register, name known",
    "get a register, any name",
    "set a register, name known",
    "set a register, any name",
    "flags: compute, set, test",
    "sized flags, any size",
    "arithmetic: add, adc, sub, sbb, cmp",
    "effective address",
    "operand text",
    "operand text read back",
    "state text",
    "exposed report of 64 calls",
    "dependent or not, two calls",
];
const FIRST: u64 = 0x10_0000;
const ONE: u64 = 0x3F;
const SIXTEEN: u64 = 0xF03F;
const MANY: u64 = 0x1F_F03F;

pub fn mix(sum: u64, answer: u64) -> u64 {
    (sum ^ answer).wrapping_add(0x9E37_79B9_7F4A_7C15)
}

fn word(bytes: &[u8]) -> u64 {
    u64::from_le_bytes(bytes[..8].try_into().unwrap())
}

fn fill(m: &mut MachineState, start: u64, pages: u64) {
    for p in 0..pages {
        let at = start + p * 4096;
        let mut x = at;
        let mut data = [0u8; 72];
        for b in data.iter_mut() {
            x = mix(x, 0);
            *b = (x >> 12) as u8;
        }
        m.mem_write(at, &data);
    }
}

fn reads(m: &mut MachineState, start: u64, mask: u64, turns: u64) -> u64 {
    let mut sum = 1u64;
    for _ in 0..turns {
        let got = m.mem_read(start + ((sum >> 20) & mask), 8);
        sum = mix(sum, word(&got));
    }
    sum
}

fn walks(turns: u64) -> u64 {
    let mut m = MachineState::new();
    m.mem_write(0x1000, &[0x03, 0x20]);
    m.mem_write(0x2008, &[0x03, 0x30]);
    m.mem_write(0x3008, &[0x83, 0x00, 0x60]);
    fill(&mut m, 0x60_0000, 16);
    m.cr3 = 0x1000;
    reads(&mut m, 0x4020_0000, SIXTEEN, turns)
}

fn filled_reads(pages: u64, mask: u64, turns: u64) -> u64 {
    let mut m = MachineState::new();
    fill(&mut m, FIRST, pages);
    reads(&mut m, FIRST, mask, turns)
}

fn filled_writes(pages: u64, mask: u64, turns: u64) -> u64 {
    let mut m = MachineState::new();
    fill(&mut m, FIRST, pages);
    let mut sum = 1u64;
    for _ in 0..turns {
        m.mem_write(FIRST + ((sum >> 20) & mask), &sum.to_le_bytes());
        sum = mix(sum, m.memory.len() as u64);
    }
    let seen = reads(&mut m, FIRST, mask, 100);
    mix(sum, seen)
}

fn stack(turns: u64) -> u64 {
    let mut m = MachineState::new();
    m.rsp = FIRST as i64 + 0x800;
    let mut sum = 1u64;
    for _ in 0..turns {
        m.stack_push(&(sum >> 7).to_le_bytes());
        sum = mix(sum, m.stack_pop() as u64);
    }
    mix(sum, m.get_register_value(&RSP) as u64)
}

pub fn any_name(x: u64) -> Register {
    match x % 16 {
        0 => RAX,
        1 => RCX,
        2 => RSI,
        3 => R15,
        4 => EAX,
        5 => EDX,
        6 => ESP,
        7 => R9D,
        8 => BX,
        9 => DI,
        10 => R12W,
        11 => AL,
        12 => BPL,
        13 => R8B,
        14 => AH,
        _ => DH,
    }
}

fn some_machine(turns: u64) -> MachineState {
    let mut m = MachineState::new();
    let mut x = turns >> 40;
    let names = [RAX, RBX, RCX, RDX, RSP, RBP, RSI, RDI, R8, R9, R10, R11, R12, R13, R14, R15, RIP];
    for name in names.iter() {
        x = mix(x, 0);
        m.set_register_value(name, x as i64);
    }
    m
}

fn gets_known(turns: u64) -> u64 {
    let mut m = some_machine(turns);
    let mut sum = 1u64;
    for _ in 0..turns {
        m.rax = (sum >> 7) as i64;
        sum = mix(sum, m.get_register_value(&EAX) as u64);
    }
    sum
}

fn gets_any(turns: u64) -> u64 {
    let m = some_machine(turns);
    let mut sum = 1u64;
    for _ in 0..turns {
        sum = mix(sum, m.get_register_value(&any_name(sum >> 40)) as u64);
    }
    sum
}

fn sets_known(turns: u64) -> u64 {
    let mut m = some_machine(turns);
    let mut sum = 1u64;
    for _ in 0..turns {
        m.set_register_value(&AX, (sum >> 7) as i64);
        sum = mix(sum, m.rax as u64);
    }
    sum
}

fn sets_any(turns: u64) -> u64 {
    let mut m = some_machine(turns);
    let mut sum = 1u64;
    for _ in 0..turns {
        m.set_register_value(&any_name(sum >> 40), (sum >> 7) as i64);
        sum = mix(sum, m.rax as u64);
    }
    mix(mix(sum, m.rdx as u64), m.r9 as u64)
}

fn flags(turns: u64) -> u64 {
    let mut m = some_machine(turns);
    let mut sum = 1u64;
    for _ in 0..turns {
        m.compute_flags((sum >> 7) as i64, ArgumentSize::Bit32);
        m.set_flag(Flags::Carry, sum % 2 == 1);
        sum = mix(sum, m.get_flag(Flags::Parity) as u64);
    }
    mix(sum, m.rflags as u64)
}

fn any_bits(x: u64) -> u32 {
    match x % 4 {
        0 => 64,
        1 => 32,
        2 => 16,
        _ => 8,
    }
}

fn flags_at_a_size(turns: u64) -> u64 {
    let mut m = some_machine(turns);
    let mut sum = 1u64;
    for _ in 0..turns {
        m.rflags = sized_flags(sum >> 7, any_bits(sum >> 32), m.rflags as u64) as i64;
        sum = mix(sum, m.rflags as u64);
    }
    sum
}

fn any_operation(x: u64) -> Operation {
    match x % 5 {
        0 => Operation::Add,
        1 => Operation::AddWithCarry,
        2 => Operation::Subtract,
        3 => Operation::SubtractWithBorrow,
        _ => Operation::Compare,
    }
}

fn arithmetic(turns: u64) -> u64 {
    let mut m = some_machine(turns);
    let mut sum = 1u64;
    for _ in 0..turns {
        let (answer, rflags) = operate(any_operation(sum >> 40), any_bits(sum >> 32), sum, mix(sum, sum >> 20), m.rflags as u64);
        m.rflags = rflags as i64;
        sum = mix(mix(sum, answer.map_or(1, |value| value >> 32)), m.rflags as u64);
    }
    sum
}

fn any_displacement(x: u64) -> i32 {
    match x % 4 {
        0 => 0,
        1 => -8,
        2 => 0x7654_3210,
        _ => -0x8000_0000,
    }
}

pub fn any_operand(x: u64) -> InstructionArgument {
    InstructionArgument::EffectiveAddress {
        base: Some(any_name(x >> 40)),
        index: Some(any_name(x >> 44)),
        scale: Some(8),
        displacement: any_displacement(x >> 30),
    }
}

fn addresses(turns: u64) -> u64 {
    let m = some_machine(turns);
    let mut sum = 1u64;
    for _ in 0..turns {
        sum = mix(sum, m.calculate_effective_address(&any_operand(sum)));
    }
    sum
}

fn picked(text: &[u8], places: [usize; 8]) -> u64 {
    u64::from_le_bytes(places.map(|p| text.get(p).cloned().unwrap_or(0)))
}

fn operands(turns: u64) -> u64 {
    let mut sum = 1u64;
    for _ in 0..turns {
        let text = any_operand(sum).format(ArgumentSize::Bit64);
        sum = mix(mix(sum, text.len() as u64), picked(text.as_bytes(), [0, 3, 4, 5, 6, 7, 8, 9]));
    }
    sum
}

fn states(turns: u64) -> u64 {
    let mut m = some_machine(turns);
    let mut sum = 1u64;
    for _ in 0..turns {
        m.rax = sum as i64;
        let text = format!("{}", m);
        sum = mix(mix(sum, text.len() as u64), picked(text.as_bytes(), [17, 18, 19, 20, 60, 100, 200, 400]));
    }
    sum
}

fn run(row: u64, turns: u64) -> u64 {
    match row {
        0 => filled_reads(1, ONE, turns),
        1 => filled_reads(16, SIXTEEN, turns),
        2 => filled_reads(512, MANY, turns),
        3 => walks(turns),
        4 => filled_writes(1, ONE, turns),
        5 => filled_writes(16, SIXTEEN, turns),
        6 => filled_writes(512, MANY, turns),
        7 => stack(turns),
        8 => gets_known(turns),
        9 => gets_any(turns),
        10 => sets_known(turns),
        11 => sets_any(turns),
        12 => flags(turns),
        13 => flags_at_a_size(turns),
        14 => arithmetic(turns),
        15 => addresses(turns),
        16 => operands(turns),
        17 => reading::read_back(turns),
        18 => states(turns),
        19 => report::reports(turns),
        _ => report::dependences(turns),
    }
}

fn show(row: u64, turns: u64) {
    println!("{}: {:016x}", NAMES[row.min(20) as usize], run(row, turns));
}

#[no_mangle]
pub extern "C" fn main(_: i32, _: *const *const u8) -> i32 {
    std::panic::set_hook(Box::new(|_| {}));
    let words: Vec<u64> = std::env::args().skip(1).map(|w| w.parse().unwrap_or(0)).collect();
    if words.len() < 2 {
        (0..21).for_each(|row| show(row, 100));
        return 0;
    }
    let began = unsafe { clock() };
    show(words[0], words[1]);
    eprintln!("{}", unsafe { clock() } - began);
    0
}
