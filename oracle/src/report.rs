//! The report of exposed places (RULES 8.5), written plainly: the Rust has none. A place is exposed if a call reads it and no earlier call has
//! rewritten it. And dependent calls (RULES 8.6): one rewrites a place that the other reads or rewrites, or both reach memory.
use crate::arithmetic::Operation;
use rust::instruction_set::Register::*;
use rust::instruction_set::{get_register_size, ArgumentSize, Flags, InstructionArgument, Register};
use std::ops::Range;

/// The tabled calls (RULES 8.2). What a call holds besides its operand or flag reads and rewrites nothing.
#[allow(dead_code)]
enum Call {
    ReadOperand(InstructionArgument),
    WriteOperand(InstructionArgument),
    EffectiveAddress(InstructionArgument),
    Push,
    Pop,
    ReadMemory,
    WriteMemory(u64),
    TestFlag(Flags),
    SetFlag(Flags),
    ComputeFlags(u64),
    ComputeSizedFlags(u64),
    Arithmetic(Operation),
}

const RSP_LANES: Range<usize> = 32..40;
const CR3_LANES: Range<usize> = 152..160;

/// The number of the 64-bit register that a register is part of, and the first lane it has there.
fn place_of(r: &Register) -> usize {
    match *r {
        RAX | EAX | AX | AL => 0,
        AH => 1,
        RBX | EBX | BX | BL => 8,
        BH => 9,
        RCX | ECX | CX | CL => 16,
        CH => 17,
        RDX | EDX | DX | DL => 24,
        DH => 25,
        RSP | ESP | SP | SPL => 32,
        RBP | EBP | BP | BPL => 40,
        RSI | ESI | SI | SIL => 48,
        RDI | EDI | DI | DIL => 56,
        R8 | R8D | R8W | R8B => 64,
        R9 | R9D | R9W | R9B => 72,
        R10 | R10D | R10W | R10B => 80,
        R11 | R11D | R11W | R11B => 88,
        R12 | R12D | R12W | R12B => 96,
        R13 | R13D | R13W | R13B => 104,
        R14 | R14D | R14W | R14B => 112,
        R15 | R15D | R15W | R15B => 120,
        RIP => 128,
        CR0 => 136,
        CR2 => 144,
        CR3 => 152,
        CR4 => 160,
        CR8 => 168,
        ES | CS | SS | DS | FS | GS => 0,
    }
}

fn lanes(r: &Register, rewritten: bool) -> Range<usize> {
    let count = match *r {
        ES | CS | SS | DS | FS | GS => 0,
        _ => match get_register_size(r) {
            ArgumentSize::Bit64 => 8,
            ArgumentSize::Bit32 => if rewritten { 8 } else { 4 },
            ArgumentSize::Bit16 => 2,
            ArgumentSize::Bit8 => 1,
        },
    };
    place_of(r)..place_of(r) + count
}

fn flag_place(f: &Flags) -> Range<usize> {
    let p = match *f {
        Flags::Carry => 176,
        Flags::Parity => 177,
        Flags::Zero => 178,
        Flags::Sign => 179,
        Flags::Direction => 180,
        Flags::Overflow => 181,
    };
    p..p + 1
}

fn address_reads(argument: &InstructionArgument, see: &mut dyn FnMut(Range<usize>)) -> bool {
    if let InstructionArgument::EffectiveAddress { ref base, ref index, .. } = *argument {
        base.iter().chain(index.iter()).for_each(|r| see(lanes(r, false)));
        return true;
    }
    false
}

fn reads(call: &Call, see: &mut dyn FnMut(Range<usize>)) {
    match *call {
        Call::ReadOperand(InstructionArgument::Register { ref register }) => see(lanes(register, false)),
        Call::ReadOperand(ref a) | Call::WriteOperand(ref a) => {
            if address_reads(a, see) {
                see(CR3_LANES)
            }
        }
        Call::EffectiveAddress(ref a) => {
            address_reads(a, see);
        }
        Call::Push | Call::Pop => {
            see(RSP_LANES);
            see(CR3_LANES)
        }
        Call::ReadMemory | Call::WriteMemory(_) => see(CR3_LANES),
        Call::TestFlag(ref f) => see(flag_place(f)),
        Call::Arithmetic(Operation::AddWithCarry | Operation::SubtractWithBorrow) => see(flag_place(&Flags::Carry)),
        Call::SetFlag(_) | Call::ComputeFlags(_) | Call::ComputeSizedFlags(_) | Call::Arithmetic(_) => (),
    }
}

fn rewrites(call: &Call, see: &mut dyn FnMut(Range<usize>)) {
    match *call {
        Call::WriteOperand(InstructionArgument::Register { ref register }) => see(lanes(register, true)),
        Call::Push | Call::Pop => see(RSP_LANES),
        Call::SetFlag(ref f) => see(flag_place(f)),
        Call::ComputeFlags(_) | Call::ComputeSizedFlags(_) => see(177..180),
        Call::Arithmetic(_) => {
            // all but Direction
            see(176..180);
            see(flag_place(&Flags::Overflow))
        }
        _ => (),
    }
}

fn exposed_places(calls: &[Call]) -> [bool; 182] {
    let mut exposed = [false; 182];
    let mut rewritten = [false; 182];
    for call in calls {
        reads(call, &mut |places| places.for_each(|p| exposed[p] |= !rewritten[p]));
        rewrites(call, &mut |places| places.for_each(|p| rewritten[p] = true));
    }
    exposed
}

fn reaches_memory(call: &Call) -> bool {
    match *call {
        Call::ReadOperand(InstructionArgument::EffectiveAddress { .. }) | Call::WriteOperand(InstructionArgument::EffectiveAddress { .. }) => true,
        Call::Push | Call::Pop | Call::ReadMemory | Call::WriteMemory(_) => true,
        _ => false,
    }
}

/// Whether a rewrites a place that b reads or rewrites.
fn meets(a: &Call, b: &Call) -> bool {
    let mut met = false;
    rewrites(a, &mut |w| {
        let mut see = |r: Range<usize>| met |= w.start.max(r.start) < w.end.min(r.end);
        reads(b, &mut see);
        rewrites(b, &mut see);
    });
    met
}

fn depends(a: &Call, b: &Call) -> bool {
    reaches_memory(a) && reaches_memory(b) || meets(a, b) || meets(b, a)
}

fn any_call(x: u64) -> Call {
    let register = InstructionArgument::Register { register: crate::any_name(x) };
    match x / 16 % 8 {
        0 => Call::ReadOperand(register),
        1 => Call::WriteOperand(register),
        2 => Call::ReadOperand(crate::any_operand(x)),
        3 => Call::Push,
        4 => Call::WriteMemory(x),
        5 => Call::TestFlag(Flags::Zero),
        6 => Call::SetFlag(Flags::Carry),
        _ => Call::ComputeFlags(x),
    }
}

fn some_calls() -> Vec<Call> {
    let mut x = 1;
    let mut list: Vec<Call> = Vec::new();
    for _ in 0..64 {
        x = crate::mix(x, 0);
        list.push(any_call(x >> 30));
    }
    list
}

pub fn reports(turns: u64) -> u64 {
    let mut list = some_calls();
    let mut sum = 1u64;
    for _ in 0..turns {
        list[(sum >> 50) as usize % 64] = any_call(sum >> 30);
        let report = exposed_places(&list);
        sum = crate::mix(sum, report[(sum >> 40) as usize % 182] as u64);
    }
    sum
}

pub fn dependences(turns: u64) -> u64 {
    let list = some_calls();
    let mut sum = 1u64;
    for _ in 0..turns {
        let answer = depends(&any_call(sum >> 30), &list[(sum >> 50) as usize % 64]);
        sum = crate::mix(sum, answer as u64);
    }
    sum
}
