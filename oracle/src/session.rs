//! One session: the Rust's machine, the directory that RULES 3.9 gives, and the two streams of docs/FORMAT.md. Each call is written to the one,
//! carried out by the Rust, and its answer written to the other. Arithmetic and the sized form of compute_flags are ours (arithmetic.rs), on the
//! Rust's rflags.
use crate::arithmetic::{by_the_rules, operate, sign_extended, sized_flags, OPERATIONS};
use rust::instruction_set::*;
use rust::machine_state::MachineState;
use rust::mmu;
use std::fs::File;
use std::io::{self, BufWriter, Write};
use std::os::fd::{AsRawFd, FromRawFd};
use std::os::unix::fs::FileExt;
use std::panic::{self, AssertUnwindSafe};

pub const READ: u64 = 1;
pub const WRITE: u64 = 2;
pub const ADDRESS: u64 = 3;
pub const PUSH: u64 = 4;
pub const POP: u64 = 5;
pub const READ_MEMORY: u64 = 6;
pub const WRITE_MEMORY: u64 = 7;
pub const TEST_FLAG: u64 = 8;
pub const SET_FLAG: u64 = 9;
pub const COMPUTE_FLAGS: u64 = 10;
pub const READ_BYTE: u64 = 11;
const ARITHMETIC: u64 = 12;
pub const COMPUTE_SIZED_FLAGS: u64 = 13;
pub const SIZE: u64 = 16;
pub const ONE: u64 = 17;
pub const TWO: u64 = 18;
const VIEW: u64 = 20;
const RESET: u64 = 24;
const LOAD: u64 = 25;
const SHOW_MACHINE: u64 = 26;
const SHOW_DIRECTORY: u64 = 27;
const SHOW_BYTES: u64 = 28;

use Register::*;
pub const REGS: [Register; 80] = [
    RAX, RBX, RCX, RDX, RSP, RBP, RSI, RDI, R8, R9, R10, R11, R12, R13, R14, R15, RIP, CR0, CR2, CR3, CR4, CR8, EAX,
    EBX, ECX, EDX, ESP, EBP, ESI, EDI, R8D, R9D, R10D, R11D, R12D, R13D, R14D, R15D, AX, CX, DX, BX, SP, BP, SI, DI,
    R8W, R9W, R10W, R11W, R12W, R13W, R14W, R15W, AL, CL, DL, BL, AH, CH, DH, BH, SPL, BPL, SIL, DIL, R8B, R9B, R10B,
    R11B, R12B, R13B, R14B, R15B, ES, CS, SS, DS, FS, GS,
];

fn flag(i: u64) -> Flags {
    match i {
        0 => Flags::Carry,
        1 => Flags::Parity,
        2 => Flags::Zero,
        3 => Flags::Sign,
        4 => Flags::Direction,
        _ => Flags::Overflow,
    }
}
pub fn size(i: u64) -> ArgumentSize {
    match i {
        0 => ArgumentSize::Bit64,
        1 => ArgumentSize::Bit32,
        2 => ArgumentSize::Bit16,
        _ => ArgumentSize::Bit8,
    }
}

/// An operand as its five words: kind, base, index, scale, value.
pub type Op = [u64; 5];
pub fn immediate(v: u64) -> Op { [1, 0, 0, 0, v] }
pub fn register(n: u64) -> Op { [2, n + 1, 0, 0, 0] }
/// Base and index are register numbers plus 1, the scale its number plus 1; 0 says absent.
pub fn address(base: u64, index: u64, scale: u64, displacement: i32) -> Op { [3, base, index, scale, displacement as i64 as u64] }
pub fn at(displacement: i32) -> Op { address(0, 0, 0, displacement) }

pub fn argument(w: Op) -> Option<InstructionArgument> {
    let reg = |n: u64| if n == 0 { None } else { Some(REGS[n as usize - 1]) };
    Some(match w[0] {
        0 => return None,
        1 => InstructionArgument::Immediate { immediate: w[4] as i64 },
        2 => InstructionArgument::Register { register: reg(w[1]).unwrap() },
        _ => InstructionArgument::EffectiveAddress {
            base: reg(w[1]),
            index: reg(w[2]),
            scale: if w[3] == 0 { None } else { Some((w[3] - 1) as u8) },
            displacement: w[4] as i64 as i32,
        },
    })
}
/// The words of an operand that the Rust hands back.
fn words(a: &InstructionArgument) -> Op {
    let reg = |r: &Option<Register>| r.map_or(0, |r| r as u64 + 1);
    match *a {
        InstructionArgument::Immediate { immediate: v } => immediate(v as u64),
        InstructionArgument::Register { register: r } => register(r as u64),
        InstructionArgument::EffectiveAddress { ref base, ref index, scale, displacement } => {
            address(reg(base), reg(index), scale.map_or(0, |s| s as u64 + 1), displacement)
        }
    }
}
fn bytes_of(words: &[u64]) -> Vec<u8> { words.iter().flat_map(|w| w.to_le_bytes()).collect() }

fn parents(m: &MachineState) -> [u64; 25] {
    [m.rax, m.rbx, m.rcx, m.rdx, m.rsp, m.rbp, m.rsi, m.rdi, m.r8, m.r9, m.r10, m.r11, m.r12, m.r13, m.r14, m.r15, m.rip,
     m.cr0, m.cr2, m.cr3, m.cr4, m.cr8, m.rflags, m.gdt, m.idt].map(|v| v as u64)
}
/// A machine from its 25 words: 22 parents in their order (RULES 2.2), rflags, gdt, idt.
pub fn machine(w: &[u64; 25]) -> MachineState {
    let mut m = MachineState::new();
    {
        let f = [&mut m.rax, &mut m.rbx, &mut m.rcx, &mut m.rdx, &mut m.rsp, &mut m.rbp, &mut m.rsi, &mut m.rdi, &mut m.r8,
            &mut m.r9, &mut m.r10, &mut m.r11, &mut m.r12, &mut m.r13, &mut m.r14, &mut m.r15, &mut m.rip, &mut m.cr0, &mut m.cr2,
            &mut m.cr3, &mut m.cr4, &mut m.cr8, &mut m.rflags, &mut m.gdt, &mut m.idt];
        for (at, v) in f.into_iter().zip(w) { *at = *v as i64; }
    }
    m
}

/// The arguments record of a header, by the Rust's builder. Words 4 and 5 are the repeats.
pub fn built(h: &[u64; 16]) -> InstructionArguments {
    let mut b = InstructionArgumentsBuilder::new();
    if let Some(v) = argument(h[6..11].try_into().unwrap()) { b = b.first_argument(v) }
    if let Some(v) = argument(h[11..16].try_into().unwrap()) { b = b.second_argument(v) }
    if h[3] > 0 { b = b.opcode((h[3] - 1) as u8) }
    if h[2] < 4 { b = b.explicit_size(size(h[2])) }
    b.repeat(h[4] == 1, h[5] == 1).finalize()
}

/// The refusal number of a panic's text.
pub fn refusal(e: Box<dyn std::any::Any + Send>) -> u64 {
    let t = e.downcast_ref::<&str>().map(|s| s.to_string()).or(e.downcast_ref::<String>().cloned()).unwrap();
    match t.as_str() {
        "internal error: entered unreachable code" => 1,
        "Cannot set value on immediate value" => 2,
        "called `Option::unwrap()` on a `None` value" => 3,
        "Cannot determine instruction argument size" => 8,
        "Instructions needs one argument" | "Instruction needs first_argument"
        | "Instructions with second_argument also need a first_argument"
        | "Instructions without arguments needs explicit_size set" => 9,
        "Instruction accepts only one argument" => 10,
        "Instruction needs second_argument" => 11,
        _ => { eprintln!("a panic without a number: {}", t); std::process::abort() }
    }
}

extern "C" {
    fn dup2(a: i32, b: i32) -> i32;
    fn memfd_create(name: *const u8, flags: u32) -> i32;
}
/// What the Rust prints goes to a file in memory, and is taken from there after each call.
pub struct Printed { file: File, at: u64 }
impl Printed {
    fn new() -> Printed {
        let file = unsafe { File::from_raw_fd(memfd_create(b"printed\0".as_ptr(), 0)) };
        unsafe { dup2(file.as_raw_fd(), 1) };
        Printed { file, at: 0 }
    }
    pub fn take(&mut self) -> Vec<u8> {
        io::stdout().flush().unwrap();
        let end = self.file.metadata().unwrap().len();
        let mut v = vec![0; (end - self.at) as usize];
        if !v.is_empty() {
            self.file.read_exact_at(&mut v, self.at).unwrap();
            self.at = end;
        }
        v
    }
}
/// Kind, register and value of the event that a printed line tells of.
fn event(line: &[u8]) -> [u64; 3] {
    if line.is_empty() { return [0, 0, 0]; }
    assert_eq!(line.last(), Some(&b'\n'));
    let t = std::str::from_utf8(&line[..line.len() - 1]).unwrap();
    if let Some(shown) = t.strip_prefix("VIDEO: ") {
        assert_eq!(shown.chars().count(), 1);
        return [2, 0, shown.chars().next().unwrap() as u64];
    }
    // CR8's line says CR5 (RULES 6.8)
    let r = match &t[..5] { "CR0: " => CR0, "CR2: " => CR2, "CR3: " => CR3, "CR4: " => CR4, "CR5: " => CR8, _ => panic!("{}", t) };
    [1, r as u64, u64::from_str_radix(&t[5..], 16).unwrap()]
}

pub struct Session {
    pub m: MachineState,
    dir: Vec<u64>,
    used: usize,
    fill: u8,
    /// How many bytes of a page a dump shows.
    pub shown: usize,
    calls: BufWriter<File>,
    answers: BufWriter<File>,
    pub printed: Printed,
    pub counted: u64,
    /// Those that are not the Rust's: arithmetic and the sized flags.
    pub ours: u64,
}

impl Session {
    pub fn new(calls: &str, answers: &str) -> Session {
        let open = |name: &str| BufWriter::with_capacity(1 << 16, File::create(name).unwrap());
        let (m, calls, answers) = (MachineState::new(), open(calls), open(answers));
        Session { m, dir: vec![], used: 0, fill: 0, shown: 4096, calls, answers, printed: Printed::new(), counted: 0, ours: 0 }
    }
    pub fn finish(&mut self) {
        self.calls.flush().unwrap();
        self.answers.flush().unwrap();
    }
    /// Whether a write that touches two absent pages still finds room.
    pub fn room(&self) -> bool { self.used + 2 <= self.dir.len() }

    pub fn put(&mut self, h: &[u64; 16], block: &[u8], mut a: [u64; 8], lent: &[u8]) {
        a[6] = self.used as u64;
        a[7] = lent.len() as u64;
        self.calls.write_all(&bytes_of(h)).unwrap();
        self.calls.write_all(block).unwrap();
        self.answers.write_all(&bytes_of(&a)).unwrap();
        self.answers.write_all(lent).unwrap();
    }

    /// A machine, and a store of so many slots, of which the first hold these pages; all other bytes are `fill`.
    pub fn reset(&mut self, w: &[u64; 25], slots: usize, pages: &[(u64, Vec<u8>)], fill: u8) {
        self.m = machine(w);
        self.dir = vec![0x7777_7777_7777; slots];
        self.used = pages.len();
        self.fill = fill;
        for (i, (number, bytes)) in pages.iter().enumerate() {
            self.dir[i] = *number;
            self.m.memory.insert(*number, bytes.clone());
        }
        let mut block = bytes_of(w);
        block.extend(bytes_of(&self.dir));
        let mut h = [0u64; 16];
        h[..6].copy_from_slice(&[RESET, block.len() as u64, self.used as u64, slots as u64, 4096 * slots as u64, fill as u64]);
        self.put(&h, &block, [0; 8], &[]);
        for (i, (_, bytes)) in pages.iter().enumerate() {
            let mut h = [0u64; 16];
            h[..4].copy_from_slice(&[LOAD, 4096, 0, 4096 * i as u64]);
            self.put(&h, bytes, [0; 8], &[]);
        }
    }

    pub fn show_machine(&mut self) {
        let mut h = [0u64; 16];
        h[0] = SHOW_MACHINE;
        let w = bytes_of(&parents(&self.m));
        self.put(&h, &[], [0; 8], &w);
    }

    /// n bytes from `from` on of a page, which the port shows as zeros where it holds none.
    pub fn view(&mut self, page: u64, from: usize, n: usize) {
        let mut h = [0u64; 16];
        h[..6].copy_from_slice(&[VIEW, 0, 0, page, from as u64, n as u64]);
        h[7] = 4096;
        let bytes = self.m.memory.get(&page).cloned().unwrap_or(vec![0; 4096]);
        self.put(&h, &[], [0; 8], &bytes[from..from + n]);
    }

    /// Everything: the machine, the directory by RULES 3.9, the Rust's pages by their bytes (the first `most`), and a slot that no page has taken.
    pub fn dump(&mut self, most: usize) {
        self.show_machine();
        let mut h = [0u64; 16];
        h[0] = SHOW_DIRECTORY;
        let w = bytes_of(&self.dir);
        self.put(&h, &[], [0; 8], &w);
        let mut pages: Vec<u64> = self.m.memory.keys().cloned().collect();
        pages.sort();
        for page in pages.into_iter().take(most) {
            // where not all is shown, it is from the first byte on that is not 0
            let from = self.m.memory[&page].iter().position(|b| *b != 0).unwrap_or(0).min(4096 - self.shown);
            self.view(page, from, self.shown);
        }
        if self.used < self.dir.len() {
            let mut h = [0u64; 16];
            h[..5].copy_from_slice(&[SHOW_BYTES, 0, 0, 4096 * self.used as u64, 16]);
            let bytes = [self.fill; 16];
            self.put(&h, &[], [0; 8], &bytes);
        }
    }

    /// RULES 3.9: each absent page that a write touches takes the slot after those in use, the lowest page first.
    fn touch(&mut self, p: u64, n: u64) {
        let last = ((p as u128 + n as u128 - 1) / 4096) as u64;
        for page in p / 4096..=last {
            if !self.dir[..self.used].contains(&page) {
                assert!(self.used < self.dir.len(), "the store is too small");
                self.dir[self.used] = page;
                self.used += 1;
            }
        }
    }

    fn record(&mut self, h: [u64; 16], block: &[u8]) {
        let mut lent: Vec<u8> = if h[0] == READ_MEMORY { vec![h[5] as u8; h[4] as usize] } else { block.to_vec() };
        let mut touched: Option<(u64, u64)> = None;
        let outcome = {
            let (m, lent, touched) = (AssertUnwindSafe(&mut self.m), AssertUnwindSafe(&mut lent), AssertUnwindSafe(&mut touched));
            panic::catch_unwind(move || {
                let (AssertUnwindSafe(m), AssertUnwindSafe(lent), AssertUnwindSafe(touched)) = (m, lent, touched);
                carry_out(&h, m, lent, touched)
            })
        };
        let mut a = [0u64; 8];
        match outcome {
            Ok((shape, value)) => {
                a[1] = shape;
                a[2] = value;
                if let Some((p, n)) = touched { self.touch(p, n) }
            }
            Err(e) => {
                a[0] = refusal(e);
                if h[0] >= SIZE { lent.clear() }
            }
        }
        let line = self.printed.take();
        a[3..6].copy_from_slice(&event(&line));
        self.put(&h, block, a, &lent);
        self.counted += 1;
        self.ours += matches!(h[0], ARITHMETIC | COMPUTE_SIZED_FLAGS) as u64;
    }

    pub fn read(&mut self, op: Op, size: u64) { self.on_operand(READ, op, size, 0) }
    pub fn write(&mut self, op: Op, size: u64, v: u64) { self.on_operand(WRITE, op, size, v) }
    pub fn address(&mut self, op: Op) { self.on_operand(ADDRESS, op, 0, 0) }
    fn on_operand(&mut self, kind: u64, op: Op, size: u64, v: u64) {
        let mut h = [0u64; 16];
        h[..4].copy_from_slice(&[kind, 0, size, v]);
        h[6..11].copy_from_slice(&op);
        self.record(h, &[])
    }
    pub fn simple(&mut self, kind: u64, size: u64, a: u64, b: u64) {
        let mut h = [0u64; 16];
        h[..5].copy_from_slice(&[kind, 0, size, a, b]);
        self.record(h, &[])
    }
    pub fn push(&mut self, data: &[u8]) { self.with_block(PUSH, 0, data) }
    pub fn write_memory(&mut self, to: u64, data: &[u8]) { self.with_block(WRITE_MEMORY, to, data) }
    fn with_block(&mut self, kind: u64, a: u64, data: &[u8]) {
        let mut h = [0u64; 16];
        h[..4].copy_from_slice(&[kind, data.len() as u64, 0, a]);
        self.record(h, data)
    }
    pub fn read_memory(&mut self, from: u64, n: u64) {
        let mut h = [0u64; 16];
        h[..6].copy_from_slice(&[READ_MEMORY, 0, 0, from, n, 0xA5]);
        self.record(h, &[])
    }
    pub fn arithmetic(&mut self, operation: u64, size: u64, first: u64, second: u64) {
        let mut h = [0u64; 16];
        h[..6].copy_from_slice(&[ARITHMETIC, 0, size, first, second, operation]);
        self.record(h, &[])
    }
    /// size 4: no explicit size; opcode 0: none, else its number plus 1.
    pub fn arguments(&mut self, kind: u64, first: Op, second: Op, size: u64, opcode: u64, repeats: u64) {
        let mut h = [0u64; 16];
        h[..6].copy_from_slice(&[kind, 0, size, opcode, repeats & 1, repeats >> 1 & 1]);
        h[6..11].copy_from_slice(&first);
        h[11..16].copy_from_slice(&second);
        self.record(h, &[])
    }
}

/// The answer to one record, the Rust's own but for arithmetic and the sized flags: what the value is (0 nothing, 1 a value, 2 a truth), and the value.
fn carry_out(h: &[u64; 16], m: &mut MachineState, lent: &mut Vec<u8>, touched: &mut Option<(u64, u64)>) -> (u64, u64) {
    let first: Op = h[6..11].try_into().unwrap();
    match h[0] {
        READ => (1, m.get_value(&argument(first).unwrap(), size(h[2])) as u64),
        WRITE => {
            let a = argument(first).unwrap();
            if first[0] == 3 && !(first[2] != 0 && first[3] == 0) {
                let v = m.calculate_effective_address(&a);
                *touched = Some((mmu::translate(m, v), 8 >> h[2]));
            }
            m.set_value(h[3] as i64, &a, size(h[2]));
            (0, 0)
        }
        ADDRESS => (1, m.calculate_effective_address(&argument(first).unwrap())),
        PUSH => {
            let n = lent.len() as u64;
            let to = (m.rsp as u64).wrapping_sub(n);
            *touched = Some((mmu::translate(m, to), n));
            m.stack_push(lent);
            (0, 0)
        }
        POP => (1, m.stack_pop() as u64),
        READ_MEMORY => {
            *lent = m.mem_read(h[3], h[4]);
            (0, 0)
        }
        WRITE_MEMORY => {
            *touched = Some((mmu::translate(m, h[3]), lent.len() as u64));
            m.mem_write(h[3], lent);
            (0, 0)
        }
        TEST_FLAG => (2, m.get_flag(flag(h[3])) as u64),
        SET_FLAG => {
            m.set_flag(flag(h[3]), h[4] == 1);
            (0, 0)
        }
        COMPUTE_FLAGS => {
            m.compute_flags(h[3] as i64, size(h[2]));
            (0, 0)
        }
        READ_BYTE => (1, m.mem_read_byte(h[3]) as u64),
        ARITHMETIC => {
            let (operation, bits, before) = (OPERATIONS[h[5] as usize], 64 >> h[2], m.rflags as u64);
            let (answer, rflags) = by_the_rules(operation, bits, h[3], h[4], before);
            assert!(operate(operation, bits, h[3], h[4], before) == (answer, rflags), "two forms of arithmetic differ: {:?}", &h[2..6]);
            m.rflags = rflags as i64;
            answer.map_or((0, 0), |v| (1, v))
        }
        COMPUTE_SIZED_FLAGS => {
            let rflags = sized_flags(h[3], 64 >> h[2], m.rflags as u64);
            // on a result that is extended from its size the Rust's own form gives the same
            m.compute_flags(sign_extended(h[3], 64 >> h[2]) as i64, size(h[2]));
            assert!(m.rflags as u64 == rflags, "the Rust's flags of the extended result differ: {:?}", &h[2..4]);
            (0, 0)
        }
        _ => {
            let args = built(h);
            match h[0] {
                SIZE => (1, args.size() as u64),
                ONE => {
                    *lent = bytes_of(&words(args.get_one_argument()));
                    (0, 0)
                }
                _ => {
                    let (x, y) = args.get_two_arguments();
                    *lent = bytes_of(&words(x));
                    lent.extend(bytes_of(&words(y)));
                    (0, 0)
                }
            }
        }
    }
}
