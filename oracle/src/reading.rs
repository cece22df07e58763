//! Operand text read back (RULES 6.10 to 6.12), written plainly: the Rust has no reader. One operand, or two joined by a comma, in exactly the form
//! that is printed; else the offset of the first byte with which no operand text goes on, or the text's length where it ends too soon.
use rust::instruction_set::Register::{self, *};
use rust::instruction_set::{ArgumentSize, InstructionArgument};

const NAMES: [&str; 80] = [
    "rax", "rbx", "rcx", "rdx", "rsp", "rbp", "rsi", "rdi", "r8", "r9", "r10", "r11", "r12", "r13", "r14", "r15",
    "rip", "cr0", "cr2", "cr3", "cr4", "cr8", "eax", "ebx", "ecx", "edx", "esp", "ebp", "esi", "edi", "r8d", "r9d",
    "r10d", "r11d", "r12d", "r13d", "r14d", "r15d", "ax", "cx", "dx", "bx", "sp", "bp", "si", "di", "r8w", "r9w",
    "r10w", "r11w", "r12w", "r13w", "r14w", "r15w", "al", "cl", "dl", "bl", "ah", "ch", "dh", "bh", "spl", "bpl",
    "sil", "dil", "r8b", "r9b", "r10b", "r11b", "r12b", "r13b", "r14b", "r15b", "es", "cs", "ss", "ds", "fs", "gs",
];

fn register_of(name: &[u8]) -> Option<Register> {
    Some(match name {
        b"rax" => RAX,
        b"rbx" => RBX,
        b"rcx" => RCX,
        b"rdx" => RDX,
        b"rsp" => RSP,
        b"rbp" => RBP,
        b"rsi" => RSI,
        b"rdi" => RDI,
        b"r8" => R8,
        b"r9" => R9,
        b"r10" => R10,
        b"r11" => R11,
        b"r12" => R12,
        b"r13" => R13,
        b"r14" => R14,
        b"r15" => R15,
        b"rip" => RIP,
        b"cr0" => CR0,
        b"cr2" => CR2,
        b"cr3" => CR3,
        b"cr4" => CR4,
        b"cr8" => CR8,
        b"eax" => EAX,
        b"ebx" => EBX,
        b"ecx" => ECX,
        b"edx" => EDX,
        b"esp" => ESP,
        b"ebp" => EBP,
        b"esi" => ESI,
        b"edi" => EDI,
        b"r8d" => R8D,
        b"r9d" => R9D,
        b"r10d" => R10D,
        b"r11d" => R11D,
        b"r12d" => R12D,
        b"r13d" => R13D,
        b"r14d" => R14D,
        b"r15d" => R15D,
        b"ax" => AX,
        b"cx" => CX,
        b"dx" => DX,
        b"bx" => BX,
        b"sp" => SP,
        b"bp" => BP,
        b"si" => SI,
        b"di" => DI,
        b"r8w" => R8W,
        b"r9w" => R9W,
        b"r10w" => R10W,
        b"r11w" => R11W,
        b"r12w" => R12W,
        b"r13w" => R13W,
        b"r14w" => R14W,
        b"r15w" => R15W,
        b"al" => AL,
        b"cl" => CL,
        b"dl" => DL,
        b"bl" => BL,
        b"ah" => AH,
        b"ch" => CH,
        b"dh" => DH,
        b"bh" => BH,
        b"spl" => SPL,
        b"bpl" => BPL,
        b"sil" => SIL,
        b"dil" => DIL,
        b"r8b" => R8B,
        b"r9b" => R9B,
        b"r10b" => R10B,
        b"r11b" => R11B,
        b"r12b" => R12B,
        b"r13b" => R13B,
        b"r14b" => R14B,
        b"r15b" => R15B,
        b"es" => ES,
        b"cs" => CS,
        b"ss" => SS,
        b"ds" => DS,
        b"fs" => FS,
        b"gs" => GS,
        _ => return None,
    })
}

/// Whether some name begins so. Only the offset of a refusal asks for it.
fn begins_name(start: &[u8]) -> bool {
    NAMES.iter().any(|name| name.as_bytes().starts_with(start))
}

struct Cursor<'a> {
    text: &'a [u8],
    at: usize,
}

/// A part of an operand, or the offset at which it cannot go on.
type Parsed<T> = Result<T, usize>;

impl<'a> Cursor<'a> {
    fn peek(&self) -> Option<u8> {
        self.text.get(self.at).copied()
    }

    fn eat(&mut self, byte: u8) -> bool {
        let found = self.peek() == Some(byte);
        self.at += found as usize;
        found
    }

    fn expect(&mut self, byte: u8) -> Parsed<()> {
        if self.eat(byte) { Ok(()) } else { Err(self.at) }
    }

    fn digit(&self, radix: u64) -> Option<u64> {
        let digit = match self.peek()? {
            b @ b'0'..=b'9' => b - b'0',
            b @ b'a'..=b'f' => b - b'a' + 10,
            _ => return None,
        };
        Some(digit as u64).filter(|&d| d < radix)
    }

    /// A number from `least` to `most` without leading zeros, up to the first digit that would not keep it so.
    fn number(&mut self, radix: u64, least: u64, most: u64) -> Parsed<u64> {
        let mut value = self.digit(radix).filter(|&d| d >= least).ok_or(self.at)?;
        self.at += 1;
        while value != 0 {
            match self.digit(radix) {
                Some(d) if value <= (most - d) / radix => value = value * radix + d,
                _ => break,
            }
            self.at += 1;
        }
        Ok(value)
    }

    fn hex(&mut self, least: u64, most: u64) -> Parsed<u64> {
        self.expect(b'0')?;
        self.expect(b'x')?;
        self.number(16, least, most)
    }

    /// A name without its `%`.
    fn name(&mut self) -> Parsed<Register> {
        let rest = &self.text[self.at..];
        let letters = rest.iter().take_while(|b| b.is_ascii_alphanumeric()).count();
        if let Some(register) = register_of(&rest[..letters]) {
            self.at += letters;
            return Ok(register);
        }
        let viable = (0..=letters).rev().find(|&n| begins_name(&rest[..n])).unwrap_or(0);
        Err(self.at + viable)
    }

    /// What follows `(`: a base, an index with its scale, or both.
    fn parts(&mut self, displacement: i32) -> Parsed<InstructionArgument> {
        let base = if self.eat(b'%') { Some(self.name()?) } else { None };
        let (mut index, mut scale) = (None, None);
        if base.is_none() || self.peek() != Some(b')') {
            self.expect(b',')?;
            self.expect(b'%')?;
            index = Some(self.name()?);
            self.expect(b',')?;
            scale = Some(self.number(10, 0, 255)? as u8);
        }
        self.expect(b')')?;
        Ok(InstructionArgument::EffectiveAddress { base, index, scale, displacement })
    }

    fn operand(&mut self) -> Parsed<InstructionArgument> {
        if self.eat(b'%') {
            return Ok(InstructionArgument::Register { register: self.name()? });
        }
        if self.eat(b'$') {
            return Ok(InstructionArgument::Immediate { immediate: self.hex(0, u64::MAX)? as i64 });
        }
        let displacement = if self.eat(b'-') {
            -(self.hex(1, 0x8000_0000)? as i64) as i32
        } else {
            self.hex(0, 0x7FFF_FFFF)? as i32
        };
        if self.eat(b'(') {
            return self.parts(displacement);
        }
        Ok(InstructionArgument::EffectiveAddress { base: None, index: None, scale: None, displacement })
    }
}

pub fn read_operands(text: &[u8]) -> Parsed<(InstructionArgument, Option<InstructionArgument>)> {
    let mut cursor = Cursor { text, at: 0 };
    let first = cursor.operand()?;
    let second = if cursor.eat(b',') { Some(cursor.operand()?) } else { None };
    if cursor.at < text.len() {
        return Err(cursor.at);
    }
    Ok((first, second))
}

/// 64 texts: each displacement with each name once as the base and once as the index.
fn some_operand(k: u64) -> InstructionArgument {
    let name = k % 16;
    crate::any_operand((k / 16) << 30 | name << 40 | (5 * name % 16) << 44)
}

/// Of the displacement 32 bits, as in crates/pace.
fn words(operand: &InstructionArgument) -> [u64; 5] {
    let number = |part: Option<Register>| part.map_or(0, |r| r as u64 + 1);
    match *operand {
        InstructionArgument::Immediate { immediate } => [1, 0, 0, 0, immediate as u64],
        InstructionArgument::Register { register } => [2, register as u64 + 1, 0, 0, 0],
        InstructionArgument::EffectiveAddress { base, index, scale, displacement } => {
            [3, number(base), number(index), scale.map_or(0, |s| s as u64 + 1), displacement as u32 as u64]
        }
    }
}

pub fn read_back(turns: u64) -> u64 {
    let texts: Vec<String> = (0..64).map(|k| some_operand(k).format(ArgumentSize::Bit64)).collect();
    let mut sum = 1u64;
    for _ in 0..turns {
        let text = texts[(sum >> 58 ^ sum >> 33) as usize % 64].as_bytes();
        sum = match read_operands(text) {
            Ok((first, _)) => words(&first).into_iter().fold(sum, crate::mix),
            Err(place) => crate::mix(sum, place as u64),
        };
    }
    sum
}
