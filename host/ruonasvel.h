/* A host in C that keeps one machine and lends it: crates/host, linked from target/staticlib/libhost.a, which tools/link writes of crates/host_c. The
   library wants memcpy and memset from outside, and no other name. */
#ifndef RUONASVEL_H
#define RUONASVEL_H

#include <stdbool.h>
#include <stdint.h>

/* The parents by their numbers (RULES 2.2): RAX 0, RBX, RCX, RDX, RSP, RBP, RSI, RDI, R8 to R15, RIP 16, CR0, CR2, CR3, CR4, CR8 21. */
struct ruonasvel_machine {
    uint64_t regs[22];
    uint64_t rflags;
    uint64_t gdt;
    uint64_t idt;
};

/* Flag 0 is Carry, 1 Parity, 2 Zero, 3 Sign, 4 Direction, 5 Overflow: value 0 clears its bit of rflags, any other value sets it, and the answer is
   true. Any other number leaves the machine as it is, and the answer is false. `machine` points to a machine, which is lent for the call: nothing
   else may use it meanwhile. */
bool ruonasvel_set_flag(struct ruonasvel_machine *machine, uint64_t flag, uint64_t value);

/* What an operation answers: `known` is 1 where both its numbers name something, else 0; `answers` is 1 where `value` is an answer, else 0 and
   `value` is 0. */
struct ruonasvel_arithmetic_answer {
    uint64_t known;
    uint64_t answers;
    uint64_t value;
};

/* Operation 0 is add, 1 add with carry, 2 subtract, 3 subtract with borrow, 4 compare; size 0 is 64 bits, 1 is 32, 2 is 16, 3 is 8. `first` and
   `second` are any words, of which the low bits of the size are taken; 1 and 3 also take Carry from rflags. Carry, Parity, Zero, Sign and Overflow in
   rflags become those of the result; every other bit of rflags and every other word of the machine stays, Direction and Auxiliary carry too. The
   answer is the result, sign-extended from the size; compare answers nothing. Any other number for the operation or the size leaves the machine as
   it is. `machine` points to a machine, which is lent for the call: nothing else may use it meanwhile. */
struct ruonasvel_arithmetic_answer ruonasvel_arithmetic(struct ruonasvel_machine *machine, uint64_t operation, uint64_t size, uint64_t first, uint64_t second);

/* Zero, Sign and Parity in rflags become those of a result: Zero and Sign look at its low bits, as many as the size has, Parity at its low byte, as
   the processor does it. `result` is any word; every other bit of rflags and every other word of the machine stays, and the answer is true. Size 0
   is 64 bits, 1 is 32, 2 is 16, 3 is 8; any other number leaves the machine as it is, and the answer is false. `machine` points to a machine, which
   is lent for the call: nothing else may use it meanwhile. */
bool ruonasvel_compute_sized_flags(struct ruonasvel_machine *machine, uint64_t result, uint64_t size);

/* What a write answers: `refusal` is 0 where it is accepted, or 4, 5 or 6; with 6 `lacking` says how many slots lack, else it is 0; `used` is how many
   slots are in use afterwards; `shows` is 1 where the screen shows `byte`, else both are 0. */
struct ruonasvel_write_answer {
    uint64_t refusal;
    uint64_t lacking;
    uint64_t used;
    uint64_t shows;
    uint64_t byte;
};

/* Writes `count` bytes of `data` to an address; where CR3 is not 0, to where the walk leads. No word of the machine changes. The store is lent: `dir` has
   a page number to each of its `slots`, `bytes` their pages, `length` bytes in all, and `used` slots are in use: lend the `used` of the last answer, 0
   at first. A page is 4,096 bytes; a page that no slot in use has takes the next slot, which is cleared. Refused, it leaves every byte and number, and
   `used`, as they were: 4, `length` is not 4,096 times `slots`, or `used` is more than `slots`, or `slots` more than 65,536; 5, more than 4,096 bytes;
   6, `lacking` slots are too few: the same call is accepted on the same store with just so many more slots behind those it has, whatever these hold
   (to 65,536 in all). No pointer may be NULL, also where its length is 0, and the four things that are lent may not overlap. */
struct ruonasvel_write_answer ruonasvel_mem_write(const struct ruonasvel_machine *machine, uint64_t address, const uint8_t *data, uint64_t count,
                                                  uint64_t *dir, uint64_t slots, uint8_t *bytes, uint64_t length, uint64_t used);

#endif
