/* Lends machines to ruonasvel_set_flag and compares each word they are left with, and the answer, with what is computed here (tools/link runs it).
   The kit has no C headers of its own but for those that tools/link writes, so printf is declared here. */
#include "ruonasvel.h"

int printf(const char *format, ...);

static const int bit[6] = {0, 2, 6, 7, 10, 11}; /* CF, PF, ZF, SF, DF, OF in rflags */
static const uint64_t flags[] = {0, 1, 2, 3, 4, 5, 6, 7, 255, 256, 0xffffffff, 0x100000000, 0x100000005, 0x8000000000000000, 0xffffffffffffffff};
static const uint64_t values[] = {0, 1, 2, 256, 0x100000000, 0x8000000000000000, 0xffffffffffffffff};
static const uint64_t rflags[] = {0, 0xffffffffffffffff, 0x8c5, 0xfffffffffffff73a, 0x0123456789abcdef, 0x400, 0x8000000000000001};

#define COUNT(xs) (sizeof(xs) / sizeof((xs)[0]))

static int checks, failed;

static void check(bool good, const char *what, uint64_t flag, uint64_t value, uint64_t before) {
    checks++;
    if (!good) {
        failed++;
        printf("%s: flag %lx, value %lx, rflags %lx\n", what, (unsigned long)flag, (unsigned long)value, (unsigned long)before);
    }
}

static void lend(uint64_t flag, uint64_t value, uint64_t before) {
    /* the machine lies between two words that no call may touch */
    struct {
        uint64_t below;
        struct ruonasvel_machine machine;
        uint64_t above;
    } room, was;
    room.below = 0x1111111111111111;
    for (int i = 0; i < 22; i++)
        room.machine.regs[i] = 0x9e3779b97f4a7c15u * (uint64_t)(i + 1);
    room.machine.rflags = before;
    room.machine.gdt = 0xfedcba9876543210;
    room.machine.idt = 0x0f1e2d3c4b5a6978;
    room.above = 0x2222222222222222;
    was = room;
    bool answer = ruonasvel_set_flag(&room.machine, flag, value);
    uint64_t after = before;
    if (flag < 6) {
        uint64_t mask = (uint64_t)1 << bit[flag];
        after = value != 0 ? before | mask : before & ~mask;
    }
    check(answer == (flag < 6), "answer", flag, value, before);
    check(room.machine.rflags == after, "rflags", flag, value, before);
    bool kept = room.below == was.below && room.above == was.above && room.machine.gdt == was.machine.gdt && room.machine.idt == was.machine.idt;
    for (int i = 0; i < 22; i++)
        kept = kept && room.machine.regs[i] == was.machine.regs[i];
    check(kept, "another word", flag, value, before);
}

int main(void) {
    for (unsigned f = 0; f < COUNT(flags); f++)
        for (unsigned v = 0; v < COUNT(values); v++)
            for (unsigned r = 0; r < COUNT(rflags); r++)
                lend(flags[f], values[v], rflags[r]);
    printf("linked test: %d checks, %d failed\n", checks, failed);
    return failed != 0;
}
