/* Add, add with carry, subtract, subtract with borrow and compare, three times over: the processor's own instructions, the proved code behind
   ruonasvel_arithmetic, and the manual's rules written once more here, with numbers of 128 bits, which no sum or difference leaves (tools/link
   runs it). A case is an operation, a size, two values and the Carry before: at 8 bits every pair of values, at each size every pair of 64 edges
   and pseudo-random words. Compared with the processor are the value and the five flags, and Direction, which stays; these flags are clear
   before, and then set. Auxiliary carry, which the processor rewrites too and the code does not, is left out and counted (docs/DIFFERENCES.md).
   Compared with the rules are the value and every bit of rflags. In each case the machine's other words must stay, and the words beside it.
   Likewise the flags of a result behind ruonasvel_compute_sized_flags: the processor's are those of `test` of the result with itself, of which
   Zero, Sign and Parity are compared, and Direction (`test` clears Carry and Overflow, and the code leaves them). A case is a size and a result:
   at each size all of 16 bits at five places of the word, and the 64 edges. Those are counted in which Zero is set and the whole word is not 0:
   there compute_flags, which looks at all 64 bits, would leave it clear.
   The kit has no C headers of its own but for those that tools/link writes, so printf is declared here. */
#include "ruonasvel.h"

int printf(const char *format, ...);

enum { ADD, ADC, SUB, SBB, CMP, TEST }; /* the operations' numbers; test has none */
static const char *const name[6] = {"add", "adc", "sub", "sbb", "cmp", "test"};
static const int width[4] = {64, 32, 16, 8}; /* by the size's number */

#define CARRY 0x1u
#define PARITY 0x4u
#define ZERO 0x40u
#define SIGN 0x80u
#define THREE 0xc4u /* Parity, Zero, Sign */
#define FIVE 0x8c5u /* Carry, Parity, Zero, Sign, Overflow */
#define AUXILIARY 0x10u
#define DIRECTION 0x400u
#define PROCESSOR 0x202u /* bit 1 always reads 1, and bit 9 lets interrupts in */
#define FILL 0x9e3779b97f4a7c15u

struct result {
    uint64_t value, rflags;
};

/* ---- the processor: rflags are set to `before`, the instruction runs, rflags are read, and Direction is cleared, as C wants it */
#define RUN(TEXT, TYPE)                                                                                                  \
    {                                                                                                                    \
        TYPE x = (TYPE)a, y = (TYPE)b;                                                                                   \
        uint64_t f;                                                                                                      \
        __asm__ volatile("push %2\n\tpopfq\n\t" TEXT " %3, %0\n\tpushfq\n\tpop %1\n\tcld"                                \
                         : "+r"(x), "=&r"(f)                                                                             \
                         : "r"(before), "r"(y)                                                                           \
                         : "cc", "memory");                                                                              \
        return (struct result){x, f};                                                                                    \
    }

#define SIZED(SUFFIX, TYPE)                                                                                              \
    static struct result run_##SUFFIX(int op, uint64_t a, uint64_t b, uint64_t before) {                                 \
        switch (op) {                                                                                                    \
        case ADD: RUN("add" #SUFFIX, TYPE)                                                                               \
        case ADC: RUN("adc" #SUFFIX, TYPE)                                                                               \
        case SUB: RUN("sub" #SUFFIX, TYPE)                                                                               \
        case SBB: RUN("sbb" #SUFFIX, TYPE)                                                                               \
        case CMP: RUN("cmp" #SUFFIX, TYPE)                                                                               \
        default: RUN("test" #SUFFIX, TYPE)                                                                               \
        }                                                                                                                \
    }

SIZED(b, unsigned char)
SIZED(w, unsigned short)
SIZED(l, unsigned)
SIZED(q, uint64_t)

/* compare and test leave their first value where it was; the others' results are sign-extended here, as an answer is */
static struct result by_processor(int op, int w, uint64_t a, uint64_t b, uint64_t before) {
    struct result p;
    switch (w) {
    case 8: p = run_b(op, a, b, before); break;
    case 16: p = run_w(op, a, b, before); break;
    case 32: p = run_l(op, a, b, before); break;
    default: p = run_q(op, a, b, before);
    }
    if (p.value >> (w - 1) & 1)
        p.value |= ~(uint64_t)0 << (w - 1);
    return p;
}

/* ---- the rules */
typedef __int128 whole;

/* Parity, Zero and Sign of a number of w bits */
static uint64_t three_flags(int w, whole r) {
    int ones = 0;
    for (int i = 0; i < 8; i++)
        ones += (int)(r >> i & 1);
    return (ones % 2 == 0 ? PARITY : 0) | (r == 0 ? ZERO : 0) | (r >= (whole)1 << (w - 1) ? SIGN : 0);
}

static struct result by_rule(int op, int w, uint64_t a, uint64_t b, uint64_t before) {
    whole range = (whole)1 << w, half = (whole)1 << (w - 1);
    whole ua = a & (range - 1), ub = b & (range - 1), c = op == ADC || op == SBB ? before & CARRY : 0;
    whole sa = ua < half ? ua : ua - range, sb = ub < half ? ub : ub - range;
    bool plus = op == ADD || op == ADC;
    whole u = plus ? ua + ub + c : ua - ub - c; /* of the values without sign */
    whole s = plus ? sa + sb + c : sa - sb - c; /* of the values with their signs */
    bool carry = u < 0 || u >= range, overflow = s < -half || s >= half;
    whole r = u & (range - 1);
    uint64_t f = (carry ? 0x1u : 0) | three_flags(w, r) | (overflow ? 0x800u : 0);
    return (struct result){(uint64_t)(r < half ? r : r - range), (before & ~(uint64_t)FIVE) | f};
}

/* ---- the proved code, on a machine that lies between two words that no call may touch */
union room {
    uint64_t words[27];
    struct {
        uint64_t below;
        struct ruonasvel_machine machine;
        uint64_t above;
    } parts;
};

static void furnish(union room *room, uint64_t before) {
    for (unsigned i = 0; i < 27; i++)
        room->words[i] = FILL * (i + 1);
    room->parts.machine.rflags = before;
}

/* all words but rflags are as they were */
static bool kept(const union room *room) {
    bool same = true;
    for (unsigned i = 0; i < 27; i++)
        if (&room->words[i] != &room->parts.machine.rflags)
            same = same && room->words[i] == FILL * (i + 1);
    return same;
}

struct seen {
    struct ruonasvel_arithmetic_answer answer;
    uint64_t rflags;
    bool kept;
};

static struct seen by_code(uint64_t op, uint64_t size, uint64_t a, uint64_t b, uint64_t before) {
    union room room;
    furnish(&room, before);
    struct ruonasvel_arithmetic_answer answer = ruonasvel_arithmetic(&room.parts.machine, op, size, a, b);
    return (struct seen){answer, room.parts.machine.rflags, kept(&room)};
}

/* a flag call answers whether its size is known, and no value */
static struct seen flags_by_code(uint64_t size, uint64_t result, uint64_t before) {
    union room room;
    furnish(&room, before);
    bool known = ruonasvel_compute_sized_flags(&room.parts.machine, result, size);
    return (struct seen){{known, 0, 0}, room.parts.machine.rflags, kept(&room)};
}

/* an answer of this value, and from compare nothing */
static bool answered(int op, struct seen seen, uint64_t value) {
    bool compares = op == CMP;
    return seen.answer.known == 1 && seen.answer.answers == !compares && seen.answer.value == (compares ? 0 : value) && seen.kept;
}

static long cases, differ, auxiliary, zero_at_size;

static void report(const char *beside, int op, int w, uint64_t a, uint64_t b, uint64_t before, struct result r, struct seen c) {
    if (differ >= 20)
        return;
    printf("%s of %d bits: %lx, %lx, rflags %lx. ", name[op], w, (unsigned long)a, (unsigned long)b, (unsigned long)before);
    printf("%s: %lx, rflags %lx. ", beside, (unsigned long)r.value, (unsigned long)r.rflags);
    printf("code: %lx, rflags %lx\n", (unsigned long)c.answer.value, (unsigned long)c.rflags);
}

/* 1 where the code differs from the rules, else 0 */
static int beside_rule(int op, uint64_t size, uint64_t a, uint64_t b, uint64_t before) {
    struct result r = by_rule(op, width[size], a, b, before);
    struct seen c = by_code((uint64_t)op, size, a, b, before);
    bool same = answered(op, c, r.value) && c.rflags == r.rflags;
    if (!same)
        report("rule", op, width[size], a, b, before, r, c);
    return !same;
}

static int beside_processor(int op, uint64_t size, uint64_t a, uint64_t b, uint64_t before) {
    struct result p = by_processor(op, width[size], a, b, before);
    struct seen c = by_code((uint64_t)op, size, a, b, before);
    bool same = answered(op, c, p.value) && ((p.rflags ^ c.rflags) & (FIVE | DIRECTION)) == 0;
    auxiliary += (p.rflags & ~before & AUXILIARY) != 0;
    if (!same)
        report("processor", op, width[size], a, b, before, p, c);
    return !same;
}

/* the other flags clear before and set; and then every bit but Carry, with other bits above the size */
static void compare(int op, uint64_t size, uint64_t a, uint64_t b, uint64_t carry) {
    uint64_t clear = PROCESSOR | carry, set = clear | (FIVE - CARRY) | AUXILIARY | DIRECTION;
    uint64_t above = size == 0 ? 0 : FILL << width[size];
    int wrong = beside_processor(op, size, a, b, clear) + beside_processor(op, size, a ^ above, b, set);
    wrong += beside_rule(op, size, a, b, carry) + beside_rule(op, size, a, b ^ above, carry | ~(uint64_t)CARRY);
    cases++;
    differ += wrong != 0;
}

/* the flags of a result, of which w bits count */
static int flags_beside_rule(uint64_t size, uint64_t result, uint64_t before) {
    int w = width[size];
    whole low = result & (((whole)1 << w) - 1);
    struct result r = {0, (before & ~(uint64_t)THREE) | three_flags(w, low)};
    struct seen c = flags_by_code(size, result, before);
    bool same = c.answer.known == 1 && c.kept && c.rflags == r.rflags;
    if (!same)
        report("rule", TEST, w, result, result, before, r, c);
    return !same;
}

static int flags_beside_processor(uint64_t size, uint64_t result, uint64_t before) {
    struct result p = by_processor(TEST, width[size], result, result, before);
    struct seen c = flags_by_code(size, result, before);
    bool same = c.answer.known == 1 && c.kept && ((p.rflags ^ c.rflags) & (THREE | DIRECTION)) == 0;
    zero_at_size += result != 0 && (p.rflags & ~before & ZERO) != 0;
    if (!same)
        report("processor", TEST, width[size], result, result, before, p, c);
    return !same;
}

/* the flags clear before and set; and then every bit */
static void compare_flags(uint64_t size, uint64_t result) {
    uint64_t set = PROCESSOR | FIVE | AUXILIARY | DIRECTION;
    int wrong = flags_beside_processor(size, result, PROCESSOR) + flags_beside_processor(size, result, set);
    wrong += flags_beside_rule(size, result, 0) + flags_beside_rule(size, result, ~(uint64_t)0);
    cases++;
    differ += wrong != 0;
}

static const uint64_t numbers[] = {0, 1, 2, 3, 4, 5, 255, 256, 0xffffffff, 0x100000000, 0x100000003, 0x8000000000000000, 0xffffffffffffffff};
#define NUMBERS (sizeof(numbers) / sizeof(numbers[0]))

/* a number that names nothing: no word changes, and nothing is answered */
static void refuse(uint64_t op, uint64_t size, uint64_t before) {
    struct seen c = by_code(op, size, 0xff, 0x8000000000000001, before);
    bool same = c.answer.known == 0 && c.answer.answers == 0 && c.answer.value == 0 && c.rflags == before && c.kept;
    if (!same && differ < 20)
        printf("operation %lx, size %lx: known %lx, rflags %lx\n", (unsigned long)op, (unsigned long)size, (unsigned long)c.answer.known,
            (unsigned long)c.rflags);
    cases++;
    differ += !same;
}

/* a number that names no size: no word changes */
static void refuse_flags(uint64_t size, uint64_t before) {
    struct seen c = flags_by_code(size, 0x8000000000000001, before);
    bool same = c.answer.known == 0 && c.rflags == before && c.kept;
    if (!same && differ < 20)
        printf("flags at size %lx: known %lx, rflags %lx\n", (unsigned long)size, (unsigned long)c.answer.known, (unsigned long)c.rflags);
    cases++;
    differ += !same;
}

static uint64_t edge[64];

static void fill_edges(void) {
    int edges = 0;
    for (int w = 8; w <= 64; w *= 2)
        for (uint64_t i = 0; i < 3; i++) {
            edge[edges++] = ((uint64_t)1 << (w - 1)) - 1 + i;       /* about the least negative value */
            edge[edges++] = (((uint64_t)1 << (w - 1)) - 1) * 2 + i; /* about the last value */
        }
    for (uint64_t i = 0; i < 8; i++)
        edge[edges++] = i;
    for (uint64_t x = FILL; edges < 64; x = x * 6364136223846793005u + 1442695040888963407u)
        edge[edges++] = x;
}

static void all_bytes(int op, uint64_t carry) {
    for (uint64_t a = 0; a < 256; a++)
        for (uint64_t b = 0; b < 256; b++)
            compare(op, 3, a, b, carry);
}

static void all_edges(int op, uint64_t size, uint64_t carry) {
    for (int j = 0; j < 64; j++)
        for (int k = 0; k < 64; k++)
            compare(op, size, edge[j], edge[k], carry);
}

static void all_results(uint64_t size) {
    for (uint64_t v = 0; v < 65536; v++)
        for (int at = 0; at <= 48; at += 12)
            compare_flags(size, v << at);
    for (int j = 0; j < 64; j++)
        compare_flags(size, edge[j]);
}

int main(void) {
    fill_edges();
    for (int op = ADD; op <= CMP; op++)
        for (uint64_t carry = 0; carry < 2; carry++) {
            all_bytes(op, carry);
            for (uint64_t size = 0; size < 4; size++)
                all_edges(op, size, carry);
        }
    for (unsigned o = 0; o < NUMBERS; o++)
        for (unsigned s = 0; s < NUMBERS; s++)
            if (numbers[o] > 4 || numbers[s] > 3) {
                refuse(numbers[o], numbers[s], 0);
                refuse(numbers[o], numbers[s], ~(uint64_t)0);
            }
    for (uint64_t size = 0; size < 4; size++)
        all_results(size);
    for (unsigned s = 0; s < NUMBERS; s++)
        if (numbers[s] > 3) {
            refuse_flags(numbers[s], 0);
            refuse_flags(numbers[s], ~(uint64_t)0);
        }
    printf("the processor sets Auxiliary carry in %ld cases\n", auxiliary);
    printf("it sets Zero of a result that is not 0 as a whole in %ld cases\n", zero_at_size);
    printf("processor test: %ld cases, %ld differ\n", cases, differ);
    return differ != 0 || zero_at_size == 0;
}
