/* Lends a machine and a store to ruonasvel_mem_write, and holds each answer, number and byte against RULES 3, 4 and 7.5, worked out here by
   the directory and the walk alone (tools/link runs it). A write that lacks slots is tried again with one slot fewer than lack, and with just so
   many. The kit has no C headers of its own but for those that tools/link writes, so printf is declared here. */
#include "ruonasvel.h"

int printf(const char *format, ...);

#define SLOTS 8
#define CR3 19
#define PAGE 4096

struct store {
    uint64_t dir[SLOTS];
    uint8_t bytes[SLOTS * PAGE];
    uint64_t slots, used;
};

static int checks, failed;
static uint64_t state = 20261116;

static uint64_t draw(uint64_t n) {
    state = state * 6364136223846793005u + 1442695040888963407u;
    return (state >> 33) % n;
}

static void check(bool good, const char *what, uint64_t address, uint64_t count) {
    checks++;
    if (!good) {
        failed++;
        printf("%s: %lu bytes at %lx\n", what, (unsigned long)count, (unsigned long)address);
    }
}

/* The slot of a page, or the count in use. */
static uint64_t slot_of(const struct store *s, uint64_t page) {
    uint64_t i = 0;
    while (i < s->used && s->dir[i] != page)
        i++;
    return i;
}

/* Byte k of memory from the start of a page on: pages go on past 2^52 - 1, and do not wrap. */
static uint8_t byte_of(const struct store *s, uint64_t page, uint64_t k) {
    uint64_t i = slot_of(s, page + k / PAGE);
    return i == s->used ? 0 : s->bytes[PAGE * i + k % PAGE];
}

static uint64_t word_of(const struct store *s, uint64_t p) {
    uint64_t word = 0;
    for (uint64_t k = 8; k-- > 0;)
        word = word << 8 | byte_of(s, p / PAGE, p % PAGE + k);
    return word;
}

static uint64_t walked(const struct store *s, uint64_t cr3, uint64_t address) {
    uint64_t table = cr3;
    if (cr3 == 0)
        return address;
    for (int lowest = 39; lowest >= 21; lowest -= 9)
        table = word_of(s, table + 8 * (address >> lowest & 0x1ff)) & ~(uint64_t)0xfff;
    return table + (address & 0x1fffff);
}

/* What the write should leave of s, and its answer. */
static struct ruonasvel_write_answer expected(struct store *s, uint64_t cr3, uint64_t address, const uint8_t *data, uint64_t count, uint64_t length) {
    struct ruonasvel_write_answer r = {0, 0, s->used, 0, 0};
    if (length != PAGE * s->slots || s->used > s->slots) {
        r.refusal = 4;
        return r;
    }
    if (count > PAGE)
        r.refusal = 5;
    if (count > PAGE || count == 0)
        return r;
    uint64_t p = walked(s, cr3, address), page = p / PAGE, off = p % PAGE;
    bool two = off + count > PAGE;
    uint64_t absent = (slot_of(s, page) == s->used) + (two && slot_of(s, page + 1) == s->used);
    if (absent + s->used > s->slots) {
        r.refusal = 6;
        r.lacking = absent + s->used - s->slots;
        return r;
    }
    for (uint64_t k = 0; k < count; k++) {
        uint64_t i = slot_of(s, page + (off + k) / PAGE);
        if (i == s->used) {
            s->dir[i] = page + (off + k) / PAGE;
            for (int j = 0; j < PAGE; j++)
                s->bytes[PAGE * i + j] = 0;
            s->used++;
        }
        s->bytes[PAGE * i + (off + k) % PAGE] = data[k];
    }
    r.used = s->used;
    if (p >= 0xb8000 && p <= 0xb8fa0 && p % 2 == 0) {
        r.shows = 1;
        r.byte = data[0];
    }
    return r;
}

static struct ruonasvel_machine machine, before;
static struct store lent, model;
static uint8_t data[2 * PAGE];

/* One write, compared in answer, machine, and all that is lent, also past the store's end. */
static struct ruonasvel_write_answer compared(uint64_t address, uint64_t count, uint64_t length) {
    model = lent;
    before = machine;
    struct ruonasvel_write_answer want = expected(&model, machine.regs[CR3], address, data, count, length);
    struct ruonasvel_write_answer got = ruonasvel_mem_write(&machine, address, data, count, lent.dir, lent.slots, lent.bytes, length, lent.used);
    check(got.refusal == want.refusal, "refusal", address, count);
    check(got.lacking == want.lacking, "slots lacking", address, count);
    check(got.used == want.used && got.shows == want.shows && got.byte == want.byte, "answer", address, count);
    bool same = true;
    for (int i = 0; i < SLOTS; i++)
        same = same && lent.dir[i] == model.dir[i];
    for (int i = 0; i < SLOTS * PAGE; i++)
        same = same && lent.bytes[i] == model.bytes[i];
    for (int i = 0; i < 22; i++)
        same = same && machine.regs[i] == before.regs[i];
    same = same && machine.rflags == before.rflags && machine.gdt == before.gdt && machine.idt == before.idt;
    check(same, "what is lent", address, count);
    lent.used = got.used;
    return got;
}

/* A host's own way: on 6 the store grows by what lacks, and the call is made again. Before that, by one slot fewer. */
static void grown(uint64_t address, uint64_t count) {
    struct ruonasvel_write_answer r = compared(address, count, PAGE * lent.slots);
    if (r.refusal != 6 || lent.slots + r.lacking > SLOTS)
        return;
    lent.slots += r.lacking - 1;
    check(compared(address, count, PAGE * lent.slots).lacking == 1, "one fewer", address, count);
    lent.slots += 1;
    r = compared(address, count, PAGE * lent.slots);
    check(r.refusal == 0 && r.used == lent.slots, "just so many", address, count);
}

/* A store of so many slots, so many in use, whose unused slots hold stale numbers and bytes. */
static void start(uint64_t slots, uint64_t used, uint64_t cr3) {
    static const uint64_t pages[] = {0, 1, 2, 3, 7, 0x600, 0xb8, 0xfffffffffffff};
    static const uint64_t tables[] = {1, 2, 3};
    lent.slots = slots;
    lent.used = used;
    for (uint64_t i = 0; i < SLOTS; i++)
        lent.dir[i] = cr3 != 0 && i < 3 ? tables[i] : pages[draw(8)];
    for (uint64_t i = 0; i < SLOTS * PAGE; i++)
        lent.bytes[i] = i < PAGE * used && cr3 != 0 ? 0 : (uint8_t)(0x80 + i % 101);
    if (cr3 != 0 && used >= 3) { /* the walk of RULES 10.9 */
        lent.bytes[0] = 0x03, lent.bytes[1] = 0x20;
        lent.bytes[PAGE + 8] = 0x03, lent.bytes[PAGE + 9] = 0x30;
        lent.bytes[2 * PAGE + 8] = 0x83, lent.bytes[2 * PAGE + 10] = 0x60;
    }
    for (int i = 0; i < 22; i++)
        machine.regs[i] = 0x9e3779b97f4a7c15u * (uint64_t)(i + 1);
    machine.regs[CR3] = cr3;
    machine.rflags = 0x8c5, machine.gdt = 0xfedcba9876543210, machine.idt = 0x0f1e2d3c4b5a6978;
}

/* How many slots lack, as worked out by hand (RULES 7.5). */
static void by_hand(void) {
    start(0, 0, 0);
    check(compared(4095, 2, 0).lacking == 2, "no slots", 4095, 2);
    start(1, 0, 0);
    check(compared(4095, 2, PAGE).lacking == 1, "one unused slot", 4095, 2);
    start(1, 1, 0);
    lent.dir[0] = 0;
    check(compared(PAGE, 1, PAGE).lacking == 1, "a full store", PAGE, 1);
    start(3, 3, 0x1000);
    check(compared(0x40200fff, 2, 3 * PAGE).lacking == 2, "by the walk, two", 0x40200fff, 2);
    check(compared(0x40200005, 1, 3 * PAGE).lacking == 1, "by the walk, one", 0x40200005, 1);
    check(compared(0x40001000, 2, 3 * PAGE).refusal == 0, "by the walk, none", 0x40001000, 2);
}

int main(void) {
    static const uint64_t places[] = {0, 0x1000, 0x2000, 0x40000000, 0x40001000, 0x40200000, 0x40201000, 0xb8000, 0xfffffffffffff000};
    static const uint64_t offsets[] = {0, 1, 2048, 4000, 4088, 4094, 4095};
    static const uint64_t counts[] = {0, 1, 2, 8, 9, 4095, 4096, 4097};
    for (int i = 0; i < 2 * PAGE; i++)
        data[i] = (uint8_t)(1 + i % 251);
    by_hand();
    for (int i = 0; i < 6000; i++) {
        uint64_t slots = draw(6), used = draw(8) == 0 ? draw(SLOTS + 1) : draw(slots + 1);
        start(slots, used, draw(2) * 0x1000);
        uint64_t address = places[draw(9)] + offsets[draw(7)], count = counts[draw(8)];
        if (draw(16) == 0)
            compared(address, count, draw(2) ? PAGE * slots + 1 : PAGE * (slots + 1));
        grown(address, count);
    }
    printf("memory test: %d checks, %d failed\n", checks, failed);
    return failed != 0;
}
