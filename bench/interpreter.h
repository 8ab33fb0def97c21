/* What the parts of the interpreter share: the tasks of a board, what they do, and the lines that tell it. */
#ifndef INTERPRETER_H
#define INTERPRETER_H
#include <stdbool.h>
#include <stdint.h>

typedef uint8_t u8;
typedef uint32_t u32;
typedef uint64_t u64;

enum { TASKS = 512, LINES = 64 };
enum { READ = 1, WRITE = 2, EXECUTE = 4, DEVICE = 8 };
enum { SP = 13, LR = 14, PC = 15 };
enum fault { ILLEGAL = 1, ILLEGAL_TEXT, ACCESS, UNALIGNED, STATE, BREAKPOINT, USAGE, PANIC, INJECTED, REPLY };
enum usage { BAD_CALL = 1, BAD_TASK_INDEX, INVALID_SLICE, BAD_KERNEL_MESSAGE, NOT_SUPERVISOR, NO_IRQ, OFFSET_OUT_OF_RANGE, LEASE_OUT_OF_RANGE, REPLY_TOO_BIG, BAD_REASON };
enum outcome { DONE, GIVES, CALLS, WAITS, FAULTS }; /* GIVES: done, and a device gives out a byte */

struct region { u32 base, size, rights; };
struct range { u32 base, length; };
/* What a client waits for: number 0 where it waits for no reply. */
struct call {
    u32 number, operation, table, leases;
    struct range message, reply;
    struct task *server;
    bool taken;
};
struct task {
    u32 r[16];
    u32 n, z, c, v; /* each 0 or 1 */
    struct region regions[8], *regions_end;
    u32 index, priority, generation;
    u32 entry, stack; /* PC and SP at birth */
    u32 fault, x, y; /* 0 while it is well */
    u32 posted, mask, timer_bits, source;
    struct range buffer;
    struct call call;
    u64 deadline;
    bool started, listens, timed;
};
struct line { struct task *owner; u32 bits; bool enabled, pending; };
struct board {
    struct task tasks[TASKS];
    struct line lines[LINES];
    u32 count, fault_bits, turn, calls;
    u64 ready[TASKS / 64]; /* bit k % 64 of word k / 64 while task k can run */
    u64 now;
    u8 *flash, *ram;
    u32 flash_size, ram_size;
    bool all; /* whether instructions and registers are told */
};
extern struct board board;

static inline enum outcome trap(struct task *t, u32 fault, u32 x, u32 y) {
    t->fault = fault, t->x = x, t->y = y;
    return FAULTS;
}

static inline u32 bl_target(u32 at, u32 h, u32 h2) {
    u32 s = h >> 10 & 1, j1 = h2 >> 13 & 1, j2 = h2 >> 11 & 1;
    u32 offset = (h2 & 2047) << 1 | (h & 1023) << 12 | !(j2 ^ s) << 22 | !(j1 ^ s) << 23 | s << 24;
    return at + 4 + (u32)((int32_t)(offset << 7) >> 7);
}

/* Where n bytes stand; null outside the memory, where devices are. */
static inline u8 *place(u32 a, u32 n) {
    if (a >= 0x20000000u) return (u64)(a - 0x20000000u) + n <= board.ram_size ? board.ram + (a - 0x20000000u) : 0;
    if (a >= 0x08000000u) return (u64)(a - 0x08000000u) + n <= board.flash_size ? board.flash + (a - 0x08000000u) : 0;
    return 0;
}

/* processor.c: the turns of one task before turn `until`, or up to the one in which it calls or faults */
enum outcome run_task(struct task *t, u32 until);

/* kernel.c */
void tick(void);
void interrupt(u32 line);
void call(struct task *t);
void fault(struct task *t);

/* devices.c: a load looks at what is behind an address, and takes it where the instruction comes to its end */
u32 device_look(u32 a, u32 n);
void device_take(u32 a);
enum outcome device_store(u32 a, u32 value);
void tell_given(void); /* the byte that a device gave out last */
void feed(u32 device, u32 byte);

/* text.c */
enum { ANY = TASKS, KERNEL };
void tell_tick(void);
void tell_irq(u32 line, const char *handled);
void tell_in(u32 device, u32 byte, const char *fed);
void tell_out(u32 device, u32 byte);
void tell_post(const struct task *t, u32 bits);
void tell_call(const struct task *t);
void tell_listen(const struct task *t);
void tell_offer(const struct task *t);
void tell_take(u32 call, u32 copied);
void tell_borrow(u32 call, const char *how, u32 lease, u32 offset, u32 moved);
void tell_close(u32 call, const char *why);
void tell_restart(const struct task *t);
void tell_lines(const struct task *t, u32 bits);
void tell_find(u32 index, u32 found);
void tell_ret(const struct task *t);
void tell_fault(const struct task *t);
void tell_idle(void);
void tell_insn(const struct task *t, u32 at, u32 h, u32 h2);
void tell_registers(const struct task *t);
void tell_end(const char *why);
#endif
