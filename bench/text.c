/* The lines that tell a run. Each begins in a buffer that has room for it, and `p` is where its next character goes. */
#include <stdio.h>
#include <string.h>
#include "interpreter.h"

enum { LONGEST = 256 };
static char buffer[1 << 16];
static char *used = buffer;

static void flush(void) {
    fwrite(buffer, 1, (size_t)(used - buffer), stdout);
    used = buffer;
}

static char *words(char *p, const char *s) {
    while (*s) *p++ = *s++;
    return p;
}
static char *number(char *p, u64 value) {
    char digits[20];
    int count = 0;
    do digits[count++] = (char)('0' + value % 10);
    while (value /= 10);
    while (count) *p++ = digits[--count];
    return p;
}
static char *hex(char *p, u32 value, int digits) {
    for (int shift = 4 * digits - 4; shift >= 0; shift -= 4) *p++ = "0123456789abcdef"[value >> shift & 15];
    return p;
}
static char *hex_words(char *p, const u32 *values, int count) {
    for (int k = 0; k < count; k++) {
        *p++ = ' ';
        p = hex(p, values[k], 8);
    }
    return p;
}

static char *name(char *p, u32 r) {
    static const char *const high[6] = {"r10", "r11", "r12", "sp", "lr", "pc"};
    if (r >= 10) return words(p, high[r - 10]);
    *p++ = 'r';
    *p++ = (char)('0' + r);
    return p;
}
static char *comma(char *p) { return words(p, ", "); }
static char *one(char *p, const char *mnemonic, u32 d) { return name(words(words(p, mnemonic), " "), d); }
static char *two(char *p, const char *mnemonic, u32 d, u32 m) { return name(comma(one(p, mnemonic, d)), m); }
static char *with_number(char *p, u32 value) { return number(words(p, ", #"), value); }
static char *target(char *p, u32 address) { return hex(words(p, "0x"), address, 8); }
static char *jump(char *p, const char *mnemonic, u32 address) { return target(words(words(p, mnemonic), " "), address); }
static char *memory(char *p, const char *mnemonic, u32 d, u32 n) {
    return name(words(one(p, mnemonic, d), ", ["), n);
}
static char *at_number(char *p, const char *mnemonic, u32 d, u32 n, u32 offset) {
    return words(with_number(memory(p, mnemonic, d, n), offset), "]");
}
static char *list(char *p, u32 registers) {
    bool first = true;
    *p++ = '{';
    for (u32 k = 0; k < 16; k++) {
        if (!(registers >> k & 1)) continue;
        if (!first) p = comma(p);
        p = name(p, k);
        first = false;
    }
    *p++ = '}';
    return p;
}

static char *high_insn(char *p, u32 h) {
    static const char *const mnemonics[3] = {"add", "cmp", "mov"};
    u32 d = (h >> 4 & 8) | (h & 7), m = h >> 3 & 15, kind = h >> 8 & 3;
    if (kind == 3) return m == PC || h & 7 ? 0 : one(p, h & 0x80 ? "blx" : "bx", m);
    if (kind == 0 && d == PC && m == PC) return 0;
    if (kind == 1 && ((d < 8 && m < 8) || d == PC || m == PC)) return 0;
    return two(p, mnemonics[kind], d, m);
}
static char *miscellaneous_insn(char *p, u32 h) {
    static const char *const extends[4] = {"sxth", "sxtb", "uxth", "uxtb"}, *const reverses[4] = {"rev", "rev16", 0, "revsh"};
    static const char *const hints[5] = {"nop", "yield", "wfe", "wfi", "sev"};
    u32 d = h & 7, m = h >> 3 & 7, kind = h >> 6 & 3, i8 = h & 255, hint = h >> 4 & 15;
    switch (h >> 8 & 15) {
        case 0: return with_number(words(p, h & 0x80 ? "sub sp" : "add sp"), 4 * (h & 127));
        case 2: return two(p, extends[kind], d, m);
        case 4: case 5: return h & 0x1ff ? list(words(p, "push "), i8 | (h & 0x100) << 6) : 0;
        case 6: return h == 0xb662 ? words(p, "cpsie i") : h == 0xb672 ? words(p, "cpsid i") : 0;
        case 10: return reverses[kind] ? two(p, reverses[kind], d, m) : 0;
        case 12: case 13: return h & 0x1ff ? list(words(p, "pop "), i8 | (h & 0x100) << 7) : 0;
        case 14: return number(words(p, "bkpt #"), i8);
        case 15:
            if (h & 15) return 0;
            return hint < 5 ? words(p, hints[hint]) : number(words(p, "hint #"), hint);
        default: return 0;
    }
}
static char *several_insn(char *p, u32 h) {
    u32 n = h >> 8 & 7, registers = h & 255;
    bool named = registers >> n & 1, loads = h & 0x800;
    if (!registers || (!loads && named && registers & ((1u << n) - 1))) return 0;
    p = one(p, loads ? "ldm" : "stm", n);
    if (!loads || !named) *p++ = '!';
    return list(comma(p), registers);
}
static char *wide_insn(char *p, u32 at, u32 h, u32 h2) {
    static const char *const barriers[3] = {"dsb #", "dmb #", "isb #"};
    u32 d = h2 >> 8 & 15, n = h & 15;
    if (h >> 11 == 30 && (h2 & 0xd000) == 0xd000) return jump(p, "bl", bl_target(at, h, h2));
    if (h == 0xf3bf && h2 >= 0x8f40 && h2 < 0x8f70) return number(words(p, barriers[(h2 >> 4 & 15) - 4]), h2 & 15);
    if (h == 0xf3ef && (h2 & 0xf0ff) == 0x8000 && d != SP && d != PC) return words(one(p, "mrs", d), ", apsr");
    if (h >> 4 == 0xf38 && h2 == 0x8800 && n != SP && n != PC) return name(words(p, "msr apsr, "), n);
    return 0;
}
/* An instruction as assembly, null where it is illegal. */
static char *insn(char *p, u32 at, u32 h, u32 h2) {
    static const char *const eights[4] = {"movs", "cmp", "adds", "subs"};
    static const char *const datas[16] = {"ands", "eors", "lsls", "lsrs", "asrs", "adcs", "sbcs", "rors",
                                          "tst", "rsbs", "cmp", "cmn", "orrs", "muls", "bics", "mvns"};
    static const char *const indexes[8] = {"str", "strh", "strb", "ldrsb", "ldr", "ldrh", "ldrb", "ldrsh"};
    static const char *const branches[14] = {"beq", "bne", "bcs", "bcc", "bmi", "bpl", "bvs",
                                             "bvc", "bhi", "bls", "bge", "blt", "bgt", "ble"};
    u32 d = h & 7, n = h >> 3 & 7, m = h >> 6 & 7, i5 = h >> 6 & 31, i8 = h & 255, k = h >> 8 & 7;
    u32 literal = ((at + 4) & ~3u) + 4 * i8, condition = h >> 8 & 15;
    switch (h >> 11) {
        case 0: return i5 ? with_number(two(p, "lsls", d, n), i5) : two(p, "movs", d, n);
        case 1: return with_number(two(p, "lsrs", d, n), i5 ? i5 : 32);
        case 2: return with_number(two(p, "asrs", d, n), i5 ? i5 : 32);
        case 3:
            p = two(p, h & 0x200 ? "subs" : "adds", d, n);
            return h & 0x400 ? with_number(p, m) : name(comma(p), m);
        case 4: case 5: case 6: case 7: return with_number(one(p, eights[h >> 11 & 3], k), i8);
        case 8:
            if (h & 0x400) return high_insn(p, h);
            p = two(p, datas[h >> 6 & 15], d, n);
            return (h >> 6 & 15) == 9 ? words(p, ", #0") : p;
        case 9: return target(comma(one(p, "ldr", k)), literal);
        case 10: case 11: return words(name(comma(memory(p, indexes[h >> 9 & 7], d, n)), m), "]");
        case 12: return at_number(p, "str", d, n, 4 * i5);
        case 13: return at_number(p, "ldr", d, n, 4 * i5);
        case 14: return at_number(p, "strb", d, n, i5);
        case 15: return at_number(p, "ldrb", d, n, i5);
        case 16: return at_number(p, "strh", d, n, 2 * i5);
        case 17: return at_number(p, "ldrh", d, n, 2 * i5);
        case 18: return at_number(p, "str", k, SP, 4 * i8);
        case 19: return at_number(p, "ldr", k, SP, 4 * i8);
        case 20: return target(comma(one(p, "adr", k)), literal);
        case 21: return with_number(two(p, "add", k, SP), 4 * i8);
        case 22: case 23: return miscellaneous_insn(p, h);
        case 24: case 25: return several_insn(p, h);
        case 26: case 27:
            if (condition == 15) return number(words(p, "svc #"), i8);
            return condition == 14 ? 0 : jump(p, branches[condition], at + 4 + 2 * (u32)(int8_t)i8);
        case 28: return jump(p, "b", at + 4 + (u32)((int32_t)(h << 21) >> 20));
        default: return wide_insn(p, at, h, h2);
    }
}

/* A line has the turn, its kind, and then what it tells. */
static char *begin(const char *kind) {
    if (used > buffer + sizeof buffer - LONGEST) flush();
    return words(number(used, board.turn), kind);
}
static char *of_task(const char *kind, const struct task *t) { return number(begin(kind), t->index); }
static void end(char *p) {
    *p++ = '\n';
    used = p;
}

void tell_tick(void) { end(number(begin(" tick "), board.now)); }
void tell_irq(u32 line, const char *handled) { end(words(words(number(begin(" irq "), line), " "), handled)); }
static char *of_device(const char *kind, u32 device, u32 byte) {
    return hex(words(number(begin(kind), device), " "), byte, 2);
}
void tell_in(u32 device, u32 byte, const char *fed) { end(words(words(of_device(" in ", device, byte), " "), fed)); }
void tell_out(u32 device, u32 byte) { end(of_device(" out ", device, byte)); }
void tell_post(const struct task *t, u32 bits) {
    end(hex_words(hex_words(of_task(" post ", t), &bits, 1), &t->posted, 1));
}
void tell_call(const struct task *t) {
    end(hex_words(number(words(of_task(" call ", t), " "), t->r[11]), t->r + 4, 7));
}
void tell_listen(const struct task *t) {
    char *p = words(of_task(" listen ", t), " ");
    p = t->source == ANY ? words(p, "any") : t->source == KERNEL ? words(p, "kernel") : number(p, t->source);
    end(hex_words(p, &t->mask, 1));
}
static char *of_call(const char *kind, u32 call) { return words(number(begin(kind), call), " "); }
void tell_offer(const struct task *t) {
    end(number(words(number(of_call(" offer ", t->call.number), t->index), " "), t->call.server->index));
}
void tell_take(u32 call, u32 copied) { end(number(of_call(" take ", call), copied)); }
void tell_borrow(u32 call, const char *how, u32 lease, u32 offset, u32 moved) {
    char *p = words(words(of_call(" borrow ", call), how), " ");
    end(number(words(number(words(number(p, lease), " "), offset), " "), moved));
}
void tell_close(u32 call, const char *why) { end(words(of_call(" close ", call), why)); }
void tell_restart(const struct task *t) { end(number(words(of_task(" restart ", t), " "), t->generation)); }
void tell_lines(const struct task *t, u32 bits) {
    end(number(words(hex_words(of_task(" irqstat ", t), &bits, 1), " "), t->r[4]));
}
void tell_find(u32 index, u32 found) { end(number(words(number(begin(" find "), index), " "), found)); }
void tell_ret(const struct task *t) { end(hex_words(of_task(" ret ", t), t->r + 4, 6)); }
void tell_fault(const struct task *t) {
    char *p = number(words(of_task(" fault ", t), " "), t->fault);
    end(hex_words(hex_words(p, &t->x, 1), &t->y, 1));
}
void tell_idle(void) { end(begin(" idle")); }
void tell_insn(const struct task *t, u32 at, u32 h, u32 h2) {
    char *p = hex(words(hex_words(of_task(" insn ", t), &at, 1), " "), h, 4);
    if (h >> 11 > 28) p = hex(p, h2, 4);
    p = insn(words(p, " "), at, h, h2);
    if (p) end(p);
}

static char *high(char *p, const struct task *t) {
    p = words(hex_words(words(p, "high"), t->r + 8, 8), " ");
    *p++ = (char)('0' + t->n);
    *p++ = (char)('0' + t->z);
    *p++ = (char)('0' + t->c);
    *p++ = (char)('0' + t->v);
    return p;
}
void tell_registers(const struct task *t) {
    end(hex_words(begin(" low"), t->r, 8));
    end(high(begin(" "), t));
}

static char *wait(char *p, const struct task *t) {
    if (t->call.number) return number(words(p, t->call.taken ? " taken:" : " offered:"), t->call.number);
    return words(p, t->listens ? " listen" : " -");
}
/* The last state of a task. */
static void tell_task(const struct task *t) {
    flush();
    char *p = words(number(words(number(words(used, "task "), t->index), " "), t->generation), " ");
    p = t->fault ? number(words(p, "faulted:"), t->fault) : words(p, t->started ? "well" : "stopped");
    p = words(hex_words(wait(p, t), &t->posted, 1), " ");
    end(t->timed ? hex(words(number(p, t->deadline), ":"), t->timer_bits, 8) : words(p, "-"));
    end(hex_words(words(used, "low"), t->r, 8));
    end(high(used, t));
}
void tell_end(const char *why) {
    flush();
    char *p = words(words(used, "end "), why);
    end(number(words(number(words(p, " "), board.turn), " "), board.now));
    for (u32 k = 0; k < board.count; k++) tell_task(&board.tasks[k]);
    flush();
}
