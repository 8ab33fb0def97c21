/* One instruction of a task: it is fetched, decoded by its bits and executed, and each access is checked against the
   task's regions. */
#include <string.h>
#include "interpreter.h"

static inline bool may(const struct task *t, u32 a, u32 n, u32 right) {
    for (const struct region *g = t->regions; g < t->regions_end; g++)
        if (g->base <= a && (u64)(a - g->base) + n <= g->size && (g->rights & right)) return true;
    return false;
}
/* Each size by a type of its own, so that it is one load of the host. */
static inline u32 peek(u32 a, u32 n) {
    u8 *p = place(a, n);
    uint16_t half;
    u32 word;
    if (!p) return device_look(a, n);
    if (n == 1) return *p;
    if (n == 2) return memcpy(&half, p, 2), half;
    return memcpy(&word, p, 4), word;
}
static inline enum outcome poke(u32 a, u32 n, u32 value) {
    u8 *p = place(a, n);
    if (!p) return device_store(a, value);
    memcpy(p, &value, n);
    return DONE;
}
static inline void take(u32 a) {
    if (a >= 0x40000000u) device_take(a);
}
static void take_words(u32 a, u32 count) {
    for (u32 k = 0; k < count; k++) take(a + 4 * k);
}
static inline enum outcome check(struct task *t, u32 a, u32 n, u32 store) {
    if (a & (n - 1)) return trap(t, UNALIGNED, a, store);
    if (!may(t, a, n, store ? WRITE : READ)) return trap(t, ACCESS, a, store);
    return DONE;
}
static enum outcome check_words(struct task *t, u32 a, u32 count, u32 store) {
    for (u32 k = 0; k < count; k++)
        if (check(t, a + 4 * k, 4, store)) return FAULTS;
    return DONE;
}
static inline enum outcome load(struct task *t, u32 a, u32 n, u32 *value) {
    if (check(t, a, n, 0)) return FAULTS;
    *value = peek(a, n);
    take(a);
    return DONE;
}
static inline enum outcome load_signed(struct task *t, u32 a, u32 n, u32 *value) {
    if (load(t, a, n, value)) return FAULTS;
    *value = n == 1 ? (u32)(int8_t)*value : (u32)(int16_t)*value;
    return DONE;
}
static inline enum outcome store(struct task *t, u32 a, u32 n, u32 value) {
    if (check(t, a, n, 1)) return FAULTS;
    return poke(a, n, value);
}
/* Its loads look at the devices as they are before it. */
static void load_list(struct task *t, u32 a, u32 list) {
    for (u32 k = 0; k < 8; k++)
        if (list >> k & 1) t->r[k] = peek(a, 4), a += 4;
}
static enum outcome store_list(const struct task *t, u32 a, u32 list) {
    enum outcome outcome = DONE;
    for (u32 k = 0; k < 15; k++)
        if (list >> k & 1) outcome |= poke(a, 4, t->r[k]), a += 4;
    return outcome;
}

/* Each of these sets the flags by its result. */
static u32 told(struct task *t, u32 value) {
    t->n = value >> 31, t->z = value == 0;
    return value;
}
static u32 sum(struct task *t, u32 x, u32 y, u32 carry) {
    u64 whole = (u64)x + y + carry;
    u32 value = (u32)whole;
    t->c = (u32)(whole >> 32), t->v = (~(x ^ y) & (x ^ value)) >> 31;
    return told(t, value);
}
static u32 lsl(struct task *t, u32 x, u32 by) {
    if (by) t->c = by <= 32 ? (u32)((u64)x << by >> 32) & 1 : 0;
    return told(t, by < 32 ? x << by : 0);
}
static u32 lsr(struct task *t, u32 x, u32 by) {
    if (by) t->c = by <= 32 ? (u32)((u64)x >> (by - 1)) & 1 : 0;
    return told(t, by < 32 ? x >> by : 0);
}
static u32 asr(struct task *t, u32 x, u32 by) {
    int64_t wide = (int32_t)x;
    if (by > 32) by = 32;
    if (by) t->c = (u32)(wide >> (by - 1)) & 1;
    return told(t, (u32)(wide >> by));
}
static u32 ror(struct task *t, u32 x, u32 by) {
    u32 value = by % 32 ? x >> by % 32 | x << (32 - by % 32) : x;
    if (by) t->c = value >> 31;
    return told(t, value);
}

static bool holds(const struct task *t, u32 condition) {
    bool truth;
    switch (condition >> 1) {
        case 0: truth = t->z; break;
        case 1: truth = t->c; break;
        case 2: truth = t->n; break;
        case 3: truth = t->v; break;
        case 4: truth = t->c && !t->z; break;
        case 5: truth = t->n == t->v; break;
        default: truth = t->n == t->v && !t->z;
    }
    return truth != (condition & 1);
}
static enum outcome illegal(struct task *t, u32 pc) { return trap(t, ILLEGAL, pc, 0); }
static u32 ones(u32 list) { return (u32)__builtin_popcount(list); }

static enum outcome data_processing(struct task *t, u32 h) {
    u32 *d = &t->r[h & 7], m = t->r[h >> 3 & 7];
    switch (h >> 6 & 15) {
        case 0: *d = told(t, *d & m); break;
        case 1: *d = told(t, *d ^ m); break;
        case 2: *d = lsl(t, *d, m & 255); break;
        case 3: *d = lsr(t, *d, m & 255); break;
        case 4: *d = asr(t, *d, m & 255); break;
        case 5: *d = sum(t, *d, m, t->c); break;
        case 6: *d = sum(t, *d, ~m, t->c); break;
        case 7: *d = ror(t, *d, m & 255); break;
        case 8: told(t, *d & m); break;
        case 9: *d = sum(t, ~m, 0, 1); break;
        case 10: sum(t, *d, ~m, 1); break;
        case 11: sum(t, *d, m, 0); break;
        case 12: *d = told(t, *d | m); break;
        case 13: *d = told(t, *d * m); break;
        case 14: *d = told(t, *d & ~m); break;
        default: *d = told(t, ~m);
    }
    return DONE;
}
/* MOV and ADD clear the low bits of PC and SP. */
static enum outcome set_register(struct task *t, u32 d, u32 value) {
    t->r[d] = d == PC ? value & ~1u : d == SP ? value & ~3u : value;
    return DONE;
}
static enum outcome high_registers(struct task *t, u32 pc, u32 h) {
    u32 d = (h >> 4 & 8) | (h & 7), m = h >> 3 & 15;
    u32 x = d == PC ? pc + 4 : t->r[d], y = m == PC ? pc + 4 : t->r[m];
    switch (h >> 8 & 3) {
        case 0: return d == PC && m == PC ? illegal(t, pc) : set_register(t, d, x + y);
        case 1:
            if ((d < 8 && m < 8) || d == PC || m == PC) return illegal(t, pc);
            sum(t, x, ~y, 1);
            return DONE;
        case 2: return set_register(t, d, y);
        default:
            if (m == PC || h & 7) return illegal(t, pc);
            if (!(y & 1)) return trap(t, STATE, y, 0);
            if (h & 0x80) t->r[LR] = (pc + 2) | 1;
            t->r[PC] = y - 1;
            return DONE;
    }
}
static enum outcome indexed(struct task *t, u32 h) {
    u32 *d = &t->r[h & 7], a = t->r[h >> 3 & 7] + t->r[h >> 6 & 7];
    switch (h >> 9 & 7) {
        case 0: return store(t, a, 4, *d);
        case 1: return store(t, a, 2, *d);
        case 2: return store(t, a, 1, *d);
        case 3: return load_signed(t, a, 1, d);
        case 4: return load(t, a, 4, d);
        case 5: return load(t, a, 2, d);
        case 6: return load(t, a, 1, d);
        default: return load_signed(t, a, 2, d);
    }
}
static enum outcome extend(struct task *t, u32 h) {
    u32 *d = &t->r[h & 7], m = t->r[h >> 3 & 7];
    switch (h >> 6 & 3) {
        case 0: *d = (u32)(int16_t)m; break;
        case 1: *d = (u32)(int8_t)m; break;
        case 2: *d = m & 0xffff; break;
        default: *d = m & 0xff;
    }
    return DONE;
}
static enum outcome reverse(struct task *t, u32 pc, u32 h) {
    u32 *d = &t->r[h & 7], value = __builtin_bswap32(t->r[h >> 3 & 7]);
    switch (h >> 6 & 3) {
        case 0: *d = value; return DONE;
        case 1: *d = value >> 16 | value << 16; return DONE;
        case 2: return illegal(t, pc);
        default: *d = (u32)(int16_t)(value >> 16); return DONE;
    }
}
static enum outcome push(struct task *t, u32 pc, u32 h) {
    u32 list = (h & 255) | (h & 0x100) << 6, count = ones(list), a = t->r[SP] - 4 * count;
    if (!list) return illegal(t, pc);
    if (check_words(t, a, count, 1)) return FAULTS;
    t->r[SP] = a;
    return store_list(t, a, list);
}
static enum outcome pop(struct task *t, u32 pc, u32 h) {
    u32 a = t->r[SP], count = ones(h & 0x1ff);
    if (!count) return illegal(t, pc);
    if (check_words(t, a, count, 0)) return FAULTS;
    if (h & 0x100) {
        u32 target = peek(a + 4 * (count - 1), 4);
        if (!(target & 1)) return trap(t, STATE, target, 0);
        t->r[PC] = target - 1;
    }
    t->r[SP] = a + 4 * count;
    load_list(t, a, h & 255);
    take_words(a, count);
    return DONE;
}
static enum outcome several(struct task *t, u32 pc, u32 h) {
    u32 n = h >> 8 & 7, list = h & 255, a = t->r[n], count = ones(list);
    bool named = list >> n & 1, loads = h & 0x800;
    if (!list || (!loads && named && list & ((1u << n) - 1))) return illegal(t, pc);
    if (check_words(t, a, count, !loads)) return FAULTS;
    enum outcome outcome = DONE;
    if (loads) load_list(t, a, list), take_words(a, count);
    else outcome = store_list(t, a, list);
    if (!loads || !named) t->r[n] = a + 4 * count;
    return outcome;
}
static enum outcome miscellaneous(struct task *t, u32 pc, u32 h) {
    switch (h >> 8 & 15) {
        case 0: t->r[SP] += h & 0x80 ? -4 * (h & 127) : 4 * (h & 127); return DONE;
        case 2: return extend(t, h);
        case 4: case 5: return push(t, pc, h);
        case 6: return h == 0xb662 || h == 0xb672 ? DONE : illegal(t, pc);
        case 10: return reverse(t, pc, h);
        case 12: case 13: return pop(t, pc, h);
        case 14: return trap(t, BREAKPOINT, h & 255, 0);
        case 15: return h & 15 ? illegal(t, pc) : DONE;
        default: return illegal(t, pc);
    }
}
static enum outcome execute_wide(struct task *t, u32 pc, u32 h, u32 h2) {
    u32 d = h2 >> 8 & 15, n = h & 15;
    t->r[PC] = pc + 4;
    if (h >> 11 == 30 && (h2 & 0xd000) == 0xd000) {
        t->r[LR] = (pc + 4) | 1;
        t->r[PC] = bl_target(pc, h, h2);
        return DONE;
    }
    if (h == 0xf3bf && h2 >= 0x8f40 && h2 < 0x8f70) return DONE;
    if (h == 0xf3ef && (h2 & 0xf0ff) == 0x8000 && d != SP && d != PC) {
        t->r[d] = t->n << 31 | t->z << 30 | t->c << 29 | t->v << 28;
        return DONE;
    }
    if (h >> 4 == 0xf38 && h2 == 0x8800 && n != SP && n != PC) {
        u32 value = t->r[n];
        t->n = value >> 31, t->z = value >> 30 & 1, t->c = value >> 29 & 1, t->v = value >> 28 & 1;
        return DONE;
    }
    return illegal(t, pc);
}

/* PC stands behind the instruction already. */
static inline enum outcome execute(struct task *t, u32 pc, u32 h) {
    u32 *r = t->r, d = h & 7, n = h >> 3 & 7, m = h >> 6 & 7, i5 = h >> 6 & 31, i8 = h & 255, k = h >> 8 & 7;
    switch (h >> 11) {
        case 0: r[d] = lsl(t, r[n], i5); return DONE;
        case 1: r[d] = lsr(t, r[n], i5 ? i5 : 32); return DONE;
        case 2: r[d] = asr(t, r[n], i5 ? i5 : 32); return DONE;
        case 3: {
            u32 y = h & 0x400 ? m : r[m];
            r[d] = h & 0x200 ? sum(t, r[n], ~y, 1) : sum(t, r[n], y, 0);
            return DONE;
        }
        case 4: r[k] = told(t, i8); return DONE;
        case 5: sum(t, r[k], ~i8, 1); return DONE;
        case 6: r[k] = sum(t, r[k], i8, 0); return DONE;
        case 7: r[k] = sum(t, r[k], ~i8, 1); return DONE;
        case 8: return h & 0x400 ? high_registers(t, pc, h) : data_processing(t, h);
        case 9: return load(t, ((pc + 4) & ~3u) + 4 * i8, 4, &r[k]);
        case 10: case 11: return indexed(t, h);
        case 12: return store(t, r[n] + 4 * i5, 4, r[d]);
        case 13: return load(t, r[n] + 4 * i5, 4, &r[d]);
        case 14: return store(t, r[n] + i5, 1, r[d]);
        case 15: return load(t, r[n] + i5, 1, &r[d]);
        case 16: return store(t, r[n] + 2 * i5, 2, r[d]);
        case 17: return load(t, r[n] + 2 * i5, 2, &r[d]);
        case 18: return store(t, r[SP] + 4 * i8, 4, r[k]);
        case 19: return load(t, r[SP] + 4 * i8, 4, &r[k]);
        case 20: r[k] = ((pc + 4) & ~3u) + 4 * i8; return DONE;
        case 21: r[k] = r[SP] + 4 * i8; return DONE;
        case 22: case 23: return miscellaneous(t, pc, h);
        case 24: case 25: return several(t, pc, h);
        case 26: case 27: {
            u32 condition = h >> 8 & 15;
            if (condition == 15) return CALLS;
            if (condition == 14) return illegal(t, pc);
            if (holds(t, condition)) r[PC] = pc + 4 + 2 * (u32)(int8_t)i8;
            return DONE;
        }
        default: r[PC] = pc + 4 + (u32)((int32_t)(h << 21) >> 20); return DONE;
    }
}

/* Where it does not come to its end, PC stays. */
static inline enum outcome step(struct task *t, bool all) {
    u32 pc = t->r[PC], h, h2 = 0;
    if (!may(t, pc, 2, EXECUTE)) return trap(t, ILLEGAL_TEXT, pc, 0);
    h = peek(pc, 2);
    bool wide = h >> 11 > 28;
    if (wide) {
        if (!may(t, pc + 2, 2, EXECUTE)) return trap(t, ILLEGAL_TEXT, pc + 2, 0);
        h2 = peek(pc + 2, 2);
    }
    if (all) tell_insn(t, pc, h, h2);
    t->r[PC] = pc + 2;
    enum outcome outcome = wide ? execute_wide(t, pc, h, h2) : execute(t, pc, h);
    if (outcome > GIVES) t->r[PC] = pc;
    return outcome;
}

enum outcome run_task(struct task *t, u32 until) {
    bool all = board.all;
    u32 turn = board.turn;
    enum outcome outcome;
    for (; turn < until; turn++) {
        if (all) board.turn = turn;
        outcome = step(t, all);
        if (outcome != DONE) {
            board.turn = turn;
            if (outcome != GIVES) return outcome;
            tell_given();
        }
        if (all) tell_registers(t);
    }
    board.turn = turn;
    return DONE;
}
