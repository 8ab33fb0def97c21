/* The kernel: posts, faults, what comes from outside, and the calls. */
#include <string.h>
#include "interpreter.h"

static void wake(const struct task *t) { board.ready[t->index / 64] |= 1ull << t->index % 64; }
static void wait(const struct task *t) { board.ready[t->index / 64] &= ~(1ull << t->index % 64); }

static void take(struct task *t, u32 mask) {
    t->r[4] = 0, t->r[5] = 0xffff, t->r[6] = t->posted & mask;
    t->r[7] = t->r[8] = t->r[9] = 0;
    t->posted &= ~mask;
}

static void post(struct task *t, u32 bits) {
    t->posted |= bits;
    tell_post(t, bits);
    if (!t->listens || !(t->posted & t->mask)) return;
    take(t, t->mask);
    t->listens = false;
    wake(t);
    tell_ret(t);
}

static void close(struct task *t, const char *why) {
    if (t->call.number) tell_close(t->call.number, why);
    t->call.number = 0;
}

static void fault_as(struct task *t, const char *why) {
    t->listens = false;
    wait(t);
    tell_fault(t);
    close(t, why);
    if (t->index != 0) post(&board.tasks[0], board.fault_bits);
}
void fault(struct task *t) { fault_as(t, "client"); }

void tick(void) {
    board.now++;
    tell_tick();
    for (struct task *t = board.tasks; t < board.tasks + board.count; t++) {
        if (!t->timed || t->deadline > board.now) continue;
        t->timed = false;
        post(t, t->timer_bits);
    }
}

void interrupt(u32 line) {
    struct line *l = &board.lines[line];
    tell_irq(line, !l->owner ? "none" : l->enabled ? "post" : "held");
    l->pending = l->owner && !l->enabled;
    if (!l->enabled) return;
    l->enabled = false;
    post(l->owner, l->bits);
}

static bool takes_copies(const struct region *g, u64 a, u32 right) {
    return g->base <= a && a - g->base < g->size && (g->rights & (right | DEVICE)) == right;
}
/* The lowest address from `a` on that the kernel may not reach for the task, `end` where there is none below it. */
static u64 first_bad(const struct task *t, u64 a, u64 end, u32 right) {
    while (a < end) {
        const struct region *g = t->regions;
        while (g < t->regions_end && !takes_copies(g, a, right)) g++;
        if (g == t->regions_end) return a;
        a = (u64)g->base + g->size;
    }
    return end;
}
static bool is_valid(u32 base, u64 length) { return base + length <= (u64)1 << 32; }
/* Whether the kernel may reach bytes for the task, which otherwise faults. */
static bool is_permitted(struct task *t, struct range r, u32 right) {
    u64 end = (u64)r.base + r.length, bad = first_bad(t, r.base, end, right);
    if (bad == end) return true;
    trap(t, ACCESS, (u32)bad, right == READ ? 2 : 3);
    return false;
}
static bool is_checked(struct task *t, struct range r, u32 right) {
    if (is_valid(r.base, r.length)) return is_permitted(t, r, right);
    trap(t, USAGE, INVALID_SLICE, 0);
    return false;
}
static void copy(u32 from, u32 to, u32 length) {
    if (length) memmove(place(to, length), place(from, length), length);
}
static u32 word_at(u32 a) {
    u32 word;
    memcpy(&word, place(a, 4), 4);
    return word;
}
static u32 lesser(u32 a, u32 b) { return a < b ? a : b; }

/* The task of an id, of whatever birth; null where there is none. */
static struct task *named(u32 id) { return (id & 1023) < board.count ? &board.tasks[id & 1023] : 0; }
static bool is_dead(const struct task *t, u32 id) { return (id >> 10 & 63) != t->generation; }
static u32 dead_code(const struct task *t) { return 0xffffff00 + t->generation; }
static u32 id_of(const struct task *t) { return t->generation << 10 | t->index; }
static enum outcome misuse(struct task *t, enum usage usage) { return trap(t, USAGE, usage, 0); }

/* The call of a client is its server's from now on. */
static void hand_over(struct task *client, struct task *server, struct range buffer) {
    struct call *k = &client->call;
    u32 copied = lesser(k->message.length, buffer.length);
    copy(k->message.base, buffer.base, copied);
    k->taken = true;
    tell_take(k->number, copied);
    server->r[4] = 0, server->r[5] = id_of(client), server->r[6] = k->operation;
    server->r[7] = k->message.length, server->r[8] = k->reply.length, server->r[9] = k->leases;
}
static bool offers(const struct task *client, const struct task *server) {
    return client->call.number && !client->call.taken && client->call.server == server;
}
/* Of those that offer, the first after the receiver of the least priority number. */
static struct task *best_sender(const struct task *server) {
    struct task *best = 0;
    u32 at = server->index;
    for (u32 k = 1; k < board.count; k++) {
        at = at + 1 < board.count ? at + 1 : 0;
        struct task *t = &board.tasks[at];
        if (offers(t, server) && (!best || t->priority < best->priority)) best = t;
    }
    return best;
}

static enum outcome listen(struct task *t, struct range buffer, u32 source) {
    t->listens = true;
    t->mask = t->r[6];
    t->buffer = buffer;
    t->source = source;
    wait(t);
    tell_listen(t);
    return WAITS;
}

static enum outcome receive(struct task *t) {
    struct range buffer = {t->r[4], t->r[5]};
    u32 sender = t->r[7] & 0xffff;
    struct task *from = named(sender);
    bool closed = t->r[7] >> 31, kernel = sender == 0xffff;
    if (!is_checked(t, buffer, WRITE)) return FAULTS;
    if (closed && !kernel && (!from || from == t)) return misuse(t, BAD_TASK_INDEX);
    if (t->posted & t->r[6]) {
        take(t, t->r[6]);
        return DONE;
    }
    if (closed && kernel) return listen(t, buffer, KERNEL);
    if (closed && is_dead(from, sender)) {
        t->r[4] = dead_code(from);
        t->r[5] = t->r[6] = t->r[7] = t->r[8] = t->r[9] = 0;
        return DONE;
    }
    if (!closed) from = best_sender(t);
    else if (!offers(from, t)) return listen(t, buffer, from->index);
    if (!from) return listen(t, buffer, ANY);
    hand_over(from, t, buffer);
    return DONE;
}

/* ---- kernel messages */

static void status(const struct task *t, u32 to) {
    u32 words[4] = {t->fault ? 2 : t->started ? 0 : 1, t->fault, t->x, t->y};
    if (!t->fault) words[2] = words[3] = 0;
    memcpy(place(to, 16), words, 16);
}

static void find(u32 index, u32 to) {
    u32 found = index;
    while (found < board.count && !board.tasks[found].fault) found++;
    if (found == board.count) found = 0;
    memcpy(place(to, 4), &found, 4);
    tell_find(index, found);
}

/* A task that waited for another is told that it is dead. */
static void tell_dead(struct task *t, const struct task *dead) {
    if (t->call.number && t->call.server == dead) {
        close(t, "restart");
        t->r[5] = 0;
    } else if (t->listens && t->source == dead->index) {
        t->listens = false;
        t->r[5] = t->r[6] = t->r[7] = t->r[8] = t->r[9] = 0;
    } else {
        return;
    }
    t->r[4] = dead_code(dead);
    wake(t);
    tell_ret(t);
}
static void restart(struct task *t, bool started) {
    close(t, "restart");
    t->generation = (t->generation + 1) & 63;
    memset(t->r, 0, sizeof t->r);
    t->r[SP] = t->stack, t->r[LR] = 0xffffffff, t->r[PC] = t->entry;
    t->n = t->z = t->c = t->v = 0;
    t->fault = t->posted = 0;
    t->listens = t->timed = false;
    t->started = started;
    if (started) wake(t);
    else wait(t);
    tell_restart(t);
    for (struct task *other = board.tasks; other < board.tasks + board.count; other++)
        if (other != t) tell_dead(other, t);
}

static enum outcome order(struct task *t, struct range message, struct range answer) {
    static const u32 lengths[10] = {0, 4, 8, 4, 0, 0, 0, 0, 0, 4}, rooms[10] = {0, 16, 0, 0, 0, 0, 0, 0, 0, 4};
    u32 operation = t->r[4] & 0xffff, index;
    if (t->index) return misuse(t, NOT_SUPERVISOR);
    if (!is_valid(message.base, message.length) || !is_valid(answer.base, answer.length)) return misuse(t, INVALID_SLICE);
    if (!is_permitted(t, message, READ) || !is_permitted(t, answer, WRITE)) return FAULTS;
    if ((operation - 1 > 2 && operation != 9) || message.length != lengths[operation] || answer.length < rooms[operation]) return misuse(t, BAD_KERNEL_MESSAGE);
    index = word_at(message.base);
    if (index >= board.count) return misuse(t, BAD_TASK_INDEX);
    if (!index && (operation == 2 || operation == 3)) return misuse(t, BAD_KERNEL_MESSAGE);
    struct task *of = &board.tasks[index];
    if (operation == 1) status(of, answer.base);
    if (operation == 9) find(index, answer.base);
    if (operation == 2) restart(of, word_at(message.base + 4));
    if (operation == 3 && !of->fault) {
        trap(of, INJECTED, 0, 0);
        fault(of);
    }
    t->r[4] = 0, t->r[5] = rooms[operation];
    return DONE;
}

/* ---- messages */

static enum outcome send(struct task *t) {
    u32 id = t->r[4] >> 16, table = t->r[9], leases = t->r[10];
    struct range message = {t->r[5], t->r[6]}, reply = {t->r[7], t->r[8]};
    struct task *to = named(id);
    if (id == 0xffff) return order(t, message, reply);
    if (!to || to == t) return misuse(t, BAD_TASK_INDEX);
    if (!is_valid(message.base, message.length) || !is_valid(reply.base, reply.length) || !is_valid(table, 12 * (u64)leases))
        return misuse(t, INVALID_SLICE);
    if (!is_permitted(t, message, READ) || !is_permitted(t, reply, WRITE)) return FAULTS;
    if (is_dead(to, id)) {
        t->r[4] = dead_code(to), t->r[5] = 0;
        return DONE;
    }
    t->call = (struct call){++board.calls, t->r[4] & 0xffff, table, leases, message, reply, to, false};
    wait(t);
    tell_offer(t);
    if (!to->listens || (to->source != ANY && to->source != t->index)) return WAITS;
    hand_over(t, to, to->buffer);
    to->listens = false;
    wake(to);
    tell_ret(to);
    return WAITS;
}

/* Whether the client of an id has a call that this server has taken. */
static bool awaits(const struct task *client, const struct task *server, u32 id) {
    return !is_dead(client, id) && client->call.number && client->call.taken && client->call.server == server;
}

static enum outcome reply(struct task *t) {
    struct range bytes = {t->r[6], t->r[7]};
    struct task *client = named(t->r[4]);
    if (!client) return misuse(t, BAD_TASK_INDEX);
    if (!awaits(client, t, t->r[4])) return DONE;
    if (!is_checked(t, bytes, READ)) return FAULTS;
    if (bytes.length > client->call.reply.length) return misuse(t, REPLY_TOO_BIG);
    copy(bytes.base, client->call.reply.base, bytes.length);
    client->r[4] = t->r[5], client->r[5] = bytes.length;
    close(client, "reply");
    wake(client);
    tell_ret(client);
    return DONE;
}

static enum outcome reply_fault(struct task *t) {
    struct task *client = named(t->r[4]);
    if (!client) return misuse(t, BAD_TASK_INDEX);
    if (t->r[5] > 5) return misuse(t, BAD_REASON);
    if (!awaits(client, t, t->r[4])) return DONE;
    trap(client, REPLY, id_of(t), t->r[5]);
    fault_as(client, "replyfault");
    return DONE;
}

static enum outcome post_bits(struct task *t) {
    struct task *to = named(t->r[4]);
    if (!to) return misuse(t, BAD_TASK_INDEX);
    if (is_dead(to, t->r[4])) {
        t->r[4] = dead_code(to);
        return DONE;
    }
    post(to, t->r[5]);
    t->r[4] = 0;
    return DONE;
}

static enum outcome refresh(struct task *t) {
    struct task *of = named(t->r[4]);
    if (!of) return misuse(t, BAD_TASK_INDEX);
    t->r[4] = id_of(of);
    return DONE;
}

/* ---- leases */

enum { BORROWS_READ = 4, BORROWS_WRITE, BORROWS_INFO };

static enum outcome refused(struct task *t, u32 code) {
    if (t->r[11] == BORROWS_INFO) t->r[6] = 0;
    t->r[4] = code, t->r[5] = 0;
    return DONE;
}
/* The lender faults, for the reason that it has. */
static enum outcome lends_nothing(struct task *t, struct task *lender) {
    fault(lender);
    return refused(t, 1);
}

static enum outcome move(struct task *t, struct task *lender, struct range lease) {
    bool reads = t->r[11] == BORROWS_READ;
    u32 index = t->r[5], offset = t->r[6], call = lender->call.number;
    struct range own = {t->r[7], t->r[8]};
    if (offset > lease.length) return misuse(t, OFFSET_OUT_OF_RANGE);
    if (!is_checked(t, own, reads ? WRITE : READ)) return FAULTS;
    struct range part = {lease.base + offset, lesser(own.length, lease.length - offset)};
    if (!is_permitted(lender, part, reads ? READ : WRITE)) return lends_nothing(t, lender);
    copy(reads ? part.base : own.base, reads ? own.base : part.base, part.length);
    tell_borrow(call, reads ? "read" : "write", index, offset, part.length);
    t->r[4] = 0, t->r[5] = part.length;
    return DONE;
}

static enum outcome borrow(struct task *t) {
    struct task *lender = named(t->r[4]);
    u32 how = t->r[11], index = t->r[5];
    if (!lender) return misuse(t, BAD_TASK_INDEX);
    if (is_dead(lender, t->r[4])) return refused(t, dead_code(lender));
    if (!awaits(lender, t, t->r[4])) return refused(t, 1);
    if (index >= lender->call.leases) return misuse(t, LEASE_OUT_OF_RANGE);
    struct range entry = {lender->call.table + 12 * index, 12};
    if (!is_permitted(lender, entry, READ)) return lends_nothing(t, lender);
    u32 attributes = word_at(entry.base);
    struct range lease = {word_at(entry.base + 4), word_at(entry.base + 8)};
    if (!is_valid(lease.base, lease.length)) {
        misuse(lender, INVALID_SLICE);
        return lends_nothing(t, lender);
    }
    if (how == BORROWS_INFO) {
        t->r[4] = 0, t->r[5] = attributes & 3, t->r[6] = lease.length;
        tell_borrow(lender->call.number, "info", index, 0, 0);
        return DONE;
    }
    if (!(attributes & (how == BORROWS_READ ? 1 : 2))) return refused(t, 1);
    return move(t, lender, lease);
}

static enum outcome set_timer(struct task *t) {
    t->deadline = (u64)t->r[6] << 32 | t->r[5];
    t->timer_bits = t->r[7];
    t->timed = t->r[4] && t->deadline > board.now;
    if (t->r[4] && !t->timed) post(t, t->timer_bits);
    return DONE;
}

static enum outcome get_timer(struct task *t) {
    t->r[4] = (u32)board.now, t->r[5] = (u32)(board.now >> 32);
    t->r[6] = t->timed;
    t->r[7] = t->timed ? (u32)t->deadline : 0;
    t->r[8] = t->timed ? (u32)(t->deadline >> 32) : 0;
    t->r[9] = t->timed ? t->timer_bits : 0;
    return DONE;
}

static enum outcome control_lines(struct task *t) {
    u32 bits = t->r[4], enable = t->r[5] & 1;
    bool found = false;
    for (struct line *l = board.lines; l < board.lines + LINES; l++) {
        if (l->owner != t || l->bits != bits) continue;
        found = true;
        l->enabled = enable && !l->pending;
        if (!enable || !l->pending) continue;
        l->pending = false;
        post(t, bits);
    }
    return found ? DONE : misuse(t, NO_IRQ);
}

static enum outcome status_of_lines(struct task *t) {
    u32 bits = t->r[4], enabled = 0, pending = 0;
    bool found = false;
    for (struct line *l = board.lines; l < board.lines + LINES; l++) {
        if (l->owner != t || l->bits != bits) continue;
        found = true;
        enabled |= l->enabled, pending |= l->pending;
    }
    if (!found) return misuse(t, NO_IRQ);
    t->r[4] = enabled + 2 * pending + (t->posted & bits ? 4 : 0);
    tell_lines(t, bits);
    return DONE;
}

static enum outcome serve(struct task *t) {
    switch (t->r[11]) {
        case 0: return send(t);
        case 1: return receive(t);
        case 2: return reply(t);
        case 3: return set_timer(t);
        case BORROWS_READ: case BORROWS_WRITE: case BORROWS_INFO: return borrow(t);
        case 7: return control_lines(t);
        case 8: return trap(t, PANIC, t->r[4], t->r[5]);
        case 9: return get_timer(t);
        case 10: return refresh(t);
        case 11: return post_bits(t);
        case 12: return reply_fault(t);
        case 13: return status_of_lines(t);
        default: return misuse(t, BAD_CALL);
    }
}

void call(struct task *t) {
    tell_call(t);
    enum outcome outcome = serve(t);
    if (outcome == FAULTS) {
        fault(t);
        return;
    }
    t->r[PC] += 2;
    if (outcome == DONE) tell_ret(t);
}
