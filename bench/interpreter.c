/* A plain interpreter of images of docs/FORMATS.md, to compare speeds with: it writes the same lines as `hubris run`. It
   decodes each instruction anew and checks the task's regions at each access. Images and scripts are taken to be well
   formed.
   usage: interpreter IMAGE SCRIPT STEPS [--all] */
#include <stdio.h>
#include <stdlib.h>
#include <string.h>
#include "interpreter.h"

struct board board;

static u32 word(const u8 *p) { return (u32)p[0] | (u32)p[1] << 8 | (u32)p[2] << 16 | (u32)p[3] << 24; }

/* The task of a record, whose regions begin at `at`; where they end. */
static u8 *read_task(struct task *t, const u8 *record, u8 *at) {
    t->priority = record[0];
    t->started = record[1] & 1;
    t->regions_end = t->regions + record[2];
    t->entry = t->r[PC] = word(record + 4) - 1;
    t->stack = t->r[SP] = word(record + 8);
    t->r[LR] = 0xffffffff;
    for (struct region *g = t->regions; g < t->regions_end; g++, at += 12)
        *g = (struct region){word(at), word(at + 4), word(at + 8)};
    return at;
}

static u32 half(const u8 *p) { return (u32)p[0] | (u32)p[1] << 8; }

/* Where the interrupts of an image begin, whose header of so many bytes ends with these words. */
static u8 *read_tasks(u8 *image, u32 header, const u8 *words) {
    board.flash_size = word(words);
    board.ram_size = word(words + 4);
    board.fault_bits = word(words + 8);
    u8 *at = image + header + 12 * board.count;
    for (u32 k = 0; k < board.count; k++) {
        board.tasks[k].index = k;
        at = read_task(&board.tasks[k], image + header + 12 * k, at);
        board.ready[k / 64] |= (u64)board.tasks[k].started << k % 64;
    }
    return at;
}

/* `HBI1`, or `HBI2`, which has names of notifications before its flash. */
static bool read_image(const char *path) {
    static u8 image[2097152];
    FILE *file = fopen(path, "rb");
    if (!file) return false;
    size_t length = fread(image, 1, sizeof image, file);
    fclose(file);
    if (length < 28) return false;
    bool second = image[3] == '2';
    board.count = second ? half(image + 4) : image[4];
    u8 *at = second ? read_tasks(image, 28, image + 12) : read_tasks(image, 20, image + 8);
    u32 lines = second ? half(image + 6) : image[5];
    for (u32 k = 0; k < lines; k++, at += 8)
        board.lines[at[0]] = (struct line){.owner = &board.tasks[second ? half(at + 2) : at[1]], .bits = word(at + 4)};
    board.flash = second ? at + word(image + 24) : at;
    board.ram = calloc(board.ram_size + 4, 1);
    return board.ram;
}

enum event_kind { TICK, IRQ, IN };
static const u64 NEVER = UINT64_MAX;
static struct event { enum event_kind kind; u32 turn, of, byte; } events[65536]; /* of: a line, a device */
static u32 event_count, next_event, every;
static u64 next_tick = UINT64_MAX, due; /* the turns of the next tick of `every` and of the next event of all */

static void plan(void) {
    due = next_tick;
    if (next_event < event_count && events[next_event].turn < due) due = events[next_event].turn;
}

static bool read_event(struct event *e, const char *text) {
    if (sscanf(text, " at %u irq %u", &e->turn, &e->of) == 2) e->kind = IRQ;
    else if (sscanf(text, " at %u in %u %u", &e->turn, &e->of, &e->byte) == 3) e->kind = IN;
    else if (sscanf(text, " at %u tick", &e->turn) == 1) e->kind = TICK;
    else return false;
    return true;
}

static bool read_script(const char *path) {
    FILE *file = fopen(path, "r");
    if (!file) return false;
    char *text = 0;
    size_t room = 0;
    while (getline(&text, &room, file) >= 0) {
        struct event *e = &events[event_count];
        if (sscanf(text, " every %u", &every) == 1) next_tick = every;
        else if (read_event(e, text)) event_count++;
    }
    free(text);
    fclose(file);
    plan();
    return true;
}

static void play_event(const struct event *e) {
    switch (e->kind) {
        case TICK: tick(); break;
        case IRQ: interrupt(e->of); break;
        case IN: feed(e->of, e->byte); break;
    }
}
static void play_events(void) {
    if (next_tick == board.turn) {
        tick();
        next_tick += every;
    }
    for (; next_event < event_count && events[next_event].turn == board.turn; next_event++) play_event(&events[next_event]);
    plan();
}

/* The first ready task of the least priority number, from the one that ran last on. */
static u32 choose(u32 current) {
    u32 best = board.count;
    for (u32 k = 0, task = current; k < board.count; k++, task = task + 1 < board.count ? task + 1 : 0) {
        if (!(board.ready[task / 64] >> task % 64 & 1)) continue;
        if (best == board.count || board.tasks[task].priority < board.tasks[best].priority) best = task;
    }
    return best;
}

static bool is_any_ready(void) {
    u64 any = 0;
    for (u32 k = 0; 64 * k < board.count; k++) any |= board.ready[k];
    return any;
}

/* The turns of a task before turn `until`, or up to the one in which it calls or faults. */
static void let_run(struct task *t, u32 until) {
    enum outcome outcome = run_task(t, until);
    if (outcome == DONE) return;
    if (outcome == CALLS) call(t);
    else fault(t);
    if (board.all) tell_registers(t);
    board.turn++;
}
static void idle(void) {
    if (board.all) tell_idle();
    board.turn++;
}

static const char *run(u32 limit) {
    u32 current = 0;
    for (;;) {
        if (board.tasks[0].fault) return "supervisor";
        if (board.turn == limit) return "bound";
        bool ready = is_any_ready();
        if (!ready && due == NEVER) return "still";
        if (board.turn == due) {
            play_events();
            ready = is_any_ready();
        }
        if (!ready) {
            idle();
            continue;
        }
        current = choose(current);
        let_run(&board.tasks[current], due < limit ? (u32)due : limit);
    }
}

int main(int argc, char **argv) {
    board.all = argc == 5 && strcmp(argv[4], "--all") == 0;
    if (argc != 4 && !board.all) return 2;
    if (!read_image(argv[1]) || !read_script(argv[2])) return 3;
    tell_end(run((u32)strtoul(argv[3], 0, 10)));
    return 0;
}
