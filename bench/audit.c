/* A plain audit of a trace, to compare `hubris audit` with: the same causes, forms and rules (docs/FORMATS.md, Audit), with the calls in
   a table by number and the open call of each client in a table by hash. It writes the same line.
   usage: audit TRACE */
#include <stdbool.h>
#include <stdint.h>
#include <stdio.h>
#include <stdlib.h>
#include <string.h>

typedef uint32_t u32;
typedef uint64_t u64;

/* Fields of a line: n number, t time, w eight digits, r 32 digits, c four or eight digits, b two digits, f four bits, and words by a list. */
struct form { const char *name, *fields; };
static const struct form TURN[] = {{"tick", "t"}, {"irq", "nH"}, {"post", "nww"}, {"call", "nnwwwwwww"}, {"offer", "nnn"}, {"take", "nn"}, {"listen", "nLw"},
    {"borrow", "nBnnn"}, {"ret", "nwwwwww"}, {"close", "nC"}, {"fault", "nnww"}, {"restart", "nn"}, {"in", "nbF"}, {"out", "nb"},
    {"irqstat", "nwn"}, {"find", "nn"}, {"insn", "nwc*"}, {"idle", ""},
    {"low", "wwwwwwww"}, {"high", "wwwwwwwwf"}, {0, 0}};
static const struct form LAST[] = {{"task", "nnhWwT"}, {"low", "wwwwwwww"}, {"high", "wwwwwwwwf"}, {"mem", "wn"}, {0, 0}};
static const struct form END[] = {{"end", "Ent"}, {0, 0}};

struct word { const char *at; u32 length; };
static struct word words[160];
static u32 count;

static bool is(struct word w, const char *name) { return w.length == strlen(name) && memcmp(w.at, name, w.length) == 0; }
static bool is_any(struct word w, const char *const *names) {
    for (; *names; names++) if (is(w, *names)) return true;
    return false;
}
static bool number(struct word w, u64 most, u64 *value) {
    if (!w.length || w.length > 20 || (w.length > 1 && w.at[0] == '0')) return false;
    unsigned __int128 n = 0;
    for (u32 k = 0; k < w.length; k++) {
        if (w.at[k] < '0' || w.at[k] > '9') return false;
        n = n * 10 + (u32)(w.at[k] - '0');
    }
    *value = (u64)n;
    return n <= most;
}
static bool digits(struct word w, u32 n) {
    if (w.length != n) return false;
    for (u32 k = 0; k < n; k++) if (!((w.at[k] >= '0' && w.at[k] <= '9') || (w.at[k] >= 'a' && w.at[k] <= 'f'))) return false;
    return true;
}
static struct word behind(struct word w, const char *front) {
    u32 n = strlen(front);
    if (w.length < n || memcmp(w.at, front, n) != 0) return (struct word){w.at, 0};
    return (struct word){w.at + n, w.length - n};
}
static bool timer(struct word w) {
    u64 n;
    return is(w, "-") || (w.length > 9 && w.at[w.length - 9] == ':' && number((struct word){w.at, w.length - 9}, UINT64_MAX, &n) && digits((struct word){w.at + w.length - 8, 8}, 8));
}
static bool field(char kind, struct word w) {
    static const char *const handled[] = {"post", "held", "none", 0}, *const fed[] = {"queued", "full", "none", 0}, *const endings[] = {"reply", "replyfault", "client", "restart", 0}, *const ways[] = {"read", "write", "info", 0},
        *const ends[] = {"bound", "still", "supervisor", 0}, *const listened[] = {"any", "kernel", 0}, *const healths[] = {"well", "stopped", 0}, *const waits[] = {"-", "listen", 0};
    u64 n;
    switch (kind) {
        case 'n': return number(w, UINT32_MAX, &n);
        case 't': return number(w, UINT64_MAX, &n);
        case 'w': return digits(w, 8);
        case 'r': return digits(w, 32);
        case 'c': return digits(w, 4) || digits(w, 8);
        case 'b': return digits(w, 2);
        case 'f':
            if (w.length != 4) return false;
            for (u32 k = 0; k < 4; k++) if (w.at[k] != '0' && w.at[k] != '1') return false;
            return true;
        case 'H': return is_any(w, handled);
        case 'F': return is_any(w, fed);
        case 'C': return is_any(w, endings);
        case 'B': return is_any(w, ways);
        case 'E': return is_any(w, ends);
        case 'L': return is_any(w, listened) || number(w, UINT32_MAX, &n);
        case 'h': return is_any(w, healths) || number(behind(w, "faulted:"), UINT32_MAX, &n);
        case 'W': return is_any(w, waits) || number(behind(w, "offered:"), UINT32_MAX, &n) || number(behind(w, "taken:"), UINT32_MAX, &n);
        default: return timer(w);
    }
}
/* The form of the words from the first on, whose name that one is. */
static const struct form *form_of(const struct form *forms, u32 first) {
    if (first >= count) return 0;
    for (; forms->name; forms++) {
        if (!is(words[first], forms->name)) continue;
        u32 k = first + 1;
        for (const char *f = forms->fields; *f; f++, k++) {
            if (*f == '*') return k < count && (k + 1 < count || words[k].length) ? forms : 0;
            if (k == count || !field(*f, words[k])) return 0;
        }
        return k == count ? forms : 0;
    }
    return 0;
}
static u64 value(u32 k) {
    u64 n = 0;
    number(words[k], UINT64_MAX, &n);
    return n;
}

enum { TAKEN = 1, CLOSED = 2 };
static struct { u32 client; u32 state; } *calls;
static u32 offers, room, left, turn;
static bool ended;
/* the open call of each client; 0 none */
static struct slot { u32 client, call; bool used; } *slots;
static u32 slot_count = 1 << 16, slots_used;
static struct slot *slot_of(u32 client) {
    u32 at = client * 2654435761u & (slot_count - 1);
    while (slots[at].used && slots[at].client != client) at = (at + 1) & (slot_count - 1);
    if (!slots[at].used) slots[at] = (struct slot){client, 0, true}, slots_used++;
    return &slots[at];
}
static void grow(void) {
    if (2 * slots_used < slot_count) return;
    struct slot *old = slots;
    u32 n = slot_count;
    slot_count *= 2, slots_used = 0;
    slots = calloc(slot_count, sizeof *slots);
    for (u32 k = 0; k < n; k++) if (old[k].used) slot_of(old[k].client)->call = old[k].call;
    free(old);
}

static bool says(const char *name, u32 at) {
    if (strcmp(name, "offer") == 0) {
        grow();
        struct slot *s = slot_of((u32)value(at + 1));
        if (value(at) != (u64)offers + 1 || s->call) return false;
        if (offers + 1 >= room) calls = realloc(calls, (room = 2 * room + 1024) * sizeof *calls);
        offers++, left++;
        calls[offers].client = (u32)value(at + 1), calls[offers].state = 0;
        s->call = offers;
        return true;
    }
    if (strcmp(name, "take") && strcmp(name, "close") && strcmp(name, "borrow")) return true;
    u64 k = value(at);
    if (!k || k > offers || calls[k].state & CLOSED) return false;
    if (name[0] == 't') {
        if (calls[k].state & TAKEN) return false;
        calls[k].state |= TAKEN;
    } else if (name[0] == 'c') {
        if ((is(words[at + 1], "reply") || is(words[at + 1], "replyfault")) && !(calls[k].state & TAKEN)) return false;
        calls[k].state |= CLOSED;
        slot_of(calls[k].client)->call = 0;
        left--;
    } else {
        if (is(words[at + 1], "info") && (value(at + 3) || value(at + 4))) return false;
        return calls[k].state & TAKEN;
    }
    return true;
}
static bool waits(u32 task, struct word w) {
    u32 call = slot_of(task)->call;
    u64 k = 0;
    bool taken = number(behind(w, "taken:"), UINT32_MAX, &k), waiting = taken || number(behind(w, "offered:"), UINT32_MAX, &k);
    if (!call) return !waiting;
    return waiting && k == call && taken == (calls[call].state & TAKEN);
}
static bool good(void) {
    const struct form *f;
    u64 n;
    if (form_of(END, 0)) {
        if (ended) return false;
        return ended = true;
    }
    if (count > 1 && number(words[0], UINT32_MAX, &n) && (f = form_of(TURN, 1))) {
        if (ended || n < turn || !says(f->name, 2)) return false;
        turn = (u32)n;
        return true;
    }
    if (!ended) return false;
    if ((f = form_of(LAST, 0))) {
        grow();
        return strcmp(f->name, "task") || waits((u32)value(1), words[4]);
    }
    return count == 2 && digits(words[0], 8) && digits(words[1], 32);
}

int main(int argc, char **argv) {
    static char text[16777217];
    FILE *file = argc == 2 ? fopen(argv[1], "rb") : 0;
    if (!file) return 3;
    size_t length = fread(text, 1, sizeof text, file);
    u32 line = 1;
    size_t start = 0;
    for (size_t k = 0; k < length; k++) {
        bool end = text[k] == '\n';
        if (!end && (text[k] < 32 || text[k] > 126 || k - start >= 159)) {
            size_t last = k;
            while (last < length && text[last] != '\n') last++;
            u32 cause = 2;
            for (size_t j = start; j < last; j++) if (text[j] < 32 || text[j] > 126) cause = 1;
            printf("refused %s %u %u\n", argv[1], cause, line);
            return 1;
        }
        if (end) line++, start = k + 1;
    }
    slots = calloc(slot_count, sizeof *slots);
    line = 1;
    for (size_t at = 0; at < length; line++) {
        char *end = memchr(text + at, '\n', length - at);
        size_t stop = end ? (size_t)(end - text) : length;
        count = 0;
        for (size_t from = at;;) {
            size_t to = from;
            while (to < stop && text[to] != ' ') to++;
            words[count++] = (struct word){text + from, (u32)(to - from)};
            if (to == stop) break;
            from = to + 1;
        }
        if (!good()) return printf("no %u\n", line), 7;
        at = stop + 1;
    }
    if (!ended) return printf("no %u\n", line), 7;
    return printf("yes %u %u\n", offers, left), 0;
}
