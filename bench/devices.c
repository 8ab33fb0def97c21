/* What is behind device regions: a console and a port, each of 256 addresses. */
#include "interpreter.h"

enum { WIDTH = 256, ROOM = 64 };
enum { BYTE_AT, COUNT_AT = 4 };
enum kind { CONSOLE, PORT };
static struct device {
    enum kind kind;
    u32 base, count; /* how many bytes were stored to a console, or wait in a port */
    u32 first;       /* the place of the byte that waits longest */
    u8 bytes[ROOM];
} devices[] = {{.kind = CONSOLE, .base = 0x40000000}, {.kind = PORT, .base = 0x40001000}};
enum { DEVICES = sizeof devices / sizeof *devices };

static struct device *behind(u32 a) {
    for (struct device *d = devices; d < devices + DEVICES; d++)
        if (a - d->base < WIDTH) return d;
    return 0;
}

/* What a load gives; it is taken by device_take. */
u32 device_look(u32 a, u32 n) {
    const struct device *d = behind(a);
    u32 value = 0;
    if (!d) return 0;
    if (a - d->base == COUNT_AT) value = d->count;
    else if (a - d->base == BYTE_AT && d->kind == PORT && d->count) value = d->bytes[d->first];
    return n == 4 ? value : value & ((1u << 8 * n) - 1);
}
void device_take(u32 a) {
    struct device *d = behind(a);
    if (!d || d->kind != PORT || a - d->base != BYTE_AT || !d->count) return;
    d->first = (d->first + 1) % ROOM;
    d->count--;
}
/* One console, and no instruction stores twice at one address: one byte at most is given out. */
static u32 given;
enum outcome device_store(u32 a, u32 value) {
    struct device *d = behind(a);
    if (!d || d->kind != CONSOLE || a - d->base != BYTE_AT) return DONE;
    d->count++;
    given = value & 0xff;
    return GIVES;
}
void tell_given(void) { tell_out(0, given); }

/* A byte from outside. */
void feed(u32 device, u32 byte) {
    struct device *d = &devices[device];
    if (device >= DEVICES || d->kind != PORT) {
        tell_in(device, byte, "none");
        return;
    }
    tell_in(device, byte, d->count < ROOM ? "queued" : "full");
    if (d->count < ROOM) d->bytes[(d->first + d->count++) % ROOM] = (u8)byte;
}
