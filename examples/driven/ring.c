/* The driver of uart.s in C: bytes that come at a port go out at a console, in upper case, by way of two rings. */
#include "../from-c/hubris.h"

#define ROOM 16

struct ring { u32 count, first; u8 bytes[ROOM]; };

static struct ring came, goes;

static void put(struct ring *ring, u8 byte) { ring->bytes[(ring->first + ring->count++) % ROOM] = byte; }

static u8 get(struct ring *ring)
{
    u8 byte = ring->bytes[ring->first];
    ring->first = (ring->first + 1) % ROOM;
    ring->count--;
    return byte;
}

static u8 upper(u8 byte) { return byte >= 'a' && byte <= 'z' ? byte - 'a' + 'A' : byte; }

void task(void)
{
    for (;;) {
        /* A line is let through only while there is something to do when it asks: a console always does. */
        if (came.count < ROOM)
            irq_control(NOTE(rx), 1);
        if (goes.count > 0)
            irq_control(NOTE(tx), 1);
        u32 bits = recv(0, 0, NOTE(rx) | NOTE(tx), ONLY(KERNEL)).operation;
        if (bits & NOTE(tx))
            *REGION(out) = get(&goes);
        while (REGION(in)[4] > 0 && came.count < ROOM)
            put(&came, *REGION(in));
        while (came.count > 0 && goes.count < ROOM)
            put(&goes, upper(get(&came)));
    }
}
