/* The driver of a line that sends: operation 1 takes the text of lease 0 into a ring, and is answered when all of it is in there. The
   line has room for FIFO bytes, and tells by an interrupt that they are sent. */
#include "../from-c/hubris.h"

#define RING 16
#define FIFO 4
#define ALIVE 4

static u8 ring[RING];
static u32 first, count;
static u32 room = FIFO;                             /* how many bytes the line takes before its next interrupt */
static struct { u32 is, client, offset; } writer;   /* whose text is not yet all in the ring */

static void pump(void)
{
    for (; room > 0 && count > 0; room--, count--) {
        *REGION(out) = ring[first];
        first = (first + 1) % RING;
    }
}

/* As much of the writer's text as there is room for; and its answer, when that was all. */
static void fill(void)
{
    while (writer.is) {
        u32 end = (first + count) % RING;
        u32 free = RING - count < RING - end ? RING - count : RING - end;
        u32 moved, code;
        if (free == 0)
            return;
        code = borrow_read(writer.client, 0, writer.offset, ring + end, free, &moved);
        if (code != 0) {                            /* it is gone, or lends nothing that may be read */
            writer.is = 0;
            reply(writer.client, code, 0, 0);
        } else if (moved == 0) {
            writer.is = 0;
            reply(writer.client, 0, &writer.offset, sizeof writer.offset);
        }
        count += moved;
        writer.offset += moved;
        pump();
    }
}

static void alive(void)
{
    post(TASK(dog), NOTE(dog_uart));
    set_timer(get_timer().now + ALIVE, NOTE(alive));
}

static void sent(void)
{
    room = FIFO;
    irq_control(NOTE(sent), 1);
    pump();
    fill();
}

void task(void)
{
    irq_control(NOTE(sent), 1);
    alive();
    for (;;) {
        struct taken t = recv(0, 0, ~0u, writer.is ? ONLY(KERNEL) : ANYONE);
        if (t.client == KERNEL) {
            u32 bits = t.operation;                 /* both may have come: what is not looked at here is lost */
            if (bits & NOTE(alive))
                alive();
#ifdef RACE
            else
#endif
            if (bits & NOTE(sent))
                sent();
        } else if (t.operation != 1)
            reply_fault(t.client, UNDEFINED_OPERATION);
        else if (t.leases != 1)
            reply_fault(t.client, BAD_LEASES);
        else if (t.room < 4)
            reply_fault(t.client, REPLY_BUFFER_TOO_SMALL);
        else {
            writer.is = 1;
            writer.client = t.client;
            writer.offset = 0;
            fill();
        }
    }
}
