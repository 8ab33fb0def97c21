/* The sensor: at each tick it takes what waits at the port. Operation 1 answers as many bytes as there are and fit; where there is none it
   waits for one, and at most PATIENCE ticks. */
#include "../from-c/hubris.h"

#define KEEPS 64
#define PATIENCE 4

static u8 kept[KEEPS];
static u32 many, lost;
static struct { u32 is, client, room; u64 until; } reader;

static void poll(void)
{
    for (; REGION(in)[4] > 0; ) {
        u8 byte = *REGION(in);
        if (many < KEEPS)
            kept[many++] = byte;
        else
            lost++;
    }
}

static void answer(u64 now)
{
    if (!reader.is || (many == 0 && now < reader.until))
        return;
    u32 n = many < reader.room ? many : reader.room;
    reader.is = 0;
    reply(reader.client, 0, kept, n);
    many -= n;
    for (u32 i = 0; i < many; i++)
        kept[i] = kept[i + n];
}

void task(void)
{
    u64 now = get_timer().now;
    set_timer(now + 1, NOTE(poll));
    for (;;) {
        struct taken t = recv(0, 0, NOTE(poll), ANYONE);
        if (t.client == KERNEL) {
            now = get_timer().now;
            set_timer(now + 1, NOTE(poll));
            post(TASK(dog), NOTE(dog_sensor));
            poll();
        } else if (t.operation != 1)
            reply_fault(t.client, UNDEFINED_OPERATION);
        else if (t.room == 0)
            reply_fault(t.client, REPLY_BUFFER_TOO_SMALL);
        else {
            reader.is = 1;
            reader.client = t.client;
            reader.room = t.room;
            reader.until = now + PATIENCE;
        }
        answer(now);
    }
}
