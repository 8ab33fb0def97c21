/* The supervisor: who falls is restarted, at once the first time, then after 1, 2, 4 .. ticks, and after MOST times no more. Whom the
   watchdog bites is made to fault, and so restarted in the same way. */
#include "../from-c/hubris.h"

#define TASKS 6     /* the next `find` would name no task */
#define MOST 5
#define FORGIVEN 64 /* after so many ticks without a fault all is forgotten */

static struct { u32 falls; u32 waits; u64 due; u64 fell; } tasks[TASKS];

static void fell(u32 index, u64 now)
{
    if (tasks[index].falls > 0 && now - tasks[index].fell > FORGIVEN)
        tasks[index].falls = 0;
    tasks[index].fell = now;
    tasks[index].falls++;
    if (tasks[index].falls == 1)
        kernel_restart(index, 1);
    else {
        tasks[index].waits = 1;
        tasks[index].due = tasks[index].falls > MOST ? ~0ull : now + (1u << (tasks[index].falls - 2));
    }
}

static void look(u64 now)
{
    u32 index = 1;
    while (index < TASKS && (index = kernel_find(index)) != 0) {
        if (!tasks[index].waits)
            fell(index, now);
        index++;
    }
}

static void wake(u64 now)
{
    u64 next = ~0ull;
    for (u32 index = 1; index < TASKS; index++)
        if (tasks[index].waits) {
            if (tasks[index].due <= now) {
                tasks[index].waits = 0;
                kernel_restart(index, 1);
            } else if (tasks[index].due < next)
                next = tasks[index].due;
        }
    if (next != ~0ull)
        set_timer(next, NOTE(due));
}

static void bite(u32 bits, u32 bit, u32 index)
{
    if (bits & bit)
        kernel_fault(index);
}

void task(void)
{
    for (;;) {
        struct taken t = recv(0, 0, ~0u, ONLY(KERNEL));
        bite(t.operation, NOTE(uart), TASK(uart));
        bite(t.operation, NOTE(sensor), TASK(sensor));
        bite(t.operation, NOTE(logger), TASK(logger));
        bite(t.operation, NOTE(client), TASK(client));
        u64 now = get_timer().now;
        look(now);
        wake(now);
    }
}
