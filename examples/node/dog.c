/* The watchdog: every EVERY ticks it looks who has posted since. Who has not, twice in a row, is told to the supervisor. */
#include "../from-c/hubris.h"

#define EVERY 8

static u32 missed[4];

static void watch(u32 seen, u32 k, u32 bit, u32 bite)
{
    if (seen & bit)
        missed[k] = 0;
    else if (++missed[k] == 2) {
        missed[k] = 0;
        post(TASK(sup), bite);
    }
}

void task(void)
{
    u32 seen = 0;
    u64 next = get_timer().now + EVERY;
    set_timer(next, NOTE(look));
    for (;;) {
        seen |= recv(0, 0, ~0u, ONLY(KERNEL)).operation;
        if (seen & NOTE(look)) {
            watch(seen, 0, NOTE(uart), NOTE(sup_uart));
            watch(seen, 1, NOTE(sensor), NOTE(sup_sensor));
            watch(seen, 2, NOTE(logger), NOTE(sup_logger));
            watch(seen, 3, NOTE(client), NOTE(sup_client));
            seen = 0;
            next += EVERY;
            set_timer(next, NOTE(look));
        }
    }
}
