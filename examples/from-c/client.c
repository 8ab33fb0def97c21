/* The client: it lends its text to the server, and writes what has become of it to the console, with how many letters changed. */
#include "hubris.h"

static u8 text[] = "tasks in c";    /* a variable with a value: it is copied from flash at each birth */
static u32 changed;

static void put(u8 byte) { *REGION(out) = byte; }

static void put_number(u32 n)
{
    static const u32 powers[] = {100, 10, 1};
    u32 begun = 0;
    for (u32 i = 0; i < 3; i++) {
        u32 digit = 0;
        for (; n >= powers[i]; n -= powers[i])
            digit++;
        begun += digit;
        if (begun > 0 || i == 2)
            put('0' + digit);
    }
}

void task(void)
{
    const struct lease leases[] = {{MAY_READ | MAY_WRITE, text, sizeof text - 1}};
    u32 code = send(TASK(upper), 1, 0, 0, &changed, sizeof changed, leases, 1).code;
    if (code != 0)
        panic(1, code);
    for (const u8 *at = text; *at != 0; at++)
        put(*at);
    put(' ');
    put_number(changed);
    put('\n');
    for (;;)
        recv(0, 0, 0, ONLY(KERNEL));
}
