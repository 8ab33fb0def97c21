/* The logger: operation 1 borrows a text of at most LONGEST bytes, puts its number before it and a line's end behind it, and hands it on to
   the line. It is answered by its number. */
#include "../from-c/hubris.h"

#define LONGEST 24
#define ALIVE 4

static u8 line[LONGEST + 8];
static u32 number;
static u32 uart;

static void alive(void)
{
    post(TASK(dog), NOTE(dog_logger));
    set_timer(get_timer().now + ALIVE, NOTE(alive));
}

static u32 write(const u8 *text, u32 length)
{
    const struct lease leases[] = {{MAY_READ, text, length}};
    for (;;) {
        u32 taken;
        u32 code = send(uart, 1, 0, 0, &taken, sizeof taken, leases, 1).code;
        if (!is_dead(code))
            return code;
        uart = refresh(uart);
    }
}

void task(void)
{
    uart = refresh(TASK(uart));
    alive();
    for (;;) {
        struct taken t = recv(0, 0, NOTE(alive), ANYONE);
        if (t.client == KERNEL)
            alive();
        else if (t.operation != 1)
            reply_fault(t.client, UNDEFINED_OPERATION);
        else if (t.leases != 1)
            reply_fault(t.client, BAD_LEASES);
        else if (t.room < 4)
            reply_fault(t.client, REPLY_BUFFER_TOO_SMALL);
        else {
            u32 moved, code, length = 0;
            number++;
            line[length++] = '0' + number / 10 % 10;
            line[length++] = '0' + number % 10;
            line[length++] = ' ';
            code = borrow_read(t.client, 0, 0, line + length, LONGEST, &moved);
            length += moved;
            line[length++] = '\n';
            if (code == 0)
                code = write(line, length);
            reply(t.client, code, &number, sizeof number);
        }
    }
}
