/* The server: operation 1 turns what lease 0 lends into capitals, in the client's memory, and answers how many letters it changed. */
#include "hubris.h"

static u8 piece[8];

static u32 capitals(u8 *at, u32 length)
{
    u32 changed = 0;
    for (u32 i = 0; i < length; i++)
        if (at[i] >= 'a' && at[i] <= 'z') {
            at[i] -= 'a' - 'A';
            changed++;
        }
    return changed;
}

static u32 serve(u32 client, u32 *changed)
{
    u32 offset = 0, moved, code;
    for (;;) {
        code = borrow_read(client, 0, offset, piece, sizeof piece, &moved);
        if (code != 0 || moved == 0)
            return code;
        *changed += capitals(piece, moved);
        code = borrow_write(client, 0, offset, piece, moved, &moved);
        if (code != 0)
            return code;
        offset += moved;
    }
}

void task(void)
{
    for (;;) {
        struct taken t = recv(0, 0, 0, ANYONE);
        if (t.operation != 1)
            reply_fault(t.client, UNDEFINED_OPERATION);
        else if (t.leases != 1)
            reply_fault(t.client, BAD_LEASES);
        else if (t.room < 4)
            reply_fault(t.client, REPLY_BUFFER_TOO_SMALL);
        else {
            u32 changed = 0;
            u32 code = serve(t.client, &changed);
            reply(t.client, code, &changed, sizeof changed);
        }
    }
}
