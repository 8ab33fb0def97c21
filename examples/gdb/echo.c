/* The echo of examples/debugger in C: it takes a line from the port, byte by byte, and writes it to the console when it is over. */
#include "hubris.h"

struct line {
    u32 length;
    u8 text[8];
    volatile u8 *to; /* where it is written */
};

struct line line;

u8 take(void)
{
    volatile u8 *in = REGION(in);
    while (*(volatile u32 *)(in + 4) == 0) {} /* how many bytes wait */
    return *in;
}

void add(struct line *l, u8 byte)
{
    l->text[l->length] = byte; /* the mistake: nobody asks whether there is room */
    l->length++;
}

void write(const struct line *l)
{
    for (u32 i = 0; i < l->length; i++)
        *l->to = l->text[i];
}

void task(void)
{
    line.to = REGION(out);
    for (;;) {
        u8 byte;
        line.length = 0;
        do {
            byte = take();
            add(&line, byte);
        } while (byte != '\n');
        write(&line);
    }
}
