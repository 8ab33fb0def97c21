/* The client: it reads frames of the sensor's bytes, and has each logged. A frame is 7e, a kind, how many bytes, these, and a byte that
   makes the sum of all from the kind on zero. T is a temperature, in two bytes, of tenths; M is a text; C asks for a crash. */
#include "../from-c/hubris.h"

#define MOST 16

enum state { BETWEEN, KIND, LENGTH, BODY, SUM };

static enum state state;
static u8 kind, length, have, sum;
static u8 body[MOST];
static u8 text[32];
static u32 texts;
static u32 sensor, logger;

static void put(u8 byte)
{
    if (texts < sizeof text)
        text[texts++] = byte;
}

static void say(const char *words)
{
    for (; *words != 0; words++)
        put(*words);
}

static void number(u32 n)
{
    if (n >= 10)
        number(n / 10);
    put('0' + n % 10);
}

static void log_it(void)
{
    const struct lease leases[] = {{MAY_READ, text, texts}};
    for (;;) {
        u32 line;
        u32 code = send(logger, 1, 0, 0, &line, sizeof line, leases, 1).code;
        if (!is_dead(code))
            break;
        logger = refresh(logger);
    }
    texts = 0;
}

static void frame(void)
{
    if (kind == 'T' && length == 2) {
        u32 tenths = body[0] << 8 | body[1];
        say("temp ");
        number(tenths / 10);
        put('.');
        number(tenths % 10);
    } else if (kind == 'M') {
        say("text ");
        for (u32 i = 0; i < length; i++)
            put(body[i]);
    } else if (kind == 'C') {
        *(volatile u32 *)0 = 1;
    } else {
        say("kind ");
        number(kind);
    }
    log_it();
}

static void byte(u8 b)
{
    sum += b;
    switch (state) {
    case BETWEEN:
        if (b == 0x7e)
            state = KIND;
        break;
    case KIND:
        sum = kind = b;
        state = LENGTH;
        break;
    case LENGTH:
        length = b;
        have = 0;
        state = b > MOST ? BETWEEN : b == 0 ? SUM : BODY;
        break;
    case BODY:
        body[have++] = b;
        if (have == length)
            state = SUM;
        break;
    case SUM:
        state = BETWEEN;
        if (sum == 0)
            frame();
        else {
            say("bad sum");
            log_it();
        }
        break;
    }
}

void task(void)
{
    sensor = refresh(TASK(sensor));
    logger = refresh(TASK(logger));
    say("up");
    log_it();
    for (;;) {
        u8 bytes[8];
        struct answer a = send(sensor, 1, 0, 0, bytes, sizeof bytes, 0, 0);
        post(TASK(dog), NOTE(dog_client));
        if (is_dead(a.code)) {
            sensor = refresh(sensor);
            state = BETWEEN;
        }
        for (u32 i = 0; i < a.length; i++)
            byte(bytes[i]);
    }
}
