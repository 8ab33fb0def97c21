/* The system calls for tasks in C (docs/FORMATS.md, System calls): each is one SVC, with its registers by name. */
#ifndef HUBRIS_H
#define HUBRIS_H

typedef unsigned char u8;
typedef unsigned int u32;
typedef unsigned long long u64;

/* Symbols of the builder (docs/FORMATS.md, Building), which the linker leaves open and the source has by name: `TASK(upper)` is
   task_upper, the index of that task and its id at its first birth. `NOTE(timer)` is a notification of the task's own. */
#define TASK(name) ({ extern u8 task_##name[]; (u32)task_##name; })
#define NOTE(name) ({ extern u8 note_##name[]; (u32)note_##name; })
#define REGION(name) ({ extern volatile u8 region_##name[]; region_##name; })

#define KERNEL 0xffffu  /* the id of the kernel */
#define ANYONE 0u       /* from whom RECV takes a message */
#define ONLY(id) (0x80000000u | (id))
#define MAY_READ 1u
#define MAY_WRITE 2u

struct lease { u32 attributes; const void *base; u32 length; };

/* r4 to r10 before a call, and r4 to r9 after it. */
struct call { u32 r4, r5, r6, r7, r8, r9, r10; };
void svc(struct call *c, u32 number);

/* A code of this or more says that the id is dead; the low byte is the present generation. */
static inline int is_dead(u32 code) { return code >= 0xffffff00u; }

/* What a SEND gave: the server's code, or a dead one, and how many bytes of answer came. */
struct answer { u32 code, length; };

static inline struct answer send(u32 to, u32 operation, const void *message, u32 length, void *room, u32 room_length,
                                 const struct lease *leases, u32 how_many)
{
    struct call c = {to << 16 | (operation & 0xffffu), (u32)message, length, (u32)room, room_length, (u32)leases, how_many};
    svc(&c, 0);
    return (struct answer){c.r4, c.r5};
}

/* What a RECV gave: a message; or notifications, where `client` is KERNEL and `operation` their bits. `code` is 0, but for
   ONLY(id) of a dead id. */
struct taken { u32 code, client, operation, length, room, leases; };

static inline struct taken recv(void *buffer, u32 length, u32 mask, u32 from)
{
    struct call c = {(u32)buffer, length, mask, from, 0, 0, 0};
    svc(&c, 1);
    return (struct taken){c.r4, c.r5, c.r6, c.r7, c.r8, c.r9};
}

static inline void reply(u32 client, u32 code, const void *answer, u32 length)
{
    struct call c = {client, code, (u32)answer, length, 0, 0, 0};
    svc(&c, 2);
}

/* The reasons of REPLY_FAULT. */
enum { UNDEFINED_OPERATION, BAD_MESSAGE_SIZE, BAD_MESSAGE_CONTENTS, BAD_LEASES, REPLY_BUFFER_TOO_SMALL, ACCESS_VIOLATION };

static inline void reply_fault(u32 client, u32 reason)
{
    struct call c = {client, reason, 0, 0, 0, 0, 0};
    svc(&c, 12);
}

/* How many bytes were moved is told in `moved`; the answer is the code. */
static inline u32 borrow_read(u32 client, u32 lease, u32 offset, void *buffer, u32 length, u32 *moved)
{
    struct call c = {client, lease, offset, (u32)buffer, length, 0, 0};
    svc(&c, 4);
    *moved = c.r5;
    return c.r4;
}

static inline u32 borrow_write(u32 client, u32 lease, u32 offset, const void *buffer, u32 length, u32 *moved)
{
    struct call c = {client, lease, offset, (u32)buffer, length, 0, 0};
    svc(&c, 5);
    *moved = c.r5;
    return c.r4;
}

static inline u32 borrow_info(u32 client, u32 lease, u32 *rights, u32 *length)
{
    struct call c = {client, lease, 0, 0, 0, 0, 0};
    svc(&c, 6);
    *rights = c.r5;
    *length = c.r6;
    return c.r4;
}

/* A timer, in ticks: `set_timer(get_timer().now + 5, NOTE(timer))`. */
static inline void set_timer(u64 deadline, u32 mask)
{
    struct call c = {1, (u32)deadline, (u32)(deadline >> 32), mask, 0, 0, 0};
    svc(&c, 3);
}

static inline void stop_timer(void)
{
    struct call c = {0, 0, 0, 0, 0, 0, 0};
    svc(&c, 3);
}

struct timer { u64 now; u32 is_set; u64 deadline; u32 mask; };

static inline struct timer get_timer(void)
{
    struct call c = {0, 0, 0, 0, 0, 0, 0};
    svc(&c, 9);
    return (struct timer){(u64)c.r5 << 32 | c.r4, c.r6, (u64)c.r8 << 32 | c.r7, c.r9};
}

static inline void irq_control(u32 mask, u32 enable)
{
    struct call c = {mask, enable, 0, 0, 0, 0, 0};
    svc(&c, 7);
}

/* The sum of 1 enabled, 2 pending, 4 posted. */
static inline u32 irq_status(u32 mask)
{
    struct call c = {mask, 0, 0, 0, 0, 0, 0};
    svc(&c, 13);
    return c.r4;
}

/* The present id of a task that was born again: `refresh(TASK(upper))`. */
static inline u32 refresh(u32 id)
{
    struct call c = {id, 0, 0, 0, 0, 0, 0};
    svc(&c, 10);
    return c.r4;
}

/* 0, or a dead code. */
static inline u32 post(u32 id, u32 mask)
{
    struct call c = {id, mask, 0, 0, 0, 0, 0};
    svc(&c, 11);
    return c.r4;
}

static inline void __attribute__((noreturn)) panic(u32 x, u32 y)
{
    struct call c = {x, y, 0, 0, 0, 0, 0};
    svc(&c, 8);
    for (;;) {}
}

/* Kernel messages, which task 0 alone may send. A supervisor that restarts whoever faults:

       void task(void)
       {
           for (;;) {
               u32 index;
               recv(0, 0, NOTE(fault), ONLY(KERNEL));
               while ((index = kernel_find(1)) != 0)
                   kernel_restart(index, 1);
           }
       }
*/
struct health { u32 is, fault, x, y; }; /* is: 0 well, 1 stopped, 2 faulted; and of a fault its number, x and y */

static inline struct health kernel_status(u32 index)
{
    struct health health;
    send(KERNEL, 1, &index, sizeof index, &health, sizeof health, 0, 0);
    return health;
}

static inline void kernel_restart(u32 index, u32 start)
{
    u32 message[] = {index, start};
    send(KERNEL, 2, message, sizeof message, 0, 0, 0, 0);
}

static inline void kernel_fault(u32 index)
{
    send(KERNEL, 3, &index, sizeof index, 0, 0, 0, 0);
}

/* The first task at or after an index that has faulted, 0 where there is none. */
static inline u32 kernel_find(u32 index)
{
    u32 found;
    send(KERNEL, 9, &index, sizeof index, &found, sizeof found, 0, 0);
    return found;
}

#endif
