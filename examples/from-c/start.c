/* The entry of each task in C, and the one SVC. SP is set at birth (docs/FORMATS.md, Building); the RAM keeps its bytes over a
   restart, so what C promises of its variables is made here, at each birth. */
#include "hubris.h"

extern u32 data_begin[], data_end[], bss_end[];
extern const u32 data_load[];
void task(void);

__attribute__((section(".start"), noreturn)) void start(void)
{
    const u32 *from = data_load;
    u32 *to = data_begin;
    while (to < data_end)
        *to++ = *from++;
    while (to < bss_end)
        *to++ = 0;
    __asm__(".cfi_undefined lr"); task(); /* nobody called start: a backtrace ends here */
    panic(0, 0);
}

/* void svc(struct call *c, u32 number): r0 to r3 survive a call. The lines with .cfi make no code: by them a debugger finds who called. */
__asm__(".syntax unified\n"
        ".thumb_func\n"
        ".type svc, %function\n"
        ".global svc\n"
        "svc: .cfi_startproc\n"
        "    push {r4-r7, lr}\n"
        "    .cfi_def_cfa_offset 20\n"
        "    .cfi_offset r4, -20\n    .cfi_offset r5, -16\n    .cfi_offset r6, -12\n    .cfi_offset r7, -8\n    .cfi_offset lr, -4\n"
        "    mov r4, r8\n"
        "    mov r5, r9\n"
        "    mov r6, r10\n"
        "    mov r7, r11\n"
        "    push {r4-r7}\n"
        "    .cfi_def_cfa_offset 36\n"
        "    .cfi_offset r8, -36\n    .cfi_offset r9, -32\n    .cfi_offset r10, -28\n    .cfi_offset r11, -24\n"
        "    mov r11, r1\n"
        "    ldr r2, [r0, #16]\n"
        "    mov r8, r2\n"
        "    ldr r2, [r0, #20]\n"
        "    mov r9, r2\n"
        "    ldr r2, [r0, #24]\n"
        "    mov r10, r2\n"
        "    mov r2, r0\n"
        "    ldm r2!, {r4-r7}\n"
        "    svc #0\n"
        "    stm r0!, {r4-r7}\n"
        "    mov r2, r8\n"
        "    mov r3, r9\n"
        "    stm r0!, {r2, r3}\n"
        "    pop {r4-r7}\n"
        "    .cfi_def_cfa_offset 20\n"
        "    mov r8, r4\n"
        "    mov r9, r5\n"
        "    mov r10, r6\n"
        "    mov r11, r7\n"
        "    pop {r4-r7, pc}\n"
        "    .cfi_endproc\n");
