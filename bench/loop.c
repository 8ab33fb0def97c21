/* The two instructions of the first image, `movs r0, #1` and `b .`, as a plain loop that fetches and decodes
   each halfword: what the emulator's speed is compared with.
   usage: loop STEPS */
#include <stdint.h>
#include <stdio.h>
#include <stdlib.h>

int main(int argc, char **argv) {
    if (argc != 2) return 2;
    static volatile uint16_t flash[128] = {0x2001, 0xe7fe};
    uint32_t r[16] = {0};
    int n = 0, z = 0;
    r[15] = 0x08000000;
    uint64_t steps = strtoull(argv[1], 0, 10), k;
    for (k = 0; k < steps; k++) {
        uint32_t pc = r[15], at = pc - 0x08000000;
        if (at + 2 > 256) { printf("fault 2 %08x\n", pc); return 1; }
        uint16_t h = flash[at / 2];
        switch (h >> 11) {
            case 4: r[h >> 8 & 7] = h & 255; n = 0; z = (h & 255) == 0; r[15] = pc + 2; break;
            case 28: r[15] = pc + 4 + (uint32_t)((int32_t)((uint32_t)(h & 2047) << 21) >> 20); break;
            default: printf("fault 1 %08x\n", pc); return 1;
        }
    }
    printf("%08x %08x %d%d\n", r[0], r[15], n, z);
    return 0;
}
