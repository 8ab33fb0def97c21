/* A plain interpreter in C of the loop in crates/exec_bench: each instruction is fetched, decoded by
   its bits and executed, for so many steps as the first argument tells. It prints the same line. It is
   a measure and no part of the product. */
#include <stdint.h>
#include <stdio.h>
#include <stdlib.h>

static const uint16_t code[10] = {0x1C40, 0x00C1, 0x404A, 0x6022, 0x6863,
                                  0xB405, 0xBC22, 0x1AC6, 0x2E00, 0xD1F5};
static uint32_t ram[64], r[16];
static int n, z, c, v;

static uint32_t add(uint32_t x, uint32_t y, uint32_t carry) {
  uint64_t sum = (uint64_t)x + y + carry;
  int64_t whole = (int64_t)(int32_t)x + (int32_t)y + carry;
  uint32_t value = (uint32_t)sum;
  n = value >> 31, z = value == 0, c = (int)(sum >> 32);
  v = whole < INT32_MIN || whole > INT32_MAX;
  return value;
}

static int is_word(uint32_t a) { return a >= 0x20000000 && a < 0x20000100 && a % 4 == 0; }

static int step(void) {
  uint32_t at = r[15];
  if (at % 2 || at < 0x08000000 || at >= 0x08000014) return 0;
  uint16_t h = code[(at - 0x08000000) / 2];
  int d = h & 7, m = h >> 3 & 7, i = h >> 6 & 7;
  switch (h >> 11) {
  case 0: { /* lsls by an immediate */
    uint32_t by = h >> 6 & 31, x = r[m];
    if (by) c = x >> (32 - by) & 1;
    r[d] = x << by;
    n = r[d] >> 31, z = r[d] == 0;
    break;
  }
  case 3: /* adds, subs */
    r[d] = add(r[m], (h >> 9 & 1 ? ~0u : 0u) ^ (h >> 10 & 1 ? (uint32_t)i : r[i]), h >> 9 & 1);
    break;
  case 5: add(r[h >> 8 & 7], ~(uint32_t)(h & 255), 1); break; /* cmp */
  case 8: /* eors alone */
    if (h >> 6 != 0x101) return 0;
    r[d] ^= r[m];
    n = r[d] >> 31, z = r[d] == 0;
    break;
  case 12: case 13: { /* str, ldr */
    uint32_t a = r[m] + 4 * (h >> 6 & 31);
    if (!is_word(a)) return 0;
    if (h >> 11 == 12) ram[(a - 0x20000000) / 4] = r[d];
    else r[d] = ram[(a - 0x20000000) / 4];
    break;
  }
  case 22: case 23: { /* push, pop of low registers */
    int count = __builtin_popcount(h & 255);
    uint32_t a = h >> 11 == 22 ? r[13] - 4 * (uint32_t)count : r[13];
    for (int k = 0; k < count; k++)
      if (!is_word(a + 4 * (uint32_t)k)) return 0;
    uint32_t b = a;
    for (int k = 0; k < 8; k++)
      if (h >> k & 1) {
        if (h >> 11 == 22) ram[(b - 0x20000000) / 4] = r[k];
        else r[k] = ram[(b - 0x20000000) / 4];
        b += 4;
      }
    r[13] = h >> 11 == 22 ? a : b;
    break;
  }
  case 26: /* bne alone */
    if (h >> 8 != 0xD1) return 0;
    if (!z) {
      r[15] = at + 4 + 2 * (uint32_t)(int32_t)(int8_t)(h & 255);
      return 1;
    }
    break;
  default: return 0;
  }
  r[15] = at + 2;
  return 1;
}

int main(int argc, char **argv) {
  uint64_t steps = argc > 1 ? strtoull(argv[1], 0, 10) : 0, done = 0;
  r[4] = 0x20000000, r[13] = 0x20000100, r[15] = 0x08000000;
  while (done < steps && step()) done++;
  uint32_t sum = 0;
  for (int k = 0; k < 16; k++) sum = (sum << 5 | sum >> 27) + r[k];
  printf("%llu steps, checksum %08x\n", (unsigned long long)done, sum);
  return 0;
}
