/* Quicksort of 400 words by recursion, checked and summed, with new words each round. */
#include "common.h"

static u32 words[400];

static void sort(u32 *low, u32 *high)
{
    while (low < high) {
        u32 pivot = low[(high - low) >> 1];
        u32 *i = low, *j = high;
        while (i <= j) {
            while (*i < pivot)
                i++;
            while (*j > pivot)
                j--;
            if (i <= j) {
                u32 kept = *i;
                *i++ = *j;
                *j-- = kept;
            }
        }
        if (j - low < high - i) {
            sort(low, j);
            low = i;
        } else {
            sort(i, high);
            high = j;
        }
    }
}

void work(u32 state[8])
{
    u32 x = state[0], sum = 0, falls = 0;
    for (u32 i = 0; i < 400; i++) {
        x = x * 1664525u + 1013904223u;
        words[i] = x ^ x >> 15;
    }
    sort(words, words + 399);
    for (u32 i = 1; i < 400; i++) {
        falls += words[i - 1] > words[i];
        sum = (sum << 5 | sum >> 27) + words[i];
    }
    state[0] = x + 1;
    state[1] = sum;
    state[2] += falls;
}
