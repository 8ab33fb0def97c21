/* A program for the bare board: `work` is done again and again, each round on what the last one left. */
typedef unsigned char u8;
typedef unsigned short u16;
typedef unsigned int u32;
typedef int s32;

/* One round, which folds what it computed into the state of 8 words. */
void work(u32 state[8]);
