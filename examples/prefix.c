/* The sums of all beginnings of a list, twice: in one loop, in which each sum waits for the one
   before it, and by blocks, which are summed beside one another. */
#include <stdio.h>
#define COUNT 2048
#define BLOCKS 32
#define BLOCK (COUNT / BLOCKS)

long list[COUNT], plain[COUNT], blocked[COUNT], before[BLOCKS];

void fill(void)
{
    int i;

    for (i = 0; i < COUNT; i++)
        list[i] = i * 37L % 101 - 30;
}

/* Each sum is the one before it and one element. */
void sum_plain(void)
{
    int i;

    plain[0] = list[0];
    for (i = 1; i < COUNT; i++)
        plain[i] = plain[i - 1] + list[i];
}

/* The sums within each block; then what stands before each block; then both together. */
void sum_blocked(void)
{
    int block, i;

    for (block = 0; block < BLOCKS; block++) {
        int first = block * BLOCK;

        blocked[first] = list[first];
        for (i = first + 1; i < first + BLOCK; i++)
            blocked[i] = blocked[i - 1] + list[i];
    }
    before[0] = 0;
    for (block = 1; block < BLOCKS; block++)
        before[block] = before[block - 1] + blocked[block * BLOCK - 1];
    for (block = 1; block < BLOCKS; block++)
        for (i = block * BLOCK; i < block * BLOCK + BLOCK; i++)
            blocked[i] += before[block];
}

int main(void)
{
    int differing = 0;
    int i;

    fill();
    sum_plain();
    sum_blocked();
    for (i = 0; i < COUNT; i++)
        differing += plain[i] != blocked[i];
    printf("sum of all %ld\n", blocked[COUNT - 1]);
    return differing;
}
