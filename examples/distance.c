/* How many letters must be put in, taken out or changed to make one sentence of another: a table in
   which each cell waits for those to its left and above it. */
#include <stdio.h>
#define LONGEST 80

const char from[] = "each result waits for the results that it is made of, and the longest such wait counts";
const char to[] = "every sum waits for its terms; what takes longest is the chain of sums, not their count";
int table[LONGEST + 1][LONGEST + 1];

int smaller(int a, int b)
{
    return a < b ? a : b;
}

/* The first row and the first column: all letters are put in or taken out. */
void start(void)
{
    int i;

    for (i = 0; i <= LONGEST; i++) {
        table[i][0] = i;
        table[0][i] = i;
    }
}

/* All other cells, row by row. */
void fill(void)
{
    int i, j;

    for (i = 1; i <= LONGEST; i++)
        for (j = 1; j <= LONGEST; j++) {
            int changed = table[i - 1][j - 1] + (from[i - 1] != to[j - 1]);
            int moved = 1 + smaller(table[i - 1][j], table[i][j - 1]);

            table[i][j] = smaller(changed, moved);
        }
}

/* The cells of the shortest way back from the end that change no letter. */
int kept(void)
{
    int i = LONGEST, j = LONGEST;
    int same = 0;

    while (i > 0 && j > 0)
        if (table[i][j] == table[i - 1][j - 1] + (from[i - 1] != to[j - 1])) {
            same += from[i - 1] == to[j - 1];
            i--;
            j--;
        } else if (table[i][j] == table[i - 1][j] + 1)
            i--;
        else
            j--;
    return same;
}

int main(void)
{
    start();
    fill();
    printf("distance %d, letters kept %d\n", table[LONGEST][LONGEST], kept());
    return 0;
}
