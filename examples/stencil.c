/* Heat on a plate: in each step every inner cell becomes the mean of its four neighbours. The steps
   follow one another, the cells of a step don't. */
#include <stdio.h>
#define ROWS 26
#define COLUMNS 34
#define STEPS 24
#define HOT 10000

long plate[ROWS][COLUMNS], next[ROWS][COLUMNS];

/* The upper border is hot, all else is cold. */
void heat(void)
{
    int column;

    for (column = 0; column < COLUMNS; column++)
        plate[0][column] = HOT;
}

/* The next state of the inner cells. */
void spread(void)
{
    int row, column;

    for (row = 1; row < ROWS - 1; row++)
        for (column = 1; column < COLUMNS - 1; column++)
            next[row][column] = (plate[row - 1][column] + plate[row + 1][column]
                                 + plate[row][column - 1] + plate[row][column + 1]) / 4;
}

/* Makes the next state the present one, and returns by how much the cells changed together. */
long settle(void)
{
    long change = 0;
    int row, column;

    for (row = 1; row < ROWS - 1; row++)
        for (column = 1; column < COLUMNS - 1; column++) {
            change += next[row][column] - plate[row][column];
            plate[row][column] = next[row][column];
        }
    return change;
}

int main(void)
{
    long change = 0;
    int step, row;

    heat();
    for (step = 0; step < STEPS; step++) {
        spread();
        change = settle();
    }
    for (row = 1; row < ROWS - 1; row += 4)
        printf("row %d: %ld\n", row, plate[row][COLUMNS / 2]);
    printf("last change %ld\n", change);
    return change == 0;
}
