#include <stdio.h>

int moves = 0;

void move(int discs, char from, char to, char over)
{
    if (discs == 0)
        return;
    move(discs - 1, from, over, to);
    if (discs == 3)
        printf("the greatest disc goes from %c to %c\n", from, to);
    moves++;
    move(discs - 1, over, to, from);
}

int main(void)
{
    move(3, 'A', 'C', 'B');
    printf("%d moves\n", moves);
    return 0;
}
