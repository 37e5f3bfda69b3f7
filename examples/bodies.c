/* Bodies that attract one another, in whole numbers: the pulls of a step are computed beside one
   another, the steps follow one another. */
#include <stdio.h>
#define BODIES 16
#define STEPS 10
#define PULL 10000000000L

long x[BODIES], y[BODIES], speed_x[BODIES], speed_y[BODIES], mass[BODIES];

void place(void)
{
    int i;

    for (i = 0; i < BODIES; i++) {
        x[i] = i * 7919L % 2003 - 1000;
        y[i] = i * 6007L % 1999 - 1000;
        mass[i] = 1 + i % 3;
    }
}

/* The whole part of a square root, by halving: each guess waits for the one before it. */
long root(long square)
{
    long guess = square;
    long better = (square + 1) / 2;

    while (better < guess) {
        guess = better;
        better = (guess + square / guess) / 2;
    }
    return guess;
}

/* Adds the pull of all other bodies to the speed of one. */
void pull(int body)
{
    long to_x = 0, to_y = 0;
    int other;

    for (other = 0; other < BODIES; other++) {
        long across = x[other] - x[body];
        long up = y[other] - y[body];
        long square = across * across + up * up + 10000;
        long strength = PULL * mass[other] / (square * root(square));

        to_x += across * strength / 1000;
        to_y += up * strength / 1000;
    }
    speed_x[body] += to_x;
    speed_y[body] += to_y;
}

int main(void)
{
    int step, i;

    place();
    for (step = 0; step < STEPS; step++) {
        for (i = 0; i < BODIES; i++)
            pull(i);
        for (i = 0; i < BODIES; i++) {
            x[i] += speed_x[i] / 8;
            y[i] += speed_y[i] / 8;
        }
    }
    for (i = 0; i < BODIES; i += 5)
        printf("body %d at %ld %ld\n", i, x[i], y[i]);
    return 0;
}
