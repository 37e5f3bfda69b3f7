/* The sieve of Eratosthenes, twice: the multiples of a prime are struck out in steps of the prime, so
   that each is the one before it and the prime, and by their numbers, each for itself. */
#include <stdio.h>
#define LIMIT 8000

char stepped[LIMIT + 1], numbered[LIMIT + 1];

/* Strikes out the multiples of a prime from its square on, in steps. */
void strike_in_steps(int prime)
{
    int multiple;

    for (multiple = prime * prime; multiple <= LIMIT; multiple += prime)
        stepped[multiple] = 1;
}

/* Strikes out the same multiples by their numbers. */
void strike_by_number(int prime)
{
    int first = prime * prime;
    int many = (LIMIT - first) / prime + 1;
    int number;

    for (number = 0; number < many; number++)
        numbered[first + number * prime] = 1;
}

void sieve_in_steps(void)
{
    int candidate;

    for (candidate = 2; candidate * candidate <= LIMIT; candidate++)
        if (!stepped[candidate])
            strike_in_steps(candidate);
}

void sieve_by_number(void)
{
    int candidate;

    for (candidate = 2; candidate * candidate <= LIMIT; candidate++)
        if (!numbered[candidate])
            strike_by_number(candidate);
}

int main(void)
{
    int primes = 0, differing = 0;
    int number, greatest = LIMIT;

    sieve_in_steps();
    sieve_by_number();
    for (number = 2; number <= LIMIT; number++) {
        primes += !numbered[number];
        differing += stepped[number] != numbered[number];
    }
    while (numbered[greatest])
        greatest--;
    printf("primes up to %d: %d, the greatest %d\n", LIMIT, primes, greatest);
    return differing;
}
