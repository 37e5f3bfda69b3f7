// Looks N keys up in a table of 2,000, each from its front until it is found.
#include <stdio.h>
#define N 2500
int table[2000];
int find(int key)
{
    int i;
    for (i = 0; i < 2000; i++) {
        if (table[i] == key)
            break;
        if (table[i] < 0)
            return -1;
    }
    return i;
}
int main(void)
{
    int n;
    unsigned s = 0;
    for (n = 0; n < 2000; n++)
        table[n] = n * 7 % 2003;
    for (n = 0; n < N; n++)
        s = s * 31 + find(n * 11 % 2003);
    printf("%u\n", s);
    return 0;
}
