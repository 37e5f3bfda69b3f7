#include <stdio.h>

int ticket(void)
{
    static int last = 0;

    return ++last;
}

int main(void)
{
    ticket();
    ticket();
    printf("ticket %d\n", ticket());
    return 0;
}
