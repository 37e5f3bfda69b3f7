#include <stdio.h>

static int last = 0;

int ticket(void)
{
    return ++last;
}

int main(void)
{
    ticket();
    ticket();
    printf("ticket %d\n", ticket());
    return 0;
}
