#include <stdio.h>
int s;
void add(void)
{
    s = s + 1;
    putchar(65);
}
int main(void)
{
    int i;
    s = 0;
    for (i = 0; i < 3; i++)
        add();
    return s;
}
