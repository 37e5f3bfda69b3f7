#include <stdio.h>

int main(void)
{
    char greeting[] = "good morning";

    greeting[0] = 'G';
    puts(greeting);
    return 0;
}
