#include <stdio.h>

enum day { MON, TUE, WED, THU, FRI, SAT, SUN };

int main(void)
{
    int day, free = 0;

    for (day = MON; day <= SUN; day++)
        if (day == SAT || day == SUN)
            free++;
    printf("%d free days\n", free);
    return 0;
}
