#include <stdio.h>

#define MON 0
#define TUE 1
#define WED 2
#define THU 3
#define FRI 4
#define SAT 5
#define SUN 6

int main(void)
{
    int day, free = 0;

    for (day = MON; day <= SUN; day++)
        if (day == SAT || day == SUN)
            free++;
    printf("%d free days\n", free);
    return 0;
}
