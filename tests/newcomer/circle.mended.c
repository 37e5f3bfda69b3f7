#include <stdio.h>
#define PI 3142 /* thousandths */

int main(void)
{
    int radius = 5;
    int area = PI * radius * radius;

    printf("A circle of radius %d has the area %d.%d%d.\n", radius, area / 1000, area / 100 % 10, area / 10 % 10);
    return 0;
}
