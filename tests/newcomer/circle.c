#include <stdio.h>
#define PI 3.142

int main(void)
{
    int radius = 5;
    double area = PI * radius * radius;

    printf("A circle of radius %d has the area %.2f.\n", radius, area);
    return 0;
}
