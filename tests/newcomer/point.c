#include <stdio.h>

struct point {
    int x;
    int y;
};

int main(void)
{
    struct point p = {3, 4};

    p.x = p.x + 1;
    printf("(%d, %d)\n", p.x, p.y);
    return 0;
}
