/* The area and the border of a field. */
#include <stdio.h>
#define WIDTH 6

int main(void)
{
    int width = WIDTH, height = 7;
    int area, border;

    area = width * height;
    border = 2 * (width + height);
    putchar('A' + area - border);
    putchar('\n');
    return area - border;
}
