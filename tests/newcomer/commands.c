#include <stdio.h>

/* + and - count up and down, q ends */
int main(void)
{
    int count = 0;

again:
    switch (getchar()) {
    case '+':
        count++;
        goto again;
    case '-':
        count--;
        goto again;
    case 'q':
        break;
    default:
        goto again;
    }
    printf("%d\n", count);
    return 0;
}
