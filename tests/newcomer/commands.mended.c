#include <stdio.h>

/* + and - count up and down, q ends */
int main(void)
{
    int count = 0, done = 0;

    while (!done)
        switch (getchar()) {
        case '+':
            count++;
            break;
        case '-':
            count--;
            break;
        case 'q':
            done = 1;
            break;
        }
    printf("%d\n", count);
    return 0;
}
