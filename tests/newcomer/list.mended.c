#include <stdio.h>

int value[10];
int next[10];

int main(void)
{
    int list = -1, it;
    int i, sum = 0;

    for (i = 1; i <= 10; i++) {
        it = i - 1;
        value[it] = i;
        next[it] = list;
        list = it;
    }
    for (it = list; it != -1; it = next[it])
        sum += value[it];
    printf("%d\n", sum);
    return 0;
}
