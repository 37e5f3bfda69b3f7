#include <stdio.h>
#include "stack.h"

int main(void)
{
    push(3);
    push(4);
    printf("%d\n", pop() + pop());
    return 0;
}
