#include <stdio.h>

int stack[100], top = 0;

void push(int value)
{
    stack[top++] = value;
}

int pop(void)
{
    return stack[--top];
}

int main(void)
{
    push(3);
    push(4);
    printf("%d\n", pop() + pop());
    return 0;
}
