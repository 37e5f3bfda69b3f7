#include <stdio.h>
int main(void){putchar('a'); printf("%d", 1 + 1); return 0;}
