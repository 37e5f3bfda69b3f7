#include <stdio.h>
int main(void){putchar(65); return 0;}