#include <stdio.h>
int main(void){int i,x=0; for(i=0;i<3;i++){x=getchar(); x=getchar();} return 0;}