/* reads two numbers and prints their sum */
#include <stdio.h>

int main()
{
	int first, second;

	scanf("%d %d", &first, &second);
	printf("The sum is %d.\n", first + second);
	return 0;
}
