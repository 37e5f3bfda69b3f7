/* reads two numbers and prints their sum */
#include <stdio.h>

int number(void)
{
	int n = 0, c = getchar();

	while (c == ' ' || c == '\n')
		c = getchar();
	while (c >= '0' && c <= '9') {
		n = 10 * n + (c - '0');
		c = getchar();
	}
	return n;
}

int main()
{
	int first, second;

	first = number();
	second = number();
	printf("The sum is %d.\n", first + second);
	return 0;
}
