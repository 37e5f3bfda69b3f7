#include <stdio.h>

/* copies its input to its output */
int main()
{
	int c;

	while ((c = getchar()) != EOF)
		putchar(c);
	return 0;
}
