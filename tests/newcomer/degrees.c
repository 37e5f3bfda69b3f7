#include <stdio.h>

/* Fahrenheit and Celsius, from 0 to 100 in steps of 20 */
int main()
{
	int fahrenheit, celsius;

	for (fahrenheit = 0; fahrenheit <= 100; fahrenheit = fahrenheit + 20) {
		celsius = (fahrenheit - 32) * 5.0 / 9.0;
		printf("%d\t%d\n", fahrenheit, celsius);
	}
	return 0;
}
