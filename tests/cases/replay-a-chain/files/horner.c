/* A polynomial of degree 7 by Horner's rule: each step waits for the one before it. */
int main(void)
{
    int x = 3;
    int value = 2;

    value = value * x + 7;
    value = value * x + 1;
    value = value * x + 8;
    value = value * x + 2;
    value = value * x + 8;
    value = value * x + 1;
    value = value * x + 8;
    return value;
}
