/* The same polynomial by Estrin's scheme: pairs of terms side by side, joined by powers of x. */
int main(void)
{
    int x = 3;
    int square, fourth, low, high;

    square = x * x;
    fourth = square * square;
    low = (8 + x) + (8 + 2 * x) * square;
    high = (8 + x) + (7 + 2 * x) * square;
    return low + high * fourth;
}
