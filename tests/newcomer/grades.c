#include <stdio.h>

int main(void)
{
    unsigned int marks[] = {88, 71, 93, 100, 59, 65};
    int count[5] = {0};
    unsigned long i;

    for (i = 0; i < sizeof(marks) / sizeof(marks[0]); i++) {
        switch (marks[i] / 10) {
        case 10:
        case 9: count[0]++; break;
        case 8: count[1]++; break;
        case 7: count[2]++; break;
        case 6: count[3]++; break;
        default: count[4]++;
        }
    }
    printf("A: %d, B: %d, C: %d, D: %d, F: %d\n", count[0], count[1], count[2], count[3], count[4]);
    return 0;
}
