/* How often each shade occurs in a picture: first all pixels share one table of counts, then each
   band of the picture has a table of its own, and the tables are added. */
#include <stdio.h>
#define PIXELS 4096
#define BANDS 8
#define BAND (PIXELS / BANDS)
#define SHADES 16

unsigned char picture[PIXELS];
int shared[SHADES], banded[BANDS][SHADES], total[SHADES];

/* Draws a picture, each pixel from its place alone. */
void draw(void)
{
    unsigned int i;

    for (i = 0; i < PIXELS; i++)
        picture[i] = (unsigned char)(((i * 2654435761u >> 20) & (i >> 4)) % SHADES);
}

void count_shared(void)
{
    int i;

    for (i = 0; i < PIXELS; i++)
        shared[picture[i]]++;
}

void count_banded(void)
{
    int band, i, shade;

    for (band = 0; band < BANDS; band++)
        for (i = 0; i < BAND; i++)
            banded[band][picture[band * BAND + i]]++;
    for (shade = 0; shade < SHADES; shade++) {
        int sum = 0;

        for (band = 0; band < BANDS; band++)
            sum += banded[band][shade];
        total[shade] = sum;
    }
}

int main(void)
{
    int shade;
    int differing = 0;

    draw();
    count_shared();
    count_banded();
    for (shade = 0; shade < SHADES; shade++) {
        printf("shade %x: %d\n", (unsigned int)shade, total[shade]);
        differing += shared[shade] != total[shade];
    }
    return differing;
}
