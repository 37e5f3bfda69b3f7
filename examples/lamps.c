/* Draws pictures of a wall with three lamps that wander over it. Each line of the input asks for a
   scene, as `FRAMES ROWS COLUMNS`: an icon that moves has many small frames, a banner one wide one. */
#include <stdio.h>
#define FRAMES 64
#define ROWS 24
#define COLUMNS 96
#define LAMPS 3

const int lamp_row[LAMPS] = {3, 11, 19};
const int lamp_column[LAMPS] = {5, 40, 71};

unsigned char light[FRAMES][ROWS][COLUMNS];

/* Reads the next number; behind the last one it is 0. */
int read_number(void)
{
    int number = 0;
    int c = getchar();

    while (c == ' ' || c == '\n')
        c = getchar();
    while (c >= '0' && c <= '9') {
        number = number * 10 + (c - '0');
        c = getchar();
    }
    return number;
}

/* The light of all lamps at a place of the wall. */
int light_at(int frame, int row, int column)
{
    int sum = 0;
    int lamp;

    for (lamp = 0; lamp < LAMPS; lamp++) {
        int down = row - (lamp_row[lamp] + frame) % ROWS;
        int right = column - lamp_column[lamp];

        sum += 2000 / (8 + down * down + right * right);
    }
    return sum;
}

/* Draws a row of a frame, and returns the light on it. */
int draw_row(int frame, int row, int columns)
{
    int sum = 0;
    int column;

    for (column = 0; column < columns; column++) {
        int here = light_at(frame, row, column);

        light[frame][row][column] = (unsigned char)(here > 255 ? 255 : here);
        sum += here;
    }
    return sum;
}

/* Draws a frame, and returns the light on it. */
int draw_frame(int frame, int rows, int columns)
{
    int sum = 0;
    int row;

    for (row = 0; row < rows; row++)
        sum += draw_row(frame, row, columns);
    return sum;
}

/* Draws all frames of a scene, and returns the light on them. */
int draw_scene(int frames, int rows, int columns)
{
    int sum = 0;
    int frame;

    for (frame = 0; frame < frames; frame++)
        sum += draw_frame(frame, rows, columns);
    return sum;
}

int main(void)
{
    int scenes = 0;
    int frames, rows, columns;

    while ((frames = read_number()) > 0 && frames <= FRAMES) {
        rows = read_number();
        columns = read_number();
        if (rows > ROWS || columns > COLUMNS)
            return 1;
        printf("scene %d: %d\n", ++scenes, draw_scene(frames, rows, columns));
    }
    return scenes == 0;
}
