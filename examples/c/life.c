// Shows five generations of a glider in Conway's game of life, on a board whose edges meet: arrays of two dimensions.
#include <stdio.h>

#define SIDE 5

char first[SIDE][SIDE] = {{0}, {0}, {0, 0, 0, 1}, {0, 0, 0, 0, 1}, {0, 0, 1, 1, 1}};
char second[SIDE][SIDE];

int before(int place)
{
    return place > 0 ? place - 1 : SIDE - 1;
}

int behind(int place)
{
    return place < SIDE - 1 ? place + 1 : 0;
}

void show(char board[SIDE][SIDE])
{
    int row, column;
    for (row = 0; row < SIDE; row++) {
        char *cells = *board++;
        for (column = 0; column < SIDE; column++)
            putchar(cells[column] ? '#' : '.');
        putchar('\n');
    }
    putchar('\n');
}

int lives(char *above, char *cells, char *below, int column)
{
    int left = before(column), right = behind(column);
    int count = above[left] + above[column] + above[right] + cells[left] + cells[right] + below[left] + below[column] + below[right];
    return count == 3 || (count == 2 && cells[column]);
}

void go_on(char board[SIDE][SIDE], char later[SIDE][SIDE])
{
    char *above = board[SIDE - 1], *cells = board[0];
    int row, column;
    for (row = 0; row < SIDE; row++) {
        char *below = board[behind(row)], *made = *later++;
        for (column = 0; column < SIDE; column++)
            made[column] = lives(above, cells, below, column);
        above = cells;
        cells = below;
    }
}

int main(void)
{
    int turn;
    for (turn = 0; turn < 2; turn++) {
        show(first);
        go_on(first, second);
        show(second);
        go_on(second, first);
    }
    show(first);
    return 0;
}
