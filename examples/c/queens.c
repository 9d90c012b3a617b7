// Counts the ways to place queens on boards of 1 to 6 squares a side: recursion, and arrays that are set and put back.
#include <stdio.h>

#define MOST 6

int columns[MOST], rising[2 * MOST], falling[2 * MOST];

int ways(int row, int side)
{
    int column, count = 0;
    if (row == side)
        return 1;
    for (column = 0; column < side; column++) {
        int up = row + column, down = row - column + MOST;
        if (columns[column] || rising[up] || falling[down])
            continue;
        columns[column] = rising[up] = falling[down] = 1;
        count += ways(row + 1, side);
        columns[column] = rising[up] = falling[down] = 0;
    }
    return count;
}

int main(void)
{
    int side;
    for (side = 1; side <= MOST; side++)
        printf("%d: %d\n", side, ways(0, side));
    return 0;
}
