/* What all ranks print, computed by one process. */
#include <stdio.h>
#include <stdlib.h>

enum { SIDE = 4, COLUMNS = 3 };

/* the value in row y and column x of the tile of a rank */
static int value(int row, int column, int y, int x) { return 1000 * row + 100 * column + SIDE * y + x; }

int main(int argc, char **argv)
{
  int n = argc > 1 ? atoi(argv[1]) : 1;
  int rows = 2 * n;
  for (int row = 0; row < rows; row++)
    for (int column = 0; column < COLUMNS; column++) {
      int north = 0, south = 0, west = 0, east = 0;
      for (int k = 0; k < SIDE; k++) {
        if (row > 0) north += value(row - 1, column, SIDE - 1, k);
        if (row < rows - 1) south += value(row + 1, column, 0, k);
        if (column > 0) west += value(row, column - 1, k, SIDE - 1);
        if (column < COLUMNS - 1) east += value(row, column + 1, k, 0);
      }
      printf("halo %d, row %d, column %d: %d %d %d %d\n", n, row, column, north, south, west, east);
    }
  return 0;
}
