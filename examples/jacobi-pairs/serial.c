/* What all ranks print, computed by one process on all points. */
#include <stdio.h>
#include <stdlib.h>
#include <string.h>

enum { POINTS = 2, HOT = 1 << 20, SMALL = 1 << 15 };

int main(int argc, char **argv)
{
  int n = argc > 1 ? atoi(argv[1]) : 1, count = 2 * n * POINTS, error = SMALL, rounds = 0;
  int *value = calloc((size_t)count + 2, sizeof *value), *old = calloc((size_t)count + 2, sizeof *old);
  if (!value || !old) return 1;
  value[0] = HOT;
  while (error >= SMALL) {
    memcpy(old, value, sizeof *old * ((size_t)count + 2));
    error = 0;
    for (int x = 1; x <= count; x++) {
      value[x] = (old[x - 1] + old[x + 1]) / 2;
      if (abs(value[x] - old[x]) > error) error = abs(value[x] - old[x]);
    }
    rounds++;
  }
  for (int x = 1; x <= count; x++) printf("jacobi-pairs %d: %d at %d after %d\n", n, value[x], x, rounds);
  free(value);
  free(old);
  return 0;
}
