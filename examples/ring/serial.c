/* What the ring's rank 0 prints, computed by one process. */
#include <stdio.h>
#include <stdlib.h>

int main(int argc, char **argv)
{
  int n = argc > 1 ? atoi(argv[1]) : 2;
  int value[4];
  for (int k = 0; k < 4; k++) value[k] = 100 * k;
  for (int index = 1; index < n; index++)
    for (int k = 0; k < 4; k++) value[k] += index;
  printf("ring %d: %d %d %d %d\n", n, value[0], value[1], value[2], value[3]);
  return 0;
}
