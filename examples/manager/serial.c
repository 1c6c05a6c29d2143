/* What the manager prints, computed by one process. */
#include <stdint.h>
#include <stdio.h>
#include <stdlib.h>

int main(int argc, char **argv)
{
  int n = argc > 1 ? atoi(argv[1]) : 1, best = 0, steps = 0;
  for (int start = 1; start <= 3000; start++) {
    int made = 0;
    for (uint32_t x = (uint32_t)start; x != 1; made++) x = x % 2 ? 3 * x + 1 : x / 2;
    if (made > steps) {
      best = start;
      steps = made;
    }
  }
  printf("manager %d: %d takes %d steps\n", n, best, steps);
  return 0;
}
