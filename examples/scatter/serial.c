/* What rank 0 prints, computed by one process. */
#include <stdint.h>
#include <stdio.h>
#include <stdlib.h>

int main(int argc, char **argv)
{
  int n = argc > 1 ? atoi(argv[1]) : 1;
  uint32_t sum = 0;
  for (int k = 0; k < 8 * n; k++) {
    int x = (k * 37 + 11) % 101;
    sum = 31 * sum + (uint32_t)(x * x - k / 8);
  }
  printf("scatter %d: parts %d, sum %u\n", n, n, sum);
  return 0;
}
