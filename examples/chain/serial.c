/* What all ranks print, computed by one process. */
#include <stdint.h>
#include <stdio.h>
#include <stdlib.h>

int main(int argc, char **argv)
{
  int n = argc > 1 ? atoi(argv[1]) : 1;
  uint32_t a = 1, b = 2, c = 3, d = 4;
  for (uint32_t x = 1; x < (uint32_t)n; x++) {
    uint32_t left = a, right = b;
    a = (left * (x + 1) + right * 3) % 10007;
    b = (left * 2 + right * (x + 4)) % 10007;
    left = c, right = d;
    c = (left * (x + 1) + right * 3) % 10007;
    d = (left * 2 + right * (x + 4)) % 10007;
  }
  for (int rank = 0; rank < n; rank++) printf("chain %d, rank %d: %u %u %u %u\n", n, rank, a, b, c, d);
  return 0;
}
