/* What the pipeline's last stage prints, computed by one process. */
#include <stdint.h>
#include <stdio.h>
#include <stdlib.h>

int main(int argc, char **argv)
{
  int n = argc > 1 ? atoi(argv[1]) : 2;
  int item = 0, value = 0;
  uint32_t total = 0;
  for (item = 1; item <= 20; item++) {
    value = 7 * item;
    for (int stage = 1; stage < n; stage++) value = (3 * value + stage) % 10007;
    total = 31 * total + (uint32_t)value;
  }
  printf("pipeline %d: items %d, last %d, total %u\n", n, item - 1, value, total);
  return 0;
}
