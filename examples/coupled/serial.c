/* What all ranks print, computed by one process. */
#include <stdio.h>
#include <stdlib.h>

int main(int argc, char **argv)
{
  int n = argc > 1 ? atoi(argv[1]) : 1;
  for (int i = 0; i < n; i++) {
    int sum = 0;
    for (int k = 0; k < 4; k++) sum += (100 * (i + 1) + k) * (7 * i + k);
    printf("coupled %d, ocean %d: %d\n", n, i, sum);
    printf("coupled %d, air %d: %d\n", n, i, sum);
  }
  return 0;
}
