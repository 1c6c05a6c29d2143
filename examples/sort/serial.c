/* What all ranks print, computed by one process. */
#include <stdio.h>
#include <stdlib.h>

static int in_order(const void *left, const void *right)
{
  int a = *(const int *)left, b = *(const int *)right;
  return (a > b) - (a < b);
}

int main(int argc, char **argv)
{
  int n = argc > 1 ? atoi(argv[1]) : 1, count = 8 * n;
  int *all = malloc(sizeof *all * (size_t)count);
  if (!all) return 1;
  for (int k = 0; k < count; k++) all[k] = k * 7919 % 1009;
  qsort(all, (size_t)count, sizeof *all, in_order);
  for (int k = 0; k < count; k++) printf("sort %d: %d at %d\n", n, all[k], k);
  free(all);
  return 0;
}
