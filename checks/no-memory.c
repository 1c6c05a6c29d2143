/* Refuses allocations of a program that it is loaded in front of: the one with the number NO_MEMORY, counted from 1,
   and with NO_MEMORY_BEHIND all behind it too. Writes to the standard error how many were asked for. */
#include <stddef.h>
#include <stdio.h>
#include <stdlib.h>

extern void *__libc_malloc(size_t size);
extern void *__libc_realloc(void *old, size_t size);

static unsigned long asked, number;
static int behind, counts;

__attribute__((constructor)) static void begin(void)
{
  const char *word = getenv("NO_MEMORY");
  number = word ? strtoul(word, NULL, 10) : 0;
  behind = getenv("NO_MEMORY_BEHIND") != NULL;
  counts = 1;
}

__attribute__((destructor)) static void end(void)
{
  counts = 0;
  fprintf(stderr, "%lu\n", asked);
}

static int is_refused(void)
{
  if (!counts) {
    return 0;
  }
  asked++;
  return number != 0 && (asked == number || (behind && asked > number));
}

void *malloc(size_t size)
{
  return is_refused() ? NULL : __libc_malloc(size);
}

void *realloc(void *old, size_t size)
{
  return is_refused() ? NULL : __libc_realloc(old, size);
}
