/* Loaded before the C library by tools/refuse-allocations: counts the allocations of `main` and what it calls, and
   refuses those from REFUSE_FIRST to REFUSE_LAST, counted from 1. Their number is written to the file REFUSE_TOLD. */
#include <errno.h>
#include <stddef.h>
#include <stdio.h>
#include <stdlib.h>

void *__libc_malloc(size_t size);
void *__libc_calloc(size_t count, size_t size);
void *__libc_realloc(void *block, size_t size);
void *__libc_memalign(size_t alignment, size_t size);

static int begun;
static unsigned long allocations, first, last;

static unsigned long number_of(const char *name) {
  const char *text = getenv(name);
  return text ? strtoul(text, NULL, 10) : 0;
}

__attribute__((constructor)) static void begin(void) {
  first = number_of("REFUSE_FIRST");
  last = number_of("REFUSE_LAST");
  begun = 1;
}

__attribute__((destructor)) static void end(void) {
  const char *told = getenv("REFUSE_TOLD");
  begun = 0;
  FILE *file = told ? fopen(told, "w") : NULL;
  if (file) {
    fprintf(file, "%lu\n", allocations);
    fclose(file);
  }
}

static int is_refused(void) {
  if (!begun)
    return 0;
  allocations++;
  if (allocations < first || allocations > last)
    return 0;
  errno = ENOMEM;
  return 1;
}

void *malloc(size_t size) { return is_refused() ? NULL : __libc_malloc(size); }

void *calloc(size_t count, size_t size) { return is_refused() ? NULL : __libc_calloc(count, size); }

void *realloc(void *block, size_t size) { return is_refused() ? NULL : __libc_realloc(block, size); }

void *memalign(size_t alignment, size_t size) { return is_refused() ? NULL : __libc_memalign(alignment, size); }

void *aligned_alloc(size_t alignment, size_t size) { return memalign(alignment, size); }

int posix_memalign(void **block, size_t alignment, size_t size) {
  void *found = memalign(alignment, size);
  if (!found)
    return ENOMEM;
  *block = found;
  return 0;
}
