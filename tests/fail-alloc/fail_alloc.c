/* Loaded in front of the C library: the allocation with the number FAIL_ALLOC, from 1, answers that there is no memory.
   Where it did, the file FAIL_ALLOC_MARK is made, so that a run which makes fewer allocations is told from the others. */
#include <errno.h>
#include <fcntl.h>
#include <stddef.h>
#include <stdlib.h>
#include <unistd.h>

extern void *__libc_malloc(size_t);
extern void *__libc_calloc(size_t, size_t);
extern void *__libc_realloc(void *, size_t);
extern void *__libc_memalign(size_t, size_t);

static unsigned long count;

static int fails(void) {
  const char *at = getenv("FAIL_ALLOC");
  const char *mark = getenv("FAIL_ALLOC_MARK");
  if (at == NULL || mark == NULL || ++count != strtoul(at, NULL, 10)) {
    return 0;
  }
  int made = open(mark, O_CREAT | O_WRONLY, 0600);
  if (made >= 0) {
    close(made);
  }
  errno = ENOMEM;
  return 1;
}

void *malloc(size_t size) { return fails() ? NULL : __libc_malloc(size); }

void *calloc(size_t number, size_t size) { return fails() ? NULL : __libc_calloc(number, size); }

void *realloc(void *old, size_t size) { return fails() ? NULL : __libc_realloc(old, size); }

void *aligned_alloc(size_t align, size_t size) { return fails() ? NULL : __libc_memalign(align, size); }

int posix_memalign(void **out, size_t align, size_t size) {
  if (fails()) {
    return ENOMEM;
  }
  *out = __libc_memalign(align, size);
  return *out == NULL ? ENOMEM : 0;
}
