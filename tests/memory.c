/* Preloaded by tests/memory: counts the program's calls for memory, and refuses one of them or all from one on.

   MEMORY_COUNT names a file with room for two numbers of eight bytes: the calls so far, and those that were refused.
   They stand there however the program ends. MEMORY_REFUSE is the number of the call that is refused, counted from 1;
   with `+` behind it all later calls are refused too. Calls of the C library for itself count, as those of a thread
   that is started. */
#include <errno.h>
#include <fcntl.h>
#include <stdatomic.h>
#include <stddef.h>
#include <stdlib.h>
#include <sys/mman.h>
#include <unistd.h>

/* What the C library calls by these names too. */
extern void *__libc_malloc(size_t);
extern void *__libc_calloc(size_t, size_t);
extern void *__libc_realloc(void *, size_t);
extern void *__libc_memalign(size_t, size_t);

static struct counts {
  atomic_ulong calls, refused;
} *counts;
static unsigned long least, most;

__attribute__((constructor)) static void begin(void) {
  const char *name = getenv("MEMORY_COUNT"), *number = getenv("MEMORY_REFUSE");
  int file = name ? open(name, O_RDWR | O_CLOEXEC) : -1;
  void *room;
  if (file < 0)
    return;
  room = mmap(NULL, sizeof *counts, PROT_READ | PROT_WRITE, MAP_SHARED, file, 0);
  close(file);
  if (room == MAP_FAILED)
    return;
  if (number) {
    char *rest;
    least = strtoul(number, &rest, 10);
    most = *rest == '+' ? (unsigned long)-1 : least;
  }
  counts = room;
}

static int is_refused(void) {
  unsigned long number;
  if (!counts)
    return 0;
  number = atomic_fetch_add(&counts->calls, 1) + 1;
  if (number < least || number > most)
    return 0;
  atomic_fetch_add(&counts->refused, 1);
  errno = ENOMEM;
  return 1;
}

void *malloc(size_t size) { return is_refused() ? NULL : __libc_malloc(size); }

void *calloc(size_t count, size_t size) { return is_refused() ? NULL : __libc_calloc(count, size); }

void *realloc(void *old, size_t size) { return is_refused() ? NULL : __libc_realloc(old, size); }

void *memalign(size_t place, size_t size) { return is_refused() ? NULL : __libc_memalign(place, size); }

void *aligned_alloc(size_t place, size_t size) { return is_refused() ? NULL : __libc_memalign(place, size); }

int posix_memalign(void **at, size_t place, size_t size) {
  void *found;
  if (is_refused())
    return ENOMEM;
  found = __libc_memalign(place, size);
  if (!found)
    return ENOMEM;
  *at = found;
  return 0;
}
