/* Refuses one allocation of a program: preloaded by tools/refuse-memory and tools/cut-openings, which have more on it.

   Allocations are counted after one of FIRST octets and up to one of LAST octets, or from the beginning on where FROM_BEGINNING is set. Only the
   one whose number is in REFUSED is refused. At the end their count is written to the descriptor whose number is in COUNTED. */
#include <stdio.h>
#include <stdlib.h>
#include <sys/syscall.h>
#include <unistd.h>

enum { FIRST = 70001, LAST = 70003 };

extern void *__libc_malloc(size_t size);
extern void *__libc_realloc(void *old, size_t size);

static int counts;
static long counted;
static long refused;

static int refuses(size_t size) {
  if (size == FIRST || size == LAST) {
    counts = size == FIRST;
    return 0;
  }
  return counts && ++counted == refused;
}

void *malloc(size_t size) { return refuses(size) ? NULL : __libc_malloc(size); }

void *realloc(void *old, size_t size) { return refuses(size) ? NULL : __libc_realloc(old, size); }

__attribute__((constructor)) static void begin(void) {
  const char *number = getenv("REFUSED");
  refused = number ? atol(number) : 0;
  counts = getenv("FROM_BEGINNING") != NULL;
}

__attribute__((destructor)) static void end(void) {
  const char *descriptor = getenv("COUNTED");
  if (descriptor) dprintf(atoi(descriptor), "%ld\n", counted);
}

/* The program rha ends so, and then no destructor is called. */
void _exit(int status) {
  end();
  syscall(SYS_exit_group, status);
  __builtin_unreachable();
}
