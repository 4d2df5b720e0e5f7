// Preloaded into a program, it refuses one allocation: number REFUSE, from 1. When the program ends it writes how many
// allocations were asked for into the file that REFUSE_COUNT names.
#define _GNU_SOURCE
#include <dlfcn.h>
#include <errno.h>
#include <stdio.h>
#include <stdlib.h>
#include <unistd.h>

// Threads may ask at the same time.
static unsigned long asked, refused;

static void *next(const char *name) {
  return dlsym(RTLD_NEXT, name);
}

__attribute__((constructor)) static void begin(void) {
  const char *number = getenv("REFUSE");
  refused = number ? strtoul(number, NULL, 10) : 0;
  asked = 0;
}

__attribute__((destructor)) static void end(void) {
  const char *path = getenv("REFUSE_COUNT");
  unsigned long count = asked;
  refused = 0;
  FILE *file = path ? fopen(path, "w") : NULL;
  if (file == NULL) return;
  fprintf(file, "%lu\n", count);
  fclose(file);
}

// A program that may start threads ends this way, and runs no destructors.
void _exit(int status) {
  static void (*real)(int);
  end();
  if (real == NULL) real = next("_exit");
  real(status);
  __builtin_unreachable();
}

static int is_refused(void) {
  if (__atomic_add_fetch(&asked, 1, __ATOMIC_SEQ_CST) != refused) return 0;
  errno = ENOMEM;
  return 1;
}

void *malloc(size_t size) {
  static void *(*real)(size_t);
  if (real == NULL) real = next("malloc");
  return is_refused() ? NULL : real(size);
}

void *realloc(void *old, size_t size) {
  static void *(*real)(void *, size_t);
  if (real == NULL) real = next("realloc");
  return is_refused() ? NULL : real(old, size);
}

void *aligned_alloc(size_t alignment, size_t size) {
  static void *(*real)(size_t, size_t);
  if (real == NULL) real = next("aligned_alloc");
  return is_refused() ? NULL : real(alignment, size);
}

int posix_memalign(void **out, size_t alignment, size_t size) {
  static int (*real)(void **, size_t, size_t);
  if (real == NULL) real = next("posix_memalign");
  return is_refused() ? ENOMEM : real(out, alignment, size);
}
