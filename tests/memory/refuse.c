/* Preloaded before the C library, refuses requests for memory that a program makes of malloc, calloc, realloc,
   posix_memalign and aligned_alloc.

   REFUSE_FILE names a file of 24 bytes, three numbers of 8 bytes, which is mapped and shared:
     0  how many requests are still granted; with 0 none is refused, and with 1 the next one is
     1  how many are refused one after another then; the count goes down to 0
     2  how many were refused so far
   Where there is no such file, each request is granted. */
#define _GNU_SOURCE
#include <dlfcn.h>
#include <errno.h>
#include <fcntl.h>
#include <stdint.h>
#include <stdlib.h>
#include <string.h>
#include <sys/mman.h>
#include <unistd.h>

static volatile uint64_t *numbers;

/* What dlsym asks for while calloc is looked up. */
static char first_room[1 << 16];
static size_t first_used;

__attribute__((constructor)) static void map_file(void) {
  const char *name = getenv("REFUSE_FILE");
  int file = name ? open(name, O_RDWR | O_CLOEXEC) : -1;
  if (file < 0) return;
  void *there = mmap(NULL, 24, PROT_READ | PROT_WRITE, MAP_SHARED, file, 0);
  close(file);
  if (there != MAP_FAILED) numbers = there;
}

static int is_refused(void) {
  if (!numbers || numbers[0] == 0) return 0;
  if (numbers[0] > 1) {
    numbers[0]--;
    return 0;
  }
  if (numbers[1] <= 1) numbers[0] = 0;
  if (numbers[1] > 0) numbers[1]--;
  numbers[2]++;
  errno = ENOMEM;
  return 1;
}

void *malloc(size_t size) {
  static void *(*next)(size_t);
  if (!next) *(void **)&next = dlsym(RTLD_NEXT, "malloc");
  return is_refused() ? NULL : next(size);
}

void *calloc(size_t count, size_t size) {
  static void *(*next)(size_t, size_t);
  static int is_asking;
  if (!next && is_asking) {
    char *there = first_room + first_used;
    first_used += (count * size + 15) & ~(size_t)15;
    return first_used <= sizeof first_room ? there : NULL;
  }
  if (!next) {
    is_asking = 1;
    *(void **)&next = dlsym(RTLD_NEXT, "calloc");
    is_asking = 0;
  }
  return is_refused() ? NULL : next(count, size);
}

void *realloc(void *old, size_t size) {
  static void *(*next)(void *, size_t);
  if (!next) *(void **)&next = dlsym(RTLD_NEXT, "realloc");
  return is_refused() ? NULL : next(old, size);
}

void free(void *old) {
  static void (*next)(void *);
  if ((char *)old >= first_room && (char *)old < first_room + sizeof first_room) return;
  if (!next) *(void **)&next = dlsym(RTLD_NEXT, "free");
  next(old);
}

int posix_memalign(void **there, size_t alignment, size_t size) {
  static int (*next)(void **, size_t, size_t);
  if (!next) *(void **)&next = dlsym(RTLD_NEXT, "posix_memalign");
  return is_refused() ? ENOMEM : next(there, alignment, size);
}

void *aligned_alloc(size_t alignment, size_t size) {
  static void *(*next)(size_t, size_t);
  if (!next) *(void **)&next = dlsym(RTLD_NEXT, "aligned_alloc");
  return is_refused() ? NULL : next(alignment, size);
}
