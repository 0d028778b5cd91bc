/* Refuses one request for memory: the REFUSE-th of a program that this library is loaded before (LD_PRELOAD), counted from 1.
   Where it comes to that request, the file that REFUSE_TOLD names is made.
   Built and used by tools/refusals. */
#define _GNU_SOURCE
#include <dlfcn.h>
#include <errno.h>
#include <fcntl.h>
#include <stddef.h>
#include <stdlib.h>
#include <unistd.h>

static void *(*real_malloc)(size_t);
static void *(*real_calloc)(size_t, size_t);
static void *(*real_realloc)(void *, size_t);
static void *(*real_aligned_alloc)(size_t, size_t);
static int (*real_posix_memalign)(void **, size_t, size_t);
static void (*real_free)(void *);

static unsigned long refused; /* which request, 0 for none */
static unsigned long seen;    /* requests so far */
static int is_counting;

/* What dlsym asks for while the functions are looked up. */
static char early[65536] __attribute__((aligned(16)));
static size_t early_used;

static int is_early(const void *block) {
  return (const char *)block >= early && (const char *)block < early + sizeof early;
}

static void *early_block(size_t size) {
  size_t rounded = (size + 15) & ~(size_t)15;
  if (rounded > sizeof early - early_used) return NULL;
  void *block = early + early_used;
  early_used += rounded;
  return block;
}

__attribute__((constructor)) static void begin(void) {
  real_malloc = dlsym(RTLD_NEXT, "malloc");
  real_calloc = dlsym(RTLD_NEXT, "calloc");
  real_realloc = dlsym(RTLD_NEXT, "realloc");
  real_aligned_alloc = dlsym(RTLD_NEXT, "aligned_alloc");
  real_posix_memalign = dlsym(RTLD_NEXT, "posix_memalign");
  real_free = dlsym(RTLD_NEXT, "free");
  const char *which = getenv("REFUSE");
  refused = which ? strtoul(which, NULL, 10) : 0;
  __atomic_store_n(&is_counting, 1, __ATOMIC_SEQ_CST);
}

/* Leaves a file that says so. A program may end without its destructors, so it is written at once. */
static void tell(void) {
  const char *path = getenv("REFUSE_TOLD");
  int file = path ? open(path, O_WRONLY | O_CREAT | O_TRUNC, 0600) : -1;
  if (file >= 0) close(file);
}

/* Whether this request is the one that is refused. */
static int is_refused(void) {
  if (!__atomic_load_n(&is_counting, __ATOMIC_SEQ_CST)) return 0;
  if (__atomic_add_fetch(&seen, 1, __ATOMIC_SEQ_CST) != refused) return 0;
  tell();
  errno = ENOMEM;
  return 1;
}

void *malloc(size_t size) {
  if (is_refused()) return NULL;
  return real_malloc ? real_malloc(size) : early_block(size);
}

void *calloc(size_t count, size_t size) {
  if (is_refused()) return NULL;
  return real_calloc ? real_calloc(count, size) : early_block(count * size);
}

void *realloc(void *block, size_t size) {
  if (is_refused()) return NULL;
  if (is_early(block) || !real_realloc) return NULL;
  return real_realloc(block, size);
}

void *aligned_alloc(size_t alignment, size_t size) {
  if (is_refused()) return NULL;
  return real_aligned_alloc ? real_aligned_alloc(alignment, size) : NULL;
}

int posix_memalign(void **block, size_t alignment, size_t size) {
  if (is_refused()) return ENOMEM;
  return real_posix_memalign ? real_posix_memalign(block, alignment, size) : ENOMEM;
}

void free(void *block) {
  if (!is_early(block) && real_free) real_free(block);
}
