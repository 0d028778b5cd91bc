/* A disk that keeps nothing of a log before it is synced. A program that this library is loaded before (LD_PRELOAD) writes lines with
   pwrite and syncs them with fdatasync: until the sync, what it wrote is only held here. It dies by SIGKILL at the LOSE_AT-th of these
   calls, counted from 1, before the call has done anything, or for no count when somebody else kills it. At its own death each run of
   bytes that is held, from 1 to 600 of them, is on the disk or is not, by LOSE_SEED: so parts are lost, torn, and there without what
   was written before them. Zeros, with which a log is made, go through. The HANG_AT-th sync takes HANG_SECONDS.
   Built and used by bench/crash */
#define _GNU_SOURCE
#include <dlfcn.h>
#include <pthread.h>
#include <signal.h>
#include <stdint.h>
#include <stdlib.h>
#include <string.h>
#include <sys/types.h>
#include <unistd.h>

#define MOST_FILES 1024

struct held {
  struct held *next;
  off_t at;
  size_t length;
  unsigned char bytes[];
};

static ssize_t (*real_pwrite)(int, const void *, size_t, off_t);
static int (*real_fdatasync)(int);
static int (*real_fsync)(int);
static int (*real_close)(int);

static pthread_mutex_t lock = PTHREAD_MUTEX_INITIALIZER;
static struct held *first[MOST_FILES], *last[MOST_FILES];
static unsigned long dies_at, calls, hangs_at, syncs;
static unsigned hang;
static uint64_t state;

__attribute__((constructor)) static void begin(void) {
  real_pwrite = dlsym(RTLD_NEXT, "pwrite");
  real_fdatasync = dlsym(RTLD_NEXT, "fdatasync");
  real_fsync = dlsym(RTLD_NEXT, "fsync");
  real_close = dlsym(RTLD_NEXT, "close");
  const char *at = getenv("LOSE_AT"), *seed = getenv("LOSE_SEED");
  dies_at = at ? strtoul(at, NULL, 10) : 0;
  const char *hang_at = getenv("HANG_AT"), *seconds = getenv("HANG_SECONDS");
  hangs_at = hang_at ? strtoul(hang_at, NULL, 10) : 0;
  hang = seconds ? (unsigned)strtoul(seconds, NULL, 10) : 0;
  state = (seed ? strtoull(seed, NULL, 10) : 1) * 0x9E3779B97F4A7C15u + 1;
}

/* The next of a sequence of numbers (xorshift64). */
static uint64_t next_number(void) {
  state ^= state << 13;
  state ^= state >> 7;
  state ^= state << 17;
  return state;
}

static void write_all(int fd, const unsigned char *bytes, size_t length, off_t at) {
  while (length > 0) {
    ssize_t done = real_pwrite(fd, bytes, length, at);
    if (done <= 0) _exit(99);
    bytes += done, length -= (size_t)done, at += done;
  }
}

/* Some of what is held, and then the end. */
static void die(void) {
  for (int fd = 0; fd < MOST_FILES; fd++) {
    for (struct held *each = first[fd]; each; each = each->next) {
      for (size_t from = 0; from < each->length;) {
        size_t run = 1 + next_number() % 600;
        if (run > each->length - from) run = each->length - from;
        if (next_number() & 1) write_all(fd, each->bytes + from, run, each->at + (off_t)from);
        from += run;
      }
    }
  }
  kill(getpid(), SIGKILL);
  for (;;) pause();
}

static void count_call(void) {
  calls++;
  if (calls == dies_at) die();
}

static void settle(int fd) {
  struct held *each = first[fd];
  first[fd] = last[fd] = NULL;
  while (each) {
    struct held *gone = each;
    write_all(fd, each->bytes, each->length, each->at);
    each = each->next;
    free(gone);
  }
}

static int is_zero(const unsigned char *bytes, size_t length) {
  for (size_t i = 0; i < length; i++) {
    if (bytes[i]) return 0;
  }
  return 1;
}

ssize_t pwrite(int fd, const void *bytes, size_t length, off_t at) {
  if (fd < 0 || fd >= MOST_FILES || is_zero(bytes, length)) return real_pwrite(fd, bytes, length, at);
  struct held *more = malloc(sizeof *more + length);
  if (!more) return real_pwrite(fd, bytes, length, at);
  more->next = NULL;
  more->at = at;
  more->length = length;
  memcpy(more->bytes, bytes, length);
  pthread_mutex_lock(&lock);
  if (last[fd]) {
    last[fd]->next = more;
  } else {
    first[fd] = more;
  }
  last[fd] = more;
  count_call();
  pthread_mutex_unlock(&lock);
  return (ssize_t)length;
}

ssize_t pwrite64(int fd, const void *bytes, size_t length, off_t at) { return pwrite(fd, bytes, length, at); }

int fdatasync(int fd) {
  if (__atomic_add_fetch(&syncs, 1, __ATOMIC_SEQ_CST) == hangs_at) sleep(hang);
  if (fd >= 0 && fd < MOST_FILES) {
    pthread_mutex_lock(&lock);
    count_call();
    settle(fd);
    pthread_mutex_unlock(&lock);
  }
  return real_fdatasync(fd);
}

int fsync(int fd) {
  if (fd >= 0 && fd < MOST_FILES) {
    pthread_mutex_lock(&lock);
    settle(fd);
    pthread_mutex_unlock(&lock);
  }
  return real_fsync(fd);
}

int close(int fd) {
  if (fd >= 0 && fd < MOST_FILES) {
    pthread_mutex_lock(&lock);
    settle(fd);
    pthread_mutex_unlock(&lock);
  }
  return real_close(fd);
}
