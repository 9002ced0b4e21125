/* Put in front of the C library (LD_PRELOAD), it refuses what a program asks of it:
 *   REFUSE=n  the nth allocation
 *   MARK=n    allocations count only between a piece of n bytes and the next such piece
 *   THREAD=n  the nth thread, which isn't started
 *   READ=n    the nth read from standard input, each of one byte
 *   WRITE=n   the nth write to standard output
 *   EVERY=n   and each nth of the same kind after it
 * With COUNT set it says at the end how many allocations and threads there were. */
#define _GNU_SOURCE
#include <dlfcn.h>
#include <errno.h>
#include <pthread.h>
#include <stdio.h>
#include <stdlib.h>
#include <sys/syscall.h>
#include <unistd.h>
static void *(*real_malloc)(size_t);
static void *(*real_realloc)(void *, size_t);
static void *(*real_aligned)(size_t, size_t);
static int (*real_thread)(pthread_t *, const pthread_attr_t *, void *(*)(void *), void *);
static ssize_t (*real_read)(int, void *, size_t);
static ssize_t (*real_write)(int, const void *, size_t);
static unsigned long allocations, threads, reads, writes;
static unsigned long refused, mark, thread, read_at, write_at, every;
static int started, counts = 1;
static unsigned long number(const char *name) {
  const char *n = getenv(name);
  return n ? strtoul(n, 0, 10) : 0;
}
static void begin(void) {
  if (started) return;
  started = 1;
  real_malloc = dlsym(RTLD_NEXT, "malloc");
  real_realloc = dlsym(RTLD_NEXT, "realloc");
  real_aligned = dlsym(RTLD_NEXT, "aligned_alloc");
  real_thread = dlsym(RTLD_NEXT, "pthread_create");
  real_read = dlsym(RTLD_NEXT, "read");
  real_write = dlsym(RTLD_NEXT, "write");
  refused = number("REFUSE");
  mark = number("MARK");
  thread = number("THREAD");
  read_at = number("READ");
  write_at = number("WRITE");
  every = number("EVERY");
  counts = mark == 0;
}
/* Whether one more of a kind is to be refused. */
static int is_hit(unsigned long *count, unsigned long at) {
  unsigned long now = __atomic_add_fetch(count, 1, __ATOMIC_SEQ_CST);
  return at != 0 && (now == at || (every != 0 && now > at && (now - at) % every == 0));
}
static int is_refused(size_t n) {
  begin();
  if (mark != 0 && n == mark) {
    counts = !counts;
    return 0;
  }
  return counts && is_hit(&allocations, refused);
}
void *malloc(size_t n) { return is_refused(n) ? 0 : real_malloc(n); }
void *realloc(void *p, size_t n) { return is_refused(n) ? 0 : real_realloc(p, n); }
void *aligned_alloc(size_t a, size_t n) { return is_refused(n) ? 0 : real_aligned(a, n); }
int pthread_create(pthread_t *t, const pthread_attr_t *a, void *(*f)(void *), void *x) {
  begin();
  return is_hit(&threads, thread) ? EAGAIN : real_thread(t, a, f, x);
}
ssize_t read(int file, void *bytes, size_t n) {
  begin();
  if (file != 0 || read_at == 0) return real_read(file, bytes, n);
  if (!is_hit(&reads, read_at)) return real_read(file, bytes, n > 1 ? 1 : n);
  errno = EIO;
  return -1;
}
ssize_t write(int file, const void *bytes, size_t n) {
  begin();
  if (file != 1 || !is_hit(&writes, write_at)) return real_write(file, bytes, n);
  errno = EIO;
  return -1;
}
static void tell(void) {
  if (!getenv("COUNT")) return;
  char text[80];
  int length = snprintf(text, sizeof text, "allocations %lu\nthreads %lu\n", allocations, threads);
  if (write(2, text, length) < 0) return;
}
__attribute__((destructor)) static void end(void) { tell(); }
/* A program may end by this, and then no destructor is called. */
void _exit(int status) {
  tell();
  syscall(SYS_exit_group, status);
  __builtin_unreachable();
}
