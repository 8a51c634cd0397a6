/* Goes between a program and the C library, as LD_PRELOAD names it, and makes what the program asks for fail.
 *
 * FAULTS_ALLOCATION=K  the K-th call of malloc or realloc is refused, counted from 1
 * FAULTS_REST=1        so is each after it
 * FAULTS_READ=K        the K-th read fails; FAULTS_WRITE=K the K-th write to standard output
 * FAULTS_ERROR=E       by which number of an error; 5 where absent
 * FAULTS_THREAD=K      the K-th thread is not started
 * FAULTS_BYTES=N       a read or a write takes at most N bytes
 * FAULTS_COUNTS=FD     at the exit the numbers of allocations, reads, writes and threads are written to this descriptor
 */
#define _GNU_SOURCE
#include <dlfcn.h>
#include <errno.h>
#include <pthread.h>
#include <stdatomic.h>
#include <stdio.h>
#include <stdlib.h>
#include <sys/syscall.h>
#include <unistd.h>

extern void *__libc_malloc(size_t);
extern void *__libc_realloc(void *, size_t);

static atomic_long allocations, reads, writes, threads;
static long allocation, rest, read_at, write_at, thread, error = EIO, most;
static int counts = -1, ready;

static long number(const char *name, long otherwise) {
  const char *text = getenv(name);
  return text ? atol(text) : otherwise;
}

__attribute__((constructor)) static void start(void) {
  allocation = number("FAULTS_ALLOCATION", 0);
  rest = number("FAULTS_REST", 0);
  read_at = number("FAULTS_READ", 0);
  write_at = number("FAULTS_WRITE", 0);
  thread = number("FAULTS_THREAD", 0);
  error = number("FAULTS_ERROR", EIO);
  most = number("FAULTS_BYTES", 0);
  counts = (int)number("FAULTS_COUNTS", -1);
  ready = 1;
}

/* The program ends by this call. */
void _exit(int status) {
  char line[96];
  if (counts >= 0) {
    int length = snprintf(line, sizeof line, "%ld %ld %ld %ld\n", (long)allocations, (long)reads, (long)writes, (long)threads);
    syscall(SYS_write, counts, line, length);
  }
  for (;;)
    syscall(SYS_exit_group, status);
}

/* What the C library takes for itself before main is not counted. */
static int is_refused(void) {
  if (!ready)
    return 0;
  long at = ++allocations;
  if (!allocation || at < allocation || (at > allocation && !rest))
    return 0;
  errno = ENOMEM;
  return 1;
}

void *malloc(size_t size) { return is_refused() ? 0 : __libc_malloc(size); }

void *realloc(void *old, size_t size) { return is_refused() ? 0 : __libc_realloc(old, size); }

static size_t short_of(size_t length) { return most && length > (size_t)most ? (size_t)most : length; }

ssize_t read(int descriptor, void *bytes, size_t length) {
  if (++reads == read_at) {
    errno = (int)error;
    return -1;
  }
  return syscall(SYS_read, descriptor, bytes, short_of(length));
}

ssize_t write(int descriptor, const void *bytes, size_t length) {
  if (descriptor == 1 && ++writes == write_at) {
    errno = (int)error;
    return -1;
  }
  return syscall(SYS_write, descriptor, bytes, short_of(length));
}

typedef int starter(pthread_t *, const pthread_attr_t *, void *(*)(void *), void *);

int pthread_create(pthread_t *made, const pthread_attr_t *how, void *(*body)(void *), void *given) {
  if (++threads == thread)
    return EAGAIN;
  return ((starter *)dlsym(RTLD_NEXT, "pthread_create"))(made, how, body, given);
}
