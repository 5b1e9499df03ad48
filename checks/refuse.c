/* Stands before a program and refuses what it asks of the system, as the environment says:
     REFUSE=memory:3    the third request for memory; read:3 and write:3 the third read and write
     REFUSE=signal:3    the third read, as if a signal had come; exhaust:3 the third read, for lack of memory
     REFUSE=memory:3+   the third and all later ones
     REFUSE=thread:2    the start of the second thread
     REFUSE=short       nothing, but each read and write takes one byte at a time
     REFUSE=count       nothing
   Where something was refused, a byte goes to the file descriptor that REFUSED names; under `count` a line for each write,
   with the requests for memory before it and its size, and one for each thread, with the requests before and after its start. */
#define _GNU_SOURCE
#include <dlfcn.h>
#include <errno.h>
#include <pthread.h>
#include <stdio.h>
#include <stdlib.h>
#include <string.h>
#include <sys/syscall.h>
#include <unistd.h>

extern void *__libc_malloc(size_t), *__libc_realloc(void *, size_t);

static int refuses(const char *kind, unsigned long asked, int error) {
  const char *said = getenv("REFUSE"), *to = getenv("REFUSED");
  size_t long_ = strlen(kind);
  if (!said || strncmp(said, kind, long_) || said[long_] != ':') return 0;
  char *rest;
  unsigned long at = strtoul(said + long_ + 1, &rest, 10);
  if (asked != at && !(*rest == '+' && asked > at)) return 0;
  if (to) syscall(SYS_write, atoi(to), "x", 1);
  errno = error;
  return 1;
}

static size_t taken(size_t count) {
  const char *said = getenv("REFUSE");
  return count && said && !strcmp(said, "short") ? 1 : count;
}

static unsigned long requests, reads, writes, threads;

static void tell(const char *what, unsigned long before, unsigned long value) {
  const char *said = getenv("REFUSE"), *to = getenv("REFUSED");
  char line[64];
  if (!said || strcmp(said, "count") || !to) return;
  syscall(SYS_write, atoi(to), line, snprintf(line, sizeof line, "%s %lu %lu\n", what, before, value));
}

void *malloc(size_t size) { return refuses("memory", ++requests, ENOMEM) ? 0 : __libc_malloc(size); }

void *realloc(void *old, size_t size) { return refuses("memory", ++requests, ENOMEM) ? 0 : __libc_realloc(old, size); }

ssize_t read(int file, void *to, size_t count) {
  reads++;
  int fails = refuses("read", reads, EIO) || refuses("signal", reads, EINTR) || refuses("exhaust", reads, ENOMEM);
  return fails ? -1 : syscall(SYS_read, file, to, taken(count));
}

ssize_t write(int file, const void *from, size_t count) {
  tell("write", requests, count);
  return refuses("write", ++writes, EIO) ? -1 : syscall(SYS_write, file, from, taken(count));
}

int pthread_create(pthread_t *thread, const pthread_attr_t *attributes, void *(*start)(void *), void *argument) {
  int (*create)(pthread_t *, const pthread_attr_t *, void *(*)(void *), void *) = dlsym(RTLD_NEXT, "pthread_create");
  unsigned long before = requests;
  if (refuses("thread", ++threads, EAGAIN)) return EAGAIN;
  int answer = create(thread, attributes, start, argument);
  tell("thread", before, requests);
  return answer;
}
