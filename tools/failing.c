/* Loaded before the C library (LD_PRELOAD), it makes a call of the program fail, for tools/faults and tools/memory:
   FAIL_READ=N the Nth read of standard input, FAIL_WRITE=N the Nth write to standard output, FAIL_MEMORY=N the Nth call that
   asks for memory, each from 1. At its end it tells how many of each there were in the file that FAIL_COUNTS names. */
#define _GNU_SOURCE
#include <dlfcn.h>
#include <errno.h>
#include <fcntl.h>
#include <stdio.h>
#include <stdlib.h>
#include <unistd.h>

static unsigned long reads, writes, growths;

static unsigned long wanted(const char *name) {
  const char *text = getenv(name);
  return text ? strtoul(text, 0, 10) : 0;
}

ssize_t read(int file, void *into, size_t most) {
  static ssize_t (*real)(int, void *, size_t);
  if (!real) real = dlsym(RTLD_NEXT, "read");
  if (file == 0 && ++reads == wanted("FAIL_READ")) return errno = EIO, -1;
  return real(file, into, most);
}

ssize_t write(int file, const void *from, size_t most) {
  static ssize_t (*real)(int, const void *, size_t);
  if (!real) real = dlsym(RTLD_NEXT, "write");
  if (file == 1 && ++writes == wanted("FAIL_WRITE")) return errno = EIO, -1;
  return real(file, from, most);
}

/* The program's allocator asks by these, each thread of it; those of the loader before main aren't counted. */
static int ready;
static int refuses(void) { return ready && __atomic_add_fetch(&growths, 1, __ATOMIC_RELAXED) == wanted("FAIL_MEMORY"); }

extern void *__libc_malloc(size_t), *__libc_realloc(void *, size_t), *__libc_calloc(size_t, size_t), *__libc_memalign(size_t, size_t);

void *malloc(size_t size) { return refuses() ? (errno = ENOMEM, (void *)0) : __libc_malloc(size); }
void *calloc(size_t count, size_t size) { return refuses() ? (errno = ENOMEM, (void *)0) : __libc_calloc(count, size); }
void *realloc(void *old, size_t size) { return refuses() ? (errno = ENOMEM, (void *)0) : __libc_realloc(old, size); }
void *aligned_alloc(size_t to, size_t size) { return refuses() ? (errno = ENOMEM, (void *)0) : __libc_memalign(to, size); }
int posix_memalign(void **into, size_t to, size_t size) {
  if (refuses()) return ENOMEM;
  *into = __libc_memalign(to, size);
  return *into ? 0 : ENOMEM;
}

__attribute__((constructor)) static void begin(void) { ready = 1; }

static void tell(void) {
  const char *name = getenv("FAIL_COUNTS");
  char line[96];
  ready = 0;
  if (!name) return;
  int file = open(name, O_WRONLY | O_CREAT | O_TRUNC, 0600), octets = snprintf(line, sizeof line, "%lu %lu %lu\n", reads, writes, growths);
  if (file >= 0 && octets > 0) { ssize_t gone = write(file, line, (size_t)octets); (void)gone; close(file); }
}

__attribute__((destructor)) static void end(void) { tell(); }

/* A program that can start threads ends by this, and no destructor is called then. */
void _exit(int status) {
  static void (*real)(int);
  if (!real) real = dlsym(RTLD_NEXT, "_exit");
  tell();
  real(status);
  for (;;) {}
}
