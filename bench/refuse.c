#define _GNU_SOURCE
#include <dlfcn.h>
#include <errno.h>
#include <stdarg.h>
#include <stdio.h>
#include <stdlib.h>
#include <unistd.h>

#define NEXT(name) ((__typeof__(&name))dlsym(RTLD_NEXT, #name))

static unsigned long allocations, calls;

static unsigned long number(const char *name) {
  const char *text = getenv(name);
  return text ? strtoul(text, 0, 10) : 0;
}

static int is_hit(unsigned long *count, unsigned long wanted) {
  ++*count;
  return wanted && (*count == wanted || (*count > wanted && number("ON")));
}

static int is_refused(void) { return is_hit(&allocations, number("REFUSE")); }

static int is_faulty(void) {
  if (!is_hit(&calls, number("FAULT"))) return 0;
  errno = number("ERROR");
  return 1;
}

static size_t moved(size_t size) { return number("SHORT") && size ? 1 : size; }

void *malloc(size_t size) { return is_refused() ? 0 : NEXT(malloc)(size); }
void *realloc(void *old, size_t size) { return is_refused() ? 0 : NEXT(realloc)(old, size); }
int open(const char *path, int flags, ...) {
  va_list rest;
  va_start(rest, flags);
  int mode = va_arg(rest, int);
  va_end(rest);
  return is_faulty() ? -1 : NEXT(open)(path, flags, mode);
}
ssize_t read(int file, void *to, size_t size) { return is_faulty() ? -1 : NEXT(read)(file, to, moved(size)); }
ssize_t write(int file, const void *from, size_t size) { return is_faulty() ? -1 : NEXT(write)(file, from, moved(size)); }
int fsync(int file) { return is_faulty() ? -1 : NEXT(fsync)(file); }
int rename(const char *from, const char *to) { return is_faulty() ? -1 : NEXT(rename)(from, to); }
int unlink(const char *path) { return is_faulty() ? -1 : NEXT(unlink)(path); }

__attribute__((destructor)) static void tell(void) { dprintf(2, "%lu %lu\n", allocations, calls); }
