// A library that is loaded before a program and makes one call of the program fail. The tests of the built programs use it; no program
// has it.
//
//     FAULT=alloc AT=N    the Nth allocation of the process finds no memory
//     FAULT=thread AT=N   the Nth thread can't be made
//     FAULT=read AT=N     the Nth read of standard input fails
//     FAULT=write AT=N    the Nth write to standard output fails
//
// SHORT=1 besides: each read of standard input and each write to standard output moves one byte at most.
//
// AT counts from 1. Where a call was made to fail, the file that HIT names is made.
//
// It is for the C library of GNU on x86-64, and needs none of its headers.
typedef unsigned long size_t;
typedef long ssize_t;

extern char *getenv(const char *name);
extern long syscall(long number, ...);
extern int *__errno_location(void);
extern void *dlsym(void *handle, const char *name);
extern void *__libc_malloc(size_t size);
extern void *__libc_calloc(size_t count, size_t size);
extern void *__libc_realloc(void *old, size_t size);

enum { READ = 0, WRITE = 1, OPEN = 2 };
enum { IO_ERROR = 5, NO_THREAD = 11, NO_MEMORY = 12 };
enum { WRITE_ONLY = 01, CREATE = 0100 };

// The first letter of the fault, 0 before the program begins.
static char fault;
static long at;
static long calls;
static int is_short;

__attribute__((constructor)) static void begin(void) {
  const char *kind = getenv("FAULT");
  const char *digits = getenv("AT");
  for (; digits && *digits; digits++)
    at = at * 10 + (*digits - '0');
  fault = kind ? *kind : 0;
  is_short = getenv("SHORT") != 0;
}

// Whether this call, one of those that this fault is of, is to fail.
static int fails(char kind, int error) {
  if (fault != kind || __atomic_add_fetch(&calls, 1, __ATOMIC_SEQ_CST) != at)
    return 0;
  const char *file = getenv("HIT");
  if (file)
    syscall(OPEN, file, WRITE_ONLY | CREATE, 0666);
  *__errno_location() = error;
  return 1;
}

void *malloc(size_t size) { return fails('a', NO_MEMORY) ? 0 : __libc_malloc(size); }

void *calloc(size_t count, size_t size) { return fails('a', NO_MEMORY) ? 0 : __libc_calloc(count, size); }

void *realloc(void *old, size_t size) { return fails('a', NO_MEMORY) ? 0 : __libc_realloc(old, size); }

int pthread_create(void *thread, const void *attributes, void *(*start)(void *), void *argument) {
  int (*real)(void *, const void *, void *(*)(void *), void *) =
      (int (*)(void *, const void *, void *(*)(void *), void *))dlsym((void *)-1, "pthread_create");
  return fails('t', NO_THREAD) ? NO_THREAD : real(thread, attributes, start, argument);
}

ssize_t read(int file, void *bytes, size_t size) {
  if (file == 0 && fails('r', IO_ERROR))
    return -1;
  return syscall(READ, file, bytes, is_short && file == 0 && size > 1 ? 1 : size);
}

ssize_t write(int file, const void *bytes, size_t size) {
  if (file == 1 && fails('w', IO_ERROR))
    return -1;
  return syscall(WRITE, file, bytes, is_short && file == 1 && size > 1 ? 1 : size);
}

ssize_t __write(int file, const void *bytes, size_t size) { return write(file, bytes, size); }
