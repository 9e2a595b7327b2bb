#define _GNU_SOURCE
#include <dlfcn.h>
#include <errno.h>
#include <fcntl.h>
#include <pthread.h>
#include <signal.h>
#include <stdarg.h>
#include <stdlib.h>
#include <string.h>
#include <sys/mman.h>
#include <sys/stat.h>
#include <sys/uio.h>
#include <unistd.h>
/* A process may end with no destructor run, so what is told stands in a file that is mapped: how many calls there were, and the name of the
   first that failed. FAULT_OF says which calls count: (m)emory and threads, (t)hreads alone, or (c)alls of the system, which (k)ill, are
   (i)nterrupted or do (l)ess.
   With FAULT_BETWEEN only those count that are made behind a line "before" on standard output and in front of a line "behind". */
struct told { long seen; char name[24]; };
static struct told none, *told = &none;
static long at;
static int onward, of, counts = 1;
__attribute__((constructor)) static void begin(void) {
  char *name = getenv("FAULT_TOLD"), *nth = getenv("FAULT_AT"), *kind = getenv("FAULT_OF");
  if (!name || !kind) return;
  int file = open(name, O_RDWR | O_CREAT | O_TRUNC, 0644);
  void *made = file < 0 || ftruncate(file, sizeof none) ? MAP_FAILED : mmap(0, sizeof none, PROT_READ | PROT_WRITE, MAP_SHARED, file, 0);
  if (made == MAP_FAILED) _exit(99);
  close(file);
  told = made, at = nth ? atol(nth) : 0, onward = getenv("FAULT_ONWARD") != 0, counts = getenv("FAULT_BETWEEN") == 0, of = *kind;
}
enum { SYSTEM, MEMORY, THREAD };
static int is_of(int kind) { return of == 't' ? kind == THREAD : of == 'm' ? kind != SYSTEM : kind == SYSTEM; }
static int due(int kind, const char *name) {
  if (!of || !is_of(kind) || !__atomic_load_n(&counts, __ATOMIC_SEQ_CST)) return 0;
  long n = __atomic_add_fetch(&told->seen, 1, __ATOMIC_SEQ_CST);
  if (at == 0 || n < at || (n > at && !onward)) return 0;
  if (n == at) strncpy(told->name, name, sizeof told->name - 1);
  if (of == 'k') for (;;) kill(getpid(), SIGKILL);
  return 1;
}
static void *refused(void) { errno = ENOMEM; return 0; }
extern void *__libc_malloc(size_t), *__libc_calloc(size_t, size_t), *__libc_realloc(void *, size_t), *__libc_memalign(size_t, size_t);
void *malloc(size_t n) { return due(MEMORY, "malloc") ? refused() : __libc_malloc(n); }
void *calloc(size_t c, size_t n) { return due(MEMORY, "calloc") ? refused() : __libc_calloc(c, n); }
void *realloc(void *p, size_t n) { return due(MEMORY, "realloc") ? refused() : __libc_realloc(p, n); }
void *memalign(size_t a, size_t n) { return due(MEMORY, "memalign") ? refused() : __libc_memalign(a, n); }
void *aligned_alloc(size_t a, size_t n) { return due(MEMORY, "aligned_alloc") ? refused() : __libc_memalign(a, n); }
int posix_memalign(void **p, size_t a, size_t n) {
  void *made = due(MEMORY, "posix_memalign") ? 0 : __libc_memalign(a, n);
  if (made) *p = made;
  return made ? 0 : ENOMEM;
}
#define REAL(type, name, ...) static type (*real)(__VA_ARGS__); if (!real) real = dlsym(RTLD_NEXT, #name)
#define MAP(name) void *name(void *p, size_t n, int prot, int flags, int f, off_t o) { \
  REAL(void *, name, void *, size_t, int, int, int, off_t); \
  if (due(MEMORY, #name)) { errno = ENOMEM; return MAP_FAILED; } return real(p, n, prot, flags, f, o); }
MAP(mmap) MAP(mmap64)
int pthread_create(pthread_t *t, const pthread_attr_t *a, void *(*run)(void *), void *with) {
  REAL(int, pthread_create, pthread_t *, const pthread_attr_t *, void *(*)(void *), void *);
  return due(THREAD, "pthread_create") ? EAGAIN : real(t, a, run, with);
}
static int fails(void) { errno = of == 'i' ? EINTR : EIO; return -1; }
#define CALL(type, name, given, passed) type name given { REAL(type, name, GIVEN given); if (of != 'l' && due(SYSTEM, #name)) return fails(); return real passed; }
#define GIVEN(...) __VA_ARGS__
#define MOVES(name, buffer) ssize_t name(int f, buffer b, size_t n) { REAL(ssize_t, name, int, buffer, size_t); \
  if (n > 0 && due(SYSTEM, #name)) { if (of != 'l') return fails(); n = (n + 1) / 2; } return real(f, b, n); }
#define MOVES_AT(name, buffer) ssize_t name(int f, buffer b, size_t n, off_t o) { REAL(ssize_t, name, int, buffer, size_t, off_t); \
  if (n > 0 && due(SYSTEM, #name)) { if (of != 'l') return fails(); n = (n + 1) / 2; } return real(f, b, n, o); }
MOVES(read, void *)
ssize_t write(int f, const void *b, size_t n) {
  REAL(ssize_t, write, int, const void *, size_t);
  /* Behind the write of a mark, so that the mark is no part of what is between. */
  if (f == 1 && getenv("FAULT_BETWEEN") && n >= 6 && (memcmp(b, "before", 6) == 0 || memcmp(b, "behind", 6) == 0)) {
    __atomic_store_n(&counts, 0, __ATOMIC_SEQ_CST);
    ssize_t done = real(f, b, n);
    __atomic_store_n(&counts, memcmp(b, "before", 6) == 0, __ATOMIC_SEQ_CST);
    return done;
  }
  if (n > 0 && due(SYSTEM, "write")) { if (of != 'l') return fails(); n = (n + 1) / 2; }
  return real(f, b, n);
}
MOVES_AT(pread, void *) MOVES_AT(pread64, void *) MOVES_AT(pwrite, const void *) MOVES_AT(pwrite64, const void *)
CALL(ssize_t, readv, (int f, const struct iovec *v, int n), (f, v, n))
CALL(ssize_t, writev, (int f, const struct iovec *v, int n), (f, v, n))
CALL(int, fsync, (int f), (f))
CALL(int, fdatasync, (int f), (f))
CALL(int, ftruncate, (int f, off_t n), (f, n))
CALL(int, ftruncate64, (int f, off_t n), (f, n))
CALL(off_t, lseek, (int f, off_t n, int from), (f, n, from))
CALL(off_t, lseek64, (int f, off_t n, int from), (f, n, from))
CALL(int, fstat, (int f, struct stat *s), (f, s))
CALL(int, fstat64, (int f, struct stat64 *s), (f, s))
CALL(int, stat, (const char *p, struct stat *s), (p, s))
CALL(int, lstat, (const char *p, struct stat *s), (p, s))
CALL(int, fstatat, (int d, const char *p, struct stat *s, int g), (d, p, s, g))
CALL(int, statx, (int d, const char *p, int g, unsigned m, struct statx *s), (d, p, g, m, s))
CALL(int, access, (const char *p, int m), (p, m))
CALL(int, flock, (int f, int o), (f, o))
CALL(int, rename, (const char *a, const char *b), (a, b))
CALL(int, renameat, (int d, const char *a, int e, const char *b), (d, a, e, b))
CALL(int, unlink, (const char *p), (p))
CALL(int, unlinkat, (int d, const char *p, int g), (d, p, g))
/* A close that fails has closed. */
int close(int f) { REAL(int, close, int); int done = real(f); return of != 'l' && due(SYSTEM, "close") ? fails() : done; }
#define MODE int mode; va_list more; va_start(more, flags); mode = va_arg(more, int); va_end(more); if (of != 'l' && due(SYSTEM, __func__)) return fails();
int open(const char *p, int flags, ...) { REAL(int, open, const char *, int, ...); MODE return real(p, flags, mode); }
int open64(const char *p, int flags, ...) { REAL(int, open64, const char *, int, ...); MODE return real(p, flags, mode); }
int openat(int d, const char *p, int flags, ...) { REAL(int, openat, int, const char *, int, ...); MODE return real(d, p, flags, mode); }
int openat64(int d, const char *p, int flags, ...) { REAL(int, openat64, int, const char *, int, ...); MODE return real(d, p, flags, mode); }
