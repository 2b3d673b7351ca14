/* Loaded before a program, it counts what the program allocates and the threads that it starts, and refuses some of them.
   It counts from main's first instruction on: what the C library takes before that is always given.

   REFUSE_TALLY=FILE     holds the four numbers of a tally, 8 bytes each, at any moment up to the program's last
   REFUSE_ONE=n          refuses the allocation of this number, from 1
   REFUSE_FROM=n         refuses the allocations from this number on
   REFUSE_THREADS=n      refuses the thread starts from this number on

   An allocation is a call of malloc, calloc, realloc, reallocarray, posix_memalign, aligned_alloc or memalign, by the program or
   by the C library for it, as in pthread_create. */
#define _GNU_SOURCE
#include <dlfcn.h>
#include <errno.h>
#include <fcntl.h>
#include <pthread.h>
#include <stdatomic.h>
#include <stdint.h>
#include <stdlib.h>
#include <sys/mman.h>
#include <unistd.h>

extern void *__libc_malloc(size_t);
extern void *__libc_calloc(size_t, size_t);
extern void *__libc_realloc(void *, size_t);
extern void *__libc_memalign(size_t, size_t);

struct tally {
  _Atomic uint64_t allocations; /* asked for */
  _Atomic uint64_t refused;     /* of these, refused */
  _Atomic uint64_t starts;      /* threads asked for */
  _Atomic uint64_t started;     /* of these, started */
};

static struct tally unseen;
static struct tally *tally = &unseen;
static uint64_t one, from, threads;
static atomic_bool in_main;

static uint64_t number(const char *name) {
  const char *text = getenv(name);
  return text ? strtoull(text, NULL, 10) : 0;
}

static void open_tally(void) {
  const char *path = getenv("REFUSE_TALLY");
  int file = path ? open(path, O_RDWR | O_CREAT | O_CLOEXEC, 0600) : -1;
  if (file < 0) return;
  if (ftruncate(file, sizeof *tally) == 0) {
    void *at = mmap(NULL, sizeof *tally, PROT_READ | PROT_WRITE, MAP_SHARED, file, 0);
    if (at != MAP_FAILED) tally = at;
  }
  close(file);
}

static int is_refused(void) {
  if (!atomic_load(&in_main)) return 0;
  uint64_t n = atomic_fetch_add(&tally->allocations, 1) + 1;
  if (n != one && (from == 0 || n < from)) return 0;
  atomic_fetch_add(&tally->refused, 1);
  errno = ENOMEM;
  return 1;
}

void *malloc(size_t size) { return is_refused() ? NULL : __libc_malloc(size); }

void *calloc(size_t count, size_t size) { return is_refused() ? NULL : __libc_calloc(count, size); }

void *realloc(void *old, size_t size) { return is_refused() ? NULL : __libc_realloc(old, size); }

void *reallocarray(void *old, size_t count, size_t size) {
  size_t bytes;
  if (is_refused()) return NULL;
  if (__builtin_mul_overflow(count, size, &bytes)) {
    errno = ENOMEM;
    return NULL;
  }
  return __libc_realloc(old, bytes);
}

void *memalign(size_t align, size_t size) { return is_refused() ? NULL : __libc_memalign(align, size); }

void *aligned_alloc(size_t align, size_t size) { return memalign(align, size); }

int posix_memalign(void **at, size_t align, size_t size) {
  if (align < sizeof(void *) || (align & (align - 1)) != 0) return EINVAL;
  void *got = memalign(align, size);
  if (!got) return ENOMEM;
  *at = got;
  return 0;
}

int pthread_create(pthread_t *thread, const pthread_attr_t *how, void *(*work)(void *), void *with) {
  static int (*create)(pthread_t *, const pthread_attr_t *, void *(*)(void *), void *);
  if (!create) create = dlsym(RTLD_NEXT, "pthread_create");
  uint64_t n = atomic_fetch_add(&tally->starts, 1) + 1;
  if (threads != 0 && n >= threads) return EAGAIN;
  int error = create(thread, how, work, with);
  if (error == 0) atomic_fetch_add(&tally->started, 1);
  return error;
}

static int (*program)(int, char **, char **);

static int counted(int count, char **words, char **names) {
  atomic_store(&in_main, 1);
  return program(count, words, names);
}

int __libc_start_main(int (*main)(int, char **, char **), int count, char **words, void (*init)(void), void (*fini)(void),
                      void (*loader)(void), void *stack) {
  int (*start)(int (*)(int, char **, char **), int, char **, void (*)(void), void (*)(void), void (*)(void), void *) =
      dlsym(RTLD_NEXT, "__libc_start_main");
  one = number("REFUSE_ONE");
  from = number("REFUSE_FROM");
  threads = number("REFUSE_THREADS");
  open_tally();
  program = main;
  return start(counted, count, words, init, fini, loader, stack);
}
