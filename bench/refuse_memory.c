// Refuses allocations and threads of a program: preloaded by bench/refuse_memory.sh.
//
// The program's own calls of malloc, calloc, realloc, posix_memalign and aligned_alloc are counted, and those
// of pthread_create; the calls that the C library makes for itself are not. By the environment the call of a
// number is refused (REFUSE_ALLOC, REFUSE_THREAD), or all allocations from a number on (REFUSE_FROM).
// REFUSE_COUNTS names a file of three words: allocations, threads, and how many of both were refused.
#define _GNU_SOURCE
#include <dlfcn.h>
#include <errno.h>
#include <fcntl.h>
#include <link.h>
#include <pthread.h>
#include <stdatomic.h>
#include <stdint.h>
#include <stdlib.h>
#include <sys/mman.h>
#include <unistd.h>

extern void *__libc_malloc(size_t);
extern void *__libc_calloc(size_t, size_t);
extern void *__libc_realloc(void *, size_t);
extern void *__libc_memalign(size_t, size_t);

static atomic_ulong unseen[3];
static atomic_ulong *counts = unseen;
static unsigned long alloc_number, thread_number, first_number;
static uintptr_t low = 1, high = 0;
static int (*start_thread)(pthread_t *, const pthread_attr_t *, void *(*)(void *), void *);

static unsigned long number_of(const char *name) {
  const char *text = getenv(name);
  return text ? strtoul(text, NULL, 10) : 0;
}

// The first object is the program.
static int find_program(struct dl_phdr_info *info, size_t size, void *data) {
  (void)size, (void)data;
  for (int i = 0; i < info->dlpi_phnum; i++) {
    const ElfW(Phdr) *it = &info->dlpi_phdr[i];
    if (it->p_type == PT_LOAD && (it->p_flags & PF_X)) {
      low = info->dlpi_addr + it->p_vaddr;
      high = low + it->p_memsz;
    }
  }
  return 1;
}

__attribute__((constructor)) static void begin(void) {
  alloc_number = number_of("REFUSE_ALLOC");
  thread_number = number_of("REFUSE_THREAD");
  first_number = number_of("REFUSE_FROM");
  *(void **)&start_thread = dlsym(RTLD_NEXT, "pthread_create");
  const char *path = getenv("REFUSE_COUNTS");
  int file = path ? open(path, O_RDWR) : -1;
  if (file >= 0) {
    void *it = mmap(NULL, sizeof unseen, PROT_READ | PROT_WRITE, MAP_SHARED, file, 0);
    if (it != MAP_FAILED) counts = it;
    close(file);
  }
  dl_iterate_phdr(find_program, NULL);
}

static int is_refused(void *caller, int which, unsigned long number, unsigned long from) {
  if ((uintptr_t)caller < low || (uintptr_t)caller >= high) return 0;
  unsigned long made = atomic_fetch_add(&counts[which], 1) + 1;
  if (made != number && (!from || made < from)) return 0;
  atomic_fetch_add(&counts[2], 1);
  return 1;
}

#define IS_REFUSED is_refused(__builtin_return_address(0), 0, alloc_number, first_number)

void *malloc(size_t size) {
  if (IS_REFUSED) return errno = ENOMEM, NULL;
  return __libc_malloc(size);
}

void *calloc(size_t count, size_t size) {
  if (IS_REFUSED) return errno = ENOMEM, NULL;
  return __libc_calloc(count, size);
}

void *realloc(void *old, size_t size) {
  if (IS_REFUSED) return errno = ENOMEM, NULL;
  return __libc_realloc(old, size);
}

void *aligned_alloc(size_t align, size_t size) {
  if (IS_REFUSED) return errno = ENOMEM, NULL;
  return __libc_memalign(align, size);
}

int posix_memalign(void **made, size_t align, size_t size) {
  if (IS_REFUSED) return ENOMEM;
  void *it = __libc_memalign(align, size);
  if (!it) return ENOMEM;
  *made = it;
  return 0;
}

int pthread_create(pthread_t *thread, const pthread_attr_t *how, void *(*run)(void *), void *with) {
  if (is_refused(__builtin_return_address(0), 1, thread_number, 0)) return EAGAIN;
  return start_thread(thread, how, run, with);
}
