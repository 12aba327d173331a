/* Stands before the program's requests for memory and refuses one of them; checks/refused_memory builds and preloads it.
 *
 * A request is a call of malloc, calloc, realloc, posix_memalign, aligned_alloc, mmap or pthread_create that returns into the
 * program's own code. The environment tells which one is refused, counted from 1 (REFUSED_REQUEST; 0 for none), whether all
 * behind it are refused too (REFUSED_ON), and the file in which the counts stand however the run ends (REFUSED_COUNTS). */
#define _GNU_SOURCE
#include <dlfcn.h>
#include <errno.h>
#include <fcntl.h>
#include <link.h>
#include <pthread.h>
#include <stdatomic.h>
#include <stdbool.h>
#include <stdint.h>
#include <stdlib.h>
#include <sys/mman.h>
#include <sys/syscall.h>
#include <unistd.h>

/* What is refused: memory, or the start of a thread. */
enum kind { MEMORY, START };

/* The file of counts: requests so far, and how many were refused of each kind. */
struct counts {
  _Atomic uint64_t requests;
  _Atomic uint64_t refused[2];
};

static struct counts *counts;
static uint64_t refused_request;
static bool refused_on;
/* The program's own code: the segments of the first object that the loader names. */
static uintptr_t code_begin = UINTPTR_MAX, code_end;

/* glibc's own names for what is wrapped here: they ask for no memory to be found. */
extern void *__libc_malloc(size_t);
extern void *__libc_calloc(size_t, size_t);
extern void *__libc_realloc(void *, size_t);
extern void *__libc_memalign(size_t, size_t);

static int find_code(struct dl_phdr_info *object, size_t size, void *data) {
  (void)size, (void)data;
  for (int i = 0; i < object->dlpi_phnum; i++) {
    const ElfW(Phdr) *segment = &object->dlpi_phdr[i];
    if (segment->p_type != PT_LOAD || !(segment->p_flags & PF_X)) continue;
    uintptr_t begin = object->dlpi_addr + segment->p_vaddr, end = begin + segment->p_memsz;
    if (begin < code_begin) code_begin = begin;
    if (end > code_end) code_end = end;
  }
  return 1;
}

__attribute__((constructor)) static void start(void) {
  const char *name = getenv("REFUSED_COUNTS"), *number = getenv("REFUSED_REQUEST");
  if (!name || !number) return;
  refused_request = strtoull(number, NULL, 10);
  refused_on = getenv("REFUSED_ON") != NULL;
  dl_iterate_phdr(find_code, NULL);
  int file = open(name, O_RDWR | O_CLOEXEC);
  if (file < 0) return;
  void *place = (void *)syscall(SYS_mmap, NULL, sizeof(struct counts), PROT_READ | PROT_WRITE, MAP_SHARED, file, 0);
  close(file);
  if (place != MAP_FAILED) counts = place;
}

/* Whether the request that returns to `caller` is refused; it is counted where the program made it. */
static bool is_refused(enum kind kind, void *caller) {
  if (!counts || (uintptr_t)caller < code_begin || (uintptr_t)caller >= code_end) return false;
  uint64_t number = atomic_fetch_add(&counts->requests, 1) + 1;
  if (refused_request == 0 || !(number == refused_request || (refused_on && number > refused_request))) return false;
  atomic_fetch_add(&counts->refused[kind], 1);
  if (kind == MEMORY) errno = ENOMEM;
  return true;
}

#define REFUSED(kind) is_refused(kind, __builtin_return_address(0))

void *malloc(size_t size) { return REFUSED(MEMORY) ? NULL : __libc_malloc(size); }

void *calloc(size_t count, size_t size) { return REFUSED(MEMORY) ? NULL : __libc_calloc(count, size); }

void *realloc(void *old, size_t size) { return REFUSED(MEMORY) ? NULL : __libc_realloc(old, size); }

void *aligned_alloc(size_t alignment, size_t size) { return REFUSED(MEMORY) ? NULL : __libc_memalign(alignment, size); }

int posix_memalign(void **place, size_t alignment, size_t size) {
  void *made = REFUSED(MEMORY) ? NULL : __libc_memalign(alignment, size);
  if (!made) return ENOMEM;
  *place = made;
  return 0;
}

void *mmap(void *place, size_t size, int protection, int flags, int file, off_t offset) {
  if (REFUSED(MEMORY)) return MAP_FAILED;
  return (void *)syscall(SYS_mmap, place, size, protection, flags, file, offset);
}

int pthread_create(pthread_t *thread, const pthread_attr_t *attributes, void *(*body)(void *), void *argument) {
  if (REFUSED(START)) return EAGAIN;
  int (*create)(pthread_t *, const pthread_attr_t *, void *(*)(void *), void *);
  *(void **)&create = dlsym(RTLD_NEXT, "pthread_create");
  return create(thread, attributes, body, argument);
}
