/* Denies a program memory: the call number DENY_AT for it, counted from 1, and with DENY_ALL also each one behind it.
   It is loaded in front of the C library (gcc -shared -fPIC, LD_PRELOAD), counts in the process that is started alone,
   and tells in the file DENY_TALLY, of 16 bytes, how many calls there were and how many of them were denied. */
#include <errno.h>
#include <fcntl.h>
#include <stdatomic.h>
#include <stdlib.h>
#include <sys/mman.h>
#include <unistd.h>

extern void *__libc_malloc(size_t size);
extern void *__libc_calloc(size_t count, size_t size);
extern void *__libc_realloc(void *old, size_t size);
extern void *__libc_memalign(size_t alignment, size_t size);

struct tally {
  atomic_long calls, denied;
};

static struct tally *tally;
static long denied_at;
static int denied_behind;

/* The programs that the program starts do not inherit what is set for it. */
__attribute__((constructor)) static void begin(void) {
  const char *path = getenv("DENY_TALLY"), *at = getenv("DENY_AT");
  int file = path ? open(path, O_RDWR | O_CLOEXEC) : -1;
  if (file >= 0) {
    void *page = mmap(NULL, sizeof *tally, PROT_READ | PROT_WRITE, MAP_SHARED, file, 0);
    close(file);
    denied_at = at ? atol(at) : 0;
    denied_behind = getenv("DENY_ALL") != NULL;
    if (page != MAP_FAILED) tally = page;
  }
  unsetenv("DENY_TALLY");
  unsetenv("DENY_AT");
  unsetenv("DENY_ALL");
  unsetenv("LD_PRELOAD");
}

static int is_denied(void) {
  if (!tally) return 0;
  long call = ++tally->calls;
  if (!denied_at || (denied_behind ? call < denied_at : call != denied_at)) return 0;
  tally->denied++;
  errno = ENOMEM;
  return 1;
}

void *malloc(size_t size) { return is_denied() ? NULL : __libc_malloc(size); }

void *calloc(size_t count, size_t size) { return is_denied() ? NULL : __libc_calloc(count, size); }

void *realloc(void *old, size_t size) { return is_denied() ? NULL : __libc_realloc(old, size); }

void *memalign(size_t alignment, size_t size) { return is_denied() ? NULL : __libc_memalign(alignment, size); }

void *aligned_alloc(size_t alignment, size_t size) { return memalign(alignment, size); }

int posix_memalign(void **place, size_t alignment, size_t size) {
  void *got = memalign(alignment, size);
  if (!got) return ENOMEM;
  *place = got;
  return 0;
}
