/* Refuses and counts requests for memory. It is loaded before a program by LD_PRELOAD, and needs the GNU C library.
 *
 * Where the environment has REFUSE_ONCE=n, the nth request is refused, and where it has REFUSE_FROM=n, so are all after
 * it. Requests count from the program's start on, or where the environment has REFUSE_AFTER_OUTPUT, from the first byte
 * on that the program writes to standard output. Where it has REFUSE_REPORT=fd, a line is written to that file
 * descriptor at the end: how many requests counted, how many were refused, and how many bytes were asked for at a time,
 * with those that were held. */

#include <errno.h>
#include <stdint.h>
#include <stdio.h>
#include <stdlib.h>
#include <string.h>
#include <unistd.h>

extern void *__libc_malloc(size_t);
extern void *__libc_realloc(void *, size_t);
extern void *__libc_memalign(size_t, size_t);
extern void __libc_free(void *);
extern ssize_t __write(int, const void *, size_t);

static uint64_t first, last; /* the requests that are refused, by their numbers from 1 */
static uint64_t requests, refusals;
static int waits; /* whether no request counts yet */
static size_t held, most;

/* Whether a request is granted, for a block in the place of one of `before` bytes. */
static int grants(size_t size, size_t before) {
  size_t bytes = size < PTRDIFF_MAX ? size : PTRDIFF_MAX;
  if (held - before + bytes > most) most = held - before + bytes;
  if (!waits) requests++;
  if (!waits && first <= requests && requests <= last) {
    refusals++;
  } else if (size <= PTRDIFF_MAX / 2) {
    return 1;
  }
  errno = ENOMEM;
  return 0;
}

/* Before each block stands how far it is from where the C library's block begins, and how many bytes were requested. */
struct head {
  size_t distance, size;
};

static struct head *head_of(void *block) { return (struct head *)block - 1; }

/* The block that is handed out of a block of the C library, which may be null. */
static void *taken(char *whole, size_t distance, size_t size) {
  if (whole == NULL) return NULL;
  void *block = whole + distance;
  *head_of(block) = (struct head){distance, size};
  held += size;
  return block;
}

void *malloc(size_t size) {
  if (!grants(size, 0)) return NULL;
  return taken(__libc_malloc(sizeof(struct head) + size), sizeof(struct head), size);
}

void *calloc(size_t count, size_t size) {
  size_t whole;
  if (__builtin_mul_overflow(count, size, &whole)) whole = SIZE_MAX;
  void *block = malloc(whole);
  return block == NULL ? NULL : memset(block, 0, whole);
}

void free(void *block) {
  if (block == NULL) return;
  struct head *head = head_of(block);
  held -= head->size;
  __libc_free((char *)block - head->distance);
}

void *realloc(void *block, size_t size) {
  if (block == NULL) return malloc(size);
  struct head before = *head_of(block);
  if (!grants(size, before.size)) return NULL;
  /* An aligned block is not moved: nothing here asks for that. */
  if (before.distance != sizeof(struct head)) {
    errno = ENOMEM;
    return NULL;
  }
  char *moved = __libc_realloc(head_of(block), sizeof(struct head) + size);
  if (moved == NULL) return NULL;
  held -= before.size;
  return taken(moved, sizeof(struct head), size);
}

static void *aligned(size_t alignment, size_t size) {
  size_t distance = alignment < sizeof(struct head) ? sizeof(struct head) : alignment;
  if (!grants(size, 0)) return NULL;
  return taken(__libc_memalign(alignment, distance + size), distance, size);
}

void *memalign(size_t alignment, size_t size) { return aligned(alignment, size); }

void *aligned_alloc(size_t alignment, size_t size) { return aligned(alignment, size); }

int posix_memalign(void **block, size_t alignment, size_t size) {
  *block = aligned(alignment, size);
  return *block == NULL ? ENOMEM : 0;
}

ssize_t write(int descriptor, const void *bytes, size_t size) {
  if (descriptor == STDOUT_FILENO) waits = 0;
  return __write(descriptor, bytes, size);
}

__attribute__((constructor)) static void begin(void) {
  waits = getenv("REFUSE_AFTER_OUTPUT") != NULL;
  const char *once = getenv("REFUSE_ONCE"), *from = getenv("REFUSE_FROM");
  if (once != NULL) {
    first = last = strtoull(once, NULL, 10);
  } else if (from != NULL) {
    first = strtoull(from, NULL, 10);
    last = UINT64_MAX;
  }
}

__attribute__((destructor)) static void report(void) {
  const char *descriptor = getenv("REFUSE_REPORT");
  if (descriptor == NULL) return;
  char line[99];
  int length = snprintf(line, sizeof line, "%ju %ju %zu\n", (uintmax_t)requests, (uintmax_t)refusals, most);
  if (write(atoi(descriptor), line, (size_t)length) != length) _exit(70);
}
