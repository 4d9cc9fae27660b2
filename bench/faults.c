/* A library that is loaded before a program's own (LD_PRELOAD) and lets calls of it fail. `bench/faults` builds and drives it.
 *
 * FAULT="KIND FIRST LAST ERROR"  of the program's calls of KIND (growth, open, read, write, tell), those numbered FIRST to LAST fail
 *                                with the error number ERROR; with 0 a write takes nothing instead. Writes are those to standard
 *                                output, and tells those to standard error.
 * SHORT="READ WRITE"             a read brings at most READ bytes, and a write, to standard error too, takes at most WRITE of them
 * ROOM="BYTES"                   the program has an address space of BYTES
 * TOLD="DESCRIPTOR"              as the program ends, a line of figures is written there: see `tell`
 */
#define _GNU_SOURCE
#include <errno.h>
#include <fcntl.h>
#include <stdarg.h>
#include <stdio.h>
#include <stdlib.h>
#include <string.h>
#include <sys/resource.h>
#include <sys/syscall.h>
#include <time.h>
#include <unistd.h>

void *__libc_malloc(size_t), *__libc_calloc(size_t, size_t), *__libc_realloc(void *, size_t);

enum kind { GROWTH, OPEN, READ, WRITE, TELL, KINDS };
static const char *const names[KINDS] = { "growth", "open", "read", "write", "tell" };
static long calls[KINDS];
static long failing = -1, first, last, error;  /* no kind of call fails before the program begins */
static long failed, brought;                   /* how many calls failed; the bytes read since a file was last opened */
static size_t longest_read = -1, longest_write = -1;

static size_t least(size_t one, size_t other) { return one < other ? one : other; }

/* Counts a call, and tells whether it is one of those that fail. */
static int fails(enum kind kind) {
  long number = ++calls[kind];
  if (failing != kind || number < first || number > last) return 0;
  failed++;
  errno = error;
  return 1;
}

void *malloc(size_t size) { return fails(GROWTH) ? NULL : __libc_malloc(size); }
void *calloc(size_t count, size_t size) { return fails(GROWTH) ? NULL : __libc_calloc(count, size); }
void *realloc(void *old, size_t size) { return fails(GROWTH) ? NULL : __libc_realloc(old, size); }

int open(const char *path, int flags, ...) {
  va_list rest;
  va_start(rest, flags);
  int mode = flags & O_CREAT ? va_arg(rest, int) : 0;
  va_end(rest);
  brought = 0;
  return fails(OPEN) ? -1 : syscall(SYS_openat, AT_FDCWD, path, flags, mode);
}

ssize_t read(int from, void *bytes, size_t count) {
  if (fails(READ)) return -1;
  ssize_t came = syscall(SYS_read, from, bytes, least(count, longest_read));
  if (came > 0) brought += came;
  return came;
}

ssize_t write(int to, const void *bytes, size_t count) {
  if (to == STDOUT_FILENO && fails(WRITE) || to == STDERR_FILENO && fails(TELL)) return error ? -1 : 0;
  return syscall(SYS_write, to, bytes, least(count, longest_write));
}

ssize_t __write(int to, const void *bytes, size_t count) { return write(to, bytes, count); }

static const char *given(const char *name) { const char *value = getenv(name); return value ? value : ""; }

__attribute__((constructor)) static void begin(void) {
  char kind[8] = "";
  if (sscanf(given("FAULT"), "%7s %ld %ld %ld", kind, &first, &last, &error) == 4)
    for (int each = 0; each < KINDS; each++) if (!strcmp(kind, names[each])) failing = each;
  sscanf(given("SHORT"), "%zu %zu", &longest_read, &longest_write);
  struct rlimit room;
  if (sscanf(given("ROOM"), "%lu", &room.rlim_cur) == 1) { room.rlim_max = room.rlim_cur; setrlimit(RLIMIT_AS, &room); }
  memset(calls, 0, sizeof calls);
}

/* The most memory that the program has held, in KB. */
static long peak(void) {
  static char status[8192];
  int file = syscall(SYS_openat, AT_FDCWD, "/proc/self/status", O_RDONLY);
  if (file < 0 || syscall(SYS_read, file, status, sizeof status - 1) <= 0) return -1;
  const char *line = strstr(status, "VmHWM:");
  return line ? atol(line + strlen("VmHWM:")) : -1;
}

__attribute__((destructor)) static void tell(void) {
  char line[200];
  int length = snprintf(line, sizeof line, "%ld %ld %ld %ld %ld %ld %ld %ld %ld\n", failed, calls[GROWTH], calls[OPEN], calls[READ],
                        calls[WRITE], calls[TELL], brought, peak(), (long)(clock() * (1000.0 / CLOCKS_PER_SEC)));
  if (*given("TOLD")) syscall(SYS_write, atoi(given("TOLD")), line, length);
}
