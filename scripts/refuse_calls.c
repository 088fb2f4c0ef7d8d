// Refuses calls of a run. The variable REFUSED has the number of one allocation; FAILED has a call and a number, as
// `fsync 2`: that one fails, and no other, with the error of the system whose number follows (4, EINTR, in `fsync 2 4`),
// or else with EIO; CUT has a call and two numbers, as `pwrite 2 5`: that one reads or writes so many bytes at most;
// UNSYNCED has a number: each sync from that one on; UNLINKED, where it is there, means each second
// name of a file, as file systems do that have none. With OVERTAKEN each call that would give a
// file its second name finds that another run has made a file of that name just before, which holds "theirs". At the end of the run it writes how many
// allocations there were onto the file that COUNTED names, and how many of the calls below onto the one that CALLS
// names. Onto the one that TRACED names it writes each sync, link, unlink and rename as it comes, with its path.
// Preloaded by refuse_memory.sh, refuse_test_memory.sh, reliability.sh and test_program.sh.
#define _GNU_SOURCE
#include <dlfcn.h>
#include <errno.h>
#include <stdio.h>
#include <stdlib.h>
#include <string.h>
#include <sys/file.h>
#include <sys/types.h>
#include <unistd.h>

enum { PREAD, PWRITE, WRITE, FSYNC, FLOCK, LINK, UNLINK, RENAME, KINDS };

static const char *const names[KINDS] = {"pread", "pwrite", "write", "fsync", "flock", "link", "unlink", "rename"};
static long called[KINDS];
static long allocations;
static long refused;
static int counts;
// A call that a variable names: its kind, its number, and the number after that.
struct call {
  int kind;
  long number;
  long rest;
};
static struct call failing;
static struct call cut;
static void *(*given_malloc)(size_t);
static void *(*given_realloc)(void *, size_t);
static int (*given_memalign)(void **, size_t, size_t);

static void *given(const char *name) { return dlsym(RTLD_NEXT, name); }

// The call that a variable names, or none.
static struct call named(const char *variable, long rest) {
  const char *text = getenv(variable);
  struct call call = {-1, 0, rest};
  for (int kind = 0; text && kind < KINDS; kind++) {
    size_t length = strlen(names[kind]);
    if (strncmp(text, names[kind], length) || text[length] != ' ') continue;
    char *after;
    call.kind = kind;
    call.number = strtol(text + length, &after, 10);
    if (*after) call.rest = atol(after);
  }
  return call;
}

__attribute__((constructor)) static void begin(void) {
  const char *number = getenv("REFUSED");
  refused = number ? atol(number) : 0;
  failing = named("FAILED", EIO);
  cut = named("CUT", 0);
  given_malloc = given("malloc");
  given_realloc = given("realloc");
  given_memalign = given("posix_memalign");
  counts = 1;
}

__attribute__((destructor)) static void end(void) {
  const char *path = getenv("COUNTED");
  const char *calls = getenv("CALLS");
  counts = 0;
  FILE *file = path ? fopen(path, "w") : NULL;
  if (file) {
    fprintf(file, "%ld\n", allocations);
    fclose(file);
  }
  file = calls ? fopen(calls, "w") : NULL;
  if (!file) return;
  for (int kind = 0; kind < KINDS; kind++) fprintf(file, "%s %ld\n", names[kind], called[kind]);
  fclose(file);
}

static int is_refused(void) {
  if (!counts || ++allocations != refused) return 0;
  errno = ENOMEM;
  return 1;
}

void *malloc(size_t size) { return is_refused() ? NULL : given_malloc(size); }

void *realloc(void *old, size_t size) { return is_refused() ? NULL : given_realloc(old, size); }

int posix_memalign(void **out, size_t align, size_t size) {
  return is_refused() ? ENOMEM : given_memalign(out, align, size);
}

// Writes a call and its path onto the file that TRACED names.
static void trace(int kind, const char *path) {
  const char *traced = getenv("TRACED");
  if (!counts || !traced) return;
  counts = 0;
  FILE *file = fopen(traced, "a");
  if (file) {
    fprintf(file, "%s %s\n", names[kind], path);
    fclose(file);
  }
  counts = 1;
}

// The same of an open file.
static void trace_file(int kind, int file) {
  char link[64], path[4096];
  snprintf(link, sizeof link, "/proc/self/fd/%d", file);
  ssize_t size = readlink(link, path, sizeof path - 1);
  path[size < 0 ? 0 : size] = 0;
  trace(kind, path);
}

// Counts a call, and tells whether it is the one that fails.
static int fails(int kind) {
  if (!counts) return 0;
  called[kind]++;
  if (kind != failing.kind || called[kind] != failing.number) return 0;
  errno = failing.rest;
  return 1;
}

// How many of so many bytes the call that was counted last reads or writes at most.
static size_t at_most(int kind, size_t size) {
  if (!counts || kind != cut.kind || called[kind] != cut.number) return size;
  return size < (size_t)cut.rest ? size : (size_t)cut.rest;
}

ssize_t pread(int file, void *room, size_t size, off_t place) {
  if (fails(PREAD)) return -1;
  return ((ssize_t (*)(int, void *, size_t, off_t))given("pread"))(file, room, at_most(PREAD, size), place);
}

ssize_t pread64(int file, void *room, size_t size, off_t place) { return pread(file, room, size, place); }

ssize_t pwrite(int file, const void *piece, size_t size, off_t place) {
  if (fails(PWRITE)) return -1;
  return ((ssize_t (*)(int, const void *, size_t, off_t))given("pwrite"))(file, piece, at_most(PWRITE, size), place);
}

ssize_t pwrite64(int file, const void *piece, size_t size, off_t place) { return pwrite(file, piece, size, place); }

// Standard output and standard error aren't counted.
ssize_t write(int file, const void *piece, size_t size) {
  if (file > 2 && fails(WRITE)) return -1;
  return ((ssize_t (*)(int, const void *, size_t))given("write"))(file, piece, file > 2 ? at_most(WRITE, size) : size);
}

int fsync(int file) {
  const char *first = getenv("UNSYNCED");
  trace_file(FSYNC, file);
  if (fails(FSYNC)) return -1;
  if (!first || called[FSYNC] < atol(first)) return ((int (*)(int))given("fsync"))(file);
  errno = EIO;
  return -1;
}

int flock(int file, int how) {
  if (fails(FLOCK)) return -1;
  return ((int (*)(int, int))given("flock"))(file, how);
}

// Makes the file that another run would have made.
static void overtake(const char *path) {
  FILE *file = getenv("OVERTAKEN") ? fopen(path, "w") : NULL;
  if (!file) return;
  fprintf(file, "theirs\n");
  fclose(file);
}

int link(const char *old, const char *new) {
  trace(LINK, new);
  overtake(new);
  if (fails(LINK)) return -1;
  if (!getenv("UNLINKED")) return ((int (*)(const char *, const char *))given("link"))(old, new);
  errno = EPERM;
  return -1;
}

int linkat(int at, const char *old, int to, const char *new, int flags) {
  if (fails(LINK)) return -1;
  return ((int (*)(int, const char *, int, const char *, int))given("linkat"))(at, old, to, new, flags);
}

int unlink(const char *path) {
  trace(UNLINK, path);
  return fails(UNLINK) ? -1 : ((int (*)(const char *))given("unlink"))(path);
}

int unlinkat(int at, const char *path, int flags) {
  return fails(UNLINK) ? -1 : ((int (*)(int, const char *, int))given("unlinkat"))(at, path, flags);
}

int rename(const char *old, const char *new) {
  trace(RENAME, new);
  return fails(RENAME) ? -1 : ((int (*)(const char *, const char *))given("rename"))(old, new);
}
