// Preloaded into a test or a program of one thread. At each allocation, which the kit's allocator asks of malloc or
// realloc, the process splits: a child goes on as if the allocation had failed, and after its end the process itself
// goes on with the memory. What the child writes from then on goes to the file whose descriptor is in REPORT, and
// after it, between two zero bytes, its status, or its signal as a negative number. At its own end the process writes
// there how many bytes it has asked for, and how many blocks of memory it has not given back.
#include <stdio.h>
#include <stdlib.h>
#include <sys/wait.h>
#include <unistd.h>

extern void *__libc_malloc(size_t), *__libc_realloc(void *, size_t), __libc_free(void *);

enum { SECONDS = 60 };

// Below zero no allocation fails: before the program begins, and in a child.
static int report = -1;

// What was asked for since the program began, and the blocks that are not given back.
static unsigned long bytes, blocks;

__attribute__((constructor)) static void begin(void) {
  const char *descriptor = getenv("REPORT");
  report = descriptor ? atoi(descriptor) : -1;
}

static void go_on_without(void) {
  dup2(report, 1);
  dup2(report, 2);
  report = -1;
  alarm(SECONDS);
}

// Nothing here allocates, as dprintf would.
static void tell(const char *text, int length) {
  if (write(report, text, length) != length) abort();
}

static void wait_for(pid_t child) {
  int status;
  if (child < 0 || waitpid(child, &status, 0) < 0) abort();
  char text[16];
  int end = WIFEXITED(status) ? WEXITSTATUS(status) : -WTERMSIG(status);
  tell(text, snprintf(text, sizeof text, "%c%d%c", 0, end, 0));
}

__attribute__((destructor)) static void end(void) {
  if (report < 0) return;
  char text[48];
  tell(text, snprintf(text, sizeof text, "%lu %lu", bytes, blocks));
}

static int is_refused(void) {
  if (report < 0) return 0;
  off_t place = lseek(0, 0, SEEK_CUR);
  pid_t child = fork();
  if (child == 0) {
    go_on_without();
    return 1;
  }
  wait_for(child);
  // What the child has read is read again.
  lseek(0, place, SEEK_SET);
  return 0;
}

// Counts a block of this size, which replaces an older one or none.
static void *counted(void *block, const void *old, size_t size) {
  if (report < 0 || !block) return block;
  bytes += size;
  blocks += !old;
  return block;
}

void *malloc(size_t size) { return is_refused() ? NULL : counted(__libc_malloc(size), NULL, size); }

void *realloc(void *old, size_t size) { return is_refused() ? NULL : counted(__libc_realloc(old, size), old, size); }

void free(void *block) {
  if (report >= 0 && block) blocks -= 1;
  __libc_free(block);
}
